//! What examples/log_sheet.c owes: its lines, attributes and model built here a second time, trained and labelled by the Rust
//! text. Nothing is shared with the C program but what both print.

use std::fmt::Write;

use crate::judge::{self, Decoded};
use crate::refusals::Refusal;
use crate::tables::{Counts, Data, Line, Model, Rule, STATE, Settings, TRANSITION, Trained};

pub const COLUMNS: [&str; 5] = ["date", "hour", "zone mark", "plate current", "remark"];

/// The lines that are known, with the columns of their words.
pub const KNOWN: [(&str, &[u32]); 7] = [
    ("14.11.2026 0700 Z 3.42 normal", &[0, 1, 2, 3, 4]),
    ("14.11.2026 0800 Z 3.40 drive low", &[0, 1, 2, 3, 4, 4]),
    ("14.11.2026 0900 Z 3.4 normal", &[0, 1, 2, 3, 4]),
    ("14.11.2026 1000 3.38 rain", &[0, 1, 3, 4]),
    ("14.11.2026 1100 A 3.41 tube B replaced", &[0, 1, 2, 3, 4, 4, 4]),
    ("1.12.2026 0000 A 3.39", &[0, 1, 2, 3]),
    ("1.12.2026 0100 A off air", &[0, 1, 2, 4, 4]),
];

pub const UNKNOWN: &str = "2.12.2026 1900 B 3.27 filament A dim";

/// Ids: digits, dots, a capital letter, then one for each length from 1 to 10 or more.
const IDS: u32 = 13;

/// An attribute of a word: its id and its value.
type Attribute = (u32, f64);

fn attributes(word: &str) -> Vec<Attribute> {
    let digits = word.bytes().filter(u8::is_ascii_digit).count();
    let dots = word.matches('.').count();
    let capital = word.starts_with(|first: char| first.is_ascii_uppercase());
    let mut seen = Vec::new();
    seen.extend((digits > 0).then(|| (0, digits as f64 / word.len() as f64)));
    seen.extend((dots > 0).then_some((1, dots as f64)));
    seen.extend(capital.then_some((2, 1.0)));
    seen.push((2 + word.len().min(10) as u32, 1.0));
    seen
}

fn words(line: &str) -> Vec<Vec<Attribute>> {
    line.split_whitespace().map(attributes).collect()
}

/// n + 1 starts of lists of these lengths.
fn starts(lengths: impl Iterator<Item = usize>) -> Vec<u32> {
    let mut starts = vec![0];
    let mut end = 0;
    for length in lengths {
        end += length as u32;
        starts.push(end);
    }
    starts
}

/// Each attribute lists a State feature to each column, each column a Transition feature to each.
pub fn model() -> Model {
    let labels = COLUMNS.len() as u32;
    let mut features: Vec<(u8, u32, u32)> = Vec::new();
    let mut lists = |count: u32, kind: u8| -> Vec<Vec<u32>> {
        let list = |of: u32| {
            let first = features.len() as u32;
            features.extend((0..labels).map(|to| (kind, if kind == STATE { 0 } else { of }, to)));
            (first..first + labels).collect()
        };
        (0..count).map(list).collect()
    };
    let (attributes, columns) = (lists(IDS, STATE), lists(labels, TRANSITION));
    let (attribute_entries, label_entries) = (attributes.concat(), columns.concat());
    Model {
        labels,
        counts: Counts {
            features: features.len() as u32,
            attribute_lists: IDS,
            label_lists: labels,
            attribute_entries: attribute_entries.len() as u32,
            label_entries: label_entries.len() as u32,
        },
        kinds: features.iter().map(|feature| feature.0).collect(),
        sources: features.iter().map(|feature| feature.1).collect(),
        destinations: features.iter().map(|feature| feature.2).collect(),
        weights: vec![0.0; features.len()],
        attribute_starts: starts(attributes.iter().map(Vec::len)),
        attribute_entries,
        label_starts: starts(columns.iter().map(Vec::len)),
        label_entries,
    }
}

pub fn data() -> Data {
    let lines: Vec<Vec<Vec<Attribute>>> = KNOWN.iter().map(|(text, _)| words(text)).collect();
    let words = lines.concat();
    let attributes = words.concat();
    Data {
        instances: lines.len() as u32,
        words: words.len() as u32,
        attributes: attributes.len() as u32,
        word_starts: starts(lines.iter().map(Vec::len)),
        attribute_starts: starts(words.iter().map(Vec::len)),
        ids: attributes.iter().map(|attribute| attribute.0).collect(),
        values: attributes.iter().map(|attribute| attribute.1).collect(),
        references: KNOWN.iter().flat_map(|(_, columns)| columns.iter().copied()).collect(),
        weights: vec![1.0; lines.len()],
    }
}

pub fn line(text: &str) -> Line {
    let words = words(text);
    let attributes = words.concat();
    Line {
        words: words.len() as u32,
        attributes: attributes.len() as u32,
        starts: starts(words.iter().map(Vec::len)),
        ids: attributes.iter().map(|attribute| attribute.0).collect(),
        values: attributes.iter().map(|attribute| attribute.1).collect(),
    }
}

pub const SETTINGS: Settings = Settings { rule: Rule::Perceptron, epochs: 20, epsilon: 0.0, seed: 1 };

/// Training on the lines that are known, and the model with its weights.
pub fn trained() -> (Trained, Model) {
    let trained = judge::train(&model(), &data(), &SETTINGS, &[]).expect("it is accepted");
    let model = Model { weights: trained.weights.clone(), ..model() };
    (trained, model)
}

/// The line with the first value of its fourth word damaged.
pub fn damaged() -> Line {
    let mut line = line(UNKNOWN);
    let place = line.starts[3] as usize;
    line.values[place] = f64::NAN;
    line
}

/// All that the program prints.
pub fn text() -> String {
    let (Trained { epochs, visits, updates, .. }, model) = trained();
    let Decoded { path, sum, lead } = judge::decode_line(&model, &line(UNKNOWN), &[]).expect("it is accepted");
    let lead = lead.expect("five columns, finite scores");
    let refused = judge::decode_line(&model, &damaged(), &[]);
    let Refusal { number, place } = refused.expect_err("a value is no number");

    let mut text = String::new();
    let mut print = |line: String| writeln!(text, "{line}").expect("a string takes it");
    print(format!("{} lines learnt: {epochs} epochs, {visits} visits, {updates} updates\n", KNOWN.len()));
    for (word, column) in UNKNOWN.split_whitespace().zip(path) {
        print(format!("{word:<12}{}", COLUMNS[column as usize]));
    }
    print(format!("\nsum  {}", general(sum)));
    print(format!("lead {}\n", general(lead)));
    let meaning = "a value that is infinite or no number at all";
    print(format!("a damaged line is refused, number {number}, place {place}: {meaning}"));
    text
}

/// C's `%.17g` of a finite number: 17 digits, zeros at the end left out. No two numbers look alike.
pub fn general(x: f64) -> String {
    let scientific = format!("{x:.16e}");
    let (digits, exponent) = scientific.split_once('e').expect("it has an exponent");
    let exponent: i32 = exponent.parse().expect("a whole number");
    if (-4..17).contains(&exponent) {
        return without_zeros(&format!("{x:.*}", (16 - exponent) as usize)).to_string();
    }
    let sign = if exponent < 0 { '-' } else { '+' };
    format!("{}e{sign}{:02}", without_zeros(digits), exponent.unsigned_abs())
}

/// A decimal without the zeros at its end, and without a point that nothing follows.
fn without_zeros(decimal: &str) -> &str {
    if decimal.contains('.') { decimal.trim_end_matches('0').trim_end_matches('.') } else { decimal }
}
