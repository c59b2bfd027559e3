//! Sound cases. Ties everywhere, signed zeros, subnormals, values near the largest finite; entries that occur twice,
//! ids without a list, more or fewer label lists than labels.

use super::rng::Rng;
use crate::tables::{Counts, Data, Line, Model, Rule, STATE, Scores, Settings, TRANSITION};

/// Where numbers come from.
#[derive(Debug, Clone, Copy, PartialEq, Eq)]
pub enum Palette {
    /// −2 to 2: sums tie.
    Whole,
    /// +0 and −0.
    Zeros,
    /// Below the smallest normal, zero and the smallest normal included.
    Subnormal,
    /// Near the largest finite: sums overflow.
    Large,
    /// Thousandths, so that sums round.
    Plain,
    /// Any finite bits.
    Bits,
    /// One of the others for each number.
    Mixed,
}

pub const PALETTES: [Palette; 7] =
    [Palette::Whole, Palette::Zeros, Palette::Subnormal, Palette::Large, Palette::Plain, Palette::Bits, Palette::Mixed];

const LARGEST_SUBNORMAL: f64 = f64::from_bits(0x000F_FFFF_FFFF_FFFF);
const TWO_TO_1023: f64 = f64::from_bits(0x7FE0_0000_0000_0000);

/// Numbers at which something changes, all finite.
pub const CORNERS: [f64; 18] = [
    0.0,
    -0.0,
    5e-324,
    -5e-324,
    LARGEST_SUBNORMAL,
    f64::MIN_POSITIVE,
    -f64::MIN_POSITIVE,
    f64::EPSILON,
    0.5,
    1.0,
    -1.0,
    1.0 + f64::EPSILON,
    9_007_199_254_740_992.0,
    -9_007_199_254_740_991.0,
    TWO_TO_1023,
    -TWO_TO_1023,
    f64::MAX,
    f64::MIN,
];

/// Numbers that are not finite.
pub const NOT_FINITE: [f64; 3] = [f64::NAN, f64::INFINITY, f64::NEG_INFINITY];

pub fn number(rng: &mut Rng, palette: Palette) -> f64 {
    match palette {
        Palette::Whole => f64::from(rng.below(5)) - 2.0,
        Palette::Zeros => signed(rng, 0.0),
        Palette::Subnormal => {
            let bits = rng.draw() >> (12 + rng.below(52));
            let x = f64::from_bits(if rng.chance(5) { 1 << 52 } else { bits });
            signed(rng, x)
        }
        Palette::Large => {
            let x = f64::from_bits(f64::MAX.to_bits() - (rng.draw() >> (10 + rng.below(53))));
            signed(rng, x)
        }
        Palette::Plain => (f64::from(rng.below(8001)) - 4000.0) / 1000.0,
        Palette::Bits => loop {
            let x = f64::from_bits(rng.draw());
            if x.is_finite() {
                return x;
            }
        },
        Palette::Mixed => {
            if rng.chance(30) {
                rng.pick(&CORNERS)
            } else {
                let palette = rng.pick(&PALETTES[..6]);
                number(rng, palette)
            }
        }
    }
}

fn signed(rng: &mut Rng, x: f64) -> f64 {
    if rng.chance(50) { -x } else { x }
}

pub fn numbers(rng: &mut Rng, palette: Palette, count: usize) -> Vec<f64> {
    (0..count).map(|_| number(rng, palette)).collect()
}

/// How large the parts of a case are; lists and words are at most as long as said here.
#[derive(Debug, Clone, Copy, PartialEq, Eq)]
pub struct Size {
    pub labels: u32,
    pub words: u32,
    pub features: u32,
    pub attribute_lists: u32,
    pub label_lists: u32,
    pub entries: u32,
    pub attributes: u32,
    pub instances: u32,
}

impl Size {
    /// Small, with a good share of the corners: L 1 and 32, T 1 and 128, N 1, no features, no lists.
    pub fn drawn(rng: &mut Rng) -> Self {
        let labels = if rng.chance(10) { rng.pick(&[1, 32]) } else { rng.between(2, 5) };
        let words = if rng.chance(10) { rng.pick(&[1, 128]) } else { rng.between(2, 7) };
        let label_lists = match rng.below(10) {
            0 => 0,
            1 => rng.below(labels),
            2 => rng.between(labels, 32),
            _ => labels,
        };
        Self {
            labels,
            words,
            features: if rng.chance(10) { rng.between(0, 2) } else { rng.between(4, 24) },
            attribute_lists: if rng.chance(5) { 0 } else { rng.between(1, 6) },
            label_lists,
            entries: 6,
            attributes: 4,
            instances: if rng.chance(15) { 1 } else { rng.between(2, 6) },
        }
    }
}

/// Score tables.
pub fn scores(rng: &mut Rng, labels: u32, words: u32, palette: Palette) -> Scores {
    Scores {
        labels,
        words,
        states: numbers(rng, palette, (words * labels) as usize),
        transitions: numbers(rng, palette, (labels * labels) as usize),
    }
}

/// A path, as far as a line of so many words.
pub fn path(rng: &mut Rng, labels: u32, length: u32) -> Vec<u32> {
    (0..length).map(|_| rng.below(labels)).collect()
}

pub fn model(rng: &mut Rng, size: &Size, palette: Palette) -> Model {
    let features = size.features;
    let kinds: Vec<u8> = (0..features).map(|_| rng.pick(&[STATE, STATE, TRANSITION])).collect();
    let destinations = (0..features).map(|_| rng.below(size.labels)).collect();
    let sources: Vec<u32> = kinds
        .iter()
        .map(|kind| match *kind {
            TRANSITION => rng.below(size.labels),
            // "a State feature's source is not read and may be anything"
            _ => rng.pick(&[0, size.labels, u32::MAX]),
        })
        .collect();
    let (attribute_starts, attribute_entries) = attribute_lists(rng, size, &kinds);
    let (label_starts, label_entries) = label_lists(rng, size, &kinds, &sources);
    Model {
        labels: size.labels,
        counts: Counts {
            features,
            attribute_lists: size.attribute_lists,
            label_lists: size.label_lists,
            attribute_entries: attribute_entries.len() as u32,
            label_entries: label_entries.len() as u32,
        },
        kinds,
        destinations,
        sources,
        weights: numbers(rng, palette, features as usize),
        attribute_starts,
        attribute_entries,
        label_starts,
        label_entries,
    }
}

/// Attribute lists: mostly State features, some entries twice.
fn attribute_lists(rng: &mut Rng, size: &Size, kinds: &[u8]) -> (Vec<u32>, Vec<u32>) {
    let (mut starts, mut entries) = (vec![0], Vec::new());
    for _ in 0..size.attribute_lists {
        let length = if kinds.is_empty() || rng.chance(10) { 0 } else { rng.between(1, size.entries) };
        for _ in 0..length {
            let (any, other) = (rng.below(size.features), rng.below(size.features));
            let feature = if kinds[any as usize] == STATE || rng.chance(20) { any } else { other };
            let twice = entries.last().copied().filter(|_| rng.chance(15));
            entries.push(twice.unwrap_or(feature));
        }
        starts.push(entries.len() as u32);
    }
    (starts, entries)
}

/// Label lists: mostly the Transition features that leave the label, so that counts meet them; sometimes any feature.
fn label_lists(rng: &mut Rng, size: &Size, kinds: &[u8], sources: &[u32]) -> (Vec<u32>, Vec<u32>) {
    let (mut starts, mut entries) = (vec![0], Vec::new());
    for label in 0..size.label_lists {
        for (feature, source) in sources.iter().enumerate() {
            let leaves = kinds[feature] == TRANSITION && *source == label;
            let times = match rng.below(100) {
                0..3 => 1,
                3..15 if leaves => 2,
                15..90 if leaves => 1,
                _ => 0,
            };
            entries.extend(std::iter::repeat_n(feature as u32, times));
        }
        starts.push(entries.len() as u32);
    }
    (starts, entries)
}

/// A line; its ids are mostly of lists that the model has.
pub fn line(rng: &mut Rng, model: &Model, size: &Size, palette: Palette) -> Line {
    let words = if rng.chance(60) { size.words } else { rng.between(1, size.words) };
    let (mut starts, mut ids) = (vec![0], Vec::new());
    for _ in 0..words {
        for _ in 0..rng.between(0, size.attributes) {
            ids.push(id(rng, model.counts.attribute_lists));
        }
        starts.push(ids.len() as u32);
    }
    Line { words, attributes: ids.len() as u32, starts, values: numbers(rng, palette, ids.len()), ids }
}

/// "An attribute id without a list is ignored, not refused."
fn id(rng: &mut Rng, lists: u32) -> u32 {
    if lists == 0 || rng.chance(10) { rng.pick(&[lists, lists + 1, u32::MAX]) } else { rng.below(lists) }
}

pub fn data(rng: &mut Rng, model: &Model, size: &Size, palette: Palette) -> Data {
    let mut data =
        Data { instances: size.instances, word_starts: vec![0], attribute_starts: vec![0], ..Data::default() };
    for _ in 0..size.instances {
        let line = line(rng, model, size, palette);
        let before = data.ids.len() as u32;
        data.attribute_starts.extend(line.starts[1..].iter().map(|start| before + start));
        data.references.extend(path(rng, model.labels, line.words));
        data.word_starts.push(data.references.len() as u32);
        data.ids.extend(line.ids);
        data.values.extend(line.values);
        data.weights.push(instance_weight(rng, palette));
    }
    data.words = data.references.len() as u32;
    data.attributes = data.ids.len() as u32;
    data
}

/// Mostly 1.
fn instance_weight(rng: &mut Rng, palette: Palette) -> f64 {
    match rng.below(10) {
        0..6 => 1.0,
        6 => rng.pick(&[0.5, 2.0, 0.1, 3.0]),
        7 => rng.pick(&[0.0, -0.0, -1.0]),
        _ => number(rng, palette),
    }
}

pub fn settings(rng: &mut Rng) -> Settings {
    let rule = match rng.below(3) {
        0 => Rule::Perceptron,
        1 => Rule::PassiveAggressive {
            variant: rng.below(3),
            c: positive(rng),
            error_sensitive: rng.chance(50),
            averaging: rng.chance(50),
        },
        _ => Rule::Arow { variance: positive(rng), gamma: positive(rng) },
    };
    Settings {
        rule,
        epochs: if rng.chance(5) { rng.between(20, 60) } else { rng.between(1, 8) },
        epsilon: rng.pick(&[0.0, 0.0, 0.0, -0.0, 5e-324, 0.01, 0.25, 0.5, 1.0, f64::MAX]),
        seed: if rng.chance(10) { rng.pick(&[0, 1, u64::MAX]) } else { rng.draw() },
    }
}

/// A parameter above 0: mostly of ordinary size.
fn positive(rng: &mut Rng) -> f64 {
    match rng.below(10) {
        0..4 => 1.0,
        4..8 => rng.pick(&[0.5, 0.1, 2.0, 10.0, 0.75]),
        8 => rng.pick(&[5e-324, f64::MIN_POSITIVE, 1e-300, 1e300, f64::MAX]),
        _ => f64::from(rng.between(1, 5000)) / 1000.0,
    }
}

/// Tails past the counts that nobody may read: each table gets some entries that would be refused.
pub trait Tails {
    fn add_tails(&mut self, rng: &mut Rng);
}

fn tail<T: Copy>(rng: &mut Rng, table: &mut Vec<T>, bad: &[T]) {
    for _ in 0..rng.below(4) {
        table.push(rng.pick(bad));
    }
}

const BAD_IDS: [u32; 3] = [u32::MAX, 65_536, 0];

impl Tails for Model {
    fn add_tails(&mut self, rng: &mut Rng) {
        tail(rng, &mut self.kinds, &[2, 255]);
        tail(rng, &mut self.weights, &NOT_FINITE);
        for table in [
            &mut self.destinations,
            &mut self.sources,
            &mut self.attribute_starts,
            &mut self.attribute_entries,
            &mut self.label_starts,
            &mut self.label_entries,
        ] {
            tail(rng, table, &BAD_IDS);
        }
    }
}

impl Tails for Line {
    fn add_tails(&mut self, rng: &mut Rng) {
        tail(rng, &mut self.starts, &BAD_IDS);
        tail(rng, &mut self.ids, &BAD_IDS);
        tail(rng, &mut self.values, &NOT_FINITE);
    }
}

impl Tails for Data {
    fn add_tails(&mut self, rng: &mut Rng) {
        for table in [&mut self.word_starts, &mut self.attribute_starts, &mut self.ids, &mut self.references] {
            tail(rng, table, &BAD_IDS);
        }
        tail(rng, &mut self.values, &NOT_FINITE);
        tail(rng, &mut self.weights, &NOT_FINITE);
    }
}

impl Tails for Scores {
    fn add_tails(&mut self, rng: &mut Rng) {
        tail(rng, &mut self.states, &NOT_FINITE);
        tail(rng, &mut self.transitions, &NOT_FINITE);
    }
}

/// The bytes of a sheet with these scores.
pub fn sheet(scores: &Scores) -> Vec<u8> {
    let mut bytes = vec![b'T', b'L', b'G', 1, 0, scores.labels as u8];
    bytes.extend((scores.words as u16).to_le_bytes());
    let (moves, states) = (scores.labels * scores.labels, scores.words * scores.labels);
    let numbers = scores.transitions[..moves as usize].iter().chain(&scores.states[..states as usize]);
    bytes.extend(numbers.flat_map(|x| x.to_le_bytes()));
    bytes
}
