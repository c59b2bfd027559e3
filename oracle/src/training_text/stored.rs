//! The fixed texts, the same at every run, and the line that is owed for each: what the repository stores and replays.
//!
//! A line is `REFUSED number place`, or `TEXT`, the eight sizes, the twelve tables and what the writer makes of them, parted by
//! blanks. Numbers are decimal and parted by commas, binary64 are sixteen hexadecimal digits each, parted likewise; bytes are two
//! hexadecimal digits each, one behind the other. Nothing at all is `-`.

use super::cases::{self, Kind};
use super::layout;
use super::writer::{self, Given};
use super::{Refused, Sizes, Tables};
use crate::cases::Rng;

/// A text with a name for what it shows.
#[derive(Debug, Clone, PartialEq, Eq)]
pub struct Stored {
    pub group: &'static str,
    pub text: Vec<u8>,
}

pub const DESK: &str = "desk cases";
pub const ERRORS: &str = "each error, with its byte";
pub const NEAR: &str = "near an error, and sound";
pub const BOUNDS: &str = "at a bound";
pub const WINDOWS: &str = "names about 64 bytes long";
pub const DRAWN: &str = "drawn";
pub const FAULTY: &str = "drawn, with a fault";
pub const DAMAGED: &str = "drawn and damaged";

/// T1 to T5; T6 and T7 are about room and the writer.
pub const T1: &str = "A\ta:0.5\tb\nB\n\n\nA\tb:-0\n";
pub const T2: &str = "h\\:m\tC\\:\\\\x:1";

/// The errors of the request, `▸` before the byte that is charged; where it stands last the length is.
pub const CHARGED: [&str; 42] = [
    "▸\ta",
    "A\t▸\tb",
    "A\t▸\n",
    "A\t▸",
    "▸:1",
    "A\t▸:1",
    "A▸:x",
    "A\\▸n",
    "A\tb\\▸.",
    "A\\▸\tb",
    "A\\▸\n",
    "A\\▸",
    "A\tb:▸\t",
    "A\tb:▸\n",
    "A\tb:▸",
    "A\tb:-▸\n",
    "A\tb:.▸\t",
    "A\tb:-.▸",
    "A\tb:000000000000000▸0",
    "A\tb:1.23456789012345▸6",
    "A\tb:1.2▸.",
    "A\tb:1▸-",
    "A\tb:▸+1",
    "A\tb:1▸e5",
    "A\tb:1▸:2",
    "A\tb:1▸\\",
    "A\tb:1▸\r",
    "A\tb:▸ 1",
    "A\tb:1▸,5",
    "A\tb:▸inf",
    "A\tb:-▸-1",
    "A\tb:.▸-1",
    "A\tb:1.2▸.3",
    "A\tb:123456789012345.▸6",
    "A\tb:1\n\n\nB\t▸\tc",
    "A\n\n▸\tb",
    "A\\\\\\▸a",
    "A\t▸:",
    "▸:",
    "A▸:",
    "A\tb\\:\\▸\r\n",
    "A\tb:1\tc\\▸\t",
];

const SOUND: [&str; 40] = [
    "A\t5:5",
    "A\tb:-5",
    "A\tb:1.",
    "A\tb:.5",
    "A\tb:-.5",
    "A\tb:-5.",
    "A\tb:007",
    "A\tb:000000000000000",
    "A\tb:123456789012345.",
    "A\tb:-.0",
    "A\tb\tb:1\tb:1.\tb:01",
    "A\tb:.000000000000001\tb:999999999999999",
    "A\tb:0.1\tb:0.3\tb:.123456789012345\tb:9007199254740.99",
    "A\tb:-000000000.00000",
    "A",
    "A\n",
    "\nA",
    "\n\n\nA\n\n\nB\n\n\n",
    "\\:",
    "\\\\",
    "\\\\\\:\t\\:\\\\:1",
    "A\t\\\\:-0",
    "A\r\nB\r\n\r\nC\tb\r\n",
    "\r",
    "\0\t\0",
    " \t ",
    "-\t.\t-:1\t+1\t1e5",
    "\u{e9}\t\u{4e2d}\u{6587}:2",
    "A\tA\nB\tB\nA\tB",
    "a\tb\nb\ta",
    "A\tab\ta\tb\tabc\tab",
    "A\ta\\:b\ta\\\\b\ta\\\\\\:b",
    "A\tb:1\tb:1",
    "0\t0:0",
    "A\t1.5:1.5",
    "A\tb:1\n\nA\tb:1",
    "A\tb:-0\n\n\nA\tb:0",
    "A\tb:0.30000000000001",
    "A\tb:12345678.9012345\tc:.5\td",
    "A\tb:4503599627370.5\tc:0.00000000000005",
];

pub fn all() -> Vec<Stored> {
    let mut all = Vec::new();
    let mut add = |group, texts: Vec<Vec<u8>>| all.extend(texts.into_iter().map(|text| Stored { group, text }));
    add(DESK, desk());
    add(ERRORS, CHARGED.iter().map(|marked| marked.replace('▸', "").into()).collect());
    add(NEAR, SOUND.iter().map(|text| text.bytes().collect()).collect());
    add(BOUNDS, bounds());
    add(WINDOWS, windows());
    add(DRAWN, drawn(60, |case| case.kind == Kind::Sound));
    add(FAULTY, drawn(60, |case| matches!(case.kind, Kind::Faulty(..))));
    add(DAMAGED, drawn(60, |case| matches!(case.kind, Kind::Damaged | Kind::Noise)));
    all
}

/// The name of a stored text: three digits, consecutive from 000, and `.txt`.
pub fn name(number: usize) -> String {
    assert!(number < 1_000, "three digits");
    format!("{number:03}.txt")
}

fn desk() -> Vec<Vec<u8>> {
    let t4 = format!("{}\n{}", "A\n".repeat(128), "A\n".repeat(129));
    let t5: String = (0..33).map(|label| format!("L{label}\n")).collect();
    let texts = [T1, T2, "", "\n\n", "A", "A\t", "\t", &t4, &format!("{t4}A:"), &t5, &format!("{t5}\\")];
    texts.iter().map(|text| text.bytes().collect()).collect()
}

fn bounds() -> Vec<Vec<u8>> {
    let labels = |count: u32| (0..count).map(|label| format!("L{label}\tx:{label}\n")).collect::<String>();
    let words = |count: usize| "A\tb\n".repeat(count);
    let texts =
        [labels(32), labels(33), labels(32) + "L7", words(128), words(129), format!("{}\n{}", words(129), words(130))];
    texts.into_iter().map(String::into_bytes).collect()
}

/// Plain bytes and escapes on both sides of a window's end.
fn windows() -> Vec<Vec<u8>> {
    let mut all = Vec::new();
    for length in [62, 63, 64, 65, 126, 127, 128, 129] {
        let plain = "x".repeat(length);
        for behind in ["", "\\:", "\\\\y", "\\", "\\n", ":1", "\t", "\n", "\n:"] {
            all.push(format!("A\t{plain}{behind}").into_bytes());
        }
    }
    all
}

fn drawn(count: usize, wanted: impl Fn(&cases::Case) -> bool) -> Vec<Vec<u8>> {
    let texts = (0..).map(|number| cases::text(&mut Rng::of_case(0x0707_E875, number)));
    texts.filter(|case| wanted(case) && case.text.len() < 400).take(count).map(|case| case.text).collect()
}

/// The line that is owed for a text.
pub fn line(text: &[u8]) -> String {
    line_of(&layout::read(text, &[usize::MAX; 12]).map(|tables| {
        let written = writer::write(&Given::of(tables.clone(), usize::MAX)).expect("what was read can be written");
        (tables, written)
    }))
}

/// The line for an answer: what was read, and what was written of it.
pub fn line_of(answer: &Result<(Tables, Vec<u8>), Refused>) -> String {
    match answer {
        Err((number, place)) => format!("REFUSED {number} {place}\n"),
        Ok((tables, written)) => accepted(tables, written),
    }
}

fn accepted(tables: &Tables, written: &[u8]) -> String {
    let Sizes { labels, attribute_names, instances, words, attributes, .. } = tables.sizes();
    let Sizes { label_bytes, attribute_bytes, scale_bytes, .. } = tables.sizes();
    let sizes = [labels, attribute_names, instances, words, attributes, label_bytes, attribute_bytes, scale_bytes]
        .map(u64::from);
    let numbers = |table: &[u32]| joined(table, |x| x.to_string(), ",");
    let floats = |table: &[f64]| joined(table, |x| format!("{:016x}", x.to_bits()), ",");
    let bytes = |table: &[u8]| joined(table, |x| format!("{x:02x}"), "");
    let fields = [
        joined(&sizes, |x| x.to_string(), ","),
        numbers(&tables.line_starts),
        numbers(&tables.word_starts),
        numbers(&tables.ids),
        floats(&tables.values),
        numbers(&tables.references),
        floats(&tables.instance_weights),
        numbers(&tables.label_name_starts),
        bytes(&tables.label_names),
        numbers(&tables.attribute_name_starts),
        bytes(&tables.attribute_names),
        numbers(&tables.scale_starts),
        bytes(&tables.scales),
        bytes(written),
    ];
    format!("TEXT {}\n", fields.join(" "))
}

fn joined<T>(table: &[T], one: impl Fn(&T) -> String, between: &str) -> String {
    if table.is_empty() { "-".to_string() } else { table.iter().map(one).collect::<Vec<_>>().join(between) }
}
