//! A text's bytes to its tables, by document 02: "one word a line, fields parted by tabs, label first, then any attributes".
//! The text is cut at its line feeds, a line at its tabs, and each field is looked at alone. Nothing here is fast.

use std::collections::BTreeMap;

use super::{Refused, Rooms, Sizes, Tables, counts_are_bad, is_short, too_long};

/// "An attribute is a name, or a name, a colon and a scale"; the scale as typed, empty where there is none.
#[derive(Debug, Clone, PartialEq, Eq)]
pub struct Attribute {
    pub name: Vec<u8>,
    pub scale: Vec<u8>,
}

#[derive(Debug, Clone, PartialEq, Eq)]
pub struct Word {
    pub label: Vec<u8>,
    pub attributes: Vec<Attribute>,
}

pub type Sequence = Vec<Word>;

/// What is wrong with a field, and at which of its bytes; its length stands for what ends it.
#[derive(Debug, Clone, Copy, PartialEq, Eq, PartialOrd, Ord)]
pub enum Fault {
    EmptyField,
    EmptyName,
    ColonInLabel,
    EscapeOfAnother,
    EscapeOfNothing,
    EmptyScale,
    NoDigit,
    SixteenthDigit,
    NotOfAScale,
}

pub const FAULTS: [(Fault, &str); 9] = [
    (Fault::EmptyField, "an empty field"),
    (Fault::EmptyName, "an empty name"),
    (Fault::ColonInLabel, "a bare colon in a label"),
    (Fault::EscapeOfAnother, "a backslash before another character"),
    (Fault::EscapeOfNothing, "a backslash at the end of a field"),
    (Fault::EmptyScale, "an empty scale"),
    (Fault::NoDigit, "a scale without a digit"),
    (Fault::SixteenthDigit, "a 16th digit"),
    (Fault::NotOfAScale, "a byte that no scale has there"),
];

type At<T> = Result<T, (Fault, usize)>;

/// The whole answer: what a call with so much room owes.
pub fn read(text: &[u8], rooms: &Rooms) -> Result<Tables, Refused> {
    let sequences = sequences(text).map_err(|(_, place)| (11, place))?;
    if u32::try_from(text.len()).is_err() {
        return Err((2, 0));
    }
    let tables = tables(&sequences);
    if counts_are_bad(&tables) || is_short(rooms, &tables.rooms()) {
        return Err((2, 0));
    }
    too_long(&tables.line_starts).map_or(Ok(tables), |place| Err((4, place)))
}

/// What the call that only counts owes.
pub fn sizes(text: &[u8]) -> Result<Sizes, Refused> {
    read(text, &[usize::MAX; 12]).map(|tables| tables.sizes())
}

/// "An empty line or the end of the text ends a sequence, and a further empty line changes nothing"; or the first fault, with
/// its byte.
pub fn sequences(text: &[u8]) -> Result<Vec<Sequence>, (Fault, u64)> {
    let (mut all, mut open, mut from) = (Vec::new(), Vec::new(), 0);
    for line in text.split(|byte| *byte == b'\n') {
        if line.is_empty() {
            all.extend((!open.is_empty()).then(|| std::mem::take(&mut open)));
        } else {
            open.push(word(line).map_err(|(fault, place)| (fault, (from + place) as u64))?);
        }
        from += line.len() + 1;
    }
    all.extend((!open.is_empty()).then_some(open));
    Ok(all)
}

fn word(line: &[u8]) -> At<Word> {
    let mut word = Word { label: Vec::new(), attributes: Vec::new() };
    let mut from = 0;
    for (number, field) in line.split(|byte| *byte == b'\t').enumerate() {
        let behind = |(fault, place)| (fault, from + place);
        if number == 0 {
            word.label = label(field).map_err(behind)?;
        } else {
            word.attributes.push(attribute(field).map_err(behind)?);
        }
        from += field.len() + 1;
    }
    Ok(word)
}

fn label(field: &[u8]) -> At<Vec<u8>> {
    let (name, end) = name(field)?;
    if end < field.len() { Err((Fault::ColonInLabel, end)) } else { Ok(name) }
}

fn attribute(field: &[u8]) -> At<Attribute> {
    let (name, end) = name(field)?;
    let Some((_, scale)) = field[end..].split_first() else {
        return Ok(Attribute { name, scale: Vec::new() });
    };
    match scale_fault(scale) {
        Some((fault, place)) => Err((fault, end + 1 + place)),
        None => Ok(Attribute { name, scale: scale.to_vec() }),
    }
}

/// The name that a field begins with, up to its end or its first bare colon: "`\:` stands for a colon and `\\` for a
/// backslash inside a name".
fn name(field: &[u8]) -> At<(Vec<u8>, usize)> {
    let (mut name, mut at) = (Vec::new(), 0);
    while let Some(byte) = field.get(at) {
        match (byte, field.get(at + 1)) {
            (b':', _) if name.is_empty() => return Err((Fault::EmptyName, at)),
            (b':', _) => break,
            (b'\\', Some(escaped @ (b':' | b'\\'))) => {
                name.push(*escaped);
                at += 2;
            }
            (b'\\', Some(_)) => return Err((Fault::EscapeOfAnother, at + 1)),
            (b'\\', None) => return Err((Fault::EscapeOfNothing, at + 1)),
            (plain, _) => {
                name.push(*plain);
                at += 1;
            }
        }
    }
    if name.is_empty() { Err((Fault::EmptyField, 0)) } else { Ok((name, at)) }
}

/// "A scale is an optional minus and 1 to 15 digits with one optional point anywhere after the minus."
pub fn scale_fault(scale: &[u8]) -> Option<(Fault, usize)> {
    if scale.is_empty() {
        return Some((Fault::EmptyScale, 0));
    }
    let digits = |upto: usize| scale[..upto].iter().filter(|byte| byte.is_ascii_digit()).count();
    let points = |upto: usize| scale[..upto].iter().filter(|byte| **byte == b'.').count();
    for (place, byte) in scale.iter().enumerate() {
        match byte {
            b'-' if place == 0 => {}
            b'.' if points(place) == 0 => {}
            b'0'..=b'9' if digits(place) < 15 => {}
            b'0'..=b'9' => return Some((Fault::SixteenthDigit, place)),
            _ => return Some((Fault::NotOfAScale, place)),
        }
    }
    (digits(scale.len()) == 0).then_some((Fault::NoDigit, scale.len()))
}

/// "Rounded once (minus zero is −0)": the standard library's own reading of a decimal; "without a scale the value is 1".
fn value(scale: &[u8]) -> f64 {
    if scale.is_empty() {
        return 1.0;
    }
    std::str::from_utf8(scale).expect("digits").parse().expect("a decimal")
}

/// "Names get ids by first appearance, labels and attributes apart."
#[derive(Default)]
struct Ids {
    of: BTreeMap<Vec<u8>, u32>,
    names: Vec<Vec<u8>>,
}

impl Ids {
    fn id(&mut self, name: &[u8]) -> u32 {
        if let Some(id) = self.of.get(name) {
            return *id;
        }
        let id = self.names.len() as u32;
        self.of.insert(name.to_vec(), id);
        self.names.push(name.to_vec());
        id
    }
}

/// Lists one behind the other: where each begins and where the last ends, and all their entries.
fn flat(lists: &[Vec<u8>]) -> (Vec<u32>, Vec<u8>) {
    let ends = lists.iter().scan(0, |end, list| {
        *end += list.len() as u32;
        Some(*end)
    });
    ([0].into_iter().chain(ends).collect(), lists.concat())
}

pub fn tables(sequences: &[Sequence]) -> Tables {
    let (mut labels, mut names, mut kept) = (Ids::default(), Ids::default(), Vec::new());
    let mut tables = Tables::empty();
    for sequence in sequences {
        for word in sequence {
            tables.references.push(labels.id(&word.label));
            for Attribute { name, scale } in &word.attributes {
                tables.ids.push(names.id(name));
                tables.values.push(value(scale));
                kept.push(scale.clone());
            }
            tables.word_starts.push(tables.ids.len() as u32);
        }
        tables.line_starts.push(tables.references.len() as u32);
        tables.instance_weights.push(1.0);
    }
    (tables.label_name_starts, tables.label_names) = flat(&labels.names);
    (tables.attribute_name_starts, tables.attribute_names) = flat(&names.names);
    (tables.scale_starts, tables.scales) = flat(&kept);
    tables
}
