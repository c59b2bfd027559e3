//! Seeded texts and tables. A text that is damaged on purpose comes with the fault that was put in and its byte, which the
//! reading has to find.

use std::collections::{BTreeMap, BTreeSet};
use std::ops::Range;

use super::layout::{self, FAULTS, Fault};
use super::writer::{self, Given};
use super::{LABELS, LONGEST, Tables};
use crate::cases::Rng;

#[derive(Debug, Clone, Copy, PartialEq, Eq)]
pub enum Kind {
    Sound,
    /// A fault of the table of faults was put in.
    Faulty(Fault, u64),
    /// A sound text with some bytes changed, put in or taken out.
    Damaged,
    /// Any bytes out of those that mean something.
    Noise,
    /// More labels or longer sequences than there may be, or just as many.
    AtABound,
}

#[derive(Debug, Clone)]
pub struct Case {
    pub kind: Kind,
    pub text: Vec<u8>,
}

pub fn text(rng: &mut Rng) -> Case {
    match rng.below(100) {
        0..38 => Case { kind: Kind::Sound, text: sound(rng) },
        38..66 => faulty(rng),
        66..82 => Case { kind: Kind::Damaged, text: damaged(rng) },
        82..96 => Case { kind: Kind::Noise, text: noise(rng) },
        _ => Case { kind: Kind::AtABound, text: at_a_bound(rng) },
    }
}

// ---- sound texts

pub fn sound(rng: &mut Rng) -> Vec<u8> {
    let mut text = vec![b'\n'; if rng.chance(15) { rng.between(1, 3) as usize } else { 0 }];
    let sequences = rng.between(1, 5);
    for number in 1..=sequences {
        for word in 0..rng.between(1, 5) {
            text.extend((word > 0).then_some(b'\n'));
            text.extend(line(rng));
        }
        let feeds = if number < sequences { rng.pick(&[2, 2, 2, 3, 5]) } else { rng.pick(&[0, 1, 1, 2, 4]) };
        text.extend(vec![b'\n'; feeds]);
    }
    text
}

/// A word's line, without its line feed.
fn line(rng: &mut Rng) -> Vec<u8> {
    let mut line = escaped(rng);
    for _ in 0..rng.pick(&[0, 1, 1, 2, 3, 6]) {
        line.push(b'\t');
        line.extend(escaped(rng));
        if rng.chance(55) {
            line.push(b':');
            line.extend(scale(rng));
        }
    }
    line
}

/// A name as it stands in a text: from a few that come again, of bytes that mean something elsewhere, of any bytes, long.
fn escaped(rng: &mut Rng) -> Vec<u8> {
    match rng.below(100) {
        0..50 => rng.pick(&["a", "b", "A", "B", "ab", "w[0]=x", "a\\:b", "a\\\\", "\\:", "a\r", "\u{e9}"]).into(),
        50..65 => {
            some(rng, 1, 6, |rng| unit(rng, &[b"\\:", b"\\\\", b"-", b".", b"0", b"1", b" ", b"\r", b"\0", b"+"]))
        }
        65..85 => some(rng, 1, 5, any_unit),
        85..97 => some(rng, 1, 3, |rng| unit(rng, &[b"a", b"b", b"c"])),
        // longer than a window of 64 bytes
        _ => some(rng, 60, 200, |rng| if rng.chance(30) { any_unit(rng) } else { unit(rng, &[b"a", b"\\\\", b"\\:"]) }),
    }
}

fn some(rng: &mut Rng, least: u32, most: u32, mut one: impl FnMut(&mut Rng) -> Vec<u8>) -> Vec<u8> {
    (0..rng.between(least, most)).flat_map(|_| one(rng)).collect()
}

fn unit(rng: &mut Rng, from: &[&[u8]]) -> Vec<u8> {
    rng.pick(from).to_vec()
}

fn any_unit(rng: &mut Rng) -> Vec<u8> {
    match if rng.chance(40) { rng.between(0x80, 0xFF) } else { rng.below(0x100) } as u8 {
        b'\t' | b'\n' => vec![b' '],
        byte @ (b':' | b'\\') => vec![b'\\', byte],
        byte => vec![byte],
    }
}

/// A scale: short or of as many digits as there may be, the point anywhere or nowhere.
pub fn scale(rng: &mut Rng) -> Vec<u8> {
    if rng.chance(20) {
        return rng.pick(&["0", "-0", "1", "1.", ".5", "-.5", "-5.", "01", "-0.0", "0.1", "007", "-.0"]).into();
    }
    let digits = if rng.chance(40) { rng.between(14, 15) } else { rng.between(1, 6) };
    digits_and_point(rng, digits)
}

fn digits_and_point(rng: &mut Rng, digits: u32) -> Vec<u8> {
    let mut scale: Vec<u8> = (0..digits).map(|_| b'0' + if rng.chance(25) { 0 } else { rng.below(10) as u8 }).collect();
    if rng.chance(65) {
        scale.insert(rng.below(digits + 1) as usize, b'.');
    }
    if rng.chance(35) {
        scale.insert(0, b'-');
    }
    scale
}

// ---- texts that are refused

/// One fault of the table, in a label or an attribute of a later line or the first, and anything behind it where it is not
/// the end that is at fault.
fn faulty(rng: &mut Rng) -> Case {
    let (fault, _) = rng.pick(&FAULTS);
    let mut text = if rng.chance(70) { sound(rng) } else { Vec::new() };
    if text.last().is_some_and(|byte| *byte != b'\n') {
        text.push(b'\n');
    }
    let of_attribute = matches!(fault, Fault::EmptyScale | Fault::NoDigit | Fault::SixteenthDigit | Fault::NotOfAScale);
    let attribute = of_attribute || fault != Fault::ColonInLabel && rng.chance(60);
    if attribute {
        text.extend(line(rng));
        text.push(b'\t');
    }
    if of_attribute {
        text.extend(escaped(rng));
        text.push(b':');
    }
    let mut end = [&b"\t"[..], b"\n", b""][rng.below(3) as usize];
    match fault {
        Fault::EmptyField if !attribute => end = b"\t",
        Fault::EmptyField | Fault::EmptyScale => {}
        Fault::EmptyName => end = b":",
        Fault::ColonInLabel => {
            text.extend(escaped(rng));
            end = b":";
        }
        Fault::EscapeOfAnother | Fault::EscapeOfNothing => {
            if rng.chance(70) {
                text.extend(escaped(rng));
            }
            text.push(b'\\');
            if fault == Fault::EscapeOfAnother {
                end = rng.pick(&[&b"n"[..], b"t", b".", b" ", b"\r", b"0", b"\0", b"\xFF", b"/", b";"]);
            }
        }
        Fault::NoDigit => text.extend(rng.pick(&["-", ".", "-."]).bytes()),
        Fault::SixteenthDigit => {
            text.extend(digits_and_point(rng, 15));
            end = rng.pick(&[b"0", b"9"]);
        }
        Fault::NotOfAScale => {
            let mut front = scale(rng);
            front.truncate(rng.below(front.len() as u32 + 1) as usize);
            let mut others = vec![&b"+"[..], b"e", b":", b"\\", b"\r", b" ", b",", b"/", b"x", b"\0", b"\xB2"];
            others.extend(front.contains(&b'.').then_some(&b"."[..]));
            others.extend((!front.is_empty()).then_some(&b"-"[..]));
            text.extend(front);
            end = rng.pick(&others);
        }
    }
    let place = text.len() as u64;
    text.extend(end);
    if !end.is_empty() {
        text.extend(if rng.chance(50) { sound(rng) } else { noise(rng) });
    }
    Case { kind: Kind::Faulty(fault, place), text }
}

fn damaged(rng: &mut Rng) -> Vec<u8> {
    let mut text = sound(rng);
    for _ in 0..rng.between(1, 3) {
        let byte = if rng.chance(80) { rng.pick(b"\t\n:\\-.01a\r") } else { rng.draw() as u8 };
        let place = rng.below(text.len() as u32 + 1) as usize;
        match rng.below(3) {
            0 => text.insert(place, byte),
            1 if place < text.len() => drop(text.remove(place)),
            _ if place < text.len() => text[place] = byte,
            _ => text.push(byte),
        }
    }
    text
}

fn noise(rng: &mut Rng) -> Vec<u8> {
    some(rng, 0, 14, |rng| vec![rng.pick(b"\t\n:\\-.1aaa")])
}

/// 31 to 34 labels; sequences of 127 to 130 words; both; and either with a fault behind it.
fn at_a_bound(rng: &mut Rng) -> Vec<u8> {
    let mut text = Vec::new();
    let which = rng.between(1, 3);
    if which & 1 == 1 {
        for label in 0..LABELS as u32 - 1 + rng.below(4) {
            text.extend(format!("L{label}\n").bytes());
        }
    }
    if which & 2 == 2 {
        for _ in 0..rng.between(1, 3) {
            text.push(b'\n');
            text.extend(b"L0\ta\n".repeat((LONGEST - 1 + rng.below(4)) as usize));
        }
    }
    if rng.chance(25) {
        text.extend(rng.pick(&["A:", "\\", "\t", "L0\ta:", "L0\ta:1", "L0\\:\ta"]).bytes());
    }
    text
}

// ---- names that meet in a table of slots

/// The library's slots, and where its search for a name begins among them (`home`, crates/distinct): only to make names that
/// meet there. What is owed does not depend on it.
pub const SLOTS: u64 = 131_072;

pub fn hash(name: &[u8]) -> u32 {
    name.iter().fold(0, |hash: u32, byte| hash.wrapping_mul(16_777_619).wrapping_add(u32::from(*byte)))
}

pub fn home(name: &[u8]) -> u64 {
    (u64::from(hash(name).wrapping_mul(2_654_435_769)) * SLOTS) >> 32
}

fn letters(rng: &mut Rng, length: u32) -> Vec<u8> {
    (0..length).map(|_| b'a' + rng.below(26) as u8).collect()
}

/// So many names whose searches begin within these slots.
pub fn names_at(rng: &mut Rng, slots: Range<u64>, count: usize) -> Vec<Vec<u8>> {
    let mut names = BTreeSet::new();
    while names.len() < count {
        let name = letters(rng, 6);
        if slots.contains(&home(&name)) {
            names.insert(name);
        }
    }
    names.into_iter().collect()
}

/// Pairs of names with the same hash; six letters are too few for that.
pub fn twins(rng: &mut Rng, count: usize) -> Vec<Vec<u8>> {
    let (mut seen, mut twins) = (BTreeMap::new(), Vec::new());
    while twins.len() < 2 * count {
        let name = letters(rng, 12);
        match seen.insert(hash(&name), name.clone()) {
            Some(other) if other != name => twins.extend([other, name]),
            _ => {}
        }
    }
    twins
}

/// A text of these names: each once, in this order, then so many drawn.
pub fn text_of(rng: &mut Rng, names: &[Vec<u8>], drawn: usize) -> Vec<u8> {
    let mut text = Vec::new();
    for place in 0..names.len() + drawn {
        text.extend(if place % 7 == 0 { &b"\nA"[..] } else { b"" });
        text.extend(if place % 700 == 0 { &b"\n\nA"[..] } else { b"" });
        text.push(b'\t');
        let name = if place < names.len() { place } else { rng.below(names.len() as u32) as usize };
        text.extend(&names[name]);
    }
    text
}

// ---- tables for the writer

/// What was done to a reader's tables before they are written.
#[derive(Debug, Clone, Copy, PartialEq, Eq)]
pub enum Harm {
    None,
    Labels,
    Count,
    ShortTable,
    Starts,
    Sequence,
    Id,
    Reference,
    Room,
    LabelName,
    AttributeName,
    Scale,
}

const HARMS: [Harm; 11] = [
    Harm::Labels,
    Harm::Count,
    Harm::ShortTable,
    Harm::Starts,
    Harm::Sequence,
    Harm::Id,
    Harm::Reference,
    Harm::Room,
    Harm::LabelName,
    Harm::AttributeName,
    Harm::Scale,
];

/// Tables that a reader filled, with room for what is written; most of them harmed, some twice.
pub fn given(rng: &mut Rng) -> (Given, [Harm; 2]) {
    let text = if rng.chance(95) { sound(rng) } else { at_a_bound(rng) };
    let sequences = layout::sequences(&text).unwrap_or_default();
    let mut given = Given::of(layout::tables(&sequences), usize::MAX);
    let needed = writer::write(&given).map_or(10, |text| text.len());
    given.room = needed + rng.pick(&[0, 0, 1, 7]);
    let mut harms = [Harm::None; 2];
    let how_many = rng.pick(&[0, 1, 1, 1, 2]);
    for which in &mut harms[..how_many] {
        *which = rng.pick(&HARMS);
        harm(rng, &mut given, *which, needed);
    }
    (given, harms)
}

fn harm(rng: &mut Rng, given: &mut Given, harm: Harm, needed: usize) {
    let place = |rng: &mut Rng, length: usize| rng.below(length.max(1) as u32) as usize;
    let tables = &mut given.tables;
    match harm {
        Harm::None => {}
        Harm::Labels => given.labels = rng.pick(&[0, 33, u32::MAX]),
        Harm::Count => {
            let (count, most) = match rng.below(4) {
                0 => (&mut given.attribute_names, rng.pick(&[65_536, u32::MAX])),
                1 => (&mut given.instances, rng.pick(&[0, 16_385, u32::MAX])),
                2 => (&mut given.words, rng.pick(&[1_048_577, u32::MAX])),
                _ => (&mut given.attributes, rng.pick(&[4_194_305, u32::MAX])),
            };
            *count = most;
        }
        Harm::ShortTable => shorten(rng, tables),
        Harm::Starts => {
            let starts = match rng.below(5) {
                0 => &mut tables.line_starts,
                1 => &mut tables.word_starts,
                2 => &mut tables.label_name_starts,
                3 => &mut tables.attribute_name_starts,
                _ => &mut tables.scale_starts,
            };
            if !starts.is_empty() {
                let at = place(rng, starts.len());
                starts[at] = rng.pick(&[0, starts[at].wrapping_add(1), starts[at].wrapping_sub(1), u32::MAX]);
            }
        }
        Harm::Sequence => {
            // a sequence without words, where there are several
            let last = tables.line_starts.len().saturating_sub(1);
            let at = place(rng, last);
            if at > 0 {
                tables.line_starts[at] = tables.line_starts[at + 1];
            } else {
                tables.line_starts.insert(0, 0);
                given.instances = given.instances.wrapping_add(1);
            }
        }
        Harm::Id => {
            let (at, names) = (place(rng, tables.ids.len()), given.attribute_names);
            tables.ids.get_mut(at).into_iter().for_each(|id| *id = rng.pick(&[names, u32::MAX]));
        }
        Harm::Reference => {
            let (at, labels) = (place(rng, tables.references.len()), given.labels);
            tables.references.get_mut(at).into_iter().for_each(|label| *label = rng.pick(&[labels, u32::MAX]));
        }
        Harm::Room => given.room = needed - rng.between(1, 3.min(needed as u32)) as usize,
        Harm::LabelName => {
            spoil(rng, &mut given.labels, &mut tables.label_name_starts, &mut tables.label_names);
        }
        Harm::AttributeName => {
            spoil(rng, &mut given.attribute_names, &mut tables.attribute_name_starts, &mut tables.attribute_names);
        }
        Harm::Scale => {
            let at = place(rng, tables.scales.len());
            tables.scales.get_mut(at).into_iter().for_each(|byte| *byte = rng.pick(b"-.+e:\\\tx"));
        }
    }
}

/// A tab or a line feed in a name, a name without bytes among the others, or one more behind them that nothing names.
fn spoil(rng: &mut Rng, count: &mut u32, starts: &mut Vec<u32>, names: &mut [u8]) {
    let inner = starts.len().saturating_sub(2) as u32;
    match rng.below(3) {
        0 if inner > 0 => {
            let at = 1 + rng.below(inner) as usize;
            starts[at] = starts[at + 1];
        }
        1 => {
            starts.extend(starts.last().copied());
            *count = count.wrapping_add(1);
        }
        _ => {
            let at = rng.below(names.len().max(1) as u32) as usize;
            names.get_mut(at).into_iter().for_each(|byte| *byte = rng.pick(b"\t\n"));
        }
    }
}

fn shorten(rng: &mut Rng, tables: &mut Tables) {
    let Tables { line_starts, word_starts, ids, references, label_name_starts, attribute_name_starts, .. } = tables;
    match rng.below(10) {
        0 => drop(line_starts.pop()),
        1 => drop(word_starts.pop()),
        2 => drop(ids.pop()),
        3 => drop(references.pop()),
        4 => drop(label_name_starts.pop()),
        5 => drop(tables.label_names.pop()),
        6 => drop(attribute_name_starts.pop()),
        7 => drop(tables.attribute_names.pop()),
        8 => drop(tables.scale_starts.pop()),
        _ => drop(tables.scales.pop()),
    }
}
