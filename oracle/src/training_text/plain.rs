//! A reader and a writer as one would write them in Rust for speed, without proofs: the yardstick of the bench. The text is gone
//! through once; names are looked up in the standard library's HashMap, borrowed from the text as they stand there (each name is
//! written in one way only), and no string is made of a field.

use std::collections::HashMap;
use std::collections::hash_map::Entry;

use super::{Refused, Sizes, Tables, counts_are_bad, too_long};

const TENS: [f64; 16] = [1e0, 1e1, 1e2, 1e3, 1e4, 1e5, 1e6, 1e7, 1e8, 1e9, 1e10, 1e11, 1e12, 1e13, 1e14, 1e15];

/// Fills tables, which it clears first, and says what was counted: 11, 2 and 4 as the call gives them where it has room.
pub fn read(text: &[u8], tables: &mut Tables) -> Result<Sizes, Refused> {
    let long = fill(text, tables)?;
    if counts_are_bad(tables) {
        return Err((2, 0));
    }
    long.map_or(Ok(tables.sizes()), |place| Err((4, place)))
}

/// The tables, whatever their counts are, and the first sequence that is too long; or 11.
pub fn fill<'a>(text: &'a [u8], tables: &mut Tables) -> Result<Option<u64>, Refused> {
    tables.clear();
    let mut labels: HashMap<&'a [u8], u32> = HashMap::new();
    let mut names: HashMap<&'a [u8], u32> = HashMap::new();
    let mut at = 0;
    loop {
        if at == text.len() || text[at] == b'\n' {
            end_of_sequence(tables);
            if at == text.len() {
                return Ok(too_long(&tables.line_starts));
            }
            at += 1;
            continue;
        }
        let end = name(text, at)?;
        if text.get(end) == Some(&b':') {
            return Err((11, end as u64));
        }
        let Tables { label_names, label_name_starts, .. } = tables;
        let label = id(&mut labels, &text[at..end], label_name_starts, label_names);
        tables.references.push(label);
        at = end;
        while text.get(at) == Some(&b'\t') {
            at = attribute(text, at + 1, &mut names, tables)?;
        }
        tables.word_starts.push(tables.ids.len() as u32);
        // over the line feed that ends the line
        at += usize::from(at < text.len());
    }
}

fn end_of_sequence(tables: &mut Tables) {
    let words = tables.references.len() as u32;
    if tables.line_starts.last() != Some(&words) {
        tables.line_starts.push(words);
        tables.instance_weights.push(1.0);
    }
}

/// An attribute that begins here; where it ends.
fn attribute<'a>(
    text: &'a [u8],
    at: usize,
    names: &mut HashMap<&'a [u8], u32>,
    tables: &mut Tables,
) -> Result<usize, Refused> {
    let mut end = name(text, at)?;
    let Tables { attribute_names, attribute_name_starts, .. } = tables;
    let id = id(names, &text[at..end], attribute_name_starts, attribute_names);
    tables.ids.push(id);
    let mut value = 1.0;
    if text.get(end) == Some(&b':') {
        let from = end + 1;
        (value, end) = scale(text, from)?;
        tables.scales.extend_from_slice(&text[from..end]);
    }
    tables.values.push(value);
    tables.scale_starts.push(tables.scales.len() as u32);
    Ok(end)
}

/// Where a name that begins here ends.
fn name(text: &[u8], from: usize) -> Result<usize, Refused> {
    let mut at = from;
    while at < text.len() {
        match text[at] {
            b'\t' | b'\n' | b':' => break,
            b'\\' => {
                if !matches!(text.get(at + 1), Some(b':' | b'\\')) {
                    return Err((11, at as u64 + 1));
                }
                at += 2;
            }
            _ => at += 1,
        }
    }
    if at == from { Err((11, at as u64)) } else { Ok(at) }
}

/// A scale that begins here: its value, and where it ends.
fn scale(text: &[u8], from: usize) -> Result<(f64, usize), Refused> {
    let minus = text.get(from) == Some(&b'-');
    let (mut at, mut digits, mut whole, mut point) = (from + usize::from(minus), 0u32, 0u64, None);
    while at < text.len() {
        match text[at] {
            byte @ b'0'..=b'9' if digits < 15 => {
                whole = 10 * whole + u64::from(byte - b'0');
                digits += 1;
            }
            b'.' if point.is_none() => point = Some(digits),
            b'\t' | b'\n' if digits > 0 => break,
            _ => return Err((11, at as u64)),
        }
        at += 1;
    }
    if digits == 0 {
        return Err((11, at as u64));
    }
    let value = whole as f64 / TENS[point.map_or(0, |point| digits - point) as usize];
    Ok((if minus { -value } else { value }, at))
}

fn id<'a>(ids: &mut HashMap<&'a [u8], u32>, raw: &'a [u8], starts: &mut Vec<u32>, names: &mut Vec<u8>) -> u32 {
    let next = ids.len() as u32;
    match ids.entry(raw) {
        Entry::Occupied(known) => *known.get(),
        Entry::Vacant(new) => {
            new.insert(next);
            unescape(raw, names);
            starts.push(names.len() as u32);
            next
        }
    }
}

fn unescape(raw: &[u8], names: &mut Vec<u8>) {
    let mut rest = raw;
    while let Some(at) = rest.iter().position(|byte| *byte == b'\\') {
        names.extend_from_slice(&rest[..at]);
        names.push(rest[at + 1]);
        rest = &rest[at + 2..];
    }
    names.extend_from_slice(rest);
}

/// Writes sound tables, and tests nothing.
pub fn write(tables: &Tables, text: &mut Vec<u8>) {
    text.clear();
    let list = |starts: &[u32], i: usize| starts[i] as usize..starts[i + 1] as usize;
    for line in tables.line_starts.windows(2) {
        for word in line[0] as usize..line[1] as usize {
            let label = tables.references[word] as usize;
            escape(&tables.label_names[list(&tables.label_name_starts, label)], text);
            for place in list(&tables.word_starts, word) {
                text.push(b'\t');
                let name = tables.ids[place] as usize;
                escape(&tables.attribute_names[list(&tables.attribute_name_starts, name)], text);
                let kept = &tables.scales[list(&tables.scale_starts, place)];
                if !kept.is_empty() {
                    text.push(b':');
                    text.extend_from_slice(kept);
                }
            }
            text.push(b'\n');
        }
        text.push(b'\n');
    }
}

fn escape(name: &[u8], text: &mut Vec<u8>) {
    for byte in name {
        if matches!(byte, b':' | b'\\') {
            text.push(b'\\');
        }
        text.push(*byte);
    }
}
