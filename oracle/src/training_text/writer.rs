//! Tables to the text that is owed, by document 02: "a writer, which uses the kept text". Names and kept texts are cut out of
//! their tables first, words are put together from them, and nothing is fast.

use super::layout::scale_fault;
use super::{ATTRIBUTE_NAMES, ATTRIBUTES, INSTANCES, LABELS, LONGEST, Refused, Tables, WORDS};

/// What the writer is lent: the reader's tables but values and weights, and the counts beside them.
#[derive(Debug, Clone, PartialEq)]
pub struct Given {
    pub labels: u32,
    pub instances: u32,
    pub words: u32,
    pub attributes: u32,
    pub attribute_names: u32,
    pub label_bytes: u32,
    pub attribute_bytes: u32,
    pub scale_bytes: u32,
    pub tables: Tables,
    /// The length of the text's buffer.
    pub room: usize,
}

impl Given {
    /// A reader's tables, whole.
    pub fn of(tables: Tables, room: usize) -> Self {
        let sizes = tables.sizes();
        Self {
            labels: sizes.labels,
            instances: sizes.instances,
            words: sizes.words,
            attributes: sizes.attributes,
            attribute_names: sizes.attribute_names,
            label_bytes: sizes.label_bytes,
            attribute_bytes: sizes.attribute_bytes,
            scale_bytes: sizes.scale_bytes,
            tables,
            room,
        }
    }
}

/// The text that is owed; "in the writer a name or scale the layout cannot carry is 11, its place the index in its table,
/// labels, then attributes, then scales", and last.
pub fn write(given: &Given) -> Result<Vec<u8>, Refused> {
    sound(given)?;
    let Given { tables, .. } = given;
    let labels = cut(&tables.label_name_starts, given.labels, &tables.label_names);
    let names = cut(&tables.attribute_name_starts, given.attribute_names, &tables.attribute_names);
    let scales = cut(&tables.scale_starts, given.attributes, &tables.scales);

    let mut text = Vec::new();
    for line in tables.line_starts[..=given.instances as usize].windows(2) {
        for word in line[0] as usize..line[1] as usize {
            text.extend(escaped(labels[tables.references[word] as usize]));
            for place in tables.word_starts[word] as usize..tables.word_starts[word + 1] as usize {
                text.push(b'\t');
                text.extend(escaped(names[tables.ids[place] as usize]));
                if !scales[place].is_empty() {
                    text.push(b':');
                    text.extend(scales[place]);
                }
            }
            text.push(b'\n');
        }
        text.push(b'\n');
    }
    if text.len() > given.room {
        return Err((2, 0));
    }
    for list in [&labels, &names] {
        first(11, list.iter().position(|name| cannot_be_carried(name)))?;
    }
    first(11, scales.iter().position(|scale| !scale.is_empty() && scale_fault(scale).is_some()))?;
    Ok(text)
}

/// 1 to 5 of the tables.
fn sound(given: &Given) -> Result<(), Refused> {
    let Given { labels, instances, words, attributes, attribute_names, tables, .. } = given;
    let [n, w, a, names] = [*instances, *words, *attributes, *attribute_names].map(|count| count as usize);
    if *labels < 1 || *labels as usize > LABELS {
        return Err((1, 0));
    }
    if names > ATTRIBUTE_NAMES || n < 1 || n > INSTANCES || w > WORDS || a > ATTRIBUTES {
        return Err((2, 0));
    }
    let short = tables.line_starts.len() < n + 1
        || tables.word_starts.len() < w + 1
        || tables.ids.len() < a
        || tables.references.len() < w
        || tables.label_name_starts.len() < *labels as usize + 1
        || tables.label_names.len() < given.label_bytes as usize
        || tables.attribute_name_starts.len() < names + 1
        || tables.attribute_names.len() < given.attribute_bytes as usize
        || tables.scale_starts.len() < a + 1
        || tables.scales.len() < given.scale_bytes as usize;
    if short {
        return Err((2, 0));
    }
    for (starts, lists, entries) in [
        (&tables.line_starts, n, *words),
        (&tables.word_starts, w, *attributes),
        (&tables.label_name_starts, *labels as usize, given.label_bytes),
        (&tables.attribute_name_starts, names, given.attribute_bytes),
        (&tables.scale_starts, a, given.scale_bytes),
    ] {
        first(3, bad_start(&starts[..=lists], entries))?;
    }
    let empty_or_long = |pair: &[u32]| pair[0] == pair[1] || pair[1] - pair[0] > LONGEST;
    first(4, tables.line_starts[..=n].windows(2).position(empty_or_long))?;
    first(5, tables.ids[..a].iter().position(|id| id >= attribute_names))?;
    first(5, tables.references[..w].iter().position(|label| label >= labels))
}

fn first(number: u32, place: Option<usize>) -> Result<(), Refused> {
    place.map_or(Ok(()), |place| Err((number, place as u64)))
}

/// "First 0, never falling, last equal to the entry count."
fn bad_start(starts: &[u32], entries: u32) -> Option<usize> {
    let last = starts.len() - 1;
    (0..=last)
        .find(|&i| i == 0 && starts[0] != 0 || i > 0 && starts[i] < starts[i - 1] || i == last && starts[i] != entries)
}

fn cut<'a>(starts: &[u32], lists: u32, entries: &'a [u8]) -> Vec<&'a [u8]> {
    starts[..=lists as usize].windows(2).map(|pair| &entries[pair[0] as usize..pair[1] as usize]).collect()
}

fn escaped(name: &[u8]) -> Vec<u8> {
    name.iter().flat_map(|byte| if b":\\".contains(byte) { vec![b'\\', *byte] } else { vec![*byte] }).collect()
}

fn cannot_be_carried(name: &[u8]) -> bool {
    name.is_empty() || name.contains(&b'\t') || name.contains(&b'\n')
}
