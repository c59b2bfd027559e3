//! What the C program `read_text` has to print for a text: how much is in it, its names; or the refusal, with line and column.

use super::layout::{self, Fault};
use super::{ATTRIBUTE_NAMES, ATTRIBUTES, INSTANCES, LABELS, LONGEST, Sizes, Tables, WORDS};

/// Attributes that are named, and bytes of a name or a line.
const SHOWN: usize = 10;
const BYTES_SHOWN: usize = 60;

pub fn report(name: &str, text: &[u8]) -> String {
    match layout::read(text, &[usize::MAX; 12]) {
        Ok(tables) => format!("{name}: {} bytes\n{}", text.len(), accepted(&tables)),
        Err((number, place)) => {
            format!("{name} is refused, number {number}, place {place}: {}", refused(text, number, place as usize))
        }
    }
}

/// All but plain ASCII is spelled out.
fn shown(bytes: &[u8]) -> String {
    let one = |byte: &u8| match byte {
        b' '..=b'~' => char::from(*byte).to_string(),
        b'\t' => "\\t".to_string(),
        _ => format!("\\x{byte:02X}"),
    };
    let front: String = bytes.iter().take(BYTES_SHOWN).map(one).collect();
    let rest = if bytes.len() > BYTES_SHOWN { format!("... ({} bytes)", bytes.len()) } else { String::new() };
    front + &rest
}

fn counted(count: usize, what: &str) -> String {
    format!("{count} {what}{}", if count == 1 { "" } else { "s" })
}

fn accepted(tables: &Tables) -> String {
    let Sizes { instances, words, attributes, .. } = tables.sizes();
    let longest = tables.line_starts.windows(2).map(|pair| pair[1] - pair[0]).max().unwrap_or(0);
    let with_scale = tables.scale_starts.windows(2).filter(|pair| pair[0] < pair[1]).count();
    let head = format!(
        "{}, {} (at most {longest} in a sequence), {}, {with_scale} of them with a scale\n",
        counted(instances as usize, "sequence"),
        counted(words as usize, "word"),
        counted(attributes as usize, "attribute"),
    );
    let labels = list("label", usize::MAX, &tables.label_name_starts, &tables.label_names, &tables.references);
    let names = list("attribute name", SHOWN, &tables.attribute_name_starts, &tables.attribute_names, &tables.ids);
    head + &labels + if tables.ids.is_empty() { "" } else { &names }
}

fn list(what: &str, most: usize, starts: &[u32], bytes: &[u8], uses: &[u32]) -> String {
    let names = starts.len() - 1;
    let front = if most < names { format!(", the first {most}") } else { String::new() };
    let mut text = format!("{}{front}:\n", counted(names, what));
    for (id, pair) in starts.windows(2).enumerate().take(most) {
        let times = uses.iter().filter(|used| **used as usize == id).count();
        text += &format!("{times:10} x  {}\n", shown(&bytes[pair[0] as usize..pair[1] as usize]));
    }
    text
}

fn refused(text: &[u8], number: u32, place: usize) -> String {
    match number {
        11 => malformed(text, place),
        4 => {
            let line = line_of_sequence(text, place);
            format!(
                "the sequence that begins in line {line} has more than {LONGEST} words; an empty line ends a sequence\n"
            )
        }
        _ => format!(
            "there is no word in it, or more than there may be of something: {LABELS} labels, {ATTRIBUTE_NAMES} attribute \
             names, {INSTANCES} sequences,\n{WORDS} words, {ATTRIBUTES} attributes\n"
        ),
    }
}

fn malformed(text: &[u8], place: usize) -> String {
    let fault = layout::sequences(text).expect_err("a malformed text").0;
    let said = match fault {
        Fault::EmptyField | Fault::EmptyName => "a field or a name is empty",
        Fault::ColonInLabel => "a bare colon stands in a label: write \\: for it",
        Fault::EscapeOfAnother | Fault::EscapeOfNothing => {
            "a backslash stands before something other than a colon or a backslash"
        }
        Fault::EmptyScale | Fault::NoDigit | Fault::SixteenthDigit | Fault::NotOfAScale => {
            "no scale: it has an optional minus, 1 to 15 digits and at most one point"
        }
    };
    let before = &text[..place];
    let line = before.split(|byte| *byte == b'\n').next_back().expect("a line");
    let rest = text[place..].split(|byte| *byte == b'\n').next().expect("a rest");
    let ends = if place == text.len() { ", where the text ends" } else { "" };
    let cut = line.len().saturating_sub(BYTES_SHOWN);
    format!(
        "malformed in line {}, column {}{ends}: {said}\nthe line up to there: {}{}\nand from there:       {}\n",
        before.iter().filter(|byte| **byte == b'\n').count() + 1,
        line.len() + 1,
        if cut > 0 { "..." } else { "" },
        shown(&line[cut..]),
        shown(rest),
    )
}

/// Lines are counted from 1, sequences from 0: its first word is the first of a run of lines that are not empty.
fn line_of_sequence(text: &[u8], sequence: usize) -> usize {
    let lines: Vec<&[u8]> = text.split(|byte| *byte == b'\n').collect();
    let begins = |&at: &usize| !lines[at].is_empty() && (at == 0 || lines[at - 1].is_empty());
    (0..lines.len()).filter(begins).nth(sequence).expect("a sequence") + 1
}
