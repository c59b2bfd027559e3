//! The training text (document 02, W1), read and written a second time: from the words of the request alone, and not from any
//! code of the product.
//!
//! - `layout`: a text's bytes to its tables, or the refusal that is owed: line by line, field by field.
//! - `writer`: tables to the text that is owed, or the refusal.
//! - `plain`: a reader and a writer as one would write them for speed, in one pass: the yardstick of the bench.
//! - `cases`: seeded texts and tables, good and damaged, each with what it is.
//! - `stored`: the fixed texts that the repository replays, with the answer that is owed for each.
//! - `report`: what the C program that reads a text has to print.

pub mod cases;
pub mod layout;
pub mod plain;
pub mod report;
pub mod stored;
pub mod writer;

/// A refusal's number and place.
pub type Refused = (u32, u64);

pub const LABELS: usize = 32;
pub const ATTRIBUTE_NAMES: usize = 65_535;
pub const INSTANCES: usize = 16_384;
pub const WORDS: usize = 1_048_576;
pub const ATTRIBUTES: usize = 4_194_304;
/// Of a sequence.
pub const LONGEST: u32 = 128;

/// The twelve tables, in the call's order.
#[derive(Debug, Clone, Default, PartialEq)]
pub struct Tables {
    pub line_starts: Vec<u32>,
    pub word_starts: Vec<u32>,
    pub ids: Vec<u32>,
    pub values: Vec<f64>,
    pub references: Vec<u32>,
    pub instance_weights: Vec<f64>,
    pub label_name_starts: Vec<u32>,
    pub label_names: Vec<u8>,
    pub attribute_name_starts: Vec<u32>,
    pub attribute_names: Vec<u8>,
    pub scale_starts: Vec<u32>,
    pub scales: Vec<u8>,
}

/// What is counted in a text.
#[derive(Debug, Clone, Copy, Default, PartialEq, Eq)]
pub struct Sizes {
    pub labels: u32,
    pub attribute_names: u32,
    pub instances: u32,
    pub words: u32,
    pub attributes: u32,
    pub label_bytes: u32,
    pub attribute_bytes: u32,
    pub scale_bytes: u32,
}

/// How long each of the twelve is.
pub type Rooms = [usize; 12];

pub const NAMES: [&str; 12] = [
    "line_starts",
    "word_starts",
    "ids",
    "values",
    "references",
    "instance_weights",
    "label_name_starts",
    "label_names",
    "attribute_name_starts",
    "attribute_names",
    "scale_starts",
    "scales",
];

impl Tables {
    /// Tables that hold nothing: every list of lists has its first start.
    pub fn empty() -> Self {
        let mut tables = Self::default();
        tables.clear();
        tables
    }

    pub fn clear(&mut self) {
        let Self { line_starts, word_starts, label_name_starts, attribute_name_starts, scale_starts, .. } = self;
        for starts in [line_starts, word_starts, label_name_starts, attribute_name_starts, scale_starts] {
            starts.clear();
            starts.push(0);
        }
        for numbers in [&mut self.values, &mut self.instance_weights] {
            numbers.clear();
        }
        for bytes in [&mut self.label_names, &mut self.attribute_names, &mut self.scales] {
            bytes.clear();
        }
        self.ids.clear();
        self.references.clear();
    }

    pub fn rooms(&self) -> Rooms {
        [
            self.line_starts.len(),
            self.word_starts.len(),
            self.ids.len(),
            self.values.len(),
            self.references.len(),
            self.instance_weights.len(),
            self.label_name_starts.len(),
            self.label_names.len(),
            self.attribute_name_starts.len(),
            self.attribute_names.len(),
            self.scale_starts.len(),
            self.scales.len(),
        ]
    }

    pub fn sizes(&self) -> Sizes {
        Sizes {
            labels: self.label_name_starts.len() as u32 - 1,
            attribute_names: self.attribute_name_starts.len() as u32 - 1,
            instances: self.line_starts.len() as u32 - 1,
            words: self.references.len() as u32,
            attributes: self.ids.len() as u32,
            label_bytes: self.label_names.len() as u32,
            attribute_bytes: self.attribute_names.len() as u32,
            scale_bytes: self.scales.len() as u32,
        }
    }

    /// The same to the bit: −0 is not +0.
    pub fn same(&self, other: &Self) -> bool {
        let bits = |tables: &Self| tables.values.iter().map(|x| x.to_bits()).collect::<Vec<_>>();
        self == other && bits(self) == bits(other)
    }
}

/// The bounds of document 01, and one word at the least.
pub fn counts_are_bad(tables: &Tables) -> bool {
    tables.label_name_starts.len() - 1 > LABELS
        || tables.attribute_name_starts.len() - 1 > ATTRIBUTE_NAMES
        || !(1..=INSTANCES).contains(&(tables.line_starts.len() - 1))
        || tables.references.len() > WORDS
        || tables.ids.len() > ATTRIBUTES
}

pub fn is_short(rooms: &Rooms, needed: &Rooms) -> bool {
    rooms.iter().zip(needed).any(|(room, needed)| room < needed)
}

/// The first sequence of more than 128 words.
pub fn too_long(line_starts: &[u32]) -> Option<u64> {
    line_starts.windows(2).position(|pair| pair[1] - pair[0] > LONGEST).map(|place| place as u64)
}
