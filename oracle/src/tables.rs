//! What the calls take: flat tables, with their counts as numbers of their own. A table may be longer than its count
//! needs; what lies past the count is nobody's.

/// Counts of a model's tables.
#[derive(Debug, Clone, Copy, PartialEq, Eq, Default)]
pub struct Counts {
    pub features: u32,
    pub attribute_lists: u32,
    pub label_lists: u32,
    pub attribute_entries: u32,
    pub label_entries: u32,
}

/// "A feature has kind, source, destination and weight"; the lists of features lie flat, behind starts.
#[derive(Debug, Clone, PartialEq, Default)]
pub struct Model {
    pub labels: u32,
    pub counts: Counts,
    pub kinds: Vec<u8>,
    pub destinations: Vec<u32>,
    pub sources: Vec<u32>,
    pub weights: Vec<f64>,
    pub attribute_starts: Vec<u32>,
    pub attribute_entries: Vec<u32>,
    pub label_starts: Vec<u32>,
    pub label_entries: Vec<u32>,
}

pub const STATE: u8 = 0;
pub const TRANSITION: u8 = 1;

/// One line: T words, and for each word its attributes.
#[derive(Debug, Clone, PartialEq, Default)]
pub struct Line {
    pub words: u32,
    pub attributes: u32,
    pub starts: Vec<u32>,
    pub ids: Vec<u32>,
    pub values: Vec<f64>,
}

/// The instances of a training call: instance to words, word to attributes.
#[derive(Debug, Clone, PartialEq, Default)]
pub struct Data {
    pub instances: u32,
    pub words: u32,
    pub attributes: u32,
    pub word_starts: Vec<u32>,
    pub attribute_starts: Vec<u32>,
    pub ids: Vec<u32>,
    pub values: Vec<f64>,
    pub references: Vec<u32>,
    pub weights: Vec<f64>,
}

/// "State scores lie word by word, transitions by previous label."
#[derive(Debug, Clone, PartialEq, Default)]
pub struct Scores {
    pub labels: u32,
    pub words: u32,
    pub states: Vec<f64>,
    pub transitions: Vec<f64>,
}

/// The update rule of a trainer, with the parameters of its own.
#[derive(Debug, Clone, Copy, PartialEq)]
pub enum Rule {
    Perceptron,
    PassiveAggressive {
        /// 0 Pa, 1 PaI, 2 PaII.
        variant: u32,
        c: f64,
        error_sensitive: bool,
        averaging: bool,
    },
    Arow {
        variance: f64,
        gamma: f64,
    },
}

/// What a trainer is told beside the tables.
#[derive(Debug, Clone, Copy, PartialEq)]
pub struct Settings {
    pub rule: Rule,
    pub epochs: u32,
    pub epsilon: f64,
    pub seed: u64,
}

/// What an accepted training call answers.
#[derive(Debug, Clone, PartialEq)]
pub struct Trained {
    pub weights: Vec<f64>,
    pub epochs: u64,
    pub visits: u64,
    pub updates: u64,
}

impl Scores {
    pub fn state(&self, word: usize, label: usize) -> f64 {
        self.states[word * self.labels as usize + label]
    }

    pub fn transition(&self, previous: usize, next: usize) -> f64 {
        self.transitions[previous * self.labels as usize + next]
    }
}

impl Data {
    /// Instance i as a line of its own, with starts from 0. The starts have to keep their rules.
    pub fn line(&self, i: usize) -> Line {
        let (first, end) = (self.word_starts[i] as usize, self.word_starts[i + 1] as usize);
        let starts = &self.attribute_starts[first..=end];
        let (from, to) = (starts[0] as usize, starts[end - first] as usize);
        Line {
            words: (end - first) as u32,
            attributes: (to - from) as u32,
            starts: starts.iter().map(|start| start - from as u32).collect(),
            ids: self.ids[from..to].to_vec(),
            values: self.values[from..to].to_vec(),
        }
    }

    /// The reference labels of instance i.
    pub fn references(&self, i: usize) -> &[u32] {
        &self.references[self.word_starts[i] as usize..self.word_starts[i + 1] as usize]
    }
}

/// The same number to the bit, where a NaN is the same as any other NaN.
pub fn same(x: f64, y: f64) -> bool {
    x.to_bits() == y.to_bits() || (x.is_nan() && y.is_nan())
}

/// `same` at every place.
pub fn all_same(xs: &[f64], ys: &[f64]) -> bool {
    xs.len() == ys.len() && xs.iter().zip(ys).all(|(x, y)| same(*x, *y))
}
