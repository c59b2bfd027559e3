//! The declarations of include/bodkinbloom.h. Nothing holds one against the other but the runs.

use oracle::tables;

#[repr(C)]
#[derive(Debug, Clone, Copy, PartialEq, Eq)]
pub struct Refused {
    pub number: u32,
    pub place: u64,
}

#[repr(C)]
#[derive(Debug, Clone, Copy, PartialEq)]
pub struct Decoded {
    pub number: u32,
    pub has_lead: u32,
    pub place: u64,
    pub sum: f64,
    pub lead: f64,
}

#[repr(C)]
#[derive(Debug, Clone, Copy, PartialEq)]
pub struct Scored {
    pub number: u32,
    pub place: u64,
    pub score: f64,
}

#[repr(C)]
#[derive(Debug, Clone, Copy, PartialEq, Eq)]
pub struct Counts {
    pub features: u32,
    pub attribute_lists: u32,
    pub label_lists: u32,
    pub attribute_entries: u32,
    pub label_entries: u32,
}

#[repr(C)]
#[derive(Debug, Clone, Copy, PartialEq)]
pub struct AveragedPerceptronParameters {
    pub epochs: u32,
    pub epsilon: f64,
    pub seed: u64,
}

#[repr(C)]
#[derive(Debug, Clone, Copy, PartialEq)]
pub struct PassiveAggressiveParameters {
    pub epochs: u32,
    pub epsilon: f64,
    pub seed: u64,
    pub variant: u32,
    pub c: f64,
    pub error_sensitive: u32,
    pub averaging: u32,
}

#[repr(C)]
#[derive(Debug, Clone, Copy, PartialEq)]
pub struct ArowParameters {
    pub epochs: u32,
    pub epsilon: f64,
    pub seed: u64,
    pub variance: f64,
    pub gamma: f64,
}

#[repr(C)]
#[derive(Debug, Clone, Copy, PartialEq, Eq)]
pub struct Totals {
    pub instances: u32,
    pub words_in_all: u32,
    pub attributes_in_all: u32,
}

#[repr(C)]
#[derive(Debug, Clone, Copy, PartialEq, Eq)]
pub struct Trained {
    pub number: u32,
    pub place: u64,
    pub epochs: u64,
    pub visits: u64,
    pub updates: u64,
}

#[repr(C)]
#[derive(Debug, Clone, Copy, PartialEq, Eq)]
pub struct Text {
    pub number: u32,
    pub place: u64,
    pub labels: u32,
    pub attribute_names: u32,
    pub instances: u32,
    pub words_in_all: u32,
    pub attributes_in_all: u32,
    pub label_bytes: u32,
    pub attribute_bytes: u32,
    pub scale_bytes: u32,
}

#[repr(C)]
#[derive(Debug, Clone, Copy, PartialEq, Eq)]
pub struct Names {
    pub attribute_names: u32,
    pub label_bytes: u32,
    pub attribute_bytes: u32,
    pub scale_bytes: u32,
}

#[repr(C)]
#[derive(Debug, Clone, Copy, PartialEq, Eq)]
pub struct Written {
    pub number: u32,
    pub place: u64,
    pub length: u64,
}

impl From<tables::Counts> for Counts {
    fn from(counts: tables::Counts) -> Self {
        let tables::Counts { features, attribute_lists, label_lists, attribute_entries, label_entries } = counts;
        Self { features, attribute_lists, label_lists, attribute_entries, label_entries }
    }
}

unsafe extern "C" {
    pub fn bodkinbloom_draw(state: &mut u64) -> u64;
    pub fn bodkinbloom_shuffle(state: &mut u64, order: *mut u32, length: usize) -> Refused;

    pub fn bodkinbloom_viterbi_decode(
        labels: u32,
        words: u32,
        transitions: *const f64,
        transitions_length: usize,
        states: *const f64,
        states_length: usize,
        path: *mut u32,
        path_length: usize,
    ) -> Decoded;

    pub fn bodkinbloom_sequence_score(
        labels: u32,
        words: u32,
        transitions: *const f64,
        transitions_length: usize,
        states: *const f64,
        states_length: usize,
        path: *const u32,
        path_length: usize,
        length: u32,
    ) -> Scored;
}

/// Calls that take numbers, tables, numbers, tables, and buffers to change: each of those in brackets is a pointer, then
/// its length.
macro_rules! declared {
    ($(fn $name:ident(
        $($number:ident: $of:ty),*; [$($table:ident: $entry:ty),*];
        $($more:ident: $kind:ty),*; [$($line:ident: $part:ty),*];
        mut [$($buffer:ident: $lent:ty),*]
    ) -> $answer:ty;)*) => {
        unsafe extern "C" {
            $(pub fn $name(
                $($number: $of,)* $($table: *const $entry, _: usize,)*
                $($more: $kind,)* $($line: *const $part, _: usize,)*
                $($buffer: *mut $lent, _: usize,)*
            ) -> $answer;)*
        }
    };
}

declared! {
    fn bodkinbloom_check_model(
        labels: u32, counts: Counts;
        [kinds: u8, destinations: u32, sources: u32, weights: f64,
         attribute_starts: u32, attribute_entries: u32, label_starts: u32, label_entries: u32];
        ; []; mut []
    ) -> Refused;

    fn bodkinbloom_set_weights(features: u32; [new_weights: f64]; ; []; mut [weights: f64]) -> Refused;

    fn bodkinbloom_compute_scores(
        labels: u32, counts: Counts;
        [kinds: u8, destinations: u32, sources: u32, weights: f64,
         attribute_starts: u32, attribute_entries: u32, label_starts: u32, label_entries: u32];
        words: u32, attributes: u32; [word_starts: u32, ids: u32, values: f64];
        mut [transitions: f64, states: f64]
    ) -> Refused;

    fn bodkinbloom_extract_features(
        labels: u32, counts: Counts;
        [kinds: u8, destinations: u32, sources: u32,
         attribute_starts: u32, attribute_entries: u32, label_starts: u32, label_entries: u32];
        words: u32, attributes: u32; [word_starts: u32, ids: u32, values: f64, path: u32];
        mut [feature_counts: f64]
    ) -> Refused;

    fn bodkinbloom_label_line(
        labels: u32, counts: Counts;
        [kinds: u8, destinations: u32, sources: u32, weights: f64,
         attribute_starts: u32, attribute_entries: u32, label_starts: u32, label_entries: u32];
        words: u32, attributes: u32; [word_starts: u32, ids: u32, values: f64];
        mut [path: u32]
    ) -> Decoded;

    fn bodkinbloom_averaged_perceptron(
        parameters: AveragedPerceptronParameters, labels: u32, counts: Counts;
        [kinds: u8, destinations: u32, sources: u32,
         attribute_starts: u32, attribute_entries: u32, label_starts: u32, label_entries: u32];
        totals: Totals;
        [line_starts: u32, word_starts: u32, ids: u32, values: f64, references: u32, instance_weights: f64];
        mut [weights: f64, running_sums: f64, true_counts: f64, predicted_counts: f64, order: u32]
    ) -> Trained;

    fn bodkinbloom_passive_aggressive(
        parameters: PassiveAggressiveParameters, labels: u32, counts: Counts;
        [kinds: u8, destinations: u32, sources: u32,
         attribute_starts: u32, attribute_entries: u32, label_starts: u32, label_entries: u32];
        totals: Totals;
        [line_starts: u32, word_starts: u32, ids: u32, values: f64, references: u32, instance_weights: f64];
        mut [weights: f64, running_sums: f64, true_counts: f64, predicted_counts: f64, order: u32]
    ) -> Trained;

    fn bodkinbloom_arow(
        parameters: ArowParameters, labels: u32, counts: Counts;
        [kinds: u8, destinations: u32, sources: u32,
         attribute_starts: u32, attribute_entries: u32, label_starts: u32, label_entries: u32];
        totals: Totals;
        [line_starts: u32, word_starts: u32, ids: u32, values: f64, references: u32, instance_weights: f64];
        mut [weights: f64, covariance: f64, true_counts: f64, predicted_counts: f64, order: u32]
    ) -> Trained;

    fn bodkinbloom_text_sizes(; [text: u8]; ; []; mut []) -> Text;

    fn bodkinbloom_read_text(
        ; [text: u8]; ; [];
        mut [line_starts: u32, word_starts: u32, ids: u32, values: f64, references: u32, instance_weights: f64,
             label_name_starts: u32, label_names: u8, attribute_name_starts: u32, attribute_names: u8,
             scale_starts: u32, scales: u8]
    ) -> Text;

    fn bodkinbloom_write_text(
        labels: u32, totals: Totals, names: Names;
        [line_starts: u32, word_starts: u32, ids: u32, references: u32, label_name_starts: u32, label_names: u8,
         attribute_name_starts: u32, attribute_names: u8, scale_starts: u32, scales: u8];
        ; [];
        mut [text: u8]
    ) -> Written;
}
