//! Document 01's table of numbered refusals, read plainly: for each kind of call the number and the place, or none.
//!
//! The rows are written once and each call lists them in the order that it tests them. 8 and 9 of a trainer need its
//! visits and stand in `trace`.

use crate::tables::{Counts, Data, Line, Model, Rule, STATE, Scores, Settings, TRANSITION};

#[derive(Debug, Clone, Copy, PartialEq, Eq, PartialOrd, Ord)]
pub struct Refusal {
    pub number: u32,
    pub place: u32,
}

pub type Checked = Result<(), Refusal>;

/// A result or work buffer that a call is lent beside its tables.
#[derive(Debug, Clone, Copy, PartialEq, Eq)]
pub struct Lent {
    pub length: usize,
    pub needed: usize,
}

pub const LABELS: u32 = 32;
pub const WORDS: u32 = 128;
pub const FEATURES: u32 = 65_535;
pub const ATTRIBUTE_LISTS: u32 = 65_535;
pub const LABEL_LISTS: u32 = 32;
pub const ENTRIES: u32 = 1_048_576;
pub const INSTANCES: u32 = 16_384;
pub const WORDS_IN_ALL: u32 = 1_048_576;
pub const ATTRIBUTES_IN_ALL: u32 = 4_194_304;
pub const EPOCHS: u32 = 1_000;

// ---- the calls

/// Decoding given score tables: 1, 4, 2, 6.
pub fn decode(scores: &Scores, lent: &[Lent]) -> Checked {
    one(scores.labels)?;
    four(scores.words)?;
    two(short_scores(scores) || short_buffers(lent))?;
    six_scores(scores)
}

/// Scoring a path over given score tables: 1, 4, 2, 5, 6. The path's length is a number beside its table.
pub fn path_score(scores: &Scores, path: &[u32], length: u32, lent: &[Lent]) -> Checked {
    one(scores.labels)?;
    four(scores.words)?;
    refuse(4, 0, length > scores.words)?;
    two(short_scores(scores) || short(path, length) || short_buffers(lent))?;
    at(5, ids(path, length, scores.labels))?;
    six_scores(scores)
}

/// Scoring a line, alone or to decode it: 1, 4, 2, 3, 5, 6.
pub fn line(model: &Model, line: &Line, lent: &[Lent]) -> Checked {
    one(model.labels)?;
    four(line.words)?;
    two(many_in_model(&model.counts)
        || many_in_line(line)
        || short_model(model)
        || short(&model.weights, model.counts.features)
        || short_line(line)
        || short_buffers(lent))?;
    three_model(model)?;
    at(3, starts(&line.starts, line.words, line.attributes))?;
    five_model(model)?;
    at(6, not_finite(&model.weights, model.counts.features))?;
    at(6, not_finite(&line.values, line.attributes))
}

/// Counting the features of a line under labels: 1, 4, 2, 3, 5, 6. There is no weight table.
pub fn counting(model: &Model, line: &Line, labels: &[u32], lent: &[Lent]) -> Checked {
    one(model.labels)?;
    four(line.words)?;
    two(many_in_model(&model.counts)
        || many_in_line(line)
        || short_model(model)
        || short_line(line)
        || short(labels, line.words)
        || short_buffers(lent))?;
    three_model(model)?;
    at(3, starts(&line.starts, line.words, line.attributes))?;
    five_model(model)?;
    at(5, ids(labels, line.words, model.labels))?;
    at(6, not_finite(&line.values, line.attributes))
}

/// Setting the weights of so many features: 2, 6.
pub fn set_weights(features: u32, weights: &[f64], lent: &[Lent]) -> Checked {
    two(features > FEATURES || short(weights, features) || short_buffers(lent))?;
    at(6, not_finite(weights, features))
}

/// One of the trainers: 1 to 7. There is no weight table.
pub fn training(model: &Model, data: &Data, settings: &Settings, lent: &[Lent]) -> Checked {
    one(model.labels)?;
    two(many_in_model(&model.counts)
        || many_in_data(data)
        || short_model(model)
        || short_data(data)
        || short_buffers(lent))?;
    three_model(model)?;
    at(3, starts(&data.word_starts, data.instances, data.words))?;
    at(3, starts(&data.attribute_starts, data.words, data.attributes))?;
    at(4, length(&data.word_starts, data.instances))?;
    five_model(model)?;
    at(5, ids(&data.references, data.words, model.labels))?;
    at(6, not_finite(&data.values, data.attributes))?;
    at(6, not_finite(&data.weights, data.instances))?;
    seven(settings)
}

/// The bytes of a sheet file: 10 on the head, 1, 4, 2, 10 on the length, 6. What is lent depends on its L and T.
pub fn sheet(bytes: &[u8], lent: impl Fn(u32, u32) -> Vec<Lent>) -> Result<Scores, Refusal> {
    let head = bytes.first_chunk::<HEAD>();
    let Some([b'T', b'L', b'G', 1, 0, labels, low, high]) = head else {
        return Err(Refusal { number: 10, place: 0 });
    };
    let labels = u32::from(*labels);
    let words = u32::from(u16::from_le_bytes([*low, *high]));
    one(labels)?;
    four(words)?;
    two(short_buffers(&lent(labels, words)))?;
    let (moves, states) = ((labels * labels) as usize, (words * labels) as usize);
    refuse(10, 0, bytes.len() != HEAD + 8 * (moves + states))?;
    let numbers: Vec<f64> = bytes[HEAD..].as_chunks().0.iter().map(|b| f64::from_le_bytes(*b)).collect();
    let scores = Scores { labels, words, transitions: numbers[..moves].to_vec(), states: numbers[moves..].to_vec() };
    six_scores(&scores)?;
    Ok(scores)
}

/// Mark, version, L, T.
pub const HEAD: usize = 8;

// ---- 8 outside training

/// "A finished state or transition score .. is not finite": t·L+l, then T·L+prev·L+next.
pub fn finished_scores(scores: &Scores) -> Checked {
    let (labels, words) = (scores.labels, scores.words);
    let after = words * labels;
    at(8, not_finite(&scores.states, after))?;
    at(8, not_finite(&scores.transitions, labels * labels).map(|place| after + place))
}

/// "A finished .. feature count is not finite": feature id.
pub fn finished_counts(counts: &[f64]) -> Checked {
    at(8, not_finite(counts, counts.len() as u32))
}

// ---- the rows

fn one(labels: u32) -> Checked {
    refuse(1, 0, !(1..=LABELS).contains(&labels))
}

fn four(words: u32) -> Checked {
    refuse(4, 0, !(1..=WORDS).contains(&words))
}

fn two(bad: bool) -> Checked {
    refuse(2, 0, bad)
}

fn three_model(model: &Model) -> Checked {
    let counts = &model.counts;
    at(3, starts(&model.attribute_starts, counts.attribute_lists, counts.attribute_entries))?;
    at(3, starts(&model.label_starts, counts.label_lists, counts.label_entries))
}

fn five_model(model: &Model) -> Checked {
    let counts = &model.counts;
    at(5, kinds(&model.kinds, counts.features))?;
    at(5, ids(&model.destinations, counts.features, model.labels))?;
    at(5, sources(&model.kinds, &model.sources, counts.features, model.labels))?;
    at(5, ids(&model.attribute_entries, counts.attribute_entries, counts.features))?;
    at(5, ids(&model.label_entries, counts.label_entries, counts.features))
}

/// "transitions; states"
fn six_scores(scores: &Scores) -> Checked {
    at(6, not_finite(&scores.transitions, scores.labels * scores.labels))?;
    at(6, not_finite(&scores.states, scores.words * scores.labels))
}

/// "Bad parameter: 1 epochs, 2 epsilon negative, 3 C or variance not above 0, 4 gamma not above 0, 5 variant above 2; 2
/// to 4 also when not finite; each trainer tests only its own"
fn seven(settings: &Settings) -> Checked {
    let not_above_zero = |x: f64| !x.is_finite() || x <= 0.0;
    refuse(7, 1, !(1..=EPOCHS).contains(&settings.epochs))?;
    refuse(7, 2, !settings.epsilon.is_finite() || settings.epsilon < 0.0)?;
    match settings.rule {
        Rule::Perceptron => Ok(()),
        Rule::PassiveAggressive { variant, c, .. } => {
            refuse(7, 3, not_above_zero(c))?;
            refuse(7, 5, variant > 2)
        }
        Rule::Arow { variance, gamma } => {
            refuse(7, 3, not_above_zero(variance))?;
            refuse(7, 4, not_above_zero(gamma))
        }
    }
}

fn many_in_model(counts: &Counts) -> bool {
    counts.features > FEATURES
        || counts.attribute_lists > ATTRIBUTE_LISTS
        || counts.label_lists > LABEL_LISTS
        || counts.attribute_entries > ENTRIES
        || counts.label_entries > ENTRIES
}

fn many_in_line(line: &Line) -> bool {
    line.attributes > ATTRIBUTES_IN_ALL
}

fn many_in_data(data: &Data) -> bool {
    !(1..=INSTANCES).contains(&data.instances) || data.words > WORDS_IN_ALL || data.attributes > ATTRIBUTES_IN_ALL
}

fn short_model(model: &Model) -> bool {
    let counts = &model.counts;
    short(&model.kinds, counts.features)
        || short(&model.destinations, counts.features)
        || short(&model.sources, counts.features)
        || short(&model.attribute_starts, counts.attribute_lists + 1)
        || short(&model.attribute_entries, counts.attribute_entries)
        || short(&model.label_starts, counts.label_lists + 1)
        || short(&model.label_entries, counts.label_entries)
}

fn short_line(line: &Line) -> bool {
    short(&line.starts, line.words + 1) || short(&line.ids, line.attributes) || short(&line.values, line.attributes)
}

fn short_data(data: &Data) -> bool {
    short(&data.word_starts, data.instances + 1)
        || short(&data.attribute_starts, data.words + 1)
        || short(&data.ids, data.attributes)
        || short(&data.values, data.attributes)
        || short(&data.references, data.words)
        || short(&data.weights, data.instances)
}

fn short_scores(scores: &Scores) -> bool {
    short(&scores.states, scores.words * scores.labels) || short(&scores.transitions, scores.labels * scores.labels)
}

fn short_buffers(lent: &[Lent]) -> bool {
    lent.iter().any(|buffer| buffer.length < buffer.needed)
}

fn short<T>(table: &[T], needed: u32) -> bool {
    table.len() < needed as usize
}

// ---- one table: the place of its first fault within its count

/// "For n lists, n+1 starts, first 0, never falling, last equal to the entry count."
pub fn starts(starts: &[u32], lists: u32, entries: u32) -> Option<u32> {
    let last = lists as usize;
    first(lists + 1, |i| {
        (i == 0 && starts[i] != 0) || (i > 0 && starts[i] < starts[i - 1]) || (i == last && starts[i] != entries)
    })
}

/// "a T outside 1 to 128", by the starts of an instance's words
pub fn length(word_starts: &[u32], instances: u32) -> Option<u32> {
    first(instances, |i| !(1..=WORDS).contains(&(word_starts[i + 1] - word_starts[i])))
}

/// "kind not 0 or 1"
pub fn kinds(kinds: &[u8], count: u32) -> Option<u32> {
    first(count, |i| kinds[i] != STATE && kinds[i] != TRANSITION)
}

/// "destination at or above L .. list id at or above F, label at or above L"
pub fn ids(ids: &[u32], count: u32, bound: u32) -> Option<u32> {
    first(count, |i| ids[i] >= bound)
}

/// "Transition source at or above L"; a State feature's source is not read.
pub fn sources(kinds: &[u8], sources: &[u32], count: u32, labels: u32) -> Option<u32> {
    first(count, |i| kinds[i] == TRANSITION && sources[i] >= labels)
}

/// "a weight, value, instance weight or table entry not finite"
pub fn not_finite(table: &[f64], count: u32) -> Option<u32> {
    first(count, |i| !table[i].is_finite())
}

fn first(count: u32, bad: impl Fn(usize) -> bool) -> Option<u32> {
    (0..count).find(|i| bad(*i as usize))
}

/// A place that was found, under a number.
pub fn at(number: u32, place: Option<u32>) -> Checked {
    place.map_or(Ok(()), |place| Err(Refusal { number, place }))
}

fn refuse(number: u32, place: u32, bad: bool) -> Checked {
    at(number, bad.then_some(place))
}
