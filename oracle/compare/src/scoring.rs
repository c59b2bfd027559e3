//! The model's check, its weights, and one line: its scores, its feature counts, its labels.

use oracle::tables::{Line, Model};

use crate::decode::{Decoded, decoded};
use crate::{Refusal, calls, pointer, pointer_mut, unless_refused};

/// A call over a model's tables and a line's, as `calls` declares it.
macro_rules! call {
    ($name:ident, $model:ident [$($table:ident),*], $line:ident [$($part:expr),*], mut [$($buffer:ident),*]) => {
        unsafe {
            calls::$name(
                $model.labels,
                $model.counts.into(),
                $(pointer(&$model.$table), $model.$table.len(),)*
                $line.words,
                $line.attributes,
                $(pointer($part), $part.len(),)*
                $(pointer_mut($buffer), $buffer.len(),)*
            )
        }
    };
}

/// The model alone: 1, 2, 3, 5, 6.
pub fn check_model(model: &Model) -> Result<(), Refusal> {
    let Model { labels, counts, kinds, destinations, sources, weights, .. } = model;
    let Model { attribute_starts, attribute_entries, label_starts, label_entries, .. } = model;
    unless_refused(unsafe {
        calls::bodkinbloom_check_model(
            *labels,
            (*counts).into(),
            pointer(kinds),
            kinds.len(),
            pointer(destinations),
            destinations.len(),
            pointer(sources),
            sources.len(),
            pointer(weights),
            weights.len(),
            pointer(attribute_starts),
            attribute_starts.len(),
            pointer(attribute_entries),
            attribute_entries.len(),
            pointer(label_starts),
            label_starts.len(),
            pointer(label_entries),
            label_entries.len(),
        )
    })
}

/// Writes the first `features` of `new` to the front of `weights`.
pub fn set_weights(features: u32, new: &[f64], weights: &mut [f64]) -> Result<(), Refusal> {
    unless_refused(unsafe {
        calls::bodkinbloom_set_weights(features, pointer(new), new.len(), pointer_mut(weights), weights.len())
    })
}

/// Writes the scores of a line: transitions by previous label, states word by word.
pub fn compute_scores(model: &Model, line: &Line, transitions: &mut [f64], states: &mut [f64]) -> Result<(), Refusal> {
    unless_refused(call!(
        bodkinbloom_compute_scores,
        model [kinds, destinations, sources, weights, attribute_starts, attribute_entries, label_starts, label_entries],
        line [&line.starts, &line.ids, &line.values],
        mut [transitions, states]
    ))
}

/// Writes what each feature counts under the labels of `path`. The model's weights are not lent.
pub fn extract_features(model: &Model, line: &Line, path: &[u32], counts: &mut [f64]) -> Result<(), Refusal> {
    unless_refused(call!(
        bodkinbloom_extract_features,
        model [kinds, destinations, sources, attribute_starts, attribute_entries, label_starts, label_entries],
        line [&line.starts, &line.ids, &line.values, path],
        mut [counts]
    ))
}

/// Scores a line and writes its best path.
pub fn label_line(model: &Model, line: &Line, path: &mut [u32]) -> Result<Decoded, Refusal> {
    decoded(call!(
        bodkinbloom_label_line,
        model [kinds, destinations, sources, weights, attribute_starts, attribute_entries, label_starts, label_entries],
        line [&line.starts, &line.ids, &line.values],
        mut [path]
    ))
}
