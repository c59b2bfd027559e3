//! Document 01 alone, written as plainly as it can be: what the port adds to the Rust, which is the rounded sum of a
//! path, the lead, and decoding by going through all paths with the words of demand 3; and its words on scores, path
//! score and counts, to be held against the Rust. All of it is for tables that are accepted.

use crate::tables::{Line, Model, STATE, Scores, TRANSITION};

/// At most so many paths are gone through.
pub const PATHS: usize = 4096;

/// The rounded sum of a path: the first state, then (sum + transition) + state.
pub fn sum(scores: &Scores, path: &[u32]) -> f64 {
    let mut sum = scores.state(0, path[0] as usize);
    for t in 1..path.len() {
        let (previous, label) = (path[t - 1] as usize, path[t] as usize);
        sum = (sum + scores.transition(previous, label)) + scores.state(t, label);
    }
    sum
}

/// The best sum of the paths that end in each label, as a plain table.
pub fn final_scores(scores: &Scores) -> Vec<f64> {
    best_scores(scores).pop().expect("there is a word")
}

/// The same at every word, a row each.
fn best_scores(scores: &Scores) -> Vec<Vec<f64>> {
    let labels = scores.labels as usize;
    let mut rows = vec![(0..labels).map(|label| scores.state(0, label)).collect::<Vec<_>>()];
    for t in 1..scores.words as usize {
        let best = |label| last_largest(candidates(scores, &rows[t - 1], t, label)).1;
        let row = (0..labels).map(best).collect();
        rows.push(row);
    }
    rows
}

/// "A later candidate is (best of previous + transition) + state."
fn candidates(scores: &Scores, best: &[f64], t: usize, label: usize) -> impl Iterator<Item = f64> {
    best.iter()
        .enumerate()
        .map(move |(previous, best)| (best + scores.transition(previous, label)) + scores.state(t, label))
}

/// Whether the tie rule had a part in the path: at its last label, or at one of the steps back from there, another
/// candidate was equal to the one chosen.
pub fn tied(scores: &Scores, path: &[u32]) -> bool {
    let rows = best_scores(scores);
    let last = path.len() - 1;
    let chosen = |t: usize| rows[t][path[t] as usize];
    twice(rows[last].iter().copied(), chosen(last))
        || (1..=last).any(|t| twice(candidates(scores, &rows[t - 1], t, path[t] as usize), chosen(t)))
}

fn twice(candidates: impl Iterator<Item = f64>, chosen: f64) -> bool {
    candidates.filter(|candidate| *candidate == chosen).count() > 1
}

/// "The best final score minus the largest final score at any other last label, rounded once; "no lead" with L = 1 or
/// when either score is not finite. A zero lead is +0."
pub fn lead(scores: &Scores) -> Option<f64> {
    let finals = final_scores(scores);
    let (last, best) = last_largest(finals.iter().copied());
    let others = finals.iter().enumerate().filter(|(label, _)| *label != last);
    if finals.len() < 2 {
        return None;
    }
    let (_, rival) = last_largest(others.map(|(_, score)| *score));
    let lead = best - rival;
    let known = best.is_finite() && rival.is_finite();
    known.then_some(if lead == 0.0 { 0.0 } else { lead })
}

/// "The last equal candidate wins, and +0 equals −0."
fn last_largest(candidates: impl Iterator<Item = f64>) -> (usize, f64) {
    let mut chosen: Option<(usize, f64)> = None;
    for (i, candidate) in candidates.enumerate() {
        if chosen.is_none_or(|(_, largest)| largest <= candidate) {
            chosen = Some((i, candidate));
        }
    }
    chosen.expect("there is a candidate")
}

/// The path that demand 3 names, found by going through all of them; None where there are more than `PATHS`.
pub fn by_all_paths(scores: &Scores) -> Option<Vec<u32>> {
    let (labels, words) = (scores.labels, scores.words as usize);
    (labels as usize).checked_pow(words as u32).filter(|count| *count <= PATHS)?;
    // for every length, the largest sum of a path that ends in each label
    let tops: Vec<Vec<f64>> = (1..=words).map(|length| tops(scores, length)).collect();
    let largest = tops[words - 1].iter().copied().fold(f64::NEG_INFINITY, f64::max);
    let mut answer: Option<Vec<u32>> = None;
    for path in paths(labels, words) {
        // no path has a larger sum
        let best = sum(scores, &path) >= largest;
        // no prefix can be bettered by another that ends in the same label
        let prefixes =
            (1..=words).all(|length| sum(scores, &path[..length]) >= tops[length - 1][path[length - 1] as usize]);
        // the last of those, compared from the final word back
        let later = answer.as_ref().is_none_or(|other| path.iter().rev().gt(other.iter().rev()));
        if best && prefixes && later {
            answer = Some(path);
        }
    }
    answer
}

/// The paths with the largest sum, whatever their prefixes, the last of them last.
pub fn largest_paths(scores: &Scores) -> Vec<Vec<u32>> {
    let words = scores.words as usize;
    let largest = tops(scores, words).into_iter().fold(f64::NEG_INFINITY, f64::max);
    let mut found: Vec<Vec<u32>> = paths(scores.labels, words).filter(|path| sum(scores, path) >= largest).collect();
    found.sort_by(|p, q| p.iter().rev().cmp(q.iter().rev()));
    found
}

/// The largest sum of the paths of a length that end in each label.
pub fn tops(scores: &Scores, length: usize) -> Vec<f64> {
    let mut tops = vec![f64::NEG_INFINITY; scores.labels as usize];
    for path in paths(scores.labels, length) {
        let top = &mut tops[path[length - 1] as usize];
        *top = top.max(sum(scores, &path));
    }
    tops
}

/// All paths of a length, in the order of their labels as digits.
fn paths(labels: u32, length: usize) -> impl Iterator<Item = Vec<u32>> {
    let count = (labels as usize).pow(length as u32) as u64;
    (0..count).map(move |number| {
        let mut rest = number;
        let mut path = vec![0; length];
        for label in path.iter_mut() {
            *label = (rest % u64::from(labels)) as u32;
            rest /= u64::from(labels);
        }
        path
    })
}

/// "State and transition scores start at +0. Words, attributes and list entries are taken in order; each State entry
/// adds weight·value at its destination. Transitions: label lists numbered below both L and their number, rising; each
/// Transition entry adds its weight at its own source and destination."
pub fn scores(model: &Model, line: &Line) -> Scores {
    let labels = model.labels as usize;
    let mut states = vec![0.0; line.words as usize * labels];
    let mut transitions = vec![0.0; labels * labels];
    for (word, attribute) in attributes(line) {
        for feature in attribute_list(model, line.ids[attribute]) {
            if model.kinds[feature] == STATE {
                let place = word * labels + model.destinations[feature] as usize;
                states[place] += model.weights[feature] * line.values[attribute];
            }
        }
    }
    for label in 0..model.labels {
        for feature in label_list(model, label) {
            if model.kinds[feature] == TRANSITION {
                let (source, destination) = (model.sources[feature], model.destinations[feature]);
                transitions[source as usize * labels + destination as usize] += model.weights[feature];
            }
        }
    }
    Scores { labels: model.labels, words: line.words, states, transitions }
}

/// "Path score starts at +0, adds state, then transition. An empty path scores +0."
pub fn path_score(scores: &Scores, path: &[u32]) -> f64 {
    let mut score = 0.0;
    for (t, label) in path.iter().enumerate() {
        score += scores.state(t, *label as usize);
        if t > 0 {
            score += scores.transition(path[t - 1] as usize, *label as usize);
        }
    }
    score
}

/// "From +0, State entries of the word's label add their value in scoring order, then a Transition adds 1 only when it
/// stands in the previous label's list, its source is that label and its destination is the label at hand."
pub fn counts(model: &Model, line: &Line, labels: &[u32]) -> Vec<f64> {
    let mut counts = vec![0.0; model.counts.features as usize];
    for (word, attribute) in attributes(line) {
        for feature in attribute_list(model, line.ids[attribute]) {
            if model.kinds[feature] == STATE && model.destinations[feature] == labels[word] {
                counts[feature] += line.values[attribute];
            }
        }
    }
    for pair in labels[..line.words as usize].windows(2) {
        for feature in label_list(model, pair[0]) {
            let ends = [model.sources[feature], model.destinations[feature]];
            if model.kinds[feature] == TRANSITION && ends == *pair {
                counts[feature] += 1.0;
            }
        }
    }
    counts
}

/// The places of a line's attributes, each with its word.
fn attributes(line: &Line) -> impl Iterator<Item = (usize, usize)> {
    let ends = |word: usize| line.starts[word] as usize..line.starts[word + 1] as usize;
    (0..line.words as usize).flat_map(move |word| ends(word).map(move |attribute| (word, attribute)))
}

/// "An attribute id without a list is ignored."
fn attribute_list(model: &Model, id: u32) -> impl Iterator<Item = usize> {
    part(&model.attribute_starts, &model.attribute_entries, id, model.counts.attribute_lists)
}

fn label_list(model: &Model, label: u32) -> impl Iterator<Item = usize> {
    part(&model.label_starts, &model.label_entries, label, model.counts.label_lists)
}

fn part<'a>(starts: &[u32], entries: &'a [u32], list: u32, lists: u32) -> impl Iterator<Item = usize> + use<'a> {
    let list = list as usize;
    let places = if list < lists as usize { starts[list] as usize..starts[list + 1] as usize } else { 0..0 };
    entries[places].iter().map(|feature| *feature as usize)
}
