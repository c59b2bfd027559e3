//! Decoding in Rust over flat tables, with one row of best scores. It answers what the library answers, refusals
//! included. `plain` has the loops of the Rust text; `tuned` has them in the order of memory and without a branch, which
//! the compiler turns into vector instructions.

use compare::Refusal;
use compare::decode::Decoded;
use oracle::refusals::{LABELS, WORDS};

type Row = [f64; LABELS as usize];

pub fn plain(
    labels: u32,
    words: u32,
    transitions: &[f64],
    states: &[f64],
    path: &mut [u32],
) -> Result<Decoded, Refusal> {
    decode(by_label, labels, words, transitions, states, path)
}

pub fn tuned(
    labels: u32,
    words: u32,
    transitions: &[f64],
    states: &[f64],
    path: &mut [u32],
) -> Result<Decoded, Refusal> {
    decode(by_previous, labels, words, transitions, states, path)
}

fn decode(
    step: impl Fn(&[f64], &[f64], &[f64], &mut [f64], &mut [u32]),
    labels: u32,
    words: u32,
    transitions: &[f64],
    states: &[f64],
    path: &mut [u32],
) -> Result<Decoded, Refusal> {
    if !(1..=LABELS).contains(&labels) {
        return Err((1, 0));
    }
    if !(1..=WORDS).contains(&words) {
        return Err((4, 0));
    }
    let (labels, words) = (labels as usize, words as usize);
    let (Some(transitions), Some(states), Some(path)) =
        (transitions.get(..labels * labels), states.get(..words * labels), path.get_mut(..words))
    else {
        return Err((2, 0));
    };
    finite(transitions)?;
    finite(states)?;

    let (mut best, mut next): (Row, Row) = Default::default();
    best[..labels].copy_from_slice(&states[..labels]);
    let mut back = vec![0; words * labels];
    for (states, back) in states.chunks_exact(labels).zip(back.chunks_exact_mut(labels)).skip(1) {
        step(&best[..labels], transitions, states, &mut next[..labels], back);
        std::mem::swap(&mut best, &mut next);
    }
    let best = &best[..labels];
    let last = (0..labels).fold(0, |chosen, label| if best[label] >= best[chosen] { label } else { chosen });
    trace_back(last, &back, labels, path);
    Ok(Decoded { sum: best[last], lead: lead(best, last) })
}

fn finite(table: &[f64]) -> Result<(), Refusal> {
    let bad = table.iter().position(|x| !x.is_finite());
    bad.map_or(Ok(()), |place| Err((6, place as u64)))
}

/// One word: for each label the last of its largest candidates, and where it came from.
fn by_label(best: &[f64], transitions: &[f64], states: &[f64], next: &mut [f64], back: &mut [u32]) {
    for (label, state) in states.iter().enumerate() {
        let mut chosen = (0, f64::NEG_INFINITY);
        for (previous, best) in best.iter().enumerate() {
            let candidate = (best + transitions[previous * states.len() + label]) + state;
            if candidate >= chosen.1 {
                chosen = (previous, candidate);
            }
        }
        (back[label], next[label]) = (chosen.0 as u32, chosen.1);
    }
}

/// The same, previous label by previous label. It compares twice: one comparison that decides over both is compiled to
/// a branch.
fn by_previous(best: &[f64], transitions: &[f64], states: &[f64], next: &mut [f64], back: &mut [u32]) {
    next.fill(f64::NEG_INFINITY);
    for (previous, (best, moves)) in best.iter().zip(transitions.chunks_exact(states.len())).enumerate() {
        let labels = next.iter_mut().zip(back.iter_mut()).zip(moves).zip(states);
        for (((next, back), transition), state) in labels {
            let candidate = (best + transition) + state;
            *back = if candidate >= *next { previous as u32 } else { *back };
            *next = if *next > candidate { *next } else { candidate };
        }
    }
}

fn trace_back(last: usize, back: &[u32], labels: usize, path: &mut [u32]) {
    let mut label = last as u32;
    for (place, back) in path.iter_mut().zip(back.chunks_exact(labels)).rev() {
        *place = label;
        label = back[label as usize];
    }
}

fn lead(best: &[f64], last: usize) -> Option<f64> {
    let others = best.iter().enumerate().filter(|(label, _)| *label != last);
    let rival = others.map(|(_, score)| *score).reduce(f64::max)?;
    // a zero lead is +0
    (best[last].is_finite() && rival.is_finite()).then(|| (best[last] - rival) + 0.0)
}
