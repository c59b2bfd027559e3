//! Damaged copies: for every table and every rule of the refusals a fault that breaks it, alone or two at once.

use super::calls::{CountCall, DecodeCall, LineCall, PathCall, TrainCall};
use super::make::NOT_FINITE;
use super::rng::Rng;
use crate::refusals::{
    ATTRIBUTE_LISTS, ATTRIBUTES_IN_ALL, ENTRIES, EPOCHS, FEATURES, INSTANCES, LABEL_LISTS, LABELS, WORDS, WORDS_IN_ALL,
};
use crate::tables::{Data, Line, Model, Rule, Scores, Settings, TRANSITION};

/// Changes a call, or tells that it has no place for the change.
type Change<C> = dyn Fn(&mut C, &mut Rng) -> bool;

/// One way to break a call, and the number it is refused under when nothing else is broken.
pub struct Fault<C> {
    pub name: &'static str,
    pub number: u32,
    apply: Box<Change<C>>,
}

impl<C: 'static> Fault<C> {
    fn new(number: u32, name: &'static str, apply: impl Fn(&mut C, &mut Rng) -> bool + 'static) -> Self {
        Self { name, number, apply: Box::new(apply) }
    }

    /// Breaks the call; false where it has no place for this fault, and is as before.
    pub fn apply(&self, call: &mut C, rng: &mut Rng) -> bool {
        (self.apply)(call, rng)
    }

    /// The same fault in a call that this is a part of.
    fn inside<D: 'static>(self, part: fn(&mut D) -> &mut C) -> Fault<D> {
        Fault::new(self.number, self.name, move |call: &mut D, rng: &mut Rng| (self.apply)(part(call), rng))
    }
}

/// A copy with so many different faults, as far as there is place for them, and their names and numbers.
pub fn damaged<'a, C: Clone + 'static>(
    rng: &mut Rng,
    faults: &'a [Fault<C>],
    sound: &C,
    many: usize,
) -> (C, Vec<&'a Fault<C>>) {
    let mut call = sound.clone();
    let mut applied: Vec<&Fault<C>> = Vec::new();
    for _ in 0..20 * many {
        let fault = &faults[rng.below(faults.len() as u32) as usize];
        let new = applied.iter().all(|other| other.name != fault.name);
        if applied.len() < many && new && fault.apply(&mut call, rng) {
            applied.push(fault);
        }
    }
    (call, applied)
}

// ---- the faults of each call

pub fn of_line_call() -> Vec<Fault<LineCall>> {
    let mut all = inside(of_model(), |call: &mut LineCall| &mut call.model);
    all.extend(inside(of_weights(), |call: &mut LineCall| &mut call.model));
    all.extend(inside(of_line(), |call: &mut LineCall| &mut call.line));
    all
}

pub fn of_count_call() -> Vec<Fault<CountCall>> {
    let mut all = inside(of_model(), |call: &mut CountCall| &mut call.model);
    all.extend(inside(of_line(), |call: &mut CountCall| &mut call.line));
    all.push(Fault::new(2, "labels short", |call: &mut CountCall, _| shorten(&mut call.labels, call.line.words)));
    all.push(Fault::new(5, "label of a word", |call: &mut CountCall, rng| {
        spoil(rng, &mut call.labels, call.line.words, &[call.model.labels, u32::MAX])
    }));
    all
}

pub fn of_decode_call() -> Vec<Fault<DecodeCall>> {
    let mut all = inside(of_scores(), |call: &mut DecodeCall| &mut call.scores);
    all.push(Fault::new(2, "path buffer short", |call: &mut DecodeCall, rng| {
        let needed = rng.pick(&[1, call.scores.words]);
        shorten(&mut call.path, needed)
    }));
    all
}

pub fn of_path_call() -> Vec<Fault<PathCall>> {
    let mut all = inside(of_scores(), |call: &mut PathCall| &mut call.scores);
    all.push(Fault::new(4, "path longer than its table", |call: &mut PathCall, rng| {
        let words = call.scores.words;
        set(&mut call.length, rng.pick(&[words.saturating_add(1), u32::MAX]))
    }));
    all.push(Fault::new(2, "path short", |call: &mut PathCall, _| shorten(&mut call.path, call.length)));
    all.push(Fault::new(5, "label of the path", |call: &mut PathCall, rng| {
        spoil(rng, &mut call.path, call.length, &[call.scores.labels, u32::MAX])
    }));
    all
}

pub fn of_train_call() -> Vec<Fault<TrainCall>> {
    let mut all = inside(of_model(), |call: &mut TrainCall| &mut call.model);
    all.extend(inside(of_data(), |call: &mut TrainCall| &mut call.data));
    all.extend(inside(of_settings(), |call: &mut TrainCall| &mut call.settings));
    all.push(Fault::new(5, "reference label", |call: &mut TrainCall, rng| {
        spoil(rng, &mut call.data.references, call.data.words, &[call.model.labels, u32::MAX])
    }));
    all
}

/// Faults in the bytes of a sheet.
pub fn of_sheet() -> Vec<Fault<Vec<u8>>> {
    vec![
        Fault::new(10, "mark", |bytes: &mut Vec<u8>, rng| flip(bytes, rng, 0, 3)),
        Fault::new(10, "version", |bytes: &mut Vec<u8>, rng| flip(bytes, rng, 3, 5)),
        Fault::new(1, "labels", |bytes: &mut Vec<u8>, rng| put(bytes, 5, &[rng.pick(&[0, 33, 255])])),
        Fault::new(4, "words", |bytes: &mut Vec<u8>, rng| {
            put(bytes, 6, &rng.pick(&[0u16, 129, 256, u16::MAX]).to_le_bytes())
        }),
        Fault::new(10, "cut in the head", |bytes: &mut Vec<u8>, rng| {
            bytes.truncate(rng.below(8) as usize);
            true
        }),
        Fault::new(10, "length", |bytes: &mut Vec<u8>, rng| {
            let tables = bytes.len().saturating_sub(8) as u32;
            match rng.below(3) {
                0 => bytes.extend(vec![0; rng.pick(&[1, 7, 8, 50_000])]),
                1 => bytes.truncate(8 + rng.below(tables.max(1)) as usize),
                _ => bytes.truncate(bytes.len().saturating_sub(1)),
            }
            tables > 0
        }),
        Fault::new(6, "number", |bytes: &mut Vec<u8>, rng| {
            let numbers = (bytes.len().saturating_sub(8) / 8) as u32;
            let bad = rng.pick(&NOT_FINITE).to_le_bytes();
            numbers > 0 && put(bytes, 8 + 8 * place(rng, numbers), &bad)
        }),
    ]
}

// ---- the faults of each part

fn of_model() -> Vec<Fault<Model>> {
    let mut all = vec![
        Fault::new(1, "labels", |m: &mut Model, rng| set(&mut m.labels, rng.pick(&[0, LABELS + 1, u32::MAX]))),
        Fault::new(2, "too many features", |m: &mut Model, rng| set(&mut m.counts.features, over(rng, FEATURES))),
        Fault::new(2, "too many attribute lists", |m: &mut Model, rng| {
            set(&mut m.counts.attribute_lists, over(rng, ATTRIBUTE_LISTS))
        }),
        Fault::new(2, "too many label lists", |m: &mut Model, rng| {
            set(&mut m.counts.label_lists, over(rng, LABEL_LISTS))
        }),
        Fault::new(2, "too many attribute entries", |m: &mut Model, rng| {
            set(&mut m.counts.attribute_entries, over(rng, ENTRIES))
        }),
        Fault::new(2, "too many label entries", |m: &mut Model, rng| {
            set(&mut m.counts.label_entries, over(rng, ENTRIES))
        }),
        Fault::new(2, "kinds short", |m: &mut Model, _| shorten(&mut m.kinds, m.counts.features)),
        Fault::new(2, "destinations short", |m: &mut Model, _| shorten(&mut m.destinations, m.counts.features)),
        Fault::new(2, "sources short", |m: &mut Model, _| shorten(&mut m.sources, m.counts.features)),
        Fault::new(2, "attribute starts short", |m: &mut Model, _| {
            shorten(&mut m.attribute_starts, m.counts.attribute_lists.saturating_add(1))
        }),
        Fault::new(2, "attribute entries short", |m: &mut Model, _| {
            shorten(&mut m.attribute_entries, m.counts.attribute_entries)
        }),
        Fault::new(2, "label starts short", |m: &mut Model, _| {
            shorten(&mut m.label_starts, m.counts.label_lists.saturating_add(1))
        }),
        Fault::new(2, "label entries short", |m: &mut Model, _| shorten(&mut m.label_entries, m.counts.label_entries)),
        Fault::new(5, "kind", |m: &mut Model, rng| spoil(rng, &mut m.kinds, m.counts.features, &[2, 3, 128, 255])),
        Fault::new(5, "destination", |m: &mut Model, rng| {
            spoil(rng, &mut m.destinations, m.counts.features, &[m.labels, u32::MAX])
        }),
        Fault::new(5, "Transition source", |m: &mut Model, rng| {
            let moves: Vec<usize> = (0..m.kinds.len().min(m.sources.len()))
                .filter(|i| *i < m.counts.features as usize && m.kinds[*i] == TRANSITION)
                .collect();
            !moves.is_empty() && set(&mut m.sources[rng.pick(&moves)], rng.pick(&[m.labels, u32::MAX]))
        }),
        Fault::new(5, "attribute list id", |m: &mut Model, rng| {
            let bad = [m.counts.features, u32::MAX];
            spoil(rng, &mut m.attribute_entries, m.counts.attribute_entries, &bad)
        }),
        Fault::new(5, "label list id", |m: &mut Model, rng| {
            spoil(rng, &mut m.label_entries, m.counts.label_entries, &[m.counts.features, u32::MAX])
        }),
    ];
    all.extend(of_starts(
        ["attribute starts: first", "attribute starts: falling", "attribute starts: last"],
        |m: &mut Model| (&mut m.attribute_starts, m.counts.attribute_lists, m.counts.attribute_entries),
    ));
    all.extend(of_starts(["label starts: first", "label starts: falling", "label starts: last"], |m: &mut Model| {
        (&mut m.label_starts, m.counts.label_lists, m.counts.label_entries)
    }));
    all
}

/// The weight table, which counts and trainers are not lent.
fn of_weights() -> Vec<Fault<Model>> {
    vec![
        Fault::new(2, "weights short", |m: &mut Model, _| shorten(&mut m.weights, m.counts.features)),
        Fault::new(6, "weight", |m: &mut Model, rng| spoil(rng, &mut m.weights, m.counts.features, &NOT_FINITE)),
    ]
}

/// Score tables. Some numbers of labels and words have products that come out small at 32 bits.
fn of_scores() -> Vec<Fault<Scores>> {
    let states = |s: &Scores| s.words.saturating_mul(s.labels);
    let moves = |s: &Scores| s.labels.saturating_mul(s.labels);
    vec![
        Fault::new(1, "labels", |s: &mut Scores, rng| {
            set(&mut s.labels, rng.pick(&[0, LABELS + 1, 1 << 16, u32::MAX]))
        }),
        Fault::new(4, "words", |s: &mut Scores, rng| set(&mut s.words, rng.pick(&[0, WORDS + 1, 1 << 31, u32::MAX]))),
        Fault::new(2, "states short", move |s: &mut Scores, _| {
            let need = states(s);
            shorten(&mut s.states, need)
        }),
        Fault::new(2, "transitions short", move |s: &mut Scores, _| {
            let need = moves(s);
            shorten(&mut s.transitions, need)
        }),
        Fault::new(6, "transition", move |s: &mut Scores, rng| {
            let count = moves(s);
            spoil(rng, &mut s.transitions, count, &NOT_FINITE)
        }),
        Fault::new(6, "state", move |s: &mut Scores, rng| {
            let count = states(s);
            spoil(rng, &mut s.states, count, &NOT_FINITE)
        }),
    ]
}

fn of_line() -> Vec<Fault<Line>> {
    let mut all = vec![
        Fault::new(4, "words", |l: &mut Line, rng| set(&mut l.words, rng.pick(&[0, WORDS + 1, u32::MAX]))),
        Fault::new(2, "too many attributes", |l: &mut Line, rng| set(&mut l.attributes, over(rng, ATTRIBUTES_IN_ALL))),
        Fault::new(2, "word starts short", |l: &mut Line, _| shorten(&mut l.starts, l.words.saturating_add(1))),
        Fault::new(2, "ids short", |l: &mut Line, _| shorten(&mut l.ids, l.attributes)),
        Fault::new(2, "values short", |l: &mut Line, _| shorten(&mut l.values, l.attributes)),
        Fault::new(6, "value", |l: &mut Line, rng| spoil(rng, &mut l.values, l.attributes, &NOT_FINITE)),
    ];
    all.extend(of_starts(["word starts: first", "word starts: falling", "word starts: last"], |l: &mut Line| {
        (&mut l.starts, l.words, l.attributes)
    }));
    all
}

fn of_data() -> Vec<Fault<Data>> {
    let mut all = vec![
        Fault::new(2, "instances", |d: &mut Data, rng| set(&mut d.instances, rng.pick(&[0, INSTANCES + 1, u32::MAX]))),
        Fault::new(2, "too many words", |d: &mut Data, rng| set(&mut d.words, over(rng, WORDS_IN_ALL))),
        Fault::new(2, "too many attributes", |d: &mut Data, rng| set(&mut d.attributes, over(rng, ATTRIBUTES_IN_ALL))),
        Fault::new(2, "word starts short", |d: &mut Data, _| {
            shorten(&mut d.word_starts, d.instances.saturating_add(1))
        }),
        Fault::new(2, "attribute starts of words short", |d: &mut Data, _| {
            shorten(&mut d.attribute_starts, d.words.saturating_add(1))
        }),
        Fault::new(2, "ids short", |d: &mut Data, _| shorten(&mut d.ids, d.attributes)),
        Fault::new(2, "values short", |d: &mut Data, _| shorten(&mut d.values, d.attributes)),
        Fault::new(2, "references short", |d: &mut Data, _| shorten(&mut d.references, d.words)),
        Fault::new(2, "instance weights short", |d: &mut Data, _| shorten(&mut d.weights, d.instances)),
        Fault::new(4, "an instance without words", without_words),
        Fault::new(4, "an instance of too many words", too_many_words),
        Fault::new(6, "value", |d: &mut Data, rng| spoil(rng, &mut d.values, d.attributes, &NOT_FINITE)),
        Fault::new(6, "instance weight", |d: &mut Data, rng| spoil(rng, &mut d.weights, d.instances, &NOT_FINITE)),
    ];
    all.extend(of_starts(["word starts: first", "word starts: falling", "word starts: last"], |d: &mut Data| {
        (&mut d.word_starts, d.instances, d.words)
    }));
    all.extend(of_starts(
        ["attribute starts of words: first", "attribute starts of words: falling", "attribute starts of words: last"],
        |d: &mut Data| (&mut d.attribute_starts, d.words, d.attributes),
    ));
    all
}

fn of_settings() -> Vec<Fault<Settings>> {
    let bad = |rng: &mut Rng| rng.pick(&[0.0, -0.0, -1.0, f64::NAN, f64::INFINITY, f64::NEG_INFINITY]);
    vec![
        Fault::new(7, "epochs", |s: &mut Settings, rng| set(&mut s.epochs, rng.pick(&[0, EPOCHS + 1, u32::MAX]))),
        Fault::new(7, "epsilon", |s: &mut Settings, rng| {
            let bad = [-1.0, -5e-324, f64::NAN, f64::INFINITY, f64::NEG_INFINITY];
            set(&mut s.epsilon, rng.pick(&bad))
        }),
        Fault::new(7, "C or variance", move |s: &mut Settings, rng| match &mut s.rule {
            Rule::Perceptron => false,
            Rule::PassiveAggressive { c: x, .. } | Rule::Arow { variance: x, .. } => set(x, bad(rng)),
        }),
        Fault::new(7, "gamma", move |s: &mut Settings, rng| match &mut s.rule {
            Rule::Arow { gamma, .. } => set(gamma, bad(rng)),
            _ => false,
        }),
        Fault::new(7, "variant", |s: &mut Settings, rng| match &mut s.rule {
            Rule::PassiveAggressive { variant, .. } => set(variant, rng.pick(&[3, 255, u32::MAX])),
            _ => false,
        }),
    ]
}

/// The three rules of starts, each broken: of a table of starts, the number of lists and that of entries.
fn of_starts<P: 'static>(names: [&'static str; 3], part: fn(&mut P) -> (&mut Vec<u32>, u32, u32)) -> Vec<Fault<P>> {
    vec![
        Fault::new(3, names[0], move |whole: &mut P, rng| {
            let (starts, ..) = part(whole);
            !starts.is_empty() && set(&mut starts[0], rng.pick(&[1, u32::MAX]))
        }),
        Fault::new(3, names[1], move |whole: &mut P, rng| {
            let (starts, lists, _) = part(whole);
            let lists = (lists as usize).min(starts.len().saturating_sub(1));
            if lists < 2 {
                return false;
            }
            // an inner start is above the one after it
            let i = 1 + place(rng, lists as u32 - 1);
            let above = starts[i + 1].saturating_add(1);
            set(&mut starts[i], rng.pick(&[above, u32::MAX]))
        }),
        Fault::new(3, names[2], move |whole: &mut P, rng| {
            let (starts, lists, entries) = part(whole);
            let last = starts.get_mut(lists as usize);
            // above 0 and not the count, also where the last is the first
            let other = [entries.saturating_sub(1).max(1), entries.saturating_add(1), u32::MAX];
            let others: Vec<u32> = other.into_iter().filter(|other| *other != entries).collect();
            last.is_some_and(|last| set(last, rng.pick(&others)))
        }),
    ]
}

/// One instance more, which is empty.
fn without_words(data: &mut Data, rng: &mut Rng) -> bool {
    let i = place(rng, data.instances.max(1));
    let room = (1..INSTANCES).contains(&data.instances) && i < data.word_starts.len() && i <= data.weights.len();
    if room {
        data.word_starts.insert(i, data.word_starts[i]);
        data.weights.insert(i, 1.0);
        data.instances += 1;
    }
    room
}

/// 129 words without attributes more in one instance.
fn too_many_words(data: &mut Data, rng: &mut Rng) -> bool {
    let more = WORDS + 1;
    let i = place(rng, data.instances.max(1));
    let Some(first) = data.word_starts.get(i).map(|start| *start as usize) else {
        return false;
    };
    let room =
        data.words < WORDS_IN_ALL - more && first < data.attribute_starts.len() && first <= data.references.len();
    if room {
        let start = data.attribute_starts[first];
        data.attribute_starts.splice(first..first, vec![start; more as usize]);
        data.references.splice(first..first, vec![0; more as usize]);
        data.word_starts[i + 1..].iter_mut().for_each(|start| *start = start.saturating_add(more));
        data.words += more;
    }
    room
}

// ---- single changes

fn inside<C: 'static, D: 'static>(faults: Vec<Fault<C>>, part: fn(&mut D) -> &mut C) -> Vec<Fault<D>> {
    faults.into_iter().map(|fault| fault.inside(part)).collect()
}

fn set<T>(place: &mut T, value: T) -> bool {
    *place = value;
    true
}

/// One above a bound, or far above it.
fn over(rng: &mut Rng, bound: u32) -> u32 {
    rng.pick(&[bound + 1, u32::MAX])
}

/// One entry fewer than needed.
fn shorten<T>(table: &mut Vec<T>, needed: u32) -> bool {
    table.truncate((needed as usize).saturating_sub(1));
    needed > 0
}

/// A bad entry somewhere within the count.
fn spoil<T: Copy>(rng: &mut Rng, table: &mut [T], count: u32, bad: &[T]) -> bool {
    let count = table.len().min(count as usize) as u32;
    count > 0 && set(&mut table[place(rng, count)], rng.pick(bad))
}

/// The first, the last, or any place.
fn place(rng: &mut Rng, count: u32) -> usize {
    let any = rng.below(count);
    rng.pick(&[0, count - 1, any, any]) as usize
}

fn flip(bytes: &mut [u8], rng: &mut Rng, from: u32, to: u32) -> bool {
    let i = rng.between(from, to - 1) as usize;
    let there = bytes.get_mut(i);
    there.is_some_and(|byte| set(byte, *byte ^ (1 + rng.below(255) as u8)))
}

fn put(bytes: &mut [u8], at: usize, new: &[u8]) -> bool {
    let there = bytes.get_mut(at..at + new.len());
    there.is_some_and(|old| {
        old.copy_from_slice(new);
        true
    })
}
