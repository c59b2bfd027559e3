//! Decoding and the scores of paths by the archive: path and path score against the Rust, sum and lead against the
//! reference beside it, refusals against the plain checker; to the bit, and all lent memory looked at.

mod shared;

use std::ptr;

use compare::decode::{self, sequence_score, viterbi_decode};
use compare::{Refusal, calls};
use oracle::cases::calls::{DecodeCall, PathCall};
use oracle::cases::damage;
use oracle::cases::make::{self, NOT_FINITE, PALETTES, Tails};
use oracle::cases::{Mix, Rng, calls as cases};
use oracle::judge::{self, Decoded};
use oracle::refusals::Lent;
use oracle::tables::{Scores, same};
use oracle::{desk, reference, rust};
use shared::{Call, refusal, refused_as_owed, rounds};

/// Tables that are decoded.
const CASES: u64 = 24_000;
/// Words of memory before and behind what is lent.
const MARGIN: usize = 5;

// ---- the calls, with an eye on all memory

/// Decodes by the archive. The buffer lies between margins that are not lent; all but the needed front of it, and all
/// of it after a refusal, holds what it held before, and so do the tables.
fn decoded(call: &DecodeCall, rng: &mut Rng) -> Result<Decoded, Refusal> {
    let DecodeCall { scores, path } = call;
    let margin = |rng: &mut Rng| (0..MARGIN).map(|_| rng.draw() as u32).collect::<Vec<_>>();
    let before = [margin(rng), path.clone(), margin(rng)].concat();
    let mut memory = before.clone();
    let tables = scores.clone();

    let lent = &mut memory[MARGIN..MARGIN + path.len()];
    let answer = viterbi_decode(scores.labels, scores.words, &tables.transitions, &tables.states, lent);

    let bits =
        |scores: &Scores| scores.transitions.iter().chain(&scores.states).map(|x| x.to_bits()).collect::<Vec<_>>();
    assert_eq!(bits(&tables), bits(scores), "the tables are only read");
    let front = MARGIN..MARGIN + if answer.is_ok() { scores.words as usize } else { 0 };
    assert_eq!(memory[..front.start], before[..front.start], "before the buffer");
    assert_eq!(memory[front.end..], before[front.end..], "behind the needed front");
    answer.map(|decode::Decoded { sum, lead }| Decoded { path: memory[front].to_vec(), sum, lead })
}

fn scored(call: &PathCall) -> Result<f64, Refusal> {
    let PathCall { scores, path, length } = call;
    sequence_score(scores.labels, scores.words, &scores.transitions, &scores.states, path, *length)
}

/// What the oracle says of either call.
fn owed(call: &DecodeCall) -> Result<Decoded, Refusal> {
    let lent = Lent { length: call.path.len(), needed: call.scores.words as usize };
    judge::decode(&call.scores, &[lent]).map_err(refusal)
}

fn owed_score(call: &PathCall) -> Result<f64, Refusal> {
    judge::path_score(&call.scores, &call.path, call.length, &[]).map_err(refusal)
}

/// The same answer, numbers to the bit.
fn agree(one: &Result<Decoded, Refusal>, other: &Result<Decoded, Refusal>) -> bool {
    match (one, other) {
        (Ok(one), Ok(other)) => {
            let leads = match (one.lead, other.lead) {
                (Some(one), Some(other)) => same(one, other),
                (one, other) => one == other,
            };
            one.path == other.path && same(one.sum, other.sum) && leads
        }
        (one, other) => one == other,
    }
}

// ---- sound tables

/// Mostly small, with corners; some of any size.
fn tables(rng: &mut Rng) -> DecodeCall {
    let mut call = cases::decode(rng);
    if rng.chance(4) {
        let (labels, words, palette) = (rng.between(1, 32), rng.between(1, 128), rng.pick(&PALETTES));
        call.scores = make::scores(rng, labels, words, palette);
        call.scores.add_tails(rng);
        call.path.resize(words as usize + rng.below(9) as usize, u32::MAX);
    }
    call
}

#[test]
fn decodes_as_the_rust_does() {
    let mut mix = Mix::new("decoded tables")
        .require("a tie on the chosen path", 30.0)
        .require("infinite sum", 1.0)
        .require("demand 3 by all paths", 50.0)
        .require("no lead", 5.0)
        .require("lead 0", 10.0)
        .require("lead above 0", 10.0)
        .require("infinite lead", 0.1)
        .require("sum −0", 0.5)
        .require("subnormal sum", 1.0)
        .require("a buffer longer than needed", 50.0)
        .require("junk behind a table", 50.0)
        .require("L 1", 2.0)
        .require("L 32", 2.0)
        .require("T 1", 2.0)
        .require("T 128", 2.0)
        .require("L above 5 and T above 7", 2.0);
    let mut gone_through = 0;
    for number in 0..CASES * rounds() {
        let mut rng = Rng::of_case(0xDEC0, number);
        let call = tables(&mut rng);
        let (scores, words) = (&call.scores, call.scores.words as usize);
        let answer = decoded(&call, &mut rng);
        assert!(agree(&answer, &owed(&call)), "case {number}: {answer:?}, not {:?}: {call:?}", owed(&call));
        let Decoded { path, sum, lead } = answer.expect("the tables are sound");

        let by_all_paths = reference::by_all_paths(scores);
        gone_through += u64::from(by_all_paths.is_some());
        assert!(by_all_paths.as_ref().is_none_or(|demanded| *demanded == path), "case {number}: demand 3");

        let score = scored(&PathCall { scores: scores.clone(), path: path.clone(), length: words as u32 });
        let expected = rust::path_score(scores, &path).expect("the path is in its table");
        assert!(score.is_ok_and(|score| same(score, expected)), "case {number}: {score:?}, not {expected}");

        mix.case();
        mix.count("a tie on the chosen path", reference::tied(scores, &path));
        mix.count("infinite sum", !sum.is_finite());
        mix.count("demand 3 by all paths", by_all_paths.is_some());
        mix.count("no lead", lead.is_none());
        mix.count("lead 0", lead == Some(0.0));
        mix.count("lead above 0", lead.is_some_and(|lead| lead > 0.0));
        mix.count("infinite lead", lead == Some(f64::INFINITY));
        mix.count("sum −0", same(sum, -0.0));
        mix.count("subnormal sum", sum.is_subnormal());
        mix.count("a buffer longer than needed", call.path.len() > words);
        let needed = scores.labels as usize * (scores.labels as usize + words);
        mix.count("junk behind a table", scores.transitions.len() + scores.states.len() > needed);
        mix.count("L 1", scores.labels == 1);
        mix.count("L 32", scores.labels == 32);
        mix.count("T 1", words == 1);
        mix.count("T 128", words == 128);
        mix.count("L above 5 and T above 7", scores.labels > 5 && words > 7);
    }
    assert!(mix.cases() >= 20_000 && gone_through >= 2_000);
    mix.finish();
}

#[test]
fn scores_paths_as_the_rust_does() {
    let mut mix = Mix::new("scored paths")
        .require("empty", 5.0)
        .require("shorter than the line", 30.0)
        .require("infinite score", 3.0)
        .require("not the sum of decode", 5.0)
        .require("a path with a tail", 30.0)
        .require("junk behind a table", 50.0);
    for number in 0..CASES * rounds() {
        let call = cases::path(&mut Rng::of_case(0x5C0E, number));
        let PathCall { scores, path, length } = &call;
        let front = &path[..*length as usize];
        let expected = rust::path_score(scores, front).expect("the path is in its table");
        let score = scored(&call);
        assert!(score.is_ok_and(|score| same(score, expected)), "case {number}: {score:?}, not {expected}: {call:?}");
        mix.case();
        mix.count("empty", front.is_empty());
        mix.count("shorter than the line", *length < scores.words);
        mix.count("infinite score", !expected.is_finite());
        mix.count("not the sum of decode", *length > 0 && !same(reference::sum(scores, front), expected));
        mix.count("a path with a tail", path.len() > front.len());
        let needed = scores.labels * (scores.labels + scores.words);
        mix.count("junk behind a table", scores.transitions.len() + scores.states.len() > needed as usize);
    }
    mix.finish();
}

/// P1 to P8 of document 01, by what it says of them.
#[test]
fn desk_cases() {
    for case in desk::decodings() {
        let (name, scores) = (case.name, case.scores);
        let call = DecodeCall { path: vec![77; scores.words as usize], scores };
        let answer = decoded(&call, &mut Rng::new(1)).expect(name);
        assert_eq!(answer.path, case.path, "{name}");
        assert!(case.sum.is_none_or(|sum| same(answer.sum, sum)), "{name}: {}", answer.sum);
        assert!(case.lead.is_none_or(|lead| answer.lead == Some(lead)), "{name}: {:?}", answer.lead);
        let score = |length| scored(&PathCall { scores: call.scores.clone(), path: case.path.clone(), length });
        let whole = score(case.path.len() as u32).expect(name);
        assert!(case.path_score.is_none_or(|score| same(score, whole)), "{name}: {whole}");
        assert!(score(0).is_ok_and(|score| same(score, 0.0)), "P8 on the tables of {name}");
    }
}

// ---- refusals

/// The path's buffer is a part of the call.
fn no_buffers<C>(_: &C) -> Vec<usize> {
    vec![]
}

#[test]
fn refuses_damaged_tables() {
    let call = Call {
        name: "damaged tables",
        often: 500,
        make: cases::decode,
        needed: no_buffers,
        run: |call, _, rng| decoded(call, rng).err(),
        owed: |call, _| owed(call).err(),
    };
    refused_as_owed(call, &damage::of_decode_call(), &[1, 2, 4, 6]);
}

#[test]
fn refuses_damaged_paths() {
    let call = Call {
        name: "damaged paths",
        often: 500,
        make: cases::path,
        needed: no_buffers,
        run: |call, _, _| scored(call).err(),
        owed: |call, _| owed_score(call).err(),
    };
    refused_as_owed(call, &damage::of_path_call(), &[1, 2, 4, 5, 6]);
}

/// A number that is not finite, at every place of both tables, also where another follows; and the largest tables.
#[test]
fn not_finite_at_every_place() {
    let mut rng = Rng::new(0x6);
    for (labels, words) in [(1, 1), (1, 6), (4, 1), (3, 5), (5, 7), (32, 128)] {
        let sound = make::scores(&mut rng, labels, words, make::Palette::Plain);
        let (moves, all) = (labels * labels, labels * (labels + words));
        let step = if all > 1_000 { 97 } else { 1 };
        for place in (0..all).step_by(step).chain([moves - 1, moves, all - 1]) {
            let mut scores = sound.clone();
            for spoilt in [place, rng.between(place, all - 1)] {
                let bad = rng.pick(&NOT_FINITE);
                match spoilt.checked_sub(moves) {
                    None => scores.transitions[spoilt as usize] = bad,
                    Some(state) => scores.states[state as usize] = bad,
                }
            }
            let expected = (6, u64::from(place.checked_sub(moves).unwrap_or(place)));
            let call = DecodeCall { scores, path: vec![9; words as usize + 1] };
            assert_eq!(decoded(&call, &mut rng).err(), Some(expected), "L {labels}, T {words}");
            let call = PathCall { scores: call.scores, path: vec![], length: 0 };
            assert_eq!(scored(&call).err(), Some(expected), "L {labels}, T {words}, an empty path");
        }
    }
}

/// L, T and the lengths of all that is lent, at their ends and one past them.
#[test]
fn at_the_bounds() {
    let zeros = |labels: u32, words: u32| Scores {
        labels,
        words,
        states: vec![0.0; (words * labels) as usize],
        transitions: vec![0.0; (labels * labels) as usize],
    };
    for labels in [0, 1, 2, 31, 32, 33] {
        for words in [0, 1, 2, 127, 128, 129] {
            let refused = match (labels, words) {
                (0 | 33, _) => Some((1, 0)),
                (_, 0 | 129) => Some((4, 0)),
                _ => None,
            };
            let call = DecodeCall { scores: zeros(labels, words), path: vec![9; words as usize] };
            let answer = decoded(&call, &mut Rng::new(2));
            assert!(agree(&answer, &owed(&call)), "L {labels}, T {words}");
            assert_eq!(answer.clone().err(), refused, "L {labels}, T {words}");
            assert!(answer.is_err() || answer.is_ok_and(|answer| answer.path == vec![labels - 1; words as usize]));
            let call = PathCall { path: vec![0; words as usize], length: words, scores: call.scores };
            assert_eq!(scored(&call).err(), refused, "L {labels}, T {words}: path score");
        }
    }
    // one entry fewer in each thing that is lent
    for (labels, words) in [(1, 1), (2, 3), (32, 128)] {
        let sound = DecodeCall { scores: zeros(labels, words), path: vec![9; words as usize] };
        let fewer: [fn(&mut DecodeCall) -> bool; 3] = [
            |call| call.scores.transitions.pop().is_some(),
            |call| call.scores.states.pop().is_some(),
            |call| call.path.pop().is_some(),
        ];
        for fewer in fewer {
            let mut call = sound.clone();
            assert!(fewer(&mut call));
            assert_eq!(decoded(&call, &mut Rng::new(3)).err(), Some((2, 0)), "L {labels}, T {words}");
            let call = PathCall { scores: call.scores, path: call.path, length: words };
            assert_eq!(scored(&call).err(), Some((2, 0)), "L {labels}, T {words}: path score");
        }
        // a path of more labels than there are words is 4, with as many labels or not
        for room in [words, words + 1] {
            let call = PathCall { scores: sound.scores.clone(), path: vec![0; room as usize], length: words + 1 };
            assert_eq!(scored(&call).err(), Some((4, 0)), "L {labels}, T {words}");
        }
    }
}

/// A pointer whose length is 0 may be NULL: then the table is short, and nothing is read through it.
#[test]
fn null_is_an_empty_table() {
    let (table, labels) = ([0.0f64; 4], [7u32; 2]);
    let lent = |there: bool| if there { (table.as_ptr(), 4) } else { (ptr::null(), 0) };
    for case in 0..8 {
        let [first, second, third] = [1, 2, 4].map(|bit| case & bit != 0);
        let ((transitions, m), (states, n)) = (lent(first), lent(second));
        for (l, t) in [(2, 2), (1, 1), (0, 2), (2, 0), (33, 129), (u32::MAX, u32::MAX)] {
            let refused = match (l, t) {
                (0 | 33 | u32::MAX, _) => Some((1, 0)),
                (_, 0) => Some((4, 0)),
                _ => (!(first && second && third)).then_some((2, 0)),
            };
            let mut path = labels;
            let (p, room) = if third { (path.as_mut_ptr(), 2) } else { (ptr::null_mut(), 0) };
            let answer = unsafe { calls::bodkinbloom_viterbi_decode(l, t, transitions, m, states, n, p, room) };
            assert_eq!(decode::decoded(answer).err(), refused, "L {l}, T {t}, case {case}");
            assert!(refused.is_none() || path == labels, "as at entry");

            let path = [0; 2];
            let (p, room) = if third { (path.as_ptr(), 2) } else { (ptr::null(), 0) };
            let answer = unsafe { calls::bodkinbloom_sequence_score(l, t, transitions, m, states, n, p, room, t) };
            assert_eq!(decode::scored(answer).err(), refused, "L {l}, T {t}, case {case}: path score");
        }
    }
    // an empty path needs no memory at all
    let (p, n) = (table.as_ptr(), 4);
    let answer = unsafe { calls::bodkinbloom_sequence_score(2, 2, p, n, p, n, ptr::null(), 0, 0) };
    assert!(decode::scored(answer).is_ok_and(|score| same(score, 0.0)));
}
