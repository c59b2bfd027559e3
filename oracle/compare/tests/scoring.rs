//! Scores, feature counts and labels of a line by the archive, against the Rust; refusals of those calls, of the model's
//! check and of `set_weights` against the plain checker; to the bit, and all lent memory looked at.

mod shared;

use compare::scoring::{check_model, compute_scores, extract_features, label_line, set_weights};
use compare::{Refusal, decode};
use oracle::cases::calls::{CountCall, LineCall};
use oracle::cases::make::{self, NOT_FINITE, PALETTES, Palette, Size, Tails};
use oracle::cases::{Mix, Rng, calls as cases, damage};
use oracle::judge::{self, Decoded};
use oracle::refusals::{self, ATTRIBUTE_LISTS, ATTRIBUTES_IN_ALL, ENTRIES, FEATURES, LABEL_LISTS, LABELS, WORDS};
use oracle::tables::{Counts, Line, Model, STATE, Scores, TRANSITION, all_same, same};
use shared::{Buffer, Call, Entry, bits_of_line, lent, refusal, refused_as_owed, rooms, rounds};

/// Lines that are scored and labelled, and lines that are counted.
const CASES: u64 = 12_000;
/// Each kind of 8 is met so often among them.
const OFTEN: u64 = 50;

// ---- the calls, with an eye on all memory

/// Transitions, then states.
fn needed_scores(call: &LineCall) -> Vec<usize> {
    let [labels, words] = [call.model.labels, call.line.words].map(|count| count as usize);
    vec![labels * labels, words * labels]
}

fn scored(call: &LineCall, rooms: &[usize], rng: &mut Rng) -> Result<Scores, Refusal> {
    let LineCall { model, line } = call.clone();
    let needed = needed_scores(call);
    let (mut transitions, mut states) = (Buffer::new(rng, rooms[0]), Buffer::new(rng, rooms[1]));
    let answer = compute_scores(&model, &line, transitions.lend(), states.lend());
    assert_eq!(bits_of_line(&model, &line), bits_of_line(&call.model, &call.line), "the tables are only read");
    let [transitions, states] =
        [(transitions, needed[0]), (states, needed[1])].map(|(of, needed)| of.result(needed, answer.err()).to_vec());
    answer.map(|()| Scores { labels: model.labels, words: line.words, states, transitions })
}

fn owed_scores(call: &LineCall, rooms: &[usize]) -> Result<Scores, Refusal> {
    judge::scores(&call.model, &call.line, &lent(rooms, &needed_scores(call))).map_err(refusal)
}

fn needed_path(call: &LineCall) -> Vec<usize> {
    vec![call.line.words as usize]
}

fn labelled(call: &LineCall, rooms: &[usize], rng: &mut Rng) -> Result<Decoded, Refusal> {
    let LineCall { model, line } = call.clone();
    let mut path = Buffer::new(rng, rooms[0]);
    let answer = label_line(&model, &line, path.lend());
    assert_eq!(bits_of_line(&model, &line), bits_of_line(&call.model, &call.line), "the tables are only read");
    let path: Vec<u32> = path.result(needed_path(call)[0], answer.err()).to_vec();
    answer.map(|decode::Decoded { sum, lead }| Decoded { path, sum, lead })
}

fn owed_labels(call: &LineCall, rooms: &[usize]) -> Result<Decoded, Refusal> {
    judge::decode_line(&call.model, &call.line, &lent(rooms, &needed_path(call))).map_err(refusal)
}

fn needed_counts(call: &CountCall) -> Vec<usize> {
    vec![call.model.counts.features as usize]
}

fn counted(call: &CountCall, rooms: &[usize], rng: &mut Rng) -> Result<Vec<f64>, Refusal> {
    let CountCall { model, line, labels } = call.clone();
    let mut counts = Buffer::new(rng, rooms[0]);
    let answer = extract_features(&model, &line, &labels, counts.lend());
    assert_eq!(bits_of_line(&model, &line), bits_of_line(&call.model, &call.line), "the tables are only read");
    assert_eq!(labels, call.labels, "the labels are only read");
    let counts = counts.result(needed_counts(call)[0], answer.err()).to_vec();
    answer.map(|()| counts)
}

fn owed_counts(call: &CountCall, rooms: &[usize]) -> Result<Vec<f64>, Refusal> {
    judge::counts(&call.model, &call.line, &call.labels, &lent(rooms, &needed_counts(call))).map_err(refusal)
}

/// The model's check is that of a line of one word without attributes.
fn owed_check(model: &Model) -> Result<(), Refusal> {
    let line = Line { words: 1, attributes: 0, starts: vec![0, 0], ids: vec![], values: vec![] };
    refusals::line(model, &line, &[]).map_err(refusal)
}

// ---- the same answer, numbers to the bit

fn same_scores(one: &Result<Scores, Refusal>, other: &Result<Scores, Refusal>) -> bool {
    match (one, other) {
        (Ok(one), Ok(other)) => all_same(&one.states, &other.states) && all_same(&one.transitions, &other.transitions),
        (one, other) => one.as_ref().err() == other.as_ref().err() && one.is_err(),
    }
}

fn same_labels(one: &Result<Decoded, Refusal>, other: &Result<Decoded, Refusal>) -> bool {
    let bits = |lead: Option<f64>| lead.map(f64::to_bits);
    match (one, other) {
        (Ok(one), Ok(other)) => {
            one.path == other.path && same(one.sum, other.sum) && bits(one.lead) == bits(other.lead)
        }
        (one, other) => one.as_ref().err() == other.as_ref().err() && one.is_err(),
    }
}

fn same_counts(one: &Result<Vec<f64>, Refusal>, other: &Result<Vec<f64>, Refusal>) -> bool {
    match (one, other) {
        (Ok(one), Ok(other)) => all_same(one, other),
        (one, other) => one.as_ref().err() == other.as_ref().err() && one.is_err(),
    }
}

// ---- sound calls

/// Mostly small, with corners; some of any size, some whose sums overflow, some of these in transitions alone.
fn any_line(rng: &mut Rng) -> LineCall {
    let mut size = Size::drawn(rng);
    let (weights, values) = match rng.below(100) {
        0..4 => {
            size = Size {
                labels: rng.between(1, 32),
                words: rng.between(1, 128),
                features: rng.between(0, 3_000),
                attribute_lists: rng.between(0, 300),
                label_lists: rng.between(0, 32),
                entries: 40,
                attributes: 12,
                instances: 1,
            };
            let palette = rng.pick(&PALETTES);
            (palette, palette)
        }
        4..10 => (Palette::Large, Palette::Whole),
        10..14 => (Palette::Large, rng.pick(&[Palette::Zeros, Palette::Subnormal])),
        _ => {
            let palette = rng.pick(&PALETTES);
            (palette, palette)
        }
    };
    let mut model = make::model(rng, &size, weights);
    let mut line = make::line(rng, &model, &size, values);
    model.add_tails(rng);
    line.add_tails(rng);
    LineCall { model, line }
}

/// The same, with labels; some lines have large values and few ids.
fn any_count(rng: &mut Rng) -> CountCall {
    let LineCall { model, mut line } = any_line(rng);
    if rng.chance(10) {
        line.values[..line.attributes as usize].iter_mut().for_each(|x| *x = make::number(rng, Palette::Large));
    }
    let mut labels = make::path(rng, model.labels, line.words);
    labels.extend([u32::MAX].iter().take(rng.below(2) as usize));
    CountCall { model, line, labels }
}

fn front<T>(table: &[T], count: u32) -> &[T] {
    &table[..count as usize]
}

fn twice(entries: &[u32]) -> bool {
    entries.windows(2).any(|pair| pair[0] == pair[1])
}

/// What lies in a line or a model and may be met anywhere.
fn count_corners(mix: &mut Mix, model: &Model, line: &Line) {
    let counts = model.counts;
    let lists = counts.attribute_lists;
    let entries = front(&model.attribute_entries, counts.attribute_entries);
    mix.count("an id without a list", front(&line.ids, line.attributes).iter().any(|id| *id >= lists));
    mix.count("an entry twice", twice(entries) || twice(front(&model.label_entries, counts.label_entries)));
    mix.count("a Transition in an attribute list", entries.iter().any(|i| model.kinds[*i as usize] == TRANSITION));
    mix.count("fewer label lists than labels", counts.label_lists < model.labels);
    mix.count("more label lists than labels", counts.label_lists > model.labels);
    mix.count("no features", counts.features == 0);
    mix.count("no attribute lists", lists == 0);
    mix.count("above 1,000 features", counts.features > 1_000);
    mix.count("T 1", line.words == 1);
    mix.count("T 128", line.words == 128);
    mix.count("L 1", model.labels == 1);
    mix.count("L 32", model.labels == 32);
    mix.count("L above 5 and T above 7", model.labels > 5 && line.words > 7);
}

fn mix_of_lines(name: &'static str) -> Mix {
    Mix::new(name)
        .require("accepted", 60.0)
        .require("an id without a list", 20.0)
        .require("an entry twice", 10.0)
        .require("a Transition in an attribute list", 20.0)
        .require("fewer label lists than labels", 5.0)
        .require("more label lists than labels", 5.0)
        .require("no features", 2.0)
        .require("no attribute lists", 2.0)
        .require("above 1,000 features", 2.0)
        .require("T 1", 5.0)
        .require("T 128", 1.0)
        .require("L 1", 2.0)
        .require("L 32", 2.0)
        .require("L above 5 and T above 7", 2.0)
}

#[test]
fn scores_and_labels_as_the_rust_does() {
    let mut mix = mix_of_lines("scored and labelled lines")
        .require("scores other than 0", 40.0)
        .require("transition scores", 30.0)
        .require("subnormal score", 3.0)
        .require("lead 0", 10.0)
        .require("infinite sum", 0.3);
    let (mut by_state, mut by_transition) = (0, 0);
    for number in 0..CASES * rounds() {
        let mut rng = Rng::of_case(0x5C02, number);
        let call = any_line(&mut rng);
        let room = rooms(&mut rng, &needed_scores(&call));
        let (answer, owed) = (scored(&call, &room, &mut rng), owed_scores(&call, &room));
        assert!(same_scores(&answer, &owed), "case {number}: {answer:?}, not {owed:?}: {call:?}");
        let room = rooms(&mut rng, &needed_path(&call));
        let (labels, owed) = (labelled(&call, &room, &mut rng), owed_labels(&call, &room));
        assert!(same_labels(&labels, &owed), "case {number}: {labels:?}, not {owed:?}: {call:?}");
        assert_eq!(check_model(&call.model), Ok(()), "case {number}");

        let states = u64::from(call.line.words * call.model.labels);
        match answer {
            Err((8, place)) if place < states => by_state += 1,
            Err((8, _)) => by_transition += 1,
            _ => {}
        }
        let any = |found: fn(&f64) -> bool| {
            let scores = answer.as_ref();
            scores.is_ok_and(|scores| scores.states.iter().chain(&scores.transitions).any(found))
        };
        mix.case();
        count_corners(&mut mix, &call.model, &call.line);
        mix.count("accepted", answer.is_ok());
        mix.count("scores other than 0", any(|x| *x != 0.0));
        mix.count("transition scores", answer.as_ref().is_ok_and(|of| of.transitions.iter().any(|x| *x != 0.0)));
        mix.count("subnormal score", any(|x| x.is_subnormal()));
        mix.count("lead 0", labels.as_ref().is_ok_and(|of| of.lead == Some(0.0)));
        mix.count("infinite sum", labels.is_ok_and(|of| !of.sum.is_finite()));
    }
    println!("8 by state {by_state}, by transition {by_transition}");
    assert!(mix.cases() >= 10_000 && by_state >= OFTEN && by_transition >= OFTEN);
    mix.finish();
}

#[test]
fn counts_as_the_rust_does() {
    let mut mix = mix_of_lines("counted lines")
        .require("a State counted", 40.0)
        .require("a Transition counted", 5.0)
        .require("a count above 1", 20.0)
        .require("labels with a tail", 30.0);
    let mut by_count = 0;
    for number in 0..CASES * rounds() {
        let mut rng = Rng::of_case(0xC072, number);
        let call = any_count(&mut rng);
        let room = rooms(&mut rng, &needed_counts(&call));
        let (answer, owed) = (counted(&call, &room, &mut rng), owed_counts(&call, &room));
        assert!(same_counts(&answer, &owed), "case {number}: {answer:?}, not {owed:?}: {call:?}");
        by_count += u64::from(matches!(answer, Err((8, _))));
        let of = |kind: u8| {
            let counts = answer.as_ref().map_or(&[][..], |counts| counts);
            counts.iter().zip(&call.model.kinds).any(|(count, of)| *of == kind && *count != 0.0)
        };
        mix.case();
        count_corners(&mut mix, &call.model, &call.line);
        mix.count("accepted", answer.is_ok());
        mix.count("a State counted", of(STATE));
        mix.count("a Transition counted", of(TRANSITION));
        mix.count("a count above 1", answer.as_ref().is_ok_and(|counts| counts.iter().any(|x| *x > 1.0)));
        mix.count("labels with a tail", call.labels.len() > call.line.words as usize);
    }
    println!("8 by count {by_count}");
    assert!(mix.cases() >= 10_000 && by_count >= OFTEN);
    mix.finish();
}

/// What the buffers are full of has NaNs of every kind among it.
#[test]
fn lends_nans_of_every_kind() {
    const QUIET: u64 = 1 << 51;
    let mut rng = Rng::new(0x2A2);
    let drawn: Vec<f64> = (0..1_000).map(|_| Entry::drawn(&mut rng)).filter(|x: &f64| x.is_nan()).collect();
    for (minus, quiet) in [(false, false), (false, true), (true, false), (true, true)] {
        let of_kind = |x: &&f64| x.is_sign_negative() == minus && (x.to_bits() & QUIET != 0) == quiet;
        assert!(drawn.iter().filter(of_kind).count() > 30, "minus {minus}, quiet {quiet}");
    }
}

// ---- refusals

/// Scoring, and the model's check beside it, which finds what is in the model.
#[test]
fn refuses_damaged_lines() {
    let call = Call {
        name: "damaged lines, scored",
        often: 100,
        make: cases::line,
        needed: needed_scores,
        run: |call, rooms, rng| {
            assert_eq!(check_model(&call.model), owed_check(&call.model), "{call:?}");
            scored(call, rooms, rng).err()
        },
        owed: |call, rooms| owed_scores(call, rooms).err(),
    };
    refused_as_owed(call, &damage::of_line_call(), &[1, 2, 3, 4, 5, 6]);
}

#[test]
fn refuses_damaged_lines_to_label() {
    let call = Call {
        name: "damaged lines, labelled",
        often: 100,
        make: cases::line,
        needed: needed_path,
        run: |call, rooms, rng| labelled(call, rooms, rng).err(),
        owed: |call, rooms| owed_labels(call, rooms).err(),
    };
    refused_as_owed(call, &damage::of_line_call(), &[1, 2, 3, 4, 5, 6]);
}

#[test]
fn refuses_damaged_counts() {
    let call = Call {
        name: "damaged lines, counted",
        often: 100,
        make: cases::count,
        needed: needed_counts,
        run: |call, rooms, rng| counted(call, rooms, rng).err(),
        owed: |call, rooms| owed_counts(call, rooms).err(),
    };
    refused_as_owed(call, &damage::of_count_call(), &[1, 2, 3, 4, 5, 6]);
}

// ---- set_weights

fn weights_set(features: u32, new: &[f64], room: usize, rng: &mut Rng) -> Result<Vec<f64>, Refusal> {
    let mut weights = Buffer::new(rng, room);
    let answer = set_weights(features, new, weights.lend());
    let weights = weights.result(features as usize, answer.err()).to_vec();
    answer.map(|()| weights)
}

#[test]
fn sets_weights_as_the_rust_does() {
    let mut mix = Mix::new("weights set").require("accepted", 60.0).require("2", 5.0).require("6", 5.0);
    for number in 0..4_000 {
        let mut rng = Rng::of_case(0x5E7, number);
        let mut features = if rng.chance(2) { rng.pick(&[0, FEATURES]) } else { rng.between(0, 40) };
        let palette = rng.pick(&PALETTES);
        let mut new = make::numbers(&mut rng, palette, features as usize);
        if rng.chance(10) && features > 0 {
            let place = rng.below(features) as usize;
            new[place] = rng.pick(&NOT_FINITE);
        }
        new.extend(NOT_FINITE.iter().take(rng.below(3) as usize));
        let mut room = features as usize + rng.below(3) as usize;
        match rng.below(40) {
            0 => new.truncate((features as usize).saturating_sub(1)),
            1 => room = (features as usize).saturating_sub(1),
            2 => features = rng.pick(&[FEATURES + 1, u32::MAX]),
            3 => features += 3,
            _ => {}
        }
        let answer = weights_set(features, &new, room, &mut rng);
        let owed = judge::set_weights(features, &new, &lent(&[room], &[features as usize])).map_err(refusal);
        assert!(same_counts(&answer, &owed), "case {number}: {answer:?}, not {owed:?}");
        mix.case();
        mix.count("accepted", answer.is_ok());
        mix.count("2", answer.as_ref().is_err_and(|(number, _)| *number == 2));
        mix.count("6", answer.as_ref().is_err_and(|(number, _)| *number == 6));
    }
    mix.finish();
}

// ---- bounds

/// Every count at its bound: each list has entries, and each word has attributes.
fn largest() -> CountCall {
    let mut rng = Rng::new(0xB0);
    let kinds: Vec<u8> = (0..FEATURES).map(|_| rng.pick(&[STATE, TRANSITION])).collect();
    let mut ids = |count: u32, below: u32| (0..count).map(|_| rng.below(below)).collect::<Vec<u32>>();
    let starts = |lists: u32, entries: u32| {
        let start = |list| (u64::from(list) * u64::from(entries) / u64::from(lists)) as u32;
        (0..=lists).map(start).collect::<Vec<u32>>()
    };
    let model = Model {
        labels: LABELS,
        counts: Counts {
            features: FEATURES,
            attribute_lists: ATTRIBUTE_LISTS,
            label_lists: LABEL_LISTS,
            attribute_entries: ENTRIES,
            label_entries: ENTRIES,
        },
        kinds,
        destinations: ids(FEATURES, LABELS),
        sources: ids(FEATURES, LABELS),
        weights: vec![],
        attribute_starts: starts(ATTRIBUTE_LISTS, ENTRIES),
        attribute_entries: ids(ENTRIES, FEATURES),
        label_starts: starts(LABEL_LISTS, ENTRIES),
        label_entries: ids(ENTRIES, FEATURES),
    };
    let line = Line {
        words: WORDS,
        attributes: ATTRIBUTES_IN_ALL,
        starts: starts(WORDS, ATTRIBUTES_IN_ALL),
        ids: ids(ATTRIBUTES_IN_ALL, ATTRIBUTE_LISTS + 9),
        values: vec![],
    };
    let labels = ids(WORDS, LABELS);
    let weights = make::numbers(&mut rng, Palette::Plain, FEATURES as usize);
    let values = make::numbers(&mut rng, Palette::Plain, ATTRIBUTES_IN_ALL as usize);
    CountCall { model: Model { weights, ..model }, line: Line { values, ..line }, labels }
}

/// The largest call is answered as the Rust answers it, and one more of anything is refused.
#[test]
fn at_the_bounds() {
    let mut rng = Rng::new(0xB1);
    let CountCall { model, line, labels } = largest();
    let mut call = LineCall { model, line };
    let room = needed_scores(&call);
    assert!(same_scores(&scored(&call, &room, &mut rng), &owed_scores(&call, &room)));
    let room = needed_path(&call);
    assert!(same_labels(&labelled(&call, &room, &mut rng), &owed_labels(&call, &room)));
    let count = CountCall { model: call.model.clone(), line: call.line.clone(), labels };
    let room = needed_counts(&count);
    assert!(same_counts(&counted(&count, &room, &mut rng), &owed_counts(&count, &room)));

    type More = fn(&mut LineCall);
    let more: [(More, u32); 8] = [
        (|call| call.model.labels += 1, 1),
        (|call| call.line.words += 1, 4),
        (|call| call.model.counts.features += 1, 2),
        (|call| call.model.counts.attribute_lists += 1, 2),
        (|call| call.model.counts.label_lists += 1, 2),
        (|call| call.model.counts.attribute_entries += 1, 2),
        (|call| call.model.counts.label_entries += 1, 2),
        (|call| call.line.attributes += 1, 2),
    ];
    // room for what is one too many
    let model = &mut call.model;
    model.kinds.push(0);
    model.weights.push(0.0);
    for table in [&mut model.destinations, &mut model.sources, &mut model.attribute_entries, &mut model.label_entries] {
        table.push(0);
    }
    model.attribute_starts.push(ENTRIES);
    model.label_starts.push(ENTRIES);
    call.line.starts.push(ATTRIBUTES_IN_ALL);
    call.line.ids.push(0);
    call.line.values.push(0.0);
    let (model, line) = ((call.model.labels, call.model.counts), (call.line.words, call.line.attributes));
    for (more, number) in more {
        more(&mut call);
        let mut lent = (vec![7.0; 33 * 33], vec![7.0; 33 * 129], vec![7; 129], vec![7.0; FEATURES as usize + 1]);
        let refused = Some((number, 0));
        assert_eq!(compute_scores(&call.model, &call.line, &mut lent.0, &mut lent.1).err(), refused);
        assert_eq!(label_line(&call.model, &call.line, &mut lent.2).err(), refused);
        assert_eq!(extract_features(&call.model, &call.line, &[0; 129], &mut lent.3).err(), refused);
        assert_eq!(check_model(&call.model), owed_check(&call.model));
        let untouched = lent.0.iter().chain(&lent.1).chain(&lent.3).all(|x| *x == 7.0);
        assert!(untouched && lent.2.iter().all(|x| *x == 7), "as at entry");
        ((call.model.labels, call.model.counts), (call.line.words, call.line.attributes)) = (model, line);
    }
}

/// L and T at their ends and one past them; every feature of one list, and a list of each label.
#[test]
fn labels_and_words() {
    for labels in [0, 1, 2, 31, 32, 33] {
        for words in [0, 1, 2, 127, 128, 129] {
            let mut rng = Rng::new(u64::from(labels * 1_000 + words));
            let size = Size {
                labels: labels.max(1),
                words: words.max(1),
                features: 64,
                attribute_lists: 5,
                label_lists: labels.min(32),
                entries: 20,
                attributes: 3,
                instances: 1,
            };
            let mut model = make::model(&mut rng, &size, Palette::Plain);
            let mut line = make::line(&mut rng, &model, &size, Palette::Plain);
            while line.words < size.words {
                line = make::line(&mut rng, &model, &size, Palette::Plain);
            }
            (model.labels, line.words) = (labels, words);
            if words == 0 {
                (line.attributes, line.starts) = (0, vec![0]);
            }
            let path = vec![0; words as usize];
            let count = CountCall { model: model.clone(), line: line.clone(), labels: path };
            let call = LineCall { model, line };
            let refused = match (labels, words) {
                (0 | 33, _) => Some((1, 0)),
                (_, 0 | 129) => Some((4, 0)),
                _ => None,
            };
            let name = format!("L {labels}, T {words}");
            let room = needed_scores(&call);
            let answer = scored(&call, &room, &mut rng);
            assert_eq!(answer.as_ref().err().copied(), refused, "{name}");
            assert!(same_scores(&answer, &owed_scores(&call, &room)), "{name}");
            let room = needed_path(&call);
            let answer = labelled(&call, &room, &mut rng);
            assert!(same_labels(&answer, &owed_labels(&call, &room)), "{name}");
            let room = needed_counts(&count);
            let answer = counted(&count, &room, &mut rng);
            assert!(same_counts(&answer, &owed_counts(&count, &room)), "{name}");
            assert_eq!(check_model(&call.model), owed_check(&call.model), "{name}");
        }
    }
}

// ---- NULL

/// A table without entries is handed over as NULL: each table in turn and all at once, where it is short and where
/// nothing is needed of it.
#[test]
fn null_is_an_empty_table() {
    type Empty = fn(&mut CountCall, &mut [usize]);
    let empties: [Empty; 15] = [
        |call, _| call.model.kinds.clear(),
        |call, _| call.model.destinations.clear(),
        |call, _| call.model.sources.clear(),
        |call, _| call.model.weights.clear(),
        |call, _| call.model.attribute_starts.clear(),
        |call, _| call.model.attribute_entries.clear(),
        |call, _| call.model.label_starts.clear(),
        |call, _| call.model.label_entries.clear(),
        |call, _| call.line.starts.clear(),
        |call, _| call.line.ids.clear(),
        |call, _| call.line.values.clear(),
        |call, _| call.labels.clear(),
        |_, rooms| rooms[0] = 0,
        |_, rooms| rooms[1] = 0,
        |_, rooms| rooms[2] = 0,
    ];
    let mut accepted = 0;
    for number in 0..600 {
        let mut rng = Rng::of_case(0x0, number);
        let sound = cases::count(&mut rng);
        let choices: Vec<Vec<&Empty>> =
            empties.iter().map(|empty| vec![empty]).chain([empties.iter().collect(), vec![]]).collect();
        for chosen in choices {
            let mut call = sound.clone();
            let line = LineCall { model: call.model.clone(), line: call.line.clone() };
            let mut rooms = [needed_scores(&line), needed_counts(&call)].concat();
            chosen.iter().for_each(|empty| empty(&mut call, &mut rooms));
            let line = LineCall { model: call.model.clone(), line: call.line.clone() };
            let answer = scored(&line, &rooms[..2], &mut rng);
            assert!(same_scores(&answer, &owed_scores(&line, &rooms[..2])), "case {number}");
            let answer = counted(&call, &rooms[2..], &mut rng);
            assert!(same_counts(&answer, &owed_counts(&call, &rooms[2..])), "case {number}");
            accepted += u64::from(answer.is_ok() && chosen.len() == 1);
            let path = [if rooms[0] == 0 { 0 } else { line.line.words as usize }];
            assert!(same_labels(&labelled(&line, &path, &mut rng), &owed_labels(&line, &path)), "case {number}");
            assert_eq!(check_model(&call.model), owed_check(&call.model), "case {number}");
        }
    }
    assert!(accepted > 500, "{accepted}");

    // nothing at all: L, then T, then what is short
    for (labels, words, number) in [(0, 0, 1), (33, 1, 1), (1, 0, 4), (1, 129, 4), (1, 1, 2)] {
        let call = LineCall { model: Model { labels, ..Model::default() }, line: Line { words, ..Line::default() } };
        let refused = Some((number, 0));
        assert_eq!(compute_scores(&call.model, &call.line, &mut [], &mut []).err(), refused);
        assert_eq!(label_line(&call.model, &call.line, &mut []).err(), refused);
        assert_eq!(extract_features(&call.model, &call.line, &[], &mut []).err(), refused);
        assert_eq!(check_model(&call.model).err(), Some((if number == 4 { 2 } else { number }, 0)));
    }
    assert_eq!(set_weights(0, &[], &mut []), Ok(()));
    assert_eq!(set_weights(1, &[], &mut [1.0]), Err((2, 0)));
    assert_eq!(set_weights(1, &[1.0], &mut []), Err((2, 0)));
    assert_eq!(set_weights(u32::MAX, &[], &mut []), Err((2, 0)));
}
