//! The cases themselves: sound ones are accepted, a single fault is refused under its number, two under the one that
//! is tested first; and a run whose mix falls short fails.

use std::collections::BTreeSet;

use oracle::cases::calls::{self, CountCall, DecodeCall, LineCall, PathCall, TrainCall};
use oracle::cases::damage::{self, Fault};
use oracle::cases::make::{self, PALETTES, Tails};
use oracle::cases::{Mix, Palette, Rng, Size};
use oracle::panics::caught;
use oracle::refusals::{self, Lent, Refusal};
use oracle::tables::all_same;
use oracle::{judge, reference, rust};

type Checked = Result<(), Refusal>;

/// Sound calls are accepted; one fault is refused under its number; of two the one that `order` has first is given.
fn faults_are_found<C: Clone + std::fmt::Debug + 'static>(
    name: &'static str,
    make: fn(&mut Rng) -> C,
    faults: &[Fault<C>],
    check: fn(&C) -> Checked,
    order: &[u32],
) {
    let rank = |number: u32| order.iter().position(|other| *other == number).expect("a number of this call");
    let mut used = BTreeSet::new();
    let mut mix = Mix::new(name).require("two faults", 45.0).require("two numbers", 25.0).require("place above 0", 5.0);
    for number in 0..8_000 {
        let mut rng = Rng::of_case(0xDA, number);
        let sound = make(&mut rng);
        assert_eq!(check(&sound), Ok(()), "{name}, case {number}: {sound:?}");
        let many = 1 + (number % 2) as usize;
        let (call, applied) = damage::damaged(&mut rng, faults, &sound, many);
        used.extend(applied.iter().map(|fault| fault.name));
        let expected = applied.iter().map(|fault| fault.number).min_by_key(|number| rank(*number));
        let answer = check(&call).map_err(|refusal| refusal.number);
        let names: Vec<&str> = applied.iter().map(|fault| fault.name).collect();
        assert_eq!(answer, expected.map_or(Ok(()), Err), "{name}, case {number}: {names:?}");
        mix.case();
        mix.count("two faults", applied.len() == 2);
        mix.count("two numbers", applied.len() == 2 && applied[0].number != applied[1].number);
        mix.count("place above 0", check(&call).is_err_and(|refusal| refusal.place > 0));
    }
    let all: BTreeSet<&str> = faults.iter().map(|fault| fault.name).collect();
    assert_eq!(used, all, "every fault is tried");
    mix.finish();
}

#[test]
fn damaged_lines() {
    let check = |call: &LineCall| refusals::line(&call.model, &call.line, &[]);
    faults_are_found("scoring a line", calls::line, &damage::of_line_call(), check, &[1, 4, 2, 3, 5, 6]);
}

#[test]
fn damaged_counts() {
    let check = |call: &CountCall| refusals::counting(&call.model, &call.line, &call.labels, &[]);
    faults_are_found("counting a line", calls::count, &damage::of_count_call(), check, &[1, 4, 2, 3, 5, 6]);
}

#[test]
fn damaged_score_tables() {
    let check = |call: &DecodeCall| {
        let lent = Lent { length: call.path.len(), needed: call.scores.words as usize };
        refusals::decode(&call.scores, &[lent])
    };
    faults_are_found("decoding", calls::decode, &damage::of_decode_call(), check, &[1, 4, 2, 6]);
}

#[test]
fn damaged_paths() {
    let check = |call: &PathCall| refusals::path_score(&call.scores, &call.path, call.length, &[]);
    faults_are_found("path score", calls::path, &damage::of_path_call(), check, &[1, 4, 2, 5, 6]);
}

#[test]
fn damaged_training() {
    let check = |call: &TrainCall| refusals::training(&call.model, &call.data, &call.settings, &[]);
    faults_are_found("training", calls::train, &damage::of_train_call(), check, &[1, 2, 3, 4, 5, 6, 7]);
}

/// A sheet's bytes are not independent of each other: two faults are only seen to be refused.
#[test]
fn damaged_sheets() {
    let faults = damage::of_sheet();
    let mut mix = Mix::new("sheets").require("10", 30.0).require("1", 5.0).require("4", 5.0).require("6", 5.0);
    for number in 0..4_000 {
        let mut rng = Rng::of_case(0x5E, number);
        let sound = make::sheet(&calls::scores(&mut rng));
        assert!(judge::sheet_line(&sound).starts_with("PATH "), "case {number}");
        let many = 1 + (number % 2) as usize;
        let (bytes, applied) = damage::damaged(&mut rng, &faults, &sound, many);
        let refusal = refusals::sheet(&bytes, |_, _| Vec::new()).expect_err("a damaged sheet");
        if let [only] = applied[..] {
            assert_eq!(refusal.number, only.number, "case {number}: {}", only.name);
        }
        let line = format!("REFUSED {} {}\n", refusal.number, refusal.place);
        assert_eq!(judge::sheet_line(&bytes), line);
        mix.case();
        mix.count("10", refusal.number == 10);
        mix.count("1", refusal.number == 1);
        mix.count("4", refusal.number == 4);
        mix.count("6", refusal.number == 6);
    }
    mix.finish();
}

/// What lies past the counts is read by nobody: with and without tails the Rust gives the same.
#[test]
fn tails_change_nothing() {
    for number in 0..2_000 {
        let mut rng = Rng::of_case(0x7E, number);
        let size = Size::drawn(&mut rng);
        let palette = rng.pick(&PALETTES);
        let (model, palette) = (make::model(&mut rng, &size, palette), rng.pick(&[palette, Palette::Whole]));
        let line = make::line(&mut rng, &model, &size, palette);
        let (mut longer, mut longer_line) = (model.clone(), line.clone());
        longer.add_tails(&mut rng);
        longer_line.add_tails(&mut rng);
        let scores = rust::scores(&model, &line).expect("the tables are sound");
        let others = rust::scores(&longer, &longer_line).expect("the tables are sound");
        assert!(all_same(&scores.states, &others.states) && all_same(&scores.transitions, &others.transitions));
    }
}

#[test]
fn lines_are_of_every_kind() {
    let mut mix = Mix::new("lines")
        .require("accepted", 60.0)
        .require("refused 8", 3.0)
        .require("zero weights or values only", 2.0)
        .require("an id without a list", 20.0)
        .require("an entry twice", 10.0)
        .require("fewer label lists than labels", 5.0)
        .require("more label lists than labels", 5.0)
        .require("no features", 2.0)
        .require("T 1", 5.0)
        .require("T 128", 1.0)
        .require("L 1", 2.0)
        .require("L 32", 2.0)
        .require("subnormal score", 3.0)
        .require("transition scores", 30.0)
        .require("lead 0", 10.0);
    for number in 0..10_000 {
        let LineCall { model, line } = calls::line(&mut Rng::of_case(0x11, number));
        let answer = judge::scores(&model, &line, &[]);
        let scores = rust::scores(&model, &line).expect("the tables are sound");
        let lists = model.counts.attribute_lists;
        let entries = &model.label_entries[..model.counts.label_entries as usize];
        let attribute_entries = &model.attribute_entries[..model.counts.attribute_entries as usize];
        let twice = |entries: &[u32]| entries.windows(2).any(|pair| pair[0] == pair[1]);
        let table = || scores.states.iter().chain(&scores.transitions);
        mix.case();
        mix.count("accepted", answer.is_ok());
        mix.count("refused 8", answer.is_err());
        mix.count(
            "zero weights or values only",
            model.counts.features > 0 && line.attributes > 0 && table().all(|x| *x == 0.0),
        );
        mix.count("an id without a list", line.ids[..line.attributes as usize].iter().any(|id| *id >= lists));
        mix.count("an entry twice", twice(entries) || twice(attribute_entries));
        mix.count("fewer label lists than labels", model.counts.label_lists < model.labels);
        mix.count("more label lists than labels", model.counts.label_lists > model.labels);
        mix.count("no features", model.counts.features == 0);
        mix.count("T 1", line.words == 1);
        mix.count("T 128", line.words == 128);
        mix.count("L 1", model.labels == 1);
        mix.count("L 32", model.labels == 32);
        mix.count("subnormal score", table().any(|x| x.is_subnormal()));
        mix.count("transition scores", scores.transitions.iter().any(|x| *x != 0.0));
        mix.count("lead 0", answer.is_ok_and(|scores| reference::lead(&scores) == Some(0.0)));
    }
    mix.finish();
}

#[test]
fn counts_are_of_every_kind() {
    let mut mix = Mix::new("counts")
        .require("accepted", 80.0)
        .require("refused 8", 0.5)
        .require("a State counted", 40.0)
        .require("a Transition counted", 5.0);
    for number in 0..10_000 {
        let CountCall { model, line, labels } = calls::count(&mut Rng::of_case(0x12, number));
        let answer = judge::counts(&model, &line, &labels, &[]);
        let counted = |kind| {
            let counts = answer.as_ref().map_or(&[][..], |counts| counts);
            counts.iter().zip(&model.kinds).any(|(count, of)| *of == kind && *count != 0.0)
        };
        mix.case();
        mix.count("accepted", answer.is_ok());
        mix.count("refused 8", answer.is_err());
        mix.count("a State counted", counted(0));
        mix.count("a Transition counted", counted(1));
    }
    mix.finish();
}

#[test]
fn cases_are_reproducible() {
    for number in 0..50 {
        let again = |seed| format!("{:?}", calls::train(&mut Rng::of_case(seed, number)));
        assert_eq!(again(1), again(1));
        assert_ne!(again(1), again(2));
    }
}

#[test]
fn a_mix_that_falls_short_fails() {
    let mut mix = Mix::new("short").require("rare", 50.0).require("common", 50.0);
    for i in 0..10 {
        mix.case();
        mix.count("rare", i < 4);
        mix.count("common", i < 6);
    }
    assert_eq!(mix.missing(), ["rare"]);
    assert!(mix.report().contains("rare: 4, 40.0 % (at least 50 %)"));
    assert!(caught(|| mix.finish()).is_err());
    assert!(caught(|| Mix::new("empty").require("any", 0.0).finish()).is_err(), "no case at all");
}
