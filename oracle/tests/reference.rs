//! Document 01's words on scores, path score and counts are what the Rust does, to the bit.

use oracle::cases::calls::{self, CountCall, PathCall};
use oracle::cases::{Mix, Rng};
use oracle::tables::{all_same, same};
use oracle::{reference, rust};

#[test]
fn scores_and_counts() {
    let mut mix = Mix::new("scores and counts")
        .require("state scores", 50.0)
        .require("transition scores", 40.0)
        .require("not finite", 5.0)
        .require("counts", 50.0);
    for number in 0..10_000 {
        let CountCall { model, line, labels } = calls::count(&mut Rng::of_case(0x5C, number));
        let labels = &labels[..line.words as usize];
        let (read, scores) = (reference::scores(&model, &line), rust::scores(&model, &line).expect("sound tables"));
        assert!(all_same(&read.states, &scores.states), "case {number}");
        assert!(all_same(&read.transitions, &scores.transitions), "case {number}");
        let (read, counts) =
            (reference::counts(&model, &line, labels), rust::counts(&model, &line, labels).expect("sound tables"));
        assert!(all_same(&read, &counts), "case {number}");

        let all = || scores.states.iter().chain(&scores.transitions);
        assert!(!all().chain(&counts).any(|x| same(*x, -0.0)), "a sum that starts at +0 is never −0");
        mix.case();
        mix.count("state scores", scores.states.iter().any(|x| *x != 0.0));
        mix.count("transition scores", scores.transitions.iter().any(|x| *x != 0.0));
        mix.count("not finite", all().any(|x| !x.is_finite()));
        mix.count("counts", counts.iter().any(|x| *x != 0.0));
    }
    mix.finish();
}

#[test]
fn path_scores() {
    let mut mix = Mix::new("path scores")
        .require("empty", 5.0)
        .require("shorter than the line", 30.0)
        .require("not finite", 3.0)
        .require("not the sum of decode", 5.0);
    for number in 0..10_000 {
        let PathCall { scores, path, length } = calls::path(&mut Rng::of_case(0x5D, number));
        let path = &path[..length as usize];
        let score = rust::path_score(&scores, path).expect("the path is in its table");
        assert!(same(reference::path_score(&scores, path), score), "case {number}");
        mix.case();
        mix.count("empty", path.is_empty());
        mix.count("shorter than the line", length < scores.words);
        mix.count("not finite", !score.is_finite());
        mix.count("not the sum of decode", length > 0 && !same(reference::sum(&scores, path), score));
    }
    mix.finish();
}
