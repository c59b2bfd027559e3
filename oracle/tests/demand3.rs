//! Demand 3: the Rust's path is the one that its words name, found by going through all paths. And what the port adds,
//! sum and lead, on tables of every size.

use oracle::cases::make::{self, PALETTES};
use oracle::cases::{Mix, Palette, Rng};
use oracle::tables::{Scores, same};
use oracle::{judge, reference, rust};

const SHAPES: [(u32, u32); 18] = [
    (1, 1),
    (1, 5),
    (2, 1),
    (2, 2),
    (2, 3),
    (2, 4),
    (2, 6),
    (3, 2),
    (3, 3),
    (3, 4),
    (4, 2),
    (4, 3),
    (5, 2),
    (5, 3),
    (7, 2),
    (12, 2),
    (32, 1),
    (2, 8),
];

/// Ties are wanted in many cases, and sums that are not finite in some.
fn palette(rng: &mut Rng) -> Palette {
    if rng.chance(35) { Palette::Whole } else { rng.pick(&PALETTES) }
}

/// Large numbers beside small ones, so that a prefix that is behind catches up when the sums round.
fn rounding(rng: &mut Rng, scores: &mut Scores) {
    for state in &mut scores.states[scores.labels as usize..] {
        if rng.chance(50) {
            *state = rng.pick(&[9_007_199_254_740_992.0, 18_014_398_509_481_984.0, 1e300]);
        }
    }
}

#[test]
fn the_path_of_the_rust_is_the_one_demanded() {
    let mut mix = Mix::new("demand 3")
        .require("ties", 30.0)
        .require("infinite sum", 1.0)
        .require("signed zeros tie", 1.0)
        .require("the last of all best paths is another", 0.5)
        .require("no lead", 5.0)
        .require("lead 0", 10.0)
        .require("lead above 0", 10.0);
    for number in 0..20_000 {
        let mut rng = Rng::of_case(0xD3, number);
        let (labels, words) =
            if number % 200 == 0 { rng.pick(&[(2, 12), (4, 6), (8, 4), (16, 3)]) } else { rng.pick(&SHAPES) };
        let palette = palette(&mut rng);
        let mut scores = make::scores(&mut rng, labels, words, palette);
        if words > 1 && rng.chance(10) {
            rounding(&mut rng, &mut scores);
        }
        let demanded = reference::by_all_paths(&scores).expect("few enough paths");
        let decoded = judge::decode(&scores, &[]).expect("all entries are finite");
        assert_eq!(decoded.path, demanded, "case {number}: {scores:?}");

        let largest = reference::largest_paths(&scores);
        assert!(largest.contains(&demanded), "case {number}: no larger sum");
        let tops = reference::tops(&scores, words as usize);
        let finals = reference::final_scores(&scores);
        assert!(tops.iter().zip(&finals).all(|(top, last)| top == last), "case {number}: {tops:?} {finals:?}");

        let sums: Vec<f64> = largest.iter().map(|path| reference::sum(&scores, path)).collect();
        mix.case();
        mix.count("ties", largest.len() > 1);
        mix.count("infinite sum", !decoded.sum.is_finite());
        mix.count("signed zeros tie", sums.iter().any(|sum| !same(*sum, sums[0])));
        mix.count("the last of all best paths is another", largest.last() != Some(&demanded));
        mix.count("no lead", decoded.lead.is_none());
        mix.count("lead 0", decoded.lead == Some(0.0));
        mix.count("lead above 0", decoded.lead.is_some_and(|lead| lead > 0.0));
        assert!(decoded.lead.is_none_or(|lead| lead >= 0.0 && lead.is_sign_positive()), "case {number}");
    }
    mix.finish();
}

/// Where paths are too many to go through: the sum of the Rust's path is the best final score, to the bit.
#[test]
fn the_sum_of_the_path_is_the_best_final_score() {
    let mut mix = Mix::new("large tables").require("L 32", 15.0).require("T 128", 15.0).require("infinite sum", 1.0);
    for number in 0..400 {
        let mut rng = Rng::of_case(0xF1, number);
        let labels = if rng.chance(30) { 32 } else { rng.between(1, 32) };
        let words = if rng.chance(30) { 128 } else { rng.between(1, 128) };
        let palette = palette(&mut rng);
        let scores = make::scores(&mut rng, labels, words, palette);
        let path = rust::decode(&scores).expect("all entries are finite");
        let sum = reference::sum(&scores, &path);
        let finals = reference::final_scores(&scores);
        assert!(same(sum, finals[*path.last().expect("a word") as usize]), "case {number}");
        assert!(finals.iter().all(|last| *last <= sum), "case {number}");
        mix.case();
        mix.count("L 32", labels == 32);
        mix.count("T 128", words == 128);
        mix.count("infinite sum", !sum.is_finite());
    }
    mix.finish();
}

/// "A lead whose two scores are finite and whose difference overflows is +infinity. −0 − (+0) is −0: a zero lead is
/// made +0."
#[test]
fn leads_at_the_corners() {
    let one_word =
        |states: [f64; 2]| Scores { labels: 2, words: 1, states: states.to_vec(), transitions: vec![0.0; 4] };
    let lead = |states| reference::lead(&one_word(states));
    assert_eq!(lead([f64::MAX, f64::MIN]), Some(f64::INFINITY));
    assert!(same(lead([0.0, -0.0]).expect("both are finite"), 0.0));
    assert!(same(lead([-0.0, -0.0]).expect("both are finite"), 0.0));
    assert_eq!(lead([1.0, 3.0]), Some(2.0));
    let overflowing =
        Scores { labels: 2, words: 2, states: vec![f64::MAX, 0.0, f64::MAX, 0.0], transitions: vec![0.0; 4] };
    assert_eq!(reference::lead(&overflowing), None, "the best score is not finite");
    let single = Scores { labels: 1, words: 1, states: vec![1.0], transitions: vec![0.0] };
    assert_eq!(reference::lead(&single), None, "one label");
}
