//! The cases of tests/c/training.c that document 01 has no numbers for. They were worked out by hand; here the Rust and the
//! oracle's trace of it give the same, so that what the C program expects is never our own library's.

use std::f64::consts::SQRT_2;

use oracle::refusals::Refusal;
use oracle::tables::{Counts, Data, Model, Rule, STATE, Settings, TRANSITION, all_same};
use oracle::{judge, rust};

/// So many attributes, each listing State features to labels 0 and 1.
fn model(labels: u32, lists: u32) -> Model {
    let features = 2 * lists;
    Model {
        labels,
        counts: Counts { features, attribute_lists: lists, attribute_entries: features, ..Counts::default() },
        kinds: vec![STATE; features as usize],
        destinations: (0..features).map(|feature| feature % 2).collect(),
        sources: vec![0; features as usize],
        weights: vec![],
        attribute_starts: (0..=lists).map(|list| 2 * list).collect(),
        attribute_entries: (0..features).collect(),
        label_starts: vec![0],
        label_entries: vec![],
    }
}

/// Instances of one word: its attributes' ids, and its reference. Every value and instance weight is 1.
fn data(instances: &[(&[u32], u32)]) -> Data {
    let ids: Vec<u32> = instances.iter().flat_map(|(ids, _)| ids.iter().copied()).collect();
    let n = instances.len() as u32;
    let mut starts = vec![0];
    starts.extend(instances.iter().scan(0, |end, (ids, _)| {
        *end += ids.len() as u32;
        Some(*end)
    }));
    Data {
        instances: n,
        words: n,
        attributes: ids.len() as u32,
        word_starts: (0..=n).collect(),
        attribute_starts: starts,
        values: vec![1.0; ids.len()],
        ids,
        references: instances.iter().map(|(_, reference)| *reference).collect(),
        weights: vec![1.0; instances.len()],
    }
}

/// One instance of so many words, each with attribute 0 of value 1 and reference 0.
fn line(words: u32) -> Data {
    let words_each: Vec<(&[u32], u32)> = vec![(&[0], 0); words as usize];
    Data { instances: 1, word_starts: vec![0, words], weights: vec![1.0], ..data(&words_each) }
}

fn passive(variant: u32, error_sensitive: bool, averaging: bool) -> Rule {
    Rule::PassiveAggressive { variant, c: 1.0, error_sensitive, averaging }
}

const P13: Rule = Rule::Arow { variance: 0.5, gamma: 1.0 };

fn settings(rule: Rule, epochs: u32, seed: u64) -> Settings {
    Settings { rule, epochs, epsilon: 0.0, seed }
}

#[track_caller]
fn gives(model: &Model, data: &Data, settings: Settings, weights: &[f64], totals: (u64, u64, u64)) {
    let trained = judge::train(model, data, &settings, &[]).expect("it is accepted");
    assert!(all_same(&trained.weights, weights), "{:?}", trained.weights);
    assert_eq!((trained.epochs, trained.visits, trained.updates), totals);
}

#[track_caller]
fn refuses(model: &Model, data: &Data, settings: Settings, number: u32, place: u32) {
    assert_eq!(judge::train(model, data, &settings, &[]), Err(Refusal { number, place }));
}

/// The first draws of splitmix64.c from 0 are odd, even, odd; from 1234567 they are all odd.
#[test]
fn orders_of_two() {
    let orders = |seed| rust::orders(seed, 2, 3).into_iter().map(|(order, _)| order).collect::<Vec<_>>();
    assert_eq!(orders(0), [[0, 1], [1, 0], [1, 0]]);
    assert_eq!(orders(1_234_567), [[0, 1], [0, 1], [0, 1]]);
}

/// Attribute 0, reference 0; attributes 0 and 1, reference 1.
fn two() -> Data {
    data(&[(&[0], 0), (&[0, 1], 1)])
}

fn mirrored(x: f64, y: f64) -> [f64; 4] {
    [x, -x, -y, y]
}

#[test]
fn two_instances() {
    let gives = |rule, epochs, seed, weights: [f64; 4], updates| {
        let totals = (u64::from(epochs), 2 * u64::from(epochs), updates);
        gives(&model(2, 2), &two(), settings(rule, epochs, seed), &weights, totals);
    };
    gives(Rule::Perceptron, 1, 0, mirrored(1.0 / 3.0, 1.0 - 2.0 / 3.0), 2);
    gives(Rule::Perceptron, 2, 0, mirrored(1.0 - 3.0 / 5.0, 1.0 - 2.0 / 5.0), 3);
    gives(Rule::Perceptron, 3, 0, mirrored(1.0 - 3.0 / 7.0, 1.0 - 2.0 / 7.0), 3);
    gives(Rule::Perceptron, 2, 1_234_567, mirrored(1.0 - 2.0 / 5.0, 1.0 - 2.0 / 5.0), 3);
    gives(passive(0, true, false), 1, 0, [0.0, 0.0, -0.5, 0.5], 2);
    gives(passive(0, true, false), 2, 0, mirrored(0.5, 0.5), 3);
    gives(passive(0, true, true), 2, 0, mirrored(0.5 - 1.5 / 5.0, 0.5 - 1.0 / 5.0), 3);
}

/// The mean loss is 1 in the first epoch, 0.5 in the second, 0 in the third.
#[test]
fn two_instances_stop_below_epsilon() {
    let gives = |epsilon, x: f64, y: f64, epochs| {
        let settings = Settings { epsilon, ..settings(Rule::Perceptron, 100, 0) };
        gives(&model(2, 2), &two(), settings, &mirrored(x, y), (epochs, 2 * epochs, 3));
    };
    gives(0.5, 1.0 - 3.0 / 7.0, 1.0 - 2.0 / 7.0, 3);
    gives(0.51, 1.0 - 3.0 / 5.0, 1.0 - 2.0 / 5.0, 2);
}

/// The second instance's first value is 2. In exact numbers: 0 and 1/3 after one epoch, 1/8 and 1/3 after two; in the third
/// the loss is 0, which is epsilon.
#[test]
fn two_instances_by_arow() {
    let mut data = two();
    data.values[1] = 2.0;
    let third = 1.0 / 3.0;
    let arow = Rule::Arow { variance: 1.0, gamma: 1.0 };
    let gives = |allowed, weights: [f64; 4], totals| {
        gives(&model(2, 2), &data, settings(arow, allowed, 0), &weights, totals);
    };
    gives(1, [0.0, 0.0, -third, third], (1, 2, 2));
    gives(2, mirrored(0.12499999999999997, third), (2, 4, 3));
    gives(100, mirrored(0.12499999999999997, third), (3, 6, 3));
}

/// All scores tie, so that label 31 is found.
#[test]
fn thirty_two_labels() {
    for (rule, weight) in [(Rule::Perceptron, 0.5), (passive(1, true, false), 1.0), (P13, 1.0 / 3.0)] {
        gives(&model(32, 1), &line(1), settings(rule, 1, 0), &[weight, 0.0], (1, 1, 1));
    }
}

#[test]
fn a_hundred_and_twenty_eight_words() {
    let rules = [
        (Rule::Perceptron, 64.0),
        (passive(0, true, false), SQRT_2 / 32.0),
        (passive(0, false, false), 1.0 / 256.0),
        (P13, 8192.0 / 16385.0),
    ];
    for (rule, weight) in rules {
        gives(&model(2, 1), &line(128), settings(rule, 1, 0), &[weight, -weight], (1, 1, 1));
    }
}

/// One update at the first visit, then 16,383 visits that change nothing.
#[test]
fn as_many_instances_as_there_can_be() {
    let data = data(&vec![(&[0][..], 0); 16_384]);
    let counted = 1.0 - 1.0 / 16_385.0;
    let rules =
        [(Rule::Perceptron, counted), (passive(1, true, false), 0.5), (passive(1, true, true), 0.5 - 0.5 / 16_385.0)];
    for (rule, weight) in rules.into_iter().chain([(P13, 0.25)]) {
        gives(&model(2, 1), &data, settings(rule, 1, 0), &[weight, -weight], (1, 16_384, 1));
    }
}

/// "Only AROW and the perceptron weight the difference."
#[test]
fn an_instance_of_weight_2() {
    let data = Data { weights: vec![2.0], ..line(1) };
    let rules = [
        (Rule::Perceptron, 1.0),
        (passive(0, true, false), 1.0),
        (passive(1, true, false), 1.0),
        (passive(2, true, false), 0.8),
        (P13, 0.2),
    ];
    for (rule, weight) in rules {
        gives(&model(2, 1), &data, settings(rule, 1, 0), &[weight, -weight], (1, 1, 1));
    }
}

/// Two wrong labels, whose root is not 1.
#[test]
fn switches() {
    for (error_sensitive, weight) in [(false, 0.25), (true, SQRT_2 / 4.0)] {
        for (averaging, part) in [(false, 1.0), (true, 0.5)] {
            let rule = passive(0, error_sensitive, averaging);
            gives(&model(2, 1), &line(2), settings(rule, 1, 0), &[weight * part, -weight * part], (1, 1, 1));
        }
    }
}

/// No lists are needed for a label to be wrong.
#[test]
fn no_features() {
    for rule in [Rule::Perceptron, passive(1, true, true), P13] {
        let bare = Data { attributes: 0, attribute_starts: vec![0, 0], ids: vec![], values: vec![], ..line(1) };
        gives(&model(2, 0), &bare, settings(rule, 1, 0), &[], (1, 1, 1));
    }
}

/// The first of two instances has the label that is found, the second an attribute twice, of the largest value.
#[test]
fn counts_that_are_not_finite() {
    let mut data = data(&[(&[0], 1), (&[0, 0], 0)]);
    data.values[1..].fill(f64::MAX);
    // the predicted label's feature alone is listed
    let mut predicted = model(2, 1);
    predicted.counts.attribute_entries = 1;
    (predicted.attribute_starts, predicted.attribute_entries) = (vec![0, 1], vec![1]);
    for rule in [Rule::Perceptron, passive(0, true, true), P13] {
        refuses(&model(2, 1), &data, settings(rule, 1, 0), 8, 1);
        refuses(&predicted, &data, settings(rule, 1, 0), 8, 1);
    }
}

#[test]
fn scores_that_are_not_finite() {
    let data = Data { values: vec![-1e308], ..line(1) };
    refuses(&model(2, 1), &data, settings(Rule::Perceptron, 2, 0), 8, 1);
    // a Transition from label 1 to itself, twice in its list
    let model = Model {
        labels: 2,
        counts: Counts { features: 1, label_lists: 2, label_entries: 2, ..Counts::default() },
        kinds: vec![TRANSITION],
        destinations: vec![1],
        sources: vec![1],
        weights: vec![],
        attribute_starts: vec![0],
        attribute_entries: vec![],
        label_starts: vec![0, 0, 2],
        label_entries: vec![0, 0],
    };
    let data = Data { weights: vec![0.4 * f64::MAX], ..line(2) };
    refuses(&model, &data, settings(Rule::Perceptron, 2, 0), 8, 1);
}

#[test]
fn tables_that_leave_the_finite_numbers() {
    let p9 = model(2, 1);
    // a weight
    let data = Data { values: vec![f64::MAX], weights: vec![2.0], ..line(1) };
    refuses(&p9, &data, settings(Rule::Perceptron, 1, 0), 9, 0);
    refuses(&p9, &data, settings(P13, 1, 0), 9, 0);
    let data = Data { values: vec![1e-150], weights: vec![1e10], ..line(1) };
    refuses(&p9, &data, settings(passive(0, true, false), 1, 0), 9, 0);
    // a running sum, at the second visit
    let mut data = self::data(&[(&[0], 1), (&[0], 0)]);
    data.weights[1] = 0.75 * f64::MAX;
    refuses(&p9, &data, settings(Rule::Perceptron, 1, 0), 9, 1);
    // the loss, at the second visit
    let mut data = self::data(&[(&[0], 0), (&[0], 0)]);
    data.weights.fill(1.5e308);
    for rule in [Rule::Perceptron, passive(0, true, true), P13] {
        refuses(&model(2, 0), &data, settings(rule, 1, 0), 9, 1);
    }
    // the covariance of a feature in no list
    let mut unlisted = p9;
    unlisted.counts = Counts { features: 2, ..Counts::default() };
    refuses(&unlisted, &line(1), settings(Rule::Arow { variance: f64::MAX, gamma: 1.0 }, 1, 0), 9, 0);
}
