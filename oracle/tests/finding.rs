//! 8 and 9 of a trainer: each of the things they look at, with its place, and which of two comes first.

use oracle::refusals::Refusal;
use oracle::rust::{self, Stopped};
use oracle::tables::{Data, Model, Rule, Settings, Trained};
use oracle::trace::{self, Trace};
use oracle::{desk, judge};

const PERCEPTRON: Rule = Rule::Perceptron;
const PA: Rule = passive(true);
const AROW: Rule = Rule::Arow { variance: 1.0, gamma: 1.0 };

const fn passive(averaging: bool) -> Rule {
    Rule::PassiveAggressive { variant: 0, c: 1.0, error_sensitive: false, averaging }
}

/// One-word instances, each with some values of attribute 0, its reference and its weight.
fn instances(all: &[(&[f64], u32, f64)]) -> Data {
    let mut data = Data { word_starts: vec![0], attribute_starts: vec![0], ..Data::default() };
    for (values, reference, weight) in all {
        data.values.extend_from_slice(values);
        data.attribute_starts.push(data.values.len() as u32);
        data.references.push(*reference);
        data.weights.push(*weight);
        data.word_starts.push(data.references.len() as u32);
    }
    data.ids = vec![0; data.values.len()];
    data.instances = data.weights.len() as u32;
    data.words = data.references.len() as u32;
    data.attributes = data.values.len() as u32;
    data
}

/// Settings under which the first epoch takes the instances in their order.
fn in_order(rule: Rule, epochs: u32, n: usize) -> Settings {
    let seed = (0..).find(|seed| rust::orders(*seed, n, 1)[0].0.iter().copied().eq(0..n));
    Settings { rule, epochs, epsilon: 0.0, seed: seed.expect("one keeps the order") }
}

fn found(model: &Model, data: &Data, settings: &Settings) -> Option<(u32, u32)> {
    let answer = judge::train(model, data, settings, &[]).err();
    let trace = trace::train(model, data, settings).expect("it begins");
    assert_eq!(answer, trace.refusal());
    answer.map(|Refusal { number, place }| (number, place))
}

/// The desk model, where attribute 0 lists only the feature of one label.
fn only(feature: u32) -> Model {
    let mut model = desk::model();
    model.counts.attribute_entries = 1;
    model.attribute_starts = vec![0, 1];
    model.attribute_entries = vec![feature];
    model
}

const MAX: f64 = f64::MAX;

#[test]
fn eight_by_scores() {
    // the first visit makes the weights ±1e200, the second scores ±infinity: 8, whether or not the labels differ
    for reference in [0, 1] {
        let data = instances(&[(&[1e200], 0, 1.0), (&[1e200], reference, 1.0)]);
        assert_eq!(found(&desk::model(), &data, &in_order(PERCEPTRON, 1, 2)), Some((8, 1)));
    }
}

#[test]
fn eight_by_counts() {
    let twice = instances(&[(&[MAX, MAX], 0, 1.0)]);
    for rule in [PERCEPTRON, PA, passive(false), AROW] {
        let settings = in_order(rule, 1, 1);
        assert_eq!(found(&only(0), &twice, &settings), Some((8, 0)), "true counts, {rule:?}");
        assert_eq!(found(&only(1), &twice, &settings), Some((8, 0)), "predicted counts, {rule:?}");
    }
    // where the labels agree nothing is counted
    let right = instances(&[(&[MAX, MAX], 1, 1.0)]);
    assert_eq!(found(&desk::model(), &right, &in_order(PERCEPTRON, 3, 1)), None);
    // visits before it are its place, over all epochs
    let later = instances(&[(&[1.0], 1, 1.0), (&[MAX, MAX], 0, 1.0)]);
    assert_eq!(found(&desk::model(), &later, &in_order(PERCEPTRON, 3, 2)), Some((8, 1)));
}

#[test]
fn nine_by_a_weight() {
    // counts of 2, weighted by 1e308
    let data = instances(&[(&[1.0, 1.0], 0, 1e308)]);
    assert_eq!(found(&desk::model(), &data, &in_order(PERCEPTRON, 5, 1)), Some((9, 0)));
    // 9 after one visit comes before 8 in the next
    let data = instances(&[(&[1.0, 1.0], 0, 1e308), (&[1.0], 0, 1.0)]);
    assert_eq!(found(&desk::model(), &data, &in_order(PERCEPTRON, 5, 2)), Some((9, 0)));
}

#[test]
fn nine_by_a_running_sum() {
    // the second visit counts twice: 2 · 1e308, while the weight is 1e308
    let data = instances(&[(&[1.0], 1, 1.0), (&[1.0], 0, 1e308)]);
    assert_eq!(found(&desk::model(), &data, &in_order(PERCEPTRON, 1, 2)), Some((9, 1)));
    let data = instances(&[(&[1.0], 1, 1.0), (&[1.0], 0, 1.7e308), (&[1.0], 1, 0.0)]);
    assert_eq!(found(&desk::model(), &data, &in_order(PA, 1, 3)), None, "tau is a half: 0.5 · 2 · 1.7e308");
    let mut early: Vec<(&[f64], u32, f64)> = vec![(&[1.0], 1, 1.0); 3];
    early.push((&[1.0], 0, 1.7e308));
    let data = instances(&early);
    assert_eq!(found(&desk::model(), &data, &in_order(PA, 1, 4)), Some((9, 3)));
    assert_eq!(found(&desk::model(), &data, &in_order(passive(false), 1, 4)), None, "without averaging there are none");
}

#[test]
fn nine_by_the_covariance() {
    let settings = in_order(Rule::Arow { variance: MAX, gamma: 1.0 }, 1, 1);
    assert_eq!(found(&only(1), &instances(&[(&[1.0], 0, 1.0)]), &settings), Some((9, 0)), "feature 0 is in no list");
    assert_eq!(found(&only(1), &instances(&[(&[1.0], 1, 1.0)]), &settings), None, "labels agree: nothing is updated");
}

#[test]
fn nine_by_the_loss() {
    let model = Model { labels: 2, attribute_starts: vec![0], label_starts: vec![0], ..Model::default() };
    let data = instances(&[(&[], 0, 1.5e308), (&[], 1, 1.0), (&[], 0, 1.5e308)]);
    for rule in [PERCEPTRON, PA, AROW] {
        assert_eq!(found(&model, &data, &in_order(rule, 2, 3)), Some((9, 2)), "{rule:?}");
    }
    // the loss starts again with each epoch, and is looked at before it is divided
    let data = instances(&[(&[], 0, 1.5e308), (&[], 1, 1.0)]);
    for rule in [PERCEPTRON, PA, AROW] {
        assert_eq!(found(&model, &data, &in_order(rule, 5, 2)), None, "{rule:?}");
    }
}

/// "All visits for the averaging", on a trace made by hand.
#[test]
fn nine_by_the_averaging() {
    let trained = |weights| Trained { weights, epochs: 2, visits: 6, updates: 1 };
    let trace = |weights| Trace { rule: PERCEPTRON, visits: Vec::new(), end: Ok(trained(weights)) };
    assert_eq!(trace(vec![1.0, f64::NAN]).refusal(), Some(Refusal { number: 9, place: 6 }));
    assert_eq!(trace(vec![1.0, MAX]).refusal(), None);
}

/// A trace of what never begins is what stopped it.
#[test]
fn what_does_not_begin() {
    let settings = Settings { epochs: 0, ..in_order(PERCEPTRON, 1, 1) };
    let answer = trace::train(&desk::model(), &desk::data(0), &settings);
    assert!(matches!(answer, Err(Stopped::Setter(_))));
}
