//! The desk cases P1 to P14 of document 01, with what it says of each.

use crate::tables::{Counts, Data, Model, Rule, STATE, Scores, Settings};

/// A case of decoding. What the document does not say of it is None.
pub struct Decoding {
    pub name: &'static str,
    pub scores: Scores,
    pub path: Vec<u32>,
    pub sum: Option<f64>,
    pub lead: Option<f64>,
    pub path_score: Option<f64>,
}

/// A case of training, of one instance.
pub struct Training {
    pub name: &'static str,
    pub reference: u32,
    pub settings: Settings,
    pub weights: [f64; 2],
    pub epochs: u64,
    pub updates: u64,
}

/// P1 to P7. (P8 is the empty path: +0.)
pub fn decodings() -> Vec<Decoding> {
    let case = |name, states: &[f64], transitions: &[f64], path: &[u32], sum| {
        let labels = transitions.len().isqrt();
        Decoding {
            name,
            scores: Scores {
                labels: labels as u32,
                words: (states.len() / labels) as u32,
                states: states.to_vec(),
                transitions: transitions.to_vec(),
            },
            path: path.to_vec(),
            sum,
            lead: None,
            path_score: None,
        }
    };
    let two53 = 9_007_199_254_740_992.0;
    let p4 = case("P4", &[1.0, 0.0, 0.0, 0.0], &[0.0, 2.0, 0.0, 0.0], &[0, 1], Some(3.0));
    let p6 = case("P6", &[two53, -1.0], &[1.0], &[0, 0], Some(two53 - 1.0));
    vec![
        case("P1", &[5.0], &[0.0], &[0], Some(5.0)),
        case("P2", &[3.0, 3.0], &[0.0; 4], &[1], None),
        case("P3", &[0.0, -0.0], &[0.0; 4], &[1], Some(-0.0)),
        Decoding { lead: Some(2.0), ..p4 },
        case("P5", &[0.0; 6], &[0.0; 9], &[2, 2], None),
        Decoding { path_score: Some(two53), ..p6 },
        case("P7", &[f64::MAX, 0.0], &[f64::MAX], &[0, 0], Some(f64::INFINITY)),
    ]
}

/// "L=2, one word, attribute 0 of value 1 listing State features to labels 0 and 1"
pub fn model() -> Model {
    Model {
        labels: 2,
        counts: Counts { features: 2, attribute_lists: 1, label_lists: 0, attribute_entries: 2, label_entries: 0 },
        kinds: vec![STATE, STATE],
        destinations: vec![0, 1],
        sources: vec![0, 0],
        weights: vec![0.0, 0.0],
        attribute_starts: vec![0, 2],
        attribute_entries: vec![0, 1],
        label_starts: vec![0],
        label_entries: vec![],
    }
}

/// One instance of that word, of weight 1.
pub fn data(reference: u32) -> Data {
    Data {
        instances: 1,
        words: 1,
        attributes: 1,
        word_starts: vec![0, 1],
        attribute_starts: vec![0, 1],
        ids: vec![0],
        values: vec![1.0],
        references: vec![reference],
        weights: vec![1.0],
    }
}

/// PaI and PaII with C = 1; one wrong label has the root 1, so that the other switch makes no difference.
fn passive(variant: u32, averaging: bool) -> Rule {
    Rule::PassiveAggressive { variant, c: 1.0, error_sensitive: true, averaging }
}

const AROW: Rule = Rule::Arow { variance: 0.5, gamma: 1.0 };

/// P9 to P14.
pub fn trainings() -> Vec<Training> {
    let case = |name, rule, allowed, reference, weight, epochs| Training {
        name,
        reference,
        settings: Settings { rule, epochs: allowed, epsilon: 0.0, seed: 0 },
        weights: if reference == 0 { [weight, -weight] } else { [0.0, 0.0] },
        epochs,
        // with reference 0 the first visit errs and no later one does; with reference 1 none does
        updates: u64::from(reference == 0),
    };
    vec![
        case("P9", Rule::Perceptron, 1, 0, 0.5, 1),
        case("P10", Rule::Perceptron, 3, 0, 0.75, 3),
        case("P11", passive(1, false), 1, 0, 0.5, 1),
        case("P11 with averaging", passive(1, true), 1, 0, 0.25, 1),
        case("P12", passive(2, false), 1, 0, 0.4, 1),
        case("P13", AROW, 1, 0, 0.25, 1),
        case("P14 AROW", AROW, 100, 1, 0.0, 1),
        case("P14 perceptron", Rule::Perceptron, 100, 1, 0.0, 100),
        case("P14 Pa", passive(0, true), 100, 1, 0.0, 100),
        case("P14 PaI", passive(1, true), 100, 1, 0.0, 100),
        case("P14 PaII", passive(2, false), 100, 1, 0.0, 100),
    ]
}
