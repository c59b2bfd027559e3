//! Training: the library's whole public call beside the Rust text, which tests nothing. The references are the labels
//! that a hidden model gives, so that there is something to learn; no epoch ends it early.

use std::hint::black_box;
use std::time::Instant;

use compare::training::{Lent, Trainer, train};
use oracle::cases::Rng;
use oracle::rust::{self, Prepared};
use oracle::tables::{Data, Model, Rule, Settings, all_same};

use crate::scoring::{self, Shape};
use crate::times::median;

const SHAPES: [(u32, Shape); 3] = [
    (200, Shape { labels: 5, words: 20, features: 2_000, attributes: 8, entries: 5 }),
    (1_000, Shape { labels: 10, words: 20, features: 20_000, attributes: 8, entries: 10 }),
    (300, Shape { labels: 32, words: 100, features: 65_535, attributes: 8, entries: 16 }),
];
const EPOCHS: u32 = 5;
const PASSES: usize = 7;

const TRAINERS: [(&str, Rule); 3] = [
    ("averaged perceptron", Rule::Perceptron),
    ("passive-aggressive ", Rule::PassiveAggressive { variant: 1, c: 1.0, error_sensitive: true, averaging: true }),
    ("AROW               ", Rule::Arow { variance: 1.0, gamma: 1.0 }),
];

pub fn print() {
    println!(
        "training, milliseconds a call of {EPOCHS} epochs, medians of {PASSES}; ratio: Rust over library, pass by pass"
    );
    for (instances, shape) in SHAPES {
        let Shape { labels, words, features, attributes, entries } = shape;
        let mut rng = Rng::new(u64::from(features) + 1);
        let model = scoring::model(&mut rng, &shape);
        let data = data(&mut rng, &model, &shape, instances);
        let lent = 4 * size_of::<f64>() * features as usize + size_of::<u32>() * instances as usize;
        println!(
            "N {instances:4} L {labels:2} T {words:3} F {features:5}, {attributes} attributes a word, {entries:2} entries a list, \
             {lent} bytes lent for result and work:"
        );
        for (name, rule) in TRAINERS {
            println!("  {name}: {}", row(&model, &data, rule));
        }
    }
}

fn data(rng: &mut Rng, model: &Model, shape: &Shape, instances: u32) -> Data {
    let lines: Vec<_> = (0..instances).map(|_| scoring::line(rng, model, shape)).collect();
    let all = instances * shape.words;
    Data {
        instances,
        words: all,
        attributes: all * shape.attributes,
        word_starts: (0..=instances).map(|i| i * shape.words).collect(),
        attribute_starts: (0..=all).map(|word| word * shape.attributes).collect(),
        ids: lines.iter().flat_map(|line| line.ids.clone()).collect(),
        values: lines.iter().flat_map(|line| line.values.clone()).collect(),
        references: lines.iter().flat_map(|line| rust::decode_line(model, line).expect("a sound line")).collect(),
        weights: vec![1.0; instances as usize],
    }
}

fn row(model: &Model, data: &Data, rule: Rule) -> String {
    let settings = Settings { rule, epochs: EPOCHS, epsilon: 0.0, seed: 1 };
    let features = model.counts.features as usize;
    let mut floats = vec![vec![0.0; features]; 4];
    let mut order = vec![0; data.instances as usize];
    let mut call = || {
        let [weights, running_sums, true_counts, predicted_counts] = &mut floats[..] else { unreachable!() };
        let lent = Lent { weights, running_sums, true_counts, predicted_counts, order: &mut order };
        let start = Instant::now();
        let answer = black_box(train(Trainer::new(&settings, [1, 1]), black_box(model), black_box(data), lent));
        (start.elapsed().as_secs_f64() * 1e3, answer.expect("a sound call"))
    };
    let mut prepared = Prepared::new(model, data, &settings).expect("a sound call");
    let mut text = || {
        let start = Instant::now();
        black_box(&mut prepared).train();
        start.elapsed().as_secs_f64() * 1e3
    };

    // the first run of each only warms up
    let (_, answer) = call();
    text();
    let (mut library, mut rust) = (Vec::new(), Vec::new());
    for _ in 0..PASSES {
        library.push(call().0);
        rust.push(text());
    }
    // to the bit
    assert!(all_same(&floats[0], &prepared.weights()));
    // pass by pass, so that a slow spell of the machine falls on both
    let ratio = median(rust.iter().zip(&library).map(|(rust, library)| rust / library).collect());
    let (library, rust) = (median(library), median(rust));
    format!(
        "library {library:8.1}, Rust {rust:8.1}; {} epochs, {} updates in {} visits; ratio {ratio:.2}",
        answer.epochs, answer.updates, answer.visits,
    )
}
