//! Scoring and counting lines of one model. The Rust text tests nothing, and the public calls test the model's tables and the
//! line's each time. What the tests cost is timed by a copy of each line whose very last test refuses it: what the whole call
//! takes beyond that is its step after the check, which is held against the Rust and still looks for what is not finite.
//! Labelling is timed as the whole public call, beside the text's scores and its decoding in turn.

use std::hint::black_box;

use compare::scoring::{check_model, compute_scores, extract_features, label_line};
use crfs::dataset::{Attribute, Instance};
use crfs::open::Open;
use crfs::train::crf_context::{ScoreContext, probe};
use crfs::train::feature_gen::{Feature, FeatureGenerator, FeatureRefs, FeatureType};
use crfs::train::trainer::{Arow, Trainer};
use oracle::cases::Rng;
use oracle::cases::make::{self, Palette};
use oracle::tables::{Counts, Line, Model, STATE, TRANSITION, all_same};

use crate::times::{beyond, median, pass};

/// A row: a Transition feature for every two labels, the other features in attribute lists.
pub struct Shape {
    pub labels: u32,
    pub words: u32,
    pub features: u32,
    /// Of a word.
    pub attributes: u32,
    /// Of an attribute list.
    pub entries: u32,
}

const SHAPES: [Shape; 3] = [
    Shape { labels: 5, words: 20, features: 2_000, attributes: 8, entries: 5 },
    Shape { labels: 10, words: 50, features: 20_000, attributes: 8, entries: 10 },
    Shape { labels: 32, words: 128, features: 65_535, attributes: 8, entries: 16 },
];
/// List entries that the lines of one row ask for, about.
const ENTRIES: u32 = 1_000_000;
const PASSES: usize = 15;

struct Case {
    line: Line,
    /// The same, but for its last value, which is a NaN: the last thing that both calls test.
    damaged: Line,
    labels: Vec<u32>,
    instance: Instance,
}

pub fn print() {
    println!(
        "scoring and counting, nanoseconds a call, medians over {PASSES} passes; ratio: Rust over the library after the check"
    );
    for shape in SHAPES {
        let mut rng = Rng::new(u64::from(shape.features));
        let model = model(&mut rng, &shape);
        let lines = ENTRIES / (shape.words * shape.attributes * shape.entries);
        let cases: Vec<Case> = (0..lines).map(|_| case(&mut rng, &model, &shape)).collect();
        row(&model, &cases, &shape);
    }
}

/// Label lists come first among the features, then the attribute lists.
pub fn model(rng: &mut Rng, shape: &Shape) -> Model {
    let Shape { labels, features, entries, .. } = *shape;
    let moves = labels * labels;
    let lists = (features - moves).div_ceil(entries);
    Model {
        labels,
        counts: Counts {
            features,
            attribute_lists: lists,
            label_lists: labels,
            attribute_entries: features - moves,
            label_entries: moves,
        },
        kinds: (0..features).map(|i| if i < moves { TRANSITION } else { STATE }).collect(),
        destinations: (0..features).map(|i| if i < moves { i % labels } else { rng.below(labels) }).collect(),
        sources: (0..features).map(|i| if i < moves { i / labels } else { 0 }).collect(),
        weights: make::numbers(rng, Palette::Plain, features as usize),
        attribute_starts: (0..=lists).map(|list| (list * entries).min(features - moves)).collect(),
        attribute_entries: (moves..features).collect(),
        label_starts: (0..=labels).map(|label| label * labels).collect(),
        label_entries: (0..moves).collect(),
    }
}

pub fn line(rng: &mut Rng, model: &Model, shape: &Shape) -> Line {
    let attributes = shape.words * shape.attributes;
    Line {
        words: shape.words,
        attributes,
        starts: (0..=shape.words).map(|word| word * shape.attributes).collect(),
        ids: (0..attributes).map(|_| rng.below(model.counts.attribute_lists)).collect(),
        values: make::numbers(rng, Palette::Plain, attributes as usize),
    }
}

fn case(rng: &mut Rng, model: &Model, shape: &Shape) -> Case {
    let line = line(rng, model, shape);
    let labels = make::path(rng, shape.labels, shape.words);
    let attributes: Vec<Attribute> =
        line.ids.iter().zip(&line.values).map(|(id, value)| Attribute::new(*id, *value)).collect();
    let items = attributes.chunks_exact(shape.attributes as usize).map(<[Attribute]>::to_vec).collect();
    let instance = Instance { num_items: shape.words, items, labels: labels.clone(), weight: 1.0 };
    let mut damaged = line.clone();
    *damaged.values.last_mut().expect("lines have attributes") = f64::NAN;
    Case { line, damaged, labels, instance }
}

/// The model as the Rust has it.
fn generator(model: &Model) -> FeatureGenerator {
    let feature = |i: usize| Feature {
        ftype: if model.kinds[i] == STATE { FeatureType::State } else { FeatureType::Transition },
        src: model.sources[i],
        dst: model.destinations[i],
        weight: model.weights[i],
    };
    let lists = |starts: &[u32], entries: &[u32]| {
        let list = |pair: &[u32]| FeatureRefs { fids: entries[pair[0] as usize..pair[1] as usize].to_vec() };
        starts.windows(2).map(list).collect()
    };
    FeatureGenerator {
        features: (0..model.kinds.len()).map(feature).collect(),
        attr_refs: lists(&model.attribute_starts, &model.attribute_entries),
        label_refs: lists(&model.label_starts, &model.label_entries),
    }
}

/// The same by the text and by the call, to the bit; and the damaged line is refused, by its last value.
fn compare_answers(model: &Model, generator: &FeatureGenerator, case: &Case, context: &mut ScoreContext) {
    let Case { line, damaged, labels, instance } = case;
    let (words, width) = (line.words as usize, model.labels as usize);
    let (mut states, mut transitions) = (vec![f64::NAN; words * width], vec![f64::NAN; width * width]);
    let mut counts = vec![f64::NAN; model.counts.features as usize];
    context.compute_scores(instance, generator);
    let (owed_states, owed_transitions) =
        (probe::state_scores(context).concat(), probe::trans_scores(context).concat());
    let owed_counts = Trainer::<Arow>::new().counts(instance, labels, generator);
    assert_eq!(compute_scores(model, line, &mut transitions, &mut states), Ok(()));
    assert!(all_same(&states, &owed_states) && all_same(&transitions, &owed_transitions));
    let mut path = vec![u32::MAX; words];
    assert!(label_line(model, line, &mut path).is_ok());
    assert_eq!(path, context.viterbi_decode(words));
    assert_eq!(extract_features(model, line, labels, &mut counts), Ok(()));
    assert!(all_same(&counts, &owed_counts));

    let last = Err((6, u64::from(line.attributes) - 1));
    assert_eq!(compute_scores(model, damaged, &mut transitions, &mut states), last);
    assert_eq!(extract_features(model, damaged, labels, &mut counts), last);
}

fn row(model: &Model, cases: &[Case], shape: &Shape) {
    let Shape { labels, words, features, attributes, entries } = *shape;
    let generator = generator(model);
    let trainer = Trainer::<Arow>::new();
    let mut context = ScoreContext::new(labels as usize, words as usize);
    cases.iter().for_each(|case| compare_answers(model, &generator, case, &mut context));

    let (mut states, mut transitions) = (vec![0.0; (words * labels) as usize], vec![0.0; (labels * labels) as usize]);
    let mut counts = vec![0.0; features as usize];
    let mut path = vec![0; words as usize];
    let mut times: [Vec<f64>; 7] = Default::default();
    let (mut score, mut count) = (Vec::new(), Vec::new());
    for _ in 0..PASSES {
        times[0].extend(pass(cases, |_| black_box(check_model(black_box(model))).is_ok()));
        let refused = pass(cases, |case| {
            black_box(compute_scores(black_box(model), &case.damaged, &mut transitions, &mut states)).is_err()
        });
        let scored = pass(cases, |case| {
            black_box(compute_scores(black_box(model), &case.line, &mut transitions, &mut states)).is_ok()
        });
        score.extend(beyond(&scored, &refused));
        times[1].extend(scored);
        times[2].extend(pass(cases, |case| {
            context.compute_scores(black_box(&case.instance), black_box(&generator));
            black_box(probe::state_scores(&context)).len() == words as usize
        }));
        let refused = pass(cases, |case| {
            black_box(extract_features(black_box(model), &case.damaged, &case.labels, &mut counts)).is_err()
        });
        let counted = pass(cases, |case| {
            black_box(extract_features(black_box(model), &case.line, &case.labels, &mut counts)).is_ok()
        });
        count.extend(beyond(&counted, &refused));
        times[3].extend(counted);
        times[4].extend(pass(cases, |case| {
            let counts = trainer.counts(black_box(&case.instance), &case.labels, black_box(&generator));
            black_box(counts).len() == features as usize
        }));
        times[5].extend(pass(cases, |case| black_box(label_line(black_box(model), &case.line, &mut path)).is_ok()));
        times[6].extend(pass(cases, |case| {
            context.compute_scores(black_box(&case.instance), black_box(&generator));
            black_box(black_box(&context).viterbi_decode(words as usize)).len() == words as usize
        }));
    }
    let [check, scored, score_of_text, counted, count_of_text, labelled, labels_of_text] = times.map(median);
    let (score, count) = (median(score), median(count));
    println!(
        "L {labels:2} T {words:3} F {features:5}, {attributes} attributes a word, {entries:2} entries a list ({} lines): \
         the model's check alone {check:.0}",
        cases.len()
    );
    for (call, step, rust, whole) in
        [("scoring ", score, score_of_text, scored), ("counting", count, count_of_text, counted)]
    {
        println!(
            "  {call}: after the check {step:6.0}, Rust {rust:6.0}; the whole call {whole:7.0}; ratio {:.2}",
            rust / step
        );
    }
    println!(
        "  labelling: the whole call {labelled:7.0}, Rust {labels_of_text:7.0}; ratio {:.2}",
        labels_of_text / labelled
    );
}
