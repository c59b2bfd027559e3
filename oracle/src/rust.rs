//! The Rust text, called on flat tables. What it answers is its own; nothing here decides anything.

use crfs::dataset::{Attribute, Instance};
use crfs::eyes::{self, Detail, Seen};
use crfs::open::Open;
use crfs::train::crf_context::{ScoreContext, probe};
use crfs::train::dictionary::Dictionary;
use crfs::train::feature_gen::{Feature, FeatureGenerator, FeatureRefs, FeatureType};
use crfs::train::trainer::{Arow, AveragedPerceptron, PaType, PassiveAggressive, Trainer, TrainingAlgorithm};
use rand::SeedableRng;
use rand::rngs::StdRng;

use crate::panics::{Panic, caught};
use crate::tables::{Data, Line, Model, Rule, STATE, Scores, Settings, TRANSITION, Trained};

/// Why the Rust gave no answer.
#[derive(Debug, Clone, PartialEq, Eq)]
pub enum Stopped {
    /// The tables have no counterpart in the Rust's types.
    Inexpressible(&'static str),
    /// A setter took a parameter for bad.
    Setter(String),
    Panicked(Panic),
}

/// The scores of a line, out of the Rust's own tables.
pub fn scores(model: &Model, line: &Line) -> Result<Scores, Stopped> {
    let features = weighted(model)?;
    let line = instance(line, &[], 1.0)?;
    caught(|| scores_of(&features, &line, model.labels)).map_err(Stopped::Panicked)
}

/// The path that `viterbi_decode` gives for score tables.
pub fn decode(scores: &Scores) -> Result<Vec<u32>, Stopped> {
    let context = Context::of(scores)?;
    caught(|| context.decode()).map_err(Stopped::Panicked)
}

/// The path of a line: `compute_scores`, then `viterbi_decode`.
pub fn decode_line(model: &Model, line: &Line) -> Result<Vec<u32>, Stopped> {
    let features = weighted(model)?;
    let line = instance(line, &[], 1.0)?;
    caught(|| {
        let words = line.num_items as usize;
        let mut context = ScoreContext::new(model.labels as usize, words);
        context.compute_scores(&line, &features);
        context.viterbi_decode(words)
    })
    .map_err(Stopped::Panicked)
}

/// `sequence_score`.
pub fn path_score(scores: &Scores, path: &[u32]) -> Result<f64, Stopped> {
    let context = Context::of(scores)?;
    caught(|| context.score(path)).map_err(Stopped::Panicked)
}

/// `extract_features`.
pub fn counts(model: &Model, line: &Line, labels: &[u32]) -> Result<Vec<f64>, Stopped> {
    let features = unweighted(model)?;
    let line = instance(line, labels, 1.0)?;
    caught(|| counts_of(&features, &line, labels)).map_err(Stopped::Panicked)
}

/// `set_weights` on so many features: the weights that they then have.
pub fn set_weights(features: u32, weights: &[f64]) -> Result<Vec<f64>, Stopped> {
    let feature = Feature { ftype: FeatureType::State, src: 0, dst: 0, weight: 0.0 };
    let mut generator =
        FeatureGenerator { features: vec![feature; features as usize], attr_refs: Vec::new(), label_refs: Vec::new() };
    caught(|| generator.set_weights(weights)).map_err(Stopped::Panicked)?;
    Ok(weights_of(&generator))
}

/// Training from end to end.
pub fn train(model: &Model, data: &Data, settings: &Settings) -> Result<Trained, Stopped> {
    watched(model, data, settings, Detail::Totals).0
}

/// Training, and what was seen of it. Nothing is seen where it could not begin.
pub fn watched(
    model: &Model,
    data: &Data,
    settings: &Settings,
    detail: Detail,
) -> (Result<Trained, Stopped>, Option<Seen>) {
    let mut prepared = match Prepared::new(model, data, settings) {
        Ok(prepared) => prepared,
        Err(stopped) => return (Err(stopped), None),
    };
    prepared.learner.verbose();
    eyes::start(detail);
    let end = caught(|| prepared.train());
    let seen = eyes::stop();
    let end = match end {
        Ok(()) => Ok(Trained {
            weights: prepared.weights(),
            epochs: seen.epochs,
            // the weights are set once a visit and once at the end
            visits: seen.set - 1,
            // true counts and predicted counts
            updates: seen.counted / 2,
        }),
        Err(panic) => Err(Stopped::Panicked(panic)),
    };
    (end, Some(seen))
}

/// The order of n instances in each of some epochs, by the text's own `shuffle_indices`, with the generator's state
/// after it.
pub fn orders(seed: u64, n: usize, epochs: usize) -> Vec<(Vec<usize>, u64)> {
    let mut generator = StdRng::seed_from_u64(seed);
    let mut order: Vec<usize> = (0..n).collect();
    (0..epochs)
        .map(|_| {
            // as the trainers have it: with one instance nothing is drawn
            if order.len() > 1 {
                Trainer::<Arow>::shuffle(&mut order, &mut generator);
            }
            (order.clone(), generator.state())
        })
        .collect()
}

/// The first numbers drawn from a seed.
pub fn draws(seed: u64, count: usize) -> Vec<u64> {
    let mut generator = StdRng::seed_from_u64(seed);
    (0..count).map(|_| generator.draw()).collect()
}

/// A context of the Rust over given score tables, kept for callers that decode many times. Its calls may panic.
pub struct Context {
    context: ScoreContext,
    words: usize,
}

impl Context {
    pub fn of(scores: &Scores) -> Result<Self, Stopped> {
        let (labels, words) = (scores.labels as usize, scores.words as usize);
        Ok(Self {
            context: probe::context(
                labels,
                rows(&scores.states, words, labels)?,
                rows(&scores.transitions, labels, labels)?,
            ),
            words,
        })
    }

    pub fn decode(&self) -> Vec<u32> {
        self.context.viterbi_decode(self.words)
    }

    pub fn score(&self, path: &[u32]) -> f64 {
        self.context.sequence_score(path)
    }
}

/// A trainer with its instances and parameters, and the features that it trains.
pub struct Prepared {
    learner: Box<dyn Learner>,
    features: FeatureGenerator,
}

impl Prepared {
    pub fn new(model: &Model, data: &Data, settings: &Settings) -> Result<Self, Stopped> {
        Ok(Self { learner: learner(model.labels, instances(data)?, settings)?, features: unweighted(model)? })
    }

    /// The call that a benchmark times. It may panic.
    pub fn train(&mut self) {
        self.learner.learn(&mut self.features);
    }

    pub fn weights(&self) -> Vec<f64> {
        weights_of(&self.features)
    }
}

/// One of the three trainers.
trait Learner {
    fn verbose(&mut self);
    fn learn(&mut self, features: &mut FeatureGenerator);
}

impl<A: TrainingAlgorithm> Learner for Trainer<A> {
    fn verbose(&mut self) {
        Trainer::verbose(self, true);
    }

    fn learn(&mut self, features: &mut FeatureGenerator) {
        A::train(self, features).expect("the three trainers answer Ok");
    }
}

fn learner(labels: u32, instances: Vec<Instance>, settings: &Settings) -> Result<Box<dyn Learner>, Stopped> {
    let bad = |error: std::io::Error| Stopped::Setter(error.to_string());
    let (epochs, epsilon, seed) = (settings.epochs as usize, settings.epsilon, Some(settings.seed));
    let labels = Dictionary::numbered(labels as usize);
    Ok(match settings.rule {
        Rule::Perceptron => {
            let mut trainer = Trainer::<AveragedPerceptron>::new();
            trainer.fill(instances, labels);
            let params = trainer.params_mut();
            params.set_max_iterations(epochs).map_err(bad)?;
            params.set_epsilon(epsilon).map_err(bad)?;
            params.set_shuffle_seed(seed);
            Box::new(trainer)
        }
        Rule::PassiveAggressive { variant, c, error_sensitive, averaging } => {
            let mut trainer = Trainer::<PassiveAggressive>::new();
            trainer.fill(instances, labels);
            let params = trainer.params_mut();
            params.set_max_iterations(epochs).map_err(bad)?;
            params.set_epsilon(epsilon).map_err(bad)?;
            params.set_shuffle_seed(seed);
            params.set_pa_c(c).map_err(bad)?;
            params.set_pa_type(pa_type(variant)?);
            params.set_pa_error_sensitive(error_sensitive);
            params.set_pa_averaging(averaging);
            Box::new(trainer)
        }
        Rule::Arow { variance, gamma } => {
            let mut trainer = Trainer::<Arow>::new();
            trainer.fill(instances, labels);
            let params = trainer.params_mut();
            params.set_max_iterations(epochs).map_err(bad)?;
            params.set_epsilon(epsilon).map_err(bad)?;
            params.set_shuffle_seed(seed);
            params.set_variance(variance).map_err(bad)?;
            params.set_gamma(gamma).map_err(bad)?;
            Box::new(trainer)
        }
    })
}

fn pa_type(variant: u32) -> Result<PaType, Stopped> {
    match variant {
        0 => Ok(PaType::Pa),
        1 => Ok(PaType::PaI),
        2 => Ok(PaType::PaII),
        _ => Err(Stopped::Inexpressible("variant")),
    }
}

pub(crate) fn scores_of(features: &FeatureGenerator, line: &Instance, labels: u32) -> Scores {
    let words = line.num_items as usize;
    let mut context = ScoreContext::new(labels as usize, words);
    context.compute_scores(line, features);
    Scores {
        labels,
        words: line.num_items,
        states: probe::state_scores(&context).concat(),
        transitions: probe::trans_scores(&context).concat(),
    }
}

pub(crate) fn counts_of(features: &FeatureGenerator, line: &Instance, labels: &[u32]) -> Vec<f64> {
    Trainer::<Arow>::new().counts(line, labels, features)
}

fn weights_of(features: &FeatureGenerator) -> Vec<f64> {
    features.features.iter().map(|feature| feature.weight).collect()
}

/// The model as the Rust has it, with its weights.
fn weighted(model: &Model) -> Result<FeatureGenerator, Stopped> {
    let mut generator = unweighted(model)?;
    let weights = front(&model.weights, model.counts.features, "weights")?;
    for (feature, weight) in generator.features.iter_mut().zip(weights) {
        feature.weight = *weight;
    }
    Ok(generator)
}

/// The model as the Rust has it, all weights 0: counts and trainers are lent no weight table.
pub(crate) fn unweighted(model: &Model) -> Result<FeatureGenerator, Stopped> {
    let counts = &model.counts;
    let kinds = front(&model.kinds, counts.features, "kinds")?;
    let sources = front(&model.sources, counts.features, "sources")?;
    let destinations = front(&model.destinations, counts.features, "destinations")?;
    let features = kinds.iter().zip(sources).zip(destinations);
    Ok(FeatureGenerator {
        features: features
            .map(|((kind, source), destination)| {
                Ok(Feature { ftype: feature_type(*kind)?, src: *source, dst: *destination, weight: 0.0 })
            })
            .collect::<Result<_, Stopped>>()?,
        attr_refs: lists(&model.attribute_starts, counts.attribute_lists, &model.attribute_entries)?,
        label_refs: lists(&model.label_starts, counts.label_lists, &model.label_entries)?,
    })
}

fn feature_type(kind: u8) -> Result<FeatureType, Stopped> {
    match kind {
        STATE => Ok(FeatureType::State),
        TRANSITION => Ok(FeatureType::Transition),
        _ => Err(Stopped::Inexpressible("kind")),
    }
}

fn lists(starts: &[u32], count: u32, entries: &[u32]) -> Result<Vec<FeatureRefs>, Stopped> {
    parts(starts, count, entries)?.map(|part| Ok(FeatureRefs { fids: part?.to_vec() })).collect()
}

/// A line as the Rust has it.
pub(crate) fn instance(line: &Line, labels: &[u32], weight: f64) -> Result<Instance, Stopped> {
    let attributes: Vec<Attribute> =
        line.ids.iter().zip(&line.values).map(|(id, value)| Attribute::new(*id, *value)).collect();
    let items =
        parts(&line.starts, line.words, &attributes)?.map(|part| Ok(part?.to_vec())).collect::<Result<_, Stopped>>()?;
    Ok(Instance { num_items: line.words, items, labels: labels.to_vec(), weight })
}

pub(crate) fn instances(data: &Data) -> Result<Vec<Instance>, Stopped> {
    let references = front(&data.references, data.words, "references")?;
    let weights = front(&data.weights, data.instances, "instance weights")?;
    front(&data.attribute_starts, data.words.saturating_add(1), "starts")?;
    parts(&data.word_starts, data.instances, references)?
        .enumerate()
        .map(|(i, labels)| {
            let line = caught(|| data.line(i)).map_err(|_| Stopped::Inexpressible("starts"))?;
            instance(&line, labels?, weights[i])
        })
        .collect()
}

/// The parts of a table between n + 1 starts.
fn parts<'a, T>(
    starts: &'a [u32],
    count: u32,
    table: &'a [T],
) -> Result<impl Iterator<Item = Result<&'a [T], Stopped>>, Stopped> {
    let starts = front(starts, count.saturating_add(1), "starts")?;
    Ok(starts
        .windows(2)
        .map(move |pair| table.get(pair[0] as usize..pair[1] as usize).ok_or(Stopped::Inexpressible("starts"))))
}

fn front<'a, T>(table: &'a [T], count: u32, name: &'static str) -> Result<&'a [T], Stopped> {
    table.get(..count as usize).ok_or(Stopped::Inexpressible(name))
}

fn rows(table: &[f64], count: usize, width: usize) -> Result<Vec<Vec<f64>>, Stopped> {
    let table = table.get(..count * width).ok_or(Stopped::Inexpressible("scores"))?;
    Ok((0..count).map(|row| table[row * width..(row + 1) * width].to_vec()).collect())
}
