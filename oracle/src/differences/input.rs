//! What a case is run on: an input of every call, the ways to change it, and the runs.

use crfs::train::crf_context::{ScoreContext, probe};

use super::{Call, Did};
use crate::judge;
use crate::panics::caught;
use crate::refusals::{self, INSTANCES, Refusal};
use crate::rust::{self, Stopped};
use crate::tables::{Counts, Data, Line, Model, Rule, STATE, Scores, Settings, TRANSITION};

/// What every call takes. By default it is the smallest sound input.
#[derive(Debug, Clone)]
pub struct Input {
    pub scores: Scores,
    /// The labels of a path score, and those that are counted.
    pub path: Vec<u32>,
    pub model: Model,
    pub line: Line,
    pub data: Data,
    /// What `set_weights` is given.
    pub new: Vec<f64>,
    /// What is shuffled.
    pub order: Vec<u32>,
    pub epochs: u32,
    pub epsilon: f64,
    pub seed: u64,
    pub variant: u32,
    pub c: f64,
    pub averaging: bool,
    pub variance: f64,
    pub gamma: f64,
}

/// L 1, T 1, every score 0, label 0; no features, no lists, no attributes; to train, one such instance of weight 1, one
/// epoch, epsilon and seed 0, PaI with both switches on, C, variance and gamma 1.
impl Default for Input {
    fn default() -> Self {
        let mut input = Self {
            scores: Scores::default(),
            path: vec![],
            model: Model { attribute_starts: vec![0], label_starts: vec![0], ..Model::default() },
            line: Line::default(),
            data: Data::default(),
            new: vec![],
            order: vec![0],
            epochs: 1,
            epsilon: 0.0,
            seed: 0,
            variant: 1,
            c: 1.0,
            averaging: true,
            variance: 1.0,
            gamma: 1.0,
        };
        input.labels(1);
        input.bare_words(1);
        input
    }
}

/// The changes.
impl Input {
    /// So many labels, every score 0.
    pub(super) fn labels(&mut self, labels: u32) {
        self.model.labels = labels;
        self.scores.labels = labels;
        self.scores.transitions = vec![0.0; (labels * labels) as usize];
        self.scores.states = vec![0.0; (self.scores.words * labels) as usize];
    }

    /// One line, and one instance, of these words, each with ids and values; every label 0.
    pub(super) fn words(&mut self, words: &[&[(u32, f64)]]) {
        let count = words.len() as u32;
        let (ids, values) = words.concat().into_iter().unzip();
        let starts = starts(words);
        let attributes = starts[words.len()];
        self.line = Line { words: count, attributes, starts, ids, values };
        self.path = vec![0; words.len()];
        self.scores.words = count;
        self.scores.states = vec![0.0; (count * self.scores.labels) as usize];
        let Line { starts, ids, values, .. } = self.line.clone();
        self.data = Data {
            instances: 1,
            words: count,
            attributes,
            word_starts: vec![0, count],
            attribute_starts: starts,
            ids,
            values,
            references: self.path.clone(),
            weights: vec![1.0],
        };
    }

    pub(super) fn bare_words(&mut self, count: u32) {
        self.words(&vec![&[][..]; count as usize]);
    }

    /// Instances of so many words each, without attributes.
    pub(super) fn instances(&mut self, lengths: &[u32]) {
        let mut words = 0;
        let ends = lengths.iter().map(|length| {
            words += length;
            words
        });
        let word_starts: Vec<u32> = [0].into_iter().chain(ends).collect();
        self.data = Data {
            instances: lengths.len() as u32,
            words,
            attributes: 0,
            word_starts,
            attribute_starts: vec![0; words as usize + 1],
            ids: vec![],
            values: vec![],
            references: vec![0; words as usize],
            weights: vec![1.0; lengths.len()],
        };
    }

    /// Kind, source and destination of each feature.
    pub(super) fn features(&mut self, features: &[(u8, u32, u32)]) {
        self.model.counts.features = features.len() as u32;
        self.model.kinds = features.iter().map(|feature| feature.0).collect();
        self.model.sources = features.iter().map(|feature| feature.1).collect();
        self.model.destinations = features.iter().map(|feature| feature.2).collect();
        self.model.weights = vec![0.0; features.len()];
    }

    pub(super) fn attribute_lists<L: AsRef<[u32]>>(&mut self, lists: &[L]) {
        let starts = starts(lists);
        let entries = starts[lists.len()];
        let (attribute_lists, attribute_entries) = (lists.len() as u32, entries);
        self.model.counts = Counts { attribute_lists, attribute_entries, ..self.model.counts };
        self.model.attribute_starts = starts;
        self.model.attribute_entries = lists.iter().flat_map(|list| list.as_ref()).copied().collect();
    }

    pub(super) fn label_lists<L: AsRef<[u32]>>(&mut self, lists: &[L]) {
        let starts = starts(lists);
        let entries = starts[lists.len()];
        let (label_lists, label_entries) = (lists.len() as u32, entries);
        self.model.counts = Counts { label_lists, label_entries, ..self.model.counts };
        self.model.label_starts = starts;
        self.model.label_entries = lists.iter().flat_map(|list| list.as_ref()).copied().collect();
    }

    /// "A State in use": in attribute list 0, and the word has attribute 0, of value 1.
    pub(super) fn state(&mut self, destination: u32) {
        self.state_of_value(destination, 1.0);
    }

    pub(super) fn state_of_value(&mut self, destination: u32, value: f64) {
        self.features(&[(STATE, 0, destination)]);
        self.attribute_lists(&[[0]]);
        self.words(&[&[(0, value)]]);
    }

    /// "A Transition in use": in label list 0.
    pub(super) fn transition_feature(&mut self, source: u32, destination: u32) {
        self.features(&[(TRANSITION, source, destination)]);
        self.label_lists(&[[0]]);
    }

    /// Two words, and one transition score.
    pub(super) fn transition(&mut self, labels: u32, place: usize, score: f64) {
        self.labels(labels);
        self.bare_words(2);
        self.scores.transitions[place] = score;
    }

    /// Labels differ in the first visit, and the only feature counts nothing.
    pub(super) fn differing(&mut self) {
        self.labels(2);
        self.features(&[(STATE, 0, 0)]);
    }

    /// An update by PaII.
    pub(super) fn pa2(&mut self, c: f64) {
        self.labels(2);
        self.state(0);
        self.variant = 2;
        self.c = c;
    }

    /// A count of 2e308 for the only feature.
    pub(super) fn counting(&mut self, destination: u32) {
        self.labels(2);
        self.state(destination);
        self.words(&[&[(0, 1e308), (0, 1e308)]]);
    }

    /// The first visit errs at the second word, whose small value makes a large weight; the second visit gives that
    /// weight to the first word.
    pub(super) fn growing(&mut self, first: &[(u32, f64)]) {
        self.labels(2);
        self.state(0);
        self.words(&[first, &[(0, 1e-150)]]);
        self.data.references = vec![1, 0];
        self.variant = 0;
        self.gamma = 1e-300;
        self.epochs = 2;
    }

    /// The first visit adds a weight of 1e308, the second one takes it away.
    pub(super) fn both_ways(&mut self) {
        self.labels(2);
        self.state(0);
        self.words(&[&[(0, 1.0)], &[(0, 1.0)]]);
        self.data.references = vec![0, 1];
        self.data.weights = vec![1e308];
        self.epochs = 2;
    }
}

/// n + 1 starts of n lists.
fn starts<T>(lists: &[impl AsRef<[T]>]) -> Vec<u32> {
    let mut starts = vec![0];
    for list in lists {
        starts.push(starts[starts.len() - 1] + list.as_ref().len() as u32);
    }
    starts
}

/// The runs.
impl Input {
    /// What a trainer is told.
    pub fn settings(&self, trainer: Call) -> Settings {
        let Self { epochs, epsilon, seed, variant, c, averaging, variance, gamma, .. } = *self;
        let rule = match trainer {
            Call::Passive => Rule::PassiveAggressive { variant, c, error_sensitive: true, averaging },
            Call::Arow => Rule::Arow { variance, gamma },
            _ => Rule::Perceptron,
        };
        Settings { rule, epochs, epsilon, seed }
    }

    /// What the Rust does.
    pub fn on_the_rust(&self, call: Call) -> Did {
        let Self { scores, path, model, line, data, new, order, .. } = self;
        match call {
            Call::Decode => {
                did(in_context(scores, |context| context.viterbi_decode(scores.words as usize)), |_| vec![])
            }
            Call::PathScore => did(in_context(scores, |context| context.sequence_score(path)), |score| vec![score]),
            Call::Check => Did::NoSuchCall,
            Call::Scores => did(rust::scores(model, line), |scores| [scores.states, scores.transitions].concat()),
            Call::Labels => did(rust::decode_line(model, line), |_| vec![]),
            Call::Counts => did(rust::counts(model, line, path), |counts| counts),
            Call::SetWeights => did(rust::set_weights(model.counts.features, new), |weights| weights),
            Call::Shuffle => did(Ok(rust::orders(self.seed, order.len(), 1)), |_| vec![]),
            Call::Perceptron | Call::Passive | Call::Arow => {
                did(rust::train(model, data, &self.settings(call)), |trained| trained.weights)
            }
        }
    }

    /// The refusal that the judge names, where enough is lent.
    pub fn owed(&self, call: Call) -> Option<Refusal> {
        let Self { scores, path, model, line, data, new, order, .. } = self;
        match call {
            Call::Decode => judge::decode(scores, &[]).err(),
            Call::PathScore => judge::path_score(scores, path, path.len() as u32, &[]).err(),
            // the check of a line that has nothing to refuse
            Call::Check => refusals::line(model, &Input::default().line, &[]).err(),
            Call::Scores => judge::scores(model, line, &[]).err(),
            Call::Labels => judge::decode_line(model, line, &[]).err(),
            Call::Counts => judge::counts(model, line, path, &[]).err(),
            Call::SetWeights => judge::set_weights(model.counts.features, new, &[]).err(),
            // "Instances N: 1 to 16,384"
            Call::Shuffle => {
                let sound = (1..=INSTANCES as usize).contains(&order.len());
                (!sound).then_some(Refusal { number: 2, place: 0 })
            }
            Call::Perceptron | Call::Passive | Call::Arow => judge::train(model, data, &self.settings(call), &[]).err(),
        }
    }
}

/// A call of the Rust's context that has the rows of these tables, be there as many as L and T say or fewer.
fn in_context<T>(scores: &Scores, call: impl FnOnce(&ScoreContext) -> T) -> Result<T, Stopped> {
    let labels = scores.labels as usize;
    let rows = |table: &[f64], count: u32| match labels {
        0 => vec![vec![]; count as usize],
        _ => table.chunks_exact(labels).take(count as usize).map(<[f64]>::to_vec).collect(),
    };
    let context = probe::context(labels, rows(&scores.states, scores.words), rows(&scores.transitions, scores.labels));
    caught(|| call(&context)).map_err(Stopped::Panicked)
}

fn did<T>(answer: Result<T, Stopped>, numbers: impl FnOnce(T) -> Vec<f64>) -> Did {
    match answer.map(numbers) {
        Ok(numbers) if numbers.iter().any(|x| x.is_nan()) => Did::NaN,
        Ok(numbers) if numbers.iter().any(|x| x.is_infinite()) => Did::Infinite,
        Ok(_) => Did::GoesOn,
        Err(Stopped::Panicked(panic)) => Did::Panics(panic.cause),
        Err(Stopped::Setter(_)) => Did::SetterRefuses,
        Err(Stopped::Inexpressible(what)) => panic!("no case: {what} cannot be expressed in the Rust"),
    }
}
