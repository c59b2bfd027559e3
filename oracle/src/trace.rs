//! What a trainer did at each visit, and where refusals 8 and 9 are due.
//!
//! Weights, running sums, covariance, decoded scores, updates and the losses of epochs are seen while the text runs.
//! What it drops within a visit is got from its own functions again, on the weights it had there: predicted labels,
//! counts, path scores. The loss after a visit is their sum in the loop's own operations. Each of these is held
//! against what was seen, and a difference is a panic of the oracle.

use crfs::dataset::Instance;
use crfs::eyes::{Detail, Event, Tables};
use crfs::train::feature_gen::FeatureGenerator;

use crate::panics::caught;
use crate::refusals::Refusal;
use crate::rust::{self, Context, Stopped};
use crate::tables::{Data, Model, Rule, Scores, Settings, Trained, all_same, same};

#[derive(Debug, Clone, PartialEq)]
pub struct Visit {
    pub epoch: usize,
    pub instance: usize,
    pub before: Tables,
    pub scores: Scores,
    /// None where the Rust panicked in it.
    pub predicted: Option<Vec<u32>>,
    /// How many labels differ.
    pub wrong: usize,
    /// True counts and predicted counts, where labels differ.
    pub counts: Option<(Vec<f64>, Vec<f64>)>,
    /// None where the Rust panicked before the visit's end.
    pub after: Option<Tables>,
    /// The epoch's loss after the visit, undivided.
    pub loss: f64,
}

#[derive(Debug, Clone, PartialEq)]
pub struct Trace {
    pub rule: Rule,
    pub visits: Vec<Visit>,
    pub end: Result<Trained, Stopped>,
}

/// Trains and tells of each visit. Where training cannot begin, what stopped it comes back.
pub fn train(model: &Model, data: &Data, settings: &Settings) -> Result<Trace, Stopped> {
    let mut replay = Replay {
        rule: settings.rule,
        labels: model.labels,
        features: rust::unweighted(model)?,
        instances: rust::instances(data)?,
        loss: 0.0,
    };
    let (end, seen) = rust::watched(model, data, settings, Detail::Everything);
    let Some(seen) = seen else {
        return Err(end.expect_err("what is not seen has not begun"));
    };
    let glimpses = glimpses(seen.events);
    let n = replay.instances.len();
    let epochs = glimpses.len().div_ceil(n.max(1));
    let orders = rust::orders(settings.seed, n, epochs);
    let visits = glimpses
        .into_iter()
        .enumerate()
        .map(|(done, glimpse)| {
            let epoch = done / n;
            replay.visit(epoch, done % n, orders[epoch].0[done % n], glimpse)
        })
        .collect();
    let rule = settings.rule;
    Ok(Trace { rule, visits, end })
}

impl Trace {
    /// The first 8 or 9 that is due. "In a visit 8 looks at scores, then, where labels differ, at true counts, then
    /// predicted counts; 9 comes after."
    pub fn refusal(&self) -> Option<Refusal> {
        for (done, visit) in self.visits.iter().enumerate() {
            let place = done as u32;
            let scores = finite(&visit.scores.states) && finite(&visit.scores.transitions);
            let counts = visit.counts.as_ref();
            if !scores || counts.is_some_and(|(of, by)| !finite(of) || !finite(by)) {
                return Some(Refusal { number: 8, place });
            }
            let tables = visit.after.as_ref();
            if tables.is_some_and(|tables| !self.finite(tables)) || !visit.loss.is_finite() {
                return Some(Refusal { number: 9, place });
            }
        }
        // "all visits for the averaging"
        let trained = self.end.as_ref().ok()?;
        let place = trained.visits as u32;
        (!finite(&trained.weights)).then_some(Refusal { number: 9, place })
    }

    /// "a weight, running sum, covariance": without averaging there are no running sums.
    fn finite(&self, tables: &Tables) -> bool {
        let no_sums = matches!(self.rule, Rule::PassiveAggressive { averaging: false, .. });
        finite(&tables.weights) && (no_sums || finite(&tables.beside))
    }
}

fn finite(table: &[f64]) -> bool {
    table.iter().all(|x| x.is_finite())
}

/// A visit as it was seen.
struct Glimpse {
    before: Tables,
    states: Vec<f64>,
    transitions: Vec<f64>,
    counted: usize,
    after: Option<Tables>,
    /// The loss printed after it, where it is the last of its epoch.
    printed: Option<f64>,
}

fn glimpses(events: Vec<Event>) -> Vec<Glimpse> {
    let mut seen: Vec<Glimpse> = Vec::new();
    let mut set = Tables::default();
    for event in events {
        match event {
            Event::Set(tables) => {
                if let Some(last) = seen.last_mut() {
                    last.after.get_or_insert_with(|| tables.clone());
                }
                set = tables;
            }
            Event::Decoding(states, transitions) => seen.push(Glimpse {
                before: std::mem::take(&mut set),
                states: states.concat(),
                transitions: transitions.concat(),
                counted: 0,
                after: None,
                printed: None,
            }),
            Event::Counting => seen.last_mut().expect("a visit counts").counted += 1,
            Event::Epoch(_, loss, tables) => {
                if let Some(last) = seen.last_mut() {
                    last.after = Some(tables);
                    last.printed = Some(loss);
                }
            }
        }
    }
    seen
}

struct Replay {
    rule: Rule,
    labels: u32,
    features: FeatureGenerator,
    instances: Vec<Instance>,
    loss: f64,
}

impl Replay {
    fn visit(&mut self, epoch: usize, within: usize, instance: usize, seen: Glimpse) -> Visit {
        if within == 0 {
            self.loss = 0.0;
        }
        self.features.set_weights(&seen.before.weights);
        let line = &self.instances[instance];
        let scores = rust::scores_of(&self.features, line, self.labels);
        assert!(
            all_same(&scores.states, &seen.states) && all_same(&scores.transitions, &seen.transitions),
            "the scores are those that were decoded"
        );
        let context = Context::of(&scores).expect("the tables have their sizes");
        let predicted = caught(|| context.decode()).ok();
        let wrong = predicted.as_ref().map_or(0, |path| unlike(path, &line.labels));
        assert_eq!(seen.counted, if wrong > 0 { 2 } else { 0 }, "a visit that counts is an update");
        let differing = predicted.as_ref().filter(|_| wrong > 0);
        let counts = differing.map(|path| {
            (rust::counts_of(&self.features, line, &line.labels), rust::counts_of(&self.features, line, path))
        });
        if let Some(path) = differing {
            self.loss += self.lost(&context, line, path, wrong);
        }
        if let Some(printed) = seen.printed {
            assert!(same(self.printed(), printed), "the loss is the one that was printed");
        }
        Visit {
            epoch,
            instance,
            before: seen.before,
            scores,
            predicted,
            wrong,
            counts,
            after: seen.after,
            loss: self.loss,
        }
    }

    /// What a visit adds to the loss, operation by operation as in the three loops.
    fn lost(&self, context: &Context, line: &Instance, path: &[u32], wrong: usize) -> f64 {
        let behind = || context.score(path) - context.score(&line.labels);
        match self.rule {
            Rule::Perceptron => wrong as f64 / line.num_items as f64 * line.weight,
            Rule::PassiveAggressive { error_sensitive: true, .. } => (behind() + (wrong as f64).sqrt()) * line.weight,
            Rule::PassiveAggressive { .. } => (behind() + 1.0) * line.weight,
            Rule::Arow { .. } => (behind() + wrong as f64) * line.weight,
        }
    }

    /// The loss as the text prints it: the perceptron's is divided.
    fn printed(&self) -> f64 {
        match self.rule {
            Rule::Perceptron => self.loss / self.instances.len() as f64,
            _ => self.loss,
        }
    }
}

fn unlike(path: &[u32], labels: &[u32]) -> usize {
    path.iter().zip(labels).filter(|(p, l)| p != l).count()
}
