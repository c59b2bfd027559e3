//! The three trainers.

use oracle::tables::{Data, Model, Rule, Settings};

use crate::{Refusal, calls, pointer, pointer_mut};

/// A trainer with its parameters.
#[derive(Debug, Clone, Copy, PartialEq)]
pub enum Trainer {
    Perceptron(calls::AveragedPerceptronParameters),
    Passive(calls::PassiveAggressiveParameters),
    Arow(calls::ArowParameters),
}

/// What a trainer is lent: the weights are its result, the rest is work; AROW has its covariance in `running_sums`. All but
/// the order are as long as there are features; the order is as long as there are instances.
pub struct Lent<'a> {
    pub weights: &'a mut [f64],
    pub running_sums: &'a mut [f64],
    pub true_counts: &'a mut [f64],
    pub predicted_counts: &'a mut [f64],
    pub order: &'a mut [u32],
}

/// What training answers beside the weights.
#[derive(Debug, Clone, Copy, PartialEq, Eq)]
pub struct Trained {
    pub epochs: u64,
    pub visits: u64,
    pub updates: u64,
}

impl Trainer {
    /// The numbers for a switch that is on; one that is off is 0.
    pub fn new(settings: &Settings, on: [u32; 2]) -> Self {
        let Settings { rule, epochs, epsilon, seed } = *settings;
        match rule {
            Rule::Perceptron => Self::Perceptron(calls::AveragedPerceptronParameters { epochs, epsilon, seed }),
            Rule::PassiveAggressive { variant, c, error_sensitive, averaging } => {
                let [error_sensitive, averaging] = [error_sensitive, averaging].map(u32::from);
                let (error_sensitive, averaging) = (error_sensitive * on[0], averaging * on[1]);
                Self::Passive(calls::PassiveAggressiveParameters {
                    epochs,
                    epsilon,
                    seed,
                    variant,
                    c,
                    error_sensitive,
                    averaging,
                })
            }
            Rule::Arow { variance, gamma } => {
                Self::Arow(calls::ArowParameters { epochs, epsilon, seed, variance, gamma })
            }
        }
    }
}

/// One of the calls, which differ in their parameters alone.
macro_rules! call {
    ($name:ident, $parameters:ident, $model:ident [$($table:ident),*], $data:ident [$($part:ident),*],
     mut $lent:ident [$($buffer:ident),*]) => {
        unsafe {
            calls::$name(
                $parameters,
                $model.labels,
                $model.counts.into(),
                $(pointer(&$model.$table), $model.$table.len(),)*
                calls::Totals {
                    instances: $data.instances,
                    words_in_all: $data.words,
                    attributes_in_all: $data.attributes,
                },
                $(pointer(&$data.$part), $data.$part.len(),)*
                $(pointer_mut($lent.$buffer), $lent.$buffer.len(),)*
            )
        }
    };
    ($name:ident, $parameters:ident, $model:ident, $data:ident, $lent:ident) => {
        call!(
            $name,
            $parameters,
            $model [kinds, destinations, sources, attribute_starts, attribute_entries, label_starts, label_entries],
            $data [word_starts, attribute_starts, ids, values, references, weights],
            mut $lent [weights, running_sums, true_counts, predicted_counts, order]
        )
    };
}

/// Trains, and writes the weights. The model's own weights are not lent.
pub fn train(trainer: Trainer, model: &Model, data: &Data, lent: Lent) -> Result<Trained, Refusal> {
    trained(match trainer {
        Trainer::Perceptron(parameters) => call!(bodkinbloom_averaged_perceptron, parameters, model, data, lent),
        Trainer::Passive(parameters) => call!(bodkinbloom_passive_aggressive, parameters, model, data, lent),
        Trainer::Arow(parameters) => call!(bodkinbloom_arow, parameters, model, data, lent),
    })
}

/// The answer that a struct of numbers stands for. What a case leaves unsaid has to be zero.
fn trained(answer: calls::Trained) -> Result<Trained, Refusal> {
    let calls::Trained { number, place, epochs, visits, updates } = answer;
    if number == 0 {
        assert_eq!(place, 0, "{answer:?}");
        return Ok(Trained { epochs, visits, updates });
    }
    assert_eq!((epochs, visits, updates), (0, 0, 0), "{answer:?}");
    Err((number, place))
}
