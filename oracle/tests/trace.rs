//! What is seen of a trainer: each visit explains the tables that the next one begins with, and the finding of 8 and 9
//! agrees with what the Rust did.

use oracle::cases::calls::{self, TrainCall};
use oracle::cases::{Mix, Rng};
use oracle::rust::Stopped;
use oracle::tables::{Data, Rule, Scores, Settings, Trained, all_same};
use oracle::trace::{self, Trace, Visit};
use oracle::{desk, judge, refusals, rust};

/// Weights, and what is beside them, after a visit that errs: the three loops once more, on the values of the trace.
fn updated(rule: Rule, visit: &Visit, labels: &[u32], weight: f64, counter: f64) -> (Vec<f64>, Vec<f64>) {
    let (mut weights, mut beside) = (visit.before.weights.clone(), visit.before.beside.clone());
    let (of, by) = visit.counts.as_ref().expect("labels differ");
    let path = visit.predicted.as_ref().expect("it was decoded");
    let score = |path: &[u32]| rust::path_score(&visit.scores, path).expect("the path is in its table");
    let behind = score(path) - score(labels);
    let difference = of.iter().zip(by).map(|(of, by)| of - by);
    match rule {
        Rule::Perceptron => {
            for (i, delta) in difference.map(|d| d * weight).enumerate() {
                weights[i] += delta;
                beside[i] += counter * delta;
            }
        }
        Rule::PassiveAggressive { variant, c, error_sensitive, averaging } => {
            let cost = behind + if error_sensitive { (visit.wrong as f64).sqrt() } else { 1.0 };
            let norm = difference.clone().fold(0.0, |norm, d| norm + d * d);
            let tau = match variant {
                _ if norm.is_nan() || norm <= 0.0 => 0.0,
                0 => cost / norm,
                1 => (cost / norm).min(c),
                _ => cost / (norm + 1.0 / (2.0 * c)),
            };
            let scaled = tau * weight;
            for (i, delta) in difference.enumerate() {
                weights[i] += scaled * delta;
                if averaging {
                    beside[i] += scaled * counter * delta;
                }
            }
        }
        Rule::Arow { gamma, .. } => {
            let difference: Vec<f64> = difference.map(|d| d * weight).collect();
            let frac = difference.iter().zip(&beside).fold(gamma, |frac, (d, sigma)| frac + d * d * sigma);
            let alpha = (behind + visit.wrong as f64) / frac;
            for (i, delta) in difference.into_iter().enumerate() {
                let sigma = beside[i];
                weights[i] += alpha * sigma * delta;
                beside[i] = 1.0 / ((1.0 / sigma) + (delta * delta) / gamma);
            }
        }
    }
    (weights, beside)
}

/// Each visit leads to the next, and the last to what is trained.
fn explains_itself(trace: &Trace, data: &Data) {
    for (done, visit) in trace.visits.iter().enumerate() {
        let Some(after) = &visit.after else {
            assert!(trace.end.is_err() && done + 1 == trace.visits.len(), "only a panic ends a visit early");
            continue;
        };
        let (weights, beside) = if visit.wrong > 0 {
            let weight = data.weights[visit.instance];
            updated(trace.rule, visit, data.references(visit.instance), weight, (done + 1) as f64)
        } else {
            (visit.before.weights.clone(), visit.before.beside.clone())
        };
        assert!(all_same(&weights, &after.weights) && all_same(&beside, &after.beside), "visit {done}");
        if let Some(next) = trace.visits.get(done + 1) {
            assert!(all_same(&after.weights, &next.before.weights) && all_same(&after.beside, &next.before.beside));
        }
    }
    if let Ok(trained) = &trace.end {
        let last = trace.visits.last().and_then(|visit| visit.after.as_ref()).expect("it ended");
        let averaged = |(weight, sum): (&f64, &f64)| weight - sum / (trained.visits + 1) as f64;
        let expected: Vec<f64> = match trace.rule {
            Rule::Perceptron | Rule::PassiveAggressive { averaging: true, .. } => {
                last.weights.iter().zip(&last.beside).map(averaged).collect()
            }
            _ => last.weights.clone(),
        };
        assert!(all_same(&trained.weights, &expected));
    }
}

#[test]
fn visits_explain_themselves() {
    let mut mix = Mix::new("training")
        .require("accepted", 50.0)
        .require("refused 8", 2.0)
        .require("refused 9", 2.0)
        .require("the Rust panics", 0.5)
        .require("the Rust finishes what is refused", 1.0)
        .require("perceptron", 25.0)
        .require("passive-aggressive", 25.0)
        .require("AROW", 25.0)
        .require("N 1", 5.0)
        .require("stops early", 10.0)
        .require("updates", 70.0)
        .require("weights are learned", 60.0)
        .require("an update that moves no weight", 1.0)
        .require("transitions are learned", 10.0)
        .require("T 128", 2.0)
        .require("L 32", 2.0);
    for number in 0..6_000 {
        let TrainCall { model, data, settings } = calls::train(&mut Rng::of_case(0x7A, number));
        assert_eq!(refusals::training(&model, &data, &settings, &[]), Ok(()), "case {number}");
        let trace = trace::train(&model, &data, &settings).expect("it begins");
        explains_itself(&trace, &data);
        let end = trace.end.clone();
        let judged = judge::train(&model, &data, &settings, &[]);
        match (&judged, trace.refusal()) {
            (Ok(trained), None) => {
                assert_eq!(end.as_ref(), Ok(trained), "case {number}");
                totals(&trace, trained, &data);
            }
            (Err(refusal), Some(found)) => assert_eq!(*refusal, found, "case {number}"),
            other => panic!("case {number}: {other:?}"),
        }

        let number_of = judged.as_ref().err().map(|refusal| refusal.number);
        let trained = judged.as_ref().ok();
        let still = |visit: &Visit| {
            visit.wrong > 0 && visit.after.as_ref().is_some_and(|after| after.weights == visit.before.weights)
        };
        let moved = |kinds: &[u8], weights: &[f64]| {
            (0..weights.len()).any(|i| kinds.contains(&model.kinds[i]) && weights[i] != 0.0)
        };
        mix.case();
        mix.count("accepted", judged.is_ok());
        mix.count("refused 8", number_of == Some(8));
        mix.count("refused 9", number_of == Some(9));
        mix.count("the Rust panics", matches!(end, Err(Stopped::Panicked(_))));
        mix.count("the Rust finishes what is refused", judged.is_err() && end.is_ok());
        mix.count("perceptron", matches!(settings.rule, Rule::Perceptron));
        mix.count("passive-aggressive", matches!(settings.rule, Rule::PassiveAggressive { .. }));
        mix.count("AROW", matches!(settings.rule, Rule::Arow { .. }));
        mix.count("N 1", data.instances == 1);
        mix.count("stops early", trained.is_some_and(|t| t.epochs < u64::from(settings.epochs)));
        mix.count("updates", trace.visits.iter().any(|visit| visit.wrong > 0));
        mix.count("an update that moves no weight", model.counts.features > 0 && trace.visits.iter().any(still));
        mix.count("weights are learned", trained.is_some_and(|t| moved(&[0, 1], &t.weights)));
        mix.count("transitions are learned", trained.is_some_and(|t| moved(&[1], &t.weights)));
        mix.count("T 128", (0..data.instances as usize).any(|i| data.references(i).len() == 128));
        mix.count("L 32", model.labels == 32);
    }
    mix.finish();
}

/// "The answer gives epochs run, visits and updates, each equal to the definition's."
fn totals(trace: &Trace, trained: &Trained, data: &Data) {
    let updates = trace.visits.iter().filter(|visit| visit.wrong > 0).count();
    assert_eq!(trained.visits, trace.visits.len() as u64);
    assert_eq!(trained.visits, trained.epochs * u64::from(data.instances));
    assert_eq!(trained.updates, updates as u64);
}

/// Every epoch visits every instance once.
#[test]
fn an_epoch_is_a_permutation() {
    for number in 0..300 {
        let TrainCall { model, data, settings } = calls::train(&mut Rng::of_case(0x7B, number));
        let trace = trace::train(&model, &data, &settings).expect("it begins");
        for epoch in trace.visits.chunks_exact(data.instances as usize) {
            let mut visited: Vec<usize> = epoch.iter().map(|visit| visit.instance).collect();
            visited.sort_unstable();
            assert!(visited.into_iter().eq(0..data.instances as usize));
        }
    }
}

/// P10's counter alone does not show that later epochs learn: two instances that pull against each other do.
#[test]
fn later_epochs_learn() {
    let data = Data {
        instances: 2,
        words: 2,
        attributes: 2,
        word_starts: vec![0, 1, 2],
        attribute_starts: vec![0, 1, 2],
        ids: vec![0, 0],
        values: vec![1.0, 1.0],
        references: vec![0, 1],
        weights: vec![1.0, 0.5],
    };
    for rule in [
        Rule::Perceptron,
        Rule::PassiveAggressive { variant: 1, c: 1.0, error_sensitive: true, averaging: true },
        Rule::Arow { variance: 1.0, gamma: 1.0 },
    ] {
        let settings = Settings { rule, epochs: 4, epsilon: 0.0, seed: 3 };
        let trace = trace::train(&desk::model(), &data, &settings).expect("it begins");
        let by_epoch = |epoch| trace.visits.iter().filter(|visit| visit.epoch == epoch && visit.wrong > 0).count();
        assert!((0..4).all(|epoch| by_epoch(epoch) > 0), "{rule:?}");
        let one = Settings { epochs: 1, ..settings };
        let after_one = rust::train(&desk::model(), &data, &one).expect("it ends").weights;
        let after_four = trace.end.expect("it ends").weights;
        assert_ne!(after_one, after_four, "{rule:?}");
    }
}

/// The hooks change nothing: a run that is not watched gives the same weights.
#[test]
fn watching_changes_nothing() {
    for number in 0..500 {
        let TrainCall { model, data, settings } = calls::train(&mut Rng::of_case(0x7C, number));
        let Ok(watched) = rust::train(&model, &data, &settings) else {
            continue;
        };
        let mut prepared = rust::Prepared::new(&model, &data, &settings).expect("it was prepared before");
        prepared.train();
        assert!(all_same(&prepared.weights(), &watched.weights), "case {number}");
    }
}

/// The scores at a visit are those of the model with the weights at hand.
#[test]
fn scores_of_a_visit() {
    for number in 0..200 {
        let TrainCall { mut model, data, settings } = calls::train(&mut Rng::of_case(0x7D, number));
        let trace = trace::train(&model, &data, &settings).expect("it begins");
        for visit in trace.visits.iter().take(5) {
            model.weights = visit.before.weights.clone();
            let Scores { states, transitions, .. } =
                rust::scores(&model, &data.line(visit.instance)).expect("the tables are sound");
            assert!(all_same(&states, &visit.scores.states) && all_same(&transitions, &visit.scores.transitions));
        }
    }
}
