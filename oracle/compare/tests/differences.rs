//! The cases of docs/DIFFERENCES.md by the archive: each is answered as document 01 says, and all lent memory is looked
//! at. Calls that the archive does not have yet wait behind a feature; a feature that is gone is an error, so that none
//! waits unseen.
#![deny(unexpected_cfgs)]

mod shared;

use compare::Refusal;
use compare::decode::{sequence_score, viterbi_decode};
use compare::shuffle::shuffle;
use oracle::cases::Rng;
use oracle::differences::{self, Call, Input};
use oracle::tables::Scores;
use shared::{Buffer, Entry, bits_of_line, refusal};

type Run = fn(&Input, Call, &mut Rng) -> Option<Refusal>;

/// Runs the smallest sound input, which is accepted, and every case of these calls.
fn each(calls: &[Call], run: Run) {
    let mut rng = Rng::new(0xD1FF);
    for call in calls {
        assert_eq!(run(&Input::default(), *call, &mut rng), None, "{call:?}");
    }
    let mut runs = 0;
    for group in differences::groups() {
        for case in &group.cases {
            let of_case: Vec<Call> =
                case.runs.iter().map(|(call, _)| *call).filter(|call| calls.contains(call)).collect();
            if of_case.is_empty() {
                continue;
            }
            let (input, lent) = (case.input(), case.input());
            for call in of_case {
                let name = format!("{}: {}: {call:?}", group.title, case.name);
                assert_eq!(run(&lent, call, &mut rng), case.owed.map(refusal), "{name}");
                assert!(bits(&lent) == bits(&input), "{name}: the tables are only read");
                runs += 1;
            }
        }
    }
    println!("{calls:?}: {runs} runs");
}

/// The bits of all tables that a call may be given.
fn bits(input: &Input) -> Vec<u64> {
    let Input { scores, path, model, line, data, new, .. } = input;
    let numbers = [&scores.states, &scores.transitions, new, &data.values, &data.weights].into_iter().flatten();
    let ids = [path, &data.word_starts, &data.attribute_starts, &data.ids, &data.references].into_iter().flatten();
    let bits = numbers.map(|x| x.bits()).chain(ids.map(|id| id.bits()));
    bits_of_line(model, line).into_iter().chain(bits).collect()
}

// ---- score tables, an order

#[test]
fn of_score_tables() {
    each(&[Call::Decode, Call::PathScore], |input, call, rng| {
        let Scores { labels, words, states, transitions } = &input.scores;
        if call == Call::PathScore {
            let length = input.path.len() as u32;
            return sequence_score(*labels, *words, transitions, states, &input.path, length).err();
        }
        let room = *words as usize;
        let mut path: Buffer<u32> = Buffer::new(rng, room);
        let refused = viterbi_decode(*labels, *words, transitions, states, path.lend()).err();
        path.result(room, refused);
        refused
    });
}

#[test]
fn of_the_shuffle() {
    each(&[Call::Shuffle], |input, _, _| {
        let (mut state, mut order) = (input.seed, input.order.clone());
        let refused = shuffle(&mut state, &mut order).err();
        assert!(refused.is_none() || (state == input.seed && order == input.order), "as at entry");
        refused
    });
}

// ---- a model and a line

mod scoring {
    use compare::scoring::{check_model, compute_scores, extract_features, label_line, set_weights};

    use super::*;

    #[test]
    fn of_models_lines_and_weights() {
        each(&[Call::Check, Call::Scores, Call::Labels, Call::Counts, Call::SetWeights], run);
    }

    fn run(input: &Input, call: Call, rng: &mut Rng) -> Option<Refusal> {
        let Input { model, line, path, new, .. } = input;
        let [labels, words, features] = [model.labels, line.words, model.counts.features].map(|count| count as usize);
        match call {
            Call::Scores => {
                let (mut transitions, mut states) =
                    (Buffer::new(rng, labels * labels), Buffer::new(rng, words * labels));
                let refused = compute_scores(model, line, transitions.lend(), states.lend()).err();
                transitions.result(labels * labels, refused);
                states.result(words * labels, refused);
                refused
            }
            Call::Labels => {
                let mut labels = Buffer::new(rng, words);
                let refused = label_line(model, line, labels.lend()).err();
                labels.result(words, refused);
                refused
            }
            Call::Counts => {
                let mut counts = Buffer::new(rng, features);
                let refused = extract_features(model, line, path, counts.lend()).err();
                counts.result(features, refused);
                refused
            }
            Call::SetWeights => {
                let mut weights = Buffer::new(rng, features);
                let refused = set_weights(model.counts.features, new, weights.lend()).err();
                let front = weights.result(features, refused);
                assert!(refused.is_some() || front.iter().zip(new).all(|(x, y)| x.bits() == y.bits()));
                refused
            }
            _ => check_model(model).err(),
        }
    }
}

// ---- training

mod training {
    use compare::training::{Lent, Trainer, train};

    use super::*;

    #[test]
    fn of_the_trainers() {
        each(&[Call::Perceptron, Call::Passive, Call::Arow], run);
    }

    /// "After an accepted call work buffers' needed fronts are zero."
    fn run(input: &Input, call: Call, rng: &mut Rng) -> Option<Refusal> {
        let Input { model, data, .. } = input;
        let [features, instances] = [model.counts.features, data.instances].map(|count| count as usize);
        let mut numbers: [Buffer<f64>; 4] = std::array::from_fn(|_| Buffer::new(rng, features));
        let mut order: Buffer<u32> = Buffer::new(rng, instances);
        let [weights, running_sums, true_counts, predicted_counts] = &mut numbers;
        let lent = Lent {
            weights: weights.lend(),
            running_sums: running_sums.lend(),
            true_counts: true_counts.lend(),
            predicted_counts: predicted_counts.lend(),
            order: order.lend(),
        };
        let refused = train(Trainer::new(&input.settings(call), [1, 1]), model, data, lent).err();
        let fronts: Vec<&[f64]> = numbers.iter().map(|buffer| buffer.result(features, refused)).collect();
        assert!(fronts[1..].iter().all(|front| front.iter().all(|x| x.bits() == 0)), "work is zero at the end");
        assert!(order.result(instances, refused).iter().all(|i| *i == 0), "work is zero at the end");
        refused
    }
}
