//! The three trainers by the archive: weights, epochs, visits, updates and refusals against the Rust and the oracle's
//! trace of it; refusals 1 to 7 against the plain checker; to the bit, and all lent memory looked at.

mod shared;

use std::collections::BTreeMap;

use compare::Refusal;
use compare::training::{self, Lent, Trainer};
use oracle::cases::calls::TrainCall;
use oracle::cases::make::{self, PALETTES, Palette, Size, Tails};
use oracle::cases::{Mix, Rng, calls as cases, damage};
use oracle::refusals::{EPOCHS, INSTANCES};
use oracle::tables::{Data, Model, Rule, Settings, Trained, all_same};
use oracle::trace::{self, Visit};
use oracle::{desk, judge};
use shared::{Buffer, Call, Entry, bits_of_model, lent, refusal, refused_as_owed, rooms, rounds};

/// Trainings of each trainer.
const CASES: u64 = 3_500;
/// Each cause of 8 and of 9 is met so often among them.
const OFTEN: u64 = 50;
/// Numbers that stand for a switch that is on.
const ON: [u32; 3] = [1, 2, u32::MAX];

// ---- the call, with an eye on all memory

/// Weights, running sums or covariance, true counts, predicted counts; order.
fn needed(call: &TrainCall) -> Vec<usize> {
    let features = call.model.counts.features as usize;
    vec![features, features, features, features, call.data.instances as usize]
}

fn bits(model: &Model, data: &Data) -> Vec<u64> {
    let ids = [&data.word_starts, &data.attribute_starts, &data.ids, &data.references];
    let numbers = data.values.iter().chain(&data.weights).map(|x| x.bits());
    bits_of_model(model).into_iter().chain(ids.into_iter().flatten().map(|id| id.bits())).chain(numbers).collect()
}

/// Trains by the archive. "After an accepted call work buffers' needed fronts are zero."
fn trained(call: &TrainCall, rooms: &[usize], rng: &mut Rng) -> Result<Trained, Refusal> {
    let TrainCall { model, data, settings } = call.clone();
    let mut numbers: [Buffer<f64>; 4] = std::array::from_fn(|i| Buffer::new(rng, rooms[i]));
    let mut order: Buffer<u32> = Buffer::new(rng, rooms[4]);
    let [weights, running_sums, true_counts, predicted_counts] = &mut numbers;
    let lent = Lent {
        weights: weights.lend(),
        running_sums: running_sums.lend(),
        true_counts: true_counts.lend(),
        predicted_counts: predicted_counts.lend(),
        order: order.lend(),
    };
    let trainer = Trainer::new(&settings, [rng.pick(&ON), rng.pick(&ON)]);
    let answer = training::train(trainer, &model, &data, lent);
    assert_eq!(bits(&model, &data), bits(&call.model, &call.data), "the tables are only read");
    let needed = needed(call);
    let fronts: Vec<&[f64]> = numbers.iter().map(|buffer| buffer.result(needed[0], answer.err())).collect();
    assert!(fronts[1..].iter().all(|front| front.iter().all(|x| x.bits() == 0)), "work is zero at the end");
    assert!(order.result(needed[4], answer.err()).iter().all(|i| *i == 0), "work is zero at the end");
    let training::Trained { epochs, visits, updates } = answer?;
    Ok(Trained { weights: fronts[0].to_vec(), epochs, visits, updates })
}

fn owed(call: &TrainCall, rooms: &[usize]) -> Result<Trained, Refusal> {
    judge::train(&call.model, &call.data, &call.settings, &lent(rooms, &needed(call))).map_err(refusal)
}

/// The same answer, numbers to the bit.
fn agree(one: &Result<Trained, Refusal>, other: &Result<Trained, Refusal>) -> bool {
    let totals = |trained: &Trained| (trained.epochs, trained.visits, trained.updates);
    match (one, other) {
        (Ok(one), Ok(other)) => totals(one) == totals(other) && all_same(&one.weights, &other.weights),
        (one, other) => one.is_err() && one.as_ref().err() == other.as_ref().err(),
    }
}

/// Trains with buffers as long as needed or longer, and holds the answer against the oracle's.
fn compared(call: &TrainCall, rng: &mut Rng, name: &str) -> Result<Trained, Refusal> {
    let rooms = rooms(rng, &needed(call));
    let (answer, owed) = (trained(call, &rooms, rng), owed(call, &rooms));
    assert!(agree(&answer, &owed), "{name}: {answer:?}, not {owed:?}: {call:?}");
    answer
}

// ---- sound calls

#[derive(Debug, Clone, Copy, PartialEq, Eq, PartialOrd, Ord)]
enum Kind {
    Perceptron,
    Passive,
    Arow,
}

const KINDS: [Kind; 3] = [Kind::Perceptron, Kind::Passive, Kind::Arow];

fn kind(settings: &Settings) -> Kind {
    match settings.rule {
        Rule::Perceptron => Kind::Perceptron,
        Rule::PassiveAggressive { .. } => Kind::Passive,
        Rule::Arow { .. } => Kind::Arow,
    }
}

fn settings(rng: &mut Rng, of: Kind) -> Settings {
    loop {
        let settings = make::settings(rng);
        if kind(&settings) == of {
            return settings;
        }
    }
}

/// Mostly small, of numbers that learn something; some larger; some that are made to leave the finite numbers in one way.
fn any_training(rng: &mut Rng, of: Kind) -> TrainCall {
    let mut size = Size::drawn(rng);
    let (mut values, mut settings) = (rng.pick(&[Palette::Whole, Palette::Plain]), settings(rng, of));
    // 4 of 5 go on past the first epoch
    if rng.chance(80) {
        settings.epochs = settings.epochs.max(2);
    }
    let way = rng.below(100);
    match way {
        0..20 => values = rng.pick(&PALETTES),
        20..22 => {
            size = Size {
                labels: rng.between(1, 32),
                words: rng.between(1, 128),
                features: rng.between(100, 2_000),
                attribute_lists: rng.between(1, 100),
                label_lists: rng.between(0, 32),
                entries: 30,
                attributes: 8,
                instances: rng.between(1, 30),
            };
        }
        22..26 => values = Palette::Large,
        26..31 => {
            (size.labels, size.words, size.label_lists) = (rng.between(2, 3), 2, 3);
            (size.features, size.instances) = (rng.between(12, 24), rng.between(2, 5));
            values = Palette::Zeros;
        }
        _ => {}
    }
    let mut model = make::model(rng, &size, values);
    let mut data = make::data(rng, &model, &size, values);
    match way {
        // weights of transitions grow and are added twice; those of states meet values of 0
        26..31 => {
            twice_in_label_lists(&mut model);
            data.weights.iter_mut().for_each(|weight| *weight = f64::MAX * rng.pick(&[0.26, 0.3, 0.45]));
        }
        // one instance, or all of them, weigh much
        31..36 => {
            let any = rng.below(size.instances) as usize;
            data.weights[any] = make::number(rng, Palette::Large);
        }
        36..39 => {
            data.weights.iter_mut().for_each(|weight| *weight = make::number(rng, Palette::Large).abs());
            data.ids.iter_mut().for_each(|id| *id = u32::MAX);
        }
        39..43 => {
            if let Rule::Arow { variance, .. } = &mut settings.rule {
                *variance = f64::MAX;
            }
        }
        _ => {}
    }
    let mut call = TrainCall { model, data, settings };
    call.model.add_tails(rng);
    call.data.add_tails(rng);
    call
}

/// Each entry of the label lists a second time.
fn twice_in_label_lists(model: &mut Model) {
    model.counts.label_entries *= 2;
    model.label_starts.iter_mut().for_each(|start| *start *= 2);
    model.label_entries = model.label_entries.iter().flat_map(|feature| [*feature; 2]).collect();
}

// ---- what a refused training met

fn finite(table: &[f64]) -> bool {
    table.iter().all(|x| x.is_finite())
}

/// What the first 8 or 9 of a trace was found in: of several tables the first that the trainer looks at.
fn cause(call: &TrainCall, refused: Refusal) -> &'static str {
    let TrainCall { model, data, settings } = call;
    let trace = trace::train(model, data, settings).expect("it begins");
    assert_eq!(trace.refusal().map(refusal), Some(refused));
    let Some(visit) = trace.visits.get(refused.1 as usize) else {
        return "9 by the averaging";
    };
    if refused.0 == 8 { cause_of_8(visit) } else { cause_of_9(visit, settings.rule) }
}

fn cause_of_8(visit: &Visit) -> &'static str {
    let (of, _) = visit.counts.as_ref().map_or((true, true), |(of, by)| (finite(of), finite(by)));
    match (finite(&visit.scores.states), finite(&visit.scores.transitions), of) {
        (false, ..) => "8 by states",
        (_, false, _) => "8 by transitions",
        (.., false) => "8 by true counts",
        _ => "8 by predicted counts",
    }
}

fn cause_of_9(visit: &Visit, rule: Rule) -> &'static str {
    let after = visit.after.as_ref().expect("the visit came to its end");
    let beside = match rule {
        Rule::Arow { .. } => "9 by covariance",
        _ => "9 by running sum",
    };
    let kept = !matches!(rule, Rule::PassiveAggressive { averaging: false, .. });
    match (finite(&after.weights), kept && !finite(&after.beside)) {
        (false, _) => "9 by weight",
        (_, true) => beside,
        _ => "9 by loss",
    }
}

const CAUSES: [&str; 8] = [
    "8 by states",
    "8 by transitions",
    "8 by true counts",
    "8 by predicted counts",
    "9 by weight",
    "9 by running sum",
    "9 by covariance",
    "9 by loss",
];

/// Of what is accepted: whether a visit after the first epoch was an update, with two instances or more.
fn learns_later(call: &TrainCall, trained: &Trained) -> bool {
    let settings = Settings { epochs: 1, ..call.settings };
    let first = judge::train(&call.model, &call.data, &settings, &[]).expect("the whole was accepted");
    call.data.instances > 1 && trained.updates > first.updates
}

#[test]
fn trains_as_the_oracle_does() {
    let mut causes = BTreeMap::<&str, [u64; 3]>::new();
    for of in KINDS {
        let mut mix = Mix::new(match of {
            Kind::Perceptron => "averaged perceptron",
            Kind::Passive => "passive-aggressive",
            Kind::Arow => "AROW",
        })
        .require("accepted", 60.0)
        .require("accepted, N 2 or more, an update after the first epoch", 30.0)
        .require("stopped by epsilon", 5.0)
        .require("stopped by the number of epochs", 30.0)
        .require("weights other than 0", 40.0)
        .require("N 1", 5.0)
        .require("T 128", 1.0)
        .require("L 1", 2.0)
        .require("L 32", 2.0)
        .require("no features", 1.0)
        .require("above 100 features", 1.0);
        if of == Kind::Passive {
            for share in ["Pa", "PaI", "PaII", "error-sensitive", "not error-sensitive", "averaging", "no averaging"] {
                mix = mix.require(share, 25.0);
            }
        }
        let (mut accepted, mut later) = (0u64, 0u64);
        for number in 0..CASES * rounds() {
            let mut rng = Rng::of_case(0x7A10 + of as u64, number);
            let call = any_training(&mut rng, of);
            let answer = compared(&call, &mut rng, &format!("{of:?}, case {number}"));
            if let Err(refused) = answer {
                causes.entry(cause(&call, refused)).or_default()[of as usize] += 1;
            }
            let TrainCall { model, data, settings } = &call;
            let trained = answer.as_ref().ok();
            let learns = trained.is_some_and(|trained| learns_later(&call, trained));
            let early = |trained: &Trained| trained.epochs < u64::from(settings.epochs);
            accepted += u64::from(answer.is_ok());
            later += u64::from(learns);
            mix.case();
            mix.count("accepted", answer.is_ok());
            mix.count("accepted, N 2 or more, an update after the first epoch", learns);
            mix.count("stopped by epsilon", trained.is_some_and(early));
            mix.count("stopped by the number of epochs", trained.is_some_and(|trained| !early(trained)));
            mix.count("weights other than 0", trained.is_some_and(|of| of.weights.iter().any(|x| *x != 0.0)));
            mix.count("N 1", data.instances == 1);
            mix.count("T 128", (0..data.instances as usize).any(|i| data.references(i).len() == 128));
            mix.count("L 1", model.labels == 1);
            mix.count("L 32", model.labels == 32);
            mix.count("no features", model.counts.features == 0);
            mix.count("above 100 features", model.counts.features > 100);
            if let Rule::PassiveAggressive { variant, error_sensitive, averaging, .. } = settings.rule {
                mix.count(["Pa", "PaI", "PaII"][variant as usize], true);
                mix.count(if error_sensitive { "error-sensitive" } else { "not error-sensitive" }, true);
                mix.count(if averaging { "averaging" } else { "no averaging" }, true);
            }
        }
        assert!(2 * later >= accepted, "{of:?}: {later} of {accepted} learn after the first epoch");
        mix.finish();
    }
    println!("refused (perceptron, passive-aggressive, AROW): {causes:#?}");
    for cause in CAUSES {
        let times: u64 = causes.get(cause).map_or(0, |times| times.iter().sum());
        assert!(times >= OFTEN, "{cause}: {times}");
    }
}

/// P9 to P14 of document 01, by what it says of them.
#[test]
fn desk_cases() {
    let mut rng = Rng::new(9);
    for case in desk::trainings() {
        let call = TrainCall { model: desk::model(), data: desk::data(case.reference), settings: case.settings };
        let answer = compared(&call, &mut rng, case.name).expect(case.name);
        assert!(all_same(&answer.weights, &case.weights), "{}: {answer:?}", case.name);
        assert_eq!((answer.epochs, answer.updates), (case.epochs, case.updates), "{}", case.name);
    }
}

/// Every number that stands for a switch, in every variant: 0 is off and all else on.
#[test]
fn switches() {
    for number in 0..200 {
        let mut rng = Rng::of_case(0x517C, number);
        let mut call = any_training(&mut rng, Kind::Passive);
        for sensitive in [0, 1, 2, u32::MAX] {
            for averaging in [0, 1, 2, u32::MAX] {
                let Rule::PassiveAggressive { variant, c, .. } = call.settings.rule else { unreachable!() };
                let (error_sensitive, averages) = (sensitive != 0, averaging != 0);
                call.settings.rule = Rule::PassiveAggressive { variant, c, error_sensitive, averaging: averages };
                let trainer = Trainer::new(&call.settings, [sensitive, averaging]);
                let lengths = needed(&call);
                let (mut floats, mut order) = (vec![vec![7.0; lengths[0]]; 4], vec![7; lengths[4]]);
                let [weights, running_sums, true_counts, predicted_counts] = &mut floats[..] else { unreachable!() };
                let lent = Lent { weights, running_sums, true_counts, predicted_counts, order: &mut order };
                let answer = training::train(trainer, &call.model, &call.data, lent);
                let answer = answer.map(|training::Trained { epochs, visits, updates }| Trained {
                    weights: floats[0].clone(),
                    epochs,
                    visits,
                    updates,
                });
                assert!(agree(&answer, &owed(&call, &lengths)), "case {number}, {sensitive}, {averaging}: {call:?}");
            }
        }
    }
}

// ---- refusals

#[test]
fn refuses_damaged_trainings() {
    let call = Call {
        name: "damaged trainings",
        often: 100,
        make: cases::train,
        needed,
        run: |call, rooms, rng| trained(call, rooms, rng).err(),
        owed: |call, rooms| owed(call, rooms).err(),
    };
    refused_as_owed(call, &damage::of_train_call(), &[1, 2, 3, 4, 5, 6, 7]);
}

/// N lines of one attribute a word, over the model of the desk cases with so many labels.
fn plain(labels: u32, words: u32, instances: u32, settings: Settings) -> TrainCall {
    let all = instances * words;
    let model = Model { labels, ..desk::model() };
    let data = Data {
        instances,
        words: all,
        attributes: all,
        word_starts: (0..=instances).map(|i| i * words).collect(),
        attribute_starts: (0..=all).collect(),
        ids: vec![0; all as usize],
        values: vec![1.0; all as usize],
        references: (0..all).map(|i| i % labels.clamp(1, 2)).collect(),
        weights: vec![1.0; instances as usize],
    };
    TrainCall { model, data, settings }
}

/// One of each trainer.
fn each(epochs: u32) -> [Settings; 3] {
    let settings = |rule| Settings { rule, epochs, epsilon: 0.0, seed: 5 };
    [
        settings(Rule::Perceptron),
        settings(Rule::PassiveAggressive { variant: 1, c: 1.0, error_sensitive: true, averaging: true }),
        settings(Rule::Arow { variance: 1.0, gamma: 1.0 }),
    ]
}

/// "Run only: L 0, 32, 33; T 0, 128, 129; N 0, 1; C = 0, NaN", with the bounds of N and of epochs.
#[test]
fn run_only() {
    let mut rng = Rng::new(0x20);
    for settings in each(2) {
        let mut run = |labels, words, instances, refused: Option<Refusal>| {
            let name = format!("L {labels}, T {words}, N {instances}: {settings:?}");
            let answer = compared(&plain(labels, words, instances, settings), &mut rng, &name);
            assert_eq!(answer.err(), refused, "{name}");
        };
        for (labels, refused) in [(0, Some((1, 0))), (2, None), (32, None), (33, Some((1, 0)))] {
            run(labels, 3, 2, refused);
        }
        for (words, refused) in [(0, Some((4, 0))), (1, None), (128, None), (129, Some((4, 0)))] {
            run(2, words, 2, refused);
        }
        for (instances, refused) in [(0, Some((2, 0))), (1, None), (INSTANCES, None), (INSTANCES + 1, Some((2, 0)))] {
            run(2, 1, instances, refused);
        }
    }
    for (epochs, refused) in [(0, Some((7, 1))), (1, None), (EPOCHS, None), (EPOCHS + 1, Some((7, 1)))] {
        for settings in each(epochs) {
            let answer = compared(&plain(2, 2, 2, settings), &mut rng, &format!("{settings:?}"));
            assert_eq!(answer.err(), refused, "{settings:?}");
        }
    }
    for (bad, variant) in [(0.0, 0), (-0.0, 1), (f64::NAN, 2), (f64::NAN, 3), (f64::INFINITY, 1), (-1.0, 0)] {
        let passive = Rule::PassiveAggressive { variant, c: bad, error_sensitive: true, averaging: false };
        for rule in [passive, Rule::Arow { variance: bad, gamma: bad }] {
            let settings = Settings { rule, epochs: 1, epsilon: 0.0, seed: 0 };
            let answer = compared(&plain(2, 2, 2, settings), &mut rng, &format!("{settings:?}"));
            assert_eq!(answer.err(), Some((7, 3)), "{settings:?}");
        }
    }
}

/// A table without entries is handed over as NULL: each table in turn and all at once.
#[test]
fn null_is_an_empty_table() {
    type Empty = fn(&mut TrainCall, &mut [usize]);
    let empties: [Empty; 18] = [
        |call, _| call.model.kinds.clear(),
        |call, _| call.model.destinations.clear(),
        |call, _| call.model.sources.clear(),
        |call, _| call.model.attribute_starts.clear(),
        |call, _| call.model.attribute_entries.clear(),
        |call, _| call.model.label_starts.clear(),
        |call, _| call.model.label_entries.clear(),
        |call, _| call.data.word_starts.clear(),
        |call, _| call.data.attribute_starts.clear(),
        |call, _| call.data.ids.clear(),
        |call, _| call.data.values.clear(),
        |call, _| call.data.references.clear(),
        |call, _| call.data.weights.clear(),
        |_, rooms| rooms[0] = 0,
        |_, rooms| rooms[1] = 0,
        |_, rooms| rooms[2] = 0,
        |_, rooms| rooms[3] = 0,
        |_, rooms| rooms[4] = 0,
    ];
    let mut accepted = 0;
    for number in 0..200 {
        let mut rng = Rng::of_case(0x0, number);
        let sound = any_training(&mut rng, KINDS[number as usize % 3]);
        let choices = empties.iter().map(|empty| vec![empty]).chain([empties.iter().collect()]);
        for chosen in choices {
            let mut call = sound.clone();
            let mut rooms = needed(&call);
            chosen.iter().for_each(|empty| empty(&mut call, &mut rooms));
            let answer = trained(&call, &rooms, &mut rng);
            assert!(agree(&answer, &owed(&call, &rooms)), "case {number}: {call:?}");
            accepted += u64::from(answer.is_ok());
        }
    }
    assert!(accepted > 50, "{accepted}");
}
