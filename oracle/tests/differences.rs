//! The cases of docs/DIFFERENCES.md, each on the Rust text and on the judge; the page's tables; and what is no case.

use std::collections::{BTreeMap, BTreeSet};
use std::fs;
use std::path::Path;

use crfs::eyes::Tables;
use oracle::differences::{self, Call, Case, Did, Found, Group, Input};
use oracle::refusals::Refusal;
use oracle::rust::{self, Stopped};
use oracle::tables::{Line, Model, Rule, STATE, TRANSITION};
use oracle::trace::{self, Visit};
use oracle::{desk, judge};

fn refused<T>(number: u32, place: u32) -> Result<T, Refusal> {
    Err(Refusal { number, place })
}

fn each(mut look: impl FnMut(&Group, &Case)) {
    for group in differences::groups() {
        group.cases.iter().for_each(|case| look(&group, case));
    }
}

const CALLS: [Call; 11] = [
    Call::Decode,
    Call::PathScore,
    Call::Check,
    Call::Scores,
    Call::Labels,
    Call::Counts,
    Call::SetWeights,
    Call::Shuffle,
    Call::Perceptron,
    Call::Passive,
    Call::Arow,
];

// ---- the cases

#[test]
fn on_the_rust_and_on_the_judge() {
    let mut wrong = Vec::new();
    each(|group, case| {
        let input = case.input();
        for (call, expected) in &case.runs {
            let (did, owed) = (input.on_the_rust(*call), input.owed(*call));
            if (did, owed) != (*expected, case.owed) {
                wrong.push(format!("{}: {}: {call:?}: {did:?}, {owed:?}", group.title, case.name));
            }
        }
    });
    assert!(wrong.is_empty(), "{wrong:#?}");
}

/// What a case changes is all that is wrong in it.
#[test]
fn the_smallest_sound_input_is_accepted() {
    for call in CALLS {
        let did = if call == Call::Check { Did::NoSuchCall } else { Did::GoesOn };
        assert_eq!(Input::default().on_the_rust(call), did, "{call:?}");
        assert_eq!(Input::default().owed(call), None, "{call:?}");
    }
}

/// Every number that a call can refuse with, but 3, which cannot be put to the Rust.
#[test]
fn every_number_of_every_call() {
    let mut met = BTreeMap::<Call, BTreeSet<u32>>::new();
    each(|_, case| {
        for (call, _) in &case.runs {
            met.entry(*call).or_default().extend(case.owed.map(|refusal| refusal.number));
        }
    });
    for call in CALLS {
        let numbers: &[u32] = match call {
            Call::Decode => &[1, 2, 4, 6],
            Call::PathScore => &[1, 2, 4, 5, 6],
            Call::Check => &[1, 2, 5, 6],
            Call::Scores | Call::Labels | Call::Counts => &[1, 2, 4, 5, 6, 8],
            Call::SetWeights => &[2, 6],
            Call::Shuffle => &[2],
            Call::Perceptron | Call::Passive | Call::Arow => &[1, 2, 4, 5, 6, 7, 8, 9],
        };
        assert!(met[&call].iter().eq(numbers), "{call:?}: {:?}", met[&call]);
    }
}

/// 8 and 9 of a trainer are found in the tables that a case names, and in no others.
#[test]
fn what_eight_and_nine_are_found_in() {
    let mut met = Vec::new();
    each(|_, case| {
        let trained =
            case.runs.iter().filter(|(call, _)| matches!(call, Call::Perceptron | Call::Passive | Call::Arow));
        for (call, _) in trained {
            let refusal = case.owed.expect("no training is accepted");
            let found = if refusal.number < 8 { vec![] } else { found(&case.input(), *call, refusal) };
            assert_eq!(found, case.found, "{}: {call:?}", case.name);
            met.extend(found);
        }
    });
    for table in [
        Found::States,
        Found::Transitions,
        Found::TrueCounts,
        Found::PredictedCounts,
        Found::Weights,
        Found::RunningSums,
        Found::Covariance,
        Found::Loss,
    ] {
        assert!(met.contains(&table), "{table:?}");
    }
}

fn found(input: &Input, call: Call, refusal: Refusal) -> Vec<Found> {
    let settings = input.settings(call);
    let trace = trace::train(&input.model, &input.data, &settings).expect("it begins");
    let visit = &trace.visits[refusal.place as usize];
    let tables = if refusal.number == 8 { tables_of_8(visit) } else { tables_of_9(visit, settings.rule) };
    let bad = |table: &[f64]| table.iter().any(|x| !x.is_finite());
    tables.into_iter().filter(|(_, table)| bad(table)).map(|(found, _)| found).collect()
}

fn tables_of_8(visit: &Visit) -> Vec<(Found, Vec<f64>)> {
    let (of, by) = visit.counts.clone().unwrap_or_default();
    let scores = visit.scores.clone();
    let (states, transitions) = (scores.states, scores.transitions);
    // counts are looked at once the scores are finite
    let counts = if states.iter().chain(&transitions).all(|x| x.is_finite()) { (of, by) } else { (vec![], vec![]) };
    vec![
        (Found::States, states),
        (Found::Transitions, transitions),
        (Found::TrueCounts, counts.0),
        (Found::PredictedCounts, counts.1),
    ]
}

fn tables_of_9(visit: &Visit, rule: Rule) -> Vec<(Found, Vec<f64>)> {
    let Tables { weights, beside } = visit.after.clone().expect("the visit came to its end");
    let beside = match rule {
        Rule::Arow { .. } => (Found::Covariance, beside),
        Rule::PassiveAggressive { averaging: false, .. } => (Found::RunningSums, vec![]),
        _ => (Found::RunningSums, beside),
    };
    vec![(Found::Weights, weights), beside, (Found::Loss, vec![visit.loss])]
}

// ---- the page

/// Below a first table, of what is no refusal, the section has a table for each group, and each row is a case.
#[test]
fn the_page_has_every_case_and_no_other() {
    let page = fs::read_to_string(concat!(env!("CARGO_MANIFEST_DIR"), "/../docs/DIFFERENCES.md")).expect("the page");
    let section = page.split("\n## ").find(|section| section.starts_with("Where they part\n")).expect("the section");
    let parts: Vec<&str> = section.split("\n### ").skip(1).collect();
    let groups = differences::groups();
    let titles: Vec<&str> = parts.iter().map(|part| part.lines().next().expect("a title")).collect();
    let owed: Vec<&str> = groups.iter().map(|group| group.title).collect();
    assert_eq!(titles, [&["Other answers, no refusal"], &owed[..]].concat());
    let mut wrong = Vec::new();
    for (part, group) in parts[1..].iter().zip(&groups) {
        let rows: Vec<&str> = part.lines().filter(|line| line.starts_with('|')).skip(2).collect();
        let owed: Vec<String> = group.cases.iter().map(|case| group.row(case)).collect();
        if rows != owed {
            wrong.push(format!("### {}\n{}\n", group.title, owed.join("\n")));
        }
    }
    assert!(wrong.is_empty(), "these tables are to be\n{}", wrong.join("\n"));
}

#[test]
fn names_are_unique() {
    for group in differences::groups() {
        let names: BTreeSet<&str> = group.cases.iter().map(|case| case.name).collect();
        assert_eq!(names.len(), group.cases.len(), "{}", group.title);
    }
    let cases: usize = differences::groups().iter().map(|group| group.cases.len()).sum();
    let runs: usize = differences::groups().iter().flat_map(|group| &group.cases).map(|case| case.runs.len()).sum();
    println!("{cases} cases, {runs} runs");
}

// ---- what is no case

/// The Rust's lists are vectors, its kinds and variants are enums, and a feature or an attribute is one struct.
#[test]
fn what_cannot_be_expressed_in_the_rust() {
    type Change = fn(&mut Model, &mut Line);
    let changes: [(&str, Change, u32, u32); 6] = [
        ("starts past the entries", |model, _| model.attribute_starts = vec![0, 3], 3, 1),
        ("starts that fall", |_, line| (line.words, line.starts) = (2, vec![0, 1, 0]), 3, 2),
        ("no starts", |model, _| model.label_starts.clear(), 2, 0),
        ("a kind of 2", |model, _| model.kinds[1] = 2, 5, 1),
        ("fewer sources than features", |model, _| model.sources.truncate(1), 2, 0),
        ("fewer weights than features", |model, _| model.weights.truncate(1), 2, 0),
    ];
    for (name, change, number, place) in changes {
        let (mut model, mut line) = (desk::model(), desk::data(0).line(0));
        change(&mut model, &mut line);
        assert_eq!(judge::scores(&model, &line, &[]), refused(number, place), "{name}");
        let answer = rust::scores(&model, &line);
        assert!(matches!(answer, Err(Stopped::Inexpressible(_))), "{name}: {answer:?}");
    }
    let variant = Input { variant: 3, ..Input::default() };
    assert_eq!(variant.owed(Call::Passive), Some(Refusal { number: 7, place: 5 }));
    let answer = rust::train(&variant.model, &variant.data, &variant.settings(Call::Passive));
    assert!(matches!(answer, Err(Stopped::Inexpressible("variant"))), "{answer:?}");
}

/// Before its trainers the Rust has doors of its own: `train` refuses no instances, `append` an empty sequence. Models
/// and instances are handed to the trainers past these.
#[test]
fn the_rust_has_doors_of_its_own() {
    use crfs::attribute::Attribute;
    use crfs::train::trainer::{Arow, Trainer};
    let refused = |answer: std::io::Result<()>| answer.expect_err("it is refused").to_string();
    assert_eq!(refused(Trainer::<Arow>::new().train(Path::new("no file"))), "no training data");
    let nothing: [Vec<Attribute>; 0] = [];
    assert_eq!(refused(Trainer::<Arow>::new().append(&nothing, &[""; 0])), "empty sequences are not allowed");
}

/// Beside what is refused lies what is not.
#[test]
fn what_both_accept() {
    let both = |input: &Input, call| (input.on_the_rust(call), input.owed(call));
    let sound = Input::default;
    // "Epsilon of −0 is zero."
    assert_eq!(both(&Input { epsilon: -0.0, ..sound() }, Call::Arow), (Did::GoesOn, None));
    // the covariance of the row in which it overflows
    let case = |found: &[Found]| {
        let all = differences::groups().into_iter().flat_map(|group| group.cases);
        all.into_iter().find(|case| case.found == found).expect("a case").input()
    };
    let arow = case(&[Found::Covariance]);
    assert_eq!(both(&Input { variance: 2f64.powi(1023), ..arow }, Call::Arow), (Did::GoesOn, None));
    // what lies past F is nobody's
    assert_eq!(judge::set_weights(2, &[1.0, 2.0, f64::NAN], &[]), Ok(vec![1.0, 2.0]));
    assert_eq!(rust::set_weights(2, &[1.0, 2.0]), Ok(vec![1.0, 2.0]));
}

/// "The definitions of `Instance`, `Feature` and the rest" are in the text, with the fields of their uses.
#[test]
fn the_definitions_are_in_the_text() {
    use crfs::dataset::{Attribute, Instance};
    use crfs::train::feature_gen::{Feature, FeatureRefs, FeatureType};
    let attribute = Attribute { id: 3, value: 0.5 };
    let instance = Instance { num_items: 1, items: vec![vec![attribute]], labels: vec![0], weight: 1.0 };
    assert_eq!(instance.items[0][0].id, 3);
    let feature = Feature { ftype: FeatureType::Transition, src: 0, dst: 1, weight: 0.0 };
    assert_eq!((feature.ftype as u8, FeatureType::State as u8), (TRANSITION, STATE));
    assert_eq!(FeatureRefs { fids: vec![1] }.fids, [1]);
}
