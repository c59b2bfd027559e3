//! Where the Rust goes on, panics or answers with a number that is not finite, and document 01 refuses; each case as data.
//!
//! A case is a change of the smallest sound input, with the calls that are given it, what the Rust does in each, and what
//! the library owes. docs/DIFFERENCES.md shows the cases as tables; tests run each on the Rust, on the judge and on the
//! library.

mod input;
mod scoring;
mod training;

pub use input::Input;

use crate::panics::Cause;
use crate::refusals::Refusal;

use Call::{Arow, Check, Counts, Decode, Labels, Passive, PathScore, Perceptron, Scores, SetWeights, Shuffle};

/// A call of the library.
#[derive(Debug, Clone, Copy, PartialEq, Eq, PartialOrd, Ord)]
pub enum Call {
    Decode,
    PathScore,
    Check,
    Scores,
    Labels,
    Counts,
    SetWeights,
    Shuffle,
    Perceptron,
    Passive,
    Arow,
}

/// What the Rust does.
#[derive(Debug, Clone, Copy, PartialEq, Eq)]
pub enum Did {
    /// It answers, and every number of the answer is finite.
    GoesOn,
    /// It answers, with an infinity and no NaN.
    Infinite,
    /// It answers, with a NaN.
    NaN,
    Panics(Cause),
    SetterRefuses,
    /// The check of a model is the port's own.
    NoSuchCall,
}

/// A table of a visit that is not finite.
#[derive(Debug, Clone, Copy, PartialEq, Eq)]
pub enum Found {
    States,
    Transitions,
    TrueCounts,
    PredictedCounts,
    Weights,
    RunningSums,
    Covariance,
    Loss,
}

/// One row of docs/DIFFERENCES.md.
pub struct Case {
    pub name: &'static str,
    /// What is other than in the smallest sound input, in words.
    pub words: &'static str,
    pub runs: Vec<(Call, Did)>,
    /// None where the library accepts.
    pub owed: Option<Refusal>,
    /// Of 8 and 9 in training: every table that they are found in.
    pub found: &'static [Found],
    change: fn(&mut Input),
}

/// The cases of calls that take the same tables.
pub struct Group {
    pub title: &'static str,
    pub calls: &'static [Call],
    pub cases: Vec<Case>,
}

/// All of them, in the order of the page.
pub fn groups() -> Vec<Group> {
    let of = |title, calls, cases: Lists| {
        let cases = cases.iter().flat_map(|cases| cases()).collect();
        Group { title, calls, cases }
    };
    vec![
        of("Score tables: decode and path score", &[Decode, PathScore], scoring::TABLES),
        of(
            "A model: each call that takes one",
            &[Check, Scores, Labels, Counts, Perceptron, Passive, Arow],
            scoring::MODELS,
        ),
        of("A line: scores, labels and counts", &[Scores, Labels, Counts], scoring::LINES),
        of("New weights: `set_weights`", &[SetWeights], scoring::WEIGHTS),
        of("An order: shuffle", &[Shuffle], training::ORDERS),
        of("Instances: the three trainers", &TRAINERS, training::INSTANCES),
        of("Parameters: the three trainers", &TRAINERS, training::PARAMETERS),
        of("Training that leaves the finite numbers", &TRAINERS, training::NOT_FINITE),
    ]
}

/// The cases of a group, as the lists that make it up.
type Lists = &'static [fn() -> Vec<Case>];

const TRAINERS: [Call; 3] = [Perceptron, Passive, Arow];
const INDEX: Did = Did::Panics(Cause::OutOfBounds);
const COMPARED: Did = Did::Panics(Cause::NotComparable);
const LENGTHS: Did = Did::Panics(Cause::LengthsDiffer);

/// Runs by calls that do the same.
type Runs<'a> = &'a [(&'a [Call], Did)];

fn case(name: &'static str, words: &'static str, owed: (u32, u32), runs: Runs, change: fn(&mut Input)) -> Case {
    let runs = runs.iter().flat_map(|(calls, did)| calls.iter().map(|call| (*call, *did))).collect();
    let owed = Some(Refusal { number: owed.0, place: owed.1 });
    Case { name, words, runs, owed, found: &[], change }
}

impl Case {
    pub fn input(&self) -> Input {
        let mut input = Input::default();
        (self.change)(&mut input);
        input
    }

    fn accepted(self) -> Self {
        Self { owed: None, ..self }
    }

    fn found(self, found: &'static [Found]) -> Self {
        Self { found, ..self }
    }
}

// ---- the page

impl Group {
    /// The row of a case in docs/DIFFERENCES.md.
    pub fn row(&self, case: &Case) -> String {
        let owed = case.owed.map_or("accepts".into(), |owed| format!("{}, place {}", owed.number, owed.place));
        format!("| {} | {} | {owed} | {} |", case.name, self.rust(case), case.words)
    }

    /// Where all calls of the group do the same, none is named.
    fn rust(&self, case: &Case) -> String {
        let mut parts: Vec<(Did, Vec<Call>)> = Vec::new();
        for (call, did) in case.runs.iter().filter(|(call, _)| *call != Check) {
            match parts.iter_mut().find(|part| part.0 == *did) {
                Some(part) => part.1.push(*call),
                None => parts.push((*did, vec![*call])),
            }
        }
        let all: Vec<Call> = self.calls.iter().copied().filter(|call| *call != Check).collect();
        if let [(did, calls)] = &parts[..]
            && *calls == all
        {
            return words(*did).into();
        }
        let parts: Vec<String> =
            parts.iter().map(|(did, calls)| format!("{}: {}", names(calls), words(*did))).collect();
        parts.join("; ")
    }
}

/// The three trainers together have one name.
fn names(calls: &[Call]) -> String {
    let names = |calls: &[Call]| calls.iter().map(|call| name(*call)).collect::<Vec<_>>().join(", ");
    names(calls).replace(&names(&TRAINERS), "trainers")
}

fn name(call: Call) -> &'static str {
    match call {
        Decode => "decode",
        PathScore => "path score",
        Check => "check",
        Scores => "scores",
        Labels => "labels",
        Counts => "counts",
        SetWeights => "`set_weights`",
        Shuffle => "shuffle",
        Perceptron => "perceptron",
        Passive => "passive-aggressive",
        Arow => "AROW",
    }
}

fn words(did: Did) -> &'static str {
    match did {
        Did::GoesOn => "goes on",
        Did::Infinite => "answers an infinity",
        Did::NaN => "answers a NaN",
        Did::Panics(Cause::OutOfBounds) => "panics, index out of bounds",
        Did::Panics(Cause::NotComparable) => "panics, a NaN compared",
        Did::Panics(Cause::LengthsDiffer) => "panics, lengths differ",
        Did::Panics(Cause::Overflow) => "panics, a whole number overflows",
        Did::Panics(Cause::Other) => "panics",
        Did::SetterRefuses => "its setter refuses",
        Did::NoSuchCall => "has no such call",
    }
}
