//! The whole answer that a call owes: the refusal that document 01 names, or else what the Rust gives, with what the
//! port adds to it. A case in which the Rust gives nothing and no refusal is due is a panic of the oracle.

use crate::reference;
use crate::refusals::{self, Lent, Refusal};
use crate::rust::{self, Stopped};
use crate::tables::{Data, Line, Model, Scores, Settings, Trained};
use crate::trace;

use crfs::eyes::Detail;

/// A decoded line.
#[derive(Debug, Clone, PartialEq)]
pub struct Decoded {
    pub path: Vec<u32>,
    pub sum: f64,
    pub lead: Option<f64>,
}

/// The scores of a line, front by front without what lies past it.
pub fn scores(model: &Model, line: &Line, lent: &[Lent]) -> Result<Scores, Refusal> {
    refusals::line(model, line, lent)?;
    let scores = owed(rust::scores(model, line));
    refusals::finished_scores(&scores)?;
    Ok(scores)
}

/// Decoding given tables.
pub fn decode(scores: &Scores, lent: &[Lent]) -> Result<Decoded, Refusal> {
    refusals::decode(scores, lent)?;
    Ok(decoded(scores))
}

/// Scoring a line and decoding it.
pub fn decode_line(model: &Model, line: &Line, lent: &[Lent]) -> Result<Decoded, Refusal> {
    let scores = scores(model, line, lent)?;
    let decoded = decoded(&scores);
    assert_eq!(decoded.path, owed(rust::decode_line(model, line)), "one path by either way");
    Ok(decoded)
}

/// Scoring a path, given as the first labels of a table.
pub fn path_score(scores: &Scores, path: &[u32], length: u32, lent: &[Lent]) -> Result<f64, Refusal> {
    refusals::path_score(scores, path, length, lent)?;
    Ok(owed(rust::path_score(scores, &path[..length as usize])))
}

/// Counting the features of a line under labels.
pub fn counts(model: &Model, line: &Line, labels: &[u32], lent: &[Lent]) -> Result<Vec<f64>, Refusal> {
    refusals::counting(model, line, labels, lent)?;
    let counts = owed(rust::counts(model, line, &labels[..line.words as usize]));
    refusals::finished_counts(&counts)?;
    Ok(counts)
}

/// The weights that so many features have after `set_weights`.
pub fn set_weights(features: u32, weights: &[f64], lent: &[Lent]) -> Result<Vec<f64>, Refusal> {
    refusals::set_weights(features, weights, lent)?;
    Ok(owed(rust::set_weights(features, &weights[..features as usize])))
}

/// Training.
pub fn train(model: &Model, data: &Data, settings: &Settings, lent: &[Lent]) -> Result<Trained, Refusal> {
    refusals::training(model, data, settings, lent)?;
    let (end, seen) = rust::watched(model, data, settings, Detail::Totals);
    match (end, seen) {
        (Ok(trained), Some(seen)) if seen.finite => Ok(trained),
        // a visit was left at which something was not finite: look at each
        _ => {
            let trace = owed(trace::train(model, data, settings));
            Err(trace.refusal().expect("what is not finite is due a refusal"))
        }
    }
}

/// The line that the program `decode` prints for the bytes of a sheet.
pub fn sheet_line(bytes: &[u8]) -> String {
    let answer = refusals::sheet(bytes, |_, _| Vec::new()).map(|scores| decoded(&scores));
    match answer {
        Ok(Decoded { path, sum, .. }) => {
            let labels: Vec<String> = path.iter().map(u32::to_string).collect();
            format!("PATH {:016X} {}\n", sum.to_bits(), labels.join(","))
        }
        Err(Refusal { number, place }) => format!("REFUSED {number} {place}\n"),
    }
}

/// The Rust's path, with its sum and lead by the reference. All entries are finite.
fn decoded(scores: &Scores) -> Decoded {
    let path = owed(rust::decode(scores));
    let sum = reference::sum(scores, &path);
    let lead = reference::lead(scores);
    Decoded { path, sum, lead }
}

fn owed<T>(answer: Result<T, Stopped>) -> T {
    answer.unwrap_or_else(|stopped| panic!("no refusal is due, and the Rust has no answer: {stopped:?}"))
}
