//! Decoding: the library's whole public call (its tests, sum and lead included), `viterbi_decode` of the Rust
//! text, and Rust over flat tables, plain and tuned. All decode the same random tables in turn, many of them, so that no
//! branch can be learnt by heart; the answers are compared first.

use std::hint::black_box;

use compare::Refusal;
use compare::decode::{Decoded, viterbi_decode};
use oracle::cases::Rng;
use oracle::refusals::WORDS;
use oracle::rust::Context;
use oracle::tables::Scores;

use crate::flat;
use crate::times::{median, pass};

const SHAPES: [(u32, u32); 4] = [(2, 5), (5, 20), (10, 50), (32, 128)];
/// Candidate sums that the tables of one row ask for, about.
const CANDIDATES: u32 = 2_000_000;
const PASSES: usize = 31;

struct Case {
    scores: Scores,
    context: Context,
}

type Decode = fn(u32, u32, &[f64], &[f64], &mut [u32]) -> Result<Decoded, Refusal>;

pub fn print() {
    println!("decoding, nanoseconds a call, medians over {PASSES} passes; ratio: Rust over library");
    for (labels, words) in SHAPES {
        let count = (CANDIDATES / (labels * labels * words)).clamp(64, 8_192);
        let mut rng = Rng::new(u64::from(labels));
        let cases: Vec<Case> = (0..count).map(|_| case(&mut rng, labels, words)).collect();
        cases.iter().for_each(compare_answers);
        println!("{}", row(&cases, labels, words));
    }
}

/// Numbers between −4 and 4, of full precision.
fn case(rng: &mut Rng, labels: u32, words: u32) -> Case {
    let mut numbers = |count: u32| (0..count).map(|_| (rng.draw() >> 11) as f64 / (1u64 << 50) as f64 - 4.0).collect();
    let scores = Scores { labels, words, states: numbers(words * labels), transitions: numbers(labels * labels) };
    let context = Context::of(&scores).expect("the tables are whole");
    Case { scores, context }
}

/// All give the same, to the bit, and those that test their tables find the same fault.
fn compare_answers(case: &Case) {
    let bits = |answer: Result<Decoded, Refusal>| answer.map(|d| (d.sum.to_bits(), d.lead.map(f64::to_bits)));
    let mut damaged = case.scores.clone();
    *damaged.states.last_mut().expect("a state") = f64::NAN;
    let (library, path) = run(viterbi_decode, &case.scores);
    assert!(library.is_ok(), "{library:?}");
    assert_eq!(path, case.context.decode());
    for flat in [flat::plain, flat::tuned] {
        let (answer, flat_path) = run(flat, &case.scores);
        assert_eq!((bits(answer), &flat_path), (bits(library), &path));
        assert_eq!(run(flat, &damaged), run(viterbi_decode, &damaged));
    }
}

fn run(decode: Decode, scores: &Scores) -> (Result<Decoded, Refusal>, Vec<u32>) {
    let mut path = vec![0; scores.words as usize];
    let answer = decode(scores.labels, scores.words, &scores.transitions, &scores.states, &mut path);
    (answer, path)
}

fn row(cases: &[Case], labels: u32, words: u32) -> String {
    let mut path = [0; WORDS as usize];
    let mut call = |decode: Decode, Scores { labels, words, states, transitions }: &Scores| {
        black_box(decode(*labels, *words, black_box(transitions), black_box(states), &mut path)).is_ok()
    };
    // the first pass only warms up
    pass(cases, |case| call(viterbi_decode, &case.scores));
    let mut times: [Vec<f64>; 4] = Default::default();
    for _ in 0..PASSES {
        times[0].extend(pass(cases, |case| call(viterbi_decode, &case.scores)));
        times[1].extend(pass(cases, |case| black_box(black_box(&case.context).decode()).len() == words as usize));
        times[2].extend(pass(cases, |case| call(flat::plain, &case.scores)));
        times[3].extend(pass(cases, |case| call(flat::tuned, &case.scores)));
    }
    let [library, rust, plain, tuned] = times.map(median);
    format!(
        "L {labels:2} T {words:3} ({:4} tables): library {library:6.0}, Rust {rust:6.0}, flat {plain:6.0}, \
         tuned flat {tuned:6.0}; flat over library {:.2}, tuned flat over library {:.2}, ratio {:.2}",
        cases.len(),
        plain / library,
        tuned / library,
        rust / library
    )
}
