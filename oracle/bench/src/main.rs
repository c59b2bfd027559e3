//! Times of the proved calls beside the Rust text. The answers are compared first. A time of a call on one line is the
//! median over batches of cases in several passes: batches are short, so that few of them are interrupted.

mod decoding;
mod flat;
mod scoring;
mod texts;
mod times;
mod training;

/// Each table, or those that are named.
fn main() {
    let named: Vec<String> = std::env::args().skip(1).collect();
    let tables: [(&str, fn()); 4] = [
        ("decoding", decoding::print),
        ("scoring", scoring::print),
        ("training", training::print),
        ("texts", texts::print),
    ];
    for (name, print) in tables {
        if named.is_empty() || named.iter().any(|given| given == name) {
            print();
        }
    }
}
