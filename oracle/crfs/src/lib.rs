//! The Rust text of docs/src, compiled unchanged: what is missing from it stands in `stand_ins`, and what it does
//! not return is seen through `eyes`.
//!
//! Two ways lead to what the text keeps private, neither of which touches it:
//! - a module that includes a file of the text has a child of ours beside it (`crf_context::probe`);
//! - the macros that the text calls are those of `shadows`, defined before it.

// Parts of the text are out of the port's scope and have no caller here.
#![allow(dead_code)]
// `shadows` opens the trainer from inside one of its functions.
#![allow(non_local_definitions)]

#[macro_use]
mod shadows;
mod stand_ins;

pub mod eyes;
pub mod open;

pub use stand_ins::attribute;

// The formatter follows modules into their files: it is kept away from the text.
#[rustfmt::skip]
#[path = "../../../docs/src/src/dataset.rs"]
pub mod dataset;

#[rustfmt::skip]
#[path = "../../../docs/src/src/train"]
pub mod train {
    pub use crate::stand_ins::{dictionary, model_writer};

    pub mod feature_gen;

    pub mod crf_context {
        include!("../../../docs/src/src/train/crf_context.rs");

        /// A child of the text's module, so that the private tables of its context are in reach.
        pub mod probe {
            use super::ScoreContext;

            /// A context whose tables are given instead of computed.
            pub fn context(
                num_labels: usize,
                state_scores: Vec<Vec<f64>>,
                trans_scores: Vec<Vec<f64>>,
            ) -> ScoreContext {
                ScoreContext {
                    num_labels,
                    state_scores,
                    trans_scores,
                }
            }

            pub fn state_scores(context: &ScoreContext) -> &[Vec<f64>] {
                &context.state_scores
            }

            pub fn trans_scores(context: &ScoreContext) -> &[Vec<f64>] {
                &context.trans_scores
            }
        }
    }

    pub mod trainer;
}
