//! The judge of the port.
//!
//! - `tables`: what the calls take: flat tables, their counts beside them.
//! - `rust`: the Rust text of docs/src, unchanged, called on those tables; its panics are caught and named.
//! - `trace`: what a trainer did at each visit, and where 8 and 9 are due.
//! - `refusals`: a plain reading of the table of refusals, 1 to 7 and 10, and of 8 outside training.
//! - `reference`: what the port adds to the Rust, read from document 01 alone: sum, lead, demand 3.
//! - `judge`: the whole answer that a call owes, put together from those.
//! - `cases`: seeded cases with corners on purpose, damaged copies, and shares that are counted and required.
//! - `desk`: the desk cases P1 to P14.
//! - `differences`: where the Rust and document 01 part, each case with its smallest input.
//! - `list`: the fixed list of answers that the repository replays without Rust at hand.
//! - `sheets`: the fixed sheet files, good and damaged, and the samples.
//! - `log_sheet`: what the C example has to print.
//! - `training_text`: the training text of document 02, read and written a second time; cases, and the fixed texts.

pub mod cases;
pub mod desk;
pub mod differences;
pub mod judge;
pub mod list;
pub mod log_sheet;
pub mod panics;
pub mod reference;
pub mod refusals;
pub mod rust;
pub mod sha256;
pub mod sheets;
pub mod tables;
pub mod trace;
pub mod training_text;
