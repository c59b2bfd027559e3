//! The proved calls, safe to use from Rust: what include/bodkinbloom.h declares, over slices.
//!
//! None of the calls demands anything but valid memory that does not overlap, which a Rust slice always is.

use std::ptr;

pub mod calls;
pub mod decode;
pub mod scoring;
pub mod shuffle;
pub mod text;
pub mod training;

/// A refusal's number and place.
pub type Refusal = (u32, u64);

/// The answer that a refusal stands for; where there is none, its place has to be 0.
fn unless_refused(answer: calls::Refused) -> Result<(), Refusal> {
    let calls::Refused { number, place } = answer;
    assert!(number > 0 || place == 0, "{answer:?}");
    if number == 0 { Ok(()) } else { Err((number, place)) }
}

/// Where a table lies; one without entries is handed over as NULL.
fn pointer<T>(table: &[T]) -> *const T {
    if table.is_empty() { ptr::null() } else { table.as_ptr() }
}

/// The same of a buffer.
fn pointer_mut<T>(buffer: &mut [T]) -> *mut T {
    if buffer.is_empty() { ptr::null_mut() } else { buffer.as_mut_ptr() }
}
