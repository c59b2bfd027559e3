//! A draw, and the shuffle of an order.

use crate::{Refusal, calls, unless_refused};

pub fn draw(state: &mut u64) -> u64 {
    unsafe { calls::bodkinbloom_draw(state) }
}

pub fn shuffle(state: &mut u64, order: &mut [u32]) -> Result<(), Refusal> {
    unless_refused(unsafe { calls::bodkinbloom_shuffle(state, order.as_mut_ptr(), order.len()) })
}
