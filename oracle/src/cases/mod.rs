//! Seeded cases: corners on purpose, damaged copies, and shares that are counted and required.

pub mod calls;
pub mod damage;
pub mod make;
pub mod mix;
pub mod rng;

pub use damage::Fault;
pub use make::{Palette, Size};
pub use mix::Mix;
pub use rng::Rng;
