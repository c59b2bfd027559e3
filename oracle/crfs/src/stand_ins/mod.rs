//! Modules that the text names and that are not in docs/src: only what it uses of them.

pub mod attribute;
pub mod dictionary;
pub mod model_writer;
