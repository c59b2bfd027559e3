use std::io;
use std::path::Path;

use super::dictionary::Dictionary;
use crate::train::feature_gen::FeatureGenerator;

/// The model file is left out of the port: nothing is written.
pub struct ModelWriter;

impl ModelWriter {
    pub fn write(_: &Path, _: &FeatureGenerator, _: &Dictionary, _: &Dictionary) -> io::Result<()> {
        Err(io::Error::other("the model file is not part of the oracle"))
    }
}
