//! What is private in the text's `trainer.rs`, opened. The impl stands in `shadows`, from where it is expanded
//! inside that file.

use rand::rngs::StdRng;

use crate::dataset::Instance;
use crate::train::dictionary::Dictionary;
use crate::train::feature_gen::FeatureGenerator;

pub trait Open {
    /// Puts instances and labels into a trainer without the text's own reading of names.
    fn fill(&mut self, instances: Vec<Instance>, labels: Dictionary);

    /// `extract_features`.
    fn counts(&self, line: &Instance, labels: &[u32], features: &FeatureGenerator) -> Vec<f64>;

    /// `shuffle_indices`.
    fn shuffle(order: &mut [usize], generator: &mut StdRng);
}
