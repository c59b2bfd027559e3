//! Macros of the standard names that the text calls. Each does what its namesake does, where that matters to the
//! text, and tells `eyes` what passes by.

/// The text prints only under `verbose`. Nothing is printed here: epochs and losses go to `eyes`.
macro_rules! println {
    // This line stands inside a method of `Trainer`, so its private names are in reach: the impl goes here.
    ("Generating features...") => {
        impl<A: TrainingAlgorithm> $crate::open::Open for Trainer<A> {
            fn fill(&mut self, instances: Vec<Instance>, labels: Dictionary) {
                self.instances = instances;
                self.labels = labels;
            }

            fn counts(&self, line: &Instance, labels: &[u32], features: &FeatureGenerator) -> Vec<f64> {
                self.extract_features(line, labels, features)
            }

            fn shuffle(order: &mut [usize], generator: &mut StdRng) {
                shuffle_indices(order, generator);
            }
        }
    };
    ("Epoch {}: loss = {:.6} (avg per instance)", $epoch:expr, $loss:expr) => {
        $crate::eyes::epoch_ended($epoch, $loss)
    };
    ("Epoch {}: loss = {:.6}, feature_norm = {:.6}", $epoch:expr, $loss:expr, $norm:expr) => {{
        let _: f64 = $norm;
        $crate::eyes::epoch_ended($epoch, $loss)
    }};
    ($($text:tt)*) => {{
        let _ = ::std::format_args!($($text)*);
    }};
}

macro_rules! vec {
    // The first line of `viterbi_decode`: the scores are finished.
    (vec![f64::NEG_INFINITY; $context:ident.num_labels]; $words:ident) => {{
        $crate::eyes::decoding(&$context.state_scores, &$context.trans_scores, $words);
        ::std::vec![::std::vec![f64::NEG_INFINITY; $context.num_labels]; $words]
    }};
    // The first line of `extract_features`.
    (0.0; $features:ident.num_features()) => {{
        $crate::eyes::counting();
        ::std::vec![0.0; $features.num_features()]
    }};
    // Tables of a trainer, among them its weights and what it keeps beside them.
    ($value:expr; $length:ident) => {
        $crate::eyes::made(::std::stringify!($length), ::std::vec![$value; $length])
    };
    ($($other:tt)*) => {
        ::std::vec![$($other)*]
    };
}

macro_rules! assert_eq {
    // The first line of `set_weights`: a visit begins, or training ends.
    ($weights:ident.len(), $($rest:tt)*) => {{
        ::std::assert_eq!($weights.len(), $($rest)*);
        $crate::eyes::weights_set($weights)
    }};
}
