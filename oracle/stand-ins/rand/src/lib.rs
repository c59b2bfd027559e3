//! Stand-in for `rand`: the generator and the shuffle that document 01 names, and nothing else.
//!
//! The Rust text asks for `StdRng` and `SliceRandom::shuffle`. Document 01 puts SplitMix64 with a required seed in
//! the place of the first and its own shuffle in the place of the second.

pub mod rngs {
    /// SplitMix64, as in the public-domain splitmix64.c. "The state starts at the seed."
    #[derive(Debug, Clone, PartialEq, Eq)]
    pub struct StdRng {
        state: u64,
    }

    impl StdRng {
        pub(crate) fn starting_at(state: u64) -> Self {
            Self { state }
        }

        /// The state as it stands, for tests that compare it.
        pub fn state(&self) -> u64 {
            self.state
        }

        /// One draw: the state advances, and the number is mixed from it.
        pub fn draw(&mut self) -> u64 {
            self.state = self.state.wrapping_add(0x9E37_79B9_7F4A_7C15);
            let mut z = self.state;
            z = (z ^ (z >> 30)).wrapping_mul(0xBF58_476D_1CE4_E5B9);
            z = (z ^ (z >> 27)).wrapping_mul(0x94D0_49BB_1331_11EB);
            z ^ (z >> 31)
        }
    }
}

pub mod seq {
    use crate::rngs::StdRng;

    /// The draw rule: which of the places 0 to i a drawn number names.
    pub fn chosen(number: u64, i: usize) -> usize {
        (number % (i as u64 + 1)) as usize
    }

    pub trait SliceRandom {
        fn shuffle(&mut self, rng: &mut StdRng);
    }

    impl<T> SliceRandom for [T] {
        /// "For i from N−1 down to 1, swap i with draw mod (i+1)."
        fn shuffle(&mut self, rng: &mut StdRng) {
            for i in (1..self.len()).rev() {
                self.swap(i, chosen(rng.draw(), i));
            }
        }
    }
}

/// Thread randomness, which the port does not have: the seed is required, so nothing comes here.
pub struct ThreadRng(());

pub fn rng() -> ThreadRng {
    unreachable!("a seed is always given")
}

pub trait SeedableRng: Sized {
    fn seed_from_u64(seed: u64) -> Self;
    fn from_rng(rng: &mut ThreadRng) -> Self;
}

impl SeedableRng for rngs::StdRng {
    fn seed_from_u64(seed: u64) -> Self {
        Self::starting_at(seed)
    }

    fn from_rng(_: &mut ThreadRng) -> Self {
        unreachable!("a seed is always given")
    }
}
