//! The shuffle against the Rust text's own `shuffle_indices` over the oracle's stand-in for `rand`.

use compare::shuffle::{draw, shuffle};
use oracle::cases::{Mix, Rng};

const CASES: u64 = 2_000;

#[test]
fn shuffles_as_the_oracle_does() {
    let mut mix = Mix::new("shuffles")
        .require("N = 1", 2.0)
        .require("N = 2", 2.0)
        .require("N above 1,000", 5.0)
        .require("N = 16,384", 0.5)
        .require("several epochs", 40.0);
    for number in 0..CASES {
        let mut rng = Rng::of_case(0x51F7, number);
        let n = match rng.below(100) {
            0..4 => 1,
            4..8 => 2,
            8..16 => rng.between(1_001, 16_383) as usize,
            16 => 16_384,
            _ => rng.between(3, 300) as usize,
        };
        let epochs = rng.between(1, 3) as usize;
        let seed = if rng.chance(10) { u64::MAX - u64::from(rng.below(3)) } else { rng.draw() };
        mix.case();
        mix.count("N = 1", n == 1);
        mix.count("N = 2", n == 2);
        mix.count("N above 1,000", n > 1_000);
        mix.count("N = 16,384", n == 16_384);
        mix.count("several epochs", epochs > 1);

        let (mut state, mut order) = (seed, (0..n as u32).collect::<Vec<_>>());
        for (epoch, (expected, after)) in oracle::rust::orders(seed, n, epochs).into_iter().enumerate() {
            assert_eq!(shuffle(&mut state, &mut order), Ok(()));
            let same = order.iter().map(|&i| i as usize).eq(expected);
            assert!(same, "case {number}, seed {seed}, N {n}, epoch {epoch}");
            assert_eq!(state, after, "case {number}: the generator's state");
        }
    }
    mix.finish();
}

#[test]
fn refuses_what_is_outside_its_bound() {
    for n in [0usize, 16_385, 20_000] {
        let (mut state, mut order) = (7, (0..n as u32).collect::<Vec<_>>());
        let before = order.clone();
        assert_eq!(shuffle(&mut state, &mut order), Err((2, 0)), "N {n}");
        assert_eq!((state, order), (7, before), "N {n}: as at entry");
    }
}

#[test]
fn draws_as_the_oracle_does() {
    for seed in [0, 1, 1_234_567, u64::MAX] {
        let mut state = seed;
        let drawn: Vec<u64> = (0..1_000).map(|_| draw(&mut state)).collect();
        assert_eq!(drawn, oracle::rust::draws(seed, 1_000), "seed {seed}");
    }
}
