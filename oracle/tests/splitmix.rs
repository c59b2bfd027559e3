//! The numbers of splitmix64.c, and the shuffle that document 01 writes.

use oracle::cases::Rng;
use oracle::rust;
use rand::seq::chosen;

#[test]
fn the_numbers_of_splitmix64_c() {
    let zero = [
        0xE220_A839_7B1D_CDAF,
        0x6E78_9E6A_A1B9_65F4,
        0x06C4_5D18_8009_454F,
        0xF88B_B8A8_724C_81EC,
        0x1B39_896A_51A8_749B,
    ];
    let other = [
        6_457_827_717_110_365_317,
        3_203_168_211_198_807_973,
        9_817_491_932_198_370_423,
        4_593_380_528_125_082_431,
        16_408_922_859_458_223_821,
    ];
    for (seed, numbers) in [(0, zero), (1_234_567, other)] {
        assert_eq!(rust::draws(seed, 5), numbers);
        let mut rng = Rng::new(seed);
        assert_eq!(numbers.map(|_| rng.draw()), numbers, "the cases draw by a copy of their own");
    }
}

/// "For i from N−1 down to 1, swap i with draw mod (i+1)", through `shuffle_indices`, by hand.
#[test]
fn the_shuffle_by_hand() {
    for seed in 0..200 {
        for n in 1..=12 {
            let mut draws = rust::draws(seed, 5 * (n - 1)).into_iter();
            let mut order: Vec<usize> = (0..n).collect();
            for (epoch, (seen, state)) in rust::orders(seed, n, 5).into_iter().enumerate() {
                for i in (1..n).rev() {
                    let drawn = draws.next().expect("as many draws as swaps");
                    order.swap(i, (drawn % (i as u64 + 1)) as usize);
                }
                assert_eq!(seen, order, "the order of the epoch before is kept");
                let drawn = ((n - 1) * (epoch + 1)) as u64;
                let advanced = 0x9E37_79B9_7F4A_7C15_u64.wrapping_mul(drawn);
                assert_eq!(state, seed.wrapping_add(advanced), "with one instance nothing is drawn");
            }
        }
    }
}

#[test]
fn the_draw_rule() {
    assert_eq!(chosen(0, 0), 0);
    assert_eq!(chosen(17, 4), 2);
    assert_eq!(chosen(u64::MAX, 1), 1);
    assert_eq!(chosen(u64::MAX, 2), 0);
    for i in 0..100 {
        assert!(chosen(0x0123_4567_89AB_CDEF, i) <= i);
    }
}
