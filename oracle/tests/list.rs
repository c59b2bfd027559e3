//! The fixed list: what it is made of, and that it is the same at every run.

use oracle::cases::Mix;
use oracle::list::{self, Case};
use oracle::refusals;

fn of(operation: u64) -> Vec<Case> {
    list::cases().into_iter().filter(|case| case.operation == operation).collect()
}

#[test]
fn one_line_and_128_bytes_a_case() {
    let cases = list::cases();
    assert!((300..1000).contains(&cases.len()), "some hundreds");
    assert_eq!(list::bytes(&cases).len(), 128 * cases.len());
    assert_eq!(list::text(&cases).lines().count(), cases.len());
    assert!(list::text(&cases).ends_with('\n'));
    assert_eq!(list::cases(), cases, "the same at every run");
    let first = list::bytes(&cases[..1]);
    assert_eq!(first[..8], list::FINITE.to_le_bytes());
    assert_eq!(first[8..16], cases[0].numbers[0].to_le_bytes());
}

#[test]
fn numbers_stay_in_their_ranges() {
    for Case { operation, numbers: [p1, p2, p3], table } in list::cases() {
        let entries = |word: &u64| *word <= u64::from(u32::MAX);
        match operation {
            list::FINITE => {}
            list::MIN => assert!(f64::from_bits(p1).is_finite() && f64::from_bits(p1) > 0.0),
            list::ROOT => assert!(p1 <= 128),
            list::DRAW => assert!((1..=1000).contains(&p2)),
            list::ORDER => assert!((1..=12).contains(&p2) && (1..=5).contains(&p3)),
            list::STARTS => assert!(p1 <= 11 && p2 <= 0xFFFF_FFFF && table.iter().all(entries)),
            list::KINDS => assert!(p1 <= 12 && table.iter().all(|word| *word <= 255)),
            list::IDS => assert!(p1 <= 12 && p2 <= 0xFFFF_FFFF && table.iter().all(entries)),
            list::SOURCES => assert!(p1 <= 12 && table.iter().all(|word| word % 256 <= 1 && entries(&(word >> 8)))),
            list::NUMBERS => assert!(p1 <= 12),
            other => panic!("operation {other}"),
        }
    }
}

#[test]
fn finite_and_min_at_every_corner() {
    let mut mix = Mix::new("finite").require("finite", 40.0).require("not finite", 5.0).require("subnormal", 5.0);
    for case in of(list::FINITE) {
        let x = f64::from_bits(case.numbers[0]);
        mix.case();
        mix.count("finite", case.answer() == "finite 1\n");
        mix.count("not finite", case.answer() == "finite 0\n");
        mix.count("subnormal", x.is_subnormal());
    }
    let has = |bits: u64| of(list::FINITE).iter().any(|case| case.numbers[0] == bits);
    for x in [0.0, -0.0, 5e-324, f64::MIN_POSITIVE, f64::MAX, f64::MIN, f64::INFINITY, f64::NEG_INFINITY, f64::NAN] {
        assert!(has(x.to_bits()), "{x}");
    }
    mix.finish();

    let mut mix =
        Mix::new("min").require("c", 30.0).require("x", 30.0).require("x is NaN", 10.0).require("x is −0", 5.0);
    for case in of(list::MIN) {
        let [c, x] = [case.numbers[0], case.numbers[1]].map(f64::from_bits);
        let answer = u64::from_str_radix(case.answer().trim_start_matches("min ").trim(), 16).expect("hex");
        mix.case();
        mix.count("c", answer == c.to_bits());
        mix.count("x", answer == x.to_bits());
        mix.count("x is NaN", x.is_nan());
        mix.count("x is −0", x.to_bits() == (-0.0f64).to_bits());
        assert_eq!(answer, if x.is_nan() || c < x { c } else { x }.to_bits());
    }
    mix.finish();
}

/// All 129, and each the nearest: the squares of the halfway points on either side lie around the number.
#[test]
fn roots() {
    let cases = of(list::ROOT);
    let numbers: Vec<u64> = cases.iter().map(|case| case.numbers[0]).collect();
    assert_eq!(numbers, (0..=128).collect::<Vec<_>>());
    for (n, case) in cases.iter().enumerate() {
        let bits = u64::from_str_radix(case.answer().trim_start_matches("root ").trim(), 16).expect("hex");
        if n == 0 {
            assert_eq!(bits, 0);
            continue;
        }
        // root = m · 2^(e − 52), so the halfway points are (2m ± 1) · 2^(e − 53)
        let (m, e) = ((bits & ((1 << 52) - 1)) | (1 << 52), (bits >> 52) as u32 - 1023);
        let square = |half: u64| u128::from(half) * u128::from(half);
        let exact = (n as u128) << (106 - 2 * e);
        assert!(square(2 * m - 1) < exact && exact < square(2 * m + 1), "{n}");
    }
}

#[test]
fn draws_and_orders() {
    let answer = |seed: u64, k: u64| {
        of(list::DRAW).into_iter().find(|case| case.numbers == [seed, k, 0]).map(|case| case.answer())
    };
    assert_eq!(answer(0, 1).as_deref(), Some("draw E220A8397B1DCDAF\n"));
    assert_eq!(answer(0, 5).as_deref(), Some("draw 1B39896A51A8749B\n"));
    assert_eq!(answer(1_234_567, 1).as_deref(), Some(&*format!("draw {:016X}\n", 6_457_827_717_110_365_317_u64)));

    let orders = of(list::ORDER);
    assert!(orders.len() >= 60);
    let mut mix =
        Mix::new("orders").require("N 1", 5.0).require("more than one epoch", 60.0).require("order changes", 70.0);
    for case in orders {
        let [seed, n, epochs] = case.numbers;
        let line = case.answer();
        let fields: Vec<&str> = line.split_whitespace().collect();
        let order: Vec<u64> = fields[1..=n as usize].iter().map(|i| i.parse().expect("a place")).collect();
        let mut sorted = order.clone();
        sorted.sort_unstable();
        assert!(sorted.iter().copied().eq(0..n), "a permutation");
        let state = seed.wrapping_add(0x9E37_79B9_7F4A_7C15_u64.wrapping_mul((n - 1) * epochs));
        assert_eq!(fields[n as usize + 1..], ["state", &format!("{state:016X}")]);
        mix.case();
        mix.count("N 1", n == 1);
        mix.count("more than one epoch", epochs > 1);
        mix.count("order changes", order != sorted);
    }
    mix.finish();
}

#[test]
fn checks_are_mixed() {
    for (operation, name) in [
        (list::STARTS, "starts"),
        (list::KINDS, "kinds"),
        (list::IDS, "ids"),
        (list::SOURCES, "sources"),
        (list::NUMBERS, "numbers"),
    ] {
        let cases = of(operation);
        assert!(cases.len() >= 40);
        let mut mix = Mix::new(name)
            .require("accepted", 25.0)
            .require("refused at the first place", 8.0)
            .require("refused between", 8.0)
            .require("refused at the last place", 4.0)
            .require("a fault past the count", if operation == list::STARTS { 0.0 } else { 10.0 })
            .require("no entry or one", 2.0);
        for case in cases {
            let n = case.numbers[0] as u32;
            let last = if operation == list::STARTS { n } else { n.saturating_sub(1) };
            let whole = Case { numbers: [12, case.numbers[1], 0], ..case };
            let past = operation != list::STARTS && case.place().is_none() && whole.place().is_some();
            mix.case();
            mix.count("accepted", case.place().is_none());
            mix.count("refused at the first place", case.place() == Some(0));
            mix.count("refused between", case.place().is_some_and(|place| place > 0 && place < last));
            mix.count("refused at the last place", last > 0 && case.place() == Some(last));
            mix.count("a fault past the count", past);
            mix.count("no entry or one", n < 2);
            assert!(case.answer() == "accepted\n" || case.answer().starts_with("refused "));
        }
        mix.finish();
    }
    // a start above the count is not bad by itself
    let starts = of(list::STARTS);
    let above = |case: &&Case| {
        let n = case.numbers[0] as usize;
        case.table[..n].iter().any(|start| *start > case.numbers[1])
    };
    assert!(starts.iter().filter(above).count() >= 5);
    assert_eq!(refusals::starts(&[0, 9, 9], 2, 3), Some(2));
}
