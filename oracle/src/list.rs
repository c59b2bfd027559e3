//! The fixed list of answers that the repository replays without Rust at hand.
//!
//! A case is 16 words of 64 bits: the operation, three numbers, and twelve words of a table. Its answer is a line of
//! text. The numbers, draws and orders are the Rust's; the answers of the table checks are those of `refusals`.

use std::fmt::Write as _;

use crate::cases::Rng;
use crate::cases::make::{CORNERS, NOT_FINITE, Palette, number};
use crate::refusals;
use crate::rust;

pub const WORDS: usize = 16;
pub const TABLE: usize = 12;

pub const FINITE: u64 = 1;
pub const MIN: u64 = 2;
pub const ROOT: u64 = 3;
pub const DRAW: u64 = 4;
pub const ORDER: u64 = 5;
pub const STARTS: u64 = 6;
pub const KINDS: u64 = 7;
pub const IDS: u64 = 8;
pub const SOURCES: u64 = 9;
pub const NUMBERS: u64 = 10;

#[derive(Debug, Clone, Copy, PartialEq, Eq)]
pub struct Case {
    pub operation: u64,
    pub numbers: [u64; 3],
    pub table: [u64; TABLE],
}

/// All cases, the same at every run.
pub fn cases() -> Vec<Case> {
    let mut rng = Rng::new(0x0B0D_1B10);
    let mut all = Vec::new();
    all.extend(floats().into_iter().map(|x| plain(FINITE, [x.to_bits(), 0, 0])));
    for c in BOUNDS {
        all.extend(near(c).into_iter().map(|x| plain(MIN, [c.to_bits(), x.to_bits(), 0])));
    }
    all.extend((0..=128).map(|n| plain(ROOT, [n, 0, 0])));
    for seed in SEEDS {
        all.extend(DRAWS.map(|k| plain(DRAW, [seed, k, 0])));
    }
    for n in 1..=TABLE as u64 {
        all.extend((1..=6).map(|e| plain(ORDER, [seed_of(&mut rng, e), n, 1 + e % 5])));
    }
    for operation in STARTS..=NUMBERS {
        all.extend((0..48).map(|_| check(&mut rng, operation)));
    }
    all
}

/// The bytes of the cases.
pub fn bytes(cases: &[Case]) -> Vec<u8> {
    cases.iter().flat_map(|case| case.words()).flat_map(u64::to_le_bytes).collect()
}

/// The answers, a line each.
pub fn text(cases: &[Case]) -> String {
    cases.iter().map(Case::answer).collect()
}

impl Case {
    pub fn words(&self) -> [u64; WORDS] {
        let mut words = [0; WORDS];
        words[0] = self.operation;
        words[1..4].copy_from_slice(&self.numbers);
        words[4..].copy_from_slice(&self.table);
        words
    }

    pub fn answer(&self) -> String {
        let [p1, p2, p3] = self.numbers;
        match self.operation {
            FINITE => format!("finite {}\n", u8::from(f64::from_bits(p1).is_finite())),
            MIN => hex("min", f64::from_bits(p2).min(f64::from_bits(p1)).to_bits()),
            ROOT => hex("root", (p1 as f64).sqrt().to_bits()),
            DRAW => hex("draw", *rust::draws(p1, p2 as usize).last().expect("at least one draw")),
            ORDER => order(p1, p2 as usize, p3 as usize),
            _ => self
                .place()
                .map_or_else(|| "accepted\n".to_string(), |place| format!("refused {} {place}\n", self.number())),
        }
    }

    /// The number that a check refuses under.
    fn number(&self) -> u32 {
        match self.operation {
            STARTS => 3,
            NUMBERS => 6,
            _ => 5,
        }
    }

    /// The place of the first fault that a check finds.
    pub fn place(&self) -> Option<u32> {
        let [p1, p2, _] = self.numbers.map(|number| number as u32);
        let whole: Vec<u32> = self.table.iter().map(|word| *word as u32).collect();
        let bytes: Vec<u8> = self.table.iter().map(|word| *word as u8).collect();
        match self.operation {
            STARTS => refusals::starts(&whole, p1, p2),
            KINDS => refusals::kinds(&bytes, p1),
            IDS => refusals::ids(&whole, p1, p2),
            SOURCES => {
                let sources: Vec<u32> = self.table.iter().map(|word| (word >> 8) as u32).collect();
                refusals::sources(&bytes, &sources, p1, p2)
            }
            NUMBERS => refusals::not_finite(&self.table.map(f64::from_bits), p1),
            other => panic!("operation {other} is no check"),
        }
    }
}

fn hex(name: &str, bits: u64) -> String {
    format!("{name} {bits:016X}\n")
}

/// The order after some epochs and the generator's state.
fn order(seed: u64, n: usize, epochs: usize) -> String {
    let (order, state) = rust::orders(seed, n, epochs).pop().expect("at least one epoch");
    let mut line = "order".to_string();
    for i in order {
        write!(line, " {i}").expect("a string takes all");
    }
    line + &format!(" state {state:016X}\n")
}

// ---- the cases

const SEEDS: [u64; 6] = [0, 1, 1_234_567, 0x9E37_79B9_7F4A_7C15, u64::MAX, 0x0123_4567_89AB_CDEF];
const DRAWS: [u64; 8] = [1, 2, 3, 4, 5, 17, 128, 1000];
const BOUNDS: [f64; 6] = [5e-324, f64::MIN_POSITIVE, 0.1, 1.0, 1e300, f64::MAX];

fn plain(operation: u64, numbers: [u64; 3]) -> Case {
    Case { operation, numbers, table: [0; TABLE] }
}

/// Each corner with its neighbours, the infinities, and NaNs of both signs, quiet and signalling.
fn floats() -> Vec<f64> {
    let mut all = Vec::new();
    for x in CORNERS {
        all.extend([x.next_down(), x, x.next_up()]);
    }
    all.extend(NOT_FINITE);
    all.extend([0x7FF0_0000_0000_0001, 0xFFF0_0000_0000_0001, 0x7FFF_FFFF_FFFF_FFFF, u64::MAX].map(f64::from_bits));
    all
}

/// Numbers to take the smaller of c and them: around c, the corners, what is not finite.
fn near(c: f64) -> Vec<f64> {
    let mut all = vec![c, c.next_down(), c.next_up(), -c, c / 2.0, c * 2.0];
    all.extend([0.0, -0.0, 5e-324, -5e-324, 1.0, f64::MAX, f64::MIN]);
    all.extend(NOT_FINITE);
    all.extend([0xFFF8_0000_0000_0000, 0x7FF0_0000_0000_0001].map(f64::from_bits));
    all
}

fn seed_of(rng: &mut Rng, e: u64) -> u64 {
    if e == 1 { rng.pick(&SEEDS) } else { rng.draw() }
}

/// A check: sound, or with its first fault at the first place, the last, or one between; more faults may follow.
fn check(rng: &mut Rng, operation: u64) -> Case {
    let most = if operation == STARTS { TABLE as u32 - 1 } else { TABLE as u32 };
    let n = if rng.chance(10) { rng.pick(&[0, 1]) } else { rng.between(2, most) };
    let bound = rng.pick(&[1, 2, 32, 65_535]);
    let mut case = Case { operation, numbers: [u64::from(n), u64::from(bound), 0], table: [0; TABLE] };
    match operation {
        STARTS => rising(rng, &mut case, n),
        _ => {
            for i in 0..TABLE {
                // what lies past the count would be refused, and is not looked at
                let bad = i >= n as usize && rng.chance(50);
                case.table[i] = entry(rng, operation, bound, bad);
            }
        }
    }
    let places = if operation == STARTS { n + 1 } else { n };
    if places == 0 || rng.chance(40) {
        return case;
    }
    let from = rng.below(places);
    let from = rng.pick(&[0, places - 1, from, places / 2]);
    for i in from..places {
        if i == from || rng.chance(20) {
            case.table[i as usize] = match operation {
                STARTS => u64::from(bad_start(rng, &case, i, n)),
                _ => entry(rng, operation, bound, true),
            };
        }
    }
    case
}

/// Starts that keep the rules.
fn rising(rng: &mut Rng, case: &mut Case, n: u32) {
    let mut start = 0;
    for i in 1..=n as usize {
        start += rng.pick(&[0, 0, 1, 2, 5, 1000]);
        case.table[i] = start;
    }
    case.numbers[1] = start;
    for word in &mut case.table[n as usize + 1..] {
        *word = u64::from(rng.below(9));
    }
}

/// A start that breaks a rule at i: above 0 at first, below the one before, not the count at last. Where nothing is
/// below the one before, one that the next falls behind.
fn bad_start(rng: &mut Rng, case: &Case, i: u32, n: u32) -> u32 {
    let before = i.checked_sub(1).map(|j| case.table[j as usize] as u32);
    match before {
        None => rng.pick(&[1, u32::MAX]),
        Some(before) if before > 0 && rng.chance(70) => rng.below(before),
        Some(before) if i == n => rng.pick(&[before.wrapping_add(1), u32::MAX]),
        Some(_) => u32::MAX,
    }
}

fn entry(rng: &mut Rng, operation: u64, bound: u32, bad: bool) -> u64 {
    match operation {
        KINDS if bad => rng.pick(&[2, 3, 127, 128, 254, 255]),
        KINDS => u64::from(rng.below(2)),
        IDS if bad => u64::from(rng.pick(&[bound, bound + 1, u32::MAX])),
        IDS => {
            let any = rng.below(bound);
            u64::from(rng.pick(&[0, bound - 1, any]))
        }
        SOURCES if bad => 1 + 256 * u64::from(rng.pick(&[bound, bound + 1, u32::MAX])),
        SOURCES => match rng.below(2) {
            // a State feature's source may be anything
            0 => 256 * u64::from(rng.pick(&[0, bound, u32::MAX])),
            _ => 1 + 256 * u64::from(rng.below(bound)),
        },
        NUMBERS if bad => rng.pick(&NOT_FINITE).to_bits(),
        _ => number(rng, Palette::Mixed).to_bits(),
    }
}
