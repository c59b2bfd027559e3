//! What the runs share: lent memory under watch, and damaged copies held against the plain checker.

// each run uses a part of it
#![allow(dead_code)]

use std::collections::{BTreeMap, BTreeSet};
use std::fmt::Debug;

use compare::Refusal;
use oracle::cases::damage::{self, Fault};
use oracle::cases::{Mix, Rng};
use oracle::refusals::{self, Lent};
use oracle::tables::{Line, Model};

/// Damaged copies of each call.
const DAMAGED: u64 = 12_000;
/// Entries before and behind what is lent.
const MARGIN: usize = 5;
/// No damaged call is lent more: what needs more is refused in any case.
const LONGEST: usize = 1 << 13;

/// ROUNDS in the environment makes the random runs so many times as long.
pub fn rounds() -> u64 {
    std::env::var("ROUNDS").map_or(1, |rounds| rounds.parse().expect("ROUNDS is a number"))
}

pub fn refusal(refusal: refusals::Refusal) -> Refusal {
    (refusal.number, refusal.place.into())
}

/// Buffers of these lengths, where so much is needed.
pub fn lent(rooms: &[usize], needed: &[usize]) -> Vec<Lent> {
    rooms.iter().zip(needed).map(|(length, needed)| Lent { length: *length, needed: *needed }).collect()
}

/// As long as needed or longer.
pub fn rooms(rng: &mut Rng, needed: &[usize]) -> Vec<usize> {
    let room = |needed: &usize| needed + if rng.chance(30) { 0 } else { rng.between(1, 9) as usize };
    needed.iter().map(room).collect()
}

// ---- lent memory

pub trait Entry: Copy + Debug {
    fn drawn(rng: &mut Rng) -> Self;
    fn bits(self) -> u64;
}

impl Entry for u32 {
    fn drawn(rng: &mut Rng) -> Self {
        rng.draw() as u32
    }

    fn bits(self) -> u64 {
        self.into()
    }
}

impl Entry for u8 {
    fn drawn(rng: &mut Rng) -> Self {
        rng.draw() as u8
    }

    fn bits(self) -> u64 {
        self.into()
    }
}

impl Entry for f64 {
    /// Any bits at all; each fourth is a NaN of any sign and payload, quiet or signalling.
    fn drawn(rng: &mut Rng) -> Self {
        const EXPONENT: u64 = 0x7FF << 52;
        let bits = rng.draw();
        // the payload of a signalling NaN is not 0, or it were an infinity
        f64::from_bits(if rng.chance(25) { bits | EXPONENT | 1 } else { bits })
    }

    fn bits(self) -> u64 {
        self.to_bits()
    }
}

/// A buffer full of junk, NaNs among it, between margins that are not lent. All of it is compared by its bits: the proofs know
/// one NaN only, and cannot tell one from another.
pub struct Buffer<T> {
    before: Vec<T>,
    memory: Vec<T>,
}

impl<T: Entry> Buffer<T> {
    pub fn new(rng: &mut Rng, length: usize) -> Self {
        let before: Vec<T> = (0..length + 2 * MARGIN).map(|_| T::drawn(rng)).collect();
        Self { memory: before.clone(), before }
    }

    pub fn lend(&mut self) -> &mut [T] {
        let end = self.memory.len() - MARGIN;
        &mut self.memory[MARGIN..end]
    }

    /// The needed front of a result after a call that answered so. "After 1 to 7 and 10 every lent buffer holds its
    /// entry contents. After 8 and 9 the needed front of every result and work buffer is zero." Nothing else is touched.
    pub fn result(&self, needed: usize, answer: Option<Refusal>) -> &[T] {
        let written = answer.is_none_or(|(number, _)| matches!(number, 8 | 9));
        let front = MARGIN..MARGIN + if written { needed } else { 0 };
        let same = |x: &[T], y: &[T]| x.iter().map(|x| x.bits()).eq(y.iter().map(|y| y.bits()));
        assert!(same(&self.memory[..front.start], &self.before[..front.start]), "before the buffer");
        assert!(same(&self.memory[front.end..], &self.before[front.end..]), "behind what {answer:?} writes");
        let front = &self.memory[front];
        assert!(answer.is_none() || front.iter().all(|x| x.bits() == 0), "zero after {answer:?}");
        front
    }
}

/// The bits of a model's tables and of a line's, to see that they are only read.
pub fn bits_of_line(model: &Model, line: &Line) -> Vec<u64> {
    let ids = [&line.starts, &line.ids].into_iter().flatten().map(|id| id.bits());
    bits_of_model(model).into_iter().chain(ids).chain(line.values.iter().map(|x| x.bits())).collect()
}

pub fn bits_of_model(model: &Model) -> Vec<u64> {
    let ids = [
        &model.destinations,
        &model.sources,
        &model.attribute_starts,
        &model.attribute_entries,
        &model.label_starts,
        &model.label_entries,
    ];
    let kinds = model.kinds.iter().map(|kind| u64::from(*kind));
    kinds.chain(ids.into_iter().flatten().map(|id| id.bits())).chain(model.weights.iter().map(|x| x.bits())).collect()
}

// ---- refusals

/// A call that lends buffers: how it is made, how long they have to be, what it answers, and what is owed.
pub struct Call<C> {
    pub name: &'static str,
    /// Each number is met so often among the damaged copies.
    pub often: u64,
    pub make: fn(&mut Rng) -> C,
    pub needed: fn(&C) -> Vec<usize>,
    pub run: fn(&C, &[usize], &mut Rng) -> Option<Refusal>,
    pub owed: fn(&C, &[usize]) -> Option<Refusal>,
}

/// Damaged copies: each is refused as the plain checker says. Every fault is tried, that of a short buffer among them,
/// and every number is met often.
pub fn refused_as_owed<C: Clone + Debug + 'static>(call: Call<C>, faults: &[Fault<C>], numbers: &[u32]) {
    const SHORT: &str = "a lent buffer short";
    let name = call.name;
    let mut mix = Mix::new(name)
        .require("two faults", 45.0)
        .require("two numbers", 20.0)
        .require("two of one number", 5.0)
        .require("place above 0", 8.0);
    let (mut used, mut met) = (BTreeSet::new(), BTreeMap::<u32, u64>::new());
    let mut lends = false;
    for number in 0..DAMAGED {
        let mut rng = Rng::of_case(0xDA3A, number);
        let sound = (call.make)(&mut rng);
        let enough = rooms(&mut rng, &(call.needed)(&sound));
        lends |= !enough.is_empty();
        let accepted = (call.run)(&sound, &enough, &mut rng);
        assert_eq!(accepted, (call.owed)(&sound, &enough), "{name}, case {number}: {sound:?}");
        assert!(accepted.is_none_or(|(number, _)| matches!(number, 8 | 9)), "{name}, case {number}: {accepted:?}");

        // one fault or two; a short buffer is one
        let many = 1 + (number % 2) as usize;
        let short = lends && rng.chance(10);
        let (damaged, applied) = damage::damaged(&mut rng, faults, &sound, many - usize::from(short));
        let mut broken: Vec<(&str, u32)> = applied.iter().map(|fault| (fault.name, fault.number)).collect();
        let needed: Vec<usize> = (call.needed)(&damaged).into_iter().map(|needed| needed.min(LONGEST)).collect();
        let mut rooms = rooms(&mut rng, &needed);
        if short && needed.iter().any(|needed| *needed > 0) {
            let buffers: Vec<usize> = (0..needed.len()).filter(|i| needed[*i] > 0).collect();
            let buffer = rng.pick(&buffers);
            rooms[buffer] = rng.pick(&[0, needed[buffer] - 1]);
            broken.push((SHORT, 2));
        }
        if broken.is_empty() {
            continue;
        }
        let refused = (call.run)(&damaged, &rooms, &mut rng);
        assert_eq!(refused, (call.owed)(&damaged, &rooms), "{name}, case {number}: {broken:?}, {rooms:?}: {damaged:?}");
        let (first, place) = refused.expect("a damaged call is refused");
        used.extend(broken.iter().map(|fault| fault.0));
        *met.entry(first).or_default() += 1;
        let two = |same: bool| broken.len() == 2 && (broken[0].1 == broken[1].1) == same;
        mix.case();
        mix.count("two faults", broken.len() == 2);
        mix.count("two numbers", two(false));
        mix.count("two of one number", two(true));
        mix.count("place above 0", place > 0);
    }
    println!("{name}: refused under each number: {met:?}");
    let all = faults.iter().map(|fault| fault.name).chain(lends.then_some(SHORT));
    assert_eq!(used, all.collect(), "every fault is tried");
    assert!(met.keys().eq(numbers) && met.values().all(|times| *times >= call.often), "{met:?}");
    mix.finish();
}
