//! What a trainer does and does not return: its weights, running sums or covariance at each visit, the scores it
//! decodes, its updates, epochs and losses. The text's macros report here; without a watch they report nothing.

use std::any::Any;
use std::cell::RefCell;

/// How much a watch keeps.
#[derive(Debug, Clone, Copy, PartialEq, Eq)]
pub enum Detail {
    /// Counters only.
    Totals,
    /// Counters, and a copy of every table at every visit.
    Everything,
}

/// The weights of a trainer and the table beside them: running sums, or the covariance of AROW.
#[derive(Debug, Clone, PartialEq, Default)]
pub struct Tables {
    pub weights: Vec<f64>,
    pub beside: Vec<f64>,
}

#[derive(Debug, Clone, PartialEq)]
pub enum Event {
    /// `set_weights`: a visit begins, or training ends.
    Set(Tables),
    /// `viterbi_decode`, with the rows of states and transitions that it reads.
    Decoding(Vec<Vec<f64>>, Vec<Vec<f64>>),
    /// `extract_features`.
    Counting,
    /// The line printed at the end of an epoch: its number and its loss, with the tables as they stand there.
    Epoch(usize, f64, Tables),
}

/// What was seen.
#[derive(Debug, Clone, PartialEq)]
pub struct Seen {
    pub set: u64,
    pub decoded: u64,
    pub counted: u64,
    pub epochs: u64,
    /// Every weight, every entry beside, every score decoded and every loss printed was finite.
    pub finite: bool,
    pub events: Vec<Event>,
}

struct Watch {
    detail: Detail,
    tables: Vec<Lent>,
    seen: Seen,
}

/// A table that the text owns.
struct Lent {
    first: *const f64,
    length: usize,
}

impl Lent {
    fn entries(&self) -> &[f64] {
        // SAFETY: only the first two tables over the features are kept. They are locals of the trainer's function
        // that are never grown or moved out, the function is still running whenever the text reports something, and
        // none of the places that report stands inside a borrow of them for writing.
        unsafe { std::slice::from_raw_parts(self.first, self.length) }
    }
}

thread_local! {
    static WATCH: RefCell<Option<Watch>> = const { RefCell::new(None) };
}

/// Starts to watch this thread. To be called right before one of the three trainers, whose first two tables over the
/// features are its weights and what goes beside them.
pub fn start(detail: Detail) {
    let seen = Seen { set: 0, decoded: 0, counted: 0, epochs: 0, finite: true, events: Vec::new() };
    let watch = Watch { detail, tables: Vec::new(), seen };
    WATCH.with(|cell| *cell.borrow_mut() = Some(watch));
}

/// Ends the watch: to be called when the trainer has returned or panicked.
pub fn stop() -> Seen {
    let watch = WATCH.with(|cell| cell.borrow_mut().take());
    watch.expect("a watch was started").seen
}

fn with_watch(report: impl FnOnce(&mut Watch)) {
    WATCH.with(|cell| {
        if let Some(watch) = cell.borrow_mut().as_mut() {
            report(watch);
        }
    });
}

fn finite(table: &[f64]) -> bool {
    table.iter().all(|x| x.is_finite())
}

impl Watch {
    fn keep(&mut self, event: impl FnOnce(&Self) -> Event) {
        if self.detail == Detail::Everything {
            let event = event(self);
            self.seen.events.push(event);
        }
    }

    fn table(&self, i: usize) -> &[f64] {
        self.tables.get(i).map_or(&[], Lent::entries)
    }

    fn tables(&self) -> Tables {
        Tables { weights: self.table(0).to_vec(), beside: self.table(1).to_vec() }
    }

    fn look_at_tables(&mut self) {
        self.seen.finite &= finite(self.table(0)) && finite(self.table(1));
    }
}

pub(crate) fn made<T: 'static>(length: &str, table: Vec<T>) -> Vec<T> {
    with_watch(|watch| {
        if length != "num_features" || watch.tables.len() == 2 {
            return;
        }
        if let Some(numbers) = (&table as &dyn Any).downcast_ref::<Vec<f64>>() {
            watch.tables.push(Lent { first: numbers.as_ptr(), length: numbers.len() });
        }
    });
    table
}

pub(crate) fn weights_set(weights: &[f64]) {
    with_watch(|watch| {
        assert!(std::ptr::eq(weights, watch.table(0)), "a trainer sets its own weights");
        watch.seen.set += 1;
        watch.look_at_tables();
        watch.keep(|watch| Event::Set(watch.tables()));
    });
}

pub(crate) fn decoding(states: &[Vec<f64>], transitions: &[Vec<f64>], words: usize) {
    with_watch(|watch| {
        let states = &states[..words.min(states.len())];
        watch.seen.decoded += 1;
        watch.seen.finite &= states.iter().chain(transitions).all(|row| finite(row));
        watch.keep(|_| Event::Decoding(states.to_vec(), transitions.to_vec()));
    });
}

pub(crate) fn counting() {
    with_watch(|watch| {
        watch.seen.counted += 1;
        watch.keep(|_| Event::Counting);
    });
}

pub(crate) fn epoch_ended(number: usize, loss: f64) {
    with_watch(|watch| {
        watch.seen.epochs += 1;
        watch.seen.finite &= loss.is_finite();
        watch.look_at_tables();
        watch.keep(|watch| Event::Epoch(number, loss, watch.tables()));
    });
}
