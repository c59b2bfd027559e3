//! Panics of the Rust text, caught and named.

use std::cell::RefCell;
use std::panic::{self, AssertUnwindSafe, PanicHookInfo};
use std::sync::Once;

/// What a panic of the text means.
#[derive(Debug, Clone, Copy, PartialEq, Eq)]
pub enum Cause {
    /// An index or a range outside its table.
    OutOfBounds,
    /// `partial_cmp(..).unwrap()` on a NaN: the text has no other unwrap.
    NotComparable,
    /// `assert_eq!` in `set_weights`.
    LengthsDiffer,
    /// A whole number left its range.
    Overflow,
    Other,
}

#[derive(Debug, Clone, PartialEq, Eq)]
pub struct Panic {
    pub cause: Cause,
    pub message: String,
    /// File of the text, without its folder, and line.
    pub place: String,
}

thread_local! {
    static CAUGHT: RefCell<Caught> = const { RefCell::new(Caught { listening: false, last: None }) };
}

struct Caught {
    listening: bool,
    last: Option<Panic>,
}

/// Runs f; a panic inside comes back named, and nothing is printed.
pub fn caught<R>(f: impl FnOnce() -> R) -> Result<R, Panic> {
    listen();
    let before = CAUGHT.with(|caught| std::mem::replace(&mut caught.borrow_mut().listening, true));
    let answer = panic::catch_unwind(AssertUnwindSafe(f));
    CAUGHT.with(|caught| {
        let mut caught = caught.borrow_mut();
        caught.listening = before;
        answer.map_err(|_| caught.last.take().expect("the hook has seen the panic"))
    })
}

/// The hook is one for the process; threads that do not listen keep the one that was there.
fn listen() {
    static ONCE: Once = Once::new();
    ONCE.call_once(|| {
        let before = panic::take_hook();
        panic::set_hook(Box::new(move |info| {
            let heard = CAUGHT.with(|caught| {
                let mut caught = caught.borrow_mut();
                if caught.listening {
                    caught.last = Some(named(info));
                }
                caught.listening
            });
            if !heard {
                before(info);
            }
        }));
    });
}

fn named(info: &PanicHookInfo<'_>) -> Panic {
    let message = info.payload_as_str().unwrap_or("").to_string();
    let place = info.location().map_or(String::new(), |at| {
        let file = at.file().rsplit(['/', '\\']).next().unwrap_or("");
        format!("{file}:{}", at.line())
    });
    Panic { cause: cause(&message), message, place }
}

fn cause(message: &str) -> Cause {
    if message.contains("out of bounds") || message.contains("out of range") {
        Cause::OutOfBounds
    } else if message.contains("`Option::unwrap()` on a `None`") {
        Cause::NotComparable
    } else if message.contains("must equal number of features") {
        Cause::LengthsDiffer
    } else if message.starts_with("attempt to") {
        Cause::Overflow
    } else {
        Cause::Other
    }
}
