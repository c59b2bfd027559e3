//! Training texts: the library's whole public calls beside a plain reader and writer in Rust (`oracle::training_text::plain`),
//! which test the same of a text, and nothing of tables. Lent tables and the vectors of the plain reader are there before, and
//! used again. The answers are compared first. A time is never part of a test.

use std::hint::black_box;
use std::time::Instant;

use compare::text::{Lent, read_text, write_text};
use oracle::cases::Rng;
use oracle::training_text::writer::Given;
use oracle::training_text::{Tables, cases, plain};

use crate::times::median;

const LABELS: [&str; 5] = ["date", "hour", "zone mark", "plate current", "remark"];
/// Of a word, and words of a sequence.
const ATTRIBUTES: u32 = 8;
const WORDS: u32 = 20;
/// Bytes that a row goes through, about, in all its passes.
const BYTES: usize = 60_000_000;

pub fn print() {
    println!("training texts, nanoseconds a byte, medians; ratio: plain Rust over library");
    let plain_names = |count: u32| (0..count).map(|name| format!("n{name:05}").into_bytes()).collect::<Vec<_>>();
    for (bytes, names) in
        [(100_000, 10_000), (1_000_000, 10_000), (10_000_000, 10_000), (1_000_000, 100), (1_000_000, 60_000)]
    {
        row(&format!("{names:6} names"), &text(&plain_names(names), bytes));
    }
    // their searches begin in the same sixteen slots
    let colliding = cases::names_at(&mut Rng::new(0xC011), 0..16, 10_000);
    row(" 10000 names that collide", &text(&colliding, 100_000));
}

/// So many bytes or a line more. Each name comes once, in a drawn order, then any; a third have a scale.
fn text(names: &[Vec<u8>], bytes: usize) -> Vec<u8> {
    let mut rng = Rng::new(names.len() as u64);
    let mut order: Vec<usize> = (0..names.len()).collect();
    for i in (1..order.len()).rev() {
        order.swap(i, rng.below(i as u32 + 1) as usize);
    }
    let mut first = order.into_iter();
    let (mut text, mut words) = (Vec::with_capacity(bytes + 200), 0);
    while text.len() < bytes || first.len() > 0 {
        text.extend_from_slice(rng.pick(&LABELS).as_bytes());
        for _ in 0..ATTRIBUTES {
            text.push(b'\t');
            let name = first.next().unwrap_or_else(|| rng.below(names.len() as u32) as usize);
            text.extend_from_slice(&names[name]);
            if rng.below(3) == 0 {
                text.extend_from_slice(format!(":{}", f64::from(rng.below(1_000)) / 100.0).as_bytes());
            }
        }
        text.push(b'\n');
        words += 1;
        if words % WORDS == 0 {
            text.push(b'\n');
        }
    }
    text
}

/// The tables as they are lent.
fn lend(tables: &mut Tables) -> Lent<'_> {
    Lent {
        line_starts: &mut tables.line_starts,
        word_starts: &mut tables.word_starts,
        ids: &mut tables.ids,
        values: &mut tables.values,
        references: &mut tables.references,
        instance_weights: &mut tables.instance_weights,
        label_name_starts: &mut tables.label_name_starts,
        label_names: &mut tables.label_names,
        attribute_name_starts: &mut tables.attribute_name_starts,
        attribute_names: &mut tables.attribute_names,
        scale_starts: &mut tables.scale_starts,
        scales: &mut tables.scales,
    }
}

fn row(what: &str, text: &[u8]) {
    let mut plainly = Tables::empty();
    let sizes = plain::read(text, &mut plainly).expect("a sound text");
    let mut tables = plainly.clone();
    tables.values.fill(0.0);
    tables.ids.fill(u32::MAX);
    assert_eq!(read_text(text, lend(&mut tables)), Ok(sizes));
    assert!(tables.same(&plainly));

    let mut plain_text = Vec::new();
    plain::write(&plainly, &mut plain_text);
    let given = Given::of(plainly.clone(), plain_text.len());
    let mut written = vec![0; plain_text.len()];
    assert_eq!(write_text(&given, &mut written), Ok(plain_text.len() as u64));
    assert!(written == plain_text);

    let passes = (BYTES / text.len()).clamp(5, 101);
    let mut times: [Vec<f64>; 4] = Default::default();
    for _ in 0..passes {
        times[0].push(nanoseconds(text, || read_text(black_box(text), lend(&mut tables)).is_ok()));
        times[1].push(nanoseconds(text, || plain::read(black_box(text), &mut plainly).is_ok()));
        times[2].push(nanoseconds(text, || write_text(black_box(&given), &mut written).is_ok()));
        times[3].push(nanoseconds(text, || {
            plain::write(black_box(&given.tables), &mut plain_text);
            !plain_text.is_empty()
        }));
    }
    let [read, plain_read, write, plain_write] = times.map(median);
    println!(
        "{:5.1} MB, {what}: read {read:6.2}, plain Rust {plain_read:6.2}, ratio {:.2}; \
         written {write:6.2}, plain Rust {plain_write:6.2}, ratio {:.2}",
        text.len() as f64 / 1e6,
        plain_read / read,
        plain_write / write,
    );
}

/// Of a byte of the text.
fn nanoseconds(text: &[u8], call: impl FnOnce() -> bool) -> f64 {
    let start = Instant::now();
    assert!(call());
    start.elapsed().as_nanos() as f64 / text.len() as f64
}
