//! Sheet files, good and damaged, the same at every run: those that the repository stores with the line that the program
//! owes for each, and the samples that a reader decodes. The lines are those of `judge::sheet_line`.

use crate::cases::make::{self, NOT_FINITE, PALETTES, Palette};
use crate::cases::{Rng, calls, damage};
use crate::desk;
use crate::judge;
use crate::refusals::HEAD;
use crate::tables::Scores;

/// A sheet, and the group that it belongs to.
#[derive(Debug, Clone, PartialEq, Eq)]
pub struct Sheet {
    pub group: &'static str,
    pub bytes: Vec<u8>,
}

pub const DESK: &str = "desk cases";
pub const HEADS: &str = "a byte of the head changed";
pub const LENGTHS: &str = "each length from 0 to 80";
pub const ENTRY_OFF: &str = "a byte or a number short or long";
pub const NOT_NUMBERS: &str = "not finite, at each place";
pub const ENDS: &str = "L and T at and past their ends";
pub const NOISE: &str = "noise";
pub const CORNERS: &str = "corners of decoding";
pub const DRAWN: &str = "drawn";
pub const LARGER: &str = "larger";
pub const DAMAGED: &str = "damaged";

/// The bytes of the longest sheet, 32 labels and 128 words.
pub const LONGEST: usize = HEAD + 8 * 32 * (32 + 128);

/// All sheets that are stored. P4 is the first.
pub fn all() -> Vec<Sheet> {
    let mut rng = Rng::new(0x0005_EE75);
    let groups = [
        (DESK, desk_cases()),
        (HEADS, heads()),
        (LENGTHS, lengths()),
        (ENTRY_OFF, entry_off(&mut rng)),
        (NOT_NUMBERS, not_numbers()),
        (ENDS, ends(&mut rng)),
        (NOISE, noise(&mut rng)),
        (CORNERS, corners()),
        (DRAWN, drawn(&mut rng)),
        (LARGER, larger(&mut rng)),
        (DAMAGED, damaged(&mut rng)),
    ];
    groups.into_iter().flat_map(|(group, sheets)| sheets.into_iter().map(move |bytes| Sheet { group, bytes })).collect()
}

/// The name of a stored sheet: three digits, consecutive from 000, and `.tlg`.
pub fn name(number: usize) -> String {
    assert!(number < 1_000, "three digits");
    format!("{number:03}.tlg")
}

/// What the program prints for the stored sheets, a line each.
pub fn text(sheets: &[Sheet]) -> String {
    sheets.iter().map(|sheet| judge::sheet_line(&sheet.bytes)).collect()
}

/// Sheets for a reader to decode, by their file names.
pub fn samples() -> Vec<(String, Vec<u8>)> {
    let p4 = make::sheet(&desk_scores("P4"));
    let changed = |place: usize, byte: u8| changed(&p4, place, byte);
    let entry = |place: usize, x: f64| with_entry(&p4, place, x.to_bits());
    let plain = |labels, words| {
        let mut rng = Rng::new(u64::from(labels * 1_000 + words));
        make::sheet(&make::scores(&mut rng, labels, words, Palette::Plain))
    };
    let ties = make::scores(&mut Rng::new(1), 5, 12, Palette::Whole);
    let named = [
        ("p4", p4.clone()),
        ("p3-minus-zero", make::sheet(&desk_scores("P3"))),
        ("p5-all-zero", make::sheet(&desk_scores("P5"))),
        ("p7-infinite-sum", make::sheet(&desk_scores("P7"))),
        ("ties-5-labels-12-words", make::sheet(&ties)),
        ("plain-5-labels-20-words", plain(5, 20)),
        ("plain-10-labels-50-words", plain(10, 50)),
        ("plain-32-labels-128-words", plain(32, 128)),
        ("damaged-empty", Vec::new()),
        ("damaged-mark", changed(0, b'X')),
        ("damaged-version-2", changed(3, 2)),
        ("damaged-cut-in-the-head", p4[..7].to_vec()),
        ("damaged-one-byte-short", p4[..71].to_vec()),
        ("damaged-one-byte-long", [&p4[..], &[0]].concat()),
        ("damaged-no-labels", changed(5, 0)),
        ("damaged-33-labels", changed(5, 33)),
        ("damaged-no-words", changed(6, 0)),
        ("damaged-129-words", changed(6, 129)),
        ("damaged-transition-3-nan", entry(3, f64::NAN)),
        ("damaged-state-1-infinite", entry(5, f64::INFINITY)),
    ];
    named.into_iter().map(|(name, bytes)| (format!("{name}.tlg"), bytes)).collect()
}

// ---- the groups

fn desk_scores(name: &str) -> Scores {
    desk::decodings().into_iter().find(|case| case.name == name).expect("a desk case").scores
}

fn desk_cases() -> Vec<Vec<u8>> {
    ["P4", "P1", "P2", "P3", "P5", "P6", "P7"].map(|name| make::sheet(&desk_scores(name))).to_vec()
}

/// Each byte of P4's head, changed to several others.
fn heads() -> Vec<Vec<u8>> {
    let p4 = make::sheet(&desk_scores("P4"));
    let mut all = Vec::new();
    for place in 0..HEAD {
        let old = p4[place];
        let mut others = vec![0, 1, 2, 3, 127, 255, old ^ 0x20, old ^ 0x80];
        others.sort_unstable();
        others.dedup();
        others.retain(|other| *other != old);
        all.extend(others.into_iter().map(|other| changed(&p4, place, other)));
    }
    // the mark in another order, version and T with their bytes swapped
    all.extend(["GLT\x01\0\x02\x02\0", "TLG\0\x01\x02\x02\0", "TLG\x01\0\x02\0\x02"].map(|head| {
        let mut bytes = p4.clone();
        bytes[..HEAD].copy_from_slice(head.as_bytes());
        bytes
    }));
    all
}

/// P4's 72 bytes and 8 more, cut everywhere.
fn lengths() -> Vec<Vec<u8>> {
    let mut bytes = make::sheet(&desk_scores("P4"));
    bytes.extend(1f64.to_le_bytes());
    (0..=bytes.len()).map(|length| bytes[..length].to_vec()).collect()
}

fn entry_off(rng: &mut Rng) -> Vec<Vec<u8>> {
    let mut all = Vec::new();
    for (labels, words) in [(1, 1), (1, 2), (2, 1), (3, 5), (5, 20), (1, 128), (32, 1), (10, 50)] {
        let bytes = make::sheet(&make::scores(rng, labels, words, Palette::Plain));
        all.extend([1, 8].map(|less| bytes[..bytes.len() - less].to_vec()));
        all.extend([1, 8].map(|more| [&bytes[..], &vec![0; more]].concat()));
    }
    all
}

/// NaNs and infinities at every place, numbers beside them that are still finite, and two at once.
fn not_numbers() -> Vec<Vec<u8>> {
    const BAD: [u64; 6] = [
        0x7FF0_0000_0000_0000,
        0xFFF0_0000_0000_0000,
        0x7FF8_0000_0000_0000,
        0xFFF8_0000_0000_0000,
        0x7FF0_0000_0000_0001,
        u64::MAX,
    ];
    let p4 = make::sheet(&desk_scores("P4"));
    let mut all = Vec::new();
    for place in 0..8 {
        all.extend(BAD.map(|bits| with_entry(&p4, place, bits)));
        all.extend([f64::MAX, f64::MIN].map(|x| with_entry(&p4, place, x.to_bits())));
        for later in place + 1..8 {
            let last = with_entry(&p4, later, BAD[later % 6]);
            all.push(with_entry(&last, place, BAD[(place + later) % 6]));
        }
    }
    let wide = make::sheet(&make::scores(&mut Rng::new(3), 3, 3, Palette::Whole));
    for place in 0..18 {
        all.extend(NOT_FINITE.map(|x| with_entry(&wide, place, x.to_bits())));
    }
    all
}

/// With no tables and with tables of the length that L and T ask for, where they are within their ends or next to them.
fn ends(rng: &mut Rng) -> Vec<Vec<u8>> {
    let mut all = Vec::new();
    for labels in [0, 1, 32, 33] {
        for words in [0, 1, 128, 129] {
            let whole = make::sheet(&make::scores(rng, labels, words, Palette::Whole));
            all.push(whole[..HEAD].to_vec());
            all.extend((whole.len() > HEAD).then_some(whole));
        }
    }
    for (labels, words) in [(31, 127), (64, 1), (128, 128), (255, 65_535), (1, 130), (1, 256), (2, 257), (32, 32_896)] {
        let [low, high] = u16::to_le_bytes(words);
        all.push(vec![b'T', b'L', b'G', 1, 0, labels, low, high]);
    }
    all
}

/// Any bytes: from the first on, behind a mark and version, and behind a whole head, up to 100 KB.
fn noise(rng: &mut Rng) -> Vec<Vec<u8>> {
    let mut any = |length: usize| (0..length).map(|_| rng.draw() as u8).collect::<Vec<u8>>();
    let mut behind = |head: &[u8], length: usize| [head, &any(length - head.len())].concat();
    let (mark, largest) = (b"TLG\x01\0", b"TLG\x01\0\x20\x80\0");
    vec![
        behind(b"", 1),
        behind(b"", 8),
        behind(b"", 72),
        behind(b"", 100_000),
        behind(mark, 8),
        behind(mark, 72),
        behind(mark, 1_000),
        behind(b"TLG\x01\0\x02\x02\0", 72),
        behind(b"TLG\x01\0\x02\x02\0", 100_000),
        behind(largest, LONGEST - 1),
        behind(largest, LONGEST),
        behind(largest, LONGEST + 1),
        behind(largest, 100_000),
    ]
}

/// Ties, signed zeros, subnormals, sums that overflow, small leads, a prefix that catches up by rounding.
fn corners() -> Vec<Vec<u8>> {
    const TINY: f64 = 5e-324;
    const TWO53: f64 = 9_007_199_254_740_992.0;
    let sheet = |labels: usize, transitions: &[f64], states: &[f64]| {
        assert_eq!((transitions.len(), states.len() % labels), (labels * labels, 0));
        make::sheet(&Scores {
            labels: labels as u32,
            words: (states.len() / labels) as u32,
            transitions: transitions.to_vec(),
            states: states.to_vec(),
        })
    };
    let zeros = |labels: usize, words: usize, zero: f64| {
        sheet(labels, &vec![zero; labels * labels], &vec![zero; labels * words])
    };
    let max = f64::MAX;
    let mut all = vec![
        // all equal
        zeros(1, 1, 0.0),
        zeros(1, 1, -0.0),
        zeros(4, 9, 0.0),
        zeros(4, 9, -0.0),
        zeros(32, 3, 0.0),
        // +0 and −0 tie; a sum of −0 needs every term −0
        sheet(2, &[0.0, -0.0, -0.0, 0.0], &[0.0, -0.0, -0.0, 0.0]),
        sheet(2, &[-0.0; 4], &[-0.0, 0.0, -0.0, -0.0]),
        sheet(3, &[-0.0; 9], &[-0.0, -0.0, 0.0, 0.0, -0.0, -0.0]),
        // a tie at the first word only, between, at the last only
        sheet(2, &[0.0; 4], &[1.0, 1.0, 5.0, 0.0, 7.0, 0.0]),
        sheet(2, &[0.0; 4], &[2.0, 1.0, 3.0, 3.0, 7.0, 0.0]),
        sheet(2, &[0.0; 4], &[2.0, 1.0, 9.0, 3.0, 7.0, 7.0]),
        // the first of three is as large as the last
        sheet(3, &[0.0; 9], &[4.0, 1.0, 4.0, 4.0, 1.0, 4.0]),
        // a lead of one unit, either way
        sheet(2, &[0.0; 4], &[1.0, 1.0 + f64::EPSILON]),
        sheet(2, &[0.0; 4], &[1.0 + f64::EPSILON, 1.0]),
        sheet(2, &[0.0; 4], &[TINY, 0.0]),
        sheet(2, &[0.0; 4], &[-TINY, -0.0]),
        // subnormals add exactly
        sheet(2, &[TINY, 0.0, 0.0, TINY], &[TINY, TINY, TINY, 0.0]),
        sheet(2, &[-TINY; 4], &[f64::MIN_POSITIVE, TINY, -TINY, -TINY]),
        // to +infinity, to −infinity, back no more; infinities tie
        sheet(1, &[max], &[max, -max]),
        sheet(1, &[-max], &[-max, max]),
        sheet(2, &[max; 4], &[max, max, 0.0, 0.0]),
        sheet(2, &[-max; 4], &[-max, -max, 0.0, 0.0, 1.0, 2.0]),
        sheet(2, &[0.0; 4], &[max, 0.0, max, 0.0]),
        sheet(2, &[0.0; 4], &[max, -max]),
        // half a unit above the largest finite is the first to overflow
        sheet(1, &[0.0], &[max, f64::from_bits(0x7C90_0000_0000_0000)]),
        sheet(1, &[0.0], &[max, f64::from_bits(0x7C8F_FFFF_FFFF_FFFF)]),
        // (best + transition) + state, not best + (transition + state)
        sheet(1, &[1.0], &[TWO53, -1.0]),
        sheet(2, &[1.0, 0.0, 0.0, 1.0], &[TWO53, TWO53, -1.0, 1.0]),
        // a prefix that is behind catches up when the sums round: the last of all best paths is another
        sheet(2, &[0.0; 4], &[1.0, 0.0, TWO53, TWO53]),
        sheet(2, &[0.0; 4], &[0.0, 1.0, TWO53, 2.0 * TWO53]),
    ];
    // lines of one label, which leave no choice
    all.extend([1, 2, 128].map(|words| {
        let states: Vec<f64> = (0..words).map(f64::from).collect();
        sheet(1, &[0.1], &states)
    }));
    all
}

/// Small tables of every palette.
fn drawn(rng: &mut Rng) -> Vec<Vec<u8>> {
    let mut all = Vec::new();
    for palette in PALETTES {
        for _ in 0..20 {
            let (labels, words) = (rng.between(2, 6), rng.between(1, 9));
            all.push(make::sheet(&make::scores(rng, labels, words, palette)));
        }
    }
    all
}

/// Two that fill 4,096 and 8,192 bytes to the last, and large ones up to the longest.
fn larger(rng: &mut Rng) -> Vec<Vec<u8>> {
    let shapes = [(7, 66), (31, 2), (10, 50), (5, 128), (32, 8), (20, 100)];
    let mut all: Vec<Vec<u8>> = shapes
        .into_iter()
        .flat_map(|shape| [(shape, Palette::Plain), (shape, Palette::Whole)])
        .map(|((labels, words), palette)| make::sheet(&make::scores(rng, labels, words, palette)))
        .collect();
    all.extend([Palette::Plain, Palette::Mixed].map(|palette| make::sheet(&make::scores(rng, 32, 128, palette))));
    all
}

/// Copies with one fault or two.
fn damaged(rng: &mut Rng) -> Vec<Vec<u8>> {
    let faults = damage::of_sheet();
    (0..120)
        .map(|number| {
            let sound = loop {
                let sheet = make::sheet(&calls::scores(rng));
                if sheet.len() < 4_000 {
                    break sheet;
                }
            };
            damage::damaged(rng, &faults, &sound, 1 + number % 2).0
        })
        .collect()
}

// ---- single changes

fn changed(sheet: &[u8], place: usize, byte: u8) -> Vec<u8> {
    let mut bytes = sheet.to_vec();
    bytes[place] = byte;
    bytes
}

/// The sheet with other bits in one of its numbers, counted from the first transition on.
fn with_entry(sheet: &[u8], place: usize, bits: u64) -> Vec<u8> {
    let mut bytes = sheet.to_vec();
    bytes[HEAD + 8 * place..][..8].copy_from_slice(&bits.to_le_bytes());
    bytes
}
