//! Training texts by the archive, against the second reading of document 02: number, place, sizes and all twelve tables, to the
//! bit and with what lies before and behind them; what is written; round trips; the stored texts. The comparison itself is held
//! to report an answer that is wrong in one thing.

mod shared;

use std::fs;
use std::path::Path;

use compare::Refusal;
use compare::text::{Lent, read_text, text_sizes, write_text};
use oracle::cases::{Mix, Rng};
use oracle::training_text::cases::{self, Case, Kind};
use oracle::training_text::layout::{self, FAULTS};
use oracle::training_text::stored;
use oracle::training_text::writer::{self, Given};
use oracle::training_text::{NAMES, Rooms, Sizes, Tables};
use shared::{Entry, rounds};

/// Texts that are read, and tables that are written.
const CASES: u64 = 20_000;
/// Entries before and behind what is lent.
const MARGIN: usize = 5;

// ---- lent memory

/// Junk, NaNs among it, in tables of these lengths and on both sides of them.
fn junk(rng: &mut Rng, rooms: &Rooms) -> Tables {
    fn drawn<T: Entry>(rng: &mut Rng, room: usize) -> Vec<T> {
        (0..room + 2 * MARGIN).map(|_| T::drawn(rng)).collect()
    }
    Tables {
        line_starts: drawn(rng, rooms[0]),
        word_starts: drawn(rng, rooms[1]),
        ids: drawn(rng, rooms[2]),
        values: drawn(rng, rooms[3]),
        references: drawn(rng, rooms[4]),
        instance_weights: drawn(rng, rooms[5]),
        label_name_starts: drawn(rng, rooms[6]),
        label_names: drawn(rng, rooms[7]),
        attribute_name_starts: drawn(rng, rooms[8]),
        attribute_names: drawn(rng, rooms[9]),
        scale_starts: drawn(rng, rooms[10]),
        scales: drawn(rng, rooms[11]),
    }
}

fn lend(memory: &mut Tables) -> Lent<'_> {
    fn inner<T>(table: &mut [T]) -> &mut [T] {
        let end = table.len() - MARGIN;
        &mut table[MARGIN..end]
    }
    Lent {
        line_starts: inner(&mut memory.line_starts),
        word_starts: inner(&mut memory.word_starts),
        ids: inner(&mut memory.ids),
        values: inner(&mut memory.values),
        references: inner(&mut memory.references),
        instance_weights: inner(&mut memory.instance_weights),
        label_name_starts: inner(&mut memory.label_name_starts),
        label_names: inner(&mut memory.label_names),
        attribute_name_starts: inner(&mut memory.attribute_name_starts),
        attribute_names: inner(&mut memory.attribute_names),
        scale_starts: inner(&mut memory.scale_starts),
        scales: inner(&mut memory.scales),
    }
}

/// Each table by the bits of its entries.
fn bits(tables: &Tables) -> [Vec<u64>; 12] {
    fn of<T: Entry>(table: &[T]) -> Vec<u64> {
        table.iter().map(|x| x.bits()).collect()
    }
    [
        of(&tables.line_starts),
        of(&tables.word_starts),
        of(&tables.ids),
        of(&tables.values),
        of(&tables.references),
        of(&tables.instance_weights),
        of(&tables.label_name_starts),
        of(&tables.label_names),
        of(&tables.attribute_name_starts),
        of(&tables.attribute_names),
        of(&tables.scale_starts),
        of(&tables.scales),
    ]
}

// ---- the comparison

type Read<'a> = &'a dyn Fn(&[u8], Lent<'_>) -> Result<Sizes, Refusal>;
type Write<'a> = &'a dyn Fn(&Given, &mut [u8]) -> Result<u64, Refusal>;

/// What is other than owed in a call of the reader; nothing is as it should be.
fn read_differs(read: Read<'_>, text: &[u8], rooms: &Rooms, rng: &mut Rng) -> Option<String> {
    let owed = layout::read(text, rooms);
    let mut memory = junk(rng, rooms);
    let mut expected = bits(&memory);
    let given = text.to_vec();
    let answer = read(&given, lend(&mut memory));
    if given != text {
        return Some("the text is only read".to_string());
    }
    if answer != owed.as_ref().map(Tables::sizes).map_err(|refused| *refused) {
        return Some(format!("{answer:?}, not {:?}", owed.map(|tables| tables.sizes())));
    }
    // "all leave the lent tables as at entry"; behind the needed fronts they always are
    for (expected, front) in expected.iter_mut().zip(owed.iter().flat_map(bits)) {
        expected[MARGIN..MARGIN + front.len()].copy_from_slice(&front);
    }
    let wrong = bits(&memory).into_iter().zip(expected).position(|(after, expected)| after != expected);
    wrong.map(|table| NAMES[table].to_string())
}

/// The same of the writer.
fn write_differs(write: Write<'_>, given: &Given, rng: &mut Rng) -> Option<String> {
    let owed = writer::write(given);
    let mut memory: Vec<u8> = (0..given.room + 2 * MARGIN).map(|_| rng.draw() as u8).collect();
    let mut expected = memory.clone();
    let answer = write(given, &mut memory[MARGIN..MARGIN + given.room]);
    if answer != owed.as_ref().map(|text| text.len() as u64).map_err(|refused| *refused) {
        return Some(format!("{answer:?}, not {:?}", owed.map(|text| text.len())));
    }
    if let Ok(text) = owed {
        expected[MARGIN..MARGIN + text.len()].copy_from_slice(&text);
    }
    (memory != expected).then(|| "the text".to_string())
}

fn seen(text: &[u8]) -> String {
    String::from_utf8_lossy(&text[..text.len().min(300)]).escape_debug().to_string()
}

/// Enough for the text, or one table short of it; where nothing fits in any case, a little.
fn rooms(rng: &mut Rng, text: &[u8]) -> (Rooms, Option<usize>) {
    let needed = layout::sequences(text).map_or([3; 12], |sequences| layout::tables(&sequences).rooms());
    let mut rooms = needed.map(|needed| needed + rng.pick(&[0, 0, 1, 4]));
    let short = rng.chance(18).then(|| rng.below(12) as usize).filter(|&table| needed[table] > 0);
    if let Some(table) = short {
        rooms[table] = needed[table] - if rng.chance(70) { 1 } else { rng.between(1, needed[table] as u32) as usize };
    }
    (rooms, short)
}

// ---- random texts

#[test]
fn reads_as_the_second_reading_does() {
    let mut mix = Mix::new("texts")
        .require("accepted", 30.0)
        .require("refused 11", 30.0)
        .require("refused 2, by a count", 1.0)
        .require("refused 2, no word at all", 0.5)
        .require("refused 4", 0.4)
        .require("refused 11 at the length", 3.0)
        .require("damaged, and still accepted", 3.0)
        .require("accepted, escapes", 15.0)
        .require("accepted, scales", 20.0)
        .require("accepted, 15 digits", 10.0)
        .require("accepted, a point first or last", 5.0)
        .require("accepted, −0", 1.0)
        .require("accepted, empty lines in a row", 8.0)
        .require("accepted, an empty line first", 2.0)
        .require("accepted, no line feed last", 5.0)
        .require("accepted, CR", 5.0)
        .require("accepted, bytes 80 to FF", 10.0)
        .require("accepted, a byte 0", 1.0)
        .require("accepted, several sequences", 20.0)
        .require("accepted, a name longer than 64 bytes", 2.0)
        .require("accepted, a name twice", 15.0);
    for (_, fault) in FAULTS {
        mix = mix.require(fault, 2.0);
    }
    let short_names = NAMES.map(|table| &*format!("refused 2, {table} too short").leak());
    for name in short_names {
        mix = mix.require(name, 0.15);
    }
    for number in 0..CASES * rounds() {
        let mut rng = Rng::of_case(0x7E87, number);
        let Case { kind, text } = cases::text(&mut rng);
        let (rooms, short) = rooms(&mut rng, &text);
        let differs = read_differs(&read_text, &text, &rooms, &mut rng);
        assert_eq!(differs, None, "case {number}: {}", seen(&text));
        assert_eq!(text_sizes(&text), layout::sizes(&text), "case {number}: {}", seen(&text));

        let (owed, found) = (layout::read(&text, &rooms), layout::sequences(&text));
        let refused = |number: u32| owed.as_ref().is_err_and(|refused| refused.0 == number);
        let by_room = refused(2) && layout::sizes(&text).is_ok();
        mix.case();
        mix.count("accepted", owed.is_ok());
        mix.count("refused 11", refused(11));
        mix.count("refused 11 at the length", owed == Err((11, text.len() as u64)));
        mix.count("refused 2, by a count", refused(2) && !by_room);
        mix.count("refused 2, no word at all", refused(2) && found.as_ref().is_ok_and(Vec::is_empty));
        mix.count("refused 4", refused(4));
        mix.count("damaged, and still accepted", kind == Kind::Damaged && owed.is_ok());
        for (fault, name) in FAULTS {
            mix.count(name, found.as_ref().is_err_and(|found| found.0 == fault));
        }
        for (table, name) in short_names.into_iter().enumerate() {
            mix.count(name, by_room && short == Some(table));
        }
        if let Ok(tables) = owed {
            count_accepted(&mut mix, &text, &tables);
            assert_eq!(round_trip(&tables), None, "case {number}: {}", seen(&text));
        }
    }
    assert!(mix.cases() >= CASES);
    mix.finish();
}

fn count_accepted(mix: &mut Mix, text: &[u8], tables: &Tables) {
    let has = |bytes: &[u8]| text.windows(bytes.len()).any(|window| window == bytes);
    let scales: Vec<&[u8]> =
        tables.scale_starts.windows(2).map(|pair| &tables.scales[pair[0] as usize..pair[1] as usize]).collect();
    let digits = |scale: &&&[u8]| scale.iter().filter(|byte| byte.is_ascii_digit()).count() == 15;
    mix.count("accepted, escapes", text.contains(&b'\\'));
    mix.count("accepted, scales", !tables.scales.is_empty());
    mix.count("accepted, 15 digits", scales.iter().any(|scale| digits(&scale)));
    mix.count(
        "accepted, a point first or last",
        scales.iter().any(|scale| scale.last() == Some(&b'.') || scale.first() == Some(&b'.')),
    );
    mix.count("accepted, −0", tables.values.iter().any(|value| value.to_bits() == (-0.0f64).to_bits()));
    mix.count("accepted, empty lines in a row", has(b"\n\n\n"));
    mix.count("accepted, an empty line first", text[0] == b'\n');
    mix.count("accepted, no line feed last", text.last() != Some(&b'\n'));
    mix.count("accepted, CR", text.contains(&b'\r'));
    mix.count("accepted, bytes 80 to FF", text.iter().any(|byte| *byte >= 0x80));
    mix.count("accepted, a byte 0", text.contains(&0));
    mix.count("accepted, several sequences", tables.instance_weights.len() > 1);
    mix.count(
        "accepted, a name longer than 64 bytes",
        tables.attribute_name_starts.windows(2).any(|p| p[1] - p[0] > 64),
    );
    mix.count("accepted, a name twice", tables.ids.len() > tables.attribute_name_starts.len() - 1);
}

/// What the archive writes of tables reads back to them, by the archive.
fn round_trip(tables: &Tables) -> Option<String> {
    let given = Given::of(tables.clone(), writer::write(&Given::of(tables.clone(), usize::MAX)).expect("room").len());
    let mut text = vec![0; given.room];
    let length = match write_text(&given, &mut text) {
        Ok(length) => length as usize,
        Err(refused) => return Some(format!("writing: {refused:?}")),
    };
    let mut again = junk(&mut Rng::new(1), &tables.rooms());
    let answer = read_text(&text[..length], lend(&mut again));
    if answer != Ok(tables.sizes()) {
        return Some(format!("reading back: {answer:?}"));
    }
    let fronts = bits(&again).map(|table| table[MARGIN..table.len() - MARGIN].to_vec());
    fronts.iter().zip(bits(tables)).position(|(after, before)| *after != before).map(|table| NAMES[table].to_string())
}

#[test]
fn writes_as_the_second_reading_does() {
    let mut mix = Mix::new("tables").require("written", 15.0).require("room to spare", 5.0).require("just room", 5.0);
    let numbers = [(1, "1"), (2, "2"), (3, "3"), (4, "4"), (5, "5"), (11, "11")];
    for (_, name) in numbers {
        mix = mix.require(name, 2.0);
    }
    mix = mix.require("2 for the text", 1.0).require("11 at a place above 0", 3.0).require("11 for a scale", 1.0);
    for number in 0..CASES * rounds() {
        let mut rng = Rng::of_case(0x3218, number);
        let (given, harms) = cases::given(&mut rng);
        assert_eq!(write_differs(&write_text, &given, &mut rng), None, "case {number}: {harms:?}: {given:?}");
        let owed = writer::write(&given);
        let spared = writer::write(&Given { room: usize::MAX, ..given.clone() });
        mix.case();
        mix.count("written", owed.is_ok());
        mix.count("room to spare", spared.as_ref().is_ok_and(|text| text.len() < given.room));
        mix.count("just room", spared.as_ref().is_ok_and(|text| text.len() == given.room));
        mix.count("2 for the text", owed == Err((2, 0)) && spared != Err((2, 0)));
        mix.count("11 at a place above 0", owed.as_ref().is_err_and(|refused| refused.0 == 11 && refused.1 > 0));
        let scale = harms == [cases::Harm::Scale, cases::Harm::None];
        mix.count("11 for a scale", scale && owed.as_ref().is_err_and(|refused| refused.0 == 11));
        for (number, name) in numbers {
            mix.count(name, owed.as_ref().is_err_and(|refused| refused.0 == number));
        }
    }
    mix.finish();
}

// ---- large texts

/// At each bound and one past it, and names that no stack may depend on.
#[test]
fn large_texts() {
    let names = |count: usize| {
        let lines = (0..count).map(|name| format!("{}n{name}", if name % 40 == 0 { "\n\nA\t" } else { "\t" }));
        lines.collect::<String>().into_bytes()
    };
    let sequences = |count: usize| b"A\n\n".repeat(count);
    // 128 words a sequence
    let words = |count: usize| -> Vec<u8> {
        (0..count).flat_map(|word| if word % 128 == 127 { &b"A\n\n"[..] } else { b"A\n" }).copied().collect()
    };
    let attributes = |count: usize| [&b"A"[..], &b"\tb".repeat(count)].concat();
    let long = |unit: &str, count: usize| format!("A\t{}:1", unit.repeat(count)).into_bytes();
    let large: [(&str, Vec<u8>, Result<(), Refusal>); 14] = [
        ("16,384 sequences", sequences(16_384), Ok(())),
        ("16,385 sequences", sequences(16_385), Err((2, 0))),
        ("1,048,576 words", words(1_048_576), Ok(())),
        ("1,048,577 words", words(1_048_577), Err((2, 0))),
        ("4,194,304 attributes", attributes(4_194_304), Ok(())),
        ("4,194,305 attributes", attributes(4_194_305), Err((2, 0))),
        ("65,535 names", names(65_535), Ok(())),
        ("65,536 names", names(65_536), Err((2, 0))),
        ("a name of a million bytes", long("x", 1_000_000), Ok(())),
        ("a name of 500,000 escapes", long("\\\\", 500_000), Ok(())),
        ("escapes of both kinds", long("\\:\\\\a", 200_000), Ok(())),
        (
            "a long name cut in an escape",
            b"A\t".iter().copied().chain(b"\\:".repeat(500_000)).chain([b'\\']).collect(),
            Err((11, 1_000_003)),
        ),
        ("a damaged byte behind a million", [long("x", 1_000_000), b"e".to_vec()].concat(), Err((11, 1_000_004))),
        ("a label of a million bytes", vec![b'L'; 1_000_000], Ok(())),
    ];
    for (name, text, expected) in large {
        let owed = layout::read(&text, &[usize::MAX; 12]);
        assert_eq!(owed.as_ref().map(|_| ()).map_err(|refused| *refused), expected, "{name}: the second reading");
        let rooms = owed.as_ref().map_or([3; 12], Tables::rooms);
        assert_eq!(read_differs(&read_text, &text, &rooms, &mut Rng::new(1)), None, "{name}");
        assert_eq!(text_sizes(&text), owed.as_ref().map(Tables::sizes).map_err(|refused| *refused), "{name}");
        if let Ok(tables) = owed {
            assert_eq!(round_trip(&tables), None, "{name}");
        }
    }
}

/// Names that meet in the library's slots: a run of them, one that goes on from the last slot to the first, and pairs of the same
/// hash; each seen again, in every order of the first.
#[test]
fn names_that_meet() {
    let mut rng = Rng::new(0x3EE7);
    let wrapped = cases::names_at(&mut rng, cases::SLOTS - 4..cases::SLOTS, 120);
    let first = cases::names_at(&mut rng, 0..100, 200);
    let run = cases::names_at(&mut rng, 70_000..70_016, 1_000);
    let twins = cases::twins(&mut rng, 8);
    let all = [&wrapped[..], &first, &run, &twins].concat();
    for (name, names) in [("wrapped", wrapped), ("run", run), ("twins", twins), ("all", all)] {
        for turn in 0..4 {
            let mut names = names.clone();
            for i in (1..names.len()).rev().filter(|_| turn > 0) {
                names.swap(i, rng.below(i as u32 + 1) as usize);
            }
            let text = cases::text_of(&mut rng, &names, 2_000);
            let owed = layout::read(&text, &[usize::MAX; 12]).expect("a sound text");
            assert_eq!(owed.sizes().attribute_names as usize, names.len(), "{name}");
            assert_eq!(read_differs(&read_text, &text, &owed.rooms(), &mut rng), None, "{name}, turn {turn}");
        }
    }
}

// ---- the stored texts

/// What the archive says of each, as a line, against the line that is stored.
#[test]
fn the_stored_texts() {
    let folder = Path::new(env!("CARGO_MANIFEST_DIR")).join("../../crates/texts");
    let lines = fs::read_to_string(folder.join("stdout")).expect("the stored answers");
    for (number, line) in lines.lines().enumerate() {
        let text = fs::read(folder.join("data").join(stored::name(number))).expect("a stored text");
        let mut memory = Tables::empty();
        let sizes = text_sizes(&text);
        let answer = sizes.map(|sizes| {
            memory = junk(&mut Rng::new(2), &rooms_of(sizes));
            assert_eq!(read_text(&text, lend(&mut memory)), Ok(sizes), "{number}");
            let tables = without_margins(&memory);
            let mut written = vec![0; text.len() + 2];
            let length = write_text(&Given::of(tables.clone(), written.len()), &mut written).expect("n + 2 are enough");
            (tables, written[..length as usize].to_vec())
        });
        assert_eq!(stored::line_of(&answer), format!("{line}\n"), "{number}: {}", seen(&text));
    }
    assert_eq!(lines.lines().count(), stored::all().len());
}

fn rooms_of(sizes: Sizes) -> Rooms {
    let Sizes { labels, attribute_names, instances, words, attributes, label_bytes, attribute_bytes, scale_bytes } =
        sizes;
    let rooms = [
        instances + 1,
        words + 1,
        attributes,
        attributes,
        words,
        instances,
        labels + 1,
        label_bytes,
        attribute_names + 1,
        attribute_bytes,
        attributes + 1,
        scale_bytes,
    ];
    rooms.map(|room| room as usize)
}

fn without_margins(memory: &Tables) -> Tables {
    fn inner<T: Copy>(table: &[T]) -> Vec<T> {
        table[MARGIN..table.len() - MARGIN].to_vec()
    }
    Tables {
        line_starts: inner(&memory.line_starts),
        word_starts: inner(&memory.word_starts),
        ids: inner(&memory.ids),
        values: inner(&memory.values),
        references: inner(&memory.references),
        instance_weights: inner(&memory.instance_weights),
        label_name_starts: inner(&memory.label_name_starts),
        label_names: inner(&memory.label_names),
        attribute_name_starts: inner(&memory.attribute_name_starts),
        attribute_names: inner(&memory.attribute_names),
        scale_starts: inner(&memory.scale_starts),
        scales: inner(&memory.scales),
    }
}

// ---- the comparison reports

/// Calls that are wrong in one thing: each is reported, by its name or by the answer.
#[test]
fn a_wrong_answer_is_reported() {
    let text = stored::T1.as_bytes();
    let needed = layout::read(text, &[usize::MAX; 12]).expect("T1").rooms();
    let rooms = needed.map(|needed| needed + 2);
    let reported = |read: Read<'_>, text: &[u8], rooms: &Rooms| read_differs(read, text, rooms, &mut Rng::new(3));
    assert_eq!(reported(&read_text, text, &rooms), None);

    // one entry of one table, in the needed front or behind it
    for table in 0..12 {
        for place in [0, needed[table] - 1, needed[table]] {
            let read = |text: &[u8], mut lent: Lent<'_>| {
                let answer = read_text(text, reborrow(&mut lent));
                change(&mut lent, table, place);
                answer
            };
            assert_eq!(reported(&read, text, &rooms), Some(NAMES[table].to_string()), "place {place}");
            // after a refusal too
            assert_eq!(reported(&read, b"A\t", &rooms), Some(NAMES[table].to_string()), "place {place}");
        }
    }
    // number, place, sizes; a refusal that is none; a text that is taken in
    let wrong = |change: fn(Result<Sizes, Refusal>) -> Result<Sizes, Refusal>| {
        move |text: &[u8], lent: Lent<'_>| change(read_text(text, lent))
    };
    let place = wrong(|answer| answer.map_err(|(number, place)| (number, place + 1)));
    let number = wrong(|answer| answer.map_err(|(_, place)| (2, place)));
    assert!(reported(&place, b"A\t", &rooms).is_some());
    assert!(reported(&number, b"A\t", &rooms).is_some());
    assert!(reported(&wrong(|_| Err((2, 0))), text, &rooms).is_some());
    assert!(reported(&wrong(|_| Ok(Sizes::default())), b"A\t", &rooms).is_some());
    assert!(
        reported(&wrong(|answer| answer.map(|s| Sizes { scale_bytes: s.scale_bytes + 1, ..s })), text, &rooms)
            .is_some()
    );
    assert!(reported(&wrong(|answer| answer.map(|s| Sizes { words: s.words + 1, ..s })), text, &rooms).is_some());
    // a CR that is taken for a part of the line's end
    let carriage = |text: &[u8], lent: Lent<'_>| {
        let without: Vec<u8> = text.iter().copied().filter(|byte| *byte != b'\r').collect();
        read_text(&without, lent)
    };
    assert!(reported(&carriage, b"A\tb\r\n", &[9; 12]).is_some());

    // the writer: a byte of the text, one behind it, one after a refusal; the length; the place
    let tables = layout::read(text, &[usize::MAX; 12]).expect("T1");
    let given = Given::of(tables, 23);
    let mut damaged = given.clone();
    damaged.tables.label_names[1] = b'\t';
    let reported = |write: Write<'_>, given: &Given| write_differs(write, given, &mut Rng::new(4)).is_some();
    assert!(!reported(&write_text, &given) && !reported(&write_text, &damaged));
    for place in [0, 20, 21] {
        let write = move |given: &Given, text: &mut [u8]| {
            let answer = write_text(given, text);
            text[place] ^= 1;
            answer
        };
        assert!(reported(&write, &given) && reported(&write, &damaged), "place {place}");
    }
    let longer = |given: &Given, text: &mut [u8]| write_text(given, text).map(|length| length + 1);
    let later = |given: &Given, text: &mut [u8]| write_text(given, text).map_err(|(number, place)| (number, place + 1));
    assert!(reported(&longer, &given) && reported(&later, &damaged));
}

fn reborrow<'a>(lent: &'a mut Lent<'_>) -> Lent<'a> {
    Lent {
        line_starts: lent.line_starts,
        word_starts: lent.word_starts,
        ids: lent.ids,
        values: lent.values,
        references: lent.references,
        instance_weights: lent.instance_weights,
        label_name_starts: lent.label_name_starts,
        label_names: lent.label_names,
        attribute_name_starts: lent.attribute_name_starts,
        attribute_names: lent.attribute_names,
        scale_starts: lent.scale_starts,
        scales: lent.scales,
    }
}

/// Changes the last bit of an entry.
fn change(lent: &mut Lent<'_>, table: usize, place: usize) {
    let float = |x: &mut f64| *x = f64::from_bits(x.to_bits() ^ 1);
    match table {
        0 => lent.line_starts[place] ^= 1,
        1 => lent.word_starts[place] ^= 1,
        2 => lent.ids[place] ^= 1,
        3 => float(&mut lent.values[place]),
        4 => lent.references[place] ^= 1,
        5 => float(&mut lent.instance_weights[place]),
        6 => lent.label_name_starts[place] ^= 1,
        7 => lent.label_names[place] ^= 1,
        8 => lent.attribute_name_starts[place] ^= 1,
        9 => lent.attribute_names[place] ^= 1,
        10 => lent.scale_starts[place] ^= 1,
        _ => lent.scales[place] ^= 1,
    }
}
