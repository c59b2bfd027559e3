//! The second reading of the training text: the request's own cases, the place of 11 by trying what can come behind a front,
//! the plain reader beside it, what is written, and the fixed texts.

use std::collections::BTreeSet;

use oracle::cases::{Mix, Rng};
use oracle::training_text::cases::{self, Case, Harm, Kind};
use oracle::training_text::layout::{self, FAULTS};
use oracle::training_text::stored::{self, CHARGED, T1, T2};
use oracle::training_text::writer::{self, Given};
use oracle::training_text::{Refused, Rooms, Tables, plain};

const ENOUGH: Rooms = [usize::MAX; 12];
const CASES: u64 = 20_000;

fn read(text: impl AsRef<[u8]>) -> Result<Tables, Refused> {
    layout::read(text.as_ref(), &ENOUGH)
}

fn written(tables: &Tables) -> Result<String, Refused> {
    writer::write(&Given::of(tables.clone(), usize::MAX)).map(|text| String::from_utf8(text).expect("letters"))
}

// ---- the request's own cases

#[test]
fn t1() {
    let tables = read(T1).expect("T1");
    let expected = Tables {
        line_starts: vec![0, 2, 3],
        word_starts: vec![0, 2, 2, 3],
        ids: vec![0, 1, 1],
        values: vec![0.5, 1.0, -0.0],
        references: vec![0, 1, 0],
        instance_weights: vec![1.0, 1.0],
        label_name_starts: vec![0, 1, 2],
        label_names: b"AB".to_vec(),
        attribute_name_starts: vec![0, 1, 2],
        attribute_names: b"ab".to_vec(),
        scale_starts: vec![0, 3, 3, 5],
        scales: b"0.5-0".to_vec(),
    };
    assert!(tables.same(&expected), "{tables:?}");
    assert_eq!(written(&tables), Ok("A\ta:0.5\tb\nB\n\nA\tb:-0\n\n".to_string()));
}

#[test]
fn t2_to_t5() {
    let tables = read(T2).expect("T2");
    assert_eq!((&tables.label_names[..], &tables.attribute_names[..]), (&b"h:m"[..], &b"C:\\x"[..]));
    assert_eq!((&tables.values[..], &tables.scales[..]), (&[1.0][..], &b"1"[..]));
    assert_eq!(written(&tables), Ok(format!("{T2}\n\n")));

    assert_eq!((read(""), read("\n\n")), (Err((2, 0)), Err((2, 0))));
    assert_eq!(read("A").map(|tables| tables.references), Ok(vec![0]));
    assert_eq!((read("A\t"), read("\t")), (Err((11, 2)), Err((11, 0))));

    let t4 = format!("{}\n{}", "A\n".repeat(128), "A\n".repeat(129));
    assert_eq!((read(&t4), read(format!("{t4}A:"))), (Err((4, 1)), Err((11, 516))));
    let t5: String = (0..33).map(|label| format!("L{label}\n")).collect();
    assert_eq!((read(&t5), read(format!("{t5}\\"))), (Err((2, 0)), Err((11, 123))));
}

#[test]
fn t6_and_t7() {
    let tables = read(T1).expect("T1");
    let mut rooms = tables.rooms();
    assert!(layout::read(T1.as_bytes(), &rooms).is_ok());
    for table in 0..12 {
        rooms[table] -= 1;
        assert_eq!(layout::read(T1.as_bytes(), &rooms), Err((2, 0)), "table {table}");
        rooms[table] += 1;
    }

    let write = |change: fn(&mut Given)| {
        let mut given = Given::of(tables.clone(), 21);
        change(&mut given);
        writer::write(&given).map(|text| text.len())
    };
    assert_eq!(write(|_| ()), Ok(21));
    assert_eq!(write(|given| given.room = 20), Err((2, 0)));
    assert_eq!(write(|given| given.tables.label_names[1] = b'\t'), Err((11, 1)));
    // B without bytes, and a line feed for a
    let both = |given: &mut Given| {
        given.tables.label_name_starts[2] = 1;
        given.label_bytes = 1;
        given.tables.attribute_names[0] = b'\n';
    };
    assert_eq!(write(both), Err((11, 1)));
    assert_eq!(write(|given| given.tables.scales[2] = b'-'), Err((11, 0)));
    assert_eq!(write(|given| given.tables.ids[1] = 2), Err((5, 1)));
}

#[test]
fn each_error_is_charged_to_its_byte() {
    for marked in CHARGED {
        let (front, rest) = marked.split_once('▸').expect("a mark");
        assert_eq!(read(format!("{front}{rest}")), Err((11, front.len() as u64)), "{marked:?}");
    }
}

/// "Rounded once": the fraction m / 10^k; both are below 2^53, so one division rounds it.
#[test]
fn values_are_the_nearest() {
    for number in 0..20_000 {
        let mut rng = Rng::of_case(0x5CA1, number);
        let scale = String::from_utf8(cases::scale(&mut rng)).expect("digits");
        let value = read(format!("A\tb:{scale}")).expect("a scale").values[0];
        let digits: u64 = scale.chars().filter(char::is_ascii_digit).collect::<String>().parse().expect("digits");
        let behind = scale.split_once('.').map_or(0, |(_, behind)| behind.len());
        let nearest = digits as f64 / 10u64.pow(behind as u32) as f64;
        let signed = if scale.starts_with('-') { -nearest } else { nearest };
        assert_eq!(value.to_bits(), signed.to_bits(), "{scale}");
    }
}

// ---- the place of 11

/// A text is well-formed where every line is: by a reading of the layout that stops at nothing, and knows no place.
fn well_formed(text: &[u8]) -> bool {
    text.split(|byte| *byte == b'\n').all(|line| {
        let mut fields = line.split(|byte| *byte == b'\t');
        line.is_empty() || is_name(fields.next().expect("a field")) && fields.all(is_attribute)
    })
}

fn is_name(field: &[u8]) -> bool {
    let bare = String::from_utf8_lossy(field).replace("\\\\", "").replace("\\:", "");
    !field.is_empty() && !bare.contains(['\\', ':'])
}

fn is_attribute(field: &[u8]) -> bool {
    let cuts = (0..field.len()).filter(|&at| field[at] == b':');
    is_name(field) || cuts.into_iter().any(|at| is_name(&field[..at]) && is_scale(&field[at + 1..]))
}

fn is_scale(field: &[u8]) -> bool {
    let mantissa = field.strip_prefix(b"-").unwrap_or(field);
    let digits = mantissa.iter().filter(|byte| byte.is_ascii_digit()).count();
    let points = mantissa.iter().filter(|byte| **byte == b'.').count();
    (1..=15).contains(&digits) && points <= 1 && digits + points == mantissa.len()
}

/// "The first byte after which no well-formed text is possible, or the length at the end": whether a front can be completed is
/// found by trying all that is at most two bytes long behind it.
fn place(text: &[u8]) -> Option<u64> {
    const BYTES: &[u8] = b"\t\n:\\-.1a";
    let completable = |front: &[u8]| {
        let one = BYTES.iter().map(|byte| vec![*byte]);
        let two = BYTES.iter().flat_map(|first| BYTES.iter().map(|second| vec![*first, *second]));
        let mut rests = [vec![]].into_iter().chain(one).chain(two);
        rests.any(|rest| well_formed(&[front, &rest].concat()))
    };
    let lost = (0..text.len()).find(|&at| !completable(&text[..=at]));
    let place = lost.or((!well_formed(text)).then_some(text.len()));
    place.map(|place| place as u64)
}

fn refused_at(text: &[u8]) -> Option<u64> {
    layout::sequences(text).err().map(|(_, place)| place)
}

/// Every text of up to five bytes that mean something.
#[test]
fn the_place_is_where_nothing_can_follow() {
    const BYTES: &[u8] = b"\t\n:\\-.1a";
    let mut count = 0;
    let mut texts = vec![vec![]];
    for _ in 0..=5 {
        for text in &texts {
            assert_eq!(refused_at(text), place(text), "{:?}", String::from_utf8_lossy(text));
            count += 1;
        }
        texts = texts.iter().flat_map(|text| BYTES.iter().map(|byte| [&text[..], &[*byte]].concat())).collect();
    }
    assert_eq!(count, (8u32.pow(6) - 1) / 7);
    for number in 0..1_000 {
        let Case { text, .. } = cases::text(&mut Rng::of_case(0x91A2, number));
        assert!(text.len() > 80 || refused_at(&text) == place(&text), "case {number}: {text:?}");
    }
}

// ---- random texts

#[test]
fn drawn_texts_are_what_they_were_drawn_as() {
    let mut mix =
        Mix::new("drawn texts").require("accepted", 30.0).require("2", 1.0).require("4", 0.5).require("11", 30.0);
    for (_, fault) in FAULTS {
        mix = mix.require(fault, 2.0);
    }
    let mut tables = Tables::empty();
    for number in 0..CASES {
        let Case { kind, text } = cases::text(&mut Rng::of_case(0x7E07, number));
        let owed = read(&text);
        let found = layout::sequences(&text).err();
        match kind {
            Kind::Sound => assert!(owed.is_ok(), "case {number}: {owed:?}"),
            Kind::Faulty(fault, place) => assert_eq!(found, Some((fault, place)), "case {number}: {text:?}"),
            _ => {}
        }
        // the plain reader, which knows nothing of this one
        let answer = plain::read(&text, &mut tables);
        assert_eq!(answer, owed.as_ref().map(Tables::sizes).map_err(|refused| *refused), "case {number}: {text:?}");
        assert!(owed.as_ref().is_ok_and(|owed| owed.same(&tables)) || owed.is_err(), "case {number}");
        mix.case();
        mix.count("accepted", owed.is_ok());
        for (refused, name) in [(2, "2"), (4, "4"), (11, "11")] {
            mix.count(name, owed.as_ref().is_err_and(|owed| owed.0 == refused));
        }
        for (fault, name) in FAULTS {
            mix.count(name, found.is_some_and(|found| found.0 == fault));
        }

        // what is written reads back
        let Ok(owed) = owed else { continue };
        let text_again = writer::write(&Given::of(owed.clone(), usize::MAX)).expect("what was read can be written");
        assert!(read(&text_again).is_ok_and(|again| again.same(&owed)), "case {number}");
        assert!(text_again.len() <= text.len() + 2, "case {number}: n + 2 bytes");
        let mut plainly = Vec::new();
        plain::write(&owed, &mut plainly);
        assert_eq!(plainly, text_again, "case {number}");
    }
    mix.finish();
}

/// Two written texts, one behind the other, are the text of both.
#[test]
fn written_texts_join() {
    for number in 0..500 {
        let mut rng = Rng::of_case(0x301E, number);
        let [one, other] = [(); 2].map(|()| {
            let sequences = layout::sequences(&cases::sound(&mut rng)).expect("a sound text");
            let text = writer::write(&Given::of(layout::tables(&sequences), usize::MAX)).expect("it can be written");
            (sequences, text)
        });
        let joined = layout::sequences(&[one.1, other.1].concat()).expect("a sound text");
        assert_eq!(joined, [one.0, other.0].concat(), "case {number}");
    }
}

/// Whatever the writer takes, what it writes is well-formed and holds the same names and kept texts.
#[test]
fn what_is_written_is_a_text() {
    let mut mix = Mix::new("drawn tables").require("written", 20.0);
    for number in ["1", "2", "3", "4", "5", "11"] {
        mix = mix.require(number, 2.0);
    }
    for number in 0..CASES {
        let (given, harms) = cases::given(&mut Rng::of_case(0x3217, number));
        let answer = writer::write(&given);
        if let Ok(text) = &answer {
            let sequences = layout::sequences(text).expect("what is written is well-formed");
            assert_eq!(sequences.len(), given.instances as usize, "case {number}");
            let kept: Vec<u8> =
                sequences.iter().flatten().flat_map(|word| word.attributes.clone()).flat_map(|a| a.scale).collect();
            assert_eq!(kept, given.tables.scales[..given.scale_bytes as usize], "case {number}");
        }
        mix.case();
        mix.count("written", answer.is_ok());
        mix.count("two harms", harms[1] != Harm::None);
        for name in ["1", "2", "3", "4", "5", "11"] {
            mix.count(name, answer.as_ref().is_err_and(|refused| refused.0.to_string() == name));
        }
    }
    mix.finish();
}

// ---- the fixed texts

#[test]
fn the_fixed_texts() {
    let stored = stored::all();
    assert_eq!(stored, stored::all(), "the same at every run");
    assert!((300..=1_000).contains(&stored.len()), "{} texts", stored.len());
    assert!(stored.iter().map(|stored| stored.text.len()).sum::<usize>() < 100_000);
    let different: BTreeSet<&Vec<u8>> = stored.iter().map(|stored| &stored.text).collect();
    assert!(different.len() * 100 >= stored.len() * 95, "{} are different", different.len());
    assert_eq!(stored::line(T1.as_bytes()), T1_LINE);

    let mut mix =
        Mix::new("fixed texts").require("accepted", 30.0).require("11", 40.0).require("2", 1.0).require("4", 0.5);
    for (_, fault) in FAULTS {
        mix = mix.require(fault, 1.5);
    }
    for stored::Stored { text, .. } in &stored {
        let line = stored::line(text);
        assert!(line.ends_with('\n') && line.lines().count() == 1);
        let found = layout::sequences(text).err();
        mix.case();
        mix.count("accepted", line.starts_with("TEXT "));
        for name in ["2", "4", "11"] {
            mix.count(name, line.starts_with(&format!("REFUSED {name} ")));
        }
        for (fault, name) in FAULTS {
            mix.count(name, found.is_some_and(|found| found.0 == fault));
        }
    }
    mix.finish();
}

const T1_LINE: &str = "TEXT 2,2,2,3,3,2,2,5 0,2,3 0,2,2,3 0,1,1 3fe0000000000000,3ff0000000000000,8000000000000000 0,1,0 \
                       3ff0000000000000,3ff0000000000000 0,1,2 4142 0,1,2 6162 0,3,3,5 302e352d30 \
                       4109613a302e3509620a420a0a4109623a2d300a0a\n";
