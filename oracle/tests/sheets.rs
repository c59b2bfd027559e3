//! The fixed sheets: what they are made of, and that they are the same at every run.

use std::collections::BTreeSet;

use oracle::cases::Mix;
use oracle::cases::make::{self, NOT_FINITE};
use oracle::refusals::{self, HEAD, Refusal};
use oracle::sheets::{self, LONGEST, Sheet};
use oracle::tables::{Scores, same};
use oracle::{desk, judge, reference};

fn of(group: &str) -> Vec<Vec<u8>> {
    sheets::all().into_iter().filter(|sheet| sheet.group == group).map(|sheet| sheet.bytes).collect()
}

fn p4() -> Vec<u8> {
    make::sheet(&desk::decodings().into_iter().find(|case| case.name == "P4").expect("P4").scores)
}

fn read(bytes: &[u8]) -> Result<Scores, Refusal> {
    refusals::sheet(bytes, |_, _| Vec::new())
}

#[test]
fn some_hundreds_of_files_and_a_line_each() {
    let sheets = sheets::all();
    assert!((400..=1_000).contains(&sheets.len()), "{} sheets have names of three digits", sheets.len());
    let bytes: usize = sheets.iter().map(|sheet| sheet.bytes.len()).sum();
    assert!(bytes < 2_000_000, "{bytes} bytes in all");
    assert_eq!((sheets::name(0), sheets::name(683)), ("000.tlg".to_string(), "683.tlg".to_string()));
    assert_eq!(sheets[0].bytes, p4());
    let text = sheets::text(&sheets);
    assert_eq!(text.lines().count(), sheets.len());
    assert!(text.starts_with("PATH 4008000000000000 0,1\n") && text.ends_with('\n'));
    assert_eq!(sheets::all(), sheets, "the same at every run");
    let different: BTreeSet<&Vec<u8>> = sheets.iter().map(|sheet| &sheet.bytes).collect();
    assert!(different.len() * 100 >= sheets.len() * 98, "{} are different", different.len());
}

#[test]
fn sheets_are_of_every_kind() {
    let mut mix = Mix::new("sheets")
        .require("accepted", 25.0)
        .require("refused 1", 3.0)
        .require("refused 4", 3.0)
        .require("refused 6", 10.0)
        .require("refused 6 at a place above 0", 8.0)
        .require("refused 10", 20.0)
        .require("a tie on the chosen path", 10.0)
        .require("infinite sum", 3.0)
        .require("sum −0", 0.5)
        .require("subnormal sum", 1.0)
        .require("no lead", 3.0)
        .require("lead 0", 3.0)
        .require("lead above 0", 8.0)
        .require("L above 9 and T above 49", 0.5);
    for Sheet { bytes, .. } in sheets::all() {
        let (scores, line) = (read(&bytes), judge::sheet_line(&bytes));
        let refused = |number: u32| scores.as_ref().is_err_and(|refusal| refusal.number == number);
        let decoded = scores.as_ref().ok().map(|scores| judge::decode(scores, &[]).expect("the sheet is accepted"));
        let sum = |is: fn(f64) -> bool| decoded.as_ref().is_some_and(|decoded| is(decoded.sum));
        let lead = |is: fn(Option<f64>) -> bool| decoded.as_ref().is_some_and(|decoded| is(decoded.lead));
        let tied = || reference::tied(scores.as_ref().expect("accepted"), &decoded.as_ref().expect("accepted").path);
        assert_eq!(line.starts_with("PATH "), decoded.is_some(), "{line}");
        assert!(!refused(2), "the program lends enough");
        mix.case();
        mix.count("accepted", decoded.is_some());
        mix.count("refused 1", refused(1));
        mix.count("refused 4", refused(4));
        mix.count("refused 6", refused(6));
        mix.count("refused 6 at a place above 0", refused(6) && !line.ends_with(" 0\n"));
        mix.count("refused 10", refused(10));
        mix.count("a tie on the chosen path", decoded.is_some() && tied());
        mix.count("infinite sum", sum(f64::is_infinite));
        mix.count("sum −0", sum(|sum| same(sum, -0.0)));
        mix.count("subnormal sum", sum(f64::is_subnormal));
        mix.count("no lead", lead(|lead| lead.is_none()));
        mix.count("lead 0", lead(|lead| lead == Some(0.0)));
        mix.count("lead above 0", lead(|lead| lead.is_some_and(|lead| lead > 0.0)));
        mix.count("L above 9 and T above 49", scores.is_ok_and(|scores| scores.labels > 9 && scores.words > 49));
    }
    mix.finish();
}

/// Heads, lengths, bad numbers, ends, noise: each place and each value that was meant is there.
#[test]
fn no_place_is_left_out() {
    let p4 = p4();
    let heads = of(sheets::HEADS);
    for place in 0..HEAD {
        let only = |bytes: &&Vec<u8>| (0..p4.len()).all(|i| (bytes[i] == p4[i]) == (i != place));
        assert!(heads.iter().filter(only).count() >= 5, "byte {place} of the head");
    }
    assert!(of(sheets::LENGTHS).iter().map(Vec::len).eq(0..=80));

    let bad = of(sheets::NOT_NUMBERS);
    for place in 0..8 {
        for x in NOT_FINITE {
            let mut bytes = p4.clone();
            bytes[HEAD + 8 * place..][..8].copy_from_slice(&x.to_le_bytes());
            assert!(bad.contains(&bytes), "{x} at {place}");
            let place = if place < 4 { place } else { place - 4 };
            assert_eq!(judge::sheet_line(&bytes), format!("REFUSED 6 {place}\n"));
        }
    }

    let ends = of(sheets::ENDS);
    for labels in [0, 1, 32, 33] {
        for words in [0, 1, 128, 129] {
            let head = [b'T', b'L', b'G', 1, 0, labels, words, 0];
            let [labels, words] = [labels, words].map(usize::from);
            let whole = HEAD + 8 * labels * (labels + words);
            for length in [HEAD, whole] {
                let found = ends.iter().find(|bytes| bytes[..HEAD] == head && bytes.len() == length);
                let line = judge::sheet_line(found.expect("a sheet at the ends"));
                match (labels, words) {
                    (0 | 33, _) => assert_eq!(line, "REFUSED 1 0\n"),
                    (_, 0 | 129) => assert_eq!(line, "REFUSED 4 0\n"),
                    _ if length == HEAD => assert_eq!(line, "REFUSED 10 0\n"),
                    _ => assert!(line.starts_with("PATH ")),
                }
            }
        }
    }

    let noise: Vec<usize> = of(sheets::NOISE).iter().map(Vec::len).collect();
    assert!([LONGEST - 1, LONGEST, LONGEST + 1, 100_000].iter().all(|length| noise.contains(length)));
    assert_eq!(LONGEST, 40_968);
}

/// What a sample's name says is what its line says.
#[test]
fn samples_are_what_their_names_say() {
    let samples = sheets::samples();
    let names: BTreeSet<&String> = samples.iter().map(|(name, _)| name).collect();
    assert_eq!(names.len(), samples.len(), "each has a name of its own");
    for (name, bytes) in &samples {
        assert!(
            name.ends_with(".tlg")
                && name.bytes().all(|b| b.is_ascii_lowercase() || b.is_ascii_digit() || b"-.".contains(&b))
        );
        let line = judge::sheet_line(bytes);
        assert_eq!(line.starts_with("REFUSED "), name.starts_with("damaged-"), "{name}: {line}");
        let expected = match name.trim_start_matches("damaged-").trim_end_matches(".tlg") {
            "p4" => "PATH 4008000000000000 0,1\n",
            "p3-minus-zero" => "PATH 8000000000000000 1\n",
            "p5-all-zero" => "PATH 0000000000000000 2,2\n",
            "p7-infinite-sum" => "PATH 7FF0000000000000 0,0\n",
            "no-labels" | "33-labels" => "REFUSED 1 0\n",
            "no-words" | "129-words" => "REFUSED 4 0\n",
            "transition-3-nan" => "REFUSED 6 3\n",
            "state-1-infinite" => "REFUSED 6 1\n",
            _ if line.starts_with("PATH ") => &line,
            _ => "REFUSED 10 0\n",
        };
        assert_eq!(line, expected, "{name}");
    }
    let ties = &samples.iter().find(|(name, _)| name.starts_with("ties")).expect("a sample with ties").1;
    let scores = read(ties).expect("it is accepted");
    assert!(reference::tied(&scores, &judge::decode(&scores, &[]).expect("it is accepted").path));
}
