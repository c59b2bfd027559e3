//! The example: what is owed for it is telling, and printed as C prints it.

use oracle::log_sheet::{self, COLUMNS, KNOWN, UNKNOWN, general};
use oracle::refusals::{self, Refusal};
use oracle::{judge, reference, rust, trace};

#[test]
fn each_word_has_its_column() {
    let (_, model) = log_sheet::trained();
    for (text, columns) in KNOWN {
        assert_eq!(text.split_whitespace().count(), columns.len(), "{text}");
        let decoded = judge::decode_line(&model, &log_sheet::line(text), &[]).expect(text);
        assert_eq!(decoded.path, columns, "{text}");
    }
    assert!(KNOWN.iter().all(|(text, _)| *text != UNKNOWN));
    let decoded = judge::decode_line(&model, &log_sheet::line(UNKNOWN), &[]).expect(UNKNOWN);
    assert_eq!(decoded.path, [0, 1, 2, 3, 4, 4, 4]);
}

/// The two single capital letters of the line differ in nothing but where they stand, and each was known in the other's
/// column alone.
#[test]
fn the_place_in_the_line_decides() {
    let line = log_sheet::line(UNKNOWN);
    let seen = |word: usize| {
        let range = line.starts[word] as usize..line.starts[word + 1] as usize;
        (&line.ids[range.clone()], &line.values[range])
    };
    assert_eq!(seen(2), seen(5));
    let only = |letter: &str, column: &str| {
        let mut known = KNOWN.iter().flat_map(|(text, columns)| text.split(' ').zip(*columns));
        known.all(|(word, number)| word != letter || COLUMNS[*number as usize] == column)
    };
    assert!(only("A", "zone mark") && only("B", "remark"));
}

#[test]
fn training_goes_on_past_the_first_epoch() {
    let (trained, _) = log_sheet::trained();
    let trace = trace::train(&log_sheet::model(), &log_sheet::data(), &log_sheet::SETTINGS).expect("it begins");
    let updates = |epoch: usize| trace.visits.iter().filter(|visit| visit.epoch == epoch && visit.wrong > 0).count();
    assert!(updates(1) > 0, "an update in the second epoch");
    assert_eq!(updates(trained.epochs as usize - 1), 0, "every line is right in the end");
    assert_eq!(trained.visits, trained.epochs * KNOWN.len() as u64);
}

/// Sum and lead by the reference, which is read from document 01 alone.
#[test]
fn sum_and_lead() {
    let (_, model) = log_sheet::trained();
    let line = log_sheet::line(UNKNOWN);
    let scores = rust::scores(&model, &line).expect("it is accepted");
    let decoded = judge::decode_line(&model, &line, &[]).expect("it is accepted");
    let tops = reference::final_scores(&scores);
    assert_eq!(tops[4], decoded.sum, "a remark is last");
    let rival = tops[..4].iter().copied().fold(f64::NEG_INFINITY, f64::max);
    assert_eq!(decoded.lead, Some(decoded.sum - rival));
    let text = log_sheet::text();
    assert!(text.contains(&format!("\nsum  {}\n", general(decoded.sum))));
    assert!(text.contains(&format!("\nlead {}\n", general(decoded.lead.expect("there is one")))));
}

#[test]
fn the_damaged_line() {
    let (_, model) = log_sheet::trained();
    let damaged = log_sheet::damaged();
    let place = damaged.starts[3];
    assert_eq!(refusals::line(&model, &damaged, &[]), Err(Refusal { number: 6, place }));
    assert!(log_sheet::text().contains(&format!("number 6, place {place}: ")));
}

/// Numbers as printf prints them.
#[test]
fn seventeen_digits() {
    let printed = [
        (0.0, "0"),
        (-0.0, "-0"),
        (1.0, "1"),
        (-2.5, "-2.5"),
        (100.0, "100"),
        (0.1, "0.10000000000000001"),
        (2.0 / 3.0, "0.66666666666666663"),
        (0.0001, "0.0001"),
        (0.00001, "1.0000000000000001e-05"),
        (9_007_199_254_740_991.0, "9007199254740991"),
        (12_345_678_901_234_568.0, "12345678901234568"),
        (99_999_999_999_999_984.0, "99999999999999984"),
        (1e17, "1e+17"),
        (f64::MAX, "1.7976931348623157e+308"),
        (f64::MIN_POSITIVE, "2.2250738585072014e-308"),
        (5e-324, "4.9406564584124654e-324"),
    ];
    for (x, text) in printed {
        assert_eq!(general(x), text);
        assert_eq!(text.parse::<f64>().expect(text).to_bits(), x.to_bits());
    }
}
