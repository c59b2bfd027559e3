//! P1 to P14 of document 01, by the Rust and by the reference beside it.

use oracle::refusals::{self, Refusal};
use oracle::tables::{Rule, Scores, Settings, all_same, same};
use oracle::{cases, desk, judge, reference, rust, trace};

#[test]
fn p1_to_p7() {
    for case in desk::decodings() {
        let name = case.name;
        let path = rust::decode(&case.scores).expect(name);
        assert_eq!(path, case.path, "{name}");
        assert_eq!(reference::by_all_paths(&case.scores), Some(path.clone()), "{name}");
        let decoded = judge::decode(&case.scores, &[]).expect(name);
        assert_eq!(decoded.path, case.path, "{name}");
        if let Some(sum) = case.sum {
            assert!(same(decoded.sum, sum), "{name}: {}", decoded.sum);
        }
        if let Some(lead) = case.lead {
            assert_eq!(decoded.lead, Some(lead), "{name}");
        }
        if let Some(score) = case.path_score {
            assert!(same(rust::path_score(&case.scores, &path).expect(name), score), "{name}");
        }
    }
}

/// "P8: empty path: +0."
#[test]
fn p8() {
    for case in desk::decodings() {
        assert!(same(rust::path_score(&case.scores, &[]).expect("P8"), 0.0));
        assert!(same(judge::path_score(&case.scores, &[], 0, &[]).expect("P8"), 0.0));
    }
}

#[test]
fn p9_to_p14() {
    for case in desk::trainings() {
        let (name, data) = (case.name, desk::data(case.reference));
        let trained = rust::train(&desk::model(), &data, &case.settings).expect(name);
        assert!(all_same(&trained.weights, &case.weights), "{name}: {:?}", trained.weights);
        assert_eq!(
            (trained.epochs, trained.visits, trained.updates),
            (case.epochs, case.epochs, case.updates),
            "{name}"
        );
        assert_eq!(judge::train(&desk::model(), &data, &case.settings, &[]), Ok(trained.clone()), "{name}");
        let trace = trace::train(&desk::model(), &data, &case.settings).expect(name);
        assert_eq!(trace.end, Ok(trained), "{name}");
        assert_eq!(trace.visits.len() as u64, case.epochs, "{name}");
    }
}

/// "nearest to 0.4 and −0.4", with both answers of the error-sensitive switch.
#[test]
fn p11_and_p12_under_either_switch() {
    for case in desk::trainings() {
        let mut settings = case.settings;
        if let Rule::PassiveAggressive { error_sensitive, .. } = &mut settings.rule {
            *error_sensitive = false;
            let trained = rust::train(&desk::model(), &desk::data(case.reference), &settings).expect(case.name);
            assert!(all_same(&trained.weights, &case.weights), "{}", case.name);
        }
    }
    assert_eq!(0.4f64.to_bits(), 0x3FD9_9999_9999_999A);
}

/// "For case P4 the input has 72 bytes .. and the output is"
#[test]
fn the_sheet_of_p4() {
    let p4 = desk::decodings().into_iter().find(|case| case.name == "P4").expect("P4");
    let bytes = cases::make::sheet(&p4.scores);
    assert_eq!(bytes.len(), 72);
    assert_eq!(bytes[..8], [0x54, 0x4C, 0x47, 0x01, 0x00, 0x02, 0x02, 0x00]);
    assert_eq!(judge::sheet_line(&bytes), "PATH 4008000000000000 0,1\n");
    assert_eq!(refusals::sheet(&bytes, |_, _| Vec::new()), Ok(p4.scores));
}

/// "Run only: L 0, 32, 33; T 0, 128, 129; N 0, 1; C = 0, NaN."
#[test]
fn cases_that_are_only_run() {
    let zeros = |labels: u32, words: u32| Scores {
        labels,
        words,
        states: vec![0.0; (labels * words) as usize],
        transitions: vec![0.0; (labels * labels) as usize],
    };
    let refused = |number, place| Err(Refusal { number, place });
    for (labels, words, answer) in [
        (0, 1, refused(1, 0)),
        (32, 1, Ok(())),
        (33, 1, refused(1, 0)),
        (1, 0, refused(4, 0)),
        (1, 128, Ok(())),
        (1, 129, refused(4, 0)),
        (33, 129, refused(1, 0)),
    ] {
        let scores = zeros(labels, words);
        assert_eq!(judge::decode(&scores, &[]).map(|_| ()), answer);
        if answer.is_ok() {
            assert_eq!(rust::decode(&scores), Ok(vec![labels - 1; words as usize]));
        }
    }
    let passive = |c| Settings {
        rule: Rule::PassiveAggressive { variant: 1, c, error_sensitive: true, averaging: true },
        epochs: 1,
        epsilon: 0.0,
        seed: 0,
    };
    let mut none = desk::data(0);
    none.instances = 0;
    assert_eq!(judge::train(&desk::model(), &none, &passive(1.0), &[]).map(|_| ()), refused(2, 0));
    assert_eq!(judge::train(&desk::model(), &desk::data(0), &passive(1.0), &[]).map(|_| ()), Ok(()));
    assert_eq!(judge::train(&desk::model(), &desk::data(0), &passive(0.0), &[]).map(|_| ()), refused(7, 3));
    assert_eq!(judge::train(&desk::model(), &desk::data(0), &passive(f64::NAN), &[]).map(|_| ()), refused(7, 3));
}
