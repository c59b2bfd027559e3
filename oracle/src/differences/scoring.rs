//! Cases of calls on score tables, on a model and a line, and of `set_weights`.

use super::Call::{Arow, Check, Counts, Decode, Labels, Passive, PathScore, Perceptron, Scores, SetWeights};
use super::Did::{GoesOn, Infinite, NaN, NoSuchCall};
use super::{COMPARED, Call, Case, Did, INDEX, LENGTHS, Lists, Runs, case};
use crate::refusals::{ATTRIBUTE_LISTS, ATTRIBUTES_IN_ALL, ENTRIES, FEATURES, LABEL_LISTS, LABELS, WORDS};
use crate::tables::{STATE, TRANSITION};

pub const TABLES: Lists = &[sizes_of_tables, numbers_in_tables];
pub const MODELS: Lists = &[bounds_of_models, labels_in_models, ids_in_lists, weights_of_models];
pub const LINES: Lists = &[sizes_of_lines, values_of_lines, scores_and_counts];
pub const WEIGHTS: Lists = &[new_weights];

// ---- score tables

fn sizes_of_tables() -> Vec<Case> {
    vec![
        case("L of 0", "L 0", (1, 0), &[(&[Decode], GoesOn), (&[PathScore], INDEX)], |i| i.labels(0)),
        case("L of 0, two words", "L 0, T 2", (1, 0), &[(&[Decode, PathScore], INDEX)], |i| {
            i.labels(0);
            i.bare_words(2);
        }),
        case("L of 0, an empty path", "L 0, path empty", (1, 0), &[(&[PathScore], GoesOn)], |i| {
            i.labels(0);
            i.path.clear();
        }),
        case("L of 33", "L 33", (1, 0), &[(&[Decode, PathScore], GoesOn)], |i| i.labels(LABELS + 1)),
        case("T of 0", "T 0, path empty", (4, 0), &[(&[Decode], INDEX), (&[PathScore], GoesOn)], |i| i.bare_words(0)),
        case("T of 129", "T 129", (4, 0), &[(&[Decode, PathScore], GoesOn)], |i| i.bare_words(WORDS + 1)),
        case("A path longer than its table", "path 0,0", (4, 0), &[(&[PathScore], INDEX)], |i| i.path = vec![0, 0]),
        case("Fewer states than T·L", "no states", (2, 0), &[(&[Decode, PathScore], INDEX)], |i| {
            i.scores.states.clear();
        }),
        case(
            "Fewer transitions than L·L, one word",
            "no transitions",
            (2, 0),
            &[(&[Decode, PathScore], GoesOn)],
            |i| i.scores.transitions.clear(),
        ),
        case(
            "Fewer transitions than L·L, two words",
            "T 2, no transitions",
            (2, 0),
            &[(&[Decode, PathScore], INDEX)],
            |i| {
                i.bare_words(2);
                i.scores.transitions.clear();
            },
        ),
        case("A label of the path at or above L", "path 1", (5, 0), &[(&[PathScore], INDEX)], |i| i.path = vec![1]),
    ]
}

fn numbers_in_tables() -> Vec<Case> {
    vec![
        case(
            "A state that is a NaN, one label",
            "state 0 a NaN",
            (6, 0),
            &[(&[Decode], GoesOn), (&[PathScore], NaN)],
            |i| i.scores.states[0] = f64::NAN,
        ),
        case(
            "A state that is a NaN, two labels",
            "L 2, state 0 a NaN",
            (6, 0),
            &[(&[Decode], COMPARED), (&[PathScore], NaN)],
            |i| {
                i.labels(2);
                i.scores.states[0] = f64::NAN;
            },
        ),
        case(
            "A state of +infinity",
            "state 0 +infinity",
            (6, 0),
            &[(&[Decode], GoesOn), (&[PathScore], Infinite)],
            |i| i.scores.states[0] = f64::INFINITY,
        ),
        case(
            "A state of −infinity",
            "state 0 −infinity",
            (6, 0),
            &[(&[Decode], GoesOn), (&[PathScore], Infinite)],
            |i| i.scores.states[0] = f64::NEG_INFINITY,
        ),
        case(
            "A transition that is a NaN, one label",
            "T 2, transition 0 a NaN",
            (6, 0),
            &[(&[Decode], GoesOn), (&[PathScore], NaN)],
            |i| i.transition(1, 0, f64::NAN),
        ),
        case(
            "A transition that is a NaN, two labels",
            "L 2, T 2, transition 0 a NaN",
            (6, 0),
            &[(&[Decode], COMPARED), (&[PathScore], NaN)],
            |i| i.transition(2, 0, f64::NAN),
        ),
        case(
            "A transition of +infinity",
            "T 2, transition 0 +infinity",
            (6, 0),
            &[(&[Decode], GoesOn), (&[PathScore], Infinite)],
            |i| i.transition(1, 0, f64::INFINITY),
        ),
        case(
            "A transition of −infinity",
            "T 2, transition 0 −infinity",
            (6, 0),
            &[(&[Decode], GoesOn), (&[PathScore], Infinite)],
            |i| i.transition(1, 0, f64::NEG_INFINITY),
        ),
        case(
            "Infinities of both signs on one path",
            "L 2, T 2, state 0 +infinity, transition 0 −infinity",
            (6, 0),
            &[(&[Decode], COMPARED), (&[PathScore], NaN)],
            |i| {
                i.transition(2, 0, f64::NEG_INFINITY);
                i.scores.states[0] = f64::INFINITY;
            },
        ),
        case(
            "A transition that is a NaN, where one word uses none",
            "transition 0 a NaN",
            (6, 0),
            &[(&[Decode, PathScore], GoesOn)],
            |i| i.scores.transitions[0] = f64::NAN,
        ),
        case("A state that is a NaN, off the path", "L 2, state 1 a NaN", (6, 1), &[(&[PathScore], GoesOn)], |i| {
            i.labels(2);
            i.scores.states[1] = f64::NAN;
        }),
        case(
            "A transition that is a NaN, off the path",
            "L 2, T 2, transition 1 a NaN",
            (6, 1),
            &[(&[PathScore], GoesOn)],
            |i| i.transition(2, 1, f64::NAN),
        ),
        case(
            "A state that is a NaN, behind a short path",
            "T 2, path 0, state 1 a NaN",
            (6, 1),
            &[(&[PathScore], GoesOn)],
            |i| {
                i.bare_words(2);
                i.path = vec![0];
                i.scores.states[1] = f64::NAN;
            },
        ),
        case(
            "A state that is a NaN, and an empty path",
            "path empty, state 0 a NaN",
            (6, 0),
            &[(&[PathScore], GoesOn)],
            |i| {
                i.path.clear();
                i.scores.states[0] = f64::NAN;
            },
        ),
    ]
}

// ---- models

/// Every call on a model but the check.
const ON_MODELS: &[Call] = &[Scores, Labels, Counts, Perceptron, Passive, Arow];
/// Those of them that score.
const SCORING: &[Call] = &[Scores, Labels, Perceptron, Passive, Arow];
const CHECKED: (&[Call], Did) = (&[Check], NoSuchCall);

fn bounds_of_models() -> Vec<Case> {
    const ON: Runs = &[CHECKED, (ON_MODELS, GoesOn)];
    vec![
        case("L of 0", "L 0", (1, 0), ON, |i| i.labels(0)),
        case(
            "L of 0, a feature in use",
            "L 0, a State to 0 in use",
            (1, 0),
            &[CHECKED, (SCORING, INDEX), (&[Counts], GoesOn)],
            |i| {
                i.labels(0);
                i.state(0);
            },
        ),
        case("L of 33", "L 33", (1, 0), ON, |i| i.labels(LABELS + 1)),
        case("F of 65,536", "65,536 States to 0 in no list", (2, 0), ON, |i| {
            i.features(&vec![(STATE, 0, 0); FEATURES as usize + 1]);
        }),
        case("65,536 attribute lists", "all empty", (2, 0), ON, |i| {
            i.attribute_lists(&vec![[]; ATTRIBUTE_LISTS as usize + 1]);
        }),
        case("33 label lists", "all empty", (2, 0), ON, |i| i.label_lists(&[[]; LABEL_LISTS as usize + 1])),
        case("1,048,577 entries of attribute lists", "a State to 0, so often in attribute list 0", (2, 0), ON, |i| {
            i.features(&[(STATE, 0, 0)]);
            i.attribute_lists(&[vec![0; ENTRIES as usize + 1]]);
        }),
        case("1,048,577 entries of label lists", "a State to 0, so often in label list 0", (2, 0), ON, |i| {
            i.features(&[(STATE, 0, 0)]);
            i.label_lists(&[vec![0; ENTRIES as usize + 1]]);
        }),
    ]
}

fn labels_in_models() -> Vec<Case> {
    const ON: Runs = &[CHECKED, (ON_MODELS, GoesOn)];
    const SCORED: Runs = &[CHECKED, (SCORING, INDEX), (&[Counts], GoesOn)];
    vec![
        case("A State's destination at or above L", "a State to 1 in use", (5, 0), SCORED, |i| i.state(1)),
        case("A Transition's destination at or above L", "a Transition 0 to 1 in use", (5, 0), SCORED, |i| {
            i.transition_feature(0, 1);
        }),
        case("A Transition's source at or above L", "a Transition 1 to 0 in use", (5, 0), SCORED, |i| {
            i.transition_feature(1, 0);
        }),
        case("A State's destination at or above L, in no list", "a State to 1 in no list", (5, 0), ON, |i| {
            i.features(&[(STATE, 0, 1)]);
        }),
        case(
            "A Transition's destination at or above L, in no list",
            "a Transition 0 to 1 in no list",
            (5, 0),
            ON,
            |i| {
                i.features(&[(TRANSITION, 0, 1)]);
            },
        ),
        case("A Transition's source at or above L, in no list", "a Transition 1 to 0 in no list", (5, 0), ON, |i| {
            i.features(&[(TRANSITION, 1, 0)]);
        }),
        case(
            "A State's destination at or above L, in a label list only",
            "a State to 1 in label list 0",
            (5, 0),
            ON,
            |i| {
                i.features(&[(STATE, 0, 1)]);
                i.label_lists(&[[0]]);
            },
        ),
        case(
            "A Transition's source at or above L, in an attribute list only",
            "a Transition 1 to 0 in attribute list 0; attribute 0",
            (5, 0),
            ON,
            |i| {
                i.features(&[(TRANSITION, 1, 0)]);
                i.attribute_lists(&[[0]]);
                i.words(&[&[(0, 1.0)]]);
            },
        ),
    ]
}

fn ids_in_lists() -> Vec<Case> {
    const ON: Runs = &[CHECKED, (ON_MODELS, GoesOn)];
    const READ: Runs = &[CHECKED, (ON_MODELS, INDEX)];
    vec![
        case(
            "An id at or above F in an attribute list",
            "F 0, attribute list 0 names feature 0; attribute 0",
            (5, 0),
            READ,
            |i| {
                i.attribute_lists(&[[0]]);
                i.words(&[&[(0, 1.0)]]);
            },
        ),
        case(
            "An id at or above F in a list that no attribute names",
            "F 0, attribute list 0 names feature 0",
            (5, 0),
            ON,
            |i| i.attribute_lists(&[[0]]),
        ),
        case(
            "An id at or above F in a label list, one word",
            "F 0, label list 0 names feature 0",
            (5, 0),
            &[CHECKED, (SCORING, INDEX), (&[Counts], GoesOn)],
            |i| i.label_lists(&[[0]]),
        ),
        case(
            "An id at or above F in a label list, two words",
            "T 2, F 0, label list 0 names feature 0",
            (5, 0),
            READ,
            |i| {
                i.bare_words(2);
                i.label_lists(&[[0]]);
            },
        ),
        case(
            "An id at or above F in a label list at or above L",
            "F 0, two label lists, the second names feature 0",
            (5, 0),
            ON,
            |i| i.label_lists(&[&[][..], &[0]]),
        ),
    ]
}

/// Counts and trainers are lent no weights.
fn weights_of_models() -> Vec<Case> {
    const ON: Runs = &[CHECKED, (&[Scores, Labels], GoesOn)];
    const ONE: Runs = &[CHECKED, (&[Scores], NaN), (&[Labels], GoesOn)];
    const TWO: Runs = &[CHECKED, (&[Scores], NaN), (&[Labels], COMPARED)];
    const LARGE: Runs = &[CHECKED, (&[Scores], Infinite), (&[Labels], GoesOn)];
    vec![
        case("A State's weight that is a NaN, one label", "a State to 0 in use, its weight a NaN", (6, 0), ONE, |i| {
            i.state(0);
            i.model.weights[0] = f64::NAN;
        }),
        case(
            "A State's weight that is a NaN, two labels",
            "L 2, a State to 0 in use, its weight a NaN",
            (6, 0),
            TWO,
            |i| {
                i.labels(2);
                i.state(0);
                i.model.weights[0] = f64::NAN;
            },
        ),
        case("A State's weight that is infinite", "a State to 0 in use, its weight infinite", (6, 0), LARGE, |i| {
            i.state(0);
            i.model.weights[0] = f64::INFINITY;
        }),
        case(
            "An infinite weight meets a value of 0",
            "L 2, a State to 0 in use, its weight infinite; value 0",
            (6, 0),
            TWO,
            |i| {
                i.labels(2);
                i.state(0);
                i.model.weights[0] = f64::INFINITY;
                i.words(&[&[(0, 0.0)]]);
            },
        ),
        case(
            "A Transition's weight that is a NaN, one word",
            "a Transition 0 to 0 in use, its weight a NaN",
            (6, 0),
            ONE,
            |i| {
                i.transition_feature(0, 0);
                i.model.weights[0] = f64::NAN;
            },
        ),
        case(
            "A Transition's weight that is a NaN, two words",
            "L 2, T 2, a Transition 0 to 0 in use, its weight a NaN",
            (6, 0),
            TWO,
            |i| {
                i.labels(2);
                i.bare_words(2);
                i.transition_feature(0, 0);
                i.model.weights[0] = f64::NAN;
            },
        ),
        case(
            "A Transition's weight that is infinite",
            "a Transition 0 to 0 in use, its weight infinite",
            (6, 0),
            LARGE,
            |i| {
                i.transition_feature(0, 0);
                i.model.weights[0] = f64::INFINITY;
            },
        ),
        case(
            "A weight that is a NaN, of a feature in no list",
            "a State to 0 in no list, its weight a NaN",
            (6, 0),
            ON,
            |i| {
                i.features(&[(STATE, 0, 0)]);
                i.model.weights[0] = f64::NAN;
            },
        ),
        case(
            "A weight that is a NaN, of a feature in a label list at or above L",
            "a Transition 0 to 0 in the second of two label lists, its weight a NaN",
            (6, 0),
            ON,
            |i| {
                i.features(&[(TRANSITION, 0, 0)]);
                i.label_lists(&[&[][..], &[0]]);
                i.model.weights[0] = f64::NAN;
            },
        ),
    ]
}

// ---- lines

fn sizes_of_lines() -> Vec<Case> {
    const ON: Runs = &[(&[Scores, Labels, Counts], GoesOn)];
    vec![
        case("T of 0", "T 0", (4, 0), &[(&[Scores, Counts], GoesOn), (&[Labels], INDEX)], |i| i.bare_words(0)),
        case("T of 129", "T 129", (4, 0), ON, |i| i.bare_words(WORDS + 1)),
        case("4,194,305 attributes", "so many in one word, all of id 0, without a list", (2, 0), ON, |i| {
            i.words(&[&vec![(0, 1.0); ATTRIBUTES_IN_ALL as usize + 1]]);
        }),
        case("Fewer labels than words, one word", "no label", (2, 0), &[(&[Counts], GoesOn)], |i| i.path.clear()),
        case("Fewer labels than words, two words", "T 2, one label", (2, 0), &[(&[Counts], INDEX)], |i| {
            i.bare_words(2);
            i.path = vec![0];
        }),
        case("A label at or above L", "label 1", (5, 0), &[(&[Counts], GoesOn)], |i| i.path = vec![1]),
    ]
}

fn values_of_lines() -> Vec<Case> {
    const ON: Runs = &[(&[Scores, Labels, Counts], GoesOn)];
    vec![
        case(
            "A value that is a NaN, one label",
            "a State to 0 in use; value NaN",
            (6, 0),
            &[(&[Scores, Counts], NaN), (&[Labels], GoesOn)],
            |i| i.state_of_value(0, f64::NAN),
        ),
        case(
            "A value that is a NaN, two labels",
            "L 2, a State to 0 in use; value NaN",
            (6, 0),
            &[(&[Scores, Counts], NaN), (&[Labels], COMPARED)],
            |i| {
                i.labels(2);
                i.state_of_value(0, f64::NAN);
            },
        ),
        case(
            "An infinite value",
            "a State to 0 in use, its weight 1; value infinite",
            (6, 0),
            &[(&[Scores, Counts], Infinite), (&[Labels], GoesOn)],
            |i| {
                i.state_of_value(0, f64::INFINITY);
                i.model.weights[0] = 1.0;
            },
        ),
        case(
            "An infinite value meets a weight of 0",
            "L 2, a State to 0 in use, its weight 0; value infinite",
            (6, 0),
            &[(&[Scores], NaN), (&[Labels], COMPARED), (&[Counts], Infinite)],
            |i| {
                i.labels(2);
                i.state_of_value(0, f64::INFINITY);
            },
        ),
        case("A value that is a NaN, of an id without a list", "attribute 0, its value a NaN", (6, 0), ON, |i| {
            i.words(&[&[(0, f64::NAN)]]);
        }),
        case(
            "A value that is a NaN, of an id with an empty list",
            "attribute list 0 empty; value NaN",
            (6, 0),
            ON,
            |i| {
                i.attribute_lists(&[[]]);
                i.words(&[&[(0, f64::NAN)]]);
            },
        ),
        case(
            "A value that is a NaN, of an id whose list has a Transition only",
            "a Transition 0 to 0 in attribute list 0; value NaN",
            (6, 0),
            ON,
            |i| {
                i.state_of_value(0, f64::NAN);
                i.model.kinds[0] = TRANSITION;
            },
        ),
        case(
            "A value that is a NaN, of a State to another label",
            "L 2, a State to 1 in use; value NaN",
            (6, 0),
            &[(&[Counts], GoesOn)],
            |i| {
                i.labels(2);
                i.state_of_value(1, f64::NAN);
            },
        ),
    ]
}

/// What is finite in every table, and not in the answer.
fn scores_and_counts() -> Vec<Case> {
    vec![
        case(
            "A state score overflows",
            "a State to 0 in use, its weight 1e308; value 10",
            (8, 0),
            &[(&[Scores], Infinite), (&[Labels], GoesOn)],
            |i| {
                i.state_of_value(0, 10.0);
                i.model.weights[0] = 1e308;
            },
        ),
        case(
            "A state score is infinity less infinity",
            "L 2, a State to 0 in use, its weight 1e308; values 10 and −10 in one word",
            (8, 0),
            &[(&[Scores], NaN), (&[Labels], COMPARED)],
            |i| {
                i.labels(2);
                i.state(0);
                i.words(&[&[(0, 10.0), (0, -10.0)]]);
                i.model.weights[0] = 1e308;
            },
        ),
        case(
            "A transition score overflows",
            "a Transition 0 to 0, its weight 1e308, twice in label list 0",
            (8, 1),
            &[(&[Scores], Infinite), (&[Labels], GoesOn)],
            |i| {
                i.features(&[(TRANSITION, 0, 0)]);
                i.label_lists(&[[0, 0]]);
                i.model.weights[0] = 1e308;
            },
        ),
        case(
            "A count overflows",
            "a State to 0 in use; value 1e308 twice in one word",
            (8, 0),
            &[(&[Counts], Infinite)],
            |i| {
                i.state(0);
                i.words(&[&[(0, 1e308), (0, 1e308)]]);
            },
        ),
    ]
}

// ---- set_weights

fn new_weights() -> Vec<Case> {
    vec![
        case("Fewer weights than features", "F 1, no weights", (2, 0), &[(&[SetWeights], LENGTHS)], |i| {
            i.features(&[(STATE, 0, 0)]);
        }),
        case("More weights than features", "F 0, one weight", (0, 0), &[(&[SetWeights], LENGTHS)], |i| {
            i.new = vec![1.0];
        })
        .accepted(),
        case("65,536 weights", "F 65,536", (2, 0), &[(&[SetWeights], GoesOn)], |i| {
            let features = FEATURES as usize + 1;
            i.features(&vec![(STATE, 0, 0); features]);
            i.new = vec![0.0; features];
        }),
        case("A weight that is a NaN", "F 1, the weight a NaN", (6, 0), &[(&[SetWeights], NaN)], |i| {
            i.features(&[(STATE, 0, 0)]);
            i.new = vec![f64::NAN];
        }),
        case("An infinite weight", "F 1, the weight infinite", (6, 0), &[(&[SetWeights], Infinite)], |i| {
            i.features(&[(STATE, 0, 0)]);
            i.new = vec![f64::INFINITY];
        }),
    ]
}
