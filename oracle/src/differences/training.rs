//! Cases of the shuffle and of the three trainers: their instances, their parameters, and 8 and 9.

use super::Call::{Arow, Passive, Perceptron, Shuffle};
use super::Did::{GoesOn, Infinite, NaN, SetterRefuses};
use super::Found::{Covariance, Loss, PredictedCounts, RunningSums, States, Transitions, TrueCounts, Weights};
use super::{COMPARED, Case, INDEX, Lists, Runs, TRAINERS, case};
use crate::refusals::{self, ATTRIBUTES_IN_ALL, EPOCHS, WORDS, WORDS_IN_ALL};
use crate::tables::{STATE, TRANSITION};

pub const ORDERS: Lists = &[orders];
pub const INSTANCES: Lists = &[bounds_of_data, numbers_in_data];
pub const PARAMETERS: Lists = &[epochs_and_epsilon, own_parameters];
pub const NOT_FINITE: Lists = &[eight, nine_by_weight, nine_by_sum_or_covariance, nine_by_loss];

// ---- the shuffle

fn orders() -> Vec<Case> {
    const ON: Runs = &[(&[Shuffle], GoesOn)];
    vec![
        case("An order of no numbers", "an empty order", (2, 0), ON, |i| i.order.clear()),
        case("An order of 16,385 numbers", "0 to 16,384", (2, 0), ON, |i| {
            i.order = (0..=refusals::INSTANCES).collect()
        }),
    ]
}

// ---- instances

const ALL_GO_ON: Runs = &[(&TRAINERS, GoesOn)];
const ALL_NAN: Runs = &[(&TRAINERS, NaN)];
const ALL_COMPARED: Runs = &[(&TRAINERS, COMPARED)];
const ALL_SETTERS: Runs = &[(&TRAINERS, SetterRefuses)];

fn bounds_of_data() -> Vec<Case> {
    vec![
        case("N of 0", "N 0", (2, 0), ALL_GO_ON, |i| i.instances(&[])),
        case("N of 16,385", "N 16,385", (2, 0), ALL_GO_ON, |i| i.instances(&vec![1; refusals::INSTANCES as usize + 1])),
        case("1,048,577 words in all", "8,192 instances of 128 words and one of 1", (2, 0), ALL_GO_ON, |i| {
            let mut lengths = vec![WORDS; (WORDS_IN_ALL / WORDS) as usize];
            lengths.push(1);
            i.instances(&lengths);
        }),
        case("4,194,305 attributes in all", "so many in one word, without a list", (2, 0), ALL_GO_ON, |i| {
            i.words(&[&vec![(0, 1.0); ATTRIBUTES_IN_ALL as usize + 1]]);
        }),
        case("An instance without words", "T 0", (4, 0), &[(&TRAINERS, INDEX)], |i| i.bare_words(0)),
        case("A second instance without words", "N 2, T 1 and 0", (4, 1), &[(&TRAINERS, INDEX)], |i| {
            i.instances(&[1, 0])
        }),
        case("An instance of 129 words", "T 129", (4, 0), ALL_GO_ON, |i| i.bare_words(WORDS + 1)),
        case(
            "A reference label at or above L",
            "reference 1",
            (5, 0),
            &[(&[Perceptron], GoesOn), (&[Passive, Arow], INDEX)],
            |i| i.data.references = vec![1],
        ),
    ]
}

/// With L 2 and every weight 0 label 1 is predicted, so that reference 0 differs.
fn numbers_in_data() -> Vec<Case> {
    vec![
        case("A value that is a NaN, one label", "a State to 0 in use; value NaN", (6, 0), ALL_GO_ON, |i| {
            i.state_of_value(0, f64::NAN);
        }),
        case("A value that is a NaN, two labels", "L 2, a State to 0 in use; value NaN", (6, 0), ALL_COMPARED, |i| {
            i.labels(2);
            i.state_of_value(0, f64::NAN);
        }),
        case(
            "An infinite value meets a weight of 0",
            "L 2, a State to 0 in use; value infinite",
            (6, 0),
            ALL_COMPARED,
            |i| {
                i.labels(2);
                i.state_of_value(0, f64::INFINITY);
            },
        ),
        case(
            "A value that is a NaN, of an id without a list",
            "attribute 0, its value a NaN",
            (6, 0),
            ALL_GO_ON,
            |i| {
                i.words(&[&[(0, f64::NAN)]]);
            },
        ),
        case("An instance weight that is a NaN, labels agree", "instance weight NaN", (6, 0), ALL_GO_ON, |i| {
            i.data.weights[0] = f64::NAN;
        }),
        case("An instance weight that is a NaN, no features", "L 2, instance weight NaN", (6, 0), ALL_GO_ON, |i| {
            i.labels(2);
            i.data.weights[0] = f64::NAN;
        }),
        case(
            "An instance weight that is a NaN, labels differ",
            "L 2, a State in no list, instance weight NaN",
            (6, 0),
            ALL_NAN,
            |i| {
                i.labels(2);
                i.features(&[(STATE, 0, 0)]);
                i.data.weights[0] = f64::NAN;
            },
        ),
        case(
            "An infinite instance weight, labels differ",
            "L 2, a State in no list, instance weight infinite",
            (6, 0),
            ALL_NAN,
            |i| {
                i.labels(2);
                i.features(&[(STATE, 0, 0)]);
                i.data.weights[0] = f64::INFINITY;
            },
        ),
        case(
            "An instance weight that is a NaN, two epochs",
            "L 2, a State to 0 in use, instance weight NaN, 2 epochs",
            (6, 0),
            ALL_COMPARED,
            |i| {
                i.labels(2);
                i.state(0);
                i.data.weights[0] = f64::NAN;
                i.epochs = 2;
            },
        ),
    ]
}

// ---- parameters

fn epochs_and_epsilon() -> Vec<Case> {
    vec![
        case("No epochs", "epochs 0", (7, 1), ALL_SETTERS, |i| i.epochs = 0),
        case("1,001 epochs", "epochs 1,001", (7, 1), ALL_GO_ON, |i| i.epochs = EPOCHS + 1),
        case("Epsilon below 0", "epsilon −1", (7, 2), ALL_SETTERS, |i| i.epsilon = -1.0),
        case("Epsilon of −infinity", "epsilon −infinity", (7, 2), ALL_SETTERS, |i| i.epsilon = f64::NEG_INFINITY),
        case("Epsilon of +infinity", "epsilon +infinity", (7, 2), ALL_GO_ON, |i| i.epsilon = f64::INFINITY),
        case("Epsilon that is a NaN", "epsilon NaN", (7, 2), ALL_GO_ON, |i| i.epsilon = f64::NAN),
    ]
}

fn own_parameters() -> Vec<Case> {
    const C: Runs = &[(&[Passive], GoesOn)];
    const SETS_C: Runs = &[(&[Passive], SetterRefuses)];
    const AROW: Runs = &[(&[Arow], GoesOn)];
    const SETS_AROW: Runs = &[(&[Arow], SetterRefuses)];
    const AROW_NAN: Runs = &[(&[Arow], NaN)];
    let of_variance = |name, words, runs, change| case(name, words, (7, 3), runs, change);
    let of_gamma = |name, words, runs, change| case(name, words, (7, 4), runs, change);
    vec![
        case("C of 0", "C 0", (7, 3), SETS_C, |i| i.c = 0.0),
        case("C below 0", "C −1", (7, 3), SETS_C, |i| i.c = -1.0),
        case("C of +infinity, in a quotient", "L 2, a State to 0 in use, PaII, C +infinity", (7, 3), C, |i| {
            i.pa2(f64::INFINITY)
        }),
        case("C that is a NaN, where Pa does not use it", "Pa, C NaN", (7, 3), C, |i| {
            i.variant = 0;
            i.c = f64::NAN;
        }),
        case("C that is a NaN, in `min`", "L 2, a State to 0 in use, PaI, C NaN", (7, 3), C, |i| {
            i.pa2(f64::NAN);
            i.variant = 1;
        }),
        case(
            "C that is a NaN, in a quotient",
            "L 2, a State to 0 in use, PaII, C NaN",
            (7, 3),
            &[(&[Passive], NaN)],
            |i| i.pa2(f64::NAN),
        ),
        of_variance("Variance of 0", "variance 0", SETS_AROW, |i| i.variance = 0.0),
        of_variance("Variance below 0", "variance −1", SETS_AROW, |i| i.variance = -1.0),
        of_variance("Variance that is a NaN, labels agree", "variance NaN", AROW, |i| i.variance = f64::NAN),
        of_variance("Variance that is a NaN, labels differ", "L 2, a State in no list, variance NaN", AROW_NAN, |i| {
            i.differing();
            i.variance = f64::NAN;
        }),
        of_variance("Variance of +infinity", "L 2, a State in no list, variance +infinity", AROW_NAN, |i| {
            i.differing();
            i.variance = f64::INFINITY;
        }),
        of_gamma("Gamma of 0", "gamma 0", SETS_AROW, |i| i.gamma = 0.0),
        of_gamma("Gamma below 0", "gamma −1", SETS_AROW, |i| i.gamma = -1.0),
        of_gamma("Gamma that is a NaN, labels agree", "gamma NaN", AROW, |i| i.gamma = f64::NAN),
        of_gamma("Gamma that is a NaN, labels differ", "L 2, a State in no list, gamma NaN", AROW_NAN, |i| {
            i.differing();
            i.gamma = f64::NAN;
        }),
        of_gamma("Gamma of +infinity", "L 2, a State in no list, gamma +infinity", AROW, |i| {
            i.differing();
            i.gamma = f64::INFINITY;
        }),
    ]
}

// ---- 8 and 9 of the trainers

fn eight() -> Vec<Case> {
    vec![
        case(
            "A state score overflows, and the labels agree",
            "L 2, a State to 0 in use; value 1e200; 2 epochs",
            (8, 1),
            &[(&[Perceptron], GoesOn)],
            |i| {
                i.labels(2);
                i.state_of_value(0, 1e200);
                i.epochs = 2;
            },
        )
        .found(&[States]),
        case(
            "A state score overflows, and the labels differ",
            "L 2, T 2, a State to 0 in use; values 1e200 and 1e-150; references 1,0; Pa; gamma 1e-300; 2 epochs",
            (8, 1),
            &[(&[Passive, Arow], NaN)],
            |i| i.growing(&[(0, 1e200)]),
        )
        .found(&[States]),
        case(
            "A state score is infinity less infinity",
            "L 2, a State to 0 in use; values 1e200 and −1e199 in one word; 2 epochs",
            (8, 1),
            &[(&[Perceptron], COMPARED)],
            |i| {
                i.labels(2);
                i.state(0);
                i.words(&[&[(0, 1e200), (0, -1e199)]]);
                i.epochs = 2;
            },
        )
        .found(&[States]),
        case(
            "A state score is infinity less infinity, two words",
            "L 2, T 2, a State to 0 in use; values 1e200 and −1e200 in word 0, 1e-150 in word 1; references 1,0; Pa; gamma 1e-300; 2 epochs",
            (8, 1),
            &[(&[Passive, Arow], COMPARED)],
            |i| i.growing(&[(0, 1e200), (0, -1e200)]),
        )
        .found(&[States]),
        case(
            "A transition score overflows",
            "L 2, T 2, a Transition 0 to 0 in label lists 0 and 1; instance weight 1.2e308; 2 epochs",
            (8, 1),
            &[(&[Perceptron, Passive], GoesOn)],
            |i| {
                i.labels(2);
                i.bare_words(2);
                i.features(&[(TRANSITION, 0, 0)]);
                i.label_lists(&[[0], [0]]);
                i.data.weights[0] = 1.2e308;
                i.epochs = 2;
            },
        )
        .found(&[Transitions]),
        case(
            "A true count overflows",
            "L 2, a State to 0 in use; value 1e308 twice in one word",
            (8, 0),
            ALL_NAN,
            |i| i.counting(0),
        )
        .found(&[TrueCounts]),
        case(
            "A predicted count overflows",
            "L 2, a State to 1 in use; value 1e308 twice in one word",
            (8, 0),
            ALL_NAN,
            |i| i.counting(1),
        )
        .found(&[PredictedCounts]),
    ]
}

fn nine_by_weight() -> Vec<Case> {
    vec![
        case(
            "A weight overflows, and its running sum with it",
            "L 2, a State to 0 in use; value 1e200; instance weight 1e200",
            (9, 0),
            &[(&[Perceptron], NaN)],
            |i| {
                i.labels(2);
                i.state_of_value(0, 1e200);
                i.data.weights[0] = 1e200;
            },
        )
        .found(&[Weights, RunningSums]),
        case(
            "A weight overflows, and the next visit is infinity times 0",
            "L 2, a State to 0 in use; values 1e200 and 0 in one word; instance weight 1e200; 2 epochs",
            (9, 0),
            &[(&[Perceptron], COMPARED)],
            |i| {
                i.labels(2);
                i.state(0);
                i.words(&[&[(0, 1e200), (0, 0.0)]]);
                i.data.weights[0] = 1e200;
                i.epochs = 2;
            },
        )
        .found(&[Weights, RunningSums]),
        case(
            "A weight overflows, without averaging",
            "L 2, a State to 0 in use; value 1e-160; Pa, no averaging",
            (9, 0),
            &[(&[Passive], Infinite)],
            |i| {
                i.labels(2);
                i.state_of_value(0, 1e-160);
                i.variant = 0;
                i.averaging = false;
            },
        )
        .found(&[Weights]),
        case(
            "A weight overflows beside a finite covariance",
            "L 2, a State to 0 in use; value 1e-200; variance 1e200, gamma 1e-200",
            (9, 0),
            &[(&[Arow], Infinite)],
            |i| {
                i.labels(2);
                i.state_of_value(0, 1e-200);
                i.variance = 1e200;
                i.gamma = 1e-200;
            },
        )
        .found(&[Weights]),
    ]
}

fn nine_by_sum_or_covariance() -> Vec<Case> {
    vec![
        case(
            "A running sum overflows beside a finite weight",
            "L 2, T 2, a State to 0 in use; references 0,1; instance weight 1e308; 2 epochs",
            (9, 1),
            &[(&[Perceptron], Infinite)],
            |i| i.both_ways(),
        )
        .found(&[RunningSums]),
        case(
            "A running sum overflows beside a finite weight, two instances",
            "L 2, N 2, a State to 0 in use in the second; references 1 and 0; instance weights 1 and 1e308; seed 0, which keeps the order",
            (9, 1),
            &[(&[Passive], Infinite)],
            |i| {
                i.labels(2);
                i.state(0);
                i.instances(&[1, 1]);
                i.data.attributes = 1;
                i.data.attribute_starts = vec![0, 0, 1];
                (i.data.ids, i.data.values) = (vec![0], vec![1.0]);
                i.data.references = vec![1, 0];
                i.data.weights = vec![1.0, 1e308];
            },
        )
        .found(&[RunningSums]),
        case(
            "A covariance overflows",
            "L 2, a State in no list; variance the largest finite",
            (9, 0),
            &[(&[Arow], GoesOn)],
            |i| {
                i.differing();
                i.variance = f64::MAX;
            },
        )
        .found(&[Covariance]),
    ]
}

fn nine_by_loss() -> Vec<Case> {
    vec![
        case(
            "The epoch loss overflows in the second visit",
            "L 2, N 2; instance weights 1.5e308",
            (9, 1),
            ALL_GO_ON,
            |i| {
                i.labels(2);
                i.instances(&[1, 1]);
                i.data.weights = vec![1.5e308; 2];
            },
        )
        .found(&[Loss]),
        case(
            "The epoch loss overflows in the first visit",
            "L 2, T 2; instance weight 1.5e308",
            (9, 0),
            &[(&[Passive, Arow], GoesOn)],
            |i| {
                i.labels(2);
                i.bare_words(2);
                i.data.weights = vec![1.5e308];
            },
        )
        .found(&[Loss]),
        case(
            "A path score is infinite, and `min` gives C",
            "L 2, T 2, a State to 0 in use; references 0,1; instance weight 1e308; PaI, no averaging; 2 epochs",
            (9, 1),
            &[(&[Passive], GoesOn)],
            |i| {
                i.both_ways();
                i.averaging = false;
            },
        )
        .found(&[Loss]),
        case(
            "A path score is infinite, and nothing bounds the step",
            "L 2, T 2, a State to 0 in use; references 0,1; instance weight 1e308; Pa, no averaging; 2 epochs",
            (9, 1),
            &[(&[Passive], Infinite)],
            |i| {
                i.both_ways();
                i.averaging = false;
                i.variant = 0;
            },
        )
        .found(&[Weights, Loss]),
    ]
}
