//! The plain checker on hand-made cases: every row of the table of refusals, its place, and the order of the rows.

use oracle::refusals::{self, Lent, Refusal};
use oracle::tables::{Counts, Data, Line, Model, Rule, Scores, Settings};

type Checked = Result<(), Refusal>;

const fn refused(number: u32, place: u32) -> Checked {
    Err(Refusal { number, place })
}

const NAN: f64 = f64::NAN;
const INF: f64 = f64::INFINITY;

/// Three labels, four features, two attribute lists, three label lists; the sources of State features are no labels.
fn model() -> Model {
    Model {
        labels: 3,
        counts: Counts { features: 4, attribute_lists: 2, label_lists: 3, attribute_entries: 3, label_entries: 2 },
        kinds: vec![0, 1, 0, 1],
        destinations: vec![0, 1, 2, 0],
        sources: vec![9, 0, 77, 2],
        weights: vec![1.0, -0.0, 5e-324, f64::MAX],
        attribute_starts: vec![0, 2, 3],
        attribute_entries: vec![0, 2, 1],
        label_starts: vec![0, 1, 1, 2],
        label_entries: vec![1, 3],
    }
}

/// Two words, three attributes, one of them without a list.
fn line() -> Line {
    Line { words: 2, attributes: 3, starts: vec![0, 1, 3], ids: vec![0, 1, u32::MAX], values: vec![1.0, -1.0, 0.0] }
}

/// Two instances of two words and one.
fn data() -> Data {
    Data {
        instances: 2,
        words: 3,
        attributes: 2,
        word_starts: vec![0, 2, 3],
        attribute_starts: vec![0, 1, 2, 2],
        ids: vec![0, 9],
        values: vec![1.0, 2.0],
        references: vec![0, 1, 2],
        weights: vec![1.0, -0.0],
    }
}

fn scores() -> Scores {
    Scores { labels: 2, words: 3, states: vec![0.0; 6], transitions: vec![1.0; 4] }
}

const PA: Rule = Rule::PassiveAggressive { variant: 2, c: 1.0, error_sensitive: true, averaging: false };
const AROW: Rule = Rule::Arow { variance: 1.0, gamma: 1.0 };

fn settings(rule: Rule) -> Settings {
    Settings { rule, epochs: 10, epsilon: 0.0, seed: 1 }
}

#[derive(Clone)]
struct Call {
    model: Model,
    line: Line,
    labels: Vec<u32>,
    data: Data,
    settings: Settings,
    scores: Scores,
    path: Vec<u32>,
    length: u32,
    lent: Vec<Lent>,
}

fn sound() -> Call {
    Call {
        model: model(),
        line: line(),
        labels: vec![0, 2],
        data: data(),
        settings: settings(PA),
        scores: scores(),
        path: vec![0, 1, 1],
        length: 3,
        lent: vec![Lent { length: 5, needed: 5 }, Lent { length: 9, needed: 0 }],
    }
}

impl Call {
    fn line(&self) -> Checked {
        refusals::line(&self.model, &self.line, &self.lent)
    }

    fn counting(&self) -> Checked {
        refusals::counting(&self.model, &self.line, &self.labels, &self.lent)
    }

    fn training(&self) -> Checked {
        refusals::training(&self.model, &self.data, &self.settings, &self.lent)
    }

    fn decode(&self) -> Checked {
        refusals::decode(&self.scores, &self.lent)
    }

    fn path_score(&self) -> Checked {
        refusals::path_score(&self.scores, &self.path, self.length, &self.lent)
    }
}

/// A change of the sound call, and the answer it then gets.
type Row = (fn(&mut Call), Checked);

fn rows(check: fn(&Call) -> Checked, rows: &[Row]) {
    assert_eq!(check(&sound()), Ok(()));
    for (i, (change, answer)) in rows.iter().enumerate() {
        let mut call = sound();
        change(&mut call);
        assert_eq!(check(&call), *answer, "row {i}");
    }
}

/// Any two rows at once: the answer is the one that comes first, or both are of one row and place.
fn pairs(check: fn(&Call) -> Checked, order: &[Row]) {
    for (i, (first, answer)) in order.iter().enumerate() {
        for (second, _) in &order[i + 1..] {
            let mut call = sound();
            second(&mut call);
            first(&mut call);
            assert_eq!(check(&call), *answer, "row {i} is before those that follow it");
        }
    }
}

// ---- one table

#[test]
fn starts() {
    let at = |starts: &[u32], lists, entries| refusals::starts(starts, lists, entries);
    assert_eq!(at(&[0, 9, 9], 2, 3), Some(2), "a start above the count is not bad by itself");
    assert_eq!(at(&[0], 0, 0), None, "no lists: one start");
    assert_eq!(at(&[0], 0, 4), Some(0));
    assert_eq!(at(&[4], 0, 4), Some(0));
    assert_eq!(at(&[1, 0, 3], 2, 3), Some(0));
    assert_eq!(at(&[0, 2, 1, 3], 3, 3), Some(2));
    assert_eq!(at(&[0, 2, 1, 0], 3, 3), Some(2), "the first of two");
    assert_eq!(at(&[0, 1, 2, 4], 3, 3), Some(3));
    assert_eq!(at(&[0, 1, 2, 2], 3, 3), Some(3));
    assert_eq!(at(&[0, 0, 3, 3, 1], 3, 3), None, "what lies past the count is not looked at");
}

#[test]
fn entries_of_one_table() {
    assert_eq!(refusals::kinds(&[0, 1, 2], 3), Some(2));
    assert_eq!(refusals::kinds(&[0, 1, 2], 2), None);
    assert_eq!(refusals::ids(&[0, 3, 4], 3, 4), Some(2));
    assert_eq!(refusals::ids(&[0, 3, 4], 2, 4), None);
    assert_eq!(refusals::ids(&[0], 1, 0), Some(0), "no label is below 0");
    assert_eq!(refusals::sources(&[0, 1, 1], &[9, 0, 2], 3, 2), Some(2));
    assert_eq!(refusals::sources(&[0, 0], &[9, u32::MAX], 2, 2), None, "a State feature's source may be anything");
    assert_eq!(refusals::not_finite(&[0.0, -0.0, f64::MAX, 5e-324], 4), None);
    for bad in [NAN, INF, -INF] {
        assert_eq!(refusals::not_finite(&[0.0, bad, bad], 3), Some(1));
    }
    assert_eq!(refusals::length(&[0, 1, 129, 258], 3), Some(2));
    assert_eq!(refusals::length(&[0, 128, 128], 2), Some(1));
}

// ---- decoding and path score

#[test]
fn decode() {
    rows(
        Call::decode,
        &[
            (|c| c.scores.labels = 0, refused(1, 0)),
            (|c| c.scores.labels = 33, refused(1, 0)),
            (|c| c.scores.words = 0, refused(4, 0)),
            (|c| c.scores.words = 129, refused(4, 0)),
            (|c| c.scores.words = 128, refused(2, 0)),
            (|c| c.scores.states.truncate(5), refused(2, 0)),
            (|c| c.scores.transitions.truncate(3), refused(2, 0)),
            (|c| c.lent[0].length = 4, refused(2, 0)),
            (|c| c.scores.transitions[3] = NAN, refused(6, 3)),
            (|c| c.scores.states[5] = -INF, refused(6, 5)),
            (|c| c.scores.states.push(NAN), Ok(())),
            (|c| c.scores.transitions.push(NAN), Ok(())),
            (|c| c.scores.words = 2, Ok(())),
        ],
    );
    pairs(
        Call::decode,
        &[
            (|c| c.scores.labels = 33, refused(1, 0)),
            (|c| c.scores.words = 0, refused(4, 0)),
            (|c| c.lent[0].length = 0, refused(2, 0)),
            (|c| c.scores.transitions[1] = INF, refused(6, 1)),
            (|c| c.scores.transitions[2] = INF, refused(6, 2)),
            (|c| c.scores.states[0] = INF, refused(6, 0)),
            (|c| c.scores.states[4] = INF, refused(6, 4)),
        ],
    );
}

#[test]
fn path_score() {
    rows(
        Call::path_score,
        &[
            (|c| c.scores.labels = 33, refused(1, 0)),
            (|c| c.scores.words = 0, refused(4, 0)),
            (|c| (c.scores.words, c.length) = (0, 0), refused(4, 0)),
            (|c| c.scores.words = 2, refused(4, 0)),
            (|c| c.length = 4, refused(4, 0)),
            (|c| c.length = u32::MAX, refused(4, 0)),
            (|c| c.length = 0, Ok(())),
            (|c| (c.length, c.path[1]) = (1, 9), Ok(())),
            (|c| c.path.truncate(2), refused(2, 0)),
            (|c| c.scores.states.truncate(5), refused(2, 0)),
            (|c| c.scores.transitions.truncate(3), refused(2, 0)),
            (|c| c.lent[0].length = 4, refused(2, 0)),
            (|c| c.path[2] = 2, refused(5, 2)),
            (|c| c.path[0] = u32::MAX, refused(5, 0)),
            (|c| (c.length, c.scores.states[5]) = (0, NAN), refused(6, 5)),
            (|c| (c.length, c.scores.transitions[3]) = (1, NAN), refused(6, 3)),
        ],
    );
    pairs(
        Call::path_score,
        &[
            (|c| c.scores.labels = 0, refused(1, 0)),
            (|c| c.length = 9, refused(4, 0)),
            (|c| c.scores.states.clear(), refused(2, 0)),
            (|c| c.path[1] = 2, refused(5, 1)),
            (|c| c.path[2] = 2, refused(5, 2)),
            (|c| c.scores.transitions[3] = NAN, refused(6, 3)),
            (|c| c.scores.states.iter_mut().for_each(|x| *x = NAN), refused(6, 0)),
        ],
    );
}

// ---- calls on a line

/// Rows that scoring and counting share.
const OF_LINE: &[Row] = &[
    (|c| c.model.labels = 0, refused(1, 0)),
    (|c| c.model.labels = 33, refused(1, 0)),
    (|c| c.line.words = 0, refused(4, 0)),
    (|c| c.line.words = 129, refused(4, 0)),
    (|c| c.line.words = u32::MAX, refused(4, 0)),
    (|c| c.model.counts.features = 65_536, refused(2, 0)),
    (|c| c.model.counts.attribute_lists = 65_536, refused(2, 0)),
    (|c| c.model.counts.label_lists = 33, refused(2, 0)),
    (|c| c.model.counts.attribute_entries = 1_048_577, refused(2, 0)),
    (|c| c.model.counts.label_entries = u32::MAX, refused(2, 0)),
    (|c| c.line.attributes = 4_194_305, refused(2, 0)),
    (|c| c.model.kinds.truncate(3), refused(2, 0)),
    (|c| c.model.destinations.truncate(3), refused(2, 0)),
    (|c| c.model.sources.truncate(3), refused(2, 0)),
    (|c| c.model.attribute_starts.truncate(2), refused(2, 0)),
    (|c| c.model.attribute_entries.truncate(2), refused(2, 0)),
    (|c| c.model.label_starts.truncate(3), refused(2, 0)),
    (|c| c.model.label_entries.truncate(1), refused(2, 0)),
    (|c| c.line.starts.truncate(2), refused(2, 0)),
    (|c| c.line.ids.truncate(2), refused(2, 0)),
    (|c| c.line.values.truncate(2), refused(2, 0)),
    (|c| c.lent[0].needed = 6, refused(2, 0)),
    (|c| c.model.attribute_starts[0] = 1, refused(3, 0)),
    (|c| c.model.attribute_starts[1] = 4, refused(3, 2)),
    (|c| c.model.attribute_starts[2] = 2, refused(3, 2)),
    (|c| c.model.label_starts[2] = 0, refused(3, 2)),
    (|c| c.model.label_starts[3] = 9, refused(3, 3)),
    (|c| c.line.starts[1] = 4, refused(3, 2)),
    (|c| c.line.attributes = 2, refused(3, 2)),
    (|c| c.model.kinds[3] = 2, refused(5, 3)),
    (|c| c.model.kinds[0] = 255, refused(5, 0)),
    (|c| c.model.destinations[2] = 3, refused(5, 2)),
    (|c| c.model.sources[3] = 3, refused(5, 3)),
    (|c| c.model.sources[0] = u32::MAX, Ok(())),
    (|c| c.model.attribute_entries[1] = 4, refused(5, 1)),
    (|c| c.model.label_entries[1] = 4, refused(5, 1)),
    (|c| c.line.values[2] = NAN, refused(6, 2)),
    (|c| c.line.ids[0] = 2, Ok(())),
    // tails past the counts
    (|c| c.model.kinds.push(9), Ok(())),
    (|c| c.model.attribute_entries.push(99), Ok(())),
    (|c| c.model.label_starts.push(0), Ok(())),
    (|c| c.line.values.push(NAN), Ok(())),
    // the bounds themselves are inside, so it is the table that is short
    (|c| c.model.counts.features = 65_535, refused(2, 0)),
    // no features, no lists
    (without_features, Ok(())),
];

fn without_features(call: &mut Call) {
    call.model = Model { labels: 3, attribute_starts: vec![0], label_starts: vec![0], ..Model::default() };
}

/// The order of rows in both: number by number, table by table, place by place.
const ORDER_OF_LINE: &[Row] = &[
    (|c| c.model.labels = 33, refused(1, 0)),
    (|c| c.line.words = 0, refused(4, 0)),
    (|c| c.lent[0].length = 0, refused(2, 0)),
    (|c| c.model.attribute_starts[0] = 1, refused(3, 0)),
    (|c| c.model.attribute_starts[2] = 5, refused(3, 2)),
    (|c| c.model.label_starts[0] = 1, refused(3, 0)),
    (|c| c.line.starts[0] = 1, refused(3, 0)),
    (|c| c.model.kinds[2] = 7, refused(5, 2)),
    (|c| c.model.destinations[0] = 3, refused(5, 0)),
    (|c| c.model.destinations[1] = 3, refused(5, 1)),
    (|c| c.model.sources[1] = 3, refused(5, 1)),
    (|c| c.model.attribute_entries[0] = 4, refused(5, 0)),
    (|c| c.model.label_entries[0] = 4, refused(5, 0)),
    (|c| c.line.values[0] = NAN, refused(6, 0)),
    (|c| c.line.values[1] = NAN, refused(6, 1)),
];

#[test]
fn scoring_a_line() {
    rows(Call::line, OF_LINE);
    rows(
        Call::line,
        &[
            (|c| c.model.weights.truncate(3), refused(2, 0)),
            (|c| c.model.weights[1] = INF, refused(6, 1)),
            (|c| c.model.weights.push(NAN), Ok(())),
            (|c| c.labels.clear(), Ok(())),
        ],
    );
    let mut order = ORDER_OF_LINE.to_vec();
    order.insert(13, (|c| c.model.weights[3] = NAN, refused(6, 3)));
    pairs(Call::line, &order);
}

#[test]
fn counting_a_line() {
    rows(Call::counting, OF_LINE);
    rows(
        Call::counting,
        &[
            (|c| c.labels.truncate(1), refused(2, 0)),
            (|c| c.labels[1] = 3, refused(5, 1)),
            (|c| c.labels.push(9), Ok(())),
            // no weight table is lent
            (|c| c.model.weights.clear(), Ok(())),
            (|c| c.model.weights[0] = NAN, Ok(())),
        ],
    );
    let mut order = ORDER_OF_LINE.to_vec();
    order.insert(13, (|c| c.labels[1] = 3, refused(5, 1)));
    pairs(Call::counting, &order);
}

// ---- set_weights

#[test]
fn set_weights() {
    let check = |features, weights: &[f64], room| {
        refusals::set_weights(features, weights, &[Lent { length: room, needed: features as usize }])
    };
    assert_eq!(check(2, &[1.0, 2.0], 2), Ok(()));
    assert_eq!(check(2, &[1.0, 2.0, NAN], 3), Ok(()));
    assert_eq!(check(0, &[], 0), Ok(()));
    assert_eq!(check(65_536, &vec![0.0; 65_536], 65_536), refused(2, 0));
    assert_eq!(check(65_535, &vec![0.0; 65_535], 65_535), Ok(()));
    assert_eq!(check(2, &[1.0], 2), refused(2, 0));
    assert_eq!(check(2, &[1.0, 2.0], 1), refused(2, 0));
    assert_eq!(check(2, &[1.0, NAN], 2), refused(6, 1));
    assert_eq!(check(2, &[-INF, NAN], 2), refused(6, 0));
    assert_eq!(check(2, &[NAN, 1.0], 1), refused(2, 0), "2 before 6");
}

// ---- training

#[test]
fn training() {
    rows(
        Call::training,
        &[
            (|c| c.model.labels = 0, refused(1, 0)),
            (|c| c.model.counts.features = 65_536, refused(2, 0)),
            (|c| c.model.counts.label_lists = 33, refused(2, 0)),
            (|c| c.data.instances = 0, refused(2, 0)),
            (|c| c.data.instances = 16_385, refused(2, 0)),
            (|c| c.data.words = 1_048_577, refused(2, 0)),
            (|c| c.data.attributes = 4_194_305, refused(2, 0)),
            (|c| c.model.kinds.truncate(3), refused(2, 0)),
            (|c| c.model.label_entries.truncate(1), refused(2, 0)),
            (|c| c.data.word_starts.truncate(2), refused(2, 0)),
            (|c| c.data.attribute_starts.truncate(3), refused(2, 0)),
            (|c| c.data.ids.truncate(1), refused(2, 0)),
            (|c| c.data.values.truncate(1), refused(2, 0)),
            (|c| c.data.references.truncate(2), refused(2, 0)),
            (|c| c.data.weights.truncate(1), refused(2, 0)),
            (|c| c.lent[0].length = 0, refused(2, 0)),
            (|c| c.model.weights.clear(), Ok(())),
            (|c| c.model.weights[0] = NAN, Ok(())),
            (|c| c.model.attribute_starts[1] = 9, refused(3, 2)),
            (|c| c.model.label_starts[3] = 0, refused(3, 3)),
            (|c| c.data.word_starts[1] = 4, refused(3, 2)),
            (|c| c.data.word_starts[2] = 2, refused(3, 2)),
            (|c| c.data.attribute_starts[3] = 1, refused(3, 3)),
            (|c| c.data.word_starts[1] = 3, refused(4, 1)),
            (|c| c.data.word_starts[1] = 0, refused(4, 0)),
            (|c| c.model.kinds[1] = 2, refused(5, 1)),
            (|c| c.model.destinations[3] = 3, refused(5, 3)),
            (|c| c.model.sources[1] = 3, refused(5, 1)),
            (|c| c.model.attribute_entries[2] = 4, refused(5, 2)),
            (|c| c.model.label_entries[0] = 4, refused(5, 0)),
            (|c| c.data.references[2] = 3, refused(5, 2)),
            (|c| c.data.values[1] = INF, refused(6, 1)),
            (|c| c.data.weights[1] = NAN, refused(6, 1)),
            (|c| c.data.weights.push(NAN), Ok(())),
            (|c| c.data.references.push(9), Ok(())),
            (|c| c.data.ids[0] = u32::MAX, Ok(())),
        ],
    );
}

#[test]
fn parameters() {
    let c = |c| Rule::PassiveAggressive { variant: 0, c, error_sensitive: false, averaging: true };
    let check = |rule, epochs, epsilon| {
        let mut call = sound();
        call.settings = Settings { rule, epochs, epsilon, seed: 0 };
        call.training()
    };
    for rule in [Rule::Perceptron, PA, AROW] {
        assert_eq!(check(rule, 0, 0.0), refused(7, 1));
        assert_eq!(check(rule, 1, 0.0), Ok(()));
        assert_eq!(check(rule, 1000, 0.0), Ok(()));
        assert_eq!(check(rule, 1001, NAN), refused(7, 1), "the lowest such number");
        assert_eq!(check(rule, 1, -5e-324), refused(7, 2));
        assert_eq!(check(rule, 1, -0.0), Ok(()));
        for bad in [NAN, INF, -INF, -1.0] {
            assert_eq!(check(rule, 1, bad), refused(7, 2));
        }
        assert_eq!(check(rule, 1, f64::MAX), Ok(()));
    }
    for bad in [0.0, -0.0, -1.0, NAN, INF, -INF] {
        assert_eq!(check(c(bad), 1, 0.0), refused(7, 3), "C for every variant");
        assert_eq!(check(c(bad), 1, -1.0), refused(7, 2));
        assert_eq!(check(Rule::Arow { variance: bad, gamma: bad }, 1, 0.0), refused(7, 3));
        assert_eq!(check(Rule::Arow { variance: 5e-324, gamma: bad }, 1, 0.0), refused(7, 4));
    }
    let variant = |variant, c| Rule::PassiveAggressive { variant, c, error_sensitive: true, averaging: true };
    assert_eq!(check(variant(3, 1.0), 1, 0.0), refused(7, 5));
    assert_eq!(check(variant(255, 0.0), 1, 0.0), refused(7, 3), "3 before 5");
    assert_eq!(check(variant(2, f64::MAX), 1, 0.0), Ok(()));
}

#[test]
fn the_order_of_a_trainer() {
    pairs(
        Call::training,
        &[
            (|c| c.model.labels = 33, refused(1, 0)),
            (|c| c.lent[0].length = 0, refused(2, 0)),
            (|c| c.model.attribute_starts[1] = 9, refused(3, 2)),
            (|c| c.model.label_starts[0] = 1, refused(3, 0)),
            (|c| c.data.word_starts[0] = 1, refused(3, 0)),
            (|c| c.data.attribute_starts[0] = 1, refused(3, 0)),
            (|c| c.data.word_starts[1] = 3, refused(4, 1)),
            (|c| c.model.kinds[3] = 2, refused(5, 3)),
            (|c| c.model.destinations[0] = 3, refused(5, 0)),
            (|c| c.model.sources[1] = 3, refused(5, 1)),
            (|c| c.model.attribute_entries[0] = 4, refused(5, 0)),
            (|c| c.model.label_entries[0] = 4, refused(5, 0)),
            (|c| c.data.references[0] = 3, refused(5, 0)),
            (|c| c.data.values[0] = NAN, refused(6, 0)),
            (|c| c.data.weights[0] = NAN, refused(6, 0)),
            (|c| c.settings.epochs = 0, refused(7, 1)),
            (|c| c.settings.epsilon = -1.0, refused(7, 2)),
            (
                |c| {
                    c.settings.rule =
                        Rule::PassiveAggressive { variant: 9, c: 0.0, error_sensitive: true, averaging: true }
                },
                refused(7, 3),
            ),
        ],
    );
}

// ---- the sheet file

#[test]
fn sheet() {
    let room = |_, _| vec![Lent { length: 1, needed: 1 }];
    let check = |bytes: &[u8]| refusals::sheet(bytes, room).map(|_| ());
    let head = |labels: u8, words: u16| {
        let [low, high] = words.to_le_bytes();
        vec![b'T', b'L', b'G', 1, 0, labels, low, high]
    };
    let whole = |labels: u8, words: u16| {
        let mut bytes = head(labels, words);
        let entries = usize::from(labels) * (usize::from(labels) + usize::from(words));
        bytes.resize(8 + 8 * entries, 0);
        bytes
    };
    assert_eq!(check(&whole(1, 1)), Ok(()));
    assert_eq!(check(&whole(32, 128)), Ok(()));
    assert_eq!(whole(32, 128).len(), 40_968, "the longest sheet");
    assert_eq!(check(&[]), refused(10, 0));
    for length in 0..8 {
        assert_eq!(check(&whole(2, 2)[..length]), refused(10, 0), "under eight bytes");
    }
    for i in 0..5 {
        let mut bytes = whole(2, 2);
        bytes[i] ^= 1;
        assert_eq!(check(&bytes), refused(10, 0), "mark and version");
        bytes[5] = 0;
        assert_eq!(check(&bytes), refused(10, 0), "10 on the head before 1");
    }
    // "With a whole head, a bad L is 1 and a bad T is 4 whatever the length."
    for (labels, words, answer) in [
        (0, 2, refused(1, 0)),
        (33, 2, refused(1, 0)),
        (33, 0, refused(1, 0)),
        (2, 0, refused(4, 0)),
        (2, 129, refused(4, 0)),
        (2, 256, refused(4, 0)),
        (2, 2, refused(10, 0)),
    ] {
        assert_eq!(check(&head(labels, words)), answer);
        let mut long = head(labels, words);
        long.resize(50_000, 0xFF);
        assert_eq!(check(&long), answer);
    }
    let mut bytes = whole(2, 3);
    bytes.push(0);
    assert_eq!(check(&bytes), refused(10, 0), "nothing after");
    bytes.truncate(bytes.len() - 2);
    assert_eq!(check(&bytes), refused(10, 0));
    // 6: transitions, then states
    let nan =
        |bytes: &mut Vec<u8>, entry: usize| bytes[8 + 8 * entry..16 + 8 * entry].copy_from_slice(&NAN.to_le_bytes());
    let mut bytes = whole(2, 3);
    nan(&mut bytes, 9);
    assert_eq!(check(&bytes), refused(6, 5));
    nan(&mut bytes, 4);
    assert_eq!(check(&bytes), refused(6, 0));
    nan(&mut bytes, 3);
    assert_eq!(check(&bytes), refused(6, 3));
    bytes.push(0);
    assert_eq!(check(&bytes), refused(10, 0), "10 on the length before 6");
    // 2 stands between 4 and 10 on the length
    let none = |_, _| vec![Lent { length: 0, needed: 1 }];
    assert_eq!(refusals::sheet(&bytes, none).map(|_| ()), refused(2, 0));
    assert_eq!(refusals::sheet(&head(2, 0), none).map(|_| ()), refused(4, 0));
}

// ---- 8 outside training

#[test]
fn finished_scores_and_counts() {
    let mut scores = scores();
    assert_eq!(refusals::finished_scores(&scores), Ok(()));
    scores.transitions[1] = INF;
    assert_eq!(refusals::finished_scores(&scores), refused(8, 6 + 1));
    scores.states[4] = NAN;
    assert_eq!(refusals::finished_scores(&scores), refused(8, 4), "states first");
    assert_eq!(refusals::finished_counts(&[0.0, 1.0]), Ok(()));
    assert_eq!(refusals::finished_counts(&[0.0, INF, NAN]), refused(8, 1));
}
