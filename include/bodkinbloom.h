/* Bodkinbloom: sequence labelling with a linear-chain CRF, every call proved.
 *
 * Link with libbodkinbloom.a (scripts/archive writes it to build/). No call allocates, prints, or keeps a pointer.
 *
 * What a call demands. Nothing of what is in the memory: every table, id and number is tested by the call itself, and bad
 * input is answered by a numbered refusal. Only what C alone can break is yours:
 *    - each pointer is valid for as many elements as the length beside it says, and memory that is lent to be changed
 *      overlaps no other that is lent to the same call. A pointer whose length is 0 may be NULL;
 *    - the thread that makes the call computes as IEEE 754 has it: it rounds to the nearest, ties to even, and keeps
 *      subnormal numbers, operands and results alike. That is how a thread starts, unless the program was linked with
 *      -ffast-math or the like, whereupon subnormals are flushed to 0 in all of it, or has called fesetround or set MXCSR.
 *      Otherwise a call gives other bits: where subnormals are flushed, a word whose one attribute has the value 1, and a
 *      State of the weight 5e-324, has the state 0. No call tests this; bodkinbloom_environment() below does. Nor may a
 *      floating-point exception be a trap (feenableexcept): a call raises the flags of some.
 *
 * Memory is always yours. A table that is only read is `const`. A buffer may be longer than a call needs; what lies behind
 * the needed front is left alone: its bits are those that it had, whatever they stand for.
 *
 * Stack, in bytes: no call takes more than is said here, and none allocates. Measured, by tests/c/stack.c: the call is made,
 * with 32 labels and 128 words, on a stack of its own that was painted before, and what is painted still was not used.
 *    draw, shuffle, set_weights        256
 *    sequence_score, check_model       512
 *    compute_scores                  1,024
 *    extract_features                2,048
 *    viterbi_decode                 12,288    (8,136 were used)
 *    label_line                     49,152    (47,056)
 *    the three trainers             53,248    (48,800)
 *    read_text, text_sizes       1,048,576    (787,544 and 787,096; two tables that find names again are most of it: 786,432)
 *    write_text                      1,024
 */
#ifndef BODKINBLOOM_H
#define BODKINBLOOM_H

#include <stddef.h>
#include <stdint.h>
#include <string.h>

/* Of what is declared here: it is raised when a call, a struct or the meaning of a number changes. */
#define BODKINBLOOM_VERSION 1

/* More stack than any call takes but the two that go through a training text, read_text and text_sizes; and more than these two
 * take. Where threads start with less than the second, give the one that reads a text more (pthread_attr_setstacksize). */
#define BODKINBLOOM_STACK 53248
#define BODKINBLOOM_TEXT_STACK 1048576

#ifdef __cplusplus
extern "C" {
#endif

/* ---- the floating-point environment */

/* The bits of a number; of x * y and of x + y, as this thread computes them now, which no compiler knows beforehand. */
static inline uint64_t bodkinbloom_bits(double x) {
    uint64_t bits;
    memcpy(&bits, &x, sizeof bits);
    return bits;
}

static inline uint64_t bodkinbloom_product(double x, double y) {
    const volatile double p = x, q = y;
    const volatile double product = p * q;
    return bodkinbloom_bits(product);
}

static inline uint64_t bodkinbloom_sum(double x, double y) {
    const volatile double p = x, q = y;
    const volatile double sum = p + q;
    return bodkinbloom_bits(sum);
}

/* 1 where this thread computes as every call demands, else 0; with -O2 and -ffast-math too. Call it once in each thread that
 * calls the library, after whatever may change the environment. */
static inline int bodkinbloom_environment(void) {
    const double least = 4.9406564584124654e-324, least_normal = 2.2250738585072014e-308;
    const double unit = 2.220446049250313e-16; /* 1 + unit is the next above 1 */
    /* a subnormal operand, with a result that is not; a subnormal result of an operand that is not; one of either */
    return bodkinbloom_product(least, 4503599627370496.0) == UINT64_C(0x0010000000000000) &&
           bodkinbloom_product(least_normal, 0.5) == UINT64_C(0x0008000000000000) &&
           bodkinbloom_sum(least, least) == UINT64_C(2) &&
           /* ties to even: 1 and a half unit is 1, 1 and one and a half is 1 and two; the same below 0 */
           bodkinbloom_sum(1, unit / 2) == UINT64_C(0x3FF0000000000000) &&
           bodkinbloom_sum(1 + unit, unit / 2) == UINT64_C(0x3FF0000000000002) &&
           bodkinbloom_sum(-1, -unit / 2) == UINT64_C(0xBFF0000000000000) &&
           bodkinbloom_sum(-1 - unit, -unit / 2) == UINT64_C(0xBFF0000000000002);
}

/* ---- refusals */

/* A refusal: its number, which has a name below, and the place at which it was found.
 *    0  nothing was refused
 *    1  the number of labels is not 1 to 32
 *    2  another count is outside its bound, or a lent buffer is too short
 *    3  the starts of a table's lists break their rule; place: the first bad start
 *    4  the number of words is not 1 to 128, or a path is longer than its table
 *    5  a kind, a label, a source, a destination or a feature id is out of range; place: the index in its table
 *    6  a number is not finite; place: the index in its table
 *    7  a bad parameter; place: which
 *    8  a finished score or count is not finite; place: the index
 *    9  training left the finite numbers; place: the visits done
 *   10  a file with a wrong mark, version or length: given by the program `decode`, which reads one, and by no call here
 *   11  reading a training text: it is malformed; place: the first byte after which nothing makes it well-formed any more, or
 *       its length where only the end comes too soon. Writing one: a name or a scale that no text can carry; place: the index in
 *       its table
 */
typedef struct {
    uint32_t number;
    uint64_t place;
} bodkinbloom_refused;

#define BODKINBLOOM_ACCEPTED 0
#define BODKINBLOOM_REFUSED_LABELS 1
#define BODKINBLOOM_REFUSED_SIZE 2
#define BODKINBLOOM_REFUSED_STARTS 3
#define BODKINBLOOM_REFUSED_WORDS 4
#define BODKINBLOOM_REFUSED_RANGE 5
#define BODKINBLOOM_REFUSED_NOT_FINITE 6
#define BODKINBLOOM_REFUSED_PARAMETER 7
#define BODKINBLOOM_REFUSED_RESULT 8
#define BODKINBLOOM_REFUSED_TRAINING 9
#define BODKINBLOOM_REFUSED_FILE 10 /* the program's */
#define BODKINBLOOM_REFUSED_TEXT 11

/* ---- the shuffle */

/* One draw of SplitMix64: advances *state and returns the number drawn. */
uint64_t bodkinbloom_draw(uint64_t *state);

/* Shuffles an order of 1 to 16,384 numbers, as training does before each epoch, and advances *state.
 * Refused (2): any other length; *state and the order are then as they were. */
bodkinbloom_refused bodkinbloom_shuffle(uint64_t *state, uint32_t *order, size_t length);

/* ---- sizes */

/* The most of each; more are refused. */
#define BODKINBLOOM_MOST_LABELS 32
#define BODKINBLOOM_MOST_WORDS 128
#define BODKINBLOOM_MOST_FEATURES 65535
#define BODKINBLOOM_MOST_ATTRIBUTE_LISTS 65535
#define BODKINBLOOM_MOST_LABEL_LISTS 32
#define BODKINBLOOM_MOST_ENTRIES 1048576
#define BODKINBLOOM_MOST_ATTRIBUTES_IN_ALL 4194304

/* How long a table or a buffer has to be. A path is as long as there are words; feature counts are as many as there are
 * features. (`labels` is evaluated twice.) */
#define BODKINBLOOM_STARTS(lists) ((size_t)(lists) + 1)
#define BODKINBLOOM_TRANSITIONS(labels) ((size_t)(labels) * (size_t)(labels))
#define BODKINBLOOM_STATES(labels, words) ((size_t)(labels) * (size_t)(words))

/* ---- decoding
 *
 * Tables of scores, for 1 to 32 labels and 1 to 128 words, all of them finite:
 *    transitions    BODKINBLOOM_TRANSITIONS(labels) of them, by previous label: from label p to label q at p x labels + q
 *    states         BODKINBLOOM_STATES(labels, words) of them, word by word: label l at word t at t x labels + l */

/* What decoding answers.
 *    number    0, or the refusal's; then has_lead is 0, and sum and lead are +0
 *    place     of the refusal, else 0
 *    sum       the rounded sum of the path; it may be infinite
 *    lead      by which the best final score is ahead of that of any other last label, where has_lead is 1;
 *              has_lead is 0 with one label, or when either score is not finite, and lead is then +0 */
typedef struct {
    uint32_t number;
    uint32_t has_lead;
    uint64_t place;
    double sum;
    double lead;
} bodkinbloom_decoded;

/* Writes the best path to the first `words` places of `path`: no path has a larger sum, and a tie has one answer.
 * Refused, in this order: 1, 4, 2, 6 (transitions, then states); `path` is then as it was. */
bodkinbloom_decoded bodkinbloom_viterbi_decode(uint32_t labels, uint32_t words,
                                               const double *transitions, size_t transitions_length,
                                               const double *states, size_t states_length,
                                               uint32_t *path, size_t path_length);

/* What scoring a path answers: number and place as above, and the score, which may be infinite and is +0 where the call is
 * refused. */
typedef struct {
    uint32_t number;
    uint64_t place;
    double score;
} bodkinbloom_scored;

/* The score of the first `length` labels of `path`, at most as many as there are words; none score +0.
 * Refused, in this order: 1, 4, 2, 5, 6. */
bodkinbloom_scored bodkinbloom_sequence_score(uint32_t labels, uint32_t words,
                                              const double *transitions, size_t transitions_length,
                                              const double *states, size_t states_length,
                                              const uint32_t *path, size_t path_length, uint32_t length);

/* ---- models
 *
 * A model has 1 to 32 labels and at most 65,535 features. A feature is an entry in each of these tables, at its id:
 *    kinds         0: a State, which speaks for a label at a word; 1: a Transition, which speaks for a label after another;
 *                  they have names below
 *    destinations  that label; below the number of labels
 *    sources       of a Transition, the label before it; below the number of labels. Of a State it is not read
 *    weights       finite
 * Lists of features say when they speak: an attribute id may have a list, and so may a label. Lists lie flat, as starts and
 * entries. n lists have n + 1 starts: the first is 0, none is below the one before it, and the last is the number of
 * entries; the entries of list i lie from start i up to, and not at, start i + 1. An entry is a feature id. One that stands
 * in a list twice counts twice.
 *    attribute_starts, attribute_entries    at most 65,535 lists, and at most 1,048,576 entries in all
 *    label_starts, label_entries            at most 32 lists, be there as many labels or not; as many entries at the most
 *
 * The counts are numbers of their own beside the lengths of the tables. Everything within the counts is tested, used or
 * not. What a table has behind them is not looked at. */

#define BODKINBLOOM_KIND_STATE 0
#define BODKINBLOOM_KIND_TRANSITION 1

typedef struct {
    uint32_t features;          /* so many are needed of kinds, destinations, sources and weights */
    uint32_t attribute_lists;   /* of attribute_starts, BODKINBLOOM_STARTS(attribute_lists) */
    uint32_t label_lists;       /* of label_starts, BODKINBLOOM_STARTS(label_lists) */
    uint32_t attribute_entries; /* of attribute_entries */
    uint32_t label_entries;     /* of label_entries */
} bodkinbloom_counts;

/* Tests a model, as each call below does for itself.
 * Refused, in this order; within a number by the order of the tables, and in a table at the lowest index:
 *    1    the number of labels
 *    2    a count above its bound, or a table too short for its count
 *    3    attribute_starts, label_starts; place: the first start that breaks the rule
 *    5    kinds, destinations, sources, attribute_entries, label_entries; place: the index
 *    6    weights; place: the feature */
bodkinbloom_refused bodkinbloom_check_model(uint32_t labels, bodkinbloom_counts counts,
                                            const uint8_t *kinds, size_t kinds_length,
                                            const uint32_t *destinations, size_t destinations_length,
                                            const uint32_t *sources, size_t sources_length,
                                            const double *weights, size_t weights_length,
                                            const uint32_t *attribute_starts, size_t attribute_starts_length,
                                            const uint32_t *attribute_entries, size_t attribute_entries_length,
                                            const uint32_t *label_starts, size_t label_starts_length,
                                            const uint32_t *label_entries, size_t label_entries_length);

/* Writes the first `features` of `new_weights` to the front of `weights`, to the bit.
 * Refused, `weights` then as it was: 2 (too many features, or one of the two too short), 6 (place: the first new weight that
 * is not finite). */
bodkinbloom_refused bodkinbloom_set_weights(uint32_t features,
                                            const double *new_weights, size_t new_weights_length,
                                            double *weights, size_t weights_length);

/* ---- one line under a model
 *
 * A line has 1 to 128 words, and a word has attributes: ids with values. They lie flat as well.
 *    word_starts    BODKINBLOOM_STARTS(words) starts, by the rule above: where the attributes of each word begin; the last
 *                   is `attributes`, at most 4,194,304
 *    ids            `attributes` of them; one without an attribute list adds nothing
 *    values         `attributes` of them, finite
 *
 * Refused, all three calls, in this order; within a number by the order of the tables, and in a table at the lowest index:
 *    1    the number of labels
 *    4    the number of words
 *    2    a count above its bound, or a table or a buffer too short
 *    3    attribute_starts, label_starts, word_starts; place: the first start that breaks the rule
 *    5    kinds, destinations, sources, attribute_entries, label_entries, path (where it is read); place: the index
 *    6    weights (where they are lent), values; place: the index
 *    8    what was worked out is not finite; place: see the call
 * After 1 to 6 every buffer is as it was. After 8 the part of each buffer that the call needs is 0, all of it. Behind that
 * part nothing is ever written. */

/* The scores of a line, which bodkinbloom_viterbi_decode takes, in the same order: BODKINBLOOM_TRANSITIONS(labels)
 * transitions, by previous label, and BODKINBLOOM_STATES(labels, words) states, word by word. All start at +0. Words, their
 * attributes and the entries of an attribute's list are taken in order, and each State adds weight times value at its
 * destination; then label lists are taken in order, as many as there are labels at the most, and each Transition adds its
 * weight at its own source and destination.
 * The place of an 8: word x labels + label; words x labels + previous x labels + label for a transition. */
bodkinbloom_refused bodkinbloom_compute_scores(uint32_t labels, bodkinbloom_counts counts,
                                               const uint8_t *kinds, size_t kinds_length,
                                               const uint32_t *destinations, size_t destinations_length,
                                               const uint32_t *sources, size_t sources_length,
                                               const double *weights, size_t weights_length,
                                               const uint32_t *attribute_starts, size_t attribute_starts_length,
                                               const uint32_t *attribute_entries, size_t attribute_entries_length,
                                               const uint32_t *label_starts, size_t label_starts_length,
                                               const uint32_t *label_entries, size_t label_entries_length,
                                               uint32_t words, uint32_t attributes,
                                               const uint32_t *word_starts, size_t word_starts_length,
                                               const uint32_t *ids, size_t ids_length,
                                               const double *values, size_t values_length,
                                               double *transitions, size_t transitions_length,
                                               double *states, size_t states_length);

/* What each feature counts in a line whose words have the labels of `path`, one for each word and each below the number of
 * labels; no weights are needed. `feature_counts` takes a number for each feature. All start at +0. In the order of scoring,
 * each State whose destination is the word's label adds the attribute's value; then, from the second word on, the list of
 * the label before is taken, and each Transition from that label to the word's adds 1.
 * The place of an 8: the feature. */
bodkinbloom_refused bodkinbloom_extract_features(uint32_t labels, bodkinbloom_counts counts,
                                                 const uint8_t *kinds, size_t kinds_length,
                                                 const uint32_t *destinations, size_t destinations_length,
                                                 const uint32_t *sources, size_t sources_length,
                                                 const uint32_t *attribute_starts, size_t attribute_starts_length,
                                                 const uint32_t *attribute_entries, size_t attribute_entries_length,
                                                 const uint32_t *label_starts, size_t label_starts_length,
                                                 const uint32_t *label_entries, size_t label_entries_length,
                                                 uint32_t words, uint32_t attributes,
                                                 const uint32_t *word_starts, size_t word_starts_length,
                                                 const uint32_t *ids, size_t ids_length,
                                                 const double *values, size_t values_length,
                                                 const uint32_t *path, size_t path_length,
                                                 double *feature_counts, size_t feature_counts_length);

/* Labels a line: scores it and decodes the scores, which need no buffers of yours (they lie on the stack).
 * Writes the best path to the first `words` places of `path`, and answers as bodkinbloom_viterbi_decode does.
 * The place of an 8: that of the scores. */
bodkinbloom_decoded bodkinbloom_label_line(uint32_t labels, bodkinbloom_counts counts,
                                           const uint8_t *kinds, size_t kinds_length,
                                           const uint32_t *destinations, size_t destinations_length,
                                           const uint32_t *sources, size_t sources_length,
                                           const double *weights, size_t weights_length,
                                           const uint32_t *attribute_starts, size_t attribute_starts_length,
                                           const uint32_t *attribute_entries, size_t attribute_entries_length,
                                           const uint32_t *label_starts, size_t label_starts_length,
                                           const uint32_t *label_entries, size_t label_entries_length,
                                           uint32_t words, uint32_t attributes,
                                           const uint32_t *word_starts, size_t word_starts_length,
                                           const uint32_t *ids, size_t ids_length,
                                           const double *values, size_t values_length,
                                           uint32_t *path, size_t path_length);

/* ---- training: from lines whose labels are known to the weights of a model
 *
 * Three calls, alike but for the way they learn: averaged perceptron, passive-aggressive, AROW. Each takes its parameters,
 * a model's tables without weights, instances (lines with the labels that are right), and buffers to write to.
 *
 * The model's tables and their lengths are those of a model above, but for the weights. The other tables, and how long they
 * have to be:
 *
 *    the instances, only read:
 *    line_starts         BODKINBLOOM_STARTS(totals.instances)          where the words of each begin; 1 to 128 words
 *    word_starts         BODKINBLOOM_STARTS(totals.words_in_all)       where the attributes of each word begin
 *    ids, values         totals.attributes_in_all                      of each attribute: its id, its value
 *    references          totals.words_in_all                           of each word: the label that is right
 *    instance_weights    totals.instances                              of each instance: how much it weighs; usually 1
 *
 *    the buffers:
 *    weights             BODKINBLOOM_WEIGHTS(counts.features)          the result, a weight for each feature
 *    running_sums        BODKINBLOOM_WEIGHTS(counts.features)          work; AROW's is called covariance
 *    true_counts,
 *    predicted_counts    BODKINBLOOM_WEIGHTS(counts.features)          work; each is a buffer of its own
 *    order               BODKINBLOOM_ORDER(totals.instances)           work
 *
 * Starts keep the rule that is given above. An attribute whose id has no list is ignored.
 *
 * What the buffers hold at entry does not matter. In the end they hold, in the front that the table above asks for,
 *    after an accepted call   the weights; zeros in the other four
 *    after 1 to 7             what they held at entry
 *    after 8 and 9            zeros, the weights too
 * and behind that front always what they held at entry.
 *
 * Refusals. The lowest number is given; of tables at fault the first in the order named here, and in it the lowest index.
 *    1  `labels` is not 1 to 32; place 0
 *    2  a count is outside its bound: at most 65,535 features, 65,535 attribute lists, 32 label lists, 1,048,576 entries of
 *       attribute lists, as many of label lists, 1,048,576 words in all, 4,194,304 attributes in all; 1 to 16,384
 *       instances. Or a table or buffer is shorter than its count asks for. Place 0
 *    3  a start breaks its rule; place: its index in attribute_starts, label_starts, line_starts, word_starts
 *    4  an instance has no words, or more than 128; place: which instance
 *    5  out of range; place: the index in kinds, destinations, sources (of Transitions), attribute_entries, label_entries,
 *       references
 *    6  not finite; place: the index in values, instance_weights
 *    7  a parameter of this call is bad; place: the first of
 *          1  epochs: not 1 to 1,000
 *          2  epsilon: below 0, or not finite
 *          3  c or variance: not above 0, or not finite
 *          4  gamma: not above 0, or not finite
 *          5  variant: above 2
 *    8  in a visit a score or a feature count is not finite; place: the visits done before that visit
 *    9  after a visit a weight, a running sum, a covariance or the loss of the epoch is not finite; place: the visits done
 *       before that visit. Or a weight is not finite after the final averaging; place: all visits
 *
 * A visit labels one instance with the weights so far, and changes them where a label is wrong. An epoch visits every
 * instance once. The order is 0, 1, 2 and so on; before each epoch the order of the epoch before is shuffled, as
 * bodkinbloom_shuffle does it, with a state that is `seed` at first and goes on from epoch to epoch (one instance alone is
 * not shuffled). So the same call gives the same weights, to the bit.
 *
 * Training ends after as many epochs as are allowed, or after one whose loss divided by the number of instances is below
 * epsilon; AROW also ends where the two are equal. The loss of an epoch starts at 0, and a visit that finds every label
 * right adds nothing. What a visit with wrong labels adds is another thing in each of the three: see their parameters. */

/* The most of each, beside those above, and how long the buffers have to be. */
#define BODKINBLOOM_MOST_INSTANCES 16384
#define BODKINBLOOM_MOST_WORDS_IN_ALL 1048576
#define BODKINBLOOM_MOST_EPOCHS 1000
#define BODKINBLOOM_WEIGHTS(features) ((size_t)(features))
#define BODKINBLOOM_ORDER(instances) ((size_t)(instances))

/* How many instances, and how many words and attributes they have in all. */
typedef struct {
    uint32_t instances;
    uint32_t words_in_all;
    uint32_t attributes_in_all;
} bodkinbloom_totals;

/* What training answers.
 *    number    0, or the refusal's; then epochs, visits and updates are 0
 *    place     of the refusal, else 0
 *    epochs    that were run
 *    visits    epochs x instances
 *    updates   visits that found a wrong label */
typedef struct {
    uint32_t number;
    uint64_t place;
    uint64_t epochs;
    uint64_t visits;
    uint64_t updates;
} bodkinbloom_trained;

/* Averaged perceptron.
 *    epochs    how many are allowed, 1 to 1,000
 *    epsilon   when to stop, see above; 0 or above
 *    seed      of the shuffle; any number
 * A visit with wrong labels adds (wrong labels / words) x instance weight to the loss. So with instance weights of 1 epsilon
 * is a part of the words, between 0 and 1. */
typedef struct {
    uint32_t epochs;
    double epsilon;
    uint64_t seed;
} bodkinbloom_averaged_perceptron_parameters;

bodkinbloom_trained bodkinbloom_averaged_perceptron(
    bodkinbloom_averaged_perceptron_parameters parameters, uint32_t labels, bodkinbloom_counts counts,
    const uint8_t *kinds, size_t kinds_length, const uint32_t *destinations, size_t destinations_length,
    const uint32_t *sources, size_t sources_length,
    const uint32_t *attribute_starts, size_t attribute_starts_length,
    const uint32_t *attribute_entries, size_t attribute_entries_length,
    const uint32_t *label_starts, size_t label_starts_length,
    const uint32_t *label_entries, size_t label_entries_length,
    bodkinbloom_totals totals,
    const uint32_t *line_starts, size_t line_starts_length,
    const uint32_t *word_starts, size_t word_starts_length,
    const uint32_t *ids, size_t ids_length, const double *values, size_t values_length,
    const uint32_t *references, size_t references_length,
    const double *instance_weights, size_t instance_weights_length,
    double *weights, size_t weights_length, double *running_sums, size_t running_sums_length,
    double *true_counts, size_t true_counts_length,
    double *predicted_counts, size_t predicted_counts_length,
    uint32_t *order, size_t order_length);

/* Passive-aggressive.
 *    epochs, epsilon, seed   as above, but for the loss
 *    variant                 0 Pa, 1 PaI, 2 PaII, which have names below
 *    c                       above 0: the larger, the larger the steps of PaI and PaII. It is tested for Pa too
 *    error_sensitive         switch: several wrong labels in a line cost the root of their number, instead of 1
 *    averaging               switch: the weights are averaged in the end
 * A switch is off if it is 0, and on if it is anything else.
 * A visit with wrong labels adds cost x instance weight to the loss, where cost is
 *    (path score of the labels found - path score of the references) + the root of the number of wrong labels
 * by the weights before the visit; with error_sensitive off the root is 1. So epsilon is on the scale of the scores. */
typedef struct {
    uint32_t epochs;
    double epsilon;
    uint64_t seed;
    uint32_t variant;
    double c;
    uint32_t error_sensitive;
    uint32_t averaging;
} bodkinbloom_passive_aggressive_parameters;

#define BODKINBLOOM_PA 0
#define BODKINBLOOM_PA_I 1
#define BODKINBLOOM_PA_II 2

bodkinbloom_trained bodkinbloom_passive_aggressive(
    bodkinbloom_passive_aggressive_parameters parameters, uint32_t labels, bodkinbloom_counts counts,
    const uint8_t *kinds, size_t kinds_length, const uint32_t *destinations, size_t destinations_length,
    const uint32_t *sources, size_t sources_length,
    const uint32_t *attribute_starts, size_t attribute_starts_length,
    const uint32_t *attribute_entries, size_t attribute_entries_length,
    const uint32_t *label_starts, size_t label_starts_length,
    const uint32_t *label_entries, size_t label_entries_length,
    bodkinbloom_totals totals,
    const uint32_t *line_starts, size_t line_starts_length,
    const uint32_t *word_starts, size_t word_starts_length,
    const uint32_t *ids, size_t ids_length, const double *values, size_t values_length,
    const uint32_t *references, size_t references_length,
    const double *instance_weights, size_t instance_weights_length,
    double *weights, size_t weights_length, double *running_sums, size_t running_sums_length,
    double *true_counts, size_t true_counts_length,
    double *predicted_counts, size_t predicted_counts_length,
    uint32_t *order, size_t order_length);

/* AROW.
 *    epochs, epsilon, seed   as above, but for the loss
 *    variance                above 0: at which the covariance of every feature starts
 *    gamma                   above 0: the larger, the smaller the steps
 * A visit with wrong labels adds cost x instance weight to the loss, where cost is
 *    (path score of the labels found - path score of the references) + the number of wrong labels
 * by the weights before the visit. So epsilon is on the scale of the scores here too. */
typedef struct {
    uint32_t epochs;
    double epsilon;
    uint64_t seed;
    double variance;
    double gamma;
} bodkinbloom_arow_parameters;

bodkinbloom_trained bodkinbloom_arow(
    bodkinbloom_arow_parameters parameters, uint32_t labels, bodkinbloom_counts counts,
    const uint8_t *kinds, size_t kinds_length, const uint32_t *destinations, size_t destinations_length,
    const uint32_t *sources, size_t sources_length,
    const uint32_t *attribute_starts, size_t attribute_starts_length,
    const uint32_t *attribute_entries, size_t attribute_entries_length,
    const uint32_t *label_starts, size_t label_starts_length,
    const uint32_t *label_entries, size_t label_entries_length,
    bodkinbloom_totals totals,
    const uint32_t *line_starts, size_t line_starts_length,
    const uint32_t *word_starts, size_t word_starts_length,
    const uint32_t *ids, size_t ids_length, const double *values, size_t values_length,
    const uint32_t *references, size_t references_length,
    const double *instance_weights, size_t instance_weights_length,
    double *weights, size_t weights_length, double *covariance, size_t covariance_length,
    double *true_counts, size_t true_counts_length,
    double *predicted_counts, size_t predicted_counts_length,
    uint32_t *order, size_t order_length);

/* ---- the training text: instances as they are exchanged, in the text layout of CRFsuite
 *
 * One word a line. Fields are parted by tabs: the label, then any attributes. An attribute is a name, or a name, a colon and
 * a scale, which is its value; without one the value is 1. An empty line, or the end of the text, ends a sequence, which is an
 * instance of training; a further empty line changes nothing.
 *
 *    text      = line { LF line }          so a last line feed may be there or not
 *    line      = empty | label { TAB attribute }
 *    label     = name
 *    attribute = name | name ":" scale
 *    name      = one or more of: a plain byte, "\:" for a colon, "\\" for a backslash
 *    scale     = an optional "-", then 1 to 15 digits with at most one ".", which may be first or last
 *
 * A plain byte is any but tab, line feed, colon and backslash: 0, space, 128 to 255, and CR. A name cannot have a tab or a line
 * feed. Nothing is asked of the encoding. Lines end in a line feed alone. Where they end in CR LF, the CR belongs to the line: its
 * last name ends in CR and is another name than without it; a line of CR alone is a word with the label CR, and ends no
 * sequence; a scale before a CR is malformed. Take such CRs out before the call.
 *
 * A scale's value is its fraction rounded once to the nearest binary64, ties to even; "-0" is -0. Beside the value its text is
 * kept as it was typed, for the writer: b, b:1, b:1. and b:01 have the value 1 and four different texts, the first empty.
 *
 * Names get ids by first appearance, from 0, labels and attributes apart. Each call starts with no names: the ids of two texts
 * agree only where names appear first in the same order. To use a text with a model that was trained on another, look each of
 * its names up among the names of the other, and put the other's id for its own in `ids` and `references`. An attribute that the
 * other does not have takes any id without an attribute list, which adds nothing.
 *
 * Names are found by hashing, so that reading takes time in proportion to the text. Only in a text that is made for it, with names
 * whose searches all begin in the same place, is every attribute compared with the names before it, at most 65,535 of them: the
 * time then grows with names x attributes. Who takes texts from strangers bounds their length. */

/* What reading a text answers; all but number and place are 0 after a refusal.
 *    number           0, or the refusal's
 *    place            of the refusal, else 0
 *    labels           how many names of labels, at most 32
 *    attribute_names  how many names of attributes, at most 65,535
 *    instances, words_in_all, attributes_in_all    as bodkinbloom_totals has them
 *    label_bytes, attribute_bytes                  of all those names together, without escapes
 *    scale_bytes                                   of all kept texts together */
typedef struct {
    uint32_t number;
    uint64_t place;
    uint32_t labels;
    uint32_t attribute_names;
    uint32_t instances;
    uint32_t words_in_all;
    uint32_t attributes_in_all;
    uint32_t label_bytes;
    uint32_t attribute_bytes;
    uint32_t scale_bytes;
} bodkinbloom_text;

/* How many instances, words, attributes, labels and attribute names a text of n bytes has at the most, whatever is in it, unless
 * it is refused: so tables of these lengths are never too short. Tables of starts need one more, as ever:
 * BODKINBLOOM_STARTS(BODKINBLOOM_TEXT_WORDS(n)). For label_names, attribute_names and scales n bytes each are enough. What is
 * written of the tables that were read has at most BODKINBLOOM_WRITTEN(n) bytes. (`n` is evaluated several times.) */
#define BODKINBLOOM_MOST_ATTRIBUTE_NAMES 65535
#define BODKINBLOOM_LESS(count, most) ((size_t)(count) < (size_t)(most) ? (size_t)(count) : (size_t)(most))
#define BODKINBLOOM_TEXT_INSTANCES(n) BODKINBLOOM_LESS((n) / 3 + ((n) % 3 != 0), BODKINBLOOM_MOST_INSTANCES)
#define BODKINBLOOM_TEXT_WORDS(n) BODKINBLOOM_LESS((n) / 2 + ((n) % 2 != 0), BODKINBLOOM_MOST_WORDS_IN_ALL)
#define BODKINBLOOM_TEXT_ATTRIBUTES(n) BODKINBLOOM_LESS((n) / 2, BODKINBLOOM_MOST_ATTRIBUTES_IN_ALL)
#define BODKINBLOOM_TEXT_LABELS(n) BODKINBLOOM_LESS((n) / 2 + ((n) % 2 != 0), BODKINBLOOM_MOST_LABELS)
#define BODKINBLOOM_TEXT_ATTRIBUTE_NAMES(n) BODKINBLOOM_LESS((n) / 2, BODKINBLOOM_MOST_ATTRIBUTE_NAMES)
#define BODKINBLOOM_WRITTEN(n) ((size_t)(n) + 2)

/* Reads a text of `text_length` bytes into tables that the trainers take, the names and the kept texts beside them. How long
 * the tables have to be, by what the call answers, and what stands in them after an accepted call:
 *    line_starts            BODKINBLOOM_STARTS(instances)          where the words of each instance begin
 *    word_starts            BODKINBLOOM_STARTS(words_in_all)       where the attributes of each word begin
 *    ids                    attributes_in_all                      of each attribute the id of its name
 *    values                 attributes_in_all                      its value
 *    references             words_in_all                           of each word the id of its label
 *    instance_weights       instances                              1, all of them
 *    label_name_starts      BODKINBLOOM_STARTS(labels)             where the name of each label begins
 *    label_names            label_bytes                            the names, one behind the other, without escapes
 *    attribute_name_starts  BODKINBLOOM_STARTS(attribute_names)    where the name of each attribute begins
 *    attribute_names        attribute_bytes                        the names, likewise
 *    scale_starts           BODKINBLOOM_STARTS(attributes_in_all)  where the kept text of each attribute of each word begins
 *    scales                 scale_bytes                            the kept texts; one without a scale has none
 * Behind these fronts nothing is written. bodkinbloom_text_sizes tells these lengths beforehand; the macros above, without a look
 * at the text, what is enough.
 *
 * Refused, in this order; all twelve tables are then as they were:
 *   11  the text is malformed; place: the index of the first byte after which nothing makes it well-formed any more, or text_length
 *       where only the end comes too soon (behind a tab, a backslash, a colon, or a scale without a digit). The whole text is
 *       looked at for it before anything else
 *   2   the text has more than 4,294,967,295 bytes; more than 32 labels or 65,535 attribute names; no word at all, or more than
 *       16,384 sequences; more than 1,048,576 words or 4,194,304 attributes. Or a table is too short for the whole answer: so it
 *       is where bodkinbloom_text_sizes accepts the text. Place 0
 *   4   a sequence has more than 128 words; place: the first such sequence, from 0 */
bodkinbloom_text bodkinbloom_read_text(const uint8_t *text, size_t text_length,
                                       uint32_t *line_starts, size_t line_starts_length,
                                       uint32_t *word_starts, size_t word_starts_length,
                                       uint32_t *ids, size_t ids_length,
                                       double *values, size_t values_length,
                                       uint32_t *references, size_t references_length,
                                       double *instance_weights, size_t instance_weights_length,
                                       uint32_t *label_name_starts, size_t label_name_starts_length,
                                       uint8_t *label_names, size_t label_names_length,
                                       uint32_t *attribute_name_starts, size_t attribute_name_starts_length,
                                       uint8_t *attribute_names, size_t attribute_names_length,
                                       uint32_t *scale_starts, size_t scale_starts_length,
                                       uint8_t *scales, size_t scales_length);

/* What bodkinbloom_read_text answers where every table is long enough; nothing is written. Refused as there: 11, 2 but for the
 * tables, 4. It goes through the whole text, and reading goes through it again. */
bodkinbloom_text bodkinbloom_text_sizes(const uint8_t *text, size_t text_length);

/* How many names of attributes, and how many bytes the names and the kept texts have: as in bodkinbloom_text. */
typedef struct {
    uint32_t attribute_names;
    uint32_t label_bytes;
    uint32_t attribute_bytes;
    uint32_t scale_bytes;
} bodkinbloom_names;

/* What writing answers: number and place as above, and how many bytes were written, 0 after a refusal. */
typedef struct {
    uint32_t number;
    uint64_t place;
    uint64_t length;
} bodkinbloom_written;

/* Writes tables as a text: each word as a line, its label and for each attribute a tab, the name, and, where the kept text is
 * not empty, a colon and that text. In names a backslash is put before each colon and each backslash. A line feed ends each line,
 * and one more, which makes an empty line, each sequence, the last too: so two written texts, one behind the other, are a text
 * of both. Values and instance weights are not lent: a text carries the kept texts, and no weights. The tables and how long they
 * have to be are those of bodkinbloom_read_text, by `labels`, `totals` and `names`. Of `text` only the front that is written is
 * touched.
 *
 * Tables that the reader filled, with the counts that it answered, are accepted where `text` has room, and what is written reads
 * back to the same tables and the same answer, to the bit. One thing is left to mind: what is written may have two bytes more than
 * what was read, and above 4,294,967,295 bytes it is itself refused (2) when it is read.
 *
 * Refused, in this order; `text` is then as it was:
 *   1   `labels` is not 1 to 32; place 0
 *   2   more than 65,535 attribute names; not 1 to 16,384 instances; more than 1,048,576 words or 4,194,304 attributes. Or a
 *       table that is read is too short. Place 0
 *   3   a start breaks its rule; place: its index in line_starts, word_starts, label_name_starts, attribute_name_starts,
 *       scale_starts
 *   4   an instance has no words, or more than 128; place: the first such instance, from 0
 *   5   an id without a name, in ids; then a label at or above `labels`, in references; place: the index
 *   2   `text` is too short for all that is to be written; place 0
 *   11  a name that is empty or has a tab or a line feed, or a kept text that is not empty and no scale. The names of labels are
 *       tested first, then those of attributes, then the kept texts, used or not; place: which name, or which kept text, from 0 */
bodkinbloom_written bodkinbloom_write_text(uint32_t labels, bodkinbloom_totals totals, bodkinbloom_names names,
                                           const uint32_t *line_starts, size_t line_starts_length,
                                           const uint32_t *word_starts, size_t word_starts_length,
                                           const uint32_t *ids, size_t ids_length,
                                           const uint32_t *references, size_t references_length,
                                           const uint32_t *label_name_starts, size_t label_name_starts_length,
                                           const uint8_t *label_names, size_t label_names_length,
                                           const uint32_t *attribute_name_starts, size_t attribute_name_starts_length,
                                           const uint8_t *attribute_names, size_t attribute_names_length,
                                           const uint32_t *scale_starts, size_t scale_starts_length,
                                           const uint8_t *scales, size_t scales_length,
                                           uint8_t *text, size_t text_length);

#ifdef __cplusplus
}
#endif

#endif
