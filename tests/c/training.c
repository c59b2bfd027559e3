/* The trainers as a C program calls them: the desk cases P9 to P14, the cases that document 01 wants run, two instances over
 * several epochs, the switches, every refusal alone and together with all that come after it, NULL for tables of length 0.
 * After each call all memory is looked at: tables that are read, the needed fronts of buffers, and what lies behind them.
 *
 * What is expected is document 01's, or was worked out by hand; of the latter oracle/tests/training_from_c.rs shows that the
 * Rust gives the same. Numbers are compared to the bit. */
#include <float.h>
#include <math.h>
#include <stdint.h>
#include <stdio.h>
#include <string.h>
#include "bodkinbloom.h"

#define ROOT_2 1.4142135623730951

/* ---- what is handed over: numbers, tables that are read, buffers */

enum { PERCEPTRON, PASSIVE, AROW, TRAINERS };
static const char *const trainers[TRAINERS] = {"averaged perceptron", "passive-aggressive", "AROW"};

enum {
    KINDS, DESTINATIONS, SOURCES, ATTRIBUTE_STARTS, ATTRIBUTE_ENTRIES, LABEL_STARTS, LABEL_ENTRIES,
    LINE_STARTS, WORD_STARTS, IDS, VALUES, REFERENCES, INSTANCE_WEIGHTS, WEIGHTS, RUNNING_SUMS, TRUE_COUNTS,
    PREDICTED_COUNTS, ORDER, TABLES
};

typedef struct {
    int trainer;
    uint32_t epochs, variant, sensitive, averaging, labels;
    double epsilon, c, variance, gamma;
    uint64_t seed;
    bodkinbloom_counts counts;
    bodkinbloom_totals totals;
    struct {
        void *at;
        size_t length;
    } table[TABLES];
} call;

enum { F = 4, N = 16384, BEHIND = 3 };

static struct {
    uint8_t kinds[F];
    uint32_t destinations[F], sources[F], attribute_starts[3], attribute_entries[F], label_starts[3], label_entries[2];
    uint32_t line_starts[N + 1], word_starts[N + 1], ids[N], references[N];
    double values[N], instance_weights[N];
} in, before;

static struct {
    double weights[F + BEHIND], running_sums[F + BEHIND], true_counts[F + BEHIND], predicted_counts[F + BEHIND];
    uint32_t order[N + BEHIND];
} out;

/* what the buffers are full of at entry: a number, then NaNs of both signs, quiet and signalling, each with a payload */
static const uint64_t fills[] = {UINT64_C(0x5A5A5A5A5A5A5A5A), UINT64_C(0xFFFFFFFFFFFFFFFF), UINT64_C(0x7FF8C0DEC0DEC0DE),
                                 UINT64_C(0x7FF0000000000001), UINT64_C(0xFFF5BADBADBADBAD)};
static uint64_t fill;

static const struct {
    void *at;
    size_t bytes, each;
} buffers[TABLES] = {
    [WEIGHTS] = {out.weights, sizeof out.weights, sizeof(double)},
    [RUNNING_SUMS] = {out.running_sums, sizeof out.running_sums, sizeof(double)},
    [TRUE_COUNTS] = {out.true_counts, sizeof out.true_counts, sizeof(double)},
    [PREDICTED_COUNTS] = {out.predicted_counts, sizeof out.predicted_counts, sizeof(double)},
    [ORDER] = {out.order, sizeof out.order, sizeof(uint32_t)},
};

static size_t needed(const call *c, int table) {
    const bodkinbloom_counts *counts = &c->counts;
    const bodkinbloom_totals *totals = &c->totals;
    const size_t lengths[TABLES] = {
        [KINDS] = counts->features, [DESTINATIONS] = counts->features, [SOURCES] = counts->features,
        [ATTRIBUTE_STARTS] = BODKINBLOOM_STARTS(counts->attribute_lists),
        [ATTRIBUTE_ENTRIES] = counts->attribute_entries,
        [LABEL_STARTS] = BODKINBLOOM_STARTS(counts->label_lists), [LABEL_ENTRIES] = counts->label_entries,
        [LINE_STARTS] = BODKINBLOOM_STARTS(totals->instances),
        [WORD_STARTS] = BODKINBLOOM_STARTS(totals->words_in_all),
        [IDS] = totals->attributes_in_all, [VALUES] = totals->attributes_in_all, [REFERENCES] = totals->words_in_all,
        [INSTANCE_WEIGHTS] = totals->instances, [WEIGHTS] = BODKINBLOOM_WEIGHTS(counts->features),
        [RUNNING_SUMS] = BODKINBLOOM_WEIGHTS(counts->features), [TRUE_COUNTS] = BODKINBLOOM_WEIGHTS(counts->features),
        [PREDICTED_COUNTS] = BODKINBLOOM_WEIGHTS(counts->features), [ORDER] = BODKINBLOOM_ORDER(totals->instances),
    };
    return lengths[table];
}

/* Every table as long as it has to be, NULL where that is 0; buffers that are needed are one longer. */
static void fit(call *c) {
    void *const tables[TABLES] = {in.kinds, in.destinations, in.sources, in.attribute_starts, in.attribute_entries,
                                  in.label_starts, in.label_entries, in.line_starts, in.word_starts, in.ids, in.values,
                                  in.references, in.instance_weights, out.weights, out.running_sums, out.true_counts,
                                  out.predicted_counts, out.order};
    for (int i = 0; i < TABLES; i++) {
        size_t length = needed(c, i);
        c->table[i].at = length == 0 ? NULL : tables[i];
        c->table[i].length = length + (length > 0 && i >= WEIGHTS);
    }
}

static bodkinbloom_trained train(const call *c) {
    const bodkinbloom_averaged_perceptron_parameters perceptron = {
        .epochs = c->epochs, .epsilon = c->epsilon, .seed = c->seed};
    const bodkinbloom_passive_aggressive_parameters passive = {
        .epochs = c->epochs, .epsilon = c->epsilon, .seed = c->seed, .c = c->c,
        .variant = c->variant, .error_sensitive = c->sensitive, .averaging = c->averaging};
    const bodkinbloom_arow_parameters arow = {.epochs = c->epochs, .epsilon = c->epsilon, .seed = c->seed,
                                              .variance = c->variance, .gamma = c->gamma};
#define T(i) c->table[i].at, c->table[i].length
#define ALL                                                                                                                  \
    c->labels, c->counts, T(KINDS), T(DESTINATIONS), T(SOURCES), T(ATTRIBUTE_STARTS), T(ATTRIBUTE_ENTRIES), T(LABEL_STARTS), \
        T(LABEL_ENTRIES), c->totals, T(LINE_STARTS), T(WORD_STARTS), T(IDS), T(VALUES), T(REFERENCES), T(INSTANCE_WEIGHTS),  \
        T(WEIGHTS), T(RUNNING_SUMS), T(TRUE_COUNTS), T(PREDICTED_COUNTS), T(ORDER)
    switch (c->trainer) {
    case PERCEPTRON:
        return bodkinbloom_averaged_perceptron(perceptron, ALL);
    case PASSIVE:
        return bodkinbloom_passive_aggressive(passive, ALL);
    default:
        return bodkinbloom_arow(arow, ALL);
    }
}

/* ---- what has to hold after it */

static int checks, failures;

static void holds(const char *what, const call *c, int yes) {
    checks++;
    if (!yes) {
        printf("not so: %s: %s\n", trainers[c->trainer], what);
        failures++;
    }
}

static bodkinbloom_trained run(const char *what, const call *c) {
    memcpy(&before, &in, sizeof in);
    for (size_t i = 0; i < sizeof out; i += sizeof fill)
        memcpy((unsigned char *)&out + i, &fill, sizeof fill);
    bodkinbloom_trained answer = train(c);
    holds(what, c, memcmp(&before, &in, sizeof in) == 0);
    return answer;
}

/* By the bits, from one byte up to another. */
static int full_of(uint64_t bits, const unsigned char *at, size_t from, size_t to) {
    while (from < to && at[from] == ((const unsigned char *)&bits)[from % sizeof bits])
        from++;
    return from == to;
}

/* The needed fronts are zero, but for the weights of an accepted call; behind them nothing is written. */
static int fronts(const call *c, const double *weights) {
    int all = 1;
    for (int i = WEIGHTS; i < TABLES; i++) {
        size_t front = needed(c, i) * buffers[i].each;
        all = all && (weights && i == WEIGHTS ? memcmp(out.weights, weights, front) == 0
                                              : full_of(0, buffers[i].at, 0, front));
        all = all && full_of(fill, buffers[i].at, front, buffers[i].bytes);
    }
    return all;
}

static void accepted(const char *what, const call *c, const double *weights, uint64_t epochs, uint64_t updates) {
    bodkinbloom_trained answer = run(what, c);
    holds(what, c, answer.number == 0 && answer.place == 0);
    holds(what, c, answer.epochs == epochs && answer.visits == epochs * c->totals.instances && answer.updates == updates);
    holds(what, c, fronts(c, weights));
}

static void refused(const char *what, const call *c, uint32_t number, uint64_t place) {
    bodkinbloom_trained answer = run(what, c);
    holds(what, c, answer.number == number && answer.place == place);
    holds(what, c, answer.epochs == 0 && answer.visits == 0 && answer.updates == 0);
    holds(what, c, number < 8 ? full_of(fill, (unsigned char *)&out, 0, sizeof out) : fronts(c, NULL));
}

/* ---- P9 to P14: two labels, one word, attribute 0 of value 1 listing State features to labels 0 and 1 */

/* With so many lists like attribute 0's, and so many instances alike. */
static call alike(int trainer, uint32_t lists, uint32_t instances) {
    memset(&in, 0, sizeof in);
    for (uint32_t i = 0; i < 2 * lists; i++) {
        in.destinations[i] = i % 2;
        in.attribute_entries[i] = i;
    }
    for (uint32_t i = 0; i <= lists; i++)
        in.attribute_starts[i] = 2 * i;
    for (uint32_t i = 0; i < instances; i++) {
        in.line_starts[i + 1] = in.word_starts[i + 1] = i + 1;
        in.values[i] = in.instance_weights[i] = 1;
    }
    call c = {.trainer = trainer, .epochs = 1, .variant = BODKINBLOOM_PA_I, .sensitive = 1, .labels = 2, .c = 1,
              .variance = 0.5, .gamma = 1, .counts = {.features = 2 * lists, .attribute_lists = lists,
              .attribute_entries = 2 * lists}, .totals = {instances, instances, instances}};
    fit(&c);
    return c;
}

static call p9(int trainer) { return alike(trainer, 1, 1); }

static void desk(void) {
    static const struct {
        const char *name;
        int trainer;
        uint32_t epochs, reference, variant, averaging;
        double weight;
        uint64_t epochs_run;
    } cases[] = {
        {"P9", PERCEPTRON, 1, 0, 0, 0, 0.5, 1},
        {"P10", PERCEPTRON, 3, 0, 0, 0, 0.75, 3},
        {"P11", PASSIVE, 1, 0, BODKINBLOOM_PA_I, 0, 0.5, 1},
        {"P11 with averaging", PASSIVE, 1, 0, BODKINBLOOM_PA_I, 1, 0.25, 1},
        {"P12", PASSIVE, 1, 0, BODKINBLOOM_PA_II, 0, 0.4, 1},
        {"P13", AROW, 1, 0, 0, 0, 0.25, 1},
        {"P14", PERCEPTRON, 100, 1, 0, 0, 0, 100},
        {"P14, Pa", PASSIVE, 100, 1, BODKINBLOOM_PA, 1, 0, 100},
        {"P14, PaI", PASSIVE, 100, 1, BODKINBLOOM_PA_I, 1, 0, 100},
        {"P14, PaII", PASSIVE, 100, 1, BODKINBLOOM_PA_II, 0, 0, 100},
        {"P14", AROW, 100, 1, 0, 0, 0, 1},
    };
    for (size_t i = 0; i < sizeof cases / sizeof *cases; i++) {
        call c = p9(cases[i].trainer);
        c.epochs = cases[i].epochs;
        c.variant = cases[i].variant;
        c.averaging = cases[i].averaging;
        in.references[0] = cases[i].reference;
        double weight = cases[i].weight;
        accepted(cases[i].name, &c, (double[]){weight, cases[i].reference == 0 ? -weight : 0}, cases[i].epochs_run,
                 cases[i].reference == 0);
    }
}

/* ---- "Run only: L 0, 32, 33; T 0, 128, 129; N 0, 1; C = 0, NaN"; N 1 is P9 */

/* One instance of so many words. */
static call line_of(int trainer, uint32_t words) {
    call c = alike(trainer, 1, words == 0 ? 1 : words);
    in.line_starts[1] = words;
    c.totals = (bodkinbloom_totals){1, words, words};
    fit(&c);
    return c;
}

static void run_only(int trainer) {
    static const double with_32[] = {0.5, 1, 1.0 / 3}, with_128[] = {64, ROOT_2 / 32, 8192.0 / 16385};
    static const double with_most[] = {1 - 1.0 / 16385, 0.5, 0.25};
    call c = p9(trainer);
    c.labels = 0;
    refused("no labels", &c, 1, 0);
    c.labels = 33;
    refused("33 labels", &c, 1, 0);
    c.labels = 32;
    accepted("32 labels: all tie, the last is found", &c, (double[]){with_32[trainer], 0}, 1, 1);

    c = line_of(trainer, 0);
    refused("no words", &c, 4, 0);
    c = line_of(trainer, 129);
    refused("129 words", &c, 4, 0);
    c = line_of(trainer, 128);
    accepted("128 words", &c, (double[]){with_128[trainer], -with_128[trainer]}, 1, 1);
    c = alike(trainer, 1, 130);
    c.totals.instances = 2;
    in.line_starts[2] = 130;
    fit(&c);
    refused("129 words in the second instance", &c, 4, 1);

    c = p9(trainer);
    c.totals.instances = 0;
    refused("no instances", &c, 2, 0);
    c = alike(trainer, 1, N);
    accepted("as many instances as there can be", &c, (double[]){with_most[trainer], -with_most[trainer]}, 1, 1);
}

static void parameters(double bad) {
    call c = p9(PASSIVE);
    c.c = bad;
    for (c.variant = 0; c.variant < 3; c.variant++)
        refused("C that is not above 0, or not finite", &c, 7, 3);
    c = p9(AROW);
    c.variance = bad;
    refused("variance that is not above 0, or not finite", &c, 7, 3);
    c.variance = 1;
    c.gamma = bad;
    refused("gamma that is not above 0, or not finite", &c, 7, 4);
    for (int trainer = 0; bad != 0 && trainer < TRAINERS; trainer++) {
        c = p9(trainer);
        c.epsilon = bad;
        refused("epsilon below 0, or not finite", &c, 7, 2);
    }
}

/* ---- two instances: attribute 0 with reference 0, attributes 0 and 1 with reference 1
 *
 * Draws from the seed 0 are odd, even, odd: the order is 0 1, then 1 0, then 1 0. Draws from 1234567 are odd: 0 1. A trainer
 * that learns in the first epoch and counts the rest is found out: the second epoch has an update. */

static call two(int trainer, uint32_t epochs) {
    call c = alike(trainer, 2, 2);
    in.word_starts[2] = c.totals.attributes_in_all = 3;
    in.ids[2] = in.references[1] = 1;
    in.values[2] = 1;
    c.epochs = epochs;
    fit(&c);
    return c;
}

#define MIRRORED(x, y) ((double[]){x, -(x), -(y), y})

static void two_instances(void) {
    call c = two(PERCEPTRON, 1);
    accepted("two instances, 1 epoch", &c, MIRRORED(1.0 / 3, 1 - 2.0 / 3), 1, 2);
    c = two(PERCEPTRON, 2);
    accepted("two instances, 2 epochs", &c, MIRRORED(1 - 3.0 / 5, 1 - 2.0 / 5), 2, 3);
    c = two(PERCEPTRON, 3);
    accepted("two instances, 3 epochs", &c, MIRRORED(1 - 3.0 / 7, 1 - 2.0 / 7), 3, 3);
    c = two(PERCEPTRON, 2);
    c.seed = 1234567;
    accepted("two instances, another seed", &c, MIRRORED(1 - 2.0 / 5, 1 - 2.0 / 5), 2, 3);
    /* the mean loss is 1, then 0.5, then 0 */
    c = two(PERCEPTRON, 100);
    c.epsilon = 0.5;
    accepted("a loss of epsilon goes on", &c, MIRRORED(1 - 3.0 / 7, 1 - 2.0 / 7), 3, 3);
    c.epsilon = 0.51;
    accepted("a loss below epsilon stops", &c, MIRRORED(1 - 3.0 / 5, 1 - 2.0 / 5), 2, 3);

    c = two(PASSIVE, 1);
    c.variant = BODKINBLOOM_PA;
    accepted("two instances, 1 epoch", &c, (double[]){0, 0, -0.5, 0.5}, 1, 2);
    c.epochs = 2;
    accepted("two instances, 2 epochs", &c, MIRRORED(0.5, 0.5), 2, 3);
    c.averaging = 1;
    accepted("two instances, averaging", &c, MIRRORED(0.5 - 1.5 / 5, 0.5 - 1.0 / 5), 2, 3);

    c = two(AROW, 1);
    c.variance = 1;
    in.values[1] = 2;
    accepted("two instances, 1 epoch", &c, (double[]){0, 0, -1.0 / 3, 1.0 / 3}, 1, 2);
    c.epochs = 2; /* 1/8 but for the rounding */
    accepted("two instances, 2 epochs", &c, MIRRORED(0.12499999999999997, 1.0 / 3), 2, 3);
    c.epochs = 100;
    accepted("a loss of epsilon stops", &c, MIRRORED(0.12499999999999997, 1.0 / 3), 3, 3);
    c.epsilon = -0.0;
    accepted("epsilon of -0 is zero", &c, MIRRORED(0.12499999999999997, 1.0 / 3), 3, 3);
}

/* "Only AROW and the perceptron weight the difference." */
static void instance_weights(void) {
    static const struct {
        int trainer;
        uint32_t variant;
        double weight;
    } cases[] = {{PERCEPTRON, 0, 1}, {PASSIVE, 0, 1}, {PASSIVE, 1, 1}, {PASSIVE, 2, 0.8}, {AROW, 0, 0.2}};
    for (size_t i = 0; i < sizeof cases / sizeof *cases; i++) {
        call c = p9(cases[i].trainer);
        c.variant = cases[i].variant;
        in.instance_weights[0] = 2;
        accepted("an instance of weight 2", &c, (double[]){cases[i].weight, -cases[i].weight}, 1, 1);
    }
}

/* ---- numbers that stand for something: 0 is off and all else on; the variants are 0, 1, 2 */

static void switches(void) {
    const uint32_t numbers[] = {0, 1, 2, UINT32_MAX};
    for (int s = 0; s < 4; s++)
        for (int a = 0; a < 4; a++) {
            call c = line_of(PASSIVE, 2);
            c.variant = BODKINBLOOM_PA;
            c.sensitive = numbers[s];
            c.averaging = numbers[a];
            double weight = (s == 0 ? 1 : ROOT_2) / (a == 0 ? 4 : 8);
            accepted("a switch", &c, (double[]){weight, -weight}, 1, 1);
        }
    const uint32_t variants[] = {3, 4, 256, UINT32_MAX};
    for (int v = 0; v < 4; v++) {
        call c = p9(PASSIVE);
        c.variant = variants[v];
        refused("a variant above 2", &c, 7, 5);
    }
    for (int trainer = 0; trainer < TRAINERS; trainer++) {
        call c = p9(trainer);
        const uint32_t epochs[] = {0, 1001, UINT32_MAX};
        for (int e = 0; e < 3; e++) {
            c.epochs = epochs[e];
            refused("epochs outside 1 to 1,000", &c, 7, 1);
        }
        c.epochs = 1000;
        in.references[0] = 1;
        accepted("1,000 epochs", &c, (double[]){0, 0}, trainer == AROW ? 1 : 1000, 0);
    }
}

/* ---- 1 to 7, in the order in which they are given */

/* Two instances of two words over a model with something in every table. */
static call whole(int trainer) {
    call c = alike(trainer, 2, 4);
    in.kinds[2] = in.kinds[3] = BODKINBLOOM_KIND_TRANSITION;
    in.destinations[2] = in.sources[3] = 1;
    in.sources[0] = in.sources[1] = 99; /* of State features: not read */
    in.destinations[3] = in.sources[2] = 0;
    in.attribute_entries[2] = 0;
    in.attribute_entries[3] = 1;
    in.label_starts[1] = 1;
    in.label_starts[2] = 2;
    in.label_entries[0] = 2;
    in.label_entries[1] = 3;
    in.line_starts[1] = 2;
    in.line_starts[2] = 4;
    in.ids[1] = in.references[1] = in.references[2] = 1;
    in.ids[3] = 70; /* has no list: ignored */
    c.counts.label_lists = c.counts.label_entries = c.totals.instances = 2;
    fit(&c);
    return c;
}

enum {
    LABELS_33, TOO_SHORT, ATTRIBUTE_STARTS_END, LABEL_STARTS_BEGIN, LINE_STARTS_END, WORD_STARTS_FALL, WORDLESS, BAD_KIND,
    BAD_DESTINATION, BAD_SOURCE, BAD_ATTRIBUTE_ENTRY, BAD_LABEL_ENTRY, BAD_REFERENCE, BAD_VALUE, BAD_INSTANCE_WEIGHT,
    NO_EPOCHS, BAD_EPSILON, BAD_C, BAD_GAMMA, BAD_VARIANT, FAULTS
};

static const struct {
    const char *what;
    uint32_t number;
    uint64_t place;
} faults[FAULTS] = {
    [LABELS_33] = {"33 labels", BODKINBLOOM_REFUSED_LABELS, 0},
    [TOO_SHORT] = {"a buffer that is too short", BODKINBLOOM_REFUSED_SIZE, 0},
    [ATTRIBUTE_STARTS_END] = {"attribute lists that do not end at their count", BODKINBLOOM_REFUSED_STARTS, 2},
    [LABEL_STARTS_BEGIN] = {"label lists that do not begin at 0", BODKINBLOOM_REFUSED_STARTS, 0},
    [LINE_STARTS_END] = {"instances that do not end at their count", BODKINBLOOM_REFUSED_STARTS, 2},
    [WORD_STARTS_FALL] = {"starts of attributes that fall", BODKINBLOOM_REFUSED_STARTS, 3},
    [WORDLESS] = {"an instance without words", BODKINBLOOM_REFUSED_WORDS, 1},
    [BAD_KIND] = {"a kind of 2", BODKINBLOOM_REFUSED_RANGE, 3},
    [BAD_DESTINATION] = {"a destination at L", BODKINBLOOM_REFUSED_RANGE, 1},
    [BAD_SOURCE] = {"a source at L", BODKINBLOOM_REFUSED_RANGE, 2},
    [BAD_ATTRIBUTE_ENTRY] = {"a feature at F in an attribute list", BODKINBLOOM_REFUSED_RANGE, 3},
    [BAD_LABEL_ENTRY] = {"a feature at F in a label list", BODKINBLOOM_REFUSED_RANGE, 1},
    [BAD_REFERENCE] = {"a reference at L", BODKINBLOOM_REFUSED_RANGE, 2},
    [BAD_VALUE] = {"a value that is not finite", BODKINBLOOM_REFUSED_NOT_FINITE, 3},
    [BAD_INSTANCE_WEIGHT] = {"an instance weight that is not finite", BODKINBLOOM_REFUSED_NOT_FINITE, 1},
    [NO_EPOCHS] = {"no epochs", BODKINBLOOM_REFUSED_PARAMETER, 1},
    [BAD_EPSILON] = {"epsilon below 0", BODKINBLOOM_REFUSED_PARAMETER, 2},
    [BAD_C] = {"C or variance of 0", BODKINBLOOM_REFUSED_PARAMETER, 3},
    [BAD_GAMMA] = {"gamma of NaN", BODKINBLOOM_REFUSED_PARAMETER, 4},
    [BAD_VARIANT] = {"a variant of 3", BODKINBLOOM_REFUSED_PARAMETER, 5},
};

static void damage(call *c, int fault) {
    switch (fault) {
    case LABELS_33: c->labels = 33; break;
    case TOO_SHORT: c->table[PREDICTED_COUNTS].length = F - 1; break;
    case ATTRIBUTE_STARTS_END: in.attribute_starts[2] = 3; break;
    case LABEL_STARTS_BEGIN: in.label_starts[0] = 1; break;
    case LINE_STARTS_END: in.line_starts[2] = 5; break;
    case WORD_STARTS_FALL: in.word_starts[3] = 1; break;
    case WORDLESS: in.line_starts[1] = 4; break;
    case BAD_KIND: in.kinds[3] = 2; break;
    case BAD_DESTINATION: in.destinations[1] = 2; break;
    case BAD_SOURCE: in.sources[2] = 2; break;
    case BAD_ATTRIBUTE_ENTRY: in.attribute_entries[3] = F; break;
    case BAD_LABEL_ENTRY: in.label_entries[1] = F; break;
    case BAD_REFERENCE: in.references[2] = 2; break;
    case BAD_VALUE: in.values[3] = NAN; break;
    case BAD_INSTANCE_WEIGHT: in.instance_weights[1] = -INFINITY; break;
    case NO_EPOCHS: c->epochs = 0; break;
    case BAD_EPSILON: c->epsilon = -1; break;
    case BAD_C: c->c = c->variance = 0; break;
    case BAD_GAMMA: c->gamma = NAN; break;
    case BAD_VARIANT: c->variant = 3; break;
    }
}

/* "Each trainer tests only its own." */
static int tested(int trainer, int fault) {
    return fault < BAD_C || (trainer == PASSIVE && fault != BAD_GAMMA) || (trainer == AROW && fault != BAD_VARIANT);
}

static void refusals(int trainer) {
    call c = whole(trainer);
    holds("nothing is at fault", &c, run("nothing is at fault", &c).number == 0);
    for (int fault = 0; fault < FAULTS; fault++) {
        if (!tested(trainer, fault))
            continue;
        c = whole(trainer);
        damage(&c, fault);
        refused(faults[fault].what, &c, faults[fault].number, faults[fault].place);
        for (int later = fault + 1; later < FAULTS; later++)
            damage(&c, later);
        refused(faults[fault].what, &c, faults[fault].number, faults[fault].place);
    }
}

/* ---- tables that are too short, down to NULL; counts that no table can have */

static void lengths(int trainer) {
    for (int i = 0; i < TABLES; i++) {
        call c = whole(trainer);
        c.table[i].length = needed(&c, i);
        holds("as long as needed", &c, run("as long as needed", &c).number == 0);
        c.table[i].length -= 1;
        refused("one too short", &c, 2, 0);
        c.table[i].at = NULL;
        c.table[i].length = 0;
        refused("NULL", &c, 2, 0);
    }
    for (int count = 0; count < 8; count++) {
        call c = whole(trainer);
        uint32_t *const counts[] = {&c.counts.features, &c.counts.attribute_lists, &c.counts.label_lists,
                                    &c.counts.attribute_entries, &c.counts.label_entries, &c.totals.instances,
                                    &c.totals.words_in_all, &c.totals.attributes_in_all};
        *counts[count] = UINT32_MAX;
        refused("a count of 2^32 - 1", &c, 2, 0);
    }
}

static void null_tables(int trainer) {
    call c = p9(trainer);
    for (int i = 0; i < TABLES; i++) {
        c.table[i].at = NULL;
        c.table[i].length = 0;
    }
    refused("all NULL", &c, 2, 0);
    c.counts = (bodkinbloom_counts){0, 0, 0, 0, 0};
    c.totals.words_in_all = c.totals.attributes_in_all = 0;
    refused("all NULL, and all counts 0", &c, 2, 0);
    c.labels = 0;
    refused("all NULL, no labels", &c, 1, 0);

    /* without features and attributes: starts, references, instance weights and the order are all that is needed */
    c = alike(trainer, 0, 1);
    c.totals.attributes_in_all = in.word_starts[1] = 0;
    fit(&c);
    int given = 0;
    for (int i = 0; i < TABLES; i++)
        given += c.table[i].at != NULL;
    holds("seven tables are left", &c, given == 7);
    accepted("NULL for what is not needed", &c, NULL, 1, 1);
}

/* ---- 8 and 9: the needed fronts are zero */

static void not_finite(int trainer) {
    /* the first instance has the label that is found; the second an attribute twice */
    call c = alike(trainer, 1, 3);
    in.references[0] = 1;
    in.word_starts[2] = 3;
    in.values[1] = in.values[2] = DBL_MAX;
    c.totals.instances = c.totals.words_in_all = 2;
    fit(&c);
    refused("a true count overflows", &c, BODKINBLOOM_REFUSED_RESULT, 1);
    in.attribute_starts[1] = c.counts.attribute_entries = 1;
    in.attribute_entries[0] = 1;
    fit(&c);
    refused("a predicted count overflows", &c, BODKINBLOOM_REFUSED_RESULT, 1);

    c = alike(trainer, 0, 2);
    in.instance_weights[0] = in.instance_weights[1] = 1.5e308;
    refused("the loss overflows", &c, BODKINBLOOM_REFUSED_TRAINING, 1);

    c = p9(trainer);
    in.values[0] = trainer == PASSIVE ? 1e-150 : DBL_MAX;
    in.instance_weights[0] = trainer == PASSIVE ? 1e10 : 2;
    c.variant = BODKINBLOOM_PA;
    refused("a weight overflows", &c, BODKINBLOOM_REFUSED_TRAINING, 0);
}

static void not_finite_alone(void) {
    call c = p9(PERCEPTRON);
    c.epochs = 2;
    in.values[0] = -1e308;
    refused("a state score overflows in the second epoch", &c, BODKINBLOOM_REFUSED_RESULT, 1);

    /* a Transition from label 1 to itself, twice in its list; two words */
    c = line_of(PERCEPTRON, 2);
    c.epochs = 2;
    in.kinds[0] = BODKINBLOOM_KIND_TRANSITION;
    in.sources[0] = in.destinations[0] = 1;
    in.label_starts[2] = 2;
    in.instance_weights[0] = 0.4 * DBL_MAX;
    c.counts = (bodkinbloom_counts){.features = 1, .label_lists = 2, .label_entries = 2};
    fit(&c);
    refused("a transition score overflows in the second epoch", &c, BODKINBLOOM_REFUSED_RESULT, 1);

    c = alike(PERCEPTRON, 1, 2);
    in.references[0] = 1;
    in.instance_weights[1] = 0.75 * DBL_MAX;
    refused("a running sum overflows", &c, BODKINBLOOM_REFUSED_TRAINING, 1);

    /* features in no list: 1 / (1 / variance) */
    c = p9(AROW);
    c.variance = DBL_MAX;
    c.counts = (bodkinbloom_counts){.features = 2};
    fit(&c);
    refused("a covariance overflows", &c, BODKINBLOOM_REFUSED_TRAINING, 0);
}

static void everything(void) {
    const double bad[] = {0, -0.0, -1, -DBL_MIN, NAN, INFINITY, -INFINITY};
    desk();
    for (size_t i = 0; i < sizeof bad / sizeof *bad; i++)
        parameters(bad[i]);
    two_instances();
    instance_weights();
    switches();
    for (int trainer = 0; trainer < TRAINERS; trainer++) {
        run_only(trainer);
        refusals(trainer);
        lengths(trainer);
        null_tables(trainer);
        not_finite(trainer);
    }
    not_finite_alone();
}

/* What the buffers hold at entry makes no difference. */
int main(void) {
    _Static_assert(sizeof out % sizeof fill == 0, "buffers are filled by the word");
    for (size_t i = 0; i < sizeof fills / sizeof *fills; i++) {
        fill = fills[i];
        everything();
    }
    printf("%d checks of training from C: %d failed\n", checks, failures);
    return failures != 0;
}
