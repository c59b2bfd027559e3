/* Scoring, counting and labelling a line as a C program calls them: one small model worked out by hand, the fewest and the
 * most labels and words and one past them, NULL for every table and buffer of length 0, one refusal of each number, and the
 * memory around what is lent, NaNs in it too. Numbers are compared to the bit. */
#include <float.h>
#include <inttypes.h>
#include <math.h>
#include <stdio.h>
#include <string.h>
#include "bodkinbloom.h"

static int checks, failures;

static void holds(const char *what, int yes) {
    checks++;
    if (!yes) {
        printf("not so: %s\n", what);
        failures++;
    }
}

static int same(double x, double y) { return memcmp(&x, &y, sizeof x) == 0; }

/* ---- two labels; State features 0 and 1, Transition features 2 (0 to 1) and 3 (1 to 0) */

enum { L = 2, T = 2, F = 4 };

static const bodkinbloom_counts counts = {
    .features = F, .attribute_lists = 2, .label_lists = 2, .attribute_entries = 4, .label_entries = 2};
static const uint8_t kinds[F] = {BODKINBLOOM_KIND_STATE, BODKINBLOOM_KIND_STATE, BODKINBLOOM_KIND_TRANSITION,
                                 BODKINBLOOM_KIND_TRANSITION};
static const uint32_t destinations[F] = {0, 1, 1, 0};
static const uint32_t sources[F] = {77, 77, 0, 1};
static const double weights[F] = {1.5, -0.5, 2, 0.25};
static const uint32_t attribute_starts[3] = {0, 2, 4}, attribute_entries[4] = {0, 1, 1, 1};
static const uint32_t label_starts[3] = {0, 1, 2}, label_entries[2] = {2, 3};

/* ---- two words: attribute 0 and one without a list; attribute 1 */

static const uint32_t word_starts[T + 1] = {0, 2, 3}, ids[3] = {0, 9, 1};
static const double values[3] = {2, 7, 1};

#define STRUCTURE kinds, F, destinations, F, sources, F
#define LISTS attribute_starts, 3, attribute_entries, 4, label_starts, 3, label_entries, 2
#define LINE word_starts, T + 1, ids, 3, values, 3

static bodkinbloom_refused scores(uint32_t labels, uint32_t words, const double *w, const double *v, double *transitions,
                                  double *states, size_t room) {
    return bodkinbloom_compute_scores(labels, counts, STRUCTURE, w, F, LISTS, words, 3, word_starts, T + 1, ids, 3, v, 3,
                                      transitions, L * L, states, room);
}

static bodkinbloom_decoded label(uint32_t labels, uint32_t words, const double *w, const double *v, uint32_t *path,
                                 size_t room) {
    return bodkinbloom_label_line(labels, counts, STRUCTURE, w, F, LISTS, words, 3, word_starts, T + 1, ids, 3, v, 3, path,
                                  room);
}

static bodkinbloom_refused count(uint32_t labels, uint32_t words, const double *v, const uint32_t *path, double *found,
                                 size_t room) {
    return bodkinbloom_extract_features(labels, counts, STRUCTURE, LISTS, words, 3, word_starts, T + 1, ids, 3, v, 3, path, T,
                                        found, room);
}

static int all(const double *table, const double *expected, size_t n) {
    return memcmp(table, expected, n * sizeof *table) == 0;
}

static void refused(const char *what, bodkinbloom_refused answer, uint32_t number, uint64_t place) {
    holds(what, answer.number == number && answer.place == place);
}

static void unlabelled(const char *what, bodkinbloom_decoded answer, uint32_t number, uint64_t place) {
    holds(what, answer.number == number && answer.place == place && answer.has_lead == 0 && same(answer.sum, 0) &&
                    same(answer.lead, 0));
}

static void by_hand(void) {
    double states[6] = {9, 9, 9, 9, 9, 9}, transitions[4] = {9, 9, 9, 9}, found[5] = {9, 9, 9, 9, 9};
    uint32_t path[3] = {7, 7, 7};
    refused("the model is sound", bodkinbloom_check_model(L, counts, STRUCTURE, weights, F, LISTS), 0, 0);

    refused("scored", scores(L, T, weights, values, transitions, states, 6), 0, 0);
    holds("states, and what lies behind them", all(states, (double[]){3, -1, 0, -1, 9, 9}, 6));
    holds("transitions", all(transitions, (double[]){0, 2, 0.25, 0}, 4));

    bodkinbloom_decoded best = label(L, T, weights, values, path, 3);
    holds("labelled", best.number == 0 && best.place == 0 && same(best.sum, 4) && best.has_lead == 1 && same(best.lead, 1));
    holds("its path, and what lies behind it", path[0] == 0 && path[1] == 1 && path[2] == 7);

    refused("counted", count(L, T, values, path, found, 5), 0, 0);
    holds("counts, and what lies behind them", all(found, (double[]){2, 2, 1, 0, 9}, 5));

    double set[5] = {9, 9, 9, 9, 9};
    refused("set", bodkinbloom_set_weights(F, weights, F, set, 5), 0, 0);
    holds("weights, and what lies behind them", all(set, (double[]){1.5, -0.5, 2, 0.25, 9}, 5));
    refused("a weight that is not finite", bodkinbloom_set_weights(2, (double[]){1, NAN}, 2, set, 5), 6, 1);
    refused("too few new weights", bodkinbloom_set_weights(2, (double[]){1}, 1, set, 5), 2, 0);
    refused("too little room", bodkinbloom_set_weights(F, weights, F, set, 3), 2, 0);
    refused("too many features", bodkinbloom_set_weights(65536, weights, F, set, 5), 2, 0);
    holds("weights as at entry", all(set, (double[]){1.5, -0.5, 2, 0.25, 9}, 5));
    refused("no weights", bodkinbloom_set_weights(0, NULL, 0, NULL, 0), 0, 0);
}

/* ---- refusals: after 1 to 6 everything is as it was */

static void numbers(void) {
    const double bad[F] = {1, 1, 1, INFINITY};
    double states[4] = {9, 9, 9, 9}, transitions[4] = {9, 9, 9, 9}, found[4] = {9, 9, 9, 9};
    uint32_t path[2] = {7, 7};
    refused("no labels", scores(0, 0, bad, bad, transitions, states, 4), 1, 0);
    refused("33 labels", scores(33, 0, bad, bad, transitions, states, 4), 1, 0);
    refused("no words", scores(L, 0, bad, bad, transitions, states, 3), 4, 0);
    refused("129 words", scores(L, 129, bad, bad, transitions, states, 3), 4, 0);
    refused("too little room", scores(L, T, bad, bad, transitions, states, 3), 2, 0);
    refused("starts that do not end at the count", scores(L, 1, bad, bad, transitions, states, 4), 3, 1);
    refused("a destination at L", scores(1, T, bad, bad, transitions, states, 4), 5, 1);
    refused("a weight that is not finite", scores(L, T, bad, bad, transitions, states, 4), 6, 3);
    refused("a value that is not finite", scores(L, T, weights, &bad[1], transitions, states, 4), 6, 2);

    unlabelled("33 labels", label(33, 0, bad, bad, path, 1), 1, 0);
    unlabelled("129 words", label(L, 129, bad, bad, path, 1), 4, 0);
    unlabelled("too little room", label(L, T, bad, bad, path, 1), 2, 0);
    unlabelled("starts that do not end at the count", label(L, 1, bad, bad, path, 2), 3, 1);
    unlabelled("a destination at L", label(1, T, bad, bad, path, 2), 5, 1);
    unlabelled("a weight that is not finite", label(L, T, bad, bad, path, 2), 6, 3);

    refused("33 labels", count(33, 0, &bad[1], path, found, 3), 1, 0);
    refused("129 words", count(L, 129, &bad[1], path, found, 3), 4, 0);
    refused("too little room", count(L, T, &bad[1], path, found, 3), 2, 0);
    refused("starts that do not end at the count", count(L, 1, &bad[1], path, found, 4), 3, 1);
    refused("a label at or above L", count(L, T, &bad[1], path, found, 4), 5, 0);
    refused("a value that is not finite", count(L, T, &bad[1], (uint32_t[]){0, 1}, found, 4), 6, 2);

    refused("the model: 33 labels", bodkinbloom_check_model(33, counts, STRUCTURE, bad, F, LISTS), 1, 0);
    refused("the model: short weights", bodkinbloom_check_model(1, counts, STRUCTURE, bad, 3, LISTS), 2, 0);
    refused("the model: a destination at L", bodkinbloom_check_model(1, counts, STRUCTURE, bad, F, LISTS), 5, 1);
    refused("the model: a weight that is not finite", bodkinbloom_check_model(L, counts, STRUCTURE, bad, F, LISTS), 6, 3);

    const double nines[4] = {9, 9, 9, 9};
    holds("everything is as at entry", all(states, nines, 4) && all(transitions, nines, 4) && all(found, nines, 4) &&
                                           path[0] == 7 && path[1] == 7);
}

/* ---- 8: what the call needs is zero, the rest as it was */

static void not_finite(void) {
    const double large[F] = {DBL_MAX, DBL_MAX, 0, 0}, moves[F] = {0, 0, DBL_MAX, 0};
    double states[5] = {9, 9, 9, 9, 9}, transitions[4] = {9, 9, 9, 9}, found[5] = {9, 9, 9, 9, 9};
    uint32_t path[3] = {7, 7, 7};
    refused("a state overflows", scores(L, T, large, values, transitions, states, 5), 8, 0);
    holds("zero", all(states, (double[]){0, 0, 0, 0, 9}, 5) && all(transitions, (double[]){0, 0, 0, 0}, 4));
    unlabelled("a state overflows", label(L, T, large, values, path, 3), 8, 0);
    holds("zero", path[0] == 0 && path[1] == 0 && path[2] == 7);

    /* feature 2 twice in the list of label 0 */
    path[0] = path[1] = 7;
    const uint32_t starts[3] = {0, 2, 2}, twice[2] = {2, 2};
#define OVERFLOWING STRUCTURE, moves, F, attribute_starts, 3, attribute_entries, 4, starts, 3, twice, 2, T, 3, LINE
    refused("a transition overflows",
            bodkinbloom_compute_scores(L, counts, OVERFLOWING, transitions, 4, states, 5), 8, T * L + 1);
    unlabelled("a transition overflows", bodkinbloom_label_line(L, counts, OVERFLOWING, path, 3), 8, T * L + 1);
    holds("zero", path[0] == 0 && path[1] == 0 && path[2] == 7);

    refused("a count overflows", count(L, T, (double[]){0, 0, DBL_MAX}, (uint32_t[]){0, 1}, found, 5), 8, 1);
    holds("zero", all(found, (double[]){0, 0, 0, 0, 9}, 5));
}

/* ---- NaNs at entry, quiet and signalling, with signs and payloads: after 1 to 6 each bit of them stays, in a front that is
 * written nothing is left of them, and behind it they stay */

enum { ROOM = 6 };

static const uint64_t unusual[] = {UINT64_C(0x7FF8C0DEC0DEC0DE), UINT64_C(0x7FF0000000000001), UINT64_C(0xFFF5BADBADBADBAD),
                                   UINT64_C(0xFFFFFFFFFFFFFFFF), UINT64_C(0x7FF7FFFFFFFFFFFF), UINT64_C(0xFFF8000000000000)};

static void junk(double *buffer) { memcpy(buffer, unusual, sizeof unusual); }

/* By the bits: so many numbers of these, then what it was. */
static int holding(const double *buffer, const double *front, size_t n) {
    return all(buffer, front, n) && memcmp(buffer + n, &unusual[n], sizeof unusual - n * sizeof *buffer) == 0;
}

static void not_numbers(void) {
    _Static_assert(sizeof unusual == ROOM * sizeof(double), "as many as there is room for");
    const double bad[F] = {1, 1, 1, NAN}, large[F] = {DBL_MAX, DBL_MAX, 0, 0}, zeros[F] = {0, 0, 0, 0};
    const uint32_t labels[T] = {0, 1}, wrong[T] = {0, 2};
    double transitions[ROOM], states[ROOM], found[ROOM], set[ROOM];
    junk(transitions), junk(states), junk(found), junk(set);
    refused("33 labels", scores(33, T, weights, values, transitions, states, ROOM), 1, 0);
    refused("too little room", scores(L, T, weights, values, transitions, states, 3), 2, 0);
    refused("starts that do not end at the count", scores(L, 1, weights, values, transitions, states, ROOM), 3, 1);
    refused("129 words", scores(L, 129, weights, values, transitions, states, ROOM), 4, 0);
    refused("a destination at L", scores(1, T, weights, values, transitions, states, ROOM), 5, 1);
    refused("a weight that is not finite", scores(L, T, bad, values, transitions, states, ROOM), 6, 3);
    refused("no labels", count(0, T, values, labels, found, ROOM), 1, 0);
    refused("too little room", count(L, T, values, labels, found, 3), 2, 0);
    refused("starts that do not end at the count", count(L, 1, values, labels, found, ROOM), 3, 1);
    refused("no words", count(L, 0, values, labels, found, ROOM), 4, 0);
    refused("a label at L", count(L, T, values, wrong, found, ROOM), 5, 1);
    refused("a value that is not finite", count(L, T, &bad[1], labels, found, ROOM), 6, 2);
    refused("too few new weights", bodkinbloom_set_weights(F, weights, F - 1, set, ROOM), 2, 0);
    refused("a weight that is not finite", bodkinbloom_set_weights(F, bad, F, set, ROOM), 6, 3);
    holds("no bit of a NaN is moved", holding(transitions, zeros, 0) && holding(states, zeros, 0) &&
                                          holding(found, zeros, 0) && holding(set, zeros, 0));

    refused("a state overflows", scores(L, T, large, values, transitions, states, ROOM), 8, 0);
    refused("a count overflows", count(L, T, (double[]){0, 0, DBL_MAX}, labels, found, ROOM), 8, 1);
    holds("zero in front", holding(transitions, zeros, 4) && holding(states, zeros, 4) && holding(found, zeros, 4));

    junk(transitions), junk(states), junk(found);
    refused("scored", scores(L, T, weights, values, transitions, states, ROOM), 0, 0);
    refused("counted", count(L, T, values, labels, found, ROOM), 0, 0);
    refused("set", bodkinbloom_set_weights(F, weights, F, set, ROOM), 0, 0);
    holds("scores in front", holding(transitions, (double[]){0, 2, 0.25, 0}, 4) && holding(states, (double[]){3, -1, 0, -1}, 4));
    holds("counts and weights in front", holding(found, (double[]){2, 2, 1, 0}, 4) && holding(set, weights, F));
}

/* ---- the fewest and the most, and one past them */

enum { MOST_L = BODKINBLOOM_MOST_LABELS, MOST_T = BODKINBLOOM_MOST_WORDS };

/* Under labels 0 to last, a State speaks for the last label at every word, by 0.5 times 2, and a Transition for the first
 * after the last, by 0.25. Behind each buffer stands a 9. */
static void at_size(uint32_t labels, uint32_t words) {
    static double states[BODKINBLOOM_STATES(MOST_L + 1, MOST_T + 1) + 1];
    static double transitions[BODKINBLOOM_TRANSITIONS(MOST_L + 1) + 1];
    static uint32_t starts[MOST_L + 2], each[MOST_T + 2], zeros[MOST_T + 1], path[MOST_T + 2], lasts[MOST_T + 1];
    static double twos[MOST_T + 1];
    const uint32_t last = labels - 1, to[2] = {last, 0}, from[2] = {9, last}, one_list[2] = {0, 1}, entries[2] = {0, 1};
    const uint8_t kind[2] = {0, 1};
    const double weight[2] = {0.5, 0.25};
    const bodkinbloom_counts two = {2, 1, labels > MOST_L ? MOST_L : labels, 1, labels > 0};
    const size_t cells = BODKINBLOOM_STATES(labels, words), moves = BODKINBLOOM_TRANSITIONS(labels);
    double found[3] = {9, 9, 9};
    for (uint32_t i = 0; i <= MOST_L + 1; i++) starts[i] = i >= labels;
    for (uint32_t t = 0; t <= MOST_T; t++) twos[t] = 2, zeros[t] = 0, lasts[t] = last;
    for (uint32_t t = 0; t <= MOST_T + 1; t++) each[t] = t, path[t] = 9;
    for (size_t i = 0; i <= cells; i++) states[i] = 9;
    for (size_t i = 0; i <= moves; i++) transitions[i] = 9;

    const uint32_t number = labels < 1 || labels > MOST_L ? 1 : words < 1 || words > MOST_T ? 4 : 0;
    char what[40];
    snprintf(what, sizeof what, "%" PRIu32 " labels, %" PRIu32 " words", labels, words);
#define SMALL kind, 2, to, 2, from, 2
#define SMALL_LISTS one_list, 2, entries, 1, starts, BODKINBLOOM_STARTS(two.label_lists), entries + 1, 1
#define LONG words, words, each, BODKINBLOOM_STARTS(words), zeros, words, twos, words
    refused(what, bodkinbloom_check_model(labels, two, SMALL, weight, 2, SMALL_LISTS), number == 1, 0);
    refused(what, bodkinbloom_compute_scores(labels, two, SMALL, weight, 2, SMALL_LISTS, LONG, transitions, moves, states,
                                             cells), number, 0);
    refused(what, bodkinbloom_extract_features(labels, two, SMALL, SMALL_LISTS, LONG, lasts, words, found, 2), number, 0);
    bodkinbloom_decoded best = bodkinbloom_label_line(labels, two, SMALL, weight, 2, SMALL_LISTS, LONG, path, words);

    int right = same(states[cells], 9) && same(transitions[moves], 9) && same(found[2], 9) && path[words] == 9;
    if (number != 0) {
        unlabelled(what, best, number, 0);
        for (size_t i = 0; i < cells; i++) right &= same(states[i], 9);
        for (size_t i = 0; i < moves; i++) right &= same(transitions[i], 9);
        for (uint32_t t = 0; t < words; t++) right &= path[t] == 9;
        holds("as at entry", right && same(found[0], 9) && same(found[1], 9));
        return;
    }
    for (size_t i = 0; i < cells; i++) right &= same(states[i], i % labels == last);
    for (size_t i = 0; i < moves; i++) right &= same(transitions[i], i == last * labels ? 0.25 : 0);
    for (uint32_t t = 0; t < words; t++) right &= path[t] == last;
    right &= same(found[0], 2 * words) && same(found[1], labels == 1 ? words - 1 : 0);
    right &= same(best.sum, labels == 1 ? words + 0.25 * (words - 1) : words);
    right &= best.has_lead == (labels > 1) && same(best.lead, labels == 1 ? 0 : words == 1 ? 1 : 0.75);
    holds(what, right && best.number == 0 && best.place == 0);
}

static void sizes(void) {
    const uint32_t labels[4] = {0, 1, MOST_L, MOST_L + 1}, words[4] = {0, 1, MOST_T, MOST_T + 1};
    for (int l = 0; l < 4; l++)
        for (int t = 0; t < 4; t++) at_size(labels[l], words[t]);
}

/* ---- NULL */

/* Every table and buffer in turn, where something is needed of it. */
static void null_in_turn(void) {
    enum { TABLES = 12, BUFFERS = 4 };
    const double nines[4] = {9, 9, 9, 9};
    const uint32_t labels[T] = {0, 1};
    double states[4] = {9, 9, 9, 9}, transitions[4] = {9, 9, 9, 9}, found[4] = {9, 9, 9, 9};
    uint32_t path[2] = {7, 7};
    for (int i = 0; i < TABLES + BUFFERS; i++) {
        size_t n[TABLES + BUFFERS] = {F, F, F, F, 3, 4, 3, 2, T + 1, 3, 3, T, L * L, T * L, F, T};
        n[i] = 0;
        const int is_model = i < 8, is_line = i < 11, is_weights = i == 3;
#define PART(i, table) n[i] ? table : NULL, n[i]
#define PARTS PART(0, kinds), PART(1, destinations), PART(2, sources)
#define LIST_PARTS PART(4, attribute_starts), PART(5, attribute_entries), PART(6, label_starts), PART(7, label_entries)
#define LINE_PARTS T, 3, PART(8, word_starts), PART(9, ids), PART(10, values)
        if (is_model)
            refused("a NULL table", bodkinbloom_check_model(L, counts, PARTS, PART(3, weights), LIST_PARTS), 2, 0);
        if (is_line || i == 12 || i == 13)
            refused("a NULL table or buffer",
                    bodkinbloom_compute_scores(L, counts, PARTS, PART(3, weights), LIST_PARTS, LINE_PARTS, PART(12, transitions),
                                               PART(13, states)), 2, 0);
        if ((is_line && !is_weights) || i == 11 || i == 14)
            refused("a NULL table or buffer",
                    bodkinbloom_extract_features(L, counts, PARTS, LIST_PARTS, LINE_PARTS, PART(11, labels),
                                                 PART(14, found)), 2, 0);
        if (is_line || i == 15)
            unlabelled("a NULL table or buffer",
                       bodkinbloom_label_line(L, counts, PARTS, PART(3, weights), LIST_PARTS, LINE_PARTS,
                                              PART(15, path)), 2, 0);
    }
    refused("NULL new weights", bodkinbloom_set_weights(F, NULL, 0, found, 4), 2, 0);
    refused("NULL weights", bodkinbloom_set_weights(F, weights, F, NULL, 0), 2, 0);
    holds("everything is as at entry", all(states, nines, 4) && all(transitions, nines, 4) && all(found, nines, 4) &&
                                           path[0] == 7 && path[1] == 7);
}

#define NOTHING NULL, 0

static void null_tables(void) {
    const bodkinbloom_counts none = {0, 0, 0, 0, 0};
    const uint32_t zeros[2] = {0, 0};
    double states[1] = {9}, transitions[1] = {9};
    uint32_t path[1] = {7};
#define NO_MODEL NOTHING, NOTHING, NOTHING
#define NO_LISTS NOTHING, NOTHING, NOTHING, NOTHING
#define EMPTY_LISTS zeros, 1, NOTHING, zeros, 1, NOTHING
    refused("all NULL", bodkinbloom_check_model(1, none, NO_MODEL, NOTHING, NO_LISTS), 2, 0);
    refused("all NULL, no labels", bodkinbloom_check_model(0, none, NO_MODEL, NOTHING, NO_LISTS), 1, 0);
    refused("all NULL", bodkinbloom_compute_scores(1, none, NO_MODEL, NOTHING, NO_LISTS, 1, 0, NOTHING, NOTHING, NOTHING,
                                                   NOTHING, NOTHING), 2, 0);
    refused("all NULL, no words", bodkinbloom_compute_scores(1, none, NO_MODEL, NOTHING, NO_LISTS, 0, 0, NOTHING, NOTHING,
                                                             NOTHING, NOTHING, NOTHING), 4, 0);
    refused("all NULL", bodkinbloom_extract_features(1, none, NO_MODEL, NO_LISTS, 1, 0, NOTHING, NOTHING, NOTHING, NOTHING,
                                                     NOTHING), 2, 0);
    unlabelled("all NULL", bodkinbloom_label_line(1, none, NO_MODEL, NOTHING, NO_LISTS, 1, 0, NOTHING, NOTHING, NOTHING,
                                                  NOTHING), 2, 0);

    /* a model without features and a word without attributes need no more than their starts */
    refused("no features", bodkinbloom_check_model(1, none, NO_MODEL, NOTHING, EMPTY_LISTS), 0, 0);
    refused("no features", bodkinbloom_compute_scores(1, none, NO_MODEL, NOTHING, EMPTY_LISTS, 1, 0, zeros, 2, NOTHING,
                                                      NOTHING, transitions, 1, states, 1), 0, 0);
    holds("scores are +0", same(states[0], 0) && same(transitions[0], 0));
    refused("no features", bodkinbloom_extract_features(1, none, NO_MODEL, EMPTY_LISTS, 1, 0, zeros, 2, NOTHING, NOTHING,
                                                        zeros, 1, NOTHING), 0, 0);
    bodkinbloom_decoded best = bodkinbloom_label_line(1, none, NO_MODEL, NOTHING, EMPTY_LISTS, 1, 0, zeros, 2, NOTHING,
                                                      NOTHING, path, 1);
    holds("no features", best.number == 0 && same(best.sum, 0) && best.has_lead == 0 && path[0] == 0);
}

int main(void) {
    by_hand();
    numbers();
    not_finite();
    not_numbers();
    sizes();
    null_in_turn();
    null_tables();
    printf("%d checks of scoring, counting and labelling from C: %d failed\n", checks, failures);
    return failures != 0;
}
