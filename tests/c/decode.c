/* Decoding and path scores as a C program calls them: the desk cases P1 to P8, NULL for a table of length 0, one refusal
 * of each number, and the buffer around a path. Numbers are compared to the bit. */
#include <float.h>
#include <inttypes.h>
#include <math.h>
#include <stdio.h>
#include <string.h>
#include "bodkinbloom.h"

static int checks, failures;

static void holds(const char *what, int yes) {
    checks++;
    if (!yes) {
        printf("not so: %s\n", what);
        failures++;
    }
}

static int same(double x, double y) { return memcmp(&x, &y, sizeof x) == 0; }

/* ---- P1 to P8 */

enum { NONE = -1 }; /* no lead */

typedef struct {
    const char *name;
    uint32_t labels, words;
    double transitions[9], states[6];
    uint32_t path[2];
    double sum, lead, score;
} desk_case;

static const desk_case desk[] = {
    {"P1", 1, 1, {0}, {5}, {0}, 5, NONE, 5},
    {"P2", 2, 1, {0}, {3, 3}, {1}, 3, 0, 3},
    {"P3", 2, 1, {0}, {0.0, -0.0}, {1}, -0.0, 0, 0},
    {"P4", 2, 2, {0, 2, 0, 0}, {1, 0, 0, 0}, {0, 1}, 3, 2, 3},
    {"P5", 3, 2, {0}, {0}, {2, 2}, 0, 0, 0},
    {"P6", 1, 2, {1}, {9007199254740992.0, -1}, {0, 0}, 9007199254740991.0, NONE, 9007199254740992.0},
    {"P7", 1, 2, {DBL_MAX}, {DBL_MAX, 0}, {0, 0}, INFINITY, NONE, INFINITY},
};

static void desk_cases(void) {
    for (size_t i = 0; i < sizeof desk / sizeof *desk; i++) {
        const desk_case *p = &desk[i];
        uint32_t path[4] = {70, 71, 72, 73};
        bodkinbloom_decoded answer =
            bodkinbloom_viterbi_decode(p->labels, p->words, p->transitions, 9, p->states, 6, path, 4);
        holds(p->name, answer.number == 0 && answer.place == 0 && same(answer.sum, p->sum));
        holds(p->name, memcmp(path, p->path, p->words * sizeof *path) == 0);
        holds("behind the path nothing is written", path[3] == 73 && path[2] == 72 && (p->words == 2 || path[1] == 71));
        holds(p->name, p->lead == NONE ? answer.has_lead == 0 && same(answer.lead, 0)
                                       : answer.has_lead == 1 && same(answer.lead, p->lead));

        bodkinbloom_scored scored =
            bodkinbloom_sequence_score(p->labels, p->words, p->transitions, 9, p->states, 6, p->path, 2, p->words);
        holds(p->name, scored.number == 0 && scored.place == 0 && same(scored.score, p->score));
        scored = bodkinbloom_sequence_score(p->labels, p->words, p->transitions, 9, p->states, 6, p->path, 2, 0);
        holds("P8", scored.number == 0 && scored.place == 0 && same(scored.score, 0));
    }
}

/* ---- refusals */

static void refused(const char *what, bodkinbloom_decoded answer, uint32_t number, uint64_t place) {
    holds(what, answer.number == number && answer.place == place && answer.has_lead == 0 && same(answer.sum, 0) &&
                    same(answer.lead, 0));
}

static void not_scored(const char *what, bodkinbloom_scored answer, uint32_t number, uint64_t place) {
    holds(what, answer.number == number && answer.place == place && same(answer.score, 0));
}

static void null_tables(void) {
    const double table[4] = {0};
    uint32_t path[2] = {1, 1};
    refused("NULL transitions", bodkinbloom_viterbi_decode(2, 2, NULL, 0, table, 4, path, 2), 2, 0);
    refused("NULL states", bodkinbloom_viterbi_decode(2, 2, table, 4, NULL, 0, path, 2), 2, 0);
    refused("NULL path", bodkinbloom_viterbi_decode(2, 2, table, 4, table, 4, NULL, 0), 2, 0);
    refused("all NULL", bodkinbloom_viterbi_decode(2, 2, NULL, 0, NULL, 0, NULL, 0), 2, 0);
    refused("all NULL, no labels", bodkinbloom_viterbi_decode(0, 2, NULL, 0, NULL, 0, NULL, 0), 1, 0);
    refused("all NULL, no words", bodkinbloom_viterbi_decode(2, 0, NULL, 0, NULL, 0, NULL, 0), 4, 0);
    not_scored("NULL transitions", bodkinbloom_sequence_score(2, 2, NULL, 0, table, 4, path, 2, 2), 2, 0);
    not_scored("NULL states", bodkinbloom_sequence_score(2, 2, table, 4, NULL, 0, path, 2, 2), 2, 0);
    not_scored("NULL path", bodkinbloom_sequence_score(2, 2, table, 4, table, 4, NULL, 0, 2), 2, 0);
    not_scored("all NULL", bodkinbloom_sequence_score(2, 2, NULL, 0, NULL, 0, NULL, 0, 0), 2, 0);
    not_scored("NULL for an empty path", bodkinbloom_sequence_score(2, 2, table, 4, table, 4, NULL, 0, 0), 0, 0);
    holds("the path is as at entry", path[0] == 1 && path[1] == 1);
}

static void numbers(void) {
    const double zero[4] = {0}, bad[4] = {0, 0, 0, NAN};
    const uint32_t labels[3] = {0, 2, 0};
    uint32_t path[2] = {7, 7};
    refused("33 labels", bodkinbloom_viterbi_decode(33, 129, zero, 4, zero, 4, path, 2), 1, 0);
    refused("129 words", bodkinbloom_viterbi_decode(2, 129, zero, 4, zero, 4, path, 2), 4, 0);
    refused("a short table", bodkinbloom_viterbi_decode(2, 2, zero, 3, bad, 4, path, 2), 2, 0);
    refused("a NaN among transitions", bodkinbloom_viterbi_decode(2, 2, bad, 4, bad, 4, path, 2), 6, 3);
    refused("a NaN among states", bodkinbloom_viterbi_decode(2, 2, zero, 4, bad, 4, path, 2), 6, 3);
    not_scored("a path longer than its table", bodkinbloom_sequence_score(2, 2, bad, 4, zero, 4, labels, 3, 3), 4, 0);
    not_scored("a label at L", bodkinbloom_sequence_score(2, 2, bad, 4, zero, 4, labels, 3, 2), 5, 1);
    not_scored("a NaN beside the path", bodkinbloom_sequence_score(2, 2, zero, 4, bad, 4, labels, 3, 1), 6, 3);
    holds("the path is as at entry", path[0] == 7 && path[1] == 7);
}

int main(void) {
    desk_cases();
    null_tables();
    numbers();
    printf("%d checks of decoding and path scores from C: %d failed\n", checks, failures);
    return failures != 0;
}
