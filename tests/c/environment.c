/* bodkinbloom_environment() says 1 in the environment that every call demands and 0 in each of the others: subnormal results
 * flushed, subnormal operands flushed, both, and the three other directions of rounding. In each of those a call gives other
 * bits. With the argument `flushed` it is told that the program was linked so that subnormals are flushed from the start. */
#include <fenv.h>
#include <stdio.h>
#include <string.h>
#include <xmmintrin.h>
#include "bodkinbloom.h"

enum { FLUSH_RESULTS = 1 << 15, FLUSH_OPERANDS = 1 << 6 }; /* of MXCSR */

static const double least = 4.9406564584124654e-324, unit = 2.220446049250313e-16;
static int checks, failures;

static void holds(const char *where, const char *what, int yes) {
    checks++;
    if (!yes) {
        printf("not so: %s: %s\n", where, what);
        failures++;
    }
}

/* What is asked in an environment: the test itself, and three calls. */
typedef struct {
    int sound;
    uint64_t state, sum_of_1, sum_above_1;
} answers;

static const answers right = {1, 1, UINT64_C(0x3FF0000000000000), UINT64_C(0x3FF0000000000002)};

/* One label, one word, one State of the least weight; its attribute has the value 1. */
static uint64_t state(void) {
    const bodkinbloom_counts counts = {.features = 1, .attribute_lists = 1, .attribute_entries = 1};
    const uint8_t kinds[1] = {BODKINBLOOM_KIND_STATE};
    const uint32_t zero[1] = {0}, one_each[2] = {0, 1};
    const double value[1] = {1};
    double transitions[1], states[1] = {1};
    uint64_t bits;
    bodkinbloom_refused answer = bodkinbloom_compute_scores(
        1, counts, kinds, 1, zero, 1, zero, 1, &least, 1, one_each, 2, zero, 1, zero, 1, NULL, 0, 1, 1, one_each, 2, zero, 1,
        value, 1, transitions, 1, states, 1);
    memcpy(&bits, states, sizeof bits);
    return answer.number == BODKINBLOOM_ACCEPTED ? bits : UINT64_MAX;
}

/* One label, two words: the sum of two states. */
static uint64_t sum(double x, double y) {
    const double transitions[1] = {0}, states[2] = {x, y};
    uint32_t path[2];
    uint64_t bits;
    bodkinbloom_decoded answer = bodkinbloom_viterbi_decode(1, 2, transitions, 1, states, 2, path, 2);
    memcpy(&bits, &answer.sum, sizeof bits);
    return answer.number == BODKINBLOOM_ACCEPTED ? bits : UINT64_MAX;
}

static answers ask(void) {
    return (answers){bodkinbloom_environment(), state(), sum(1, unit / 2), sum(1 + unit, unit / 2)};
}

static void as_demanded(const char *where) {
    const answers got = ask();
    holds(where, "the environment is sound", got.sound == 1);
    holds(where, "the state is 5e-324", got.state == right.state);
    holds(where, "1 and a half unit is 1", got.sum_of_1 == right.sum_of_1);
    holds(where, "1 and one and a half unit is 1 and two", got.sum_above_1 == right.sum_above_1);
}

static void flushed(const char *where, const answers *got) {
    holds(where, "it is noticed", got->sound == 0);
    holds(where, "the state is another, 0", got->state == 0);
    holds(where, "what is not subnormal is as ever", got->sum_of_1 == right.sum_of_1 && got->sum_above_1 == right.sum_above_1);
}

static void flushes(void) {
    static const struct {
        const char *name;
        unsigned bits;
    } ways[] = {{"results flushed", FLUSH_RESULTS},
                {"operands flushed", FLUSH_OPERANDS},
                {"both flushed", FLUSH_RESULTS | FLUSH_OPERANDS}};
    for (size_t i = 0; i < sizeof ways / sizeof *ways; i++) {
        const unsigned before = _mm_getcsr();
        _mm_setcsr(before | ways[i].bits);
        const answers got = ask();
        _mm_setcsr(before);
        flushed(ways[i].name, &got);
        as_demanded("as before");
    }
}

static void directions(void) {
    static const struct {
        const char *name;
        int direction;
    } ways[] = {{"upward", FE_UPWARD}, {"downward", FE_DOWNWARD}, {"toward zero", FE_TOWARDZERO}};
    for (size_t i = 0; i < sizeof ways / sizeof *ways; i++) {
        holds(ways[i].name, "the direction can be had", fesetround(ways[i].direction) == 0);
        const answers got = ask();
        holds(ways[i].name, "and be left", fesetround(FE_TONEAREST) == 0);
        holds(ways[i].name, "it is noticed", got.sound == 0);
        holds(ways[i].name, "a sum is another", got.sum_of_1 != right.sum_of_1 || got.sum_above_1 != right.sum_above_1);
        as_demanded("as before");
    }
}

int main(int arguments, char **argument) {
    if (arguments > 1 && strcmp(argument[1], "flushed") == 0) {
        const answers got = ask();
        flushed("linked with -ffast-math", &got);
    } else {
        as_demanded("at first");
        flushes();
        directions();
    }
    printf("%d checks of the environment from C: %d failed\n", checks, failures);
    return failures != 0;
}
