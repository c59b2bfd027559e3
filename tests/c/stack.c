/* The stack that each call takes: it is made on a painted stack of its own, with the most labels and words. What is no longer
 * painted was used, less what is used where no call is made. It has to be no more than the header says. */
#include <stdio.h>
#include <string.h>
#include <ucontext.h>
#include "bodkinbloom.h"

enum { L = BODKINBLOOM_MOST_LABELS, T = BODKINBLOOM_MOST_WORDS, F = 2, PAINT = 0xA5, ROOM = 1 << 21 };

/* ---- a State for the last label at every word, a Transition from it to the first */

static const bodkinbloom_counts counts = {
    .features = F, .attribute_lists = 1, .label_lists = L, .attribute_entries = 1, .label_entries = 1};
static const bodkinbloom_totals totals = {.instances = 1, .words_in_all = T, .attributes_in_all = T};
static const uint8_t kinds[F] = {BODKINBLOOM_KIND_STATE, BODKINBLOOM_KIND_TRANSITION};
static const uint32_t destinations[F] = {L - 1, 0}, sources[F] = {0, L - 1};
static const uint32_t attribute_starts[2] = {0, 1}, attribute_entries[1] = {0}, label_entries[1] = {1};
static const uint32_t ids[T], references[T], line_starts[2] = {0, T};
static const double instance_weights[1] = {1}, weights[F] = {0.5, 0.25};
static uint32_t label_starts[L + 1], word_starts[T + 1];
static double values[T];

static uint32_t path[T], order[1];
static double transitions[L * L], states[L * T], result[F], sums[F], true_counts[F], predicted_counts[F];

#define TABLE(array) (array), sizeof(array) / sizeof *(array)
#define STRUCTURE TABLE(kinds), TABLE(destinations), TABLE(sources)
#define LISTS TABLE(attribute_starts), TABLE(attribute_entries), TABLE(label_starts), TABLE(label_entries)
#define LINE T, T, TABLE(word_starts), TABLE(ids), TABLE(values)
#define TRAINED                                                                                                              \
    L, counts, STRUCTURE, LISTS, totals, TABLE(line_starts), TABLE(word_starts), TABLE(ids), TABLE(values),                  \
        TABLE(references), TABLE(instance_weights), TABLE(result), TABLE(sums), TABLE(true_counts), TABLE(predicted_counts), \
        TABLE(order)

static uint32_t number; /* of the refusal, which there should not be */

static void nothing(void) { number = BODKINBLOOM_ACCEPTED; }

static void draw(void) {
    uint64_t state = 1;
    number = bodkinbloom_draw(&state) == 0;
}

static void shuffle(void) {
    uint64_t state = 1;
    number = bodkinbloom_shuffle(&state, TABLE(path)).number;
}

static void decode(void) {
    number = bodkinbloom_viterbi_decode(L, T, TABLE(transitions), TABLE(states), TABLE(path)).number;
}

static void score(void) {
    number = bodkinbloom_sequence_score(L, T, TABLE(transitions), TABLE(states), TABLE(ids), T).number;
}

static void check(void) { number = bodkinbloom_check_model(L, counts, STRUCTURE, TABLE(weights), LISTS).number; }

static void set(void) { number = bodkinbloom_set_weights(F, TABLE(weights), TABLE(result)).number; }

static void scores(void) {
    number = bodkinbloom_compute_scores(L, counts, STRUCTURE, TABLE(weights), LISTS, LINE, TABLE(transitions), TABLE(states))
                 .number;
}

static void count(void) {
    number = bodkinbloom_extract_features(L, counts, STRUCTURE, LISTS, LINE, TABLE(references), TABLE(result)).number;
}

static void label(void) {
    number = bodkinbloom_label_line(L, counts, STRUCTURE, TABLE(weights), LISTS, LINE, TABLE(path)).number;
}

static void perceptron(void) {
    const bodkinbloom_averaged_perceptron_parameters parameters = {.epochs = 2};
    number = bodkinbloom_averaged_perceptron(parameters, TRAINED).number;
}

static void passive(void) {
    const bodkinbloom_passive_aggressive_parameters parameters = {
        .epochs = 2, .variant = BODKINBLOOM_PA_I, .c = 1, .error_sensitive = 1, .averaging = 1};
    number = bodkinbloom_passive_aggressive(parameters, TRAINED).number;
}

static void arow(void) {
    const bodkinbloom_arow_parameters parameters = {.epochs = 2, .variance = 1, .gamma = 0.75};
    number = bodkinbloom_arow(parameters, TRAINED).number;
}

/* A text with as many names as there may be, each six bytes long, and one word. */
enum { NAMES = BODKINBLOOM_MOST_ATTRIBUTE_NAMES };
static uint8_t text[1 + NAMES * 6], written[sizeof text + 2], label_names[1], attribute_names[NAMES * 5], scales[1];
static uint32_t text_lines[2], text_words[2], text_ids[NAMES], text_references[1], label_name_starts[2];
static uint32_t attribute_name_starts[NAMES + 1], scale_starts[NAMES + 1];
static double text_values[NAMES], text_weights[1];

static void spell(void) {
    text[0] = 'A';
    for (uint32_t name = 0; name < NAMES; name++) {
        uint8_t *field = text + 1 + name * 6;
        field[0] = '\t';
        for (uint32_t digit = 0, rest = name; digit < 5; digit++, rest /= 10)
            field[5 - digit] = (uint8_t)('0' + rest % 10);
    }
}

static void read_text(void) {
    spell();
    number = bodkinbloom_read_text(TABLE(text), TABLE(text_lines), TABLE(text_words), TABLE(text_ids), TABLE(text_values),
                                   TABLE(text_references), TABLE(text_weights), TABLE(label_name_starts), TABLE(label_names),
                                   TABLE(attribute_name_starts), TABLE(attribute_names), TABLE(scale_starts), TABLE(scales))
                 .number;
}

static void text_sizes(void) { number = bodkinbloom_text_sizes(TABLE(text)).number; }

static void write_text(void) {
    const bodkinbloom_totals one = {1, 1, NAMES};
    const bodkinbloom_names names = {NAMES, 1, NAMES * 5, 0};
    number = bodkinbloom_write_text(1, one, names, TABLE(text_lines), TABLE(text_words), TABLE(text_ids),
                                    TABLE(text_references), TABLE(label_name_starts), TABLE(label_names),
                                    TABLE(attribute_name_starts), TABLE(attribute_names), TABLE(scale_starts), TABLE(scales),
                                    TABLE(written))
                 .number;
}

/* the header's table */
static const struct {
    const char *name;
    void (*call)(void);
    size_t most;
} calls[] = {
    {"draw", draw, 256},
    {"shuffle", shuffle, 256},
    {"viterbi_decode", decode, 12288},
    {"sequence_score", score, 512},
    {"check_model", check, 512},
    {"set_weights", set, 256},
    {"compute_scores", scores, 1024},
    {"extract_features", count, 2048},
    {"label_line", label, 49152},
    {"averaged_perceptron", perceptron, 53248},
    {"passive_aggressive", passive, 53248},
    {"arow", arow, 53248},
    {"read_text", read_text, BODKINBLOOM_TEXT_STACK},
    {"text_sizes", text_sizes, BODKINBLOOM_TEXT_STACK},
    {"write_text", write_text, 1024},
};

/* ---- the painted stack */

static _Alignas(64) unsigned char stack[ROOM];

/* How much of it is used by a call, or all of it where it cannot be had. */
static size_t used(void (*call)(void)) {
    ucontext_t here, there;
    memset(stack, PAINT, sizeof stack);
    if (getcontext(&there) != 0)
        return sizeof stack;
    there.uc_stack.ss_sp = stack;
    there.uc_stack.ss_size = sizeof stack;
    there.uc_link = &here;
    makecontext(&there, call, 0);
    if (swapcontext(&here, &there) != 0)
        return sizeof stack;
    size_t painted = 0;
    while (painted < sizeof stack && stack[painted] == PAINT)
        painted++;
    return sizeof stack - painted;
}

int main(void) {
    int failures = 0;
    for (uint32_t t = 0; t < T; t++) {
        word_starts[t + 1] = t + 1;
        values[t] = 1;
    }
    label_starts[L] = 1;
    const size_t idle = used(nothing);
    for (size_t i = 0; i < sizeof calls / sizeof *calls; i++) {
        const size_t taken = used(calls[i].call) - idle;
        const int within = number == BODKINBLOOM_ACCEPTED && taken <= calls[i].most &&
                           (calls[i].most <= BODKINBLOOM_STACK || calls[i].most == BODKINBLOOM_TEXT_STACK);
        printf("%s%s: %d bytes of at most %d\n", within ? "" : "not so: ", calls[i].name, (int)taken, (int)calls[i].most);
        failures += !within;
    }
    printf("the stack of %d calls from C: %d failed\n", (int)(sizeof calls / sizeof *calls), failures);
    return failures != 0;
}
