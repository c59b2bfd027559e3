/* Finds the columns of a typed log line.
 *
 * A transmitter site types a line each hour: date, hour, zone mark, plate current, remark. Spaces part the words, a remark may
 * have several, and now and then something is left out. This program learns from a few lines whose columns are known, and then
 * gives each word of another line its column.
 *
 * The library learns and labels; what can be seen of a word is for you to say. For data of your own change the first two
 * parts, and the rest can stay as it is. To build and run it: `make example`, or
 *
 *     make archive
 *     gcc -std=c11 -Iinclude examples/log_sheet.c build/libbodkinbloom.a -o log_sheet
 */
#include <math.h>
#include <stdint.h>
#include <stdio.h>
#include <string.h>
#include "bodkinbloom.h"

/* ---- what is known: the columns, which are the labels, and some lines, with a letter for the column of each word */

enum { COLUMNS = 5 };
static const char *const columns[COLUMNS] = {"date", "hour", "zone mark", "plate current", "remark"};
static const char letters[] = "dhzpr";

static const struct {
    const char *text, *columns;
} known[] = {
    {"14.11.2026 0700 Z 3.42 normal", "dhzpr"},
    {"14.11.2026 0800 Z 3.40 drive low", "dhzprr"},
    {"14.11.2026 0900 Z 3.4 normal", "dhzpr"},
    {"14.11.2026 1000 3.38 rain", "dhpr"},
    {"14.11.2026 1100 A 3.41 tube B replaced", "dhzprrr"},
    {"1.12.2026 0000 A 3.39", "dhzp"},
    {"1.12.2026 0100 A off air", "dhzrr"},
};

/* Here B is the zone mark and A a part of the remark. */
static const char unknown[] = "2.12.2026 1900 B 3.27 filament A dim";

enum { LINES = sizeof known / sizeof *known, WORDS = 64 /* room for as many, in all lines together */ };

/* ---- what is seen of a word: its attributes, each an id with a value */

enum {
    DIGITS,                        /* how much of it is digits, up to 1 */
    DOTS,                          /* how many dots it has */
    CAPITAL,                       /* 1 if it begins with a capital letter */
    LENGTH,                        /* 1 if it has one character; the next id: if it has two, and so on */
    LONGEST = 10,                  /* the last of these stands for all longer words */
    ATTRIBUTES = LENGTH + LONGEST, /* ids in all */
    SEEN = 4                       /* attributes of a word, at most */
};

/* Words lie one behind the other: word w has the attributes from word_starts[w] up to word_starts[w + 1]. */
typedef struct {
    uint32_t words, attributes;
    uint32_t word_starts[BODKINBLOOM_STARTS(WORDS)], ids[WORDS * SEEN];
    double values[WORDS * SEEN];
} typed_words;

static void see(typed_words *typed, uint32_t id, double value) {
    typed->ids[typed->attributes] = id;
    typed->values[typed->attributes++] = value;
}

static void see_word(typed_words *typed, const char *word, uint32_t length) {
    uint32_t digits = 0, dots = 0;
    for (uint32_t i = 0; i < length; i++) {
        digits += word[i] >= '0' && word[i] <= '9';
        dots += word[i] == '.';
    }
    if (digits > 0)
        see(typed, DIGITS, (double)digits / length);
    if (dots > 0)
        see(typed, DOTS, dots);
    if (word[0] >= 'A' && word[0] <= 'Z')
        see(typed, CAPITAL, 1);
    see(typed, LENGTH + (length < LONGEST ? length : LONGEST) - 1, 1);
    typed->word_starts[++typed->words] = typed->attributes;
}

/* The word that *text comes to next, or NULL; *text goes on behind it. */
static const char *next_word(const char **text, uint32_t *length) {
    const char *word = *text + strspn(*text, " ");
    *length = (uint32_t)strcspn(word, " ");
    *text = word + *length;
    return *length > 0 ? word : NULL;
}

static void see_line(typed_words *typed, const char *text) {
    const char *word;
    uint32_t length;
    while (typed->words < WORDS && (word = next_word(&text, &length)) != NULL)
        see_word(typed, word, length);
}

/* ---- the model: a State feature from each attribute to each column, a Transition feature from each column to each */

enum { PAIRS = COLUMNS * COLUMNS, STATES = ATTRIBUTES * COLUMNS, FEATURES = STATES + PAIRS };

static const bodkinbloom_counts counts = {.features = FEATURES, .attribute_lists = ATTRIBUTES, .label_lists = COLUMNS,
                                          .attribute_entries = STATES, .label_entries = PAIRS};
static uint8_t kinds[FEATURES];
static uint32_t destinations[FEATURES], sources[FEATURES];
static uint32_t attribute_starts[BODKINBLOOM_STARTS(ATTRIBUTES)], attribute_entries[STATES];
static uint32_t label_starts[BODKINBLOOM_STARTS(COLUMNS)], label_entries[PAIRS];
static double weights[BODKINBLOOM_WEIGHTS(FEATURES)];

static void build_model(void) {
    for (uint32_t i = 0; i < STATES; i++) { /* attribute i / COLUMNS, column i % COLUMNS */
        kinds[i] = BODKINBLOOM_KIND_STATE;
        destinations[i] = i % COLUMNS;
        attribute_entries[i] = i;
    }
    for (uint32_t i = 0; i < PAIRS; i++) { /* from column i / COLUMNS to column i % COLUMNS */
        kinds[STATES + i] = BODKINBLOOM_KIND_TRANSITION;
        sources[STATES + i] = i / COLUMNS;
        destinations[STATES + i] = i % COLUMNS;
        label_entries[i] = STATES + i;
    }
    for (uint32_t id = 0; id <= ATTRIBUTES; id++)
        attribute_starts[id] = id * COLUMNS;
    for (uint32_t column = 0; column <= COLUMNS; column++)
        label_starts[column] = column * COLUMNS;
}

/* ---- learning and labelling: each table is handed over as a pointer and a length */

#define TABLE(array) (array), sizeof(array) / sizeof *(array)

/* A letter that is none gets a column that is none: the library refuses it. */
static uint32_t column_of(char letter) {
    const char *found = strchr(letters, letter);
    return found ? (uint32_t)(found - letters) : COLUMNS;
}

static bodkinbloom_trained train(void) {
    static typed_words typed;
    static uint32_t line_starts[BODKINBLOOM_STARTS(LINES)], right[WORDS], order[BODKINBLOOM_ORDER(LINES)];
    static double instance_weights[LINES], running_sums[BODKINBLOOM_WEIGHTS(FEATURES)];
    static double true_counts[BODKINBLOOM_WEIGHTS(FEATURES)], predicted_counts[BODKINBLOOM_WEIGHTS(FEATURES)];
    for (uint32_t i = 0; i < LINES; i++) {
        see_line(&typed, known[i].text);
        for (uint32_t w = line_starts[i]; w < typed.words; w++)
            right[w] = column_of(known[i].columns[w - line_starts[i]]);
        line_starts[i + 1] = typed.words;
        instance_weights[i] = 1;
    }
    const bodkinbloom_averaged_perceptron_parameters parameters = {.epochs = 20, .epsilon = 0, .seed = 1};
    const bodkinbloom_totals totals = {
        .instances = LINES, .words_in_all = typed.words, .attributes_in_all = typed.attributes};
    return bodkinbloom_averaged_perceptron(
        parameters, COLUMNS, counts, TABLE(kinds), TABLE(destinations), TABLE(sources), TABLE(attribute_starts),
        TABLE(attribute_entries), TABLE(label_starts), TABLE(label_entries), totals, TABLE(line_starts),
        TABLE(typed.word_starts), TABLE(typed.ids), TABLE(typed.values), TABLE(right), TABLE(instance_weights),
        TABLE(weights), TABLE(running_sums), TABLE(true_counts), TABLE(predicted_counts), TABLE(order));
}

static bodkinbloom_decoded label(const typed_words *typed, uint32_t path[WORDS]) {
    return bodkinbloom_label_line(
        COLUMNS, counts, TABLE(kinds), TABLE(destinations), TABLE(sources), TABLE(weights), TABLE(attribute_starts),
        TABLE(attribute_entries), TABLE(label_starts), TABLE(label_entries), typed->words, typed->attributes,
        TABLE(typed->word_starts), TABLE(typed->ids), TABLE(typed->values), path, WORDS);
}

/* A refusal has a number, and the place at which it was found: here an index into the table that is at fault. */
static int refused(const char *what, uint32_t number, uint64_t place) {
    static const char *const meanings[] = {
        [BODKINBLOOM_ACCEPTED] = "nothing was refused",
        [BODKINBLOOM_REFUSED_LABELS] = "no labels, or too many",
        [BODKINBLOOM_REFUSED_SIZE] = "too many of something, or too little room for it",
        [BODKINBLOOM_REFUSED_STARTS] = "lists that do not lie one behind the other",
        [BODKINBLOOM_REFUSED_WORDS] = "a line without words, or with too many",
        [BODKINBLOOM_REFUSED_RANGE] = "a label, kind or feature that there is not",
        [BODKINBLOOM_REFUSED_NOT_FINITE] = "a value that is infinite or no number at all",
        [BODKINBLOOM_REFUSED_PARAMETER] = "a parameter that cannot be used",
        [BODKINBLOOM_REFUSED_RESULT] = "a score that grew past all numbers",
        [BODKINBLOOM_REFUSED_TRAINING] = "weights that grew past all numbers"};
    if (number != BODKINBLOOM_ACCEPTED)
        printf("%s refused, number %d, place %d: %s\n", what, (int)number, (int)place, meanings[number]);
    return number != BODKINBLOOM_ACCEPTED;
}

int main(void) {
    static typed_words typed;
    uint32_t path[WORDS], length;
    if (!bodkinbloom_environment()) {
        printf("this program was built to compute otherwise than IEEE 754 does: with -ffast-math?\n");
        return 1;
    }
    build_model();
    bodkinbloom_trained trained = train();
    if (refused("training is", trained.number, trained.place))
        return 1;
    printf("%d lines learnt: %d epochs, %d visits, %d updates\n\n", LINES, (int)trained.epochs, (int)trained.visits,
           (int)trained.updates);

    see_line(&typed, unknown);
    bodkinbloom_decoded best = label(&typed, path);
    if (refused("the line is", best.number, best.place))
        return 1;
    const char *text = unknown, *word;
    for (uint32_t w = 0; w < typed.words && (word = next_word(&text, &length)) != NULL; w++)
        printf("%-12.*s%s\n", (int)length, word, columns[path[w]]);
    printf("\nsum  %.17g\n", best.sum);
    if (best.has_lead) /* over the best reading that ends in another column */
        printf("lead %.17g\n\n", best.lead);

    typed.values[typed.word_starts[3]] = NAN; /* of the fourth word: 0.0 / 0.0, say */
    best = label(&typed, path);
    return !refused("a damaged line is", best.number, best.place);
}
