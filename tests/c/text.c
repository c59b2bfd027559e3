/* The training text from C: the request's cases T1 to T7, names of a million bytes and of 500,000 escapes, an empty text, what a
 * refusal leaves, and the header's macros. With the argument `long` also a text of more than 4,294,967,295 bytes, which takes
 * as many of address space. */
#define _DEFAULT_SOURCE
#include <inttypes.h>
#include <stdio.h>
#include <stdlib.h>
#include <string.h>
#include <sys/mman.h>
#include "bodkinbloom.h"

enum { PAINT = 0xA5, TABLES = 12 };

static int failures, checks;

static void is(const char *what, int so) {
    checks++;
    if (!so) {
        printf("not so: %s\n", what);
        failures++;
    }
}

/* ---- twelve lent tables, painted, with rooms of their own, and as they were before the call */

typedef struct {
    size_t room[TABLES];
    uint8_t *memory[TABLES], *before[TABLES];
} lent;

static const size_t entry[TABLES] = {4, 4, 4, 8, 4, 8, 4, 1, 4, 1, 4, 1};

static void paint(lent *tables) {
    for (int i = 0; i < TABLES; i++) {
        const size_t bytes = tables->room[i] * entry[i] + 1;
        tables->memory[i] = malloc(bytes);
        tables->before[i] = malloc(bytes);
        if (!tables->memory[i] || !tables->before[i])
            abort();
        for (size_t b = 0; b < bytes; b++)
            tables->memory[i][b] = (uint8_t)(PAINT + 7 * b + (size_t)i);
        memcpy(tables->before[i], tables->memory[i], bytes);
    }
}

static void let_go(lent *tables) {
    for (int i = 0; i < TABLES; i++) {
        free(tables->memory[i]);
        free(tables->before[i]);
    }
}

/* As before from the given entry of each table on. */
static int untouched(const lent *tables, const size_t from[TABLES]) {
    for (int i = 0; i < TABLES; i++)
        if (memcmp(tables->memory[i] + from[i] * entry[i], tables->before[i] + from[i] * entry[i],
                   (tables->room[i] - from[i]) * entry[i] + 1) != 0)
            return 0;
    return 1;
}

#define NUMBERS(i) (uint32_t *)(void *)tables->memory[i], tables->room[i]
#define FLOATS(i) (double *)(void *)tables->memory[i], tables->room[i]
#define BYTES(i) tables->memory[i], tables->room[i]

static bodkinbloom_text read_into(lent *tables, const char *text, size_t length) {
    paint(tables);
    return bodkinbloom_read_text((const uint8_t *)text, length, NUMBERS(0), NUMBERS(1), NUMBERS(2), FLOATS(3), NUMBERS(4),
                                 FLOATS(5), NUMBERS(6), BYTES(7), NUMBERS(8), BYTES(9), NUMBERS(10), BYTES(11));
}

static void needed(const bodkinbloom_text *sizes, size_t need[TABLES]) {
    const size_t all[TABLES] = {BODKINBLOOM_STARTS(sizes->instances),
                                BODKINBLOOM_STARTS(sizes->words_in_all),
                                sizes->attributes_in_all,
                                sizes->attributes_in_all,
                                sizes->words_in_all,
                                sizes->instances,
                                BODKINBLOOM_STARTS(sizes->labels),
                                sizes->label_bytes,
                                BODKINBLOOM_STARTS(sizes->attribute_names),
                                sizes->attribute_bytes,
                                BODKINBLOOM_STARTS(sizes->attributes_in_all),
                                sizes->scale_bytes};
    memcpy(need, all, sizeof all);
}

/* What the header's macros say is enough. */
static void enough(size_t n, size_t room[TABLES]) {
    const size_t all[TABLES] = {BODKINBLOOM_STARTS(BODKINBLOOM_TEXT_INSTANCES(n)),
                                BODKINBLOOM_STARTS(BODKINBLOOM_TEXT_WORDS(n)),
                                BODKINBLOOM_TEXT_ATTRIBUTES(n),
                                BODKINBLOOM_TEXT_ATTRIBUTES(n),
                                BODKINBLOOM_TEXT_WORDS(n),
                                BODKINBLOOM_TEXT_INSTANCES(n),
                                BODKINBLOOM_STARTS(BODKINBLOOM_TEXT_LABELS(n)),
                                n,
                                BODKINBLOOM_STARTS(BODKINBLOOM_TEXT_ATTRIBUTE_NAMES(n)),
                                n,
                                BODKINBLOOM_STARTS(BODKINBLOOM_TEXT_ATTRIBUTES(n)),
                                n};
    memcpy(room, all, sizeof all);
}

static int same_answer(bodkinbloom_text x, bodkinbloom_text y) {
    return x.number == y.number && x.place == y.place && x.labels == y.labels && x.attribute_names == y.attribute_names &&
           x.instances == y.instances && x.words_in_all == y.words_in_all && x.attributes_in_all == y.attributes_in_all &&
           x.label_bytes == y.label_bytes && x.attribute_bytes == y.attribute_bytes && x.scale_bytes == y.scale_bytes;
}

/* Reads a text into tables of the needed lengths and a little more, and holds sizes and what lies behind to the header. The
 * tables stay the caller's. */
static bodkinbloom_text accepted(const char *what, lent *tables, const char *text, size_t length) {
    static const lent none;
    size_t need[TABLES], most[TABLES];
    const bodkinbloom_text sizes = bodkinbloom_text_sizes((const uint8_t *)text, length);
    is(what, sizes.number == BODKINBLOOM_ACCEPTED && sizes.place == 0);
    *tables = none;
    needed(&sizes, need);
    enough(length, most);
    for (int i = 0; i < TABLES; i++) {
        is("the macros say what is enough", need[i] <= most[i]);
        tables->room[i] = need[i] + 2;
    }
    const bodkinbloom_text answer = read_into(tables, text, length);
    is(what, same_answer(answer, sizes));
    is("behind what is needed nothing is written", untouched(tables, need));
    return answer;
}

static void refused(const char *what, const char *text, size_t length, uint32_t number, uint64_t place) {
    static const size_t from_the_first[TABLES];
    lent tables = {.room = {9, 300, 300, 300, 300, 9, 40, 200, 300, 300, 300, 300}};
    const bodkinbloom_text expected = {.number = number, .place = place};
    is(what, same_answer(bodkinbloom_text_sizes((const uint8_t *)text, length), expected));
    is(what, same_answer(read_into(&tables, text, length), expected));
    is("a refusal leaves all as it was", untouched(&tables, from_the_first));
    let_go(&tables);
}

#define TEXT(literal) (literal), sizeof(literal) - 1

/* ---- writing what was read */

static bodkinbloom_written write_from(const bodkinbloom_text *sizes, const lent *tables, uint8_t *text, size_t length) {
    const bodkinbloom_totals totals = {sizes->instances, sizes->words_in_all, sizes->attributes_in_all};
    const bodkinbloom_names names = {sizes->attribute_names, sizes->label_bytes, sizes->attribute_bytes, sizes->scale_bytes};
    return bodkinbloom_write_text(sizes->labels, totals, names, NUMBERS(0), NUMBERS(1), NUMBERS(2), NUMBERS(4), NUMBERS(6),
                                  BYTES(7), NUMBERS(8), BYTES(9), NUMBERS(10), BYTES(11), text, length);
}

static void written(const char *what, const bodkinbloom_text *sizes, const lent *tables, const char *expected, size_t length) {
    uint8_t *text = malloc(length + 1);
    if (!text)
        abort();
    memset(text, PAINT, length + 1);
    is(what, write_from(sizes, tables, text, length - 1).number == BODKINBLOOM_REFUSED_SIZE && text[0] == PAINT);
    const bodkinbloom_written answer = write_from(sizes, tables, text, length + 1);
    is(what, answer.number == BODKINBLOOM_ACCEPTED && answer.place == 0 && answer.length == length);
    is(what, memcmp(text, expected, length) == 0 && text[length] == PAINT);
    free(text);
}

static int holds(const lent *tables, int i, const void *expected, size_t entries) {
    return memcmp(tables->memory[i], expected, entries * entry[i]) == 0;
}

/* ---- the request's cases */

static const char t1_text[] = "A\ta:0.5\tb\nB\n\n\nA\tb:-0\n";

static void t1(void) {
    static const uint32_t line_starts[] = {0, 2, 3}, word_starts[] = {0, 2, 2, 3}, ids[] = {0, 1, 1}, references[] = {0, 1, 0},
                          name_starts[] = {0, 1, 2}, scale_starts[] = {0, 3, 3, 5};
    static const double values[] = {0.5, 1, -0.0}, instance_weights[] = {1, 1};
    lent tables;
    const bodkinbloom_text sizes = accepted("T1", &tables, TEXT(t1_text));
    is("T1: sizes", sizes.labels == 2 && sizes.attribute_names == 2 && sizes.instances == 2 && sizes.words_in_all == 3 &&
                        sizes.attributes_in_all == 3 && sizes.label_bytes == 2 && sizes.attribute_bytes == 2 &&
                        sizes.scale_bytes == 5);
    is("T1: line_starts", holds(&tables, 0, line_starts, 3));
    is("T1: word_starts", holds(&tables, 1, word_starts, 4));
    is("T1: ids", holds(&tables, 2, ids, 3));
    is("T1: values", holds(&tables, 3, values, 3));
    is("T1: references", holds(&tables, 4, references, 3));
    is("T1: instance_weights", holds(&tables, 5, instance_weights, 2));
    is("T1: label_name_starts", holds(&tables, 6, name_starts, 3));
    is("T1: label_names", holds(&tables, 7, "AB", 2));
    is("T1: attribute_name_starts", holds(&tables, 8, name_starts, 3));
    is("T1: attribute_names", holds(&tables, 9, "ab", 2));
    is("T1: scale_starts", holds(&tables, 10, scale_starts, 4));
    is("T1: scales", holds(&tables, 11, "0.5-0", 5));
    written("T1: written", &sizes, &tables, TEXT("A\ta:0.5\tb\nB\n\nA\tb:-0\n\n"));
    let_go(&tables);
}

static void t2_and_t3(void) {
    lent tables;
    bodkinbloom_text sizes = accepted("T2", &tables, TEXT("h\\:m\tC\\:\\\\x:1"));
    static const double one = 1;
    is("T2: names", sizes.label_bytes == 3 && holds(&tables, 7, "h:m", 3) && sizes.attribute_bytes == 4 &&
                        holds(&tables, 9, "C:\\x", 4));
    is("T2: value", holds(&tables, 3, &one, 1) && sizes.scale_bytes == 1 && holds(&tables, 11, "1", 1));
    written("T2: written", &sizes, &tables, TEXT("h\\:m\tC\\:\\\\x:1\n\n"));
    let_go(&tables);

    refused("T3: the empty text", NULL, 0, BODKINBLOOM_REFUSED_SIZE, 0);
    refused("T3: empty lines", TEXT("\n\n"), BODKINBLOOM_REFUSED_SIZE, 0);
    sizes = accepted("T3: one word", &tables, TEXT("A"));
    is("T3: one word", sizes.words_in_all == 1 && sizes.attributes_in_all == 0);
    let_go(&tables);
    refused("T3: an empty field", TEXT("A\t"), BODKINBLOOM_REFUSED_TEXT, 2);
    refused("T3: a tab", TEXT("\t"), BODKINBLOOM_REFUSED_TEXT, 0);
}

static void t4_and_t5(void) {
    char text[600];
    size_t length = 0;
    for (int word = 0; word < 128 + 129; word++) {
        if (word == 128)
            text[length++] = '\n';
        text[length++] = 'A';
        text[length++] = '\n';
    }
    refused("T4", text, length, BODKINBLOOM_REFUSED_WORDS, 1);
    text[length] = 'A';
    text[length + 1] = ':';
    refused("T4, with a colon behind it", text, length + 2, BODKINBLOOM_REFUSED_TEXT, 516);

    length = 0;
    for (int label = 0; label < 33; label++)
        length += (size_t)snprintf(text + length, sizeof text - length, "L%d\n", label);
    refused("T5", text, length, BODKINBLOOM_REFUSED_SIZE, 0);
    text[length] = '\\';
    refused("T5, with a backslash behind it", text, length + 1, BODKINBLOOM_REFUSED_TEXT, 123);
}

static void t6(void) {
    static const size_t from_the_first[TABLES];
    const bodkinbloom_text sizes = bodkinbloom_text_sizes((const uint8_t *)t1_text, sizeof t1_text - 1);
    for (int i = 0; i < TABLES; i++) {
        lent tables = {.room = {0}};
        const bodkinbloom_text expected = {.number = BODKINBLOOM_REFUSED_SIZE};
        needed(&sizes, tables.room);
        tables.room[i]--;
        is("T6: each table one short", same_answer(read_into(&tables, TEXT(t1_text)), expected));
        is("T6: all as it was", untouched(&tables, from_the_first));
        let_go(&tables);
    }
}

/* T1's tables, changed. */
static void t7(void) {
    lent tables;
    bodkinbloom_text sizes = accepted("T7", &tables, TEXT(t1_text));
    uint8_t text[21];
    bodkinbloom_written answer = write_from(&sizes, &tables, text, 20);
    is("T7: 20 bytes", answer.number == BODKINBLOOM_REFUSED_SIZE && answer.place == 0 && answer.length == 0);
    is("T7: 21 bytes", write_from(&sizes, &tables, text, 21).length == 21);

    tables.memory[7][1] = '\t';
    answer = write_from(&sizes, &tables, text, 21);
    is("T7: a tab for B", answer.number == BODKINBLOOM_REFUSED_TEXT && answer.place == 1);
    /* B without bytes, and a line feed for a */
    const uint32_t one = 1;
    memcpy(tables.memory[6] + 8, &one, 4);
    sizes.label_bytes = 1;
    tables.memory[9][0] = '\n';
    answer = write_from(&sizes, &tables, text, 21);
    is("T7: no B, and a line feed", answer.number == BODKINBLOOM_REFUSED_TEXT && answer.place == 1);
    let_go(&tables);

    sizes = accepted("T7", &tables, TEXT(t1_text));
    memcpy(tables.memory[11], "0.-", 3);
    answer = write_from(&sizes, &tables, text, 21);
    is("T7: 0.- for 0.5", answer.number == BODKINBLOOM_REFUSED_TEXT && answer.place == 0);
    const uint32_t two = 2;
    memcpy(tables.memory[2] + 4, &two, 4);
    answer = write_from(&sizes, &tables, text, 21);
    is("T7: an id without a name", answer.number == BODKINBLOOM_REFUSED_RANGE && answer.place == 1);
    let_go(&tables);
}

/* ---- long names: the stack does not depend on them */

static void long_name(const char *what, const char *unit, size_t units, size_t name_bytes) {
    const size_t step = strlen(unit), length = 2 + units * step;
    char *text = malloc(length + 3);
    if (!text)
        abort();
    memcpy(text, "A\t", 2);
    for (size_t i = 0; i < units; i++)
        memcpy(text + 2 + i * step, unit, step);
    memcpy(text + length, "\n\n", 3);
    lent tables;
    const bodkinbloom_text sizes = accepted(what, &tables, text, length);
    is(what, sizes.attribute_names == 1 && sizes.attribute_bytes == name_bytes);
    is(what, tables.memory[9][name_bytes - 1] == (uint8_t)unit[step - 1]);
    written(what, &sizes, &tables, text, length + 2);
    let_go(&tables);
    text[length] = '\\';
    const bodkinbloom_text cut = bodkinbloom_text_sizes((const uint8_t *)text, length + 1);
    is(what, cut.number == BODKINBLOOM_REFUSED_TEXT && cut.place == length + 1);
    free(text);
}

/* ---- the macros at their ends */

static void macros(void) {
    is("a text of no bytes", BODKINBLOOM_TEXT_INSTANCES(0) == 0 && BODKINBLOOM_TEXT_WORDS(0) == 0 &&
                                 BODKINBLOOM_TEXT_ATTRIBUTES(0) == 0 && BODKINBLOOM_WRITTEN(0) == 2);
    is("of one", BODKINBLOOM_TEXT_INSTANCES(1) == 1 && BODKINBLOOM_TEXT_WORDS(1) == 1 && BODKINBLOOM_TEXT_ATTRIBUTES(1) == 0);
    is("of four", BODKINBLOOM_TEXT_INSTANCES(4) == 2 && BODKINBLOOM_TEXT_WORDS(4) == 2 && BODKINBLOOM_TEXT_ATTRIBUTES(4) == 2);
    is("of as many as there are", BODKINBLOOM_TEXT_INSTANCES(SIZE_MAX) == BODKINBLOOM_MOST_INSTANCES &&
                                      BODKINBLOOM_TEXT_WORDS(SIZE_MAX) == BODKINBLOOM_MOST_WORDS_IN_ALL &&
                                      BODKINBLOOM_TEXT_ATTRIBUTES(SIZE_MAX) == BODKINBLOOM_MOST_ATTRIBUTES_IN_ALL &&
                                      BODKINBLOOM_TEXT_LABELS(SIZE_MAX) == BODKINBLOOM_MOST_LABELS &&
                                      BODKINBLOOM_TEXT_ATTRIBUTE_NAMES(SIZE_MAX) == BODKINBLOOM_MOST_ATTRIBUTE_NAMES);
    /* the fullest texts of each length: words, sequences, attributes */
    static const char *const units[] = {"A\n", "A\n\n", "\ta"};
    for (int u = 0; u < 3; u++) {
        char text[80] = "A";
        const size_t step = strlen(units[u]);
        const size_t head = u == 2 ? 1 : 0;
        for (size_t i = 0; head + (i + 1) * step < sizeof text; i++)
            memcpy(text + head + i * step, units[u], step);
        for (size_t n = 1; n < 70; n++) {
            if (u == 2 && n % 2 == 0)
                continue; /* it would end in a tab */
            lent tables;
            accepted("a full text", &tables, text, n);
            let_go(&tables);
        }
    }
}

/* A single word of bytes 0, one more than starts can count: only its pages that are read are there. */
static void too_long(void) {
    const size_t length = (size_t)UINT32_MAX + 1;
    void *text = mmap(NULL, length, PROT_READ, MAP_PRIVATE | MAP_ANONYMOUS | MAP_NORESERVE, -1, 0);
    if (text == MAP_FAILED) {
        printf("a text of %zu bytes cannot be had here\n", length);
        return;
    }
    const bodkinbloom_text answer = bodkinbloom_text_sizes(text, length);
    is("a text too long", answer.number == BODKINBLOOM_REFUSED_SIZE && answer.place == 0);
    munmap(text, length);
}

int main(int arguments, char **argument) {
    t1();
    t2_and_t3();
    t4_and_t5();
    t6();
    t7();
    long_name("a name of a million bytes", "x", 1000000, 1000000);
    long_name("a name of 500,000 escapes", "\\\\", 500000, 500000);
    long_name("a name of escapes of both kinds", "\\:\\\\", 250000, 500000);
    macros();
    if (arguments > 1 && strcmp(argument[1], "long") == 0)
        too_long();
    printf("%d checks of training texts from C: %d failed\n", checks, failures);
    return failures != 0;
}
