/* Reads a training text and says what is in it: `make text FILE=…`.
 *
 * One word a line, fields parted by tabs, label first, then attributes; an empty line ends a sequence (include/bodkinbloom.h has
 * the layout). It prints how much there is, the labels, the first attributes; or why the text is refused and where, by line and
 * column (counted in bytes, from 1) beside the byte. With gcc, after `make archive`:
 *
 *     gcc -std=c11 -Iinclude examples/read_text.c build/libbodkinbloom.a -o read_text
 */
#include <errno.h>
#include <inttypes.h>
#include <stdint.h>
#include <stdio.h>
#include <stdlib.h>
#include <string.h>
#include "bodkinbloom.h"

enum { SHOWN = 10 /* attributes, by name */, BYTES_SHOWN = 60 /* of a name or a line */ };

/* ---- the file */

typedef struct {
    uint8_t *bytes;
    size_t length;
} text_file;

/* 0 where it cannot be read: errno says why. */
static int load(const char *name, text_file *text) {
    FILE *file = strcmp(name, "-") == 0 ? stdin : fopen(name, "rb");
    size_t room = 1 << 16, got = 1;
    text->bytes = malloc(room);
    text->length = 0;
    if (!file)
        return 0;
    while (text->bytes && got > 0) {
        got = fread(text->bytes + text->length, 1, room - text->length, file);
        text->length += got;
        if (text->length == room)
            text->bytes = realloc(text->bytes, room *= 2);
    }
    const int whole = text->bytes && !ferror(file);
    if (file != stdin)
        fclose(file);
    return whole;
}

/* ---- names */

/* Bytes as they are typed; a tab as \t, what is no plain ASCII character as \xNN, and the rest of a long name as dots. */
static void show(const uint8_t *bytes, size_t length) {
    for (size_t i = 0; i < length && i < BYTES_SHOWN; i++) {
        if (bytes[i] >= 0x20 && bytes[i] < 0x7F)
            putchar(bytes[i]);
        else if (bytes[i] == '\t')
            printf("\\t");
        else
            printf("\\x%02X", bytes[i]);
    }
    if (length > BYTES_SHOWN)
        printf("... (%zu bytes)", length);
}

static void by_size(const char *what, uint64_t count) { printf("%" PRIu64 " %s%s", count, what, count == 1 ? "" : "s"); }

/* ---- a text that was read */

typedef struct {
    uint32_t *line_starts, *word_starts, *ids, *references, *label_name_starts, *attribute_name_starts, *scale_starts;
    double *values, *instance_weights;
    uint8_t *label_names, *attribute_names, *scales;
} tables;

static void *table(size_t entries, size_t size) {
    void *memory = calloc(entries > 0 ? entries : 1, size);
    if (!memory) {
        printf("there is not enough memory for the tables\n");
        exit(1);
    }
    return memory;
}

static tables take(bodkinbloom_text sizes) {
    const tables t = {
        .line_starts = table(BODKINBLOOM_STARTS(sizes.instances), sizeof(uint32_t)),
        .word_starts = table(BODKINBLOOM_STARTS(sizes.words_in_all), sizeof(uint32_t)),
        .ids = table(sizes.attributes_in_all, sizeof(uint32_t)),
        .values = table(sizes.attributes_in_all, sizeof(double)),
        .references = table(sizes.words_in_all, sizeof(uint32_t)),
        .instance_weights = table(sizes.instances, sizeof(double)),
        .label_name_starts = table(BODKINBLOOM_STARTS(sizes.labels), sizeof(uint32_t)),
        .label_names = table(sizes.label_bytes, 1),
        .attribute_name_starts = table(BODKINBLOOM_STARTS(sizes.attribute_names), sizeof(uint32_t)),
        .attribute_names = table(sizes.attribute_bytes, 1),
        .scale_starts = table(BODKINBLOOM_STARTS(sizes.attributes_in_all), sizeof(uint32_t)),
        .scales = table(sizes.scale_bytes, 1),
    };
    return t;
}

static bodkinbloom_text read_into(const tables *t, bodkinbloom_text sizes, const text_file *text) {
    return bodkinbloom_read_text(
        text->bytes, text->length, t->line_starts, BODKINBLOOM_STARTS(sizes.instances), t->word_starts,
        BODKINBLOOM_STARTS(sizes.words_in_all), t->ids, sizes.attributes_in_all, t->values, sizes.attributes_in_all,
        t->references, sizes.words_in_all, t->instance_weights, sizes.instances, t->label_name_starts,
        BODKINBLOOM_STARTS(sizes.labels), t->label_names, sizes.label_bytes, t->attribute_name_starts,
        BODKINBLOOM_STARTS(sizes.attribute_names), t->attribute_names, sizes.attribute_bytes, t->scale_starts,
        BODKINBLOOM_STARTS(sizes.attributes_in_all), t->scales, sizes.scale_bytes);
}

/* Names with how often each stands in the text. */
static void list(const char *what, uint32_t names, uint32_t shown, const uint32_t *starts, const uint8_t *bytes,
                 const uint32_t *uses, uint32_t used) {
    uint32_t *times = table(names, sizeof(uint32_t));
    for (uint32_t i = 0; i < used; i++)
        times[uses[i]]++;
    by_size(what, names);
    printf(shown < names ? ", the first %" PRIu32 ":\n" : ":\n", shown);
    for (uint32_t name = 0; name < shown; name++) {
        printf("%10" PRIu32 " x  ", times[name]);
        show(bytes + starts[name], starts[name + 1] - starts[name]);
        putchar('\n');
    }
    free(times);
}

static void print(bodkinbloom_text sizes, const tables *t) {
    uint32_t with_scale = 0, longest = 0;
    for (uint32_t i = 0; i < sizes.attributes_in_all; i++)
        with_scale += t->scale_starts[i] < t->scale_starts[i + 1];
    for (uint32_t i = 0; i < sizes.instances; i++)
        if (t->line_starts[i + 1] - t->line_starts[i] > longest)
            longest = t->line_starts[i + 1] - t->line_starts[i];
    by_size("sequence", sizes.instances);
    printf(", ");
    by_size("word", sizes.words_in_all);
    printf(" (at most %" PRIu32 " in a sequence), ", longest);
    by_size("attribute", sizes.attributes_in_all);
    printf(", %" PRIu32 " of them with a scale\n", with_scale);
    list("label", sizes.labels, sizes.labels, t->label_name_starts, t->label_names, t->references, sizes.words_in_all);
    if (sizes.attribute_names > 0)
        list("attribute name", sizes.attribute_names, sizes.attribute_names < SHOWN ? sizes.attribute_names : SHOWN,
             t->attribute_name_starts, t->attribute_names, t->ids, sizes.attributes_in_all);
}

/* ---- a text that is refused */

/* What is wrong at a byte, or at the end, of the field that it stands in. */
static const char *fault(const uint8_t *line, size_t at) {
    size_t field = at;
    while (field > 0 && line[field - 1] != '\t')
        field--;
    for (size_t i = field; i < at; i++) {
        if (line[i] == ':')
            return "no scale: it has an optional minus, 1 to 15 digits and at most one point";
        if (line[i] == '\\' && ++i == at)
            return "a backslash stands before something other than a colon or a backslash";
    }
    if (field == at)
        return "a field or a name is empty";
    return "a bare colon stands in a label: write \\: for it";
}

static void say_malformed(const text_file *text, size_t place) {
    size_t line = 1, from = 0, to = place;
    for (size_t i = 0; i < place; i++)
        if (text->bytes[i] == '\n') {
            line++;
            from = i + 1;
        }
    while (to < text->length && text->bytes[to] != '\n')
        to++;
    printf("malformed in line %zu, column %zu%s: %s\n", line, place - from + 1,
           place == text->length ? ", where the text ends" : "", fault(text->bytes + from, place - from));
    printf("the line up to there: ");
    const size_t left = place - from > BYTES_SHOWN ? place - BYTES_SHOWN : from;
    printf(left > from ? "..." : "");
    show(text->bytes + left, place - left);
    printf("\nand from there:       ");
    show(text->bytes + place, to - place);
    putchar('\n');
}

/* The line that the sequence of this number begins at. */
static size_t line_of_sequence(const text_file *text, uint64_t sequence) {
    size_t line = 1;
    uint64_t begun = 0;
    int inside = 0, begins = 1;
    for (size_t i = 0; i < text->length; i++) {
        if (begins && text->bytes[i] != '\n' && !inside) {
            inside = 1;
            if (begun++ == sequence)
                break;
        } else if (begins && text->bytes[i] == '\n') {
            inside = 0;
        }
        begins = text->bytes[i] == '\n';
        line += (size_t)begins;
    }
    return line;
}

static void say_refused(const char *name, const text_file *text, bodkinbloom_text answer) {
    printf("%s is refused, number %" PRIu32 ", place %" PRIu64 ": ", name, answer.number, answer.place);
    switch (answer.number) {
    case BODKINBLOOM_REFUSED_TEXT:
        say_malformed(text, (size_t)answer.place);
        break;
    case BODKINBLOOM_REFUSED_WORDS:
        printf("the sequence that begins in line %zu has more than %d words; an empty line ends a sequence\n",
               line_of_sequence(text, answer.place), BODKINBLOOM_MOST_WORDS);
        break;
    default:
        printf("there is no word in it, or more than there may be of something: %d labels, %d attribute names, %d sequences,\n"
               "%d words, %d attributes\n",
               BODKINBLOOM_MOST_LABELS, BODKINBLOOM_MOST_ATTRIBUTE_NAMES, BODKINBLOOM_MOST_INSTANCES,
               BODKINBLOOM_MOST_WORDS_IN_ALL, BODKINBLOOM_MOST_ATTRIBUTES_IN_ALL);
    }
}

int main(int arguments, char **argument) {
    text_file text;
    if (arguments != 2) {
        fprintf(stderr, "usage: read_text FILE\n");
        return 2;
    }
    if (!load(argument[1], &text)) {
        fprintf(stderr, "%s: %s\n", argument[1], strerror(errno));
        return 2;
    }
    const bodkinbloom_text sizes = bodkinbloom_text_sizes(text.bytes, text.length);
    if (sizes.number != BODKINBLOOM_ACCEPTED) {
        say_refused(argument[1], &text, sizes);
        return 1;
    }
    const tables t = take(sizes);
    const bodkinbloom_text answer = read_into(&t, sizes, &text);
    if (answer.number != BODKINBLOOM_ACCEPTED) {
        say_refused(argument[1], &text, answer);
        return 1;
    }
    printf("%s: %zu bytes\n", argument[1], text.length);
    print(answer, &t);
    return 0;
}
