/* What changed between two files of taps, line by line, as after a firmware update.

       changes BEFORE AFTER

   For each line of BEFORE that says something else than the line of the same number in AFTER one is written: its number
   and the fields that differ; of elements the position and, where one is named, the parameter that one of the two has
   more often. A line that is refused is told on standard error. The year is 2026 and the offset +60. */
#include <errno.h>
#include <inttypes.h>
#include <stdio.h>
#include <stdlib.h>
#include <string.h>

#include "khamdoriem.h"

/* A line of a file, kept up to one byte over the limit, so that a longer one is refused; and its tables. */
struct line {
    FILE *from;
    size_t len;
    uint8_t text[KHAMDORIEM_LINE_LIMIT + 1];
    khamdoriem_element elements[KHAMDORIEM_ELEMENTS_ENOUGH];
    khamdoriem_param params[KHAMDORIEM_PARAMS_ENOUGH];
};

static struct line before, after;
static unsigned long lines, changed, refused;

static int failed(const char *what) {
    fprintf(stderr, "changes: %s: %s\n", what, strerror(errno));
    return 1;
}

/* The next line of a file: 1, or 0 where there is none. */
static int next(struct line *line) {
    int byte = getc(line->from);
    if (byte == EOF) return 0;
    for (line->len = 0; byte != EOF && byte != '\n'; byte = getc(line->from))
        if (line->len < sizeof line->text) line->text[line->len++] = (uint8_t)byte;
    return 1;
}

/* Where the elements differ. */
static void show_elements(struct khamdoriem_compared c) {
    const struct line *line = c.pair_line == 1 ? &before : &after;
    const uint8_t *name, *value;
    size_t name_len, value_len;
    printf(" at %lu", (unsigned long)c.position);
    if (!c.pair_line) return;
    name = khamdoriem_name(line->text, &line->params[c.pair_entry], &name_len);
    value = khamdoriem_value(line->text, &line->params[c.pair_entry], &value_len);
    printf(" (%s: %.*s=\"%.*s\")", c.pair_line == 1 ? "before" : "after", (int)name_len, (const char *)name,
           (int)value_len, (const char *)value);
}

static void show(struct khamdoriem_compared c) {
    const char *between = ":";
    uint32_t bit;
    changed++;
    printf("%lu", lines);
    for (bit = 0; bit < KHAMDORIEM_FIELDS; bit++) {
        if (!(c.fields >> bit & 1)) continue;
        printf("%s %s", between, khamdoriem_field_name(bit));
        if (1u << bit == KHAMDORIEM_FIELD_ELEMENTS) show_elements(c);
        between = ",";
    }
    putchar('\n');
}

static void compare(void) {
    struct khamdoriem_compared c = khamdoriem_compare(
        before.text, before.len, after.text, after.len, KHAMDORIEM_VARIANT_EITHER, 2026, 60, before.elements,
        KHAMDORIEM_ELEMENTS_ENOUGH, before.params, KHAMDORIEM_PARAMS_ENOUGH, after.elements, KHAMDORIEM_ELEMENTS_ENOUGH,
        after.params, KHAMDORIEM_PARAMS_ENOUGH);
    lines++;
    if (c.number == KHAMDORIEM_DONE) {
        if (c.fields) show(c);
        return;
    }
    refused++;
    fprintf(stderr, "changes: line %lu, %s: refusal %" PRIu32 ": %s\n", lines, c.line == 1 ? "before" : "after", c.number,
            khamdoriem_refusal_text(c.number));
}

int main(int argc, char **argv) {
    if (argc != 3) {
        fputs("usage: changes BEFORE AFTER\n", stderr);
        return 2;
    }
    if (khamdoriem_interface() != KHAMDORIEM_INTERFACE) {
        fputs("changes: archive and header have different interfaces\n", stderr);
        return 1;
    }
    if (!(before.from = fopen(argv[1], "rb"))) return failed(argv[1]);
    if (!(after.from = fopen(argv[2], "rb"))) return failed(argv[2]);
    while (next(&before) && next(&after)) compare();
    if (ferror(before.from) || ferror(after.from)) return failed("reading");
    if (fclose(stdout)) return failed("standard output");
    fprintf(stderr, "changes: %lu lines, %lu of them changed, %lu refused\n", lines, changed, refused);
    return 0;
}
