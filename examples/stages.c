/* Where the milliseconds of each tap went.

       stages FILE

   FILE has a line of syslog to a line. A gate tells of a stage in an element stage@32473 with the parameters name and
   ms; a line may have several. For each stage this prints, with tabs between: the line's number, the reader that took
   the line, the line's time in milliseconds since 1970, the host, the stage's name and its milliseconds, and '-' for what
   is absent.

   A line is read strictly, by RFC 5424; what has no strict reading is read loosely, as syslog_loose reads it: the lines
   of RFC 3164, and those in which several elements have one id. What has no stage is told on standard error, with its
   number, so that nothing is lost. */
#include <errno.h>
#include <inttypes.h>
#include <stdio.h>
#include <stdlib.h>
#include <string.h>

#include "khamdoriem.h"

/* The loose reader asks for a year and an offset, since RFC 3164's dates have neither. */
enum { YEAR = 2026, OFFSET_MINUTES = 60 };

/* All that reading needs, for any line: 107 KB, so not on the stack. One for each thread; it is never cleared. */
struct reading {
    const uint8_t *line;
    size_t len;
    uint32_t kind; /* how its values are unescaped: as it was read */
    uint8_t record[KHAMDORIEM_STRICT_RECORD];
    khamdoriem_element elements[KHAMDORIEM_ELEMENTS_ENOUGH];
    khamdoriem_param params[KHAMDORIEM_PARAMS_ENOUGH];
};

static struct {
    unsigned long lines, strict, loose, stages, unread;
} seen;

/* Strict, else loose: the number that the last of the two answered. The loose reader takes a line that no rules read
   for a message; here it counts as not read, with 4. */
static uint32_t read_line(struct reading *r, const uint8_t *line, size_t len) {
    struct khamdoriem_read answer;
    r->line = line;
    r->len = len;
    r->kind = KHAMDORIEM_KIND_STRICT;
    answer = khamdoriem_read_strict(line, len, r->elements, KHAMDORIEM_ELEMENTS_ENOUGH, r->params,
                                    KHAMDORIEM_PARAMS_ENOUGH, r->record, sizeof r->record);
    if (answer.number != KHAMDORIEM_NO_READING) return answer.number;
    r->kind = KHAMDORIEM_KIND_LOOSE;
    answer = khamdoriem_read_loose(line, len, KHAMDORIEM_VARIANT_EITHER, YEAR, OFFSET_MINUTES, r->elements,
                                   KHAMDORIEM_ELEMENTS_ENOUGH, r->params, KHAMDORIEM_PARAMS_ENOUGH, r->record,
                                   sizeof r->record);
    return answer.whole ? KHAMDORIEM_NO_READING : answer.number;
}

static int is(const uint8_t *text, size_t len, const char *word) {
    return len == strlen(word) && memcmp(text, word, len) == 0;
}

static void put_text(const uint8_t *text, size_t len) {
    if (text)
        fwrite(text, 1, len, stdout);
    else
        putchar('-');
}

/* The value of a parameter, unescaped. The memory has room for any. */
static void put_value(const struct reading *r, const khamdoriem_param *param) {
    static uint8_t value[KHAMDORIEM_VALUE_ENOUGH];
    struct khamdoriem_written written;
    if (!param) {
        putchar('-');
        return;
    }
    written = khamdoriem_unescape(r->line, r->len, param, r->kind, value, sizeof value);
    put_text(value, written.len);
}

static void put_stage(const struct reading *r, const khamdoriem_param *name, const khamdoriem_param *ms) {
    struct khamdoriem_instant instant;
    size_t len;
    const uint8_t *host = khamdoriem_host(r->line, r->record, &len);
    printf("%lu\t%s\t", seen.lines, r->kind == KHAMDORIEM_KIND_STRICT ? "strict" : "loose");
    if (khamdoriem_timestamp(r->record, &instant))
        printf("%" PRId64 "\t", instant.seconds * 1000 + instant.nanoseconds / 1000000);
    else
        fputs("-\t", stdout);
    put_text(host, len);
    putchar('\t');
    put_value(r, name);
    putchar('\t');
    put_value(r, ms);
    putchar('\n');
}

/* Walks the elements of a reading, and beside them the parameters, which stand in the elements' order. */
static unsigned long put_stages(const struct reading *r) {
    size_t elements = khamdoriem_element_count(r->record), params = khamdoriem_param_count(r->record), e, p = 0;
    unsigned long stages = 0;
    for (e = 0; e < elements; e++) {
        const khamdoriem_param *name = NULL, *ms = NULL;
        size_t len;
        const uint8_t *id = khamdoriem_id(r->line, &r->elements[e], &len);
        int stage = is(id, len, "stage@32473");
        for (; p < params && r->params[p].element == e; p++) {
            const uint8_t *text = khamdoriem_name(r->line, &r->params[p], &len);
            if (!name && is(text, len, "name")) name = &r->params[p];
            if (!ms && is(text, len, "ms")) ms = &r->params[p];
        }
        if (!stage) continue;
        put_stage(r, name, ms);
        stages++;
    }
    return stages;
}

static void list_line(struct reading *r, const uint8_t *line, size_t len) {
    uint32_t number = read_line(r, line, len);
    unsigned long stages;
    seen.lines++;
    if (number != KHAMDORIEM_DONE) {
        seen.unread++;
        fprintf(stderr, "stages: line %lu: refusal %" PRIu32 ": %s\n", seen.lines, number,
                khamdoriem_refusal_text(number));
        return;
    }
    *(r->kind == KHAMDORIEM_KIND_STRICT ? &seen.strict : &seen.loose) += 1;
    stages = put_stages(r);
    seen.stages += stages;
    if (!stages) fprintf(stderr, "stages: line %lu: no stage\n", seen.lines);
}

/* Lists every line of a file. A line is kept up to one byte over the limit, so that the reader refuses a longer one. */
static void list(struct reading *r, FILE *file) {
    static uint8_t line[KHAMDORIEM_LINE_LIMIT + 1];
    size_t len = 0;
    int byte;
    while ((byte = getc(file)) != EOF) {
        if (byte == '\n') {
            list_line(r, line, len);
            len = 0;
        } else if (len < sizeof line) {
            line[len++] = (uint8_t)byte;
        }
    }
    if (len) list_line(r, line, len);
}

static int failed(const char *what) {
    fprintf(stderr, "stages: %s: %s\n", what, strerror(errno));
    return 1;
}

int main(int argc, char **argv) {
    struct reading *r;
    FILE *file;
    if (argc != 2) {
        fputs("usage: stages FILE\n", stderr);
        return 2;
    }
    if (khamdoriem_interface() != KHAMDORIEM_INTERFACE) {
        fprintf(stderr, "stages: the archive has interface %" PRIu32 ", the header %d\n", khamdoriem_interface(),
                KHAMDORIEM_INTERFACE);
        return 1;
    }
    if (!(file = fopen(argv[1], "rb"))) return failed(argv[1]);
    if (!(r = (struct reading *)malloc(sizeof *r))) return failed("memory");
    list(r, file);
    if (ferror(file)) return failed(argv[1]);
    fclose(file);
    free(r);
    if (fclose(stdout)) return failed("standard output");
    fprintf(stderr, "stages: %lu lines, %lu strict, %lu loose, %lu not read; %lu stages\n", seen.lines, seen.strict,
            seen.loose, seen.unread, seen.stages);
    return 0;
}
