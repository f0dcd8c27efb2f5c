/* Writes the taps of a gate as lines of RFC 5424, such as every strict reader takes.

       gate [FILE]

   FILE, or standard input, has a tap's stage to a line, with a tab between its columns: when it was, in seconds since
   1970 with up to nine digits behind a point, or "-" where the gate had no clock; the gate; the reader's process id;
   the stage's name; its milliseconds; and the words of the message, which may be missing. The fields of the line are
   places in the row: nothing is copied but by the writer, which puts a backslash before quotes and brackets. A tap that
   no line can tell is told on standard error with its number, and not written. */
#include <errno.h>
#include <inttypes.h>
#include <stdio.h>
#include <string.h>

#include "khamdoriem.h"

/* The row stands behind the texts that all lines have. 32473 is the enterprise number for examples. */
#define FRONT "readerTAPstage@32473namems"
enum { APP = 0, TAP = 6, STAGE = 9, NAME = 20, MS = 24, ROW = 26, LONGEST_ROW = 4096 };
enum { CLOCK, GATE, PROCESS, STAGE_NAME, MILLISECONDS, WORDS, COLUMNS };
enum { USER_NOTICE = 1 * 8 + 5 };

static uint8_t text[ROW + LONGEST_ROW + 1] = FRONT;
static unsigned long taps, untold;

/* Seconds since 1970 and a fraction of so many digits; 0 where the column has something else. */
static int read_clock(const uint8_t *at, const uint8_t *end, struct khamdoriem_fields *fields) {
    int before = at < end && *at == '-';
    uint32_t unit = 1000000000;
    int64_t seconds = 0;
    const uint8_t *first = at += before;
    for (; at < end && *at != '.'; at++) {
        if (*at < '0' || *at > '9' || at - first == 12) return 0;
        seconds = seconds * 10 + (*at - '0');
    }
    if (at == first) return 0;
    if (at < end) at++;
    for (; at < end; at++, fields->digits++) {
        if (*at < '0' || *at > '9' || unit == 1) return 0;
        fields->nanos += (uint32_t)(*at - '0') * (unit /= 10);
    }
    fields->seconds = before ? -seconds : seconds;
    /* Before 1970 a fraction goes further back, and nanoseconds are past their second. */
    if (before && fields->nanos) fields->seconds--, fields->nanos = 1000000000 - fields->nanos;
    return fields->stamped = 1;
}

/* The places of the row's columns; how many there are. The last has all that is left. */
static size_t split(size_t end, struct khamdoriem_part *columns) {
    size_t count = 0, from = ROW, at;
    for (at = ROW; at <= end; at++)
        if (at == end || (text[at] == '\t' && count + 1 < COLUMNS)) {
            columns[count++] = khamdoriem_part_at(from, at - from);
            from = at + 1;
        }
    return count;
}

/* The line of the row that ends there; or a number that is no refusal, where the row is none. */
static struct khamdoriem_written write_tap(size_t end, uint8_t *output, size_t room) {
    static const struct khamdoriem_written no_row = {UINT32_MAX, 0};
    struct khamdoriem_part columns[COLUMNS];
    struct khamdoriem_fields fields;
    khamdoriem_element stage = {STAGE, 11};
    khamdoriem_param params[2] = {{0, NAME, 4, 0, 0}, {0, MS, 2, 0, 0}};
    size_t count = split(end, columns);
    const uint8_t *clock = text + columns[CLOCK].start;
    if (count < WORDS || end > ROW + LONGEST_ROW) return no_row;
    memset(&fields, 0, sizeof fields);
    fields.priority = USER_NOTICE, fields.version = 1;
    fields.app = khamdoriem_part_at(APP, 6), fields.msgid = khamdoriem_part_at(TAP, 3);
    fields.host = columns[GATE], fields.procid = columns[PROCESS];
    if (count == COLUMNS) fields.message = columns[WORDS];
    params[0].value_start = columns[STAGE_NAME].start, params[0].value_len = columns[STAGE_NAME].len;
    params[1].value_start = columns[MILLISECONDS].start, params[1].value_len = columns[MILLISECONDS].len;
    fields.element_count = 1, fields.param_count = 2;
    if (!(columns[CLOCK].len == 1 && *clock == '-') && !read_clock(clock, clock + columns[CLOCK].len, &fields))
        return no_row;
    return khamdoriem_write_strict(text, end, fields, &stage, 1, params, 2, output, room);
}

/* Writes the line of a row, or tells why not. */
static void add_row(size_t end) {
    static uint8_t output[KHAMDORIEM_LINE_LIMIT];
    struct khamdoriem_written line = write_tap(end, output, sizeof output);
    taps++;
    if (line.number == KHAMDORIEM_DONE) {
        fwrite(output, 1, line.len, stdout);
        putchar('\n');
        return;
    }
    untold++;
    if (line.number == UINT32_MAX)
        fprintf(stderr, "gate: tap %lu: its row is none\n", taps);
    else
        fprintf(stderr, "gate: tap %lu: refusal %" PRIu32 ": %s\n", taps, line.number,
                khamdoriem_refusal_text(line.number));
}

/* Writes the line of every row. A row of over LONGEST_ROW bytes is kept to one more, and is then none. */
static void add_file(FILE *file) {
    size_t end = ROW;
    int byte;
    while ((byte = getc(file)) != EOF) {
        if (byte == '\n') {
            add_row(end);
            end = ROW;
        } else if (end < sizeof text) {
            text[end++] = (uint8_t)byte;
        }
    }
    if (end > ROW) add_row(end);
}

static int failed(const char *what) {
    fprintf(stderr, "gate: %s: %s\n", what, strerror(errno));
    return 1;
}

int main(int argc, char **argv) {
    FILE *file = stdin;
    const char *name = argc > 1 ? argv[1] : "standard input";
    if (argc > 2) {
        fputs("usage: gate [FILE]\n", stderr);
        return 2;
    }
    if (khamdoriem_interface() != KHAMDORIEM_INTERFACE) {
        fputs("gate: archive and header have different interfaces\n", stderr);
        return 1;
    }
    if (argc > 1 && !(file = fopen(name, "rb"))) return failed(name);
    add_file(file);
    if (ferror(file)) return failed(name);
    if (fclose(stdout)) return failed("standard output");
    fprintf(stderr, "gate: %lu taps, %lu of them not written\n", taps, untold);
    return 0;
}
