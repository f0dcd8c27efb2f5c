/* How much stack the calls take. Each is made by a thread whose stack was filled with one byte; what lies between the
   caller's own variables and the lowest byte that changed is what the call took. Run by examples/run. */
#define _POSIX_C_SOURCE 200112L
#include <pthread.h>
#include <stdio.h>
#include <stdlib.h>
#include <string.h>

#include "khamdoriem.h"

enum { ROOM = 256 * 1024, FILL = 0xA5 };

static uint8_t line[KHAMDORIEM_LINE_LIMIT + 8], record[KHAMDORIEM_STRICT_RECORD], output[KHAMDORIEM_OUTPUT_ENOUGH];
static size_t len;
static khamdoriem_element elements[KHAMDORIEM_ELEMENTS_ENOUGH];
static khamdoriem_param params[KHAMDORIEM_PARAMS_ENOUGH];
static uint32_t number; /* what the call answered */
static uintptr_t top;   /* where the stack of its caller was */

/* The same for every call: notes where the stack is, and makes it. */
static void *caller(void *call) {
    uint8_t here = 0;
    top = (uintptr_t)&here;
    (*(void (**)(void))call)();
    return NULL;
}

static void no_call(void) {}

static void read_loose(void) {
    number = khamdoriem_read_loose(line, len, 0, 2026, 60, elements, KHAMDORIEM_ELEMENTS_ENOUGH, params,
                                   KHAMDORIEM_PARAMS_ENOUGH, record, sizeof record)
                 .number;
}

static void read_strict(void) {
    number = khamdoriem_read_strict(line, len, elements, KHAMDORIEM_ELEMENTS_ENOUGH, params, KHAMDORIEM_PARAMS_ENOUGH,
                                    record, sizeof record)
                 .number;
}

static void print(void) {
    number = khamdoriem_print(line, len, record, sizeof record, elements, KHAMDORIEM_ELEMENTS_ENOUGH, params,
                              KHAMDORIEM_PARAMS_ENOUGH, output, sizeof output)
                 .number;
}

static void look(void) {
    number = khamdoriem_lookup(line, len, record, sizeof record, elements, KHAMDORIEM_ELEMENTS_ENOUGH, params,
                               KHAMDORIEM_PARAMS_ENOUGH, line, 1, line, 1, 0, output, sizeof output)
                 .number;
}

/* The line as a stream's bytes, and the output as its buffer. */
static void feed(void) {
    struct khamdoriem_stream state = khamdoriem_stream_start(KHAMDORIEM_STREAM_LINES).state;
    number = khamdoriem_stream_feed(state, line, len, output, KHAMDORIEM_STREAM_BUFFER).number;
}

/* The four calls of a tally, one after the other. */
static void tally(void) {
    static khamdoriem_counts rows[KHAMDORIEM_TALLY_ROWS];
    number = khamdoriem_tally_add(rows, KHAMDORIEM_TALLY_ROWS, 1, 23, 1, 7);
    number += khamdoriem_tally_cell(rows, KHAMDORIEM_TALLY_ROWS, 23, 7).number;
    number += khamdoriem_tally_row(rows, KHAMDORIEM_TALLY_ROWS, 23).number;
    number += khamdoriem_tally_column(rows, KHAMDORIEM_TALLY_ROWS, 7).number;
}

static uint8_t site[KHAMDORIEM_SETTINGS_RECORD];

/* The writer and both readers of a settings file, one after the other. */
static void settings(void) {
    number = khamdoriem_settings_write(1, 7, 2026, 60, 0, (const uint8_t *)"depot", 5, site, sizeof site).number;
    number += khamdoriem_settings_read(site, sizeof site, 7).number;
    number += khamdoriem_settings_read_1(site, sizeof site, 7).number;
}

static void read_with(void) {
    number = khamdoriem_read_with_settings(site, sizeof site, 7, line, len, elements, KHAMDORIEM_ELEMENTS_ENOUGH,
                                           params, KHAMDORIEM_PARAMS_ENOUGH, record, sizeof record)
                 .number;
}

/* What read_strict left, as a claim. */
static void check_claim(void) {
    number = khamdoriem_check_claim(line, len, record, sizeof record, elements, KHAMDORIEM_ELEMENTS_ENOUGH, params,
                                    KHAMDORIEM_PARAMS_ENOUGH);
}

/* The line that was read, written again: its text is the line. */
static void write_strict(void) {
    struct khamdoriem_fields fields;
    memset(&fields, 0, sizeof fields);
    fields.priority = 13, fields.version = 1, fields.digits = 6, fields.offset = -90;
    fields.stamped = len < KHAMDORIEM_LINE_LIMIT - 16; /* where there is room for it */
    fields.element_count = khamdoriem_element_count(record), fields.param_count = khamdoriem_param_count(record);
    number = khamdoriem_write_strict(line, len, fields, elements, fields.element_count, params, fields.param_count,
                                     output, sizeof output)
                 .number;
}

static khamdoriem_element elements2[KHAMDORIEM_ELEMENTS_ENOUGH];
static khamdoriem_param params2[KHAMDORIEM_PARAMS_ENOUGH];

/* The line with itself. */
static void compare(void) {
    number = khamdoriem_compare(line, len, line, len, 0, 2026, 60, elements, KHAMDORIEM_ELEMENTS_ENOUGH, params,
                                KHAMDORIEM_PARAMS_ENOUGH, elements2, KHAMDORIEM_ELEMENTS_ENOUGH, params2,
                                KHAMDORIEM_PARAMS_ENOUGH)
                 .number;
}

/* The bytes that a call took. The stack grows down. */
static size_t taken(void (*call)(void)) {
    pthread_attr_t attr;
    pthread_t thread;
    void *memory;
    uint8_t *byte;
    size_t n = 0;
    if (posix_memalign(&memory, 4096, ROOM)) exit(2);
    byte = (uint8_t *)memory;
    memset(byte, FILL, ROOM);
    if (pthread_attr_init(&attr) || pthread_attr_setstack(&attr, memory, ROOM) ||
        pthread_create(&thread, &attr, caller, &call) || pthread_join(thread, NULL))
        exit(2);
    while (n < ROOM && byte[n] == FILL) n++;
    n = top - ((uintptr_t)byte + n);
    free(memory);
    return n;
}

static size_t most;

static void measure(const char *what, void (*call)(void), uint32_t expected) {
    size_t n = taken(call);
    if (number != expected) {
        fprintf(stderr, "stack: %s: answered %u, not %u\n", what, (unsigned)number, (unsigned)expected);
        exit(1);
    }
    if (n > most) most = n;
    printf("stack: %6lu bytes: %s\n", (unsigned long)n, what);
}

static void start(const char *text) {
    len = strlen(text);
    memcpy(line, text, len);
}

/* Elements with different ids, of one byte and then of two, as many as the count says and the line holds. */
static void add_elements(size_t count) {
    size_t i;
    for (i = 0; count && len + 4 <= KHAMDORIEM_LINE_LIMIT; i++) {
        uint8_t one = (uint8_t)(33 + i % 94), two = (uint8_t)(32 + i / 94);
        if (strchr("=]\"", one) || strchr("=]\"", two)) continue;
        line[len++] = '[';
        line[len++] = one;
        if (two != ' ') line[len++] = two;
        line[len++] = ']';
        count--;
    }
}

static void measure_strict(const char *what, size_t count) {
    start("<0>1 2026-01-02T03:04:05.678Z h a p m ");
    add_elements(count);
    measure(what, read_strict, KHAMDORIEM_DONE);
    measure("check_claim of that", check_claim, KHAMDORIEM_DONE);
    measure("write_strict of that", write_strict, KHAMDORIEM_DONE);
}

/* The same with a byte behind the elements that is wrong: how far the line is right is found by a second look at it. */
static void measure_broken(const char *what, size_t count) {
    start("<0>1 2026-01-02T03:04:05.678Z h a p m ");
    add_elements(count);
    line[len < KHAMDORIEM_LINE_LIMIT ? len++ : len - 1] = 'x';
    measure(what, read_strict, KHAMDORIEM_NO_READING);
}

/* Two lines with so many parameters each. */
static void measure_compare(const char *what, size_t count) {
    start("<0>1 - - - - - [x");
    for (; count && len + 7 <= KHAMDORIEM_LINE_LIMIT; count--) {
        memcpy(line + len, " a=\"1\"", 6);
        len += 6;
    }
    line[len++] = ']';
    measure(what, compare, KHAMDORIEM_DONE);
}

int main(void) {
    size_t most_but_compare;
    measure("no call: what the end of a thread takes, and so the least that is seen here", no_call, KHAMDORIEM_DONE);
    start("<13>Feb  5 10:01:02 gate7 reader[42]: [a x=\"1\"][a x=\"2\"] tap ok");
    measure("read_loose, RFC 3164", read_loose, KHAMDORIEM_DONE);
    measure("print", print, KHAMDORIEM_DONE);
    measure("lookup", look, KHAMDORIEM_NOT_FOUND);
    start("1 2026-01-02T03:04:05.678Z h a p m ");
    add_elements(2726);
    measure("read_loose, RFC 5424, 8,192 bytes of elements", read_loose, KHAMDORIEM_DONE);
    measure("print of that", print, KHAMDORIEM_DONE);
    measure("settings_write, settings_read, settings_read_1", settings, KHAMDORIEM_DONE);
    measure("read_with_settings of that line", read_with, KHAMDORIEM_DONE);
    start("antenna detuned");
    measure("read_loose, no reading", read_loose, KHAMDORIEM_DONE);
    measure("stream_feed", feed, KHAMDORIEM_DONE);
    measure("tally_add, tally_cell, tally_row, tally_column", tally, KHAMDORIEM_DONE);
    measure_strict("read_strict, 1 element", 1);
    measure_strict("read_strict, 8 elements", 8);
    measure_strict("read_strict, 9 elements", 9);
    measure_strict("read_strict, 64 elements", 64);
    measure_strict("read_strict, 65 elements", 65);
    measure_strict("read_strict, 512 elements", 512);
    measure_strict("read_strict, 513 elements", 513);
    measure_strict("read_strict, 8,192 bytes of elements", 2067);
    measure_broken("read_strict, 8 elements and a byte that is wrong", 8);
    measure_broken("read_strict, 64 elements and a byte that is wrong", 64);
    measure_broken("read_strict, 512 elements and a byte that is wrong", 512);
    measure_broken("read_strict, 8,192 bytes of elements, the last of them wrong", 2067);
    printf("stack: at most %lu bytes, and KHAMDORIEM_STACK is %d\n", (unsigned long)most, KHAMDORIEM_STACK);
    most_but_compare = most;
    measure_compare("compare, no parameters", 0);
    measure_compare("compare, twice 16 parameters", 16);
    measure_compare("compare, twice 200 parameters", 200);
    measure_compare("compare, twice 8,192 bytes of parameters", 2000);
    printf("stack: at most %lu bytes, and KHAMDORIEM_COMPARE_STACK is %d\n", (unsigned long)most, KHAMDORIEM_COMPARE_STACK);
    return most_but_compare <= KHAMDORIEM_STACK && most <= KHAMDORIEM_COMPARE_STACK ? 0 : 1;
}
