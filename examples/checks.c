/* What include/khamdoriem.h says, tried against the archive: examples/run builds this as C99 and as C++11 and runs it.
   Sizes and offsets are compared when it is compiled, the rest when it runs. Its last line has the count. */
#include <stdio.h>
#include <stdlib.h>
#include <string.h>

#include "khamdoriem.h"

/* ---- the memory that the archive expects */

#define SAME(name, is) typedef char name[(is) ? 1 : -1]
SAME(element_size, sizeof(khamdoriem_element) == 2 * 8);
SAME(element_at, offsetof(khamdoriem_element, id_start) == 0 && offsetof(khamdoriem_element, id_len) == 8);
SAME(param_size, sizeof(khamdoriem_param) == 5 * 8);
SAME(param_at, offsetof(khamdoriem_param, element) == 0 && offsetof(khamdoriem_param, name_start) == 8 &&
                   offsetof(khamdoriem_param, name_len) == 16 && offsetof(khamdoriem_param, value_start) == 24 &&
                   offsetof(khamdoriem_param, value_len) == 32);
SAME(read_size, sizeof(struct khamdoriem_read) == 16);
SAME(read_at, offsetof(struct khamdoriem_read, number) == 0 && offsetof(struct khamdoriem_read, whole) == 4 &&
                  offsetof(struct khamdoriem_read, reach) == 8);
SAME(written_size, sizeof(struct khamdoriem_written) == 16);
SAME(written_at, offsetof(struct khamdoriem_written, number) == 0 && offsetof(struct khamdoriem_written, len) == 8);
SAME(stream_size, sizeof(struct khamdoriem_stream) == 12);
SAME(stream_at, offsetof(struct khamdoriem_stream, stage) == 0 && offsetof(struct khamdoriem_stream, left) == 4 &&
                    offsetof(struct khamdoriem_stream, came) == 8);
SAME(started_size, sizeof(struct khamdoriem_started) == 16);
SAME(started_at, offsetof(struct khamdoriem_started, number) == 0 && offsetof(struct khamdoriem_started, state) == 4);
SAME(fed_size, sizeof(struct khamdoriem_fed) == 40);
SAME(fed_at, offsetof(struct khamdoriem_fed, number) == 0 && offsetof(struct khamdoriem_fed, frame) == 4 &&
                 offsetof(struct khamdoriem_fed, taken) == 8 && offsetof(struct khamdoriem_fed, len) == 16 &&
                 offsetof(struct khamdoriem_fed, state) == 24);
SAME(finished_size, sizeof(struct khamdoriem_finished) == 8);
SAME(finished_at,
     offsetof(struct khamdoriem_finished, number) == 0 && offsetof(struct khamdoriem_finished, unfinished) == 4);
SAME(counts_size, sizeof(khamdoriem_counts) == KHAMDORIEM_TALLY_COLUMNS * 4);
SAME(tally_size, sizeof(khamdoriem_counts[KHAMDORIEM_TALLY_ROWS]) == sizeof(uint32_t[25][9]));
SAME(tally_none, KHAMDORIEM_TALLY_NO_FACILITY == KHAMDORIEM_TALLY_ROWS - 1 &&
                     KHAMDORIEM_TALLY_NO_SEVERITY == KHAMDORIEM_TALLY_COLUMNS - 1);
SAME(cell_size, sizeof(struct khamdoriem_cell) == 8);
SAME(cell_at, offsetof(struct khamdoriem_cell, number) == 0 && offsetof(struct khamdoriem_cell, count) == 4);
SAME(sum_size, sizeof(struct khamdoriem_sum) == 16);
SAME(sum_at, offsetof(struct khamdoriem_sum, number) == 0 && offsetof(struct khamdoriem_sum, sum) == 8);
SAME(settings_size, sizeof(struct khamdoriem_settings) == 40);
SAME(settings_at,
     offsetof(struct khamdoriem_settings, number) == 0 && offsetof(struct khamdoriem_settings, version) == 4 &&
         offsetof(struct khamdoriem_settings, gate) == 8 && offsetof(struct khamdoriem_settings, year) == 12 &&
         offsetof(struct khamdoriem_settings, offset) == 16 && offsetof(struct khamdoriem_settings, variant) == 20 &&
         offsetof(struct khamdoriem_settings, host_start) == 24 && offsetof(struct khamdoriem_settings, host_len) == 32);
SAME(site_size, sizeof(struct khamdoriem_site) == 24);
SAME(site_at, offsetof(struct khamdoriem_site, number) == 0 && offsetof(struct khamdoriem_site, holder) == 4 &&
                  offsetof(struct khamdoriem_site, host_start) == 8 && offsetof(struct khamdoriem_site, host_len) == 16);
SAME(part_size, sizeof(struct khamdoriem_part) == 3 * 8);
SAME(part_at, offsetof(struct khamdoriem_part, present) == 0 && offsetof(struct khamdoriem_part, start) == 8 &&
                  offsetof(struct khamdoriem_part, len) == 16);
SAME(fields_size, sizeof(struct khamdoriem_fields) == 168);
SAME(fields_numbers_at,
     offsetof(struct khamdoriem_fields, priority) == 0 && offsetof(struct khamdoriem_fields, version) == 4 &&
         offsetof(struct khamdoriem_fields, seconds) == 8 && offsetof(struct khamdoriem_fields, stamped) == 16 &&
         offsetof(struct khamdoriem_fields, nanos) == 20 && offsetof(struct khamdoriem_fields, digits) == 24 &&
         offsetof(struct khamdoriem_fields, offset) == 28);
SAME(fields_texts_at,
     offsetof(struct khamdoriem_fields, host) == 32 && offsetof(struct khamdoriem_fields, app) == 56 &&
         offsetof(struct khamdoriem_fields, procid) == 80 && offsetof(struct khamdoriem_fields, msgid) == 104 &&
         offsetof(struct khamdoriem_fields, message) == 128);
SAME(fields_counts_at, offsetof(struct khamdoriem_fields, element_count) == 152 &&
                           offsetof(struct khamdoriem_fields, param_count) == 160);
SAME(compared_size, sizeof(struct khamdoriem_compared) == 32);
SAME(compared_at,
     offsetof(struct khamdoriem_compared, number) == 0 && offsetof(struct khamdoriem_compared, line) == 4 &&
         offsetof(struct khamdoriem_compared, fields) == 8 && offsetof(struct khamdoriem_compared, pair_line) == 12 &&
         offsetof(struct khamdoriem_compared, position) == 16 && offsetof(struct khamdoriem_compared, pair_entry) == 24);
SAME(frame_is_line, KHAMDORIEM_STREAM_BUFFER == KHAMDORIEM_LINE_LIMIT);
SAME(record_ends, KHAMDORIEM_RECORD == KHAMDORIEM_AT_PARAMS + 8 && KHAMDORIEM_RECORD == KHAMDORIEM_AT_TIMESTAMP_TEXT);
SAME(strict_ends, KHAMDORIEM_STRICT_RECORD == KHAMDORIEM_AT_HAS_MESSAGE + 8);
SAME(elements_for, KHAMDORIEM_ELEMENTS_ENOUGH == KHAMDORIEM_ELEMENTS_FOR(KHAMDORIEM_LINE_LIMIT));
SAME(params_for, KHAMDORIEM_PARAMS_ENOUGH == KHAMDORIEM_PARAMS_FOR(KHAMDORIEM_LINE_LIMIT));
SAME(output_for, KHAMDORIEM_OUTPUT_ENOUGH == KHAMDORIEM_OUTPUT_FOR(KHAMDORIEM_LINE_LIMIT));
SAME(value_for, KHAMDORIEM_VALUE_ENOUGH == KHAMDORIEM_VALUE_FOR(KHAMDORIEM_LINE_LIMIT));

static unsigned long passed, failed;

static void check(int is, int at, const char *what) {
    if (is) {
        passed++;
        return;
    }
    failed++;
    fprintf(stderr, "checks: line %d: not so: %s\n", at, what);
}

#define CHECK(is) check(!!(is), __LINE__, #is)

/* ---- one line, one record, one pair of tables, one output; each with a part behind it that is not lent */

enum { SPARE = 3 };
static uint8_t line[KHAMDORIEM_LINE_LIMIT + 2];
static size_t len;
static uint8_t record[KHAMDORIEM_STRICT_RECORD + SPARE];
static khamdoriem_element elements[KHAMDORIEM_ELEMENTS_ENOUGH + SPARE];
static khamdoriem_param params[KHAMDORIEM_PARAMS_ENOUGH + SPARE];
static uint8_t output[KHAMDORIEM_OUTPUT_ENOUGH + SPARE];

static void start(const char *text) {
    len = strlen(text);
    memcpy(line, text, len);
}

static void add(const char *text, size_t times) {
    for (; times; times--) {
        memcpy(line + len, text, strlen(text));
        len += strlen(text);
    }
}

static struct khamdoriem_read loose_into(uint32_t variant, size_t e, size_t p) {
    return khamdoriem_read_loose(line, len, variant, 2026, 60, elements, e, params, p, record, KHAMDORIEM_RECORD);
}

static struct khamdoriem_read loose(void) {
    return loose_into(KHAMDORIEM_VARIANT_EITHER, KHAMDORIEM_ELEMENTS_ENOUGH, KHAMDORIEM_PARAMS_ENOUGH);
}

static struct khamdoriem_read strict_into(size_t e, size_t p) {
    return khamdoriem_read_strict(line, len, elements, e, params, p, record, KHAMDORIEM_STRICT_RECORD);
}

static struct khamdoriem_read strict(void) {
    return strict_into(KHAMDORIEM_ELEMENTS_ENOUGH, KHAMDORIEM_PARAMS_ENOUGH);
}

static struct khamdoriem_written print_into(size_t room) {
    return khamdoriem_print(line, len, record, KHAMDORIEM_RECORD, elements, khamdoriem_element_count(record), params,
                            khamdoriem_param_count(record), output, room);
}

static struct khamdoriem_written look(const char *id, const char *name, uint32_t kind, size_t room) {
    return khamdoriem_lookup(line, len, record, KHAMDORIEM_RECORD, elements, khamdoriem_element_count(record), params,
                             khamdoriem_param_count(record), (const uint8_t *)id, strlen(id), (const uint8_t *)name,
                             strlen(name), kind, output, room);
}

static int same(const uint8_t *text, size_t n, const char *expected) {
    return text && n == strlen(expected) && !memcmp(text, expected, n);
}

static int absent(const uint8_t *text, size_t n) { return !text && n == 0; }

/* All that a reader may write, at one value. */
static void fill(uint8_t value) {
    memset(record, value, sizeof record);
    memset(elements, value, sizeof elements);
    memset(params, value, sizeof params);
    memset(output, value, sizeof output);
}

static int all(const void *memory, size_t from, size_t to, uint8_t value) {
    const uint8_t *byte = (const uint8_t *)memory;
    for (; from < to; from++)
        if (byte[from] != value) return 0;
    return 1;
}

static int filled(uint8_t value) {
    return all(record, 0, sizeof record, value) && all(elements, 0, sizeof elements, value) &&
           all(params, 0, sizeof params, value) && all(output, 0, sizeof output, value);
}

/* ---- the record, field by field */

static void check_strict_fields(void) {
    struct khamdoriem_instant t = {0, 0, 0, 0};
    size_t n;
    const uint8_t *text;
    start("<165>1 2003-08-24T05:14:15.000003-07:00 192.0.2.1 myproc 8710 ID47 [a@1 x=\"1\" y=\"q\\\"\"][b] hello");
    fill(0xA5);
    CHECK(strict().number == KHAMDORIEM_DONE);
    CHECK(khamdoriem_protocol(record) == KHAMDORIEM_PROTOCOL_RFC5424 && khamdoriem_version(record) == 1);
    CHECK(khamdoriem_facility(record) == 20 && khamdoriem_severity(record) == 5);
    CHECK(khamdoriem_timestamp(record, &t) == 1);
    /* 2003-08-24T12:14:15Z */
    CHECK(t.seconds == 1061727255 && t.nanoseconds == 3000 && t.digits == 6 && t.offset == -420);
    text = khamdoriem_host(line, record, &n), CHECK(same(text, n, "192.0.2.1"));
    text = khamdoriem_app_name(line, record, &n), CHECK(same(text, n, "myproc"));
    text = khamdoriem_process_id(line, record, &n), CHECK(same(text, n, "8710"));
    text = khamdoriem_message_id(line, record, &n), CHECK(same(text, n, "ID47"));
    text = khamdoriem_message(line, record, &n), CHECK(same(text, n, "hello"));
    text = khamdoriem_timestamp_text(line, record, &n), CHECK(same(text, n, "2003-08-24T05:14:15.000003-07:00"));
    CHECK(khamdoriem_has_message(record) == 1);
    CHECK(khamdoriem_element_count(record) == 2 && khamdoriem_param_count(record) == 2);
    text = khamdoriem_id(line, &elements[0], &n), CHECK(same(text, n, "a@1"));
    text = khamdoriem_id(line, &elements[1], &n), CHECK(same(text, n, "b"));
    CHECK(params[0].element == 0 && params[1].element == 0);
    text = khamdoriem_name(line, &params[1], &n), CHECK(same(text, n, "y"));
    text = khamdoriem_value(line, &params[1], &n), CHECK(same(text, n, "q\\\""));
    CHECK(khamdoriem_unescape(line, len, &params[1], KHAMDORIEM_KIND_STRICT, output, 2).len == 2);
    CHECK(same(output, 2, "q\""));
    /* nothing past the results */
    CHECK(all(record, KHAMDORIEM_STRICT_RECORD, sizeof record, 0xA5));
    CHECK(all(elements, 2 * sizeof *elements, sizeof elements, 0xA5));
    CHECK(all(params, 2 * sizeof *params, sizeof params, 0xA5) && all(output, 2, sizeof output, 0xA5));
}

static void check_absent_fields(void) {
    struct khamdoriem_instant t = {7, 7, 7, 7};
    size_t n;
    const uint8_t *text;
    start("<0>1 - - - - - -");
    CHECK(strict().number == KHAMDORIEM_DONE);
    CHECK(khamdoriem_timestamp(record, &t) == 0 && t.seconds == 7 && t.offset == 7);
    text = khamdoriem_host(line, record, &n), CHECK(absent(text, n));
    text = khamdoriem_app_name(line, record, &n), CHECK(absent(text, n));
    text = khamdoriem_process_id(line, record, &n), CHECK(absent(text, n));
    text = khamdoriem_message_id(line, record, &n), CHECK(absent(text, n));
    text = khamdoriem_timestamp_text(line, record, &n), CHECK(absent(text, n));
    text = khamdoriem_message(line, record, &n), CHECK(text && n == 0);
    CHECK(khamdoriem_has_message(record) == 0);
    add(" ", 1);
    CHECK(strict().number == KHAMDORIEM_DONE && khamdoriem_has_message(record) == 1);
}

static void check_loose_fields(void) {
    struct khamdoriem_instant t = {0, 0, 0, 0};
    struct khamdoriem_read answer;
    size_t n;
    const uint8_t *text;
    /* RFC 3164, and an empty app name, which is not an absent one */
    start("Dec 31 23:59:59 [1]: m");
    answer = loose();
    CHECK(answer.number == KHAMDORIEM_DONE && answer.whole == 0 && answer.reach == 0);
    CHECK(khamdoriem_protocol(record) == KHAMDORIEM_PROTOCOL_RFC3164 && khamdoriem_version(record) == 0);
    CHECK(khamdoriem_facility(record) == -1 && khamdoriem_severity(record) == -1);
    CHECK(khamdoriem_timestamp(record, &t) == 1);
    /* 2026-12-31T22:59:59Z: the year and the offset of the settings, which is east of Greenwich */
    CHECK(t.seconds == 1798757999 && t.nanoseconds == 0 && t.digits == 0 && t.offset == 60);
    text = khamdoriem_app_name(line, record, &n), CHECK(text && n == 0);
    text = khamdoriem_process_id(line, record, &n), CHECK(same(text, n, "1"));
    text = khamdoriem_message(line, record, &n), CHECK(same(text, n, "m"));
    /* before 1970 */
    start("<14>1 1969-12-31T23:59:59.25Z h a p m - x");
    CHECK(loose().number == KHAMDORIEM_DONE && khamdoriem_timestamp(record, &t) == 1);
    CHECK(t.seconds == -1 && t.nanoseconds == 250000000 && t.digits == 2 && t.offset == 0);
    CHECK(khamdoriem_facility(record) == 1 && khamdoriem_severity(record) == 6);
    /* no reading: the whole line is the message */
    start(" antenna detuned ");
    answer = loose();
    CHECK(answer.number == KHAMDORIEM_DONE && answer.whole == 1);
    text = khamdoriem_message(line, record, &n), CHECK(same(text, n, " antenna detuned "));
}

/* The variants: which of them reads which line. */
static void check_variants(void) {
    const char *lines[] = {"Feb 5 10:01:02 h t: m", "1 - h a p m - x"};
    uint32_t variant;
    int i;
    for (i = 0; i < 2; i++)
        for (variant = 0; variant < 3; variant++) {
            int reads = variant == KHAMDORIEM_VARIANT_EITHER ||
                        variant == (i ? KHAMDORIEM_VARIANT_RFC5424 : KHAMDORIEM_VARIANT_RFC3164);
            struct khamdoriem_read answer;
            start(lines[i]);
            answer = loose_into(variant, 1, 1);
            CHECK(answer.number == KHAMDORIEM_DONE && answer.whole == !reads);
        }
}

/* ---- refusals, each with memory that stays as it was */

static uint32_t set(uint32_t variant, uint32_t year, int32_t offset) {
    return khamdoriem_read_loose(line, len, variant, year, offset, elements, 1, params, 1, record, KHAMDORIEM_RECORD)
        .number;
}

static void check_refused_readings(void) {
    fill(0x5A);
    start("x");
    CHECK(set(3, 2026, 0) == KHAMDORIEM_BAD_SETTING);
    CHECK(set(0, KHAMDORIEM_LAST_YEAR + 1, 0) == KHAMDORIEM_BAD_SETTING);
    CHECK(set(0, 2026, KHAMDORIEM_LAST_OFFSET + 1) == KHAMDORIEM_BAD_SETTING);
    CHECK(set(0, 2026, -KHAMDORIEM_LAST_OFFSET - 1) == KHAMDORIEM_BAD_SETTING);
    CHECK(strict().number == KHAMDORIEM_NO_READING);
    start("\xFF");
    CHECK(loose().number == KHAMDORIEM_NOT_UTF8);
    start("");
    add("x", KHAMDORIEM_LINE_LIMIT + 1);
    CHECK(loose().number == KHAMDORIEM_LINE_TOO_LONG && strict().number == KHAMDORIEM_LINE_TOO_LONG);
    CHECK(filled(0x5A));
    len--;
    CHECK(loose().number == KHAMDORIEM_DONE);
    CHECK(set(0, KHAMDORIEM_LAST_YEAR, KHAMDORIEM_LAST_OFFSET) == KHAMDORIEM_DONE);
    CHECK(set(2, 0, -KHAMDORIEM_LAST_OFFSET) == KHAMDORIEM_DONE);
}

/* Tables of no entries, at any address that is not null; records that are a byte short. */
/* A line that the strict reader refuses with 4, and how far it is right. */
static int right_to(const char *text, size_t reach) {
    struct khamdoriem_read answer;
    start(text);
    answer = strict();
    return answer.number == KHAMDORIEM_NO_READING && answer.whole == 0 && answer.reach == reach;
}

static void check_reach(void) {
    const char *whole = "<13>1 2024-02-29T10:01:02.5Z h a p m [t@32473 ms=\"212\"] \xEF\xBB\xBFT\xC3\xBCr";
    struct khamdoriem_read answer;
    fill(0x5A);
    CHECK(right_to("<13>1 2023-02-29T10:01:02Z h a p m - x", 15)); /* up to and with the 2 of the day */
    CHECK(right_to("<13>1 2024-02-30T10:01:02Z h a p m - x", 14));
    CHECK(right_to("<192>1 - h a p m - x", 3));
    CHECK(right_to("<13>1 - h a p m [id a=\"x]y\"]", 24));
    CHECK(right_to("<13>1 - h a p m [id][id] x", 23)); /* the id could be longer */
    CHECK(right_to("<13>1 - h a p m [id a=\"\xC3x\"] x", 24));
    CHECK(right_to("tap ok", 0));
    CHECK(right_to("", 0));
    /* a line cut short is right to its end */
    CHECK(right_to("<13>1 2023-02-2", 15));
    CHECK(right_to("<13>1 - h a p m [id a=\"x\\", 25));
    start("<13>1 - h a p m [id a=\"");
    add("x", KHAMDORIEM_LINE_LIMIT - len);
    answer = strict();
    CHECK(answer.number == KHAMDORIEM_NO_READING && answer.reach == KHAMDORIEM_LINE_LIMIT);
    CHECK(strict_into(0, 0).reach == KHAMDORIEM_LINE_LIMIT);
    CHECK(filled(0x5A));
    /* the others have none */
    add("x", 1);
    CHECK(strict().number == KHAMDORIEM_LINE_TOO_LONG && strict().reach == 0);
    start(whole);
    CHECK(strict().number == KHAMDORIEM_DONE && strict().reach == 0);
    CHECK(strict_into(0, 1).number == KHAMDORIEM_TOO_MANY_ELEMENTS && strict_into(0, 1).reach == 0);
    CHECK(strict_into(1, 0).number == KHAMDORIEM_TOO_MANY_PARAMS && strict_into(1, 0).reach == 0);
    answer = khamdoriem_read_strict(line, len, elements, 1, params, 1, record, KHAMDORIEM_STRICT_RECORD - 1);
    CHECK(answer.number == KHAMDORIEM_OUTPUT_SHORT && answer.reach == 0);
    /* each of its beginnings is read, or right to its end */
    for (len = strlen(whole); len--;) {
        answer = strict();
        CHECK(answer.number == KHAMDORIEM_DONE ? answer.reach == 0 : answer.reach == len);
    }
    start("tap ok");
    CHECK(loose().whole == 1 && loose().reach == 0);
}

static void check_no_room(void) {
    uint8_t nothing = 0x5A;
    khamdoriem_element *no_elements = elements + KHAMDORIEM_ELEMENTS_ENOUGH + SPARE;
    khamdoriem_param *no_params = params + KHAMDORIEM_PARAMS_ENOUGH + SPARE;
    fill(0x5A);
    start("<0>1 - h a p m [a x=\"1\"][b] m");
    CHECK(loose_into(0, 0, 0).number == KHAMDORIEM_TOO_MANY_ELEMENTS);
    CHECK(loose_into(0, 1, 9).number == KHAMDORIEM_TOO_MANY_ELEMENTS);
    CHECK(loose_into(0, 2, 0).number == KHAMDORIEM_TOO_MANY_PARAMS);
    CHECK(strict_into(0, 0).number == KHAMDORIEM_TOO_MANY_ELEMENTS);
    CHECK(strict_into(2, 0).number == KHAMDORIEM_TOO_MANY_PARAMS);
    CHECK(khamdoriem_read_loose(line, len, 0, 2026, 0, elements, 2, params, 1, record, KHAMDORIEM_RECORD - 1).number ==
          KHAMDORIEM_OUTPUT_SHORT);
    CHECK(khamdoriem_read_strict(line, len, elements, 2, params, 1, record, KHAMDORIEM_STRICT_RECORD - 1).number ==
          KHAMDORIEM_OUTPUT_SHORT);
    CHECK(filled(0x5A));
    CHECK(loose_into(0, 2, 1).number == KHAMDORIEM_DONE && strict_into(2, 1).number == KHAMDORIEM_DONE);
    start("<0>1 - h a p m - m");
    CHECK(khamdoriem_read_loose(line, len, 0, 2026, 0, no_elements, 0, no_params, 0, record, KHAMDORIEM_RECORD)
              .number == KHAMDORIEM_DONE);
    CHECK(khamdoriem_read_strict(line, len, no_elements, 0, no_params, 0, record, KHAMDORIEM_STRICT_RECORD).number ==
          KHAMDORIEM_DONE);
    CHECK(khamdoriem_print(line, len, record, KHAMDORIEM_RECORD, no_elements, 0, no_params, 0, &nothing, 0).number ==
          KHAMDORIEM_OUTPUT_SHORT);
    CHECK(khamdoriem_lookup(line, len, record, KHAMDORIEM_RECORD, no_elements, 0, no_params, 0, &nothing, 0, &nothing,
                            0, 0, output, 0)
              .number == KHAMDORIEM_NOT_FOUND);
    /* the empty line */
    CHECK(khamdoriem_read_loose(&nothing, 0, 0, 2026, 0, no_elements, 0, no_params, 0, record, KHAMDORIEM_RECORD)
              .whole == 1);
    CHECK(nothing == 0x5A);
}

static void check_output(void) {
    size_t n;
    start("<13>Feb  5 10:01:02 gate7 reader[42]: [a x=\"1\\n\"][a x=\"2\"] tap ok");
    CHECK(loose().number == KHAMDORIEM_DONE);
    n = print_into(sizeof output).len;
    CHECK(same(output, n, "<13> 2026-02-05T10:01:02+01:00 gate7 reader[42]: [a x=\"1\\n\"][a x=\"2\"] tap ok"));
    CHECK(print_into(n).number == KHAMDORIEM_DONE);
    memset(output, 0x5A, sizeof output);
    CHECK(print_into(n - 1).number == KHAMDORIEM_OUTPUT_SHORT && print_into(n - 1).len == 0);
    CHECK(look("a", "x", KHAMDORIEM_KIND_LOOSE, 1).number == KHAMDORIEM_OUTPUT_SHORT);
    CHECK(look("a", "x", 2, 9).number == KHAMDORIEM_BAD_SETTING);
    CHECK(look("a", "y", KHAMDORIEM_KIND_LOOSE, 9).number == KHAMDORIEM_NOT_FOUND);
    CHECK(all(output, 0, sizeof output, 0x5A));
    CHECK(look("a", "x", KHAMDORIEM_KIND_LOOSE, 9).len == 2 && same(output, 2, "1\n"));
    CHECK(look("a", "x", KHAMDORIEM_KIND_STRICT, 9).len == 3 && same(output, 3, "1\\n"));
    /* the second element of that id, which lookup does not reach */
    CHECK(khamdoriem_unescape(line, len, &params[1], KHAMDORIEM_KIND_LOOSE, output, 9).len == 1 && output[0] == '2');
    /* id and name may be parts of the line */
    CHECK(khamdoriem_lookup(line, len, record, KHAMDORIEM_RECORD, elements, 2, params, 2, line + elements[0].id_start,
                            elements[0].id_len, line + params[0].name_start, params[0].name_len, 0, output, 9)
              .len == 2);
}

/* Bytes anywhere: line, record and output at odd addresses. */
static void check_alignment(void) {
    size_t n;
    start("!<0>1 2026-01-02T03:04:05Z h a p m - x");
    CHECK(khamdoriem_read_strict(line + 1, len - 1, elements, 0, params, 0, record + 1, KHAMDORIEM_STRICT_RECORD)
              .number == KHAMDORIEM_DONE);
    n = khamdoriem_print(line + 1, len - 1, record + 1, KHAMDORIEM_RECORD, elements, 0, params, 0, output + 1,
                         sizeof output - 1)
            .len;
    CHECK(same(output + 1, n, "<0>1 2026-01-02T03:04:05+00:00 h a p m - x"));
}

/* ---- what suits */

static void put_word(size_t at, uint64_t word) { memcpy(record + at, &word, sizeof word); }

/* What print answers with one word of the record changed. */
static uint32_t with_word(size_t at, uint64_t word) {
    uint64_t kept = khamdoriem_word(record, at);
    uint32_t number;
    put_word(at, word);
    number =
        khamdoriem_print(line, len, record, KHAMDORIEM_RECORD, elements, 2, params, 2, output, sizeof output).number;
    put_word(at, kept);
    return number;
}

#define SUITS(at, word) CHECK(with_word(at, (uint64_t)(word)) == KHAMDORIEM_DONE)
#define SUITS_NOT(at, word) CHECK(with_word(at, (uint64_t)(word)) == KHAMDORIEM_UNSUITABLE)

static void check_suits_record(void) {
    start("<0>1 2026-01-02T03:04:05.5Z h a p m [a x=\"1\"][b y=\"2\"] m");
    CHECK(strict().number == KHAMDORIEM_DONE);
    SUITS(KHAMDORIEM_AT_HOST + 16, len - khamdoriem_word(record, KHAMDORIEM_AT_HOST + 8));
    SUITS_NOT(KHAMDORIEM_AT_HOST + 16, len + 1 - khamdoriem_word(record, KHAMDORIEM_AT_HOST + 8));
    SUITS_NOT(KHAMDORIEM_AT_APP_NAME + 8, len);
    SUITS_NOT(KHAMDORIEM_AT_PROCESS_ID + 8, UINT64_MAX);
    SUITS_NOT(KHAMDORIEM_AT_MESSAGE_ID + 16, len);
    SUITS_NOT(KHAMDORIEM_AT_MESSAGE + 8, 2);
    SUITS(KHAMDORIEM_AT_FACILITY + 8, 23);
    SUITS_NOT(KHAMDORIEM_AT_FACILITY + 8, 24);
    SUITS(KHAMDORIEM_AT_SEVERITY + 8, 7);
    SUITS_NOT(KHAMDORIEM_AT_SEVERITY + 8, 8);
    SUITS_NOT(KHAMDORIEM_AT_NANOSECONDS, 1000000000);
    SUITS_NOT(KHAMDORIEM_AT_NANOSECONDS, 510000000);
    SUITS(KHAMDORIEM_AT_DIGITS, 9);
    SUITS_NOT(KHAMDORIEM_AT_DIGITS, 10);
    SUITS_NOT(KHAMDORIEM_AT_DIGITS, 0);
    SUITS(KHAMDORIEM_AT_OFFSET, 1439);
    SUITS_NOT(KHAMDORIEM_AT_OFFSET, 1440);
    SUITS_NOT(KHAMDORIEM_AT_OFFSET, -1440);
    SUITS(KHAMDORIEM_AT_SECONDS, INT64_C(253402300799));  /* 9999-12-31T23:59:59Z */
    SUITS_NOT(KHAMDORIEM_AT_SECONDS, INT64_C(253402300800));
    SUITS(KHAMDORIEM_AT_SECONDS, INT64_C(-62167219200));  /* 0000-01-01T00:00:00Z */
    SUITS_NOT(KHAMDORIEM_AT_SECONDS, INT64_C(-62167219201));
    SUITS_NOT(KHAMDORIEM_AT_PROTOCOL, 2);
    SUITS_NOT(KHAMDORIEM_AT_ELEMENTS, 3);
    SUITS_NOT(KHAMDORIEM_AT_PARAMS, 3);
    SUITS_NOT(KHAMDORIEM_AT_ELEMENTS, 1); /* then the second parameter is of no element */
}

static void check_suits_tables(void) {
    size_t n;
    CHECK(print_into(sizeof output).number == KHAMDORIEM_DONE);
    n = elements[1].id_len, elements[1].id_len = len, CHECK(print_into(sizeof output).number == KHAMDORIEM_UNSUITABLE);
    elements[1].id_len = n;
    n = params[1].name_len, params[1].name_len = len, CHECK(print_into(sizeof output).number == KHAMDORIEM_UNSUITABLE);
    params[1].name_len = n;
    n = params[1].value_start, params[1].value_start = len;
    CHECK(print_into(sizeof output).number == KHAMDORIEM_UNSUITABLE);
    params[1].value_start = n;
    params[0].element = 1, params[1].element = 0;
    CHECK(print_into(sizeof output).number == KHAMDORIEM_UNSUITABLE);
    params[1].element = 1;
    CHECK(print_into(sizeof output).number == KHAMDORIEM_DONE);
}

/* ---- what is always enough: the worst lines there are */

static void check_elements_enough(void) {
    size_t i, k = 0;
    char id[4] = "[..";
    start("1 - h a p m ");
    add("[x]", 2726);
    CHECK(len == 8190 && loose().number == KHAMDORIEM_DONE && khamdoriem_element_count(record) == 2726);
    CHECK(loose_into(0, 2725, 0).number == KHAMDORIEM_TOO_MANY_ELEMENTS);
    /* the strict reader wants ids that differ: all of one byte, then of two */
    start("<0>1 - - - - - ");
    for (i = 0; i < 94 * 95 && k < 2067; i++) {
        char one = (char)(33 + i % 94), two = (char)(32 + i / 94);
        if (strchr("=]\"", one) || strchr("=]\"", two)) continue;
        id[1] = one, id[2] = two == ' ' ? '\0' : two;
        add(id, 1), add("]", 1), k++;
    }
    CHECK(len == 8192 && strict().number == KHAMDORIEM_DONE && khamdoriem_element_count(record) == 2067);
    CHECK(strict_into(2066, 0).number == KHAMDORIEM_TOO_MANY_ELEMENTS);
}

static void check_params_enough(void) {
    start("-[x\v=\"\"");
    add(" a=\"\"", 1636), add("]", 1);
    CHECK(len == 8188 && loose().number == KHAMDORIEM_DONE && khamdoriem_param_count(record) == 1637);
    CHECK(loose_into(0, 1, 1636).number == KHAMDORIEM_TOO_MANY_PARAMS);
    start("<0>1 - - - - - [x");
    add(" a=\"\"", 1634), add("]", 1);
    CHECK(len == 8188 && strict().number == KHAMDORIEM_DONE && khamdoriem_param_count(record) == 1634);
}

static void check_output_enough(void) {
    start("Feb 5 1:2:3");
    add("[x\v=\"\"]", 1168), add("x", 5);
    CHECK(len == 8192 && loose().number == KHAMDORIEM_DONE && khamdoriem_element_count(record) == 1168);
    CHECK(print_into(KHAMDORIEM_OUTPUT_ENOUGH).len == 9385);
    CHECK(print_into(9384).number == KHAMDORIEM_OUTPUT_SHORT);
    start("");
    add("x", 8192);
    CHECK(loose().whole == 1 && print_into(KHAMDORIEM_OUTPUT_ENOUGH).len == 8203);
    start("-[x\v=\"");
    add("x", 8184), add("\"]", 1);
    CHECK(len == 8192 && loose().number == KHAMDORIEM_DONE);
    CHECK(look("x", "\v", KHAMDORIEM_KIND_LOOSE, KHAMDORIEM_VALUE_ENOUGH).len == 8184);
}

/* ---- streams: the lines' memory has the stream, the output the buffer */

static struct khamdoriem_stream state;

static void begin(uint32_t kind) { state = khamdoriem_stream_start(kind).state; }

/* Feeds the bytes of the stream from a place to another, with a buffer of so many bytes. */
static struct khamdoriem_fed feed_into(size_t from, size_t to, size_t room) {
    struct khamdoriem_fed fed = khamdoriem_stream_feed(state, line + from, to - from, output, room);
    state = fed.state;
    return fed;
}

static struct khamdoriem_fed feed(size_t from, size_t to) { return feed_into(from, to, KHAMDORIEM_STREAM_BUFFER); }

/* 0 and no frame; a frame; a refusal: each with the bytes that it took. */
static int more(struct khamdoriem_fed fed, size_t taken) {
    return fed.number == KHAMDORIEM_DONE && fed.frame == 0 && fed.taken == taken && fed.len == 0;
}

static int framed(struct khamdoriem_fed fed, size_t taken, const char *frame) {
    return fed.number == KHAMDORIEM_DONE && fed.frame == 1 && fed.taken == taken && same(output, fed.len, frame);
}

static int refused(struct khamdoriem_fed fed, uint32_t number, size_t taken) {
    return fed.number == number && fed.frame == 0 && fed.taken == taken && fed.len == 0;
}

static int stands(uint32_t stage, uint32_t left, uint32_t came) {
    return state.stage == stage && state.left == left && state.came == came;
}

static uint32_t unfinished(void) { return khamdoriem_stream_finish(state).unfinished; }

static void check_stream_kinds(void) {
    struct khamdoriem_started answer = khamdoriem_stream_start(KHAMDORIEM_STREAM_COUNTED);
    CHECK(answer.number == KHAMDORIEM_DONE && answer.state.stage == 1 && !answer.state.left && !answer.state.came);
    answer = khamdoriem_stream_start(KHAMDORIEM_STREAM_LINES);
    CHECK(answer.number == KHAMDORIEM_DONE && answer.state.stage == 3 && !answer.state.left && !answer.state.came);
    answer = khamdoriem_stream_start(2);
    CHECK(answer.number == KHAMDORIEM_BAD_SETTING && !answer.state.stage && !answer.state.left && !answer.state.came);
    CHECK(khamdoriem_stream_start(UINT32_MAX).number == KHAMDORIEM_BAD_SETTING);
    state = answer.state;
    CHECK(khamdoriem_stream_finish(state).number == KHAMDORIEM_BAD_SETTING && unfinished() == 0);
}

static void check_counted_stream(void) {
    fill(0xA5);
    start("3 abc10 0123456789");
    begin(KHAMDORIEM_STREAM_COUNTED);
    CHECK(more(feed(0, 0), 0) && stands(1, 0, 0) && unfinished() == 0);
    CHECK(framed(feed(0, len), 5, "abc") && stands(1, 0, 0));
    CHECK(more(feed(5, 7), 2) && stands(1, 10, 0) && unfinished() == 0);
    CHECK(more(feed(7, 10), 3) && stands(2, 8, 2) && unfinished() == 2);
    CHECK(framed(feed(10, len), 8, "0123456789") && stands(1, 0, 0));
    CHECK(all(output, 10, sizeof output, 0xA5));
    /* a bad count: each byte after it gives 11 and changes nothing, until a restart */
    start("12x4 same");
    CHECK(refused(feed(0, len), KHAMDORIEM_BAD_COUNT, 3) && stands(4, 0, 0) && unfinished() == 0);
    CHECK(refused(feed(3, len), KHAMDORIEM_BAD_COUNT, 1) && stands(4, 0, 0));
    CHECK(more(feed(3, 3), 0) && stands(4, 0, 0));
    CHECK(same(output, 10, "0123456789") && all(output, 10, sizeof output, 0xA5));
    begin(KHAMDORIEM_STREAM_COUNTED);
    CHECK(framed(feed(3, len), 6, "same"));
    /* what is no count: a first byte but 1 to 9, another byte than a space, a seventh digit */
    start("0 : /1:1234567");
    begin(KHAMDORIEM_STREAM_COUNTED), CHECK(refused(feed(0, 1), KHAMDORIEM_BAD_COUNT, 1));
    begin(KHAMDORIEM_STREAM_COUNTED), CHECK(refused(feed(1, len), KHAMDORIEM_BAD_COUNT, 1));
    begin(KHAMDORIEM_STREAM_COUNTED), CHECK(refused(feed(2, len), KHAMDORIEM_BAD_COUNT, 1));
    begin(KHAMDORIEM_STREAM_COUNTED), CHECK(refused(feed(5, len), KHAMDORIEM_BAD_COUNT, 2));
    begin(KHAMDORIEM_STREAM_COUNTED), CHECK(more(feed(7, len - 1), 6) && stands(1, 123456, 0));
    CHECK(refused(feed(len - 1, len), KHAMDORIEM_BAD_COUNT, 1));
}

static void check_lines_stream(void) {
    fill(0xA5);
    start("ab\n\nc\r\nd");
    begin(KHAMDORIEM_STREAM_LINES);
    CHECK(framed(feed(0, len), 3, "ab") && stands(3, 0, 0));
    CHECK(framed(feed(3, len), 1, ""));
    CHECK(framed(feed(4, len), 3, "c\r"));
    CHECK(more(feed(7, len), 1) && stands(3, 0, 1) && unfinished() == 1);
    CHECK(output[0] == 'd' && output[1] == '\r' && all(output, 2, sizeof output, 0xA5));
}

static void check_long_frames(void) {
    size_t i;
    fill(0xA5);
    start("");
    for (i = 0; i < KHAMDORIEM_LINE_LIMIT; i++) line[len++] = (uint8_t)('a' + i % 26);
    begin(KHAMDORIEM_STREAM_LINES);
    CHECK(more(feed(0, len), len));
    line[0] = '\n';
    CHECK(feed(0, 1).len == KHAMDORIEM_LINE_LIMIT && output[0] == 'a' && !memcmp(output + 1, line + 1, len - 1));
    line[0] = 'a';
    add("x\n", 1);
    CHECK(refused(feed(0, len), KHAMDORIEM_FRAME_TOO_LONG, len) && stands(3, 0, 0));
    CHECK(!memcmp(output, line, KHAMDORIEM_LINE_LIMIT) && all(output, KHAMDORIEM_LINE_LIMIT, sizeof output, 0xA5));
    /* a counted frame of 999,999 bytes, of which 8,192 come and then all others but the last */
    state.stage = 2, state.left = 999999, state.came = 0;
    CHECK(more(feed(0, KHAMDORIEM_LINE_LIMIT), KHAMDORIEM_LINE_LIMIT) && stands(2, 991807, 8192));
    state.left = 1, state.came = 999998;
    CHECK(unfinished() == 999998 && refused(feed(0, 2), KHAMDORIEM_FRAME_TOO_LONG, 1) && stands(1, 0, 0));
    /* the number of content bytes stops at the greatest there is */
    state.stage = 3, state.came = KHAMDORIEM_UNFINISHED_MOST - 1;
    CHECK(more(feed(0, 1), 1) && unfinished() == KHAMDORIEM_UNFINISHED_MOST);
    CHECK(more(feed(0, 9), 9) && unfinished() == KHAMDORIEM_UNFINISHED_MOST);
}

static void check_refused_feeds(void) {
    struct khamdoriem_stream none = {0, 7, 8};
    fill(0x5A);
    start("1 a");
    begin(KHAMDORIEM_STREAM_COUNTED);
    CHECK(refused(feed_into(0, len, KHAMDORIEM_STREAM_BUFFER - 1), KHAMDORIEM_OUTPUT_SHORT, 0) && stands(1, 0, 0));
    CHECK(refused(feed_into(0, len, 0), KHAMDORIEM_OUTPUT_SHORT, 0) && stands(1, 0, 0));
    state = none;
    CHECK(refused(feed(0, len), KHAMDORIEM_BAD_SETTING, 0) && stands(0, 7, 8));
    state.stage = 5;
    CHECK(refused(feed_into(0, len, 0), KHAMDORIEM_BAD_SETTING, 0) && stands(5, 7, 8));
    CHECK(filled(0x5A));
    begin(KHAMDORIEM_STREAM_COUNTED);
    CHECK(framed(feed_into(0, len, sizeof output), 3, "a") && all(output, 1, sizeof output, 0x5A));
}

/* ---- a tally, and what it must hold after each call; with rows behind it that no call touches */

enum { ROWS = KHAMDORIEM_TALLY_ROWS, COLUMNS = KHAMDORIEM_TALLY_COLUMNS };
static khamdoriem_counts tally[ROWS + SPARE], wanted[ROWS + SPARE];

static void start_tally(void) {
    memset(tally, 0, sizeof tally);
    memset(tally + ROWS, 0xA5, SPARE * sizeof tally[0]);
    memcpy(wanted, tally, sizeof tally);
}

/* Adds, and says whether it was accepted and the one cell rose. */
static int accepted(uint32_t facility_mark, uint32_t facility, uint32_t severity_mark, uint32_t severity) {
    wanted[facility_mark ? facility : KHAMDORIEM_TALLY_NO_FACILITY]
        .count[severity_mark ? severity : KHAMDORIEM_TALLY_NO_SEVERITY]++;
    return khamdoriem_tally_add(tally, ROWS, facility_mark, facility, severity_mark, severity) == KHAMDORIEM_DONE &&
           !memcmp(tally, wanted, sizeof tally);
}

/* The number of an addition to so many rows, where the tally stays as it was; else one that no call answers. */
static uint32_t not_added(size_t rows, uint32_t facility_mark, uint32_t facility, uint32_t severity_mark,
                          uint32_t severity) {
    uint32_t number = khamdoriem_tally_add(tally, rows, facility_mark, facility, severity_mark, severity);
    return memcmp(tally, wanted, sizeof tally) ? UINT32_MAX : number;
}

static int holds(size_t rows, uint32_t row, uint32_t column, uint32_t number, uint32_t count) {
    struct khamdoriem_cell a = khamdoriem_tally_cell(tally, rows, row, column);
    return a.number == number && a.count == count;
}

static int row_sums(size_t rows, uint32_t row, uint32_t number, uint64_t sum) {
    struct khamdoriem_sum a = khamdoriem_tally_row(tally, rows, row);
    return a.number == number && a.sum == sum;
}

static int column_sums(size_t rows, uint32_t column, uint32_t number, uint64_t sum) {
    struct khamdoriem_sum a = khamdoriem_tally_column(tally, rows, column);
    return a.number == number && a.sum == sum;
}

static void check_tally_adds(void) {
    uint32_t i, k;
    start_tally();
    for (i = 0; i < 24; i++) {
        for (k = 0; k < 8; k++) CHECK(accepted(1, i, 1, k) && holds(ROWS, i, k, KHAMDORIEM_DONE, 1));
        CHECK(accepted(1, i, 0, 0) && holds(ROWS, i, KHAMDORIEM_TALLY_NO_SEVERITY, KHAMDORIEM_DONE, 1));
    }
    for (k = 0; k < 8; k++) CHECK(accepted(0, 0, 1, k) && holds(ROWS, KHAMDORIEM_TALLY_NO_FACILITY, k, 0, 1));
    CHECK(accepted(0, 0, 0, 0) && accepted(0, 0, 0, 0) && holds(ROWS, 24, 8, KHAMDORIEM_DONE, 2));
    for (i = 0; i < 24; i++) CHECK(row_sums(ROWS, i, KHAMDORIEM_DONE, 9));
    for (k = 0; k < 8; k++) CHECK(column_sums(ROWS, k, KHAMDORIEM_DONE, 25));
    CHECK(row_sums(ROWS, 24, KHAMDORIEM_DONE, 10) && column_sums(ROWS, 8, KHAMDORIEM_DONE, 26));
    /* more rows than 25: the others are of no account */
    CHECK(khamdoriem_tally_add(tally, ROWS + SPARE, 1, 0, 1, 0) == KHAMDORIEM_DONE);
    wanted[0].count[0]++;
    CHECK(!memcmp(tally, wanted, sizeof tally) && column_sums(ROWS + SPARE, 0, KHAMDORIEM_DONE, 26));
}

static void check_tally_refusals(void) {
    start_tally();
    CHECK(not_added(ROWS, 1, 24, 1, 0) == KHAMDORIEM_UNSUITABLE);
    CHECK(not_added(ROWS, 1, UINT32_MAX, 1, 0) == KHAMDORIEM_UNSUITABLE);
    CHECK(not_added(ROWS, 1, 256, 1, 0) == KHAMDORIEM_UNSUITABLE);
    CHECK(not_added(ROWS, 1, 0, 1, 8) == KHAMDORIEM_UNSUITABLE);
    CHECK(not_added(ROWS, 1, 0, 1, UINT32_MAX) == KHAMDORIEM_UNSUITABLE);
    CHECK(not_added(ROWS, 0, 1, 0, 0) == KHAMDORIEM_UNSUITABLE);
    CHECK(not_added(ROWS, 0, 24, 0, 0) == KHAMDORIEM_UNSUITABLE);
    CHECK(not_added(ROWS, 0, 0, 0, 8) == KHAMDORIEM_UNSUITABLE);
    CHECK(not_added(ROWS, 2, 0, 1, 0) == KHAMDORIEM_UNSUITABLE);
    CHECK(not_added(ROWS, 1, 0, 2, 0) == KHAMDORIEM_UNSUITABLE);
    CHECK(not_added(ROWS, UINT32_MAX, 0, 1, 0) == KHAMDORIEM_UNSUITABLE);
    /* 7 before 8, 8 before 10 */
    tally[3].count[4] = wanted[3].count[4] = KHAMDORIEM_TALLY_MOST;
    CHECK(not_added(0, 1, 24, 1, 0) == KHAMDORIEM_UNSUITABLE);
    CHECK(not_added(ROWS - 1, 1, 3, 1, 8) == KHAMDORIEM_UNSUITABLE);
    CHECK(not_added(ROWS - 1, 1, 3, 1, 4) == KHAMDORIEM_OUTPUT_SHORT);
    CHECK(not_added(0, 1, 0, 1, 0) == KHAMDORIEM_OUTPUT_SHORT);
    CHECK(not_added(ROWS, 1, 3, 1, 4) == KHAMDORIEM_CELL_FULL);
    tally[3].count[4] = wanted[3].count[4] = KHAMDORIEM_TALLY_MOST - 1;
    CHECK(accepted(1, 3, 1, 4) && not_added(ROWS, 1, 3, 1, 4) == KHAMDORIEM_CELL_FULL);
    CHECK(accepted(1, 3, 1, 5) && accepted(1, 4, 1, 4));
}

static void check_tally_reads(void) {
    uint32_t i, k;
    start_tally();
    for (i = 0; i < ROWS; i++)
        for (k = 0; k < COLUMNS; k++) tally[i].count[k] = KHAMDORIEM_TALLY_MOST;
    CHECK(holds(ROWS, 24, 8, KHAMDORIEM_DONE, KHAMDORIEM_TALLY_MOST));
    CHECK(row_sums(ROWS, 24, KHAMDORIEM_DONE, UINT64_C(38654705655)));
    CHECK(column_sums(ROWS, 8, KHAMDORIEM_DONE, UINT64_C(107374182375)));
    CHECK(holds(ROWS, 25, 0, KHAMDORIEM_UNSUITABLE, 0) && holds(ROWS, 0, 9, KHAMDORIEM_UNSUITABLE, 0));
    CHECK(holds(ROWS + SPARE, 25, 0, KHAMDORIEM_UNSUITABLE, 0) && holds(ROWS, UINT32_MAX, 0, KHAMDORIEM_UNSUITABLE, 0));
    CHECK(row_sums(ROWS, 25, KHAMDORIEM_UNSUITABLE, 0) && column_sums(ROWS, 9, KHAMDORIEM_UNSUITABLE, 0));
    CHECK(row_sums(0, UINT32_MAX, KHAMDORIEM_UNSUITABLE, 0) && column_sums(0, UINT32_MAX, KHAMDORIEM_UNSUITABLE, 0));
    CHECK(holds(ROWS - 1, 25, 0, KHAMDORIEM_UNSUITABLE, 0) && holds(ROWS - 1, 0, 9, KHAMDORIEM_UNSUITABLE, 0));
    /* under 25 rows, whatever the row */
    CHECK(holds(ROWS - 1, 0, 0, KHAMDORIEM_OUTPUT_SHORT, 0) && holds(0, 24, 8, KHAMDORIEM_OUTPUT_SHORT, 0));
    CHECK(row_sums(ROWS - 1, 0, KHAMDORIEM_OUTPUT_SHORT, 0) && column_sums(ROWS - 1, 0, KHAMDORIEM_OUTPUT_SHORT, 0));
}

/* A record is added as it stands: what the readers leave, and bytes that are none. */
static void check_tally_records(void) {
    start_tally();
    start("<165>1 - - - - - -");
    CHECK(strict().number == KHAMDORIEM_DONE);
    CHECK(khamdoriem_tally_record(tally, ROWS, record) == KHAMDORIEM_DONE && holds(ROWS, 20, 5, 0, 1));
    CHECK(loose().number == KHAMDORIEM_DONE);
    CHECK(khamdoriem_tally_record(tally, ROWS, record) == KHAMDORIEM_DONE && holds(ROWS, 20, 5, 0, 2));
    start("<192>1 - - - - - -");
    CHECK(loose().whole == 0);
    CHECK(khamdoriem_tally_record(tally, ROWS, record) == KHAMDORIEM_DONE && holds(ROWS, 24, 0, 0, 1));
    start("1 - - - - - -");
    CHECK(loose().whole == 0);
    CHECK(khamdoriem_tally_record(tally, ROWS, record) == KHAMDORIEM_DONE && holds(ROWS, 24, 8, 0, 1));
    start("antenna detuned");
    CHECK(loose().whole == 1);
    CHECK(khamdoriem_tally_record(tally, ROWS, record) == KHAMDORIEM_DONE && holds(ROWS, 24, 8, 0, 2));
    CHECK(khamdoriem_tally_record(tally, ROWS - 1, record) == KHAMDORIEM_OUTPUT_SHORT);
    memcpy(wanted, tally, sizeof tally);
    put_word(KHAMDORIEM_AT_FACILITY, UINT64_C(1) << 32);
    CHECK(khamdoriem_tally_record(tally, ROWS, record) == KHAMDORIEM_UNSUITABLE);
    put_word(KHAMDORIEM_AT_FACILITY, 1), put_word(KHAMDORIEM_AT_FACILITY + 8, UINT64_MAX << 32);
    CHECK(khamdoriem_tally_record(tally, ROWS, record) == KHAMDORIEM_UNSUITABLE);
    CHECK(!memcmp(tally, wanted, sizeof tally));
}

/* ---- a settings file: records that are written one behind the other, and a part behind them that is not lent */

enum { RECORDS = 8, BYTES = KHAMDORIEM_SETTINGS_RECORD };
static uint8_t file[RECORDS * BYTES + SPARE];
static size_t file_len;

static uint32_t put_settings(uint32_t version, uint32_t gate, uint32_t year, int32_t offset, uint32_t variant,
                             const char *host) {
    struct khamdoriem_written a =
        khamdoriem_settings_write(version, gate, year, offset, variant, (const uint8_t *)host, strlen(host),
                                  file + file_len, sizeof file - file_len);
    file_len += a.len;
    return a.number;
}

/* Starts the file anew, with one record. */
static uint32_t one_record(uint32_t version, uint32_t gate, uint32_t year, int32_t offset, uint32_t variant,
                           const char *host) {
    memset(file, 0x5A, sizeof file);
    file_len = 0;
    return put_settings(version, gate, year, offset, variant, host);
}

static int is_settings(struct khamdoriem_settings a, uint32_t version, uint32_t gate, uint32_t year, int32_t offset,
                       uint32_t variant, const char *host) {
    size_t n;
    const uint8_t *text = khamdoriem_settings_host(file, &a, &n);
    return a.number == KHAMDORIEM_DONE && a.version == version && a.gate == gate && a.year == year &&
           a.offset == offset && a.variant == variant && (*host ? same(text, n, host) : absent(text, n));
}

/* Refused with this number, and all else is zero. */
static int is_refused(struct khamdoriem_settings a, uint32_t number) {
    return a.number == number && a.version == 0 && a.gate == 0 && a.year == 0 && a.offset == 0 && a.variant == 0 &&
           a.host_start == 0 && a.host_len == 0;
}

static int settings_refused(uint32_t gate, uint32_t number) {
    return is_refused(khamdoriem_settings_read(file, file_len, gate), number);
}

/* What both readers answer with one byte of the file changed. */
static int with_byte(size_t at, uint8_t byte, uint32_t number) {
    uint8_t kept = file[at];
    uint32_t answered;
    file[at] = byte;
    answered = khamdoriem_settings_read(file, file_len, 7).number;
    file[at] = kept;
    return answered == number;
}

static void check_settings_bytes(void) {
    static const uint8_t expected[BYTES] = {2,   5,   0xEA, 7, 0xD4, 0xFE, 7, 0, 'd', 'e', 'p', 'o', 't', 0, 0, 0,
                                            0,   0,   0,    0, 0,    0,    0, 0, 0,   0,   0,   0,   1,   0, 0, 0};
    CHECK(one_record(2, 7, 2026, -300, KHAMDORIEM_VARIANT_RFC3164, "depot") == KHAMDORIEM_DONE && file_len == BYTES);
    CHECK(!memcmp(file, expected, BYTES) && all(file, BYTES, sizeof file, 0x5A));
    CHECK(is_settings(khamdoriem_settings_read(file, file_len, 7), 2, 7, 2026, -300, 1, "depot"));
    CHECK(khamdoriem_settings_read(file, file_len, 7).host_start == 8);
    CHECK(is_refused(khamdoriem_settings_read_1(file, file_len, 7), KHAMDORIEM_UNKNOWN_VERSION));
    /* every field at its limits, and no host */
    CHECK(one_record(1, KHAMDORIEM_LAST_GATE, KHAMDORIEM_LAST_YEAR, KHAMDORIEM_LAST_OFFSET, 0, "!~") == 0);
    CHECK(put_settings(2, 0, 0, -KHAMDORIEM_LAST_OFFSET, 2, "12345678901234567890") == KHAMDORIEM_DONE);
    CHECK(put_settings(1, 1, 0, 0, 0, "") == KHAMDORIEM_DONE && file_len == 3 * BYTES);
    CHECK(is_settings(khamdoriem_settings_read(file, file_len, 65535), 1, 65535, 9999, 1439, 0, "!~"));
    CHECK(is_settings(khamdoriem_settings_read_1(file, file_len, 65535), 1, 65535, 9999, 1439, 0, "!~"));
    CHECK(is_settings(khamdoriem_settings_read(file, file_len, 0), 2, 0, 0, -1439, 2, "12345678901234567890"));
    CHECK(is_settings(khamdoriem_settings_read(file, file_len, 1), 1, 1, 0, 0, 0, ""));
}

static void check_settings_files(void) {
    size_t n;
    CHECK(one_record(1, 7, 2025, 0, 0, "first") == 0 && put_settings(1, 8, 2025, 0, 0, "other") == 0);
    CHECK(put_settings(2, 7, 2026, 60, 0, "last") == 0 && put_settings(2, 9, 2025, 0, 0, "other") == 0);
    /* the last record of the gate counts, for the reader of version 1 too */
    CHECK(is_settings(khamdoriem_settings_read(file, file_len, 7), 2, 7, 2026, 60, 0, "last"));
    CHECK(is_refused(khamdoriem_settings_read_1(file, file_len, 7), KHAMDORIEM_UNKNOWN_VERSION));
    CHECK(is_settings(khamdoriem_settings_read_1(file, file_len, 8), 1, 8, 2025, 0, 0, "other"));
    /* others are not judged: but for their gate they may hold anything */
    memset(file, 0xFF, 6), memset(file + 8, 0xFF, BYTES - 8);
    memset(file + 3 * BYTES, 0xFF, 6), memset(file + 3 * BYTES + 8, 0xFF, BYTES - 8);
    CHECK(is_settings(khamdoriem_settings_read(file, file_len, 7), 2, 7, 2026, 60, 0, "last"));
    /* and the last one is, though one before it is good */
    CHECK(settings_refused(9, KHAMDORIEM_UNKNOWN_VERSION));
    file[2 * BYTES] = 2, file[2 * BYTES + 31] = 1;
    CHECK(settings_refused(7, KHAMDORIEM_BAD_FIELD));
    CHECK(settings_refused(10, KHAMDORIEM_NOT_FOUND) && settings_refused(65536 + 7, KHAMDORIEM_NOT_FOUND));
    CHECK(settings_refused(UINT32_MAX, KHAMDORIEM_NOT_FOUND));
    /* every length; 13 comes before 9 */
    for (n = 0; n <= 4 * BYTES; n++) {
        struct khamdoriem_settings a = khamdoriem_settings_read(file, n, 11);
        CHECK(is_refused(a, n % BYTES ? KHAMDORIEM_BAD_LENGTH : KHAMDORIEM_NOT_FOUND));
        CHECK(is_refused(khamdoriem_settings_read_1(file, n, 11), a.number));
    }
}

static void check_settings_fields(void) {
    size_t at;
    CHECK(one_record(2, 7, 2026, 60, 0, "depot") == KHAMDORIEM_DONE);
    CHECK(with_byte(0, 0, KHAMDORIEM_UNKNOWN_VERSION) && with_byte(0, 3, KHAMDORIEM_UNKNOWN_VERSION));
    CHECK(with_byte(0, 255, KHAMDORIEM_UNKNOWN_VERSION) && with_byte(0, 1, KHAMDORIEM_DONE));
    CHECK(with_byte(1, 4, KHAMDORIEM_BAD_FIELD) && with_byte(1, 6, KHAMDORIEM_BAD_FIELD));
    CHECK(with_byte(1, 21, KHAMDORIEM_BAD_FIELD) && with_byte(1, 255, KHAMDORIEM_BAD_FIELD));
    CHECK(with_byte(3, 0x27, KHAMDORIEM_BAD_FIELD) && with_byte(3, 0x26, KHAMDORIEM_DONE)); /* 10,218 and 9,962 */
    CHECK(with_byte(5, 0x05, KHAMDORIEM_DONE) && with_byte(5, 0x06, KHAMDORIEM_BAD_FIELD));  /* 1,340 and 1,596 */
    CHECK(with_byte(5, 0xFB, KHAMDORIEM_DONE) && with_byte(5, 0xFA, KHAMDORIEM_BAD_FIELD));  /* -1,220 and -1,476 */
    CHECK(with_byte(6, 8, KHAMDORIEM_NOT_FOUND) && with_byte(7, 1, KHAMDORIEM_NOT_FOUND));
    CHECK(with_byte(8, 33, KHAMDORIEM_DONE) && with_byte(8, 32, KHAMDORIEM_BAD_FIELD));
    CHECK(with_byte(12, 126, KHAMDORIEM_DONE) && with_byte(12, 127, KHAMDORIEM_BAD_FIELD));
    CHECK(with_byte(8, 0, KHAMDORIEM_BAD_FIELD));
    for (at = 13; at < 28; at++) CHECK(with_byte(at, 'x', KHAMDORIEM_BAD_FIELD));
    CHECK(with_byte(28, 1, KHAMDORIEM_DONE) && with_byte(28, 2, KHAMDORIEM_DONE));
    CHECK(with_byte(28, 3, KHAMDORIEM_BAD_FIELD) && with_byte(28, 255, KHAMDORIEM_BAD_FIELD));
    for (at = 29; at < BYTES; at++) CHECK(with_byte(at, 1, KHAMDORIEM_BAD_FIELD));
    file[0] = 1;
    CHECK(with_byte(28, 0, KHAMDORIEM_DONE) && with_byte(28, 1, KHAMDORIEM_BAD_FIELD));
}

static void check_settings_writes(void) {
    uint8_t long_host[] = "123456789012345678901";
    CHECK(one_record(0, 7, 2026, 0, 0, "h") == KHAMDORIEM_UNKNOWN_VERSION);
    CHECK(one_record(3, 65536, 10000, 1440, 3, " ") == KHAMDORIEM_UNKNOWN_VERSION);
    CHECK(one_record(UINT32_MAX, 7, 2026, 0, 0, "h") == KHAMDORIEM_UNKNOWN_VERSION);
    CHECK(one_record(2, 65536, 2026, 0, 0, "h") == KHAMDORIEM_BAD_FIELD);
    CHECK(one_record(2, 7, 10000, 0, 0, "h") == KHAMDORIEM_BAD_FIELD);
    CHECK(one_record(2, 7, 2026, 1440, 0, "h") == KHAMDORIEM_BAD_FIELD);
    CHECK(one_record(2, 7, 2026, -1440, 0, "h") == KHAMDORIEM_BAD_FIELD);
    CHECK(one_record(2, 7, 2026, 0, 3, "h") == KHAMDORIEM_BAD_FIELD);
    CHECK(one_record(1, 7, 2026, 0, 1, "h") == KHAMDORIEM_BAD_FIELD);
    CHECK(one_record(2, 7, 2026, 0, 0, "a b") == KHAMDORIEM_BAD_FIELD);
    CHECK(one_record(2, 7, 2026, 0, 0, "a\x7F") == KHAMDORIEM_BAD_FIELD);
    CHECK(one_record(2, 7, 2026, 0, 0, "\xC3\xA9") == KHAMDORIEM_BAD_FIELD);
    CHECK(one_record(2, 7, 2026, 0, 0, (const char *)long_host) == KHAMDORIEM_BAD_FIELD);
    /* 15 before 8; and an output that is a byte short */
    CHECK(khamdoriem_settings_write(2, 7, 2026, 0, 3, long_host, 20, file, 0).number == KHAMDORIEM_BAD_FIELD);
    CHECK(khamdoriem_settings_write(2, 7, 2026, 0, 0, long_host, 20, file, 0).number == KHAMDORIEM_OUTPUT_SHORT);
    CHECK(khamdoriem_settings_write(2, 7, 2026, 0, 0, long_host, 20, file, BYTES - 1).number ==
          KHAMDORIEM_OUTPUT_SHORT);
    CHECK(file_len == 0 && all(file, 0, sizeof file, 0x5A));
    CHECK(khamdoriem_settings_write(2, 7, 2026, 0, 0, long_host, 20, file, BYTES).len == BYTES);
    CHECK(all(file, BYTES, sizeof file, 0x5A));
}

/* ---- reading with settings */

static struct khamdoriem_site with_settings_into(uint32_t gate, size_t e, size_t p, size_t room) {
    return khamdoriem_read_with_settings(file, file_len, gate, line, len, elements, e, params, p, record, room);
}

static struct khamdoriem_site with_settings(uint32_t gate) { return with_settings_into(gate, 4, 4, KHAMDORIEM_RECORD); }

/* Read, with this host in this slice. */
static int has_host(struct khamdoriem_site a, uint32_t holder, const char *host) {
    size_t n;
    const uint8_t *text = khamdoriem_site_host(file, line, &a, &n);
    return a.number == KHAMDORIEM_DONE && a.holder == holder && (holder ? same(text, n, host) : absent(text, n));
}

static int site_refused(struct khamdoriem_site a, uint32_t number) {
    return a.number == number && a.holder == 0 && a.host_start == 0 && a.host_len == 0;
}

static void start_site(void) {
    CHECK(one_record(2, 7, 2026, 60, KHAMDORIEM_VARIANT_EITHER, "depot") == KHAMDORIEM_DONE);
    CHECK(put_settings(1, 8, 2026, 60, 0, "") == KHAMDORIEM_DONE);
    CHECK(put_settings(2, 9, 2026, 60, KHAMDORIEM_VARIANT_RFC5424, "depot") == KHAMDORIEM_DONE);
}

static void check_site_hosts(void) {
    uint8_t kept[KHAMDORIEM_RECORD];
    struct khamdoriem_instant t = {0, 0, 0, 0};
    const uint8_t *text;
    size_t n;
    start_site();
    start("<13>1 - gate7 reader 42 TAP [a x=\"1\"] ok");
    CHECK(has_host(with_settings(7), KHAMDORIEM_HOST_IN_LINE, "gate7"));
    CHECK(has_host(with_settings(8), KHAMDORIEM_HOST_IN_LINE, "gate7"));
    start("<13>1 - - reader 42 TAP [a x=\"1\"] ok");
    CHECK(has_host(with_settings(7), KHAMDORIEM_HOST_IN_FILE, "depot"));
    CHECK(has_host(with_settings(8), KHAMDORIEM_HOST_NOWHERE, ""));
    /* the record has the line's host alone, and all is as the loose reader leaves it */
    CHECK(with_settings(7).host_start == 8);
    text = khamdoriem_host(line, record, &n), CHECK(absent(text, n));
    memcpy(kept, record, sizeof kept);
    fill(0xA5);
    CHECK(loose().number == KHAMDORIEM_DONE && !memcmp(record, kept, sizeof kept));
    fill(0xA5);
    CHECK(with_settings(7).number == KHAMDORIEM_DONE && !memcmp(record, kept, sizeof kept));
    CHECK(all(record, KHAMDORIEM_RECORD, sizeof record, 0xA5) && all(elements, sizeof *elements, sizeof elements, 0xA5));
    CHECK(all(params, sizeof *params, sizeof params, 0xA5));
    /* year and offset are the record's: 2026-12-31T22:59:59Z */
    start("Dec 31 23:59:59 reader[1]: m");
    CHECK(has_host(with_settings(7), KHAMDORIEM_HOST_IN_FILE, "depot") && khamdoriem_timestamp(record, &t) == 1);
    CHECK(t.seconds == 1798757999 && t.offset == 60);
}

static void check_site_refusals(void) {
    start_site();
    fill(0x5A);
    start("\xFF");
    CHECK(site_refused(with_settings(7), KHAMDORIEM_NOT_UTF8));
    CHECK(site_refused(with_settings(6), KHAMDORIEM_NOT_FOUND));
    file[0] = 3, file[2 * BYTES + 28] = 3;
    CHECK(site_refused(with_settings(7), KHAMDORIEM_UNKNOWN_VERSION));
    CHECK(site_refused(with_settings(9), KHAMDORIEM_BAD_FIELD));
    file_len--;
    CHECK(site_refused(with_settings(8), KHAMDORIEM_BAD_LENGTH));
    start_site();
    start("");
    add("x", KHAMDORIEM_LINE_LIMIT + 1);
    CHECK(site_refused(with_settings(7), KHAMDORIEM_LINE_TOO_LONG));
    /* no reading, of either protocol or of the record's alone */
    start("antenna detuned");
    CHECK(site_refused(with_settings(7), KHAMDORIEM_NO_READING));
    CHECK(site_refused(with_settings_into(7, 0, 0, 0), KHAMDORIEM_NO_READING));
    start("Dec 31 23:59:59 gate7 reader[1]: m");
    CHECK(site_refused(with_settings(9), KHAMDORIEM_NO_READING));
    start("<13>1 - - reader 42 TAP [a x=\"1\"] ok");
    CHECK(site_refused(with_settings_into(7, 0, 0, 0), KHAMDORIEM_TOO_MANY_ELEMENTS));
    CHECK(site_refused(with_settings_into(7, 1, 0, 0), KHAMDORIEM_TOO_MANY_PARAMS));
    CHECK(site_refused(with_settings_into(7, 1, 1, KHAMDORIEM_RECORD - 1), KHAMDORIEM_OUTPUT_SHORT));
    CHECK(filled(0x5A));
    CHECK(has_host(with_settings_into(7, 1, 1, KHAMDORIEM_RECORD), KHAMDORIEM_HOST_IN_FILE, "depot"));
}

/* ---- a line that is written: of the text, the elements and the params above */

static struct khamdoriem_fields fields;

/* A text more behind the others, as a field. */
static struct khamdoriem_part text_of(const char *text) {
    size_t n = strlen(text);
    add(text, 1);
    return khamdoriem_part_at(len - n, n);
}

static void add_element(const char *id) {
    struct khamdoriem_part part = text_of(id);
    elements[fields.element_count].id_start = part.start;
    elements[fields.element_count++].id_len = part.len;
}

static void add_param(const char *name, const char *value) {
    khamdoriem_param *param = &params[fields.param_count++];
    struct khamdoriem_part n = text_of(name), v = text_of(value);
    param->element = fields.element_count - 1;
    param->name_start = n.start, param->name_len = n.len;
    param->value_start = v.start, param->value_len = v.len;
}

/* <13>1 - - - - - - */
static void start_fields(void) {
    start("");
    memset(&fields, 0, sizeof fields);
    fields.priority = 13, fields.version = 1;
}

static struct khamdoriem_written write_into(size_t room) {
    return khamdoriem_write_strict(line, len, fields, elements, fields.element_count, params, fields.param_count,
                                   output, room);
}

/* Writes, and says whether that is the line: with room for it and no more, and with a byte less not. */
static int writes(const char *expected) {
    size_t n = strlen(expected);
    struct khamdoriem_written a;
    memset(output, 0x5A, sizeof output);
    a = write_into(n - 1);
    if (a.number != KHAMDORIEM_OUTPUT_SHORT || a.len || !all(output, 0, sizeof output, 0x5A)) return 0;
    a = write_into(n);
    return a.number == KHAMDORIEM_DONE && same(output, a.len, expected) && all(output, n, sizeof output, 0x5A);
}

/* The number with which it is refused, where nothing is written; else one that no call answers. */
static uint32_t not_written(size_t room) {
    struct khamdoriem_written a;
    memset(output, 0x5A, sizeof output);
    a = write_into(room);
    return a.len || !all(output, 0, sizeof output, 0x5A) ? UINT32_MAX : a.number;
}

static uint32_t unwritten(void) { return not_written(KHAMDORIEM_LINE_LIMIT); }

static void check_writes(void) {
    start_fields();
    CHECK(writes("<13>1 - - - - - -"));
    fields.message = khamdoriem_part_at(0, 0);
    CHECK(writes("<13>1 - - - - - - "));
    fields.priority = KHAMDORIEM_LAST_PRIORITY, fields.version = KHAMDORIEM_LAST_VERSION;
    fields.stamped = 1, fields.seconds = 1767607262, fields.nanos = 215000000, fields.digits = 3, fields.offset = -90;
    fields.message = text_of("tap ]\"");
    fields.host = text_of("gate7"), fields.app = text_of("reader"), fields.procid = text_of("42");
    fields.msgid = text_of("TAP");
    add_element("a@1");
    add_param("x", "");
    add_param("x", "a\"b\\c]d");
    add_element("b@1");
    add_element("c@1");
    add_param("y", "\xC3\xA9");
    CHECK(writes("<191>999 2026-01-05T08:31:02.215-01:30 gate7 reader 42 TAP "
                 "[a@1 x=\"\" x=\"a\\\"b\\\\c\\]d\"][b@1][c@1 y=\"\xC3\xA9\"] tap ]\""));
    fields.digits = 6;
    CHECK(writes("<191>999 2026-01-05T08:31:02.215000-01:30 gate7 reader 42 TAP "
                 "[a@1 x=\"\" x=\"a\\\"b\\\\c\\]d\"][b@1][c@1 y=\"\xC3\xA9\"] tap ]\""));
    fields.param_count = 1, fields.element_count = 1, fields.message.present = 0, fields.host.present = 0;
    fields.nanos = 0, fields.digits = 0, fields.offset = 0, fields.procid.present = SIZE_MAX;
    CHECK(writes("<191>999 2026-01-05T10:01:02+00:00 - reader 42 TAP [a@1 x=\"\"]"));
}

/* What is written reads the same. */
static void check_written_reads(void) {
    const uint8_t *text;
    size_t n;
    struct khamdoriem_instant instant;
    struct khamdoriem_written a;
    start_fields();
    fields.stamped = 1, fields.seconds = -1, fields.nanos = 750000000, fields.digits = 2, fields.offset = 1439;
    fields.procid = text_of("--"), fields.message = text_of("\xFF");
    add_element("a");
    add_param("x", "\\n]");
    a = write_into(KHAMDORIEM_LINE_LIMIT);
    CHECK(a.number == KHAMDORIEM_DONE);
    memcpy(line, output, len = a.len);
    memset(&instant, 0, sizeof instant);
    CHECK(strict_into(1, 1).number == KHAMDORIEM_DONE && khamdoriem_timestamp(record, &instant));
    CHECK(khamdoriem_facility(record) == 1 && khamdoriem_severity(record) == 5);
    CHECK(instant.seconds == -1 && instant.nanoseconds == 750000000 && instant.digits == 2 && instant.offset == 1439);
    text = khamdoriem_host(line, record, &n);
    CHECK(absent(text, n));
    text = khamdoriem_process_id(line, record, &n);
    CHECK(same(text, n, "--"));
    text = khamdoriem_message(line, record, &n);
    CHECK(khamdoriem_has_message(record) && same(text, n, "\xFF"));
    a = look("a", "x", KHAMDORIEM_KIND_STRICT, sizeof output);
    CHECK(a.number == KHAMDORIEM_DONE && same(output, a.len, "\\n]"));
}

/* Whether a text of the front may have so many bytes. */
static int front_takes(struct khamdoriem_part *part, size_t n) {
    start_fields();
    add("x", n);
    *part = khamdoriem_part_at(0, n);
    return unwritten() != KHAMDORIEM_UNWRITABLE;
}

static void check_unwritable(void) {
    static const char *const bad[] = {"", "-", "a b", "\x7F", "\xC3\xA9", "a\n"};
    struct khamdoriem_part *const parts[] = {&fields.host, &fields.app, &fields.procid, &fields.msgid};
    static const size_t limits[] = {KHAMDORIEM_HOST_LIMIT, KHAMDORIEM_APP_NAME_LIMIT, KHAMDORIEM_PROCESS_ID_LIMIT,
                                    KHAMDORIEM_MESSAGE_ID_LIMIT};
    size_t i, k;
    for (i = 0; i < 4; i++) {
        CHECK(front_takes(parts[i], limits[i]) && !front_takes(parts[i], limits[i] + 1));
        for (k = 0; k < sizeof bad / sizeof *bad; k++) {
            start_fields();
            *parts[i] = text_of(bad[k]);
            CHECK(unwritten() == KHAMDORIEM_UNWRITABLE);
        }
    }
    for (i = KHAMDORIEM_NAME_LIMIT; i <= KHAMDORIEM_NAME_LIMIT + 1; i++) {
        start_fields();
        add("x", i);
        fields.element_count = 1, elements[0].id_start = 0, elements[0].id_len = i;
        CHECK((unwritten() == KHAMDORIEM_UNWRITABLE) == (i > KHAMDORIEM_NAME_LIMIT));
    }
    start_fields(), fields.priority = 192;
    CHECK(unwritten() == KHAMDORIEM_UNWRITABLE);
    start_fields(), fields.version = 0;
    CHECK(unwritten() == KHAMDORIEM_UNWRITABLE);
    start_fields(), fields.version = 1000;
    CHECK(unwritten() == KHAMDORIEM_UNWRITABLE);
    start_fields(), fields.stamped = 1, fields.digits = KHAMDORIEM_DIGITS_WRITTEN + 1;
    CHECK(unwritten() == KHAMDORIEM_UNWRITABLE);
    start_fields(), add_element("a]");
    CHECK(unwritten() == KHAMDORIEM_UNWRITABLE);
    start_fields(), add_element("a"), add_param("x=", "1");
    CHECK(unwritten() == KHAMDORIEM_UNWRITABLE);
    start_fields(), add_element("a"), add_param("x", "\xC3");
    CHECK(unwritten() == KHAMDORIEM_UNWRITABLE);
    start_fields(), add_element("a"), add_element("b"), add_element("a");
    CHECK(unwritten() == KHAMDORIEM_UNWRITABLE);
    start_fields(), fields.message = text_of("\xEF\xBB\xBF\xC3");
    CHECK(unwritten() == KHAMDORIEM_UNWRITABLE);
}

/* 7 before 17, 17 before 1, 1 before 8; and no sum of a place wraps. */
static void check_write_order(void) {
    start_fields();
    add("]", 4096);
    fields.element_count = 1, elements[0].id_start = 0, elements[0].id_len = 0;
    fields.param_count = 1;
    params[0].element = 0, params[0].name_start = 0, params[0].name_len = 0, params[0].value_start = 0;
    params[0].value_len = 4096;
    fields.host = khamdoriem_part_at(1, SIZE_MAX);
    CHECK(not_written(0) == KHAMDORIEM_UNSUITABLE);
    fields.host = khamdoriem_part_at(4097, 0);
    CHECK(not_written(0) == KHAMDORIEM_UNSUITABLE);
    fields.host.present = 0;
    CHECK(not_written(0) == KHAMDORIEM_UNSUITABLE);
    fields.host.start = 0;
    CHECK(not_written(0) == KHAMDORIEM_UNWRITABLE);
    add("a", 1);
    elements[0].id_start = params[0].name_start = 4096, elements[0].id_len = params[0].name_len = 1;
    CHECK(not_written(0) == KHAMDORIEM_LINE_TOO_LONG && unwritten() == KHAMDORIEM_LINE_TOO_LONG);
    params[0].value_len = (KHAMDORIEM_LINE_LIMIT - 24) / 2;
    CHECK(not_written(KHAMDORIEM_LINE_LIMIT - 1) == KHAMDORIEM_OUTPUT_SHORT);
    CHECK(write_into(KHAMDORIEM_LINE_LIMIT).len == KHAMDORIEM_LINE_LIMIT);
    params[0].element = 1;
    CHECK(unwritten() == KHAMDORIEM_UNSUITABLE);
    params[0].element = 0, fields.stamped = 1, fields.nanos = 1;
    CHECK(unwritten() == KHAMDORIEM_UNSUITABLE);
}

/* ---- comparing */

static uint8_t line2[KHAMDORIEM_LINE_LIMIT + 8];
static size_t len2;
static khamdoriem_element elements2[4];
static khamdoriem_param params2[4];

static struct khamdoriem_compared compare_into(size_t e, size_t p, size_t e2, size_t p2) {
    return khamdoriem_compare(line, len, line2, len2, 0, 2026, 60, elements, e, params, p, elements2, e2, params2, p2);
}

/* Two lines compared, with tables that hold what they have. */
static struct khamdoriem_compared compare(const char *first, const char *second) {
    start(first);
    len2 = strlen(second);
    memcpy(line2, second, len2);
    return compare_into(4, 4, 4, 4);
}

/* Not refused, with these fields, and with this position, line and entry. */
static int differ(struct khamdoriem_compared a, uint32_t fields, size_t position, uint32_t pair_line, size_t entry) {
    return a.number == KHAMDORIEM_DONE && a.line == 0 && a.fields == fields && a.position == position &&
           a.pair_line == pair_line && a.pair_entry == entry;
}

static int compare_refused(struct khamdoriem_compared a, uint32_t k, uint32_t number) {
    return a.number == number && a.line == k && !a.fields && !a.position && !a.pair_line && !a.pair_entry;
}

#define HEAD "<13>1 2026-01-02T03:04:05Z gate7 reader 42 TAP "

static void check_fields_compared(void) {
    uint32_t all_but = (1u << KHAMDORIEM_FIELDS) - 1 - KHAMDORIEM_FIELD_ELEMENTS;
    CHECK(differ(compare(HEAD "- ok", HEAD "- ok"), 0, 0, 0, 0));
    CHECK(differ(compare(HEAD "- ok", "<13>2 2026-01-02T03:04:05Z gate7 reader 42 TAP - ok"), KHAMDORIEM_FIELD_PROTOCOL,
                 0, 0, 0));
    CHECK(differ(compare(HEAD "- ok", "<21>1 2026-01-02T03:04:05Z gate7 reader 42 TAP - ok"), KHAMDORIEM_FIELD_FACILITY,
                 0, 0, 0));
    CHECK(differ(compare(HEAD "- ok", "<14>1 2026-01-02T03:04:05Z gate7 reader 42 TAP - ok"), KHAMDORIEM_FIELD_SEVERITY,
                 0, 0, 0));
    /* the offset counts, the digits of a fraction do not */
    CHECK(differ(compare(HEAD "- ok", "<13>1 2026-01-02T04:04:05+01:00 gate7 reader 42 TAP - ok"),
                 KHAMDORIEM_FIELD_TIMESTAMP, 0, 0, 0));
    CHECK(differ(compare(HEAD "- ok", "<13>1 2026-01-02T03:04:05.000Z gate7 reader 42 TAP - ok"), 0, 0, 0, 0));
    CHECK(differ(compare(HEAD "- ok", "<13>1 2026-01-02T03:04:05Z gate8 reader 42 TAP - ok"), KHAMDORIEM_FIELD_HOST, 0,
                 0, 0));
    CHECK(differ(compare(HEAD "- ok", "<13>1 2026-01-02T03:04:05Z gate7 - 42 TAP - ok"), KHAMDORIEM_FIELD_APP_NAME, 0, 0,
                 0));
    CHECK(differ(compare(HEAD "- ok", "<13>1 2026-01-02T03:04:05Z gate7 reader 042 TAP - ok"),
                 KHAMDORIEM_FIELD_PROCESS_ID, 0, 0, 0));
    CHECK(differ(compare(HEAD "- ok", "<13>1 2026-01-02T03:04:05Z gate7 reader 42 - - ok"), KHAMDORIEM_FIELD_MESSAGE_ID,
                 0, 0, 0));
    CHECK(differ(compare(HEAD "- ok", HEAD "- okay"), KHAMDORIEM_FIELD_MESSAGE, 0, 0, 0));
    CHECK(differ(compare(HEAD "- ok", "<22>Feb  5 10:01:02 gate8 tap[1]: no"), all_but, 0, 0, 0));
}

static void check_elements_compared(void) {
    uint32_t e = KHAMDORIEM_FIELD_ELEMENTS;
    CHECK(differ(compare(HEAD "[x a=\"1\" b=\"2\"]", HEAD "[x b=\"2\" a=\"1\"]"), 0, 0, 0, 0));
    CHECK(differ(compare(HEAD "[x a=\"\\]\"]", HEAD "[x a=\"]\"]"), 0, 0, 0, 0));
    CHECK(differ(compare(HEAD "[x a=\"1\" a=\"1\"]", HEAD "[x a=\"1\"]"), e, 0, 1, 0));
    CHECK(differ(compare(HEAD "[x a=\"1\"]", HEAD "[x a=\"1\" a=\"1\"]"), e, 0, 1, 0));
    CHECK(differ(compare(HEAD "[x a=\"1\"]", HEAD "[x a=\"1\" b=\"1\"]"), e, 0, 2, 1));
    CHECK(differ(compare(HEAD "[x a=\"1\"][y b=\"1\"]", HEAD "[x a=\"1\"][y b=\"2\"]"), e, 1, 1, 1));
    CHECK(differ(compare(HEAD "[x a=\"1\"][y]", HEAD "[y][x a=\"1\"]"), e, 0, 0, 0));
    CHECK(differ(compare(HEAD "[x a=\"1\"]", HEAD "[x a=\"1\"][y]"), e, 1, 0, 0));
    CHECK(differ(compare(HEAD "-", HEAD "[x]"), e, 0, 0, 0));
}

static void check_compare_tables(void) {
    fill(0xA5);
    memset(elements2, 0xA5, sizeof elements2);
    memset(params2, 0xA5, sizeof params2);
    compare(HEAD "[x a=\"1\"][y] ok", HEAD "[z] ok");
    CHECK(elements[0].id_len == 1 && line[elements[0].id_start] == 'x' && line[elements[1].id_start] == 'y');
    CHECK(params[0].element == 0 && line[params[0].value_start] == '1' && line2[elements2[0].id_start] == 'z');
    CHECK(all(elements, 2 * sizeof *elements, 4 * sizeof *elements, 0xA5));
    CHECK(all(params, sizeof *params, 4 * sizeof *params, 0xA5));
    CHECK(all(elements2, sizeof *elements2, sizeof elements2, 0xA5) && all(params2, 0, sizeof params2, 0xA5));
}

static void check_refused_comparisons(void) {
    fill(0x5A);
    memset(elements2, 0x5A, sizeof elements2);
    memset(params2, 0x5A, sizeof params2);
    CHECK(compare_refused(compare("antenna detuned", "\xFF"), 1, KHAMDORIEM_NO_READING));
    CHECK(compare_refused(compare("\xFF", "antenna detuned"), 1, KHAMDORIEM_NOT_UTF8));
    CHECK(compare_refused(compare(HEAD "[x a=\"1\"] ok", "antenna detuned"), 2, KHAMDORIEM_NO_READING));
    compare("", HEAD "[x a=\"1\"] ok");
    add("x", KHAMDORIEM_LINE_LIMIT + 1);
    CHECK(compare_refused(compare_into(4, 4, 0, 0), 1, KHAMDORIEM_LINE_TOO_LONG));
    start(HEAD "[x a=\"1\"] ok");
    CHECK(compare_refused(compare_into(0, 0, 0, 0), 1, KHAMDORIEM_TOO_MANY_ELEMENTS));
    CHECK(compare_refused(compare_into(1, 0, 0, 0), 1, KHAMDORIEM_TOO_MANY_PARAMS));
    CHECK(compare_refused(compare_into(1, 1, 0, 0), 2, KHAMDORIEM_TOO_MANY_ELEMENTS));
    CHECK(compare_refused(compare_into(1, 1, 1, 0), 2, KHAMDORIEM_TOO_MANY_PARAMS));
    CHECK(compare_refused(khamdoriem_compare(line, len, line2, len2, 3, 2026, 60, elements, 4, params, 4, elements2, 4,
                                             params2, 4),
                          1, KHAMDORIEM_BAD_SETTING));
    CHECK(filled(0x5A) && all(elements2, 0, sizeof elements2, 0x5A) && all(params2, 0, sizeof params2, 0x5A));
    CHECK(differ(compare_into(1, 1, 1, 1), 0, 0, 0, 0));
    /* a line with itself: what is read may be one */
    CHECK(khamdoriem_compare(line, len, line, len, 0, 2026, 60, elements, 4, params, 4, elements2, 4, params2, 4).fields ==
          0);
}

/* ---- words */

static int named(const char *is, const char *name) { return is && !strcmp(is, name); }

/* ---- a claimed reading */

static khamdoriem_element vendor_elements[4];
static khamdoriem_param vendor_params[4];

static uint32_t claim(void) {
    return khamdoriem_check_claim(line, len, record, KHAMDORIEM_STRICT_RECORD, vendor_elements, 4, vendor_params, 4);
}

/* The strict reading of a line as a claim. What stands past the counts is no entry of anything. */
static void claim_of(const char *text) {
    start(text);
    memset(vendor_elements, 0xA5, sizeof vendor_elements);
    memset(vendor_params, 0xA5, sizeof vendor_params);
    CHECK(khamdoriem_read_strict(line, len, vendor_elements, 4, vendor_params, 4, record, KHAMDORIEM_STRICT_RECORD)
              .number == KHAMDORIEM_DONE);
    CHECK(claim() == KHAMDORIEM_DONE);
}

/* What is answered with one word of the record changed. */
static uint32_t claim_with(size_t at, uint64_t word) {
    uint64_t kept = khamdoriem_word(record, at);
    uint32_t number;
    put_word(at, word);
    number = claim();
    put_word(at, kept);
    return number;
}

static int is_wrong(uint32_t number) { return number == KHAMDORIEM_UNSUITABLE || number == KHAMDORIEM_WRONG_CLAIM; }

/* The same with one number of a table changed. */
static int wrong_with(size_t *number, size_t other) {
    size_t kept = *number;
    int wrong;
    *number = other;
    wrong = is_wrong(claim());
    *number = kept;
    return wrong;
}

/* Every number of a claim, one at a time: one more, one less, the largest. */
static void check_changed_claim(void) {
    size_t at, i, k, e = khamdoriem_element_count(record), p = khamdoriem_param_count(record);
    for (at = 0; at < KHAMDORIEM_STRICT_RECORD; at += 8) {
        uint64_t word = khamdoriem_word(record, at);
        CHECK(is_wrong(claim_with(at, word + 1)) && is_wrong(claim_with(at, word - 1)));
        CHECK(word == UINT64_MAX || claim_with(at, UINT64_MAX) == KHAMDORIEM_UNSUITABLE ||
              claim_with(at, UINT64_MAX) == KHAMDORIEM_WRONG_CLAIM);
    }
    for (i = 0; i < e; i++)
        for (k = 0; k < 2; k++) {
            size_t *number = (k ? &vendor_elements[i].id_len : &vendor_elements[i].id_start);
            CHECK(wrong_with(number, *number + 1) && wrong_with(number, *number - 1) && wrong_with(number, SIZE_MAX));
        }
    for (i = 0; i < p; i++)
        for (k = 0; k < 5; k++) {
            khamdoriem_param *param = &vendor_params[i];
            size_t *numbers[5];
            size_t *number;
            numbers[0] = &param->element, numbers[1] = &param->name_start, numbers[2] = &param->name_len;
            numbers[3] = &param->value_start, numbers[4] = &param->value_len, number = numbers[k];
            CHECK(wrong_with(number, *number + 1) && wrong_with(number, *number - 1) && wrong_with(number, SIZE_MAX));
        }
    CHECK(claim() == KHAMDORIEM_DONE);
}

static void check_claims(void) {
    claim_of("<0>1 - - - - - -");
    check_changed_claim();
    claim_of("<0>1 - - - - - - ");
    check_changed_claim();
    claim_of("<34>1 2023-12-31T10:01:02.120+01:00 gate7 reader 42 TAP [t@32473 ms=\"212\" q=\"\\\"\"][u] "
             "\xEF\xBB\xBFok");
    check_changed_claim();
    /* which of the two: what does not suit is 7, what is not the line's is 16 */
    CHECK(claim_with(KHAMDORIEM_AT_FACILITY + 8, 24) == KHAMDORIEM_UNSUITABLE);
    CHECK(claim_with(KHAMDORIEM_AT_FACILITY + 8, 5) == KHAMDORIEM_WRONG_CLAIM);
    CHECK(claim_with(KHAMDORIEM_AT_PROTOCOL, KHAMDORIEM_PROTOCOL_RFC3164) == KHAMDORIEM_UNSUITABLE);
    CHECK(claim_with(KHAMDORIEM_AT_VERSION, 2) == KHAMDORIEM_WRONG_CLAIM);
    CHECK(claim_with(KHAMDORIEM_AT_DIGITS, 2) == KHAMDORIEM_WRONG_CLAIM);
    CHECK(claim_with(KHAMDORIEM_AT_DIGITS, 9) == KHAMDORIEM_WRONG_CLAIM);
    CHECK(claim_with(KHAMDORIEM_AT_DIGITS, 1) == KHAMDORIEM_UNSUITABLE);
    CHECK(claim_with(KHAMDORIEM_AT_TIMESTAMP_TEXT + 8, len) == KHAMDORIEM_UNSUITABLE);
    CHECK(claim_with(KHAMDORIEM_AT_TIMESTAMP_TEXT + 8, 0) == KHAMDORIEM_WRONG_CLAIM);
    CHECK(claim_with(KHAMDORIEM_AT_TIMESTAMP_TEXT, 2) == KHAMDORIEM_UNSUITABLE);
    CHECK(claim_with(KHAMDORIEM_AT_HAS_MESSAGE, 0) == KHAMDORIEM_WRONG_CLAIM);
    CHECK(claim_with(KHAMDORIEM_AT_HAS_MESSAGE, 2) == KHAMDORIEM_UNSUITABLE);
    CHECK(claim_with(KHAMDORIEM_AT_ELEMENTS, 1) == KHAMDORIEM_WRONG_CLAIM);
    CHECK(claim_with(KHAMDORIEM_AT_PARAMS, 1) == KHAMDORIEM_WRONG_CLAIM);
    CHECK(claim_with(KHAMDORIEM_AT_ELEMENTS, 5) == KHAMDORIEM_UNSUITABLE);
    /* a table that is shorter than its count; a record that is a byte short */
    CHECK(khamdoriem_check_claim(line, len, record, KHAMDORIEM_STRICT_RECORD, vendor_elements, 1, vendor_params, 4) ==
          KHAMDORIEM_UNSUITABLE);
    CHECK(khamdoriem_check_claim(line, len, record, KHAMDORIEM_STRICT_RECORD - 1, vendor_elements, 4, vendor_params,
                                 4) == KHAMDORIEM_UNSUITABLE);
    /* another line */
    line[len - 1] = '\xFF';
    CHECK(claim() == KHAMDORIEM_WRONG_CLAIM);
    line[len - 1] = 'k', line[len] = '!', len++;
    CHECK(claim() == KHAMDORIEM_WRONG_CLAIM);
    len = KHAMDORIEM_LINE_LIMIT + 1;
    CHECK(claim() == KHAMDORIEM_LINE_TOO_LONG);
}

/* The three ways to write an offset of 0 are all a claim of 0, and none of +60, even with the instant moved along. */
static void check_claimed_zones(void) {
    const char *zones[] = {"Z", "+00:00", "-00:00"};
    int i;
    for (i = 0; i < 3; i++) {
        char text[64];
        uint64_t seconds;
        sprintf(text, "<0>1 2023-02-05T10:01:02%s - - - - -", zones[i]);
        claim_of(text);
        seconds = khamdoriem_word(record, KHAMDORIEM_AT_SECONDS);
        CHECK(khamdoriem_word(record, KHAMDORIEM_AT_OFFSET) == 0);
        CHECK(claim_with(KHAMDORIEM_AT_OFFSET, 60) == KHAMDORIEM_WRONG_CLAIM);
        put_word(KHAMDORIEM_AT_SECONDS, seconds - 3600);
        CHECK(claim_with(KHAMDORIEM_AT_OFFSET, 60) == KHAMDORIEM_WRONG_CLAIM);
    }
}

/* A claim of a line that the grammar does not derive, as a vendor would make it who lets ids repeat. */
static void check_claimed_ids(void) {
    claim_of("<0>1 - - - - - [a][b]");
    line[19] = 'a';
    CHECK(!memcmp(line + 15, "[a][a]", 6) && strict().number == KHAMDORIEM_NO_READING);
    CHECK(claim() == KHAMDORIEM_WRONG_CLAIM);
}

static void check_names(void) {
    CHECK(named(khamdoriem_facility_name(0), "kern") && named(khamdoriem_facility_name(10), "authpriv"));
    CHECK(named(khamdoriem_facility_name(16), "local0") && named(khamdoriem_facility_name(23), "local7"));
    CHECK(named(khamdoriem_facility_name(KHAMDORIEM_TALLY_NO_FACILITY), "none") && !khamdoriem_facility_name(25));
    CHECK(named(khamdoriem_severity_name(0), "emerg") && named(khamdoriem_severity_name(7), "debug"));
    CHECK(named(khamdoriem_severity_name(KHAMDORIEM_TALLY_NO_SEVERITY), "none") && !khamdoriem_severity_name(9));
    CHECK(named(khamdoriem_field_name(0), "protocol") && named(khamdoriem_field_name(6), "process id"));
    CHECK(named(khamdoriem_field_name(KHAMDORIEM_FIELDS - 1), "message") && !khamdoriem_field_name(KHAMDORIEM_FIELDS));
    CHECK(1u << (KHAMDORIEM_FIELDS - 1) == KHAMDORIEM_FIELD_MESSAGE);
}

static void check_texts(void) {
    uint32_t i, k;
    for (i = 0; i <= 16; i++)
        for (k = 0; k < i; k++) CHECK(strcmp(khamdoriem_refusal_text(i), khamdoriem_refusal_text(k)) != 0);
    CHECK(khamdoriem_refusal_text(18) == khamdoriem_refusal_text(4294967295u));
    CHECK(strcmp(khamdoriem_refusal_text(17), khamdoriem_refusal_text(18)) != 0);
}

int main(void) {
    CHECK(khamdoriem_interface() == KHAMDORIEM_INTERFACE);
    check_strict_fields();
    check_absent_fields();
    check_loose_fields();
    check_variants();
    check_refused_readings();
    check_reach();
    check_no_room();
    check_output();
    check_alignment();
    check_suits_record();
    check_suits_tables();
    check_elements_enough();
    check_params_enough();
    check_output_enough();
    check_stream_kinds();
    check_counted_stream();
    check_lines_stream();
    check_long_frames();
    check_refused_feeds();
    check_tally_adds();
    check_tally_refusals();
    check_tally_reads();
    check_tally_records();
    check_settings_bytes();
    check_settings_files();
    check_settings_fields();
    check_settings_writes();
    check_site_hosts();
    check_site_refusals();
    check_claims();
    check_claimed_zones();
    check_claimed_ids();
    check_writes();
    check_written_reads();
    check_unwritable();
    check_write_order();
    check_fields_compared();
    check_elements_compared();
    check_compare_tables();
    check_refused_comparisons();
    check_names();
    check_texts();
    printf("checks: %lu passed, %lu failed\n", passed, failed);
    return failed ? EXIT_FAILURE : EXIT_SUCCESS;
}
