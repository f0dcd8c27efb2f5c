/* Wrong answers laid over the archive's own, one by one, to see that the harness finds each. The archive's functions are renamed right_*;
   these stand in their place, and the variable FAULT says which of them is wrong. harness/try-faults builds and runs them. */
#include <stdlib.h>
#include <string.h>
#include "khamdoriem.h"

#define WORD(record, at) (((uint64_t *)(record))[at])

/* The words of a record that are looked at here. */
enum { PROTOCOL = 0, VERSION = 1, FACILITY = 2, SEVERITY = 4, STAMP = 6, SECONDS = 7, NANOS = 8, DIGITS = 9, OFFSET = 10, HOST = 11, APP = 14, PID = 17, MSGID = 20, MESSAGE = 23, MESSAGE_LEN = 24, ELEMENTS = 25, PARAMS = 26, STAMP_TEXT = 27, HAS_MESSAGE = 30 };

uint32_t right_interface(void);
struct khamdoriem_read right_read_loose(const uint8_t *, size_t, uint32_t, uint32_t, int32_t, khamdoriem_element *, size_t, khamdoriem_param *, size_t,
                                        uint8_t *, size_t);
struct khamdoriem_read right_read_strict(const uint8_t *, size_t, khamdoriem_element *, size_t, khamdoriem_param *, size_t, uint8_t *, size_t);
struct khamdoriem_written right_print(const uint8_t *, size_t, const uint8_t *, size_t, const khamdoriem_element *, size_t, const khamdoriem_param *, size_t,
                                      uint8_t *, size_t);
struct khamdoriem_written right_lookup(const uint8_t *, size_t, const uint8_t *, size_t, const khamdoriem_element *, size_t, const khamdoriem_param *, size_t,
                                       const uint8_t *, size_t, const uint8_t *, size_t, uint32_t, uint8_t *, size_t);

struct khamdoriem_started right_stream_start(uint32_t);
struct khamdoriem_fed right_stream_feed(struct khamdoriem_stream, const uint8_t *, size_t, uint8_t *, size_t);
struct khamdoriem_finished right_stream_finish(struct khamdoriem_stream);

uint32_t right_tally_add(khamdoriem_counts *, size_t, uint32_t, uint32_t, uint32_t, uint32_t);
struct khamdoriem_cell right_tally_cell(const khamdoriem_counts *, size_t, uint32_t, uint32_t);
struct khamdoriem_sum right_tally_row(const khamdoriem_counts *, size_t, uint32_t);
struct khamdoriem_sum right_tally_column(const khamdoriem_counts *, size_t, uint32_t);

struct khamdoriem_settings right_settings_read(const uint8_t *, size_t, uint32_t);
struct khamdoriem_settings right_settings_read_1(const uint8_t *, size_t, uint32_t);
struct khamdoriem_written right_settings_write(uint32_t, uint32_t, uint32_t, int32_t, uint32_t, const uint8_t *, size_t, uint8_t *, size_t);
struct khamdoriem_site right_read_with_settings(const uint8_t *, size_t, uint32_t, const uint8_t *, size_t, khamdoriem_element *, size_t, khamdoriem_param *,
                                                size_t, uint8_t *, size_t);

uint32_t right_check_claim(const uint8_t *, size_t, const uint8_t *, size_t, const khamdoriem_element *, size_t, const khamdoriem_param *, size_t);

struct khamdoriem_written right_write_strict(const uint8_t *, size_t, struct khamdoriem_fields, const khamdoriem_element *, size_t, const khamdoriem_param *,
                                             size_t, uint8_t *, size_t);

struct khamdoriem_compared right_compare(const uint8_t *, size_t, const uint8_t *, size_t, uint32_t, uint32_t, int32_t, khamdoriem_element *, size_t,
                                         khamdoriem_param *, size_t, khamdoriem_element *, size_t, khamdoriem_param *, size_t);

static int fault(void) {
    static int number = -1;
    if (number < 0) number = getenv("FAULT") ? atoi(getenv("FAULT")) : 0;
    return number;
}

/* Is nothing set in the record but the message, as where the whole line is the message? */
static int message_alone(const uint8_t *record) {
    return !(WORD(record, PROTOCOL) | WORD(record, FACILITY) | WORD(record, SEVERITY) | WORD(record, STAMP) | WORD(record, HOST) | WORD(record, APP) |
             WORD(record, ELEMENTS));
}

/* Where the digits of the printed fraction end: `<p>version`, a space, 19 bytes of date and clock, the point, the digits. */
static size_t fraction_end(const uint8_t *output, const uint8_t *record) {
    return (size_t)((const uint8_t *)strchr((const char *)output, ' ') - output) + 1 + 19 + 1 + WORD(record, DIGITS);
}

uint32_t khamdoriem_interface(void) { return right_interface() + (fault() == 34); }                     /* another interface */

struct khamdoriem_read khamdoriem_read_loose(const uint8_t *line, size_t line_len, uint32_t variant, uint32_t year, int32_t offset,
                                             khamdoriem_element *elements, size_t elements_len, khamdoriem_param *params, size_t params_len,
                                             uint8_t *record, size_t record_len) {
    struct khamdoriem_read a = right_read_loose(line, line_len, variant, year, offset, elements, elements_len, params, params_len, record, record_len);
    uint32_t n = a.number;
    switch (fault()) {
    case 1: if (n == 5 && elements_len) elements[0].id_start = 0; break;                                /* a refused call fills a table */
    case 2: if (n == 0 && record_len > KHAMDORIEM_RECORD) record[KHAMDORIEM_RECORD] = 0; break;         /* a byte past the record */
    case 3: if (n == 0 && WORD(record, PARAMS) > 2 && params_len > WORD(record, PARAMS)) params[WORD(record, PARAMS)].value_len = 0; break; /* an entry past the count */
    case 4: if (n == 0 && WORD(record, NANOS) == 123456789) WORD(record, NANOS)--; break;               /* a nanosecond lost */
    case 5: if (n == 6) a.number = 5; break;                                                            /* the wrong table named */
    case 6: if (n == 0 && WORD(record, MESSAGE_LEN) == 0) WORD(record, MESSAGE) = 0; break;             /* an empty message at the line's start */
    case 7: if (n == 0 && WORD(record, PARAMS) == 2 && params[1].value_len == 0) params[1].value_start = 0; break; /* an empty value at the line's start */
    case 8: if (line_len == 8192) a.number = 1; break;                                                  /* the length limit off by one */
    case 9: if (line_len > 8192 && variant > 2) a.number = 2; break;                                    /* refusals in another order */
    case 10: if (line_len == 0) a.whole = 0; break;                                                     /* the empty line has a reading */
    case 11: if (n == 3) a.number = 4; break;                                                           /* another number */
    case 12: if (n == 8 && record_len) record[0] = 0; break;                                            /* a refused call writes the record */
    case 22: if (n == 0 && !WORD(record, PROTOCOL) && WORD(record, MESSAGE_LEN) && line[WORD(record, MESSAGE)] == '-') { WORD(record, MESSAGE)++; WORD(record, MESSAGE_LEN)--; } break; /* a hyphen lost */
    case 23: if (n == 0 && WORD(record, PROTOCOL) && !WORD(record, ELEMENTS) && WORD(record, MESSAGE_LEN) && line[WORD(record, MESSAGE) - 2] == '-') { WORD(record, MESSAGE) -= 2; WORD(record, MESSAGE_LEN) += 2; } break; /* one kept in RFC 5424 */
    case 24: if (line_len && variant == 2) a.whole = 0; break;                                          /* a whole line answered as a reading */
    case 25: if (n == 0 && message_alone(record)) a.whole = 1; break;                                   /* a reading answered as a whole line */
    case 26: if (n == 0 && a.whole && line_len == 1) a.number = 4; break;                               /* a whole line refused */
    case 27: if (n == 0 && a.whole && line_len && line[line_len - 1] == ' ') WORD(record, MESSAGE_LEN)--; break; /* a whole line trimmed */
    case 28: if (n == 3) a.reach = line_len; break;                                                     /* a length beside a refusal */
    case 31: if (n == 0 && WORD(record, NANOS) == 0) WORD(record, DIGITS) = 0; break;                   /* a fraction of zeros taken for none */
    }
    return a;
}

/* How far a line goes that is this one but for some bytes: the whole line where it is not refused with 4. */
static size_t reach_of(const uint8_t *line, size_t line_len) {
    khamdoriem_element element;
    khamdoriem_param param;
    uint8_t record;
    struct khamdoriem_read a = right_read_strict(line, line_len, &element, 0, &param, 0, &record, 0);
    return a.number == 4 ? a.reach : line_len;
}

/* The same where each element's id has another first byte, so that no two are alike. */
static size_t reach_of_other_ids(const uint8_t *line, size_t line_len) {
    static uint8_t copy[KHAMDORIEM_LINE_LIMIT];
    uint8_t next = '0';
    memcpy(copy, line, line_len);
    for (size_t i = 1; i + 1 < line_len; i++)
        if (copy[i - 1] == ']' && copy[i] == '[' && copy[i + 1] > ' ' && copy[i + 1] < 127 && !strchr("=]\"", copy[i + 1]) && next < '<') copy[i + 1] = next++;
    return reach_of(copy, line_len);
}

/* The same where the month, if there is one, is January. */
static size_t reach_of_january(const uint8_t *line, size_t line_len) {
    static uint8_t copy[KHAMDORIEM_LINE_LIMIT];
    size_t at = 0;
    memcpy(copy, line, line_len);
    while (at < line_len && copy[at] != ' ') at++;
    if (at + 8 < line_len && reach_of(line, line_len) >= at + 8 && copy[at + 1] != '-') copy[at + 6] = '0', copy[at + 7] = '1';
    return reach_of(copy, line_len);
}

/* Does an id end here, after 30 bytes, though a byte of a name stands here? */
static int stops_in_id(const uint8_t *line, size_t line_len, size_t at) {
    if (at < 31 || at >= line_len || line[at - 31] != '[') return 0;
    for (size_t i = at - 30; i <= at; i++)
        if (line[i] <= ' ' || line[i] > '~' || strchr("=]\"", line[i])) return 0;
    return 1;
}

struct khamdoriem_read khamdoriem_read_strict(const uint8_t *line, size_t line_len, khamdoriem_element *elements, size_t elements_len,
                                              khamdoriem_param *params, size_t params_len, uint8_t *record, size_t record_len) {
    struct khamdoriem_read a = right_read_strict(line, line_len, elements, elements_len, params, params_len, record, record_len);
    switch (fault()) {
    case 13: if (a.number == 0 && WORD(record, HOST + 2) == 255) a.number = 4; break;       /* the host's limit off by one */
    case 14: if (a.number == 0 && WORD(record, HAS_MESSAGE) && WORD(record, MESSAGE_LEN) == 0) WORD(record, HAS_MESSAGE) = 0; break; /* an empty message taken for none */
    case 32: if (a.number == 0 && WORD(record, DIGITS) == 6) WORD(record, DIGITS)++; break; /* the point counted with the digits */
    case 105: if (a.number == 4 && a.reach < line_len) a.reach++; break;                     /* how far it goes, and the byte that is wrong */
    case 106: if (a.number == 4 && a.reach) a.reach--; break;                                /* one byte less */
    case 107: a.reach = 0; break;                                                            /* nothing reported */
    case 108: if (a.number == 4) a.reach = line_len; break;                                  /* always the whole line */
    case 109: if (a.number == 4) a.reach = reach_of_other_ids(line, line_len); break;        /* ids that are used taken for free */
    case 110: if (a.number == 4) a.reach = reach_of_january(line, line_len); break;          /* 31 days in every month */
    case 111: if (a.number == 0) a.reach = line_len; break;                                  /* a length beside a reading */
    case 112: if (a.number == 5) a.reach = line_len; break;                                  /* a length beside another refusal */
    case 113: if (a.number == 4 && stops_in_id(line, line_len, a.reach)) a.reach++; break;   /* the 91 ids behind one of 31 bytes not asked for */
    case 114: if (a.number == 4 && a.reach && line[a.reach - 1] >= 0xC2 && line[a.reach - 1] <= 0xF4) a.reach--; break; /* a character that is not whole not counted */
    }
    return a;
}

struct khamdoriem_written khamdoriem_print(const uint8_t *line, size_t line_len, const uint8_t *record, size_t record_len, const khamdoriem_element *elements,
                                           size_t elements_len, const khamdoriem_param *params, size_t params_len, uint8_t *output, size_t output_len) {
    struct khamdoriem_written w = right_print(line, line_len, record, record_len, elements, elements_len, params, params_len, output, output_len);
    switch (fault()) {
    case 15: if (w.number == 8 && output_len) output[output_len - 1] = 0; break;            /* a refused call writes */
    case 16: if (w.number == 0 && output_len > w.len) output[w.len] = '\n'; break;          /* a byte past the result */
    case 17: if (w.number == 7 && record_len >= KHAMDORIEM_RECORD && WORD(record, NANOS) == 1000000000) w.number = 0; break; /* nanoseconds over the limit */
    case 21: if (w.number == 7 && params_len) ((size_t *)params)[0]++; break;               /* a table that is only to be read */
    case 29:                                                                                /* a digit dropped, where the number stays the same */
        if (w.number == 0 && WORD(record, DIGITS) > 1 && output[fraction_end(output, record) - 1] == '0') {
            size_t end = fraction_end(output, record);
            memmove(output + end - 1, output + end, w.len-- - end);
        }
        break;
    case 30:                                                                                /* a zero too many */
        if (w.number == 0 && WORD(record, DIGITS) && output_len > w.len) {
            size_t end = fraction_end(output, record);
            memmove(output + end + 1, output + end, w.len++ - end);
            output[end] = '0';
        }
        break;
    case 33: if (w.number == 7 && record_len >= KHAMDORIEM_RECORD && WORD(record, NANOS) == 500000000 && WORD(record, DIGITS) == 0) w.number = 0; break; /* digits that do not show the nanoseconds */
    }
    return w;
}

struct khamdoriem_written khamdoriem_lookup(const uint8_t *line, size_t line_len, const uint8_t *record, size_t record_len, const khamdoriem_element *elements,
                                            size_t elements_len, const khamdoriem_param *params, size_t params_len, const uint8_t *id, size_t id_len,
                                            const uint8_t *name, size_t name_len, uint32_t kind, uint8_t *output, size_t output_len) {
    struct khamdoriem_written w =
        right_lookup(line, line_len, record, record_len, elements, elements_len, params, params_len, id, id_len, name, name_len, kind, output, output_len);
    switch (fault()) {
    case 18: if (w.number == 7 && kind == 1) w.number = 9; break;                                           /* refusals in another order */
    case 19: if (w.number == 0 && kind == 1 && w.len == 2 && output[0] == '\\' && output[1] == 'n') output[0] = '\n'; break; /* the loose unescaping */
    case 20: if (w.number == 9 && id_len == 0) w = (struct khamdoriem_written){0, 0}; break;                /* a parameter that is not there */
    }
    return w;
}

struct khamdoriem_started khamdoriem_stream_start(uint32_t kind) {
    struct khamdoriem_started a = right_stream_start(kind);
    if (fault() == 35 && kind == 2) a = right_stream_start(0);                                              /* another kind taken for counted */
    return a;
}

struct khamdoriem_fed khamdoriem_stream_feed(struct khamdoriem_stream state, const uint8_t *bytes, size_t bytes_len, uint8_t *buffer, size_t buffer_len) {
    static int twice;
    struct khamdoriem_fed a = right_stream_feed(state, bytes, bytes_len, buffer, buffer_len);
    switch (fault()) {
    case 36: if (a.frame && state.came) a.frame = 0, a.len = 0; break;                                      /* a frame lost at a cut */
    case 37: if (a.state.stage == 2 && a.state.came == 0 && bytes_len) a.state.left++; break;               /* the count off by one */
    case 38:                                                                                                /* 12 reported twice */
        if (a.number == 12) twice = 1;
        else if (a.frame && twice) a.number = 12, a.frame = 0, a.len = 0, twice = 0;
        break;
    case 39: if (a.number == 12 && a.state.stage == 3) a.taken--; break;                                    /* LF of a long line taken as an empty frame */
    case 40: if (a.number == 11) a.state.stage = 1; break;                                                  /* a bad count does not end the stream */
    case 41: if (a.frame && a.len < KHAMDORIEM_LINE_LIMIT) buffer[a.len] = 0; break;                        /* a byte past the frame */
    case 42: if (a.frame && a.len == KHAMDORIEM_LINE_LIMIT) a.number = 12, a.frame = 0, a.len = 0; break;   /* the limit off by one */
    case 43: if (a.number == 8 && bytes_len) a.taken = 1; break;                                            /* a refused call takes a byte */
    }
    return a;
}

struct khamdoriem_finished khamdoriem_stream_finish(struct khamdoriem_stream state) {
    struct khamdoriem_finished a = right_stream_finish(state);
    if (fault() == 44 && a.unfinished > KHAMDORIEM_LINE_LIMIT) a.unfinished = KHAMDORIEM_LINE_LIMIT;        /* of a frame that is passed over, what is held */
    return a;
}

uint32_t khamdoriem_tally_add(khamdoriem_counts *rows, size_t rows_len, uint32_t facility_mark, uint32_t facility, uint32_t severity_mark, uint32_t severity) {
    /* What comes in is changed here, so that the right function gives a wrong answer; below, what it answers. */
    switch (fault()) {
    case 45: if (facility_mark == 1 && facility < 8 && severity_mark == 1 && severity < 8) { uint32_t kept = facility; facility = severity, severity = kept; } break; /* row and column exchanged */
    case 46: if (facility_mark == 1 && facility == KHAMDORIEM_TALLY_NO_FACILITY) facility_mark = facility = 0; break; /* facility 24 taken for none */
    case 47: if (severity_mark == 1 && severity == KHAMDORIEM_TALLY_NO_SEVERITY) severity_mark = severity = 0; break; /* severity 8 taken for none */
    case 48: if (facility_mark == 0) facility = 0; break;                                                   /* a number beside a mark of 0 passed over */
    case 49: if (severity_mark > 1) severity_mark = 1; break;                                               /* any mark taken for 1 */
    case 50: facility %= 256; break;                                                                        /* a facility of 8 bits */
    }
    uint32_t number = right_tally_add(rows, rows_len, facility_mark, facility, severity_mark, severity);
    uint32_t row = facility_mark ? facility : KHAMDORIEM_TALLY_NO_FACILITY, column = severity_mark ? severity : KHAMDORIEM_TALLY_NO_SEVERITY;
    switch (fault()) {
    case 51: if (number == 0 && column < 8) rows[row].count[column]--, rows[row].count[column + 1]++; break; /* the neighbour raised */
    case 52: if (number == 10) rows[row].count[column] = 0, number = 0; break;                              /* the limit wraps */
    case 53: if (number == 10) number = 0; break;                                                           /* a full cell stays full, as if done */
    case 54: if (number == 0 && rows[row].count[column] == KHAMDORIEM_TALLY_MOST) rows[row].count[column]--, number = 10; break; /* the limit off by one */
    case 55: if (number == 7 && rows_len < KHAMDORIEM_TALLY_ROWS) number = 8; break;                        /* refusals in another order */
    case 56: if (number == 7 && rows_len >= KHAMDORIEM_TALLY_ROWS) rows[24].count[8]++; break;              /* a refused call counts as none */
    case 57: if (number == 0 && rows_len > KHAMDORIEM_TALLY_ROWS) rows[KHAMDORIEM_TALLY_ROWS].count[column]++; break; /* a row past the 25th */
    }
    return number;
}

struct khamdoriem_cell khamdoriem_tally_cell(const khamdoriem_counts *rows, size_t rows_len, uint32_t row, uint32_t column) {
    struct khamdoriem_cell a = right_tally_cell(rows, rows_len, row, column);
    switch (fault()) {
    case 58: if (row < 9 && column < 9) a = right_tally_cell(rows, rows_len, column, row); break;           /* row and column exchanged */
    case 59: if (a.number == 7 && column == 9) a.number = 0; break;                                         /* column 9 holds 0 */
    case 60: if (a.number == 8 && row < rows_len) a.count = rows[row].count[column]; break;                 /* a count beside a refusal */
    }
    return a;
}

struct khamdoriem_sum khamdoriem_tally_row(const khamdoriem_counts *rows, size_t rows_len, uint32_t row) {
    struct khamdoriem_sum a = right_tally_row(rows, rows_len, row);
    switch (fault()) {
    case 61: if (a.number == 0) a.sum -= rows[row].count[KHAMDORIEM_TALLY_NO_SEVERITY]; break;              /* a row's sum misses none */
    case 62: a.sum = (uint32_t)a.sum; break;                                                                /* a sum of 32 bits */
    case 63: if (row == 25) a = right_tally_row(rows, rows_len, 0); break;                                  /* row 25 taken for row 0 */
    }
    return a;
}

struct khamdoriem_sum khamdoriem_tally_column(const khamdoriem_counts *rows, size_t rows_len, uint32_t column) {
    struct khamdoriem_sum a = right_tally_column(rows, rows_len, column);
    switch (fault()) {
    case 64: if (a.number == 0) a.sum -= rows[KHAMDORIEM_TALLY_NO_FACILITY].count[column]; break;           /* a column's sum misses none */
    case 65: if (a.number == 0 && rows_len > KHAMDORIEM_TALLY_ROWS) a.sum += rows[KHAMDORIEM_TALLY_ROWS].count[column]; break; /* rows past the 25th in the sum */
    case 66: if (a.number == 8 && rows_len == KHAMDORIEM_TALLY_ROWS - 1) a.number = 0; break;               /* 24 rows taken for a tally */
    }
    return a;
}

enum { BYTES = KHAMDORIEM_SETTINGS_RECORD, HOST_AT = 8, VARIANT_AT = 28 };

static uint32_t gate_of(const uint8_t *record) { return record[6] + 256u * record[7]; }

/* The byte at which the first or the last record of a gate starts, of a file that has one. */
static size_t record_of(const uint8_t *file, size_t file_len, uint32_t gate, int first) {
    size_t at, found = 0;
    for (at = 0; at + BYTES <= file_len; at += BYTES) {
        if (gate_of(file + at) != gate) continue;
        found = at;
        if (first) break;
    }
    return found;
}

/* The answer to one record, which starts there in its file. */
static struct khamdoriem_settings of_record(const uint8_t *record, size_t at, uint32_t gate) {
    struct khamdoriem_settings a = right_settings_read(record, BYTES, gate);
    if (a.number == 0) a.host_start += at;
    return a;
}

/* The answer where the gate's record is judged with some of its bytes made good. */
static struct khamdoriem_settings lenient(const uint8_t *file, size_t file_len, uint32_t gate) {
    size_t at = record_of(file, file_len, gate, 0), i, len;
    uint8_t record[BYTES];
    memcpy(record, file + at, BYTES);
    len = record[1] <= KHAMDORIEM_SETTINGS_HOST ? record[1] : KHAMDORIEM_SETTINGS_HOST;
    switch (fault()) {
    case 77: memset(record + HOST_AT + len, 0, KHAMDORIEM_SETTINGS_HOST - len); break;
    case 78: memset(record + VARIANT_AT + 1, 0, 3); break;
    case 79: if (record[0] == 1) record[VARIANT_AT] = 0; break;
    case 80: for (i = 0; i < len; i++) if (record[HOST_AT + i] == 127) record[HOST_AT + i] = 'h'; break;
    }
    return of_record(record, at, gate);
}

static int is_any_marked(const uint8_t *file, size_t file_len) {
    for (; file_len; file += BYTES, file_len -= BYTES) if (file[BYTES - 1]) return 1;
    return 0;
}

struct khamdoriem_settings khamdoriem_settings_read(const uint8_t *file, size_t file_len, uint32_t gate) {
    struct khamdoriem_settings a = right_settings_read(file, file_len, gate);
    uint32_t n = a.number;
    size_t at;
    switch (fault()) {
    case 67: if (n == 0) at = record_of(file, file_len, gate, 1), a = of_record(file + at, at, gate); break;    /* the first record of a gate in place of the last */
    case 68: if (n == 0 && is_any_marked(file, file_len)) a.number = 15; break;                             /* other records judged */
    case 69: if (n == 0) a.offset = (int16_t)((uint16_t)a.offset << 8 | (uint16_t)a.offset >> 8); break;    /* the offset's high byte first */
    case 70: if (n == 13) a = right_settings_read(file, file_len - file_len % BYTES, gate); break;          /* what is left of a file passed over */
    case 71: if (n == 13 && file_len < BYTES) a.number = 9; break;                                          /* 9 before 13 */
    case 72: if (n == 14 && file[record_of(file, file_len, gate, 0) + BYTES - 1]) a.number = 15; break;     /* 15 before 14 */
    case 73: if (n == 9) a = right_settings_read(file, file_len, gate & 0xFF); break;                       /* a gate by its low byte */
    case 74: if (n == 9) a = right_settings_read(file, file_len, gate & 0xFFFF); break;                     /* a gate by its low 16 bits */
    case 75: if (n == 0 && a.year == KHAMDORIEM_LAST_YEAR) a.number = 15; break;                            /* the last year refused */
    case 76: if (n == 0 && a.offset == -KHAMDORIEM_LAST_OFFSET) a.number = 15; break;                       /* the furthest west refused */
    case 77: case 78: case 79: case 80: if (n == 15) a = lenient(file, file_len, gate); break;              /* bytes behind the host; the last three; a variant in version 1; byte 127 */
    case 81: if (n == 0) a.host_start = HOST_AT; break;                                                     /* the host's place in its record */
    case 82: if (n == 15) a.gate = gate; break;                                                             /* something beside a refusal */
    case 83: if (n == 9 && file_len == 0) a.number = 13; break;                                             /* the empty file refused with 13 */
    }
    return a;
}

struct khamdoriem_settings khamdoriem_settings_read_1(const uint8_t *file, size_t file_len, uint32_t gate) {
    if (fault() == 84) return right_settings_read(file, file_len, gate);                                    /* the reader of version 1 takes version 2 */
    return right_settings_read_1(file, file_len, gate);
}

struct khamdoriem_written khamdoriem_settings_write(uint32_t version, uint32_t gate, uint32_t year, int32_t offset, uint32_t variant, const uint8_t *host,
                                                    size_t host_len, uint8_t *output, size_t output_len) {
    uint8_t last = output_len < BYTES ? 0 : output[HOST_AT + KHAMDORIEM_SETTINGS_HOST - 1];
    struct khamdoriem_written w = right_settings_write(version, gate, year, offset, variant, host, host_len, output, output_len);
    uint32_t n = w.number;
    switch (fault()) {
    case 85: if (n == 14 && host_len > KHAMDORIEM_SETTINGS_HOST) w.number = 15; break;                      /* 15 before 14 */
    case 86: if (n == 15 && output_len < BYTES) w.number = 8; break;                                        /* 8 before 15 */
    case 87: if (n == 15 && version == 1 && variant) w = right_settings_write(version, gate, year, offset, 0, host, host_len, output, output_len); break; /* a variant in version 1 lost */
    case 88: if (n == 15 && host_len == 21) w = right_settings_write(version, gate, year, offset, variant, host, 20, output, output_len); break; /* a long host cut */
    case 89: if (n == 0) { uint8_t low = output[4]; output[4] = output[5], output[5] = low; } break;        /* the offset's high byte first */
    case 90: if (n == 0 && output_len > BYTES) output[BYTES] = 0; break;                                    /* a byte past the record */
    case 91: if (n == 8 && output_len) output[0] = (uint8_t)version; break;                                 /* a refused call writes */
    case 92: if (n == 0 && host_len < KHAMDORIEM_SETTINGS_HOST) output[HOST_AT + KHAMDORIEM_SETTINGS_HOST - 1] = last; break; /* a byte behind the host kept */
    case 93: if (n == 15 && gate == 65536) w = right_settings_write(version, 0, year, offset, variant, host, host_len, output, output_len); break; /* gate 65,536 wraps */
    }
    return w;
}

struct khamdoriem_site khamdoriem_read_with_settings(const uint8_t *file, size_t file_len, uint32_t gate, const uint8_t *line, size_t line_len,
                                                     khamdoriem_element *elements, size_t elements_len, khamdoriem_param *params, size_t params_len,
                                                     uint8_t *record, size_t record_len) {
    struct khamdoriem_settings s = right_settings_read(file, file_len, gate);
    struct khamdoriem_site a =
        right_read_with_settings(file, file_len, gate, line, line_len, elements, elements_len, params, params_len, record, record_len);
    uint32_t n = a.number;
    switch (fault()) {
    case 94: if (n == 0 && s.host_len) a = (struct khamdoriem_site){0, 2, s.host_start, s.host_len}; break; /* the default over the line's own host */
    case 95: if (n == 0 && a.holder == 0) a = (struct khamdoriem_site){0, 2, s.host_start, 0}; break;       /* an empty default taken for a host */
    case 96: if (n == 4) a.number = right_read_loose(line, line_len, s.variant, s.year, s.offset, elements, elements_len, params, params_len, record, record_len).number; break; /* the whole line in place of 4 */
    case 97: if (n > 8 && line_len > KHAMDORIEM_LINE_LIMIT) a.number = 1; break;                            /* the line's refusals before the settings' */
    case 98: if (n == 0) right_read_loose(line, line_len, s.variant, s.year, 0, elements, elements_len, params, params_len, record, record_len); break; /* another offset */
    case 99: if (n == 0) right_read_loose(line, line_len, s.variant, 2024, s.offset, elements, elements_len, params, params_len, record, record_len); break; /* another year */
    case 100: if (n == 4 && right_read_loose(line, line_len, 0, s.year, s.offset, elements, elements_len, params, params_len, record, record_len).number == 0) a.number = 0; break; /* either protocol */
    case 101: if (n == 0 && a.holder == 2) WORD(record, HOST) = 1; break;                                   /* the default in the record */
    case 102: if ((n == 5 || n == 6) && record_len < KHAMDORIEM_RECORD) a.number = 8; break;                /* 8 before 5 and 6 */
    case 103: if (a.holder == 2) a.host_start = HOST_AT; break;                                             /* the host's place in its record */
    case 104: if (n == 5 && elements_len) elements[0].id_start = 0; break;                                  /* a refused call fills a table */
    }
    return a;
}

/* What is told of the record with one of its words set to another number. */
static uint32_t claim_with(const uint8_t *line, size_t line_len, const uint8_t *record, const khamdoriem_element *elements, size_t elements_len,
                           const khamdoriem_param *params, size_t params_len, size_t at, uint64_t word) {
    uint64_t words[KHAMDORIEM_STRICT_RECORD / 8];
    memcpy(words, record, sizeof words);
    words[at] = word;
    return right_check_claim(line, line_len, (const uint8_t *)words, sizeof words, elements, elements_len, params, params_len);
}

uint32_t khamdoriem_check_claim(const uint8_t *line, size_t line_len, const uint8_t *record, size_t record_len, const khamdoriem_element *elements,
                                size_t elements_len, const khamdoriem_param *params, size_t params_len) {
    uint32_t n = right_check_claim(line, line_len, record, record_len, elements, elements_len, params, params_len);
    int whole = record_len >= KHAMDORIEM_STRICT_RECORD;
    uint64_t e = whole ? WORD(record, ELEMENTS) : 0, p = whole ? WORD(record, PARAMS) : 0;
#define WITH(at, word) claim_with(line, line_len, record, elements, elements_len, params, params_len, at, word)
    switch (fault()) {
    case 115: if (n == 16) return 7; break;                                                                 /* 7 for a wrong claim */
    case 116: if (n == 7 && !whole) return 16; break;                                                       /* 16 for memory that is too short */
    case 117: if (n == 7 && line_len > 8000) return 1; break;                                               /* 1 before 7 for a line that is long */
    case 118: if (n == 16 && WORD(record, DIGITS) && WITH(DIGITS, WORD(record, DIGITS) - 1) == 0) return 0; break; /* a digit too many */
    case 119: if (n == 16 && WITH(HAS_MESSAGE, 1 - WORD(record, HAS_MESSAGE)) == 0) return 0; break;        /* the mark of a message goes unseen */
    case 120: if (n == 16 && WITH(VERSION, 1) == 0) return 0; break;                                        /* any version for 1 */
    case 121: if (n == 16 && e && WITH(ELEMENTS, e - 1) == 0) return 0; break;                              /* an element too many */
    case 122: if (n == 16 && p < params_len && WITH(PARAMS, p + 1) == 0) return 0; break;                   /* a parameter too few */
    case 123: if (n == 0 && e < elements_len && elements[e].id_start > line_len) return 7; break;           /* entries past the counts judged */
    case 124: if (n == 0 && record_len > KHAMDORIEM_STRICT_RECORD) return 7; break;                         /* a longer record refused */
    case 125: if (n == 16 && WORD(record, STAMP) && WORD(record, OFFSET) == 60) {                           /* `Z` as +60, the clock kept */
        uint64_t words[KHAMDORIEM_STRICT_RECORD / 8];
        memcpy(words, record, sizeof words);
        words[OFFSET] = 0, words[SECONDS] += 3600;
        return right_check_claim(line, line_len, (const uint8_t *)words, sizeof words, elements, elements_len, params, params_len);
    } break;
    case 126: if (n == 16 && line_len && right_check_claim(line, line_len - 1, record, record_len, elements, elements_len, params, params_len) == 0) return 0; break; /* the last byte goes unseen */
    case 127: if (n == 0 && e > 64) return 16; break;                                                       /* many elements refused */
    case 128: if (n == 7 && whole && WITH(STAMP_TEXT + 1, 0) == 16) return 16; break;                       /* the timestamp's text is no place for 7 */
    case 129: if (n == 7 && whole && WORD(record, STAMP_TEXT) > 1 && WITH(STAMP_TEXT, 1) == 0) return 0; break; /* a mark over 1 taken for 1 */
    }
#undef WITH
    return n;
}

/* The line without the byte at that place, or as it is where there is no such place. */
static size_t without(uint8_t *line, size_t len, const uint8_t *at) {
    if (!at) return len;
    memmove(line + (at - line), at + 1, len - (size_t)(at - line) - 1);
    return len - 1;
}

/* The first of these two bytes in the first len of a line. */
static uint8_t *two(uint8_t *line, size_t len, uint8_t one, uint8_t other) {
    size_t i;
    for (i = 0; i + 1 < len; i++)
        if (line[i] == one && line[i + 1] == other) return line + i;
    return NULL;
}

struct khamdoriem_written khamdoriem_write_strict(const uint8_t *text, size_t text_len, struct khamdoriem_fields f, const khamdoriem_element *elements,
                                                  size_t elements_len, const khamdoriem_param *params, size_t params_len, uint8_t *output, size_t output_len) {
    static khamdoriem_param cut[65536];
    size_t i;
    uint8_t *at;
    /* What comes in is changed here, so that the right function gives a wrong answer; below, what it answers. */
    switch (fault()) {
    case 130: /* a value cut at NUL */
        for (i = 0; i < params_len && i < 65536; i++) {
            cut[i] = params[i];
            if (params[i].value_start > text_len || params[i].value_len > text_len - params[i].value_start) continue;
            at = (uint8_t *)memchr(text + params[i].value_start, 0, params[i].value_len);
            if (at) cut[i].value_len = (size_t)(at - text) - params[i].value_start;
        }
        params = cut;
        break;
    case 131: if (f.message.len == 0 && f.message.start <= text_len) f.message.present = 0; break;           /* an empty message written as absent */
    case 132: if (f.stamped && f.digits > 3 && f.digits <= 6 && f.nanos % 1000000 == 0) f.digits = 3; break; /* digits dropped where they are zeros */
    case 133: if (f.stamped && f.digits > 6 && f.digits <= 9) f.digits = 6, f.nanos -= f.nanos % 1000; break; /* seven digits cut to six */
    case 134: if (f.host.len == 1 && f.host.start < text_len && text[f.host.start] == '-') f.host.present = 0; break; /* the host "-" taken for absent */
    case 135: if (f.app.start > SIZE_MAX - f.app.len) f.app.start = f.app.len = 0, f.app.present = 0; break; /* a place whose end wraps */
    case 136: if (!f.procid.present) f.procid.start = f.procid.len = 0; break;                               /* the place of an absent text not asked */
    case 137: if (f.version == 1000) f.version = 999; break;                                                 /* version 1000 taken */
    case 138: if (f.priority == 192) f.priority = 191; break;                                                /* priority 192 taken */
    case 139: if (!f.stamped) f.nanos = f.digits = 0, f.seconds = 0, f.stamped = 1, f.offset = 0; break;     /* no timestamp written as 1970 */
    case 140: if (f.offset < 0 && f.offset > -60) f.offset = -f.offset; break;                               /* the sign of less than an hour lost */
    case 141: if (f.msgid.present > 1) f.msgid.present = 0; break;                                           /* a mark of 2 taken for none */
    }
    struct khamdoriem_written a = right_write_strict(text, text_len, f, elements, elements_len, params, params_len, output, output_len), b = a;
    switch (fault()) {
    case 142: if (a.number == 0) a.len = without(output, a.len, two(output, a.len, '\\', ']')); break;       /* ']' left bare */
    case 143: if (a.number == 0) a.len = without(output, a.len, two(output, a.len, '\\', '"')); break;       /* '"' left bare */
    case 144: if (a.number == 0) a.len = without(output, a.len, two(output, a.len, '\\', '\\')); break;      /* a backslash left alone */
    case 145: if (a.number == 17 && f.message.len > KHAMDORIEM_LINE_LIMIT) a.number = 1; break;              /* 1 before 17 */
    case 146: if (a.number == 1 && output_len == 0) a.number = 8; break;                                     /* 8 before 1 */
    case 147: if (a.number == 7 && f.version == 0) a.number = 17; break;                                     /* 17 before 7 */
    case 148: if (a.number == 0 && a.len < output_len) output[a.len] ^= 1; break;                            /* a byte past the line changed */
    case 149: if (a.number == 8 && output_len) output[0] = '<'; break;                                       /* a refused call writes */
    case 150: if (a.number == 17 && output_len) output[0] = '<'; break;                                      /* so does one refused with 17 */
    case 151: if (a.number == 0 && a.len == KHAMDORIEM_LINE_LIMIT) a.number = 1, a.len = 0; break;           /* the limit off by one */
    case 152: /* a repeated id among more than eight elements, the last, is left out */
        if (a.number != 17 || f.element_count <= 8) break;
        for (f.element_count--; f.param_count && params[f.param_count - 1].element >= f.element_count;) f.param_count--;
        b = right_write_strict(text, text_len, f, elements, elements_len, params, params_len, output, output_len);
        if (b.number == 0) a = b;
        break;
    case 153: /* the offset 0 as Z */
        if (a.number == 0 && f.stamped && f.offset == 0 && (at = two(output, a.len, '0', '0')) && (at = (uint8_t *)memchr(output, '+', a.len))) {
            *at = 'Z';
            for (i = 0; i < 5; i++) a.len = without(output, a.len, at + 1);
        }
        break;
    case 154: if (a.number == 17 && f.message.present && f.message.len > 3 && text[f.message.start] == 0xEF) a.number = 0; break; /* a message after its mark not asked */
    case 155: if (a.number == 8) a.len = output_len + 1; break;                                              /* a length beside a refusal */
    case 156: if (a.number == 1) a = (struct khamdoriem_written){0, output_len < KHAMDORIEM_LINE_LIMIT ? output_len : KHAMDORIEM_LINE_LIMIT}; break; /* a long line is cut */
    }
    return a;
}

/* A line of a comparison that is read, with its tables. */
struct line {
    const uint8_t *text;
    uint8_t record[KHAMDORIEM_RECORD];
    khamdoriem_element elements[KHAMDORIEM_ELEMENTS_ENOUGH];
    khamdoriem_param params[KHAMDORIEM_PARAMS_ENOUGH];
};

static struct line lines[2];

static void read_line(struct line *l, const uint8_t *text, size_t len, uint32_t variant, uint32_t year, int32_t offset) {
    l->text = text;
    right_read_loose(text, len, variant, year, offset, l->elements, KHAMDORIEM_ELEMENTS_ENOUGH, l->params, KHAMDORIEM_PARAMS_ENOUGH, l->record, sizeof l->record);
}

/* Is the one parameter the other as the lines write them, in one element? */
static int same_written(const struct line *a, const khamdoriem_param *p, const struct line *b, const khamdoriem_param *q) {
    return p->element == q->element && p->name_len == q->name_len && p->value_len == q->value_len &&
           !memcmp(a->text + p->name_start, b->text + q->name_start, p->name_len) && !memcmp(a->text + p->value_start, b->text + q->value_start, p->value_len);
}

/* Does the other line write this parameter? */
static int is_written(const struct line *a, const khamdoriem_param *p, const struct line *b) {
    for (size_t i = 0; i < WORD(b->record, PARAMS); i++)
        if (same_written(a, p, b, &b->params[i])) return 1;
    return 0;
}

/* The first parameter of the first line that the second does not write, in the same place where order counts; how many it has where there is none. */
static size_t first_unwritten(int in_order) {
    size_t i, n = WORD(lines[0].record, PARAMS);
    for (i = 0; i < n; i++) {
        const khamdoriem_param *p = &lines[0].params[i];
        int there = in_order ? i < WORD(lines[1].record, PARAMS) && same_written(&lines[0], p, &lines[1], &lines[1].params[i]) : is_written(&lines[0], p, &lines[1]);
        if (!there) break;
    }
    return i;
}

/* The answer with that parameter as a pair that differs, if there is one. */
static struct khamdoriem_compared with_unwritten(struct khamdoriem_compared a, int in_order) {
    size_t i = first_unwritten(in_order);
    if (i == WORD(lines[0].record, PARAMS)) return a;
    a.fields |= KHAMDORIEM_FIELD_ELEMENTS, a.position = lines[0].params[i].element, a.pair_line = 1, a.pair_entry = i;
    return a;
}

/* The answer with elements that do not differ. */
static struct khamdoriem_compared without_elements(struct khamdoriem_compared a) {
    a.fields &= ~(uint32_t)KHAMDORIEM_FIELD_ELEMENTS, a.position = 0, a.pair_line = 0, a.pair_entry = 0;
    return a;
}

/* Is a text absent in one line and empty in the other? */
static int is_absent_and_empty(size_t at) {
    return WORD(lines[0].record, at) != WORD(lines[1].record, at) && !WORD(lines[0].record, at + 2) && !WORD(lines[1].record, at + 2);
}

/* A wrong answer to two lines that are compared. */
static struct khamdoriem_compared miscompared(struct khamdoriem_compared a) {
    size_t at = a.pair_line ? a.pair_line - 1 : 0, k, shorter = WORD(lines[0].record, ELEMENTS);
    if (WORD(lines[1].record, ELEMENTS) < shorter) shorter = WORD(lines[1].record, ELEMENTS);
    switch (fault()) {
    case 157: if (!a.pair_line && a.position == shorter) a = without_elements(a); break;                    /* the longer list passed over behind the shorter */
    case 158: a.fields &= ~(uint32_t)KHAMDORIEM_FIELD_PROTOCOL; break;                                      /* the protocol passed over */
    case 159: if (!(a.fields & KHAMDORIEM_FIELD_ELEMENTS)) a = with_unwritten(a, 1); break;                 /* the order of pairs counts */
    case 160: if (a.pair_line && is_written(&lines[at], &lines[at].params[a.pair_entry], &lines[1 - at])) a = without_elements(a); break; /* repeats do not */
    case 163: if (a.fields & KHAMDORIEM_FIELD_ELEMENTS) a.position++; break;                                /* the position off by one */
    case 164: if (a.pair_line) a.pair_line = 3 - a.pair_line; break;                                        /* the pair of the other line */
    case 165: for (k = 0; k < 4; k++) if (is_absent_and_empty(HOST + 3 * k)) a.fields &= ~((uint32_t)KHAMDORIEM_FIELD_HOST << k); break; /* absent taken for empty */
    case 166: if (!(a.fields & KHAMDORIEM_FIELD_ELEMENTS)) a = with_unwritten(a, 0); break;                 /* values compared as they are written */
    case 167: if (WORD(lines[0].record, DIGITS) != WORD(lines[1].record, DIGITS)) a.fields |= KHAMDORIEM_FIELD_TIMESTAMP; break; /* the digits of a fraction count */
    case 168: if (!memcmp(&WORD(lines[0].record, STAMP), &WORD(lines[1].record, STAMP), 24)) a.fields &= ~(uint32_t)KHAMDORIEM_FIELD_TIMESTAMP; break; /* the offset does not */
    }
    return a;
}

struct khamdoriem_compared khamdoriem_compare(const uint8_t *line1, size_t line1_len, const uint8_t *line2, size_t line2_len, uint32_t variant, uint32_t year,
                                              int32_t offset, khamdoriem_element *elements1, size_t elements1_len, khamdoriem_param *params1, size_t params1_len,
                                              khamdoriem_element *elements2, size_t elements2_len, khamdoriem_param *params2, size_t params2_len) {
    struct khamdoriem_compared other = right_compare(line2, line2_len, line1, line1_len, variant, year, offset, elements2, elements2_len, params2, params2_len,
                                                     elements1, elements1_len, params1, params1_len);
    struct khamdoriem_compared a = right_compare(line1, line1_len, line2, line2_len, variant, year, offset, elements1, elements1_len, params1, params1_len,
                                                 elements2, elements2_len, params2, params2_len);
    switch (fault()) {
    case 161: if (other.number && other.line == 1) a = other, a.line = 2; break;                            /* the second line's refusal first */
    case 162: if (a.number && a.line == 2) right_read_loose(line1, line1_len, variant, year, offset, elements1, elements1_len, params1, params1_len, lines[0].record, KHAMDORIEM_RECORD); break; /* the first line's tables filled where the second is refused */
    case 169: if (other.pair_line == 1) a.pair_line = 2, a.pair_entry = other.pair_entry; break;            /* the second line's pairs first */
    case 170: if (a.number == 4) a.number = a.line = 0; break;                                              /* a whole line compared */
    }
    if (a.number) return a;
    read_line(&lines[0], line1, line1_len, variant, year, offset);
    read_line(&lines[1], line2, line2_len, variant, year, offset);
    return miscompared(a);
}
