/* How many records of each facility and severity came in, as a table for a person.

       tally [FILE]

   FILE, or standard input, has a line of syslog to a line, of either protocol. A line that has no reading is a record
   of neither facility nor severity. The table has a row for each facility that came and for none, a column for each
   severity and for none, and their sums; a cell of 0 is a point. A line that is refused is told on standard error and
   not counted. */
#include <errno.h>
#include <inttypes.h>
#include <stdio.h>
#include <string.h>

#include "khamdoriem.h"

enum { YEAR = 2026, OFFSET_MINUTES = 60 };

static khamdoriem_counts tally[KHAMDORIEM_TALLY_ROWS]; /* empty at the start */
static unsigned long lines, refused;

/* Adds a line to the tally, or tells why not. */
static void add_line(const uint8_t *line, size_t len) {
    static uint8_t record[KHAMDORIEM_RECORD];
    static khamdoriem_element elements[KHAMDORIEM_ELEMENTS_ENOUGH];
    static khamdoriem_param params[KHAMDORIEM_PARAMS_ENOUGH];
    uint32_t number = khamdoriem_read_loose(line, len, KHAMDORIEM_VARIANT_EITHER, YEAR, OFFSET_MINUTES, elements,
                                            KHAMDORIEM_ELEMENTS_ENOUGH, params, KHAMDORIEM_PARAMS_ENOUGH, record,
                                            sizeof record)
                          .number;
    if (number == KHAMDORIEM_DONE) number = khamdoriem_tally_record(tally, KHAMDORIEM_TALLY_ROWS, record);
    lines++;
    if (number == KHAMDORIEM_DONE) return;
    refused++;
    fprintf(stderr, "tally: line %lu: refusal %" PRIu32 ": %s\n", lines, number, khamdoriem_refusal_text(number));
}

/* Adds every line of a file. A line is kept up to one byte over the limit, so that the reader refuses a longer one. */
static void add_file(FILE *file) {
    static uint8_t line[KHAMDORIEM_LINE_LIMIT + 1];
    size_t len = 0;
    int byte;
    while ((byte = getc(file)) != EOF) {
        if (byte == '\n') {
            add_line(line, len);
            len = 0;
        } else if (len < sizeof line) {
            line[len++] = (uint8_t)byte;
        }
    }
    if (len) add_line(line, len);
}

static uint64_t row_sum(uint32_t row) { return khamdoriem_tally_row(tally, KHAMDORIEM_TALLY_ROWS, row).sum; }

static uint64_t column_sum(uint32_t column) {
    return khamdoriem_tally_column(tally, KHAMDORIEM_TALLY_ROWS, column).sum;
}

/* A column is as wide as its name and its sum, which is no less than any of its cells. */
static int wide(const char *name, uint64_t sum) {
    int digits = snprintf(NULL, 0, "%" PRIu64, sum), letters = (int)strlen(name);
    return digits > letters ? digits : letters;
}

/* The counts of a row, each in its column; a null row is that of the sums. */
static void put_row(const char *name, const uint32_t *row, uint64_t total) {
    uint32_t column;
    printf("%-8s", name);
    for (column = 0; column < KHAMDORIEM_TALLY_COLUMNS; column++) {
        uint64_t sum = column_sum(column);
        uint64_t count = row ? khamdoriem_tally_cell(tally, KHAMDORIEM_TALLY_ROWS, *row, column).count : sum;
        int width = wide(khamdoriem_severity_name(column), sum);
        if (row && !count)
            printf("  %*s", width, ".");
        else
            printf("  %*" PRIu64, width, count);
    }
    printf("  %*" PRIu64 "\n", wide("sum", total), row ? row_sum(*row) : total);
}

static void put_table(void) {
    uint64_t total = 0;
    uint32_t row, column;
    for (row = 0; row < KHAMDORIEM_TALLY_ROWS; row++) total += row_sum(row);
    printf("%-8s", "facility");
    for (column = 0; column < KHAMDORIEM_TALLY_COLUMNS; column++) {
        const char *name = khamdoriem_severity_name(column);
        printf("  %*s", wide(name, column_sum(column)), name);
    }
    printf("  %*s\n", wide("sum", total), "sum");
    for (row = 0; row < KHAMDORIEM_TALLY_ROWS; row++)
        if (row_sum(row)) put_row(khamdoriem_facility_name(row), &row, total);
    put_row("sum", NULL, total);
}

static int failed(const char *what) {
    fprintf(stderr, "tally: %s: %s\n", what, strerror(errno));
    return 1;
}

int main(int argc, char **argv) {
    FILE *file = stdin;
    const char *name = argc > 1 ? argv[1] : "standard input";
    if (argc > 2) {
        fputs("usage: tally [FILE]\n", stderr);
        return 2;
    }
    if (khamdoriem_interface() != KHAMDORIEM_INTERFACE) {
        fputs("tally: archive and header have different interfaces\n", stderr);
        return 1;
    }
    if (argc > 1 && !(file = fopen(name, "rb"))) return failed(name);
    add_file(file);
    if (ferror(file)) return failed(name);
    put_table();
    if (fclose(stdout)) return failed("standard output");
    fprintf(stderr, "tally: %lu lines, %lu of them refused\n", lines, refused);
    return 0;
}
