/* khamdoriem.h - the C boundary of Khamdoriem, a proved reader of syslog lines. For x86-64, from C99 and C++11 on.

   Nineteen functions, and inline ones that take a record apart. Link with libkhamdoriem.a (pkg-config: khamdoriem).
   docs/INTERFACE.md says the same at length, with the record byte by byte; examples/ has a program in C, one in C++.

   The order of things: compare khamdoriem_interface() once. Lend a reader the line, two tables and memory for a record,
   and look at the number that it answers. Where that is 0, take fields out of the record, walk the tables, print or
   look up. A stream is cut into frames by the three functions of a stream: start one, feed it what comes, and read each
   frame as a line. A tally counts records by facility and severity: start from zeros, add each record, and read cells
   and sums. A settings file has the year, offset, variant and default host of each gate of a site:
   khamdoriem_read_with_settings reads a line as its gate's record says. khamdoriem_check_claim says whether a strict
   record and tables that somebody else made are the line's reading. A line that the strict reader takes is written from
   a text and the places of its fields in it. khamdoriem_compare says in which fields two lines differ.

   RULES FOR WHAT IS LENT. A slice is a pointer and a count: of bytes, of a table's entries, or of a tally's rows.
   - No pointer may be null, also where its count is 0; then it may be the address of anything. (gcc and clang warn of a
     null that they see.)
   - Tables are aligned for size_t, a tally for uint32_t. Bytes may stand anywhere.
   - What a call writes to overlaps nothing else that it is lent: of a reader both tables and the record, of
     khamdoriem_compare the four tables, of print, lookup, khamdoriem_settings_write and khamdoriem_write_strict the
     output, of khamdoriem_stream_feed the buffer. What a call only reads may overlap: an id may be a part of the line,
     and two lines that are compared may be one. (A tally is all that its calls are lent.)
   - Any count may be 0. Nothing past a result is touched: no entry past the counts, no byte past the record or past the
     length of what was written.
   - A call that answers a number other than 0 has changed nothing that it was lent; the one exception is 12 of
     khamdoriem_stream_feed, which leaves the front of the long frame in the buffer.
   - Nothing is kept after a call and nothing is allocated. There is no state but a stream's and a tally, which the
     caller keeps: threads need no lock as long as each has its own.

   A call takes at most KHAMDORIEM_STACK bytes of stack, khamdoriem_compare KHAMDORIEM_COMPARE_STACK. The archive calls memcpy and memset and nothing else, has no
   writable data, and is position-independent: it links into programs of any kind and into shared objects. */
#ifndef KHAMDORIEM_H
#define KHAMDORIEM_H

#include <stddef.h>
#include <stdint.h>
#include <string.h>

#if SIZE_MAX != UINT64_MAX
#error "khamdoriem.h: a size_t of 64 bits is needed"
#endif

#if defined(__GNUC__)
#define KHAMDORIEM_NO_NULL __attribute__((nonnull))
#else
#define KHAMDORIEM_NO_NULL
#endif

#ifdef __cplusplus
extern "C" {
#endif

/* ---- numbers */

/* The number of this interface. A host that khamdoriem_interface answers with another number was built with the header
   of another archive, and must not go on: it would misread a record. */
#define KHAMDORIEM_INTERFACE 2

/* The number that a call answers. Which ones, in the order in which they are checked: read_loose 1 2 3 5 6 8,
   read_strict 1 4 5 6 8, print 1 7 8, lookup 1 2 7 9 8, stream_start 2, stream_feed 2 8 11 12, stream_finish 2,
   tally_add 7 8 10, tally_cell, tally_row and tally_column 7 8, settings_read and settings_read_1 13 9 14 15,
   settings_write 14 15 8, read_with_settings 13 9 14 15 1 3 4 5 6 8, check_claim 1 7 16, write_strict 7 17 1 8,
   compare 1 2 3 4 5 6 of the first line and then of the second.
   khamdoriem_refusal_text has words for each. */
#define KHAMDORIEM_DONE 0
#define KHAMDORIEM_LINE_TOO_LONG 1     /* the line has over KHAMDORIEM_LINE_LIMIT bytes, or one to be written would */
#define KHAMDORIEM_BAD_SETTING 2       /* variant, year, offset or kind out of range; a stream that was not started */
#define KHAMDORIEM_NOT_UTF8 3          /* the line is not UTF-8 (loose reading) */
#define KHAMDORIEM_NO_READING 4        /* the line has no reading (strict reading, reading with settings, comparing) */
#define KHAMDORIEM_TOO_MANY_ELEMENTS 5 /* the reading has more elements than the table */
#define KHAMDORIEM_TOO_MANY_PARAMS 6   /* the reading has more parameters than the table */
#define KHAMDORIEM_UNSUITABLE 7        /* the bytes hold no record, or one that does not suit the line: see print; a
                                          tally has no such row or column; fields to be written do not suit
                                          their text */
#define KHAMDORIEM_OUTPUT_SHORT 8      /* the output is shorter than the result, the record's memory than a record, a
                                          stream's buffer than KHAMDORIEM_STREAM_BUFFER, or a tally than
                                          KHAMDORIEM_TALLY_ROWS */
#define KHAMDORIEM_NOT_FOUND 9         /* no parameter has this element's id and this name; a settings file has no
                                          record of the gate */
#define KHAMDORIEM_CELL_FULL 10        /* the cell holds KHAMDORIEM_TALLY_MOST, and is not raised */
#define KHAMDORIEM_BAD_COUNT 11        /* a frame's count is none, and has ended its stream */
#define KHAMDORIEM_FRAME_TOO_LONG 12   /* a frame of over KHAMDORIEM_LINE_LIMIT bytes was passed over */
#define KHAMDORIEM_BAD_LENGTH 13       /* the length of a settings file is no multiple of KHAMDORIEM_SETTINGS_RECORD */
#define KHAMDORIEM_UNKNOWN_VERSION 14  /* the version of a settings record is not known to this call */
#define KHAMDORIEM_BAD_FIELD 15        /* a field of a settings record is out of range, or a byte that says nothing is
                                          not 0 */
#define KHAMDORIEM_WRONG_CLAIM 16      /* a claimed record, counts and tables are not the line's strict reading */
#define KHAMDORIEM_UNWRITABLE 17       /* a field to be written breaks the grammar: see khamdoriem_write_strict */

/* variant: by which rules a line is read loosely. */
#define KHAMDORIEM_VARIANT_EITHER 0    /* RFC 5424's, and where they give no reading RFC 3164's */
#define KHAMDORIEM_VARIANT_RFC3164 1
#define KHAMDORIEM_VARIANT_RFC5424 2

/* year: of a date that names none, 0 to this one. */
#define KHAMDORIEM_LAST_YEAR 9999

/* offset: of a clock that names no zone, in minutes, east of Greenwich positive, from minus this to this. */
#define KHAMDORIEM_LAST_OFFSET 1439

/* kind: how a value is unescaped. Either way a backslash before '"', '\' or ']' goes. */
#define KHAMDORIEM_KIND_LOOSE 0        /* '\n' is a newline, and a lone backslash at the end goes */
#define KHAMDORIEM_KIND_STRICT 1       /* as in RFC 5424: '\n' stays two characters, and the lone backslash stays */

/* kind of a stream: how one frame ends and the next begins (RFC 6587). */
#define KHAMDORIEM_STREAM_COUNTED 0    /* a count of 1 to 6 digits, the first of them 1 to 9, a space, so many bytes */
#define KHAMDORIEM_STREAM_LINES 1      /* the bytes up to LF, which is not of the frame; of an empty line none */

/* The bytes of a stream's buffer that are used, so the least that it has. A frame fits into it, and is a line that no
   reader refuses with 1. */
#define KHAMDORIEM_STREAM_BUFFER 8192

/* What khamdoriem_stream_finish answers where an unfinished frame has so many bytes or more. */
#define KHAMDORIEM_UNFINISHED_MOST 4294967295u

/* A tally has a row for each facility, 0 to 23, and one for none; in each row a count for each severity, 0 to 7, and
   one for none. */
#define KHAMDORIEM_TALLY_ROWS 25
#define KHAMDORIEM_TALLY_COLUMNS 9
#define KHAMDORIEM_TALLY_NO_FACILITY 24
#define KHAMDORIEM_TALLY_NO_SEVERITY 8

/* The most that a cell of a tally holds. */
#define KHAMDORIEM_TALLY_MOST 4294967295u

/* Bytes of a record in a settings file, and the most of the host that it has. A gate is 0 to KHAMDORIEM_LAST_GATE. */
#define KHAMDORIEM_SETTINGS_RECORD 32
#define KHAMDORIEM_SETTINGS_HOST 20
#define KHAMDORIEM_LAST_GATE 65535

/* holder: which slice holds the host of a line that was read with settings. */
#define KHAMDORIEM_HOST_NOWHERE 0      /* the line has none, and the settings' is empty */
#define KHAMDORIEM_HOST_IN_LINE 1      /* the line's own */
#define KHAMDORIEM_HOST_IN_FILE 2      /* the line has none: the settings' */

/* The fields of a line that are compared, in the order in which they are named: a bit each. */
#define KHAMDORIEM_FIELDS 10
#define KHAMDORIEM_FIELD_PROTOCOL 1u   /* the protocol, and in RFC 5424 its version */
#define KHAMDORIEM_FIELD_FACILITY 2u
#define KHAMDORIEM_FIELD_SEVERITY 4u
#define KHAMDORIEM_FIELD_TIMESTAMP 8u  /* the instant and the offset; not the digits of the fraction */
#define KHAMDORIEM_FIELD_HOST 16u
#define KHAMDORIEM_FIELD_APP_NAME 32u
#define KHAMDORIEM_FIELD_PROCESS_ID 64u
#define KHAMDORIEM_FIELD_MESSAGE_ID 128u
#define KHAMDORIEM_FIELD_ELEMENTS 256u
#define KHAMDORIEM_FIELD_MESSAGE 512u

/* The most bytes of a line. A line that is written fits into an output of so many. */
#define KHAMDORIEM_LINE_LIMIT 8192

/* What a line that is written may have: a priority and a version up to these, a fraction of a second of so many digits,
   and texts of so many bytes. */
#define KHAMDORIEM_LAST_PRIORITY 191
#define KHAMDORIEM_LAST_VERSION 999
#define KHAMDORIEM_DIGITS_WRITTEN 6
#define KHAMDORIEM_HOST_LIMIT 255
#define KHAMDORIEM_APP_NAME_LIMIT 48
#define KHAMDORIEM_PROCESS_ID_LIMIT 128
#define KHAMDORIEM_MESSAGE_ID_LIMIT 32
#define KHAMDORIEM_NAME_LIMIT 32         /* of an element's id and of a parameter's name */

/* What is always enough, whatever the line. With tables of so many entries no reader answers 5 or 6. With so long an
   output, printing what a reader left of a line is never refused with 8; nor is a lookup, of any record. */
#define KHAMDORIEM_ELEMENTS_ENOUGH 2730
#define KHAMDORIEM_PARAMS_ENOUGH 1638
#define KHAMDORIEM_OUTPUT_ENOUGH 9385
#define KHAMDORIEM_VALUE_ENOUGH 8192

/* The same for lines of at most n bytes. */
#define KHAMDORIEM_ELEMENTS_FOR(n) ((n) / 3)
#define KHAMDORIEM_PARAMS_FOR(n) ((n) / 5)
#define KHAMDORIEM_OUTPUT_FOR(n) ((n) + ((n) + 164) / 7)
#define KHAMDORIEM_VALUE_FOR(n) (n)

/* The most bytes of stack that a call takes. */
#define KHAMDORIEM_STACK 40960

/* The same of khamdoriem_compare, which keeps the parameters of both lines there. */
#define KHAMDORIEM_COMPARE_STACK 98304

/* ---- the record: words of 8 bytes, little-endian */

/* Bytes of a record, from the loose reader and from the strict one. A strict record begins with a record: print and
   lookup take it too. */
#define KHAMDORIEM_RECORD 216
#define KHAMDORIEM_STRICT_RECORD 248

/* The byte at which each part starts. A mark is 1 where there is what it marks, else 0, and all that it marks is 0. A
   text is three words: a mark, and its start and its length in the line. The functions below read all of them. */
#define KHAMDORIEM_AT_PROTOCOL 0
#define KHAMDORIEM_AT_VERSION 8
#define KHAMDORIEM_AT_FACILITY 16        /* a mark, then the facility */
#define KHAMDORIEM_AT_SEVERITY 32        /* a mark, then the severity */
#define KHAMDORIEM_AT_TIMESTAMP 48       /* a mark, then the next four */
#define KHAMDORIEM_AT_SECONDS 56
#define KHAMDORIEM_AT_NANOSECONDS 64
#define KHAMDORIEM_AT_DIGITS 72
#define KHAMDORIEM_AT_OFFSET 80
#define KHAMDORIEM_AT_HOST 88
#define KHAMDORIEM_AT_APP_NAME 112
#define KHAMDORIEM_AT_PROCESS_ID 136
#define KHAMDORIEM_AT_MESSAGE_ID 160
#define KHAMDORIEM_AT_MESSAGE 184        /* no mark: start and length */
#define KHAMDORIEM_AT_ELEMENTS 200       /* how many entries of the element table are the reading's */
#define KHAMDORIEM_AT_PARAMS 208         /* and of the parameter table */
#define KHAMDORIEM_AT_TIMESTAMP_TEXT 216 /* strict only */
#define KHAMDORIEM_AT_HAS_MESSAGE 240    /* strict only: a mark */

#define KHAMDORIEM_PROTOCOL_RFC3164 0
#define KHAMDORIEM_PROTOCOL_RFC5424 1

/* ---- entries and answers */

/* An entry of the element table: the place of the element's id in the line. */
typedef struct khamdoriem_element {
    size_t id_start;
    size_t id_len;
} khamdoriem_element;

/* An entry of the parameter table: the number of its element, from 0, and the places of its name and of its value as
   the line writes it. Entries stand in the order of the line: those of an element are neighbours. */
typedef struct khamdoriem_param {
    size_t element;
    size_t name_start;
    size_t name_len;
    size_t value_start;
    size_t value_len;
} khamdoriem_param;

/* What a reader answers. number is 0 where the record is laid out, else that of the refusal. whole is 1 where a loose
   line has no reading, so that the record is the message alone, which is the whole line; else it is 0.
   reach says, with 4 of read_strict, how far the line is right: it is the length of the longest beginning of the line
   that some line of the strict grammar, of any length, also begins with. Where it is below the line's length, line[reach]
   is the first byte that is wrong, at column reach + 1; where it is the line's length, the line was cut short. With every
   other number, 0 too, and from read_loose it is 0. */
struct khamdoriem_read {
    uint32_t number;
    uint32_t whole;
    size_t reach;
};

/* What print, lookup, khamdoriem_settings_write and khamdoriem_write_strict answer: 0 and the length of the result, or
   the number of a refusal and 0. */
struct khamdoriem_written {
    uint32_t number;
    size_t len;
};

/* Where a stream stands, for the caller to keep: khamdoriem_stream_start makes it, and each khamdoriem_stream_feed
   answers the next. One of zeros was not started. stage is 1 before a counted frame's content (left: what the digits so
   far write), 2 in it (left: bytes to come, came: bytes that came), 3 in a line (came: bytes that came), 4 after a bad
   count. */
struct khamdoriem_stream {
    uint32_t stage;
    uint32_t left;
    uint32_t came;
};

/* What khamdoriem_stream_start answers: 0 and the state, or 2 and a state that is none. */
struct khamdoriem_started {
    uint32_t number;
    struct khamdoriem_stream state;
};

/* What khamdoriem_stream_feed answers. number is 0 or that of a refusal. frame is 1 where a frame is complete: it is
   the first len bytes of the buffer, 0 to KHAMDORIEM_LINE_LIMIT; else frame and len are 0. taken says how many of the
   bytes were taken: the next call is lent the others. state is where the stream then stands. */
struct khamdoriem_fed {
    uint32_t number;
    uint32_t frame;
    size_t taken;
    size_t len;
    struct khamdoriem_stream state;
};

/* What khamdoriem_stream_finish answers: 0 and the content bytes of an unfinished frame, or 2 and 0. */
struct khamdoriem_finished {
    uint32_t number;
    uint32_t unfinished;
};

/* A row of a tally: how many records of its facility had each severity, and at KHAMDORIEM_TALLY_NO_SEVERITY how many
   had none. A tally is 25 of these, the last of them for no facility, all zeros at the start:
   khamdoriem_counts tally[KHAMDORIEM_TALLY_ROWS] = {{{0}}}. That is the memory of a uint32_t[25][9]. */
typedef struct khamdoriem_counts {
    uint32_t count[KHAMDORIEM_TALLY_COLUMNS];
} khamdoriem_counts;

/* What khamdoriem_tally_cell answers: 0 and what the cell holds, or the number of a refusal and 0. */
struct khamdoriem_cell {
    uint32_t number;
    uint32_t count;
};

/* What khamdoriem_tally_row and khamdoriem_tally_column answer: 0 and the sum, or the number of a refusal and 0. */
struct khamdoriem_sum {
    uint32_t number;
    uint64_t sum;
};

/* What khamdoriem_settings_read answers: 0 and the settings of the gate, or the number of a refusal and zeros. The host
   is a place in the file, of length 0 where there is no default: khamdoriem_settings_host. */
struct khamdoriem_settings {
    uint32_t number;
    uint32_t version;
    uint32_t gate;
    uint32_t year;
    int32_t offset;
    uint32_t variant;
    size_t host_start;
    size_t host_len;
};

/* What khamdoriem_read_with_settings answers: 0, which slice holds the host (KHAMDORIEM_HOST_*) and its place there; or
   the number of a refusal and zeros. khamdoriem_site_host takes the host. */
struct khamdoriem_site {
    uint32_t number;
    uint32_t holder;
    size_t host_start;
    size_t host_len;
};

/* A text to be written, that may be absent: len bytes of the lent text from start on. Absent where present is 0; its
   place must suit even so, as zeros do. */
struct khamdoriem_part {
    size_t present;
    size_t start;
    size_t len;
};

/* The fields of a line to be written, but for the entries of its tables, of which the first element_count and the first
   param_count count. All zeros but for the priority and the version is a line with nothing in it.
   priority is facility * 8 + severity. Where stamped is 0 there is no timestamp, and what stands in the next four is of
   no account; else they are as in a struct khamdoriem_instant. A message may be absent, empty or given. */
struct khamdoriem_fields {
    uint32_t priority;
    uint32_t version;
    int64_t seconds;
    uint32_t stamped;
    uint32_t nanos;
    uint32_t digits;
    int32_t offset;
    struct khamdoriem_part host;
    struct khamdoriem_part app;
    struct khamdoriem_part procid;
    struct khamdoriem_part msgid;
    struct khamdoriem_part message;
    size_t element_count;
    size_t param_count;
};

/* What khamdoriem_compare answers: 0 and what differs, or the number of a refusal, the line that is refused (1 or 2) and
   zeros. fields has a bit for each field that differs, KHAMDORIEM_FIELD_*, and is 0 where none does.
   Where KHAMDORIEM_FIELD_ELEMENTS is one of them, position is the first position at which the elements differ, from 0. If
   both lines have one id there, pair_line is 1 or 2 and pair_entry the entry of that line's parameter table whose pair of
   name and unescaped value one of the lines has more often there than the other: the first such entry of the first line,
   or where it has none of the second. Else pair_line and pair_entry are 0: the ids differ, or a list has ended. */
struct khamdoriem_compared {
    uint32_t number;
    uint32_t line;
    uint32_t fields;
    uint32_t pair_line;
    size_t position;
    size_t pair_entry;
};

/* ---- the functions */

/* KHAMDORIEM_INTERFACE, as the archive has it. */
uint32_t khamdoriem_interface(void);

/* Reads a line as the Rust crate syslog_loose does. variant is one of KHAMDORIEM_VARIANT_*; year and offset (minutes,
   east positive) say when a date without a year and a clock without a zone are. record has KHAMDORIEM_RECORD bytes or
   more. */
struct khamdoriem_read khamdoriem_read_loose(const uint8_t *line, size_t line_len,
                                             uint32_t variant, uint32_t year, int32_t offset,
                                             khamdoriem_element *elements, size_t elements_len,
                                             khamdoriem_param *params, size_t params_len,
                                             uint8_t *record, size_t record_len) KHAMDORIEM_NO_NULL;

/* Reads a line by the grammar of RFC 5424, which asks for no settings. record has KHAMDORIEM_STRICT_RECORD bytes or
   more. Where the grammar derives none the answer's reach says how far the line is right, which takes a second look at
   the line; the tables need no room for it. */
struct khamdoriem_read khamdoriem_read_strict(const uint8_t *line, size_t line_len,
                                              khamdoriem_element *elements, size_t elements_len,
                                              khamdoriem_param *params, size_t params_len,
                                              uint8_t *record, size_t record_len) KHAMDORIEM_NO_NULL;

/* Writes the record as text. Any bytes may be lent; what does not suit is refused with 7. Record and tables SUIT a line
   where
   - every place, of the record and of the entries counted, ends within the line: start and length together are no more
     than line_len, of an absent text too;
   - the counts are no more than elements_len and params_len;
   - each parameter counted has an element's number that is below the count of elements and not below the number of the
     parameter before it;
   - the facility, if there is one, is at most 23 and the severity at most 7;
   - the timestamp, if there is one, has at most 999,999,999 nanoseconds, at most 9 digits, nanoseconds that so many
     digits show, an offset of -1439 to 1439, and, at that offset, a year of 0 to 9999.
   What a reader left suits its line, always: lend print and lookup the same line and tables. */
struct khamdoriem_written khamdoriem_print(const uint8_t *line, size_t line_len,
                                           const uint8_t *record, size_t record_len,
                                           const khamdoriem_element *elements, size_t elements_len,
                                           const khamdoriem_param *params, size_t params_len,
                                           uint8_t *output, size_t output_len) KHAMDORIEM_NO_NULL;

/* Writes the value, unescaped by the kind (KHAMDORIEM_KIND_*), of the line's first parameter that has this name and is
   of an element with this id. A loose line may have several elements of one id: to meet all of them walk the tables,
   with khamdoriem_unescape for the values. */
struct khamdoriem_written khamdoriem_lookup(const uint8_t *line, size_t line_len,
                                            const uint8_t *record, size_t record_len,
                                            const khamdoriem_element *elements, size_t elements_len,
                                            const khamdoriem_param *params, size_t params_len,
                                            const uint8_t *id, size_t id_len, const uint8_t *name, size_t name_len,
                                            uint32_t kind, uint8_t *output, size_t output_len) KHAMDORIEM_NO_NULL;

/* The state at the start of a stream, and at its restart. kind is one of KHAMDORIEM_STREAM_*. */
struct khamdoriem_started khamdoriem_stream_start(uint32_t kind);

/* Takes bytes of a stream, any number of them, up to the end of a frame or to a report. However the stream is cut into
   calls, frames, refusals and the state at its end are the same.
   - buffer has KHAMDORIEM_STREAM_BUFFER bytes or more and is lent to every call of one stream as the last one left it.
     Its front holds the frame; what lies past the content is never touched. It need not be cleared, at a restart
     either.
   - With number 0 and frame 0 all bytes were taken. After a frame and after 12 call again with those that were not.
   - 2 and 8 take nothing and change nothing.
   - 11 ends the stream: taken has the byte that made the count bad, and after it every call that is lent a byte takes
     one and answers 11, until a restart. The buffer stays as it was.
   - 12 is answered once, when the last byte or LF of the long frame has come, which taken has. Its first
     KHAMDORIEM_LINE_LIMIT bytes are in the buffer, and the stream goes on behind it. */
struct khamdoriem_fed khamdoriem_stream_feed(struct khamdoriem_stream state, const uint8_t *bytes, size_t bytes_len,
                                             uint8_t *buffer, size_t buffer_len) KHAMDORIEM_NO_NULL;

/* The end of a stream: how many content bytes came of a frame that is not complete, passed over or not, and
   KHAMDORIEM_UNFINISHED_MOST if more. It is not handed out; its first bytes are in the buffer's front. */
struct khamdoriem_finished khamdoriem_stream_finish(struct khamdoriem_stream state);

/* Adds one record to a tally: raises the one cell of its facility and severity by one and leaves all others. rows is
   the tally and rows_len its number of rows, KHAMDORIEM_TALLY_ROWS or more; those past the 25th are kept. A mark of 1
   says that there is a facility, 0 to 23, or a severity, 0 to 7; a mark of 0 with the number 0 that there is none. A
   record's memory has them so, and khamdoriem_tally_record takes them from there.
   - 7: a facility over 23, a severity over 7, a mark of 0 with another number than 0, a mark over 1.
   - 8: else, under 25 rows.
   - 10: else, the cell holds KHAMDORIEM_TALLY_MOST.
   The tally is then as it was. */
uint32_t khamdoriem_tally_add(khamdoriem_counts *rows, size_t rows_len, uint32_t facility_mark, uint32_t facility,
                              uint32_t severity_mark, uint32_t severity) KHAMDORIEM_NO_NULL;

/* What a cell holds. row is a facility, 0 to 23, or KHAMDORIEM_TALLY_NO_FACILITY; column a severity, 0 to 7, or
   KHAMDORIEM_TALLY_NO_SEVERITY. 7: there is no such row or column; 8: else, under 25 rows. */
struct khamdoriem_cell khamdoriem_tally_cell(const khamdoriem_counts *rows, size_t rows_len, uint32_t row,
                                             uint32_t column) KHAMDORIEM_NO_NULL;

/* The sum of a row, so how many records had its facility; of a column, how many had its severity. The cell of none is
   in it, and no sum wraps. All rows together, and all columns, are how many additions were accepted since the tally was
   zeros. Refused as a cell is. */
struct khamdoriem_sum khamdoriem_tally_row(const khamdoriem_counts *rows, size_t rows_len,
                                           uint32_t row) KHAMDORIEM_NO_NULL;
struct khamdoriem_sum khamdoriem_tally_column(const khamdoriem_counts *rows, size_t rows_len,
                                              uint32_t column) KHAMDORIEM_NO_NULL;

/* The settings of a gate. file is a settings file: records of KHAMDORIEM_SETTINGS_RECORD bytes, one behind the other,
   numbers low byte first; the empty file has none. Of a record, byte by byte: 0 version, 1 or 2; 1 length of the host,
   0 to 20; 2 and 3 year; 4 and 5 offset in minutes, two's complement; 6 and 7 gate; 8 to 27 host, bytes 33 to 126, and
   zeros behind it; 28 variant, in version 1 0; 29 to 31 zeros. The last record of the gate counts, and no other is
   judged, whatever it holds.
   - 13: file_len is no multiple of 32.
   - 9: else, no record has the gate; so of a gate over KHAMDORIEM_LAST_GATE.
   - 14: else, the version of its last record is not 1 or 2.
   - 15: else, a field of that record is out of range, or a byte that says nothing is not 0. */
struct khamdoriem_settings khamdoriem_settings_read(const uint8_t *file, size_t file_len,
                                                    uint32_t gate) KHAMDORIEM_NO_NULL;

/* The same by the reader that knows version 1 alone: version 2 is 14 to it. */
struct khamdoriem_settings khamdoriem_settings_read_1(const uint8_t *file, size_t file_len,
                                                      uint32_t gate) KHAMDORIEM_NO_NULL;

/* Writes settings as a record, the first KHAMDORIEM_SETTINGS_RECORD bytes of output. host_len is 0 for no default. What
   is written is read back, and is the only record that means these settings.
   - 14: version not 1 or 2.
   - 15: else, a gate over KHAMDORIEM_LAST_GATE, a year over KHAMDORIEM_LAST_YEAR, an offset outside
     -KHAMDORIEM_LAST_OFFSET to KHAMDORIEM_LAST_OFFSET, a variant over 2 or in version 1 over 0, a host of over
     KHAMDORIEM_SETTINGS_HOST bytes or with one outside 33 to 126.
   - 8: else, output_len under KHAMDORIEM_SETTINGS_RECORD. */
struct khamdoriem_written khamdoriem_settings_write(uint32_t version, uint32_t gate, uint32_t year, int32_t offset,
                                                    uint32_t variant, const uint8_t *host, size_t host_len,
                                                    uint8_t *output, size_t output_len) KHAMDORIEM_NO_NULL;

/* Reads a line as khamdoriem_read_loose does, with the variant, year and offset of the gate's record, and says whose
   host it has: the line's own, or where it has none the settings'. Tables and record are as khamdoriem_read_loose
   leaves them: its record has no host but the line's. The refusals of khamdoriem_settings_read come first, then 1 and
   3; a line that has no reading is 4; then 5, 6 and 8. */
struct khamdoriem_site khamdoriem_read_with_settings(const uint8_t *file, size_t file_len, uint32_t gate,
                                                     const uint8_t *line, size_t line_len,
                                                     khamdoriem_element *elements, size_t elements_len,
                                                     khamdoriem_param *params, size_t params_len,
                                                     uint8_t *record, size_t record_len) KHAMDORIEM_NO_NULL;

/* Says whether a strict record, its counts and the entries counted are the line's reading by the grammar of RFC 5424,
   whoever made them: 0 is yes. It is told of what khamdoriem_read_strict leaves, always, and of nothing else but for
   what is of no account: bytes past the 248th of the record and entries past the counts. The line is not read afresh:
   what is claimed is held against the bytes where it is claimed to stand. record has the layout of a strict record,
   counts and marks included; elements_len and params_len are the lengths of the tables. All is only read.
   - 1: the line has over KHAMDORIEM_LINE_LIMIT bytes.
   - 7: else, record_len is under KHAMDORIEM_STRICT_RECORD, the bytes hold no record, or record and tables do not suit
     the line: see khamdoriem_print; the place of the timestamp's text, too, ends within the line, and its mark and that
     of a message are at most 1.
   - 16: else, they are not the line's reading. An absent text has start and length 0. 'Z', +00:00 and -00:00 are all an
     offset of 0. */
uint32_t khamdoriem_check_claim(const uint8_t *line, size_t line_len, const uint8_t *record, size_t record_len,
                                const khamdoriem_element *elements, size_t elements_len,
                                const khamdoriem_param *params, size_t params_len) KHAMDORIEM_NO_NULL;

/* Writes a line of RFC 5424, such as the strict reader takes. All texts of the line are places in one lent text, of any
   bytes and any length, in any order; they may overlap. An element's entry has the place of its id; a parameter's the
   number of its element, and the places of its name and of its value. A value is raw, as it is meant: '"', '\' and ']'
   get their backslash here. The timestamp is written with exactly so many digits as it says, and its offset as sign
   hh:mm; what is absent is written as "-", and of an absent message nothing.
   - 7: fields, counts and tables do not SUIT the text, as print says it of a record and its line: a place that ends
     past the text, a count over its table, element numbers that fall or reach the count, a timestamp that is none.
   - 17: else, a field that the grammar has no line for: a priority over KHAMDORIEM_LAST_PRIORITY; a version of 0 or
     over KHAMDORIEM_LAST_VERSION; a fraction of over KHAMDORIEM_DIGITS_WRITTEN digits; a host, app name, process id or
     message id that is empty, is "-" (absent has its own mark), is longer than its limit or has other bytes than 33 to
     126; an id or a name that is not 1 to KHAMDORIEM_NAME_LIMIT bytes of 33 to 126 without '=', ']' and '"'; a value
     that is not UTF-8; two elements of one id; a message that begins EF BB BF and goes on with something else than
     UTF-8. Any other message may be any bytes.
   - 1: else, the line would have over KHAMDORIEM_LINE_LIMIT bytes.
   - 8: else, the output is shorter than the line.
   Nothing else is refused. What is written the strict reader takes, with tables of element_count and param_count
   entries, and tells the same fields. The output past the line is as it was. */
struct khamdoriem_written khamdoriem_write_strict(const uint8_t *text, size_t text_len,
                                                  struct khamdoriem_fields fields,
                                                  const khamdoriem_element *elements, size_t elements_len,
                                                  const khamdoriem_param *params, size_t params_len,
                                                  uint8_t *output, size_t output_len) KHAMDORIEM_NO_NULL;

/* Compares two lines, both read as khamdoriem_read_loose reads them with this variant, year and offset: which of the
   fields differ. Texts are compared as bytes, and absent differs from empty. Elements are compared by position: their ids,
   and their parameters as pairs of name and unescaped value (KHAMDORIEM_KIND_LOOSE), in any order, repeats counted. A
   list of elements that is longer than the other differs from it. Each line has two tables of its own, which are left as
   khamdoriem_read_loose leaves them.
   Refused is the first line, or where it is read the second, with 1, 2, 3, 4 (it has no reading), 5 or 6, the first that
   applies. Then no table has changed, not the first line's either where the second is refused. */
struct khamdoriem_compared khamdoriem_compare(const uint8_t *line1, size_t line1_len,
                                              const uint8_t *line2, size_t line2_len,
                                              uint32_t variant, uint32_t year, int32_t offset,
                                              khamdoriem_element *elements1, size_t elements1_len,
                                              khamdoriem_param *params1, size_t params1_len,
                                              khamdoriem_element *elements2, size_t elements2_len,
                                              khamdoriem_param *params2, size_t params2_len) KHAMDORIEM_NO_NULL;

/* ---- what a reader left, taken apart

   line is the line that was read. A text is answered by its address in the line, and its length by *len. Absent and
   empty differ: an absent text is a null pointer and 0, an empty one an address and 0. */

/* The word at a byte of the record, KHAMDORIEM_AT_*: x86-64 is little-endian too. */
static inline uint64_t khamdoriem_word(const uint8_t *record, size_t at) {
    uint64_t word;
    memcpy(&word, record + at, sizeof word);
    return word;
}

/* The same as a signed number. */
static inline int64_t khamdoriem_signed_word(const uint8_t *record, size_t at) {
    int64_t word;
    memcpy(&word, record + at, sizeof word);
    return word;
}

/* The text whose mark is at a byte of the record. */
static inline const uint8_t *khamdoriem_text(const uint8_t *line, const uint8_t *record, size_t at, size_t *len) {
    *len = (size_t)khamdoriem_word(record, at + 16);
    return khamdoriem_word(record, at) ? line + khamdoriem_word(record, at + 8) : NULL;
}

/* KHAMDORIEM_PROTOCOL_RFC3164 or KHAMDORIEM_PROTOCOL_RFC5424. */
static inline uint32_t khamdoriem_protocol(const uint8_t *record) {
    return (uint32_t)khamdoriem_word(record, KHAMDORIEM_AT_PROTOCOL);
}

/* The version that the line names; 0 for RFC 3164. */
static inline uint32_t khamdoriem_version(const uint8_t *record) {
    return (uint32_t)khamdoriem_word(record, KHAMDORIEM_AT_VERSION);
}

/* 0 to 23, or -1 where there is none. */
static inline int khamdoriem_facility(const uint8_t *record) {
    if (!khamdoriem_word(record, KHAMDORIEM_AT_FACILITY)) return -1;
    return (int)khamdoriem_word(record, KHAMDORIEM_AT_FACILITY + 8);
}

/* 0 to 7, or -1 where there is none. */
static inline int khamdoriem_severity(const uint8_t *record) {
    if (!khamdoriem_word(record, KHAMDORIEM_AT_SEVERITY)) return -1;
    return (int)khamdoriem_word(record, KHAMDORIEM_AT_SEVERITY + 8);
}

/* A word as a number of 32 bits, and the most of them where it is more: no mark, and no facility or severity. */
static inline uint32_t khamdoriem_narrow(uint64_t word) { return word > UINT32_MAX ? UINT32_MAX : (uint32_t)word; }

/* Adds a record to a tally, by the facility and the severity that it has or has not: khamdoriem_tally_add of what
   stands in its memory, loose or strict. What a reader left, of a whole line too, is never refused with 7. */
static inline uint32_t khamdoriem_tally_record(khamdoriem_counts *rows, size_t rows_len, const uint8_t *record) {
    return khamdoriem_tally_add(rows, rows_len, khamdoriem_narrow(khamdoriem_word(record, KHAMDORIEM_AT_FACILITY)),
                                khamdoriem_narrow(khamdoriem_word(record, KHAMDORIEM_AT_FACILITY + 8)),
                                khamdoriem_narrow(khamdoriem_word(record, KHAMDORIEM_AT_SEVERITY)),
                                khamdoriem_narrow(khamdoriem_word(record, KHAMDORIEM_AT_SEVERITY + 8)));
}

/* A timestamp: seconds since 1970-01-01T00:00:00Z, negative before it; nanoseconds past that second, before 1970 too;
   how many digits the line's fraction has, 0 to 9; the offset of the line's clock in minutes, east positive. */
struct khamdoriem_instant {
    int64_t seconds;
    uint32_t nanoseconds;
    uint32_t digits;
    int32_t offset;
};

/* 1 and the timestamp; or 0 where there is none, and *instant as it was. */
static inline int khamdoriem_timestamp(const uint8_t *record, struct khamdoriem_instant *instant) {
    if (!khamdoriem_word(record, KHAMDORIEM_AT_TIMESTAMP)) return 0;
    instant->seconds = khamdoriem_signed_word(record, KHAMDORIEM_AT_SECONDS);
    instant->nanoseconds = (uint32_t)khamdoriem_word(record, KHAMDORIEM_AT_NANOSECONDS);
    instant->digits = (uint32_t)khamdoriem_word(record, KHAMDORIEM_AT_DIGITS);
    instant->offset = (int32_t)khamdoriem_signed_word(record, KHAMDORIEM_AT_OFFSET);
    return 1;
}

static inline const uint8_t *khamdoriem_host(const uint8_t *line, const uint8_t *record, size_t *len) {
    return khamdoriem_text(line, record, KHAMDORIEM_AT_HOST, len);
}

static inline const uint8_t *khamdoriem_app_name(const uint8_t *line, const uint8_t *record, size_t *len) {
    return khamdoriem_text(line, record, KHAMDORIEM_AT_APP_NAME, len);
}

static inline const uint8_t *khamdoriem_process_id(const uint8_t *line, const uint8_t *record, size_t *len) {
    return khamdoriem_text(line, record, KHAMDORIEM_AT_PROCESS_ID, len);
}

static inline const uint8_t *khamdoriem_message_id(const uint8_t *line, const uint8_t *record, size_t *len) {
    return khamdoriem_text(line, record, KHAMDORIEM_AT_MESSAGE_ID, len);
}

/* The default host of settings that were read from the file; a null pointer and 0 where there is none. */
static inline const uint8_t *khamdoriem_settings_host(const uint8_t *file, const struct khamdoriem_settings *settings,
                                                      size_t *len) {
    *len = settings->host_len;
    return settings->host_len ? file + settings->host_start : NULL;
}

/* The host of a line that was read with settings, in whichever of the two slices holds it; a null pointer and 0 where
   there is none. */
static inline const uint8_t *khamdoriem_site_host(const uint8_t *file, const uint8_t *line,
                                                  const struct khamdoriem_site *site, size_t *len) {
    *len = site->host_len;
    if (site->holder == KHAMDORIEM_HOST_NOWHERE) return NULL;
    return (site->holder == KHAMDORIEM_HOST_IN_LINE ? line : file) + site->host_start;
}

/* Never null: an absent message is empty. khamdoriem_has_message tells the two apart in a strict record. */
static inline const uint8_t *khamdoriem_message(const uint8_t *line, const uint8_t *record, size_t *len) {
    *len = (size_t)khamdoriem_word(record, KHAMDORIEM_AT_MESSAGE + 8);
    return line + khamdoriem_word(record, KHAMDORIEM_AT_MESSAGE);
}

/* How many entries of each table are the reading's. */
static inline size_t khamdoriem_element_count(const uint8_t *record) {
    return (size_t)khamdoriem_word(record, KHAMDORIEM_AT_ELEMENTS);
}

static inline size_t khamdoriem_param_count(const uint8_t *record) {
    return (size_t)khamdoriem_word(record, KHAMDORIEM_AT_PARAMS);
}

/* Of a strict record alone: the timestamp as the line writes it, and whether there is a message. */
static inline const uint8_t *khamdoriem_timestamp_text(const uint8_t *line, const uint8_t *record, size_t *len) {
    return khamdoriem_text(line, record, KHAMDORIEM_AT_TIMESTAMP_TEXT, len);
}

static inline int khamdoriem_has_message(const uint8_t *record) {
    return khamdoriem_word(record, KHAMDORIEM_AT_HAS_MESSAGE) != 0;
}

/* The id of an element; the name of a parameter, and its value as the line writes it, backslashes and all. */
static inline const uint8_t *khamdoriem_id(const uint8_t *line, const khamdoriem_element *element, size_t *len) {
    *len = element->id_len;
    return line + element->id_start;
}

static inline const uint8_t *khamdoriem_name(const uint8_t *line, const khamdoriem_param *param, size_t *len) {
    *len = param->name_len;
    return line + param->name_start;
}

static inline const uint8_t *khamdoriem_value(const uint8_t *line, const khamdoriem_param *param, size_t *len) {
    *len = param->value_len;
    return line + param->value_start;
}

/* Writes one parameter's value, unescaped by the kind: a lookup in tables that hold it alone. The result is no longer
   than the value as the line writes it. Refused with 1, 2, 7 (the entry is not of this line) or 8. */
static inline struct khamdoriem_written khamdoriem_unescape(const uint8_t *line, size_t line_len,
                                                            const khamdoriem_param *param, uint32_t kind,
                                                            uint8_t *output, size_t output_len) {
    uint8_t record[KHAMDORIEM_RECORD] = {0};
    khamdoriem_element element = {0, 0};
    khamdoriem_param alone = {0, 0, 0, 0, 0};
    alone.value_start = param->value_start;
    alone.value_len = param->value_len;
    record[KHAMDORIEM_AT_ELEMENTS] = 1;
    record[KHAMDORIEM_AT_PARAMS] = 1;
    return khamdoriem_lookup(line, line_len, record, sizeof record, &element, 1, &alone, 1, line, 0, line, 0, kind,
                             output, output_len);
}

/* A text that is there, for the fields of a line to be written. */
static inline struct khamdoriem_part khamdoriem_part_at(size_t start, size_t len) {
    struct khamdoriem_part part;
    part.present = 1, part.start = start, part.len = len;
    return part;
}

/* A facility by its name, or a row of a tally: "none" for KHAMDORIEM_TALLY_NO_FACILITY, a null pointer above. */
static inline const char *khamdoriem_facility_name(uint32_t row) {
    static const char *const names[KHAMDORIEM_TALLY_ROWS] = {
        "kern",   "user",   "mail",   "daemon", "auth",   "syslog", "lpr",    "news",   "uucp",
        "cron",   "authpriv", "ftp",  "ntp",    "audit",  "alert",  "clockd", "local0", "local1",
        "local2", "local3", "local4", "local5", "local6", "local7", "none"};
    return row < KHAMDORIEM_TALLY_ROWS ? names[row] : NULL;
}

/* A severity by its name, or a column of a tally: "none" for KHAMDORIEM_TALLY_NO_SEVERITY, a null pointer above. */
static inline const char *khamdoriem_severity_name(uint32_t column) {
    static const char *const names[KHAMDORIEM_TALLY_COLUMNS] = {"emerg",  "alert", "crit",  "err", "warning",
                                                                "notice", "info",  "debug", "none"};
    return column < KHAMDORIEM_TALLY_COLUMNS ? names[column] : NULL;
}

/* A field that is compared by its name, by its place in the order from 0 (bit number, not KHAMDORIEM_FIELD_*); a null
   pointer from KHAMDORIEM_FIELDS on. */
static inline const char *khamdoriem_field_name(uint32_t bit) {
    static const char *const names[KHAMDORIEM_FIELDS] = {"protocol", "facility",   "severity",   "timestamp", "host",
                                                         "app name", "process id", "message id", "elements",  "message"};
    return bit < KHAMDORIEM_FIELDS ? names[bit] : NULL;
}

/* A number that a call answered, in words. */
static inline const char *khamdoriem_refusal_text(uint32_t number) {
    switch (number) {
    case KHAMDORIEM_DONE: return "done";
    case KHAMDORIEM_LINE_TOO_LONG: return "the line has over 8,192 bytes";
    case KHAMDORIEM_BAD_SETTING: return "variant, year, offset or kind is out of range";
    case KHAMDORIEM_NOT_UTF8: return "the line is not UTF-8";
    case KHAMDORIEM_NO_READING: return "the line has no reading";
    case KHAMDORIEM_TOO_MANY_ELEMENTS: return "the reading has more elements than the table";
    case KHAMDORIEM_TOO_MANY_PARAMS: return "the reading has more parameters than the table";
    case KHAMDORIEM_UNSUITABLE: return "record, fields, counts or tables do not suit, or a tally has no such cell";
    case KHAMDORIEM_OUTPUT_SHORT: return "the output is shorter than the result";
    case KHAMDORIEM_NOT_FOUND: return "there is no parameter of this element and name, or no record of the gate";
    case KHAMDORIEM_CELL_FULL: return "the cell of the tally holds 4,294,967,295 already";
    case KHAMDORIEM_BAD_COUNT: return "the count of a frame is none, and the stream has ended";
    case KHAMDORIEM_FRAME_TOO_LONG: return "a frame of over 8,192 bytes was passed over";
    case KHAMDORIEM_BAD_LENGTH: return "the length of the settings file is no multiple of 32";
    case KHAMDORIEM_UNKNOWN_VERSION: return "the version of the settings record is not known";
    case KHAMDORIEM_BAD_FIELD: return "a field of the settings record is out of range, or a reserved byte is not zero";
    case KHAMDORIEM_WRONG_CLAIM: return "what is claimed is not the line's reading";
    case KHAMDORIEM_UNWRITABLE: return "a field of the line to be written breaks the grammar";
    default: return "a number that this interface does not have";
    }
}

#ifdef __cplusplus
}
#endif
#endif
