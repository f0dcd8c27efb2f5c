/* The frames of a stream of syslog, as it comes over TCP (RFC 6587).

       frames counted|lines [BYTES]

   Standard input has the stream; at most BYTES of it are read and fed at a time, 4,096 without it, and whatever they
   are the answer is the same. For each frame this prints its number, how many bytes it has, and the host that it names,
   with tabs between. What was refused is told on standard error. A frame that is not complete at the end is no frame:
   how many of its bytes came is told there too. */
#include <errno.h>
#include <inttypes.h>
#include <stdio.h>
#include <stdlib.h>
#include <string.h>

#include "khamdoriem.h"

enum { YEAR = 2026, OFFSET_MINUTES = 60, MOST = 65536 };

static unsigned long frames, refusals;

/* A frame is a line: it is read where it lies, in the stream's buffer. */
static void put_frame(const uint8_t *frame, size_t len) {
    static uint8_t record[KHAMDORIEM_RECORD];
    static khamdoriem_element elements[KHAMDORIEM_ELEMENTS_ENOUGH];
    static khamdoriem_param params[KHAMDORIEM_PARAMS_ENOUGH];
    const uint8_t *host = NULL;
    size_t host_len = 0;
    struct khamdoriem_read answer = khamdoriem_read_loose(
        frame, len, KHAMDORIEM_VARIANT_EITHER, YEAR, OFFSET_MINUTES, elements, KHAMDORIEM_ELEMENTS_ENOUGH, params,
        KHAMDORIEM_PARAMS_ENOUGH, record, sizeof record);
    if (answer.number == KHAMDORIEM_DONE) host = khamdoriem_host(frame, record, &host_len);
    printf("%lu\t%lu\t", ++frames, (unsigned long)len);
    if (host)
        fwrite(host, 1, host_len, stdout);
    else
        putchar('-');
    putchar('\n');
}

/* Feeds bytes until all are taken. 0 where a bad count has ended the stream. */
static int feed(struct khamdoriem_stream *state, const uint8_t *bytes, size_t len) {
    static uint8_t buffer[KHAMDORIEM_STREAM_BUFFER]; /* one for each stream */
    while (len) {
        struct khamdoriem_fed fed = khamdoriem_stream_feed(*state, bytes, len, buffer, sizeof buffer);
        *state = fed.state;
        bytes += fed.taken;
        len -= fed.taken;
        if (fed.frame) put_frame(buffer, fed.len);
        if (fed.number == KHAMDORIEM_DONE) continue;
        refusals++;
        fprintf(stderr, "frames: after frame %lu: refusal %" PRIu32 ": %s\n", frames, fed.number,
                khamdoriem_refusal_text(fed.number));
        if (fed.number != KHAMDORIEM_FRAME_TOO_LONG) return 0;
    }
    return 1;
}

static int usage(void) {
    fputs("usage: frames counted|lines [BYTES]\n", stderr);
    return 2;
}

static int failed(const char *what) {
    fprintf(stderr, "frames: %s: %s\n", what, strerror(errno));
    return 1;
}

int main(int argc, char **argv) {
    static uint8_t bytes[MOST];
    struct khamdoriem_stream state;
    size_t at_a_time = argc > 2 ? strtoul(argv[2], NULL, 10) : 4096, len;
    int goes_on = 1;
    if (argc < 2 || argc > 3 || at_a_time < 1 || at_a_time > MOST) return usage();
    if (strcmp(argv[1], "counted") != 0 && strcmp(argv[1], "lines") != 0) return usage();
    if (khamdoriem_interface() != KHAMDORIEM_INTERFACE) {
        fputs("frames: archive and header have different interfaces\n", stderr);
        return 1;
    }
    state = khamdoriem_stream_start(argv[1][0] == 'c' ? KHAMDORIEM_STREAM_COUNTED : KHAMDORIEM_STREAM_LINES).state;
    while (goes_on && (len = fread(bytes, 1, at_a_time, stdin)) > 0) goes_on = feed(&state, bytes, len);
    if (ferror(stdin)) return failed("standard input");
    if (fclose(stdout)) return failed("standard output");
    fprintf(stderr, "frames: %lu frames, %lu refusals, %" PRIu32 " bytes of an unfinished frame\n", frames, refusals,
            khamdoriem_stream_finish(state).unfinished);
    return goes_on ? 0 : 1;
}
