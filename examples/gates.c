/* The lines of one gate, read as the site's settings file says.

       gates FILE GATE [LOG]

   FILE is a settings file, GATE a number, 0 to 65535; LOG, or standard input, has a line of syslog to a line. For each
   line that is read one is written: its host, a '*' where that is the settings' default ('-' where there is none), the
   app name and the message. A line that is refused is told on standard error. */
#include <errno.h>
#include <inttypes.h>
#include <stdio.h>
#include <stdlib.h>
#include <string.h>

#include "khamdoriem.h"

static unsigned long lines, refused;

/* A settings file, and the gate whose record counts. */
struct site {
    uint8_t *file;
    size_t len;
    uint32_t gate;
};

static int failed(const char *what) {
    fprintf(stderr, "gates: %s: %s\n", what, strerror(errno));
    return 1;
}

static void tell(const char *what, unsigned long which, uint32_t number) {
    fprintf(stderr, "gates: %s %lu: refusal %" PRIu32 ": %s\n", what, which, number, khamdoriem_refusal_text(number));
}

/* The bytes of a whole file: 0, and they are the caller's to free. */
static int read_all(const char *name, struct site *site) {
    FILE *from = fopen(name, "rb");
    long len;
    if (!from) return failed(name);
    if (fseek(from, 0, SEEK_END) || (len = ftell(from)) < 0 || fseek(from, 0, SEEK_SET)) return failed(name);
    site->len = (size_t)len;
    site->file = (uint8_t *)malloc(site->len + 1); /* never null, of an empty file either */
    if (!site->file || fread(site->file, 1, site->len, from) != site->len) return failed(name);
    return fclose(from) ? failed(name) : 0;
}

static void put(const uint8_t *text, size_t len) { printf("%.*s", (int)len, (const char *)text); }

/* Reads a line and writes what it is of, or tells why not. */
static void show_line(const struct site *site, const uint8_t *line, size_t len) {
    static uint8_t record[KHAMDORIEM_RECORD];
    static khamdoriem_element elements[KHAMDORIEM_ELEMENTS_ENOUGH];
    static khamdoriem_param params[KHAMDORIEM_PARAMS_ENOUGH];
    const uint8_t *text;
    size_t n;
    struct khamdoriem_site a =
        khamdoriem_read_with_settings(site->file, site->len, site->gate, line, len, elements,
                                      KHAMDORIEM_ELEMENTS_ENOUGH, params, KHAMDORIEM_PARAMS_ENOUGH, record,
                                      sizeof record);
    lines++;
    if (a.number != KHAMDORIEM_DONE) {
        refused++;
        tell("line", lines, a.number);
        return;
    }
    text = khamdoriem_site_host(site->file, line, &a, &n);
    if (text) put(text, n);
    fputs(a.holder == KHAMDORIEM_HOST_IN_FILE ? "* " : text ? " " : "- ", stdout);
    text = khamdoriem_app_name(line, record, &n);
    if (text) put(text, n);
    fputs(": ", stdout);
    text = khamdoriem_message(line, record, &n);
    put(text, n);
    putchar('\n');
}

/* Every line of a file. A line is kept up to one byte over the limit, so that the reader refuses a longer one. */
static void show_lines(const struct site *site, FILE *from) {
    static uint8_t line[KHAMDORIEM_LINE_LIMIT + 1];
    size_t len = 0;
    int byte;
    while ((byte = getc(from)) != EOF) {
        if (byte == '\n') {
            show_line(site, line, len);
            len = 0;
        } else if (len < sizeof line) {
            line[len++] = (uint8_t)byte;
        }
    }
    if (len) show_line(site, line, len);
}

int main(int argc, char **argv) {
    struct site site = {NULL, 0, 0};
    struct khamdoriem_settings settings;
    FILE *from = stdin;
    char *end = NULL;
    unsigned long gate = argc > 2 ? strtoul(argv[2], &end, 10) : 0;
    if (argc < 3 || argc > 4 || *end || end == argv[2] || gate > KHAMDORIEM_LAST_GATE) {
        fputs("usage: gates FILE GATE [LOG]\n", stderr);
        return 2;
    }
    if (khamdoriem_interface() != KHAMDORIEM_INTERFACE) {
        fputs("gates: archive and header have different interfaces\n", stderr);
        return 1;
    }
    if (read_all(argv[1], &site)) return 1;
    site.gate = (uint32_t)gate;
    settings = khamdoriem_settings_read(site.file, site.len, site.gate);
    if (settings.number != KHAMDORIEM_DONE) {
        tell("gate", gate, settings.number);
        return 1;
    }
    if (argc > 3 && !(from = fopen(argv[3], "rb"))) return failed(argv[3]);
    show_lines(&site, from);
    if (ferror(from)) return failed("reading");
    if (fclose(stdout)) return failed("standard output");
    fprintf(stderr, "gates: %lu lines, %lu of them refused\n", lines, refused);
    free(site.file);
    return 0;
}
