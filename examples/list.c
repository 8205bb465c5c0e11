/*
 * Lists the records of a VBus recording, one a line: kind letter, destination, source, version, command, payload, in
 * upper-case hex. A recording is raw bytes off the bus, of any size; damaged streams in it are passed over.
 *
 *   gcc -std=c99 -Iinclude examples/list.c target/staticlib/libvbus.a -o target/list-c
 *   target/list-c FILE, or target/list-c < FILE
 *
 * Exit status: 0 listed; 1 the recording couldn't be read whole or the listing couldn't be written; 2 wrong use.
 * Where whoever reads the listing has gone, the system's signal ends it, as it does other programs.
 */
#define _POSIX_C_SOURCE 200112L /* isatty */
#include <errno.h>
#include <stdio.h>
#include <stdlib.h>
#include <string.h>
#include <unistd.h>

#include "vbus.h"

static const char usage[] = "usage: list FILE, or list < FILE\n";

typedef struct {
    uint8_t *bytes;
    size_t size, room;
} buffer;

static int failure(const char *what) {
    fprintf(stderr, "list: %s: %s\n", what, strerror(errno));
    return 1;
}

/* Doubles the room, so that the time for copying stays in proportion to the size. */
static bool grow(buffer *recording) {
    size_t room = recording->room == 0 ? 65536 : 2 * recording->room;
    uint8_t *bytes = recording->room > SIZE_MAX / 2 ? NULL : realloc(recording->bytes, room);
    if (bytes == NULL) {
        errno = ENOMEM; /* C doesn't ask realloc to set it */
        return false;
    }
    recording->bytes = bytes;
    recording->room = room;
    return true;
}

static bool read_all(FILE *file, buffer *recording) {
    while (!feof(file)) {
        if (recording->size == recording->room && !grow(recording)) return false;
        recording->size += fread(recording->bytes + recording->size, 1, recording->room - recording->size, file);
        if (ferror(file)) return false;
    }
    return true;
}

/* Reads the file of that name, or standard input if name is NULL. */
static int read_recording(const char *name, buffer *recording) {
    FILE *file = name == NULL ? stdin : fopen(name, "rb");
    if (file == NULL) return failure(name);
    int status = read_all(file, recording) ? 0 : failure(name == NULL ? "standard input" : name);
    fclose(file);
    return status;
}

static bool print_record(vbus_header header, const uint8_t *payload, size_t n) {
    char kind = header.version == VBUS_PACKET ? 'P' : header.version == VBUS_DATAGRAM ? 'D' : 'T';
    int digits = kind == 'T' ? 2 : 4; /* a telegram's command is one byte */
    printf("%c %04X %04X %02X %0*X", kind, (unsigned)header.destination, (unsigned)header.source,
           (unsigned)header.version, digits, (unsigned)header.command);
    if (n > 0) putchar(' ');
    for (size_t i = 0; i < n; i++) printf("%02X", (unsigned)payload[i]);
    putchar('\n');
    return !ferror(stdout);
}

/* What is still buffered is written only now, so a full disk may show only here. */
static int close_output(void) {
    return fclose(stdout) == 0 ? 0 : failure("standard output");
}

static int list(const uint8_t *recording, size_t size) {
    uint8_t payload[VBUS_MAX_PAYLOAD];
    size_t start = 0, records = 0;
    for (;;) {
        /* can't refuse: start is at most size, and the room suffices for any record */
        vbus_found next = vbus_next(recording, size, start, payload, sizeof payload);
        if (!next.found) break;
        if (!print_record(next.header, payload, next.payload_length)) return failure("standard output");
        start = (size_t)next.position + next.length;
        records++;
    }
    if (close_output() != 0) return 1;
    if (records == 0 && size > 0) fprintf(stderr, "list: no record found, bytes looked at: %zu\n", size);
    return 0;
}

int main(int argc, char **argv) {
    if (argc == 2 && (strcmp(argv[1], "--help") == 0 || strcmp(argv[1], "-h") == 0)) {
        fputs(usage, stdout);
        return close_output();
    }
    /* nobody types a recording: at a terminal the file was forgotten */
    if (argc > 2 || (argc < 2 && isatty(STDIN_FILENO))) {
        fputs(usage, stderr);
        return 2;
    }
    buffer recording = {NULL, 0, 0};
    int read = read_recording(argc == 2 ? argv[1] : NULL, &recording);
    /* what came before a read that failed isn't lost */
    int listed = list(recording.bytes, recording.size);
    free(recording.bytes);
    return read != 0 ? read : listed;
}
