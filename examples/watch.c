/*
 * Watches a VBus: prints a line for each record as it arrives: kind letter, destination, source, version, command,
 * payload, in upper-case hex, as examples/list.c does. Damaged streams are passed over.
 *
 *   gcc -std=c99 -Iinclude examples/watch.c target/staticlib/libvbus.a -o target/watch-c
 *   target/watch-c [-p] DEVICE, or target/watch-c [-p] < FILE
 *
 * With -p, or --positions, each line begins with the position of the record's first byte, in decimal: how many bytes
 * were read before it.
 *
 * A serial port is set to 9600 bits a second, 8N1, raw, and put back as it was at the end, also where SIGHUP, SIGINT,
 * SIGQUIT, SIGTERM or SIGPIPE ends the program. Nothing is ever sent. A file, a FIFO or a pipe is read as it is, up to
 * its end.
 *
 * Exit status: 0 the input ended; 1 it couldn't be read or set, the device is gone, or a line couldn't be written;
 * 2 wrong use. A signal ends it as it does other programs, also where whoever reads the lines has gone.
 */
#define _POSIX_C_SOURCE 200809L /* termios, sigaction */
#define PROGRAM "watch"
#include <inttypes.h>
#include <poll.h>

#include "port.h"
#include "vbus.h"

static const char usage[] =
    "usage: watch [-p] DEVICE, or watch [-p] < FILE; a serial port must be named\n"
    "-p, --positions: each line begins with the position of the record's first byte\n";

typedef struct {
    vbus_receiver receiver;
    uint8_t memory[VBUS_MAX_STREAM];
    bool positions; /* wanted before the lines */
    bool found;
} progress;

/* The line is handed to the system at once. A write that failed on the way, as a terminal's does at the newline, is no
 * longer fflush's to tell. */
static bool print_record(vbus_header header, const uint8_t *payload, size_t n) {
    char kind = header.version == VBUS_PACKET ? 'P' : header.version == VBUS_DATAGRAM ? 'D' : 'T';
    int digits = kind == 'T' ? 2 : 4; /* a telegram's command is one byte */
    printf("%c %04X %04X %02X %0*X", kind, (unsigned)header.destination, (unsigned)header.source,
           (unsigned)header.version, digits, (unsigned)header.command);
    if (n > 0) putchar(' ');
    for (size_t i = 0; i < n; i++) printf("%02X", (unsigned)payload[i]);
    putchar('\n');
    return fflush(stdout) == 0 && !ferror(stdout);
}

/* Prints each record that the chunk completes; what is unfinished stays in the memory for the next chunk. */
static bool take_in(progress *so_far, const uint8_t *chunk, size_t n) {
    uint8_t payload[VBUS_MAX_PAYLOAD];
    for (size_t at = 0; at < n;) {
        /* can't refuse: the room suffices for any record, and to count up to 2^64 bytes a bus takes 600 million years */
        vbus_received next =
            vbus_receive(so_far->receiver, so_far->memory, chunk + at, n - at, payload, sizeof payload);
        so_far->receiver = next.receiver;
        at += next.used;
        if (!next.found) continue;
        so_far->found = true;
        if (so_far->positions) printf("%" PRIu64 " ", next.position);
        if (!print_record(next.header, payload, next.payload_length)) return false;
    }
    return true;
}

static int close_output(void) {
    return fclose(stdout) == 0 ? 0 : failure("standard output");
}

static int end(const progress *so_far) {
    if (close_output() != 0) return 1;
    if (so_far->receiver.held > 0)
        fprintf(stderr, "watch: the input ended before a stream was complete, bytes held: %zu\n", so_far->receiver.held);
    if (!so_far->found && so_far->receiver.position > 0)
        fprintf(stderr, "watch: no record found, bytes looked at: %" PRIu64 "\n", so_far->receiver.position);
    return 0;
}

/* Reads what there is, and waits where there is nothing yet: also of a standard input that someone has set not to wait. */
static ssize_t read_chunk(int descriptor, uint8_t *chunk, size_t room) {
    for (;;) {
        ssize_t n = read(descriptor, chunk, room);
        if (n >= 0 || (errno != EINTR && errno != EAGAIN)) return n;
        struct pollfd waiting = {descriptor, POLLIN, 0};
        if (errno == EAGAIN) poll(&waiting, 1, -1);
    }
}

static int watch(const device *from, bool positions) {
    progress so_far = {{0, 0}, {0}, positions, false};
    uint8_t chunk[4096];
    for (;;) {
        ssize_t n = read_chunk(from->descriptor, chunk, sizeof chunk);
        if (n == -1) return device_failure(from);
        if (n == 0) return from->port ? gone(from) : end(&so_far);
        if (!take_in(&so_far, chunk, (size_t)n)) return failure("standard output");
    }
}

static bool is_option(const char *word, const char *brief, const char *full) {
    return strcmp(word, brief) == 0 || strcmp(word, full) == 0;
}

int main(int argc, char **argv) {
    bool positions = argc > 1 && is_option(argv[1], "-p", "--positions");
    int names = argc - (positions ? 2 : 1);
    if (names == 1 && is_option(argv[argc - 1], "-h", "--help")) {
        fputs(usage, stdout);
        return close_output();
    }
    bool other = names == 1 && argv[argc - 1][0] == '-'; /* an option that there isn't */
    /* at a terminal the device was forgotten; one that is a port would be changed without being named */
    if (names > 1 || other || (names < 1 && isatty(STDIN_FILENO))) {
        fputs(usage, stderr);
        return 2;
    }
    device from = {STDIN_FILENO, names == 1 ? argv[argc - 1] : "standard input", false};
    int status = names == 1 ? open_device(&from, false) : 0;
    if (status == 0) status = watch(&from, positions);
    put_back();
    return status;
}
