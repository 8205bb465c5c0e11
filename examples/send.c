/*
 * Sends the records of a VBus recording, those that examples/list.c lists, at the pace that a sender's energy allows.
 *
 *   gcc -std=c99 -Iinclude examples/send.c target/staticlib/libvbus.a -o target/send-c
 *   target/send-c MAX LOSS GAIN RECORDING DEVICE, or target/send-c MAX LOSS GAIN RECORDING > FILE
 *
 * MAX, LOSS and GAIN are the sender's settings: the largest energy, what a byte uses of it, what a microsecond of waiting
 * gives back; decimal, 0 to 4294967295. include/vbus.h says how to choose them. 16672 1042 1, say, sends 16 bytes at once,
 * then waits 16.7 ms. With MAX 0 each record goes in one piece, and nothing waits.
 *
 * Each record's stream is written anew: neither what stands between the records nor unused septet bits are sent. Waiting
 * goes by the system's clock, and begins when the last bit of a portion has gone. It waits after the last portion too, so
 * that whoever sends next finds the bus full of energy.
 *
 * A serial port is set to 9600 bits a second, 8N1, raw, and put back as it was at the end, also where SIGHUP, SIGINT,
 * SIGQUIT, SIGTERM or SIGPIPE ends the program. Nothing is ever read from it. Any other DEVICE, a FIFO or a file, is
 * written as it is, a file at its end; none is made.
 *
 * Exit status: 0 sent, or there was no record; 1 the recording couldn't be read, nothing is sent then; or the device
 * couldn't be set or written, or is gone; 2 wrong use, or settings that no sender has. A signal ends it as it does other
 * programs, also where whoever reads the bytes has gone.
 */
#define _POSIX_C_SOURCE 200809L /* termios, sigaction, clock_nanosleep */
#define PROGRAM "send"
#include <poll.h>
#include <stdlib.h>
#include <time.h>

#include "port.h"
#include "vbus.h"

static const char usage[] =
    "usage: send MAX LOSS GAIN RECORDING DEVICE, or send MAX LOSS GAIN RECORDING > FILE; a serial port must be named\n"
    "MAX: the largest energy, 0: never wait; LOSS: what a byte uses of it; GAIN: what a microsecond of waiting gives\n"
    "The numbers are decimal, 0 to 4294967295.\n";

typedef struct {
    uint8_t *bytes;
    size_t size, room;
} buffer;

typedef struct {
    device to;
    vbus_sender sender;
    uint8_t queue[VBUS_MAX_STREAM];
    uint64_t counted; /* the sender knows of the time up to then, in nanoseconds by now() */
    size_t records; /* sent */
} sending;

/* Doubles the room, so that the time for copying stays in proportion to the size. */
static bool grow(buffer *recording) {
    size_t room = recording->room == 0 ? 65536 : 2 * recording->room;
    uint8_t *bytes = recording->room > SIZE_MAX / 2 ? NULL : realloc(recording->bytes, room);
    if (bytes == NULL) {
        errno = ENOMEM; /* C doesn't ask realloc to set it */
        return false;
    }
    recording->bytes = bytes;
    recording->room = room;
    return true;
}

static bool read_all(FILE *file, buffer *recording) {
    while (!feof(file)) {
        if (recording->size == recording->room && !grow(recording)) return false;
        recording->size += fread(recording->bytes + recording->size, 1, recording->room - recording->size, file);
        if (ferror(file)) return false;
    }
    return true;
}

static int read_recording(const char *name, buffer *recording) {
    FILE *file = fopen(name, "rb");
    if (file == NULL) return failure(name);
    int status = read_all(file, recording) ? 0 : failure(name);
    fclose(file);
    return status;
}

static uint64_t now(void) {
    struct timespec time;
    clock_gettime(CLOCK_MONOTONIC, &time);
    return (uint64_t)time.tv_sec * 1000000000 + (uint64_t)time.tv_nsec;
}

/* A signal that doesn't end the program may end this early. */
static void sleep_until(uint64_t then) {
    struct timespec time = {(time_t)(then / 1000000000), (long)(then % 1000000000)};
    clock_nanosleep(CLOCK_MONOTONIC, TIMER_ABSTIME, &time, NULL);
}

/* Writes them all, and waits where they aren't taken yet: also by a standard output that someone has set not to wait. */
static bool write_all(int descriptor, const uint8_t *bytes, size_t n) {
    for (size_t at = 0; at < n;) {
        ssize_t written = write(descriptor, bytes + at, n - at);
        if (written == 0) errno = EIO; /* trying again might go on for ever */
        if (written > 0) at += (size_t)written;
        if (written > 0 || errno == EINTR) continue;
        if (errno != EAGAIN) return false;
        struct pollfd waiting = {descriptor, POLLOUT, 0};
        poll(&waiting, 1, -1);
    }
    return true;
}

/* Sends a portion; back when its last bit has gone. tcdrain tells that, but of some adapters too early: so it isn't
 * believed before the bus has had the time for all bits. */
static int send_portion(const device *to, const uint8_t *portion, size_t n) {
    if (!write_all(to->descriptor, portion, n)) return device_failure(to);
    if (!to->port) return 0;
    uint64_t last_bit = now() + ((uint64_t)n * 3125000 + 2) / 3; /* 10 bits a byte, 9600 bits a second, rounded up */
    while (tcdrain(to->descriptor) != 0)
        if (errno != EINTR) return device_failure(to);
    while (now() < last_bit) sleep_until(last_bit);
    return 0;
}

/* Sleeps until the sender must be full, and tells it the whole microseconds that have passed; what is beyond them counts
 * with the next. */
static void wait_for_energy(sending *state) {
    uint64_t gain = state->sender.settings.gain_per_microsecond;
    uint64_t missing = state->sender.settings.max_energy - vbus_sender_energy(state->sender);
    if (missing == 0) return;
    sleep_until(state->counted + (missing + gain - 1) / gain * 1000);
    uint64_t microseconds = (now() - state->counted) / 1000;
    state->sender = vbus_sender_wait(state->sender, microseconds).sender;
    state->counted += microseconds * 1000;
}

static int send_stream(sending *state, const uint8_t *stream, size_t n) {
    uint8_t portion[VBUS_MAX_STREAM];
    /* no call here can refuse: the settings are a sender's, it is idle, and the rooms suffice for any stream */
    state->sender = vbus_sender_enqueue(state->sender, state->queue, stream, n).sender;
    while (!vbus_sender_is_idle(state->sender)) {
        vbus_sent sent = vbus_sender_transmit(state->sender, state->queue, portion, sizeof portion);
        state->sender = sent.sender;
        if (sent.length > 0) {
            if (send_portion(&state->to, portion, sent.length) != 0) return 1;
            state->counted = now();
        }
        wait_for_energy(state);
    }
    return 0;
}

static int send_records(sending *state, const buffer *recording) {
    uint8_t payload[VBUS_MAX_PAYLOAD], stream[VBUS_MAX_STREAM];
    for (size_t start = 0;; state->records++) {
        /* can't refuse: start is at most size, and the room suffices for any record */
        vbus_found next = vbus_next(recording->bytes, recording->size, start, payload, sizeof payload);
        if (!next.found) return 0;
        /* can't refuse: it is a stream's record, and the room suffices */
        size_t n = vbus_encode(next.header, payload, next.payload_length, stream, sizeof stream).length;
        if (send_stream(state, stream, n) != 0) return 1;
        start = (size_t)next.position + next.length;
    }
}

/* Writing may turn out to have failed only as the output is closed. */
static int end(const sending *state, const buffer *recording) {
    if (close(state->to.descriptor) != 0) return failure(state->to.name);
    if (state->records == 0 && recording->size > 0)
        fprintf(stderr, "send: no record found, bytes looked at: %zu\n", recording->size);
    return 0;
}

/* Decimal digits and nothing else, up to 4294967295. */
static bool read_number(const char *word, uint32_t *number) {
    uint64_t value = 0;
    size_t n = strspn(word, "0123456789");
    if (n == 0 || word[n] != '\0') return false;
    for (size_t i = 0; i < n; i++) {
        value = 10 * value + (uint64_t)(word[i] - '0');
        if (value > UINT32_MAX) return false;
    }
    *number = (uint32_t)value;
    return true;
}

static bool read_settings(char **words, vbus_sender_settings *settings) {
    return read_number(words[0], &settings->max_energy) && read_number(words[1], &settings->loss_per_byte) &&
           read_number(words[2], &settings->gain_per_microsecond);
}

static int wrong_settings(char **words) {
    fprintf(stderr, "send: MAX %s, LOSS %s, GAIN %s: ", words[0], words[1], words[2]);
    fputs("unless MAX is 0, LOSS and GAIN must be above 0, and LOSS at most MAX\n", stderr);
    return 2;
}

int main(int argc, char **argv) {
    if (argc == 2 && (strcmp(argv[1], "--help") == 0 || strcmp(argv[1], "-h") == 0)) {
        fputs(usage, stdout);
        return fclose(stdout) == 0 ? 0 : failure("standard output");
    }
    vbus_sender_settings settings;
    bool right = (argc == 5 || argc == 6) && read_settings(argv + 1, &settings);
    /* an option that there isn't */
    if (!right || argv[4][0] == '-' || argv[argc - 1][0] == '-') {
        fputs(usage, stderr);
        return 2;
    }
    vbus_sent started = vbus_sender_start(settings);
    if (started.number != 0) return wrong_settings(argv + 1);
    sending state = {{STDOUT_FILENO, argc == 6 ? argv[5] : "standard output", false}, started.sender, {0}, 0, 0};
    if (argc == 5 && isatty(STDOUT_FILENO)) {
        say(state.to.name, "is a terminal; a serial port must be named");
        return 2;
    }
    buffer recording = {NULL, 0, 0};
    int status = read_recording(argv[4], &recording);
    if (status == 0 && argc == 6) status = open_device(&state.to, true);
    if (status == 0) status = send_records(&state, &recording);
    put_back();
    if (status == 0) status = end(&state, &recording);
    free(recording.bytes);
    return status;
}
