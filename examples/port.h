/*
 * What examples/watch.c and examples/send.c share: messages, and a device opened. A serial port is set to 9600 bits a
 * second, 8N1, raw, and put back as it was at the end, also where SIGHUP, SIGINT, SIGQUIT, SIGTERM or SIGPIPE ends the
 * program.
 *
 * A program has one source, which defines _POSIX_C_SOURCE as 200809L and PROGRAM as the name before its messages, and
 * then includes this.
 */
#include <errno.h>
#include <fcntl.h>
#include <signal.h>
#include <stdbool.h>
#include <stdio.h>
#include <string.h>
#include <sys/stat.h>
#include <termios.h>
#include <unistd.h>

typedef struct {
    int descriptor;
    const char *name;
    bool port; /* a terminal device, which has no end but that it is gone */
} device;

/* The port whose settings were changed, and what they were: a signal handler finds them nowhere else. */
static int changed = -1;
static struct termios former;
static bool sends; /* bytes may be waiting to go out */

static int say(const char *what, const char *reason) {
    fprintf(stderr, PROGRAM ": %s: %s\n", what, reason);
    return 1;
}

static int failure(const char *what) {
    return say(what, strerror(errno));
}

static int gone(const device *at) {
    return say(at->name, "the device is gone");
}

static int device_failure(const device *at) {
    return at->port && errno == EIO ? gone(at) : failure(at->name);
}

/* Puts the port back as it was. If it is gone there is nothing to put back. */
static void put_back(void) {
    if (changed != -1) tcsetattr(changed, TCSANOW, &former);
}

/* Its action is the default again (SA_RESETHAND), so that the signal ends the program once this returns. What still waits
 * to go out is dropped: at another speed it would be noise on the bus. */
static void end_by(int number) {
    if (sends) tcflush(changed, TCOFLUSH);
    put_back();
    raise(number);
}

/* The handler ends the program, rather than a flag: it may be waiting for the bus or for whoever reads the lines. A
 * signal that is ignored, as nohup has it, stays so. */
static void catch_signals(void) {
    static const int numbers[] = {SIGHUP, SIGINT, SIGQUIT, SIGTERM, SIGPIPE};
    for (size_t i = 0; i < sizeof numbers / sizeof numbers[0]; i++) {
        struct sigaction action;
        sigaction(numbers[i], NULL, &action);
        if (action.sa_handler == SIG_IGN) continue;
        action.sa_handler = end_by;
        action.sa_flags = SA_RESETHAND;
        sigfillset(&action.sa_mask);
        sigaction(numbers[i], &action, NULL);
    }
}

/* 9600 8N1, raw: no translation, no echo, no flow control, no modem lines. The flags are set from nothing, so that no
 * system's own ones stay; only what happens to the modem lines at the last close is left as it was. */
static struct termios wanted(void) {
    struct termios settings = former;
    settings.c_iflag = 0;
    settings.c_oflag = 0;
    settings.c_lflag = 0;
    settings.c_cflag = CS8 | CREAD | CLOCAL | (former.c_cflag & HUPCL);
    settings.c_cc[VMIN] = 1;
    settings.c_cc[VTIME] = 0;
    cfsetispeed(&settings, B9600);
    cfsetospeed(&settings, B9600);
    return settings;
}

static bool same(const struct termios *a, const struct termios *b) {
    const tcflag_t controls = CSIZE | CSTOPB | PARENB | CREAD | CLOCAL;
    return a->c_iflag == b->c_iflag && a->c_lflag == b->c_lflag && ((a->c_oflag ^ b->c_oflag) & OPOST) == 0 &&
           ((a->c_cflag ^ b->c_cflag) & controls) == 0 && a->c_cc[VMIN] == b->c_cc[VMIN] &&
           a->c_cc[VTIME] == b->c_cc[VTIME] && cfgetispeed(a) == cfgetispeed(b) && cfgetospeed(a) == cfgetospeed(b);
}

/* What came under other settings may not be what was sent: who reads drops it (TCSAFLUSH), who sends leaves it alone. */
static int set_port(const device *at) {
    if (tcgetattr(at->descriptor, &former) != 0) return device_failure(at);
    changed = at->descriptor;
    catch_signals();
    struct termios settings = wanted(), got;
    if (tcsetattr(changed, sends ? TCSADRAIN : TCSAFLUSH, &settings) != 0 || tcgetattr(changed, &got) != 0)
        return device_failure(at);
    /* tcsetattr succeeds if it could set anything */
    return same(&settings, &got) ? 0 : say(at->name, "can't be set to 9600 bits a second, 8N1, raw");
}

/* Opens a device or file, to read it or to send to it, and sets it if it is a port; answers an exit status. Without a
 * carrier a serial port would block the opening; of a FIFO it is the opening that must wait for its other end. */
static int open_device(device *at, bool to_send) {
    struct stat status;
    bool special = stat(at->name, &status) == 0 && S_ISCHR(status.st_mode);
    sends = to_send;
    int opened = open(at->name, (sends ? O_WRONLY | O_APPEND : O_RDONLY) | O_NOCTTY | (special ? O_NONBLOCK : 0));
    if (opened == -1) return failure(at->name);
    /* where standard error is closed, its number would be the device's, and messages go to the bus */
    at->descriptor = fcntl(opened, F_DUPFD, STDERR_FILENO + 1);
    if (at->descriptor == -1) return failure(at->name);
    close(opened);
    at->port = isatty(at->descriptor);
    if (at->port && tcgetpgrp(at->descriptor) != -1) {
        /* once it is raw no key would end the program */
        say(at->name, "is the terminal that this runs at, not a bus");
        return 2;
    }
    if (at->port && set_port(at) != 0) return 1;
    /* reads and writes wait: with CLOCAL set the carrier doesn't matter any more */
    int flags = fcntl(at->descriptor, F_GETFL);
    bool waits = flags != -1 && fcntl(at->descriptor, F_SETFL, flags & ~O_NONBLOCK) != -1;
    return waits ? 0 : failure(at->name);
}
