/*
 * Measures the deepest stack of each export: it runs on a stack of its own that was filled with a pattern, and the
 * lowest byte that no longer holds the pattern is the depth. The depth of an empty function with the same arguments,
 * called from the same place, is taken off; so a figure holds the export's own return address and all that it calls.
 * Every input runs with two patterns, as a byte written may happen to equal one of them.
 *
 *   stack LIMIT SECTIONS-LIMIT RECORDING..
 *
 * Exit status: 1 if an export uses more than LIMIT bytes, or a section function more than SECTIONS-LIMIT.
 */
#define _XOPEN_SOURCE 700
#include <stdio.h>
#include <stdlib.h>
#include <string.h>
#include <ucontext.h>

#include "vbus.h"

#define STACK 65536

/* the four section functions last: they have a limit of their own */
enum {
    CHECKSUM, EXTRACT, INJECT, VALIDATE, NEXT, NEXT_FAULT, RECEIVE, RESET, ENCODE, NORMALIZE, VALUE, TEMPERATURE,
    READ_SLAVE_ID, WRITE_SLAVE_ID, SLAVE_ENTER, SLAVE_FIND, SLAVE_CHANGE_ADDRESS, SLAVE_REMOVE, SLAVE_CHECK_FIGURES,
    SENDER_START, SENDER_ENQUEUE, SENDER_TRANSMIT, SENDER_WAIT, SENDER_IS_IDLE, SENDER_ENERGY,
    SECTION_COUNT, SECTION, ELEMENT_COUNT, ELEMENT, EXPORTS
};
static const char *const names[EXPORTS] = {
    "vbus_checksum", "vbus_extract", "vbus_inject", "vbus_validate", "vbus_next", "vbus_next_fault", "vbus_receive",
    "vbus_reset", "vbus_encode", "vbus_normalize", "vbus_value", "vbus_temperature", "vbus_read_slave_id",
    "vbus_write_slave_id", "vbus_slave_enter", "vbus_slave_find", "vbus_slave_change_address", "vbus_slave_remove",
    "vbus_slave_check_figures", "vbus_sender_start", "vbus_sender_enqueue", "vbus_sender_transmit", "vbus_sender_wait",
    "vbus_sender_is_idle", "vbus_sender_energy", "vbus_section_count", "vbus_section", "vbus_element_count", "vbus_element"};

/* the arguments of the call under measurement */
static struct {
    int export_;
    const uint8_t *input;
    size_t n, start, section, element, length;
    uint8_t septet;
    vbus_header header;
    vbus_receiver receiver;
    uint8_t *out;
    size_t room;
    vbus_figures figures;
    vbus_slave slave;
    bool owner;
    uint16_t from, to;
    vbus_sender sender;
    uint64_t microseconds;
} call;

/* A receiver's memory, and what it holds before each call: a call may leave it otherwise. */
static uint8_t memory[VBUS_MAX_STREAM], held[VBUS_MAX_STREAM];

/* A table of slaves, longer than one may be, and what it holds before each call. */
#define ENTRIES 64
static vbus_slave table[ENTRIES], entries[ENTRIES];

/* A sender's queue. No call goes by what stands in it. */
static uint8_t queue[VBUS_MAX_STREAM];

/* Empty functions, each of the type of an export: what calling costs by itself. */
#define EMPTY __attribute__((noinline, noclone))
#define UNUSED __attribute__((unused))
static EMPTY uint8_t no_checksum(UNUSED const uint8_t *a, UNUSED size_t b) { __asm__(""); return 0; }
static EMPTY vbus_septets no_extract(UNUSED const uint8_t *a, UNUSED size_t b) { static vbus_septets z; __asm__(""); return z; }
static EMPTY vbus_septets no_inject(UNUSED const uint8_t *a, UNUSED size_t b, UNUSED uint8_t c) { static vbus_septets z; __asm__(""); return z; }
static EMPTY vbus_validation no_validate(UNUSED const uint8_t *a, UNUSED size_t b) { static vbus_validation z; __asm__(""); return z; }
static EMPTY vbus_found no_next(UNUSED const uint8_t *a, UNUSED size_t b, UNUSED size_t c, UNUSED uint8_t *d, UNUSED size_t e) { static vbus_found z; __asm__(""); return z; }
static EMPTY vbus_fault no_next_fault(UNUSED const uint8_t *a, UNUSED size_t b, UNUSED size_t c) { static vbus_fault z; __asm__(""); return z; }
static EMPTY vbus_received no_receive(UNUSED vbus_receiver a, UNUSED uint8_t *b, UNUSED const uint8_t *c, UNUSED size_t d, UNUSED uint8_t *e, UNUSED size_t f) { static vbus_received z; __asm__(""); return z; }
static EMPTY vbus_receiver no_reset(UNUSED vbus_receiver a) { static vbus_receiver z; __asm__(""); return z; }
static EMPTY vbus_written no_encode(UNUSED vbus_header a, UNUSED const uint8_t *b, UNUSED size_t c, UNUSED uint8_t *d, UNUSED size_t e) { static vbus_written z; __asm__(""); return z; }
static EMPTY vbus_written no_normalize(UNUSED const uint8_t *a, UNUSED size_t b, UNUSED uint8_t *c, UNUSED size_t d) { static vbus_written z; __asm__(""); return z; }
static EMPTY int32_t no_value(UNUSED const uint8_t *a) { __asm__(""); return 0; }
static EMPTY int16_t no_temperature(UNUSED const uint8_t *a) { __asm__(""); return 0; }
static EMPTY vbus_count no_section_count(UNUSED vbus_header a, UNUSED const uint8_t *b, UNUSED size_t c) { static vbus_count z; __asm__(""); return z; }
static EMPTY vbus_part no_section(UNUSED vbus_header a, UNUSED const uint8_t *b, UNUSED size_t c, UNUSED size_t d) { static vbus_part z; __asm__(""); return z; }
static EMPTY vbus_count no_element_count(UNUSED vbus_header a, UNUSED const uint8_t *b, UNUSED size_t c, UNUSED size_t d) { static vbus_count z; __asm__(""); return z; }
static EMPTY vbus_part no_element(UNUSED vbus_header a, UNUSED const uint8_t *b, UNUSED size_t c, UNUSED size_t d, UNUSED size_t e) { static vbus_part z; __asm__(""); return z; }
static EMPTY vbus_slave_id no_read_slave_id(UNUSED vbus_header a, UNUSED const uint8_t *b, UNUSED size_t c) { static vbus_slave_id z; __asm__(""); return z; }
static EMPTY vbus_written no_write_slave_id(UNUSED uint16_t a, UNUSED uint16_t b, UNUSED uint32_t c, UNUSED uint32_t d, UNUSED uint8_t *e, UNUSED size_t f) { static vbus_written z; __asm__(""); return z; }
static EMPTY vbus_slave_kept no_slave_enter(UNUSED vbus_slave *a, UNUSED size_t b, UNUSED vbus_figures c, UNUSED vbus_slave d) { static vbus_slave_kept z; __asm__(""); return z; }
static EMPTY vbus_slave_found no_slave_find(UNUSED const vbus_slave *a, UNUSED size_t b, UNUSED bool c, UNUSED uint16_t d) { static vbus_slave_found z; __asm__(""); return z; }
static EMPTY uint32_t no_slave_change_address(UNUSED vbus_slave *a, UNUSED size_t b, UNUSED bool c, UNUSED uint16_t d, UNUSED uint16_t e) { __asm__(""); return 0; }
static EMPTY vbus_slave_kept no_slave_remove(UNUSED vbus_slave *a, UNUSED size_t b, UNUSED vbus_figures c, UNUSED bool d, UNUSED uint16_t e) { static vbus_slave_kept z; __asm__(""); return z; }
static EMPTY vbus_figures_checked no_slave_check_figures(UNUSED const vbus_slave *a, UNUSED size_t b, UNUSED vbus_figures c) { static vbus_figures_checked z; __asm__(""); return z; }
static EMPTY vbus_sent no_sender_start(UNUSED vbus_sender_settings a) { static vbus_sent z; __asm__(""); return z; }
static EMPTY vbus_sent no_sender_enqueue(UNUSED vbus_sender a, UNUSED uint8_t *b, UNUSED const uint8_t *c, UNUSED size_t d) { static vbus_sent z; __asm__(""); return z; }
static EMPTY vbus_sent no_sender_transmit(UNUSED vbus_sender a, UNUSED const uint8_t *b, UNUSED uint8_t *c, UNUSED size_t d) { static vbus_sent z; __asm__(""); return z; }
static EMPTY vbus_sent no_sender_wait(UNUSED vbus_sender a, UNUSED uint64_t b) { static vbus_sent z; __asm__(""); return z; }
static EMPTY bool no_sender_is_idle(UNUSED vbus_sender a) { __asm__(""); return false; }
static EMPTY uint32_t no_sender_energy(UNUSED vbus_sender a) { __asm__(""); return 0; }

/* The export and the empty function go through one pointer, so that both are called by the same code. */
static uint8_t (*volatile f_checksum)(const uint8_t *, size_t);
static vbus_septets (*volatile f_extract)(const uint8_t *, size_t);
static vbus_septets (*volatile f_inject)(const uint8_t *, size_t, uint8_t);
static vbus_validation (*volatile f_validate)(const uint8_t *, size_t);
static vbus_found (*volatile f_next)(const uint8_t *, size_t, size_t, uint8_t *, size_t);
static vbus_fault (*volatile f_next_fault)(const uint8_t *, size_t, size_t);
static vbus_received (*volatile f_receive)(vbus_receiver, uint8_t *, const uint8_t *, size_t, uint8_t *, size_t);
static vbus_receiver (*volatile f_reset)(vbus_receiver);
static vbus_written (*volatile f_encode)(vbus_header, const uint8_t *, size_t, uint8_t *, size_t);
static vbus_written (*volatile f_normalize)(const uint8_t *, size_t, uint8_t *, size_t);
static int32_t (*volatile f_value)(const uint8_t *);
static int16_t (*volatile f_temperature)(const uint8_t *);
static vbus_count (*volatile f_section_count)(vbus_header, const uint8_t *, size_t);
static vbus_part (*volatile f_section)(vbus_header, const uint8_t *, size_t, size_t);
static vbus_count (*volatile f_element_count)(vbus_header, const uint8_t *, size_t, size_t);
static vbus_part (*volatile f_element)(vbus_header, const uint8_t *, size_t, size_t, size_t);
static vbus_slave_id (*volatile f_read_slave_id)(vbus_header, const uint8_t *, size_t);
static vbus_written (*volatile f_write_slave_id)(uint16_t, uint16_t, uint32_t, uint32_t, uint8_t *, size_t);
static vbus_slave_kept (*volatile f_slave_enter)(vbus_slave *, size_t, vbus_figures, vbus_slave);
static vbus_slave_found (*volatile f_slave_find)(const vbus_slave *, size_t, bool, uint16_t);
static uint32_t (*volatile f_slave_change_address)(vbus_slave *, size_t, bool, uint16_t, uint16_t);
static vbus_slave_kept (*volatile f_slave_remove)(vbus_slave *, size_t, vbus_figures, bool, uint16_t);
static vbus_figures_checked (*volatile f_slave_check_figures)(const vbus_slave *, size_t, vbus_figures);
static vbus_sent (*volatile f_sender_start)(vbus_sender_settings);
static vbus_sent (*volatile f_sender_enqueue)(vbus_sender, uint8_t *, const uint8_t *, size_t);
static vbus_sent (*volatile f_sender_transmit)(vbus_sender, const uint8_t *, uint8_t *, size_t);
static vbus_sent (*volatile f_sender_wait)(vbus_sender, uint64_t);
static bool (*volatile f_sender_is_idle)(vbus_sender);
static uint32_t (*volatile f_sender_energy)(vbus_sender);

static void choose(int empty) {
    f_checksum = empty ? no_checksum : vbus_checksum;
    f_extract = empty ? no_extract : vbus_extract;
    f_inject = empty ? no_inject : vbus_inject;
    f_validate = empty ? no_validate : vbus_validate;
    f_next = empty ? no_next : vbus_next;
    f_next_fault = empty ? no_next_fault : vbus_next_fault;
    f_receive = empty ? no_receive : vbus_receive;
    f_reset = empty ? no_reset : vbus_reset;
    f_encode = empty ? no_encode : vbus_encode;
    f_normalize = empty ? no_normalize : vbus_normalize;
    f_value = empty ? no_value : vbus_value;
    f_temperature = empty ? no_temperature : vbus_temperature;
    f_section_count = empty ? no_section_count : vbus_section_count;
    f_section = empty ? no_section : vbus_section;
    f_element_count = empty ? no_element_count : vbus_element_count;
    f_element = empty ? no_element : vbus_element;
    f_read_slave_id = empty ? no_read_slave_id : vbus_read_slave_id;
    f_write_slave_id = empty ? no_write_slave_id : vbus_write_slave_id;
    f_slave_enter = empty ? no_slave_enter : vbus_slave_enter;
    f_slave_find = empty ? no_slave_find : vbus_slave_find;
    f_slave_change_address = empty ? no_slave_change_address : vbus_slave_change_address;
    f_slave_remove = empty ? no_slave_remove : vbus_slave_remove;
    f_slave_check_figures = empty ? no_slave_check_figures : vbus_slave_check_figures;
    f_sender_start = empty ? no_sender_start : vbus_sender_start;
    f_sender_enqueue = empty ? no_sender_enqueue : vbus_sender_enqueue;
    f_sender_transmit = empty ? no_sender_transmit : vbus_sender_transmit;
    f_sender_wait = empty ? no_sender_wait : vbus_sender_wait;
    f_sender_is_idle = empty ? no_sender_is_idle : vbus_sender_is_idle;
    f_sender_energy = empty ? no_sender_energy : vbus_sender_energy;
}

static union {
    uint8_t checksum;
    vbus_septets septets;
    vbus_validation validation;
    vbus_found found;
    vbus_fault fault;
    vbus_received received;
    vbus_receiver receiver;
    vbus_written written;
    int32_t value;
    int16_t temperature;
    vbus_count count;
    vbus_part part;
    vbus_slave_id slave_id;
    vbus_slave_found slave_found;
    vbus_slave_kept slave_kept;
    vbus_figures_checked figures_checked;
    vbus_sent sent;
    bool idle;
    uint32_t number;
} answer;

static uint8_t stack[STACK] __attribute__((aligned(64)));
static uint8_t pattern;
static size_t untouched;
static ucontext_t here, there;
static size_t deepest[EXPORTS];
static unsigned long calls;

static void run(void) {
    switch (call.export_) {
    case CHECKSUM: answer.checksum = f_checksum(call.input, call.n); break;
    case EXTRACT: answer.septets = f_extract(call.input, call.length); break;
    case INJECT: answer.septets = f_inject(call.input, call.length, call.septet); break;
    case VALIDATE: answer.validation = f_validate(call.input, call.n); break;
    case NEXT: answer.found = f_next(call.input, call.n, call.start, call.out, call.room); break;
    case NEXT_FAULT: answer.fault = f_next_fault(call.input, call.n, call.start); break;
    case RECEIVE: answer.received = f_receive(call.receiver, memory, call.input, call.n, call.out, call.room); break;
    case RESET: answer.receiver = f_reset(call.receiver); break;
    case ENCODE: answer.written = f_encode(call.header, call.input, call.n, call.out, call.room); break;
    case NORMALIZE: answer.written = f_normalize(call.input, call.n, call.out, call.room); break;
    case VALUE: answer.value = f_value(call.input); break;
    case TEMPERATURE: answer.temperature = f_temperature(call.input); break;
    case SECTION_COUNT: answer.count = f_section_count(call.header, call.input, call.n); break;
    case SECTION: answer.part = f_section(call.header, call.input, call.n, call.section); break;
    case ELEMENT_COUNT: answer.count = f_element_count(call.header, call.input, call.n, call.section); break;
    case ELEMENT: answer.part = f_element(call.header, call.input, call.n, call.section, call.element); break;
    case READ_SLAVE_ID: answer.slave_id = f_read_slave_id(call.header, call.input, call.n); break;
    case WRITE_SLAVE_ID: answer.written = f_write_slave_id(call.to, call.from, call.slave.product, call.slave.device, call.out, call.room); break;
    case SLAVE_ENTER: answer.slave_kept = f_slave_enter(table, call.n, call.figures, call.slave); break;
    case SLAVE_FIND: answer.slave_found = f_slave_find(table, call.n, call.owner, call.from); break;
    case SLAVE_CHANGE_ADDRESS: answer.number = f_slave_change_address(table, call.n, call.owner, call.from, call.to); break;
    case SLAVE_REMOVE: answer.slave_kept = f_slave_remove(table, call.n, call.figures, call.owner, call.from); break;
    case SLAVE_CHECK_FIGURES: answer.figures_checked = f_slave_check_figures(table, call.n, call.figures); break;
    case SENDER_START: answer.sent = f_sender_start(call.sender.settings); break;
    case SENDER_ENQUEUE: answer.sent = f_sender_enqueue(call.sender, queue, call.input, call.n); break;
    case SENDER_TRANSMIT: answer.sent = f_sender_transmit(call.sender, queue, call.out, call.room); break;
    case SENDER_WAIT: answer.sent = f_sender_wait(call.sender, call.microseconds); break;
    case SENDER_IS_IDLE: answer.idle = f_sender_is_idle(call.sender); break;
    case SENDER_ENERGY: answer.number = f_sender_energy(call.sender); break;
    }
    /* here, and without a call: what follows on this stack, back to main's, would count too */
    size_t low = 0;
    while (low < sizeof stack && ((volatile uint8_t *)stack)[low] == pattern) low++;
    untouched = low;
}

static size_t depth(int empty) {
    memset(stack, pattern, sizeof stack);
    memcpy(memory, held, sizeof memory);
    memcpy(table, entries, sizeof table);
    choose(empty);
    if (getcontext(&there) != 0) abort();
    there.uc_stack.ss_sp = stack;
    there.uc_stack.ss_size = sizeof stack;
    there.uc_link = &here;
    makecontext(&there, run, 0);
    if (swapcontext(&here, &there) != 0) abort();
    if (untouched == 0) {
        puts("stack: the measured stack was used up");
        exit(1);
    }
    return sizeof stack - untouched;
}

/* Measures `call` as it stands, for one export. */
static void measure(int export_) {
    static const uint8_t patterns[2] = {0x5A, 0xC3};
    size_t empty = 0, used = 0;
    call.export_ = export_;
    for (int i = 0; i < 2; i++) {
        pattern = patterns[i];
        size_t without = depth(1), with = depth(0);
        /* of each the larger: the empty function's lowest byte, its return address's, may equal a pattern too */
        if (without > empty) empty = without;
        if (with > used) used = with;
        calls++;
    }
    /* the empty function's only bytes are its return address, 8 */
    used -= empty - 8;
    if (used > deepest[export_]) deepest[export_] = used;
}

static uint8_t input[1 << 20], out[1 << 20], stream[VBUS_MAX_STREAM];

static vbus_header header_of(uint8_t version, uint16_t command) {
    vbus_header made = {version, 0x0015, 0x7E21, command};
    return made;
}

/* receive: a chunk of n bytes for a receiver that holds that many of `held`, with room for a payload and without, and
 * where the count has no room for the chunk */
static void chunk(size_t holds, const uint8_t *bytes, size_t n) {
    call.receiver.held = holds;
    call.receiver.position = VBUS_MAX_STREAM; /* no fewer bytes were used than can be held */
    call.input = bytes;
    call.n = n;
    call.out = out;
    call.room = VBUS_MAX_PAYLOAD;
    measure(RECEIVE);
    call.room = VBUS_MAX_PAYLOAD - 1;
    measure(RECEIVE);
    call.room = VBUS_MAX_PAYLOAD;
    call.receiver.position = UINT64_MAX;
    measure(RECEIVE);
    measure(RESET);
}

/* every record of what stands in the input, each from where the one before it ended */
static void received(size_t n) {
    static uint8_t own[VBUS_MAX_STREAM];
    vbus_receiver fresh = {0, 0};
    for (size_t at = 0; at < n;) {
        chunk(0, input + at, n - at);
        at += vbus_receive(fresh, own, input + at, n - at, out, sizeof out).used;
    }
}

/* The stream in `stream`, held up to a byte: the rest completes it, is broken at its end, and is cut off by a new one.
 * And a state that no calls lead to: more is held than there is. */
static void unfinished(size_t size, size_t at) {
    memcpy(held, stream, size);
    memcpy(input, stream, size);
    chunk(at, input + at, size - at);
    chunk(at, input + at, size - at - 1);
    input[size - 1] ^= 1;
    chunk(at, input + at, size - at);
    memcpy(input + at, stream, size);
    chunk(at, input + at, size);
    chunk(VBUS_MAX_STREAM, stream, size);
    chunk((size_t)-1, stream, size);
}

/* every fault of what stands in the input, each from behind the one before it, and from behind the last */
static void faults(size_t n) {
    call.input = input;
    call.n = n;
    vbus_fault fault = {0};
    for (size_t start = 0; start == 0 || fault.found; start = fault.place + 1) {
        call.start = start;
        measure(NEXT_FAULT);
        fault = vbus_next_fault(input, n, start);
    }
}

/* validate, next, next_fault, receive and normalize of what stands in the input */
static void recording(size_t n) {
    chunk(0, input, n);
    call.input = input;
    call.n = n;
    call.out = out;
    call.start = 0;
    measure(CHECKSUM);
    measure(VALIDATE);
    measure(NEXT_FAULT);
    /* room for all; for nothing; for the payload of a short record, but for no stream: each ends another way */
    static const size_t rooms[3] = {sizeof out, 0, 7};
    for (int i = 0; i < 3; i++) {
        call.room = rooms[i];
        measure(NEXT);
        measure(NORMALIZE);
    }
    /* the writing pass after a counting pass: room below n that still suffices */
    call.room = sizeof out;
    vbus_written all = vbus_normalize(input, n, out, sizeof out);
    call.room = all.length;
    measure(NORMALIZE);
}

static void blocks(size_t n, const uint8_t *payload) {
    call.header = header_of(VBUS_PACKET, 0x0100);
    call.input = payload;
    call.n = n;
    static const size_t numbers[] = {0, 1, 62, 63, 124, 125, 126, 127};
    measure(SECTION_COUNT);
    for (size_t i = 0; i < sizeof numbers / sizeof *numbers; i++) {
        call.section = numbers[i];
        for (call.element = 0; call.element < 3; call.element++) {
            measure(SECTION);
            measure(ELEMENT_COUNT);
            measure(ELEMENT);
        }
    }
}

static void septets(const uint8_t *payload) {
    static const uint8_t low[7] = {1, 2, 3, 4, 5, 6, 7};
    for (call.length = 0; call.length <= 8; call.length++) {
        for (unsigned septet = 0; septet < 256; septet++) {
            call.septet = (uint8_t)septet;
            call.input = low;
            measure(INJECT);
            if (septet % 5 != 0) continue;
            call.input = payload;
            measure(EXTRACT);
            measure(INJECT);
        }
    }
}

static void signed_numbers(const uint8_t *payload) {
    static const uint8_t negative[6] = {0, 0x80, 0, 0, 0, 0x80};
    call.input = payload;
    measure(VALUE);
    measure(TEMPERATURE);
    call.input = negative;
    measure(VALUE);
    measure(TEMPERATURE);
}

/* every kind at every payload length, with and without room */
static void writing(const uint8_t *payload) {
    static const uint8_t versions[4] = {VBUS_PACKET, VBUS_DATAGRAM, VBUS_TELEGRAM, 0x11};
    call.input = payload;
    call.out = out;
    for (unsigned kind = 0; kind < 4; kind++) {
        for (unsigned frames = 0; frames <= 128; frames++) {
            call.header = header_of(versions[kind], (uint16_t)(kind == 2 ? frames % 4 * 32 : 0x0100));
            call.n = kind == 0 ? 4 * frames : kind == 2 ? 7 * (frames % 4) : 6;
            for (call.room = 0; call.room <= VBUS_MAX_STREAM; call.room += VBUS_MAX_STREAM / 2) measure(ENCODE);
        }
    }
}

/* Sets all unused septet bits of whole streams that stand end to end, and puts their checksums right. */
static void set_unused_bits(uint8_t *streams, size_t n) {
    for (uint8_t *s = streams; s < streams + n;) {
        size_t length = vbus_validate(s, (size_t)(streams + n - s)).offset;
        if (s[5] == VBUS_DATAGRAM) {
            s[14] |= 0x40;
            s[15] = vbus_checksum(s + 1, 14);
        }
        for (size_t frame = 10; s[5] == VBUS_PACKET && frame < length; frame += 6) {
            s[frame + 4] |= 0x70;
            s[frame + 5] = vbus_checksum(s + frame, 5);
        }
        s += length;
    }
}

/* packets of all sizes one after the other, datagrams and telegrams between; the same with unused septet bits */
static void whole_streams(const uint8_t *payload) {
    size_t n = 0;
    for (unsigned frames = 0; frames <= 127; frames++) {
        n += vbus_encode(header_of(VBUS_PACKET, 0x0300), payload, 4 * frames, input + n, VBUS_MAX_STREAM).length;
        n += vbus_encode(header_of(VBUS_DATAGRAM, 0x0300), payload, 6, input + n, 16).length;
        n += vbus_encode(header_of(VBUS_TELEGRAM, (uint16_t)frames), payload, frames / 32 * 7, input + n, 35).length;
    }
    recording(n);
    received(n);
    set_unused_bits(input, n);
    recording(n);
    received(n);
}

/* the stream in `stream`, at every step bytes: the byte there damaged in two ways, the stream cut off there, and held */
static void damaged_as_it_is(size_t size, size_t step) {
    for (size_t at = 0; at < size; at += step) {
        memcpy(input, stream, size);
        input[at] ^= 1;
        recording(size);
        input[at] ^= 0x81;
        recording(size);
        memcpy(input, stream, size);
        recording(at);
        unfinished(size, at);
    }
    unfinished(size, size - 1);
}

/* the same with unused septet bits too */
static void damaged(size_t size, size_t step) {
    damaged_as_it_is(size, step);
    set_unused_bits(stream, size);
    damaged_as_it_is(size, step);
}

static void damaged_streams(const uint8_t *payload) {
    for (unsigned frames = 0; frames <= 127; frames += 127) {
        vbus_header header = header_of(VBUS_PACKET, 0x0300);
        damaged(vbus_encode(header, payload, 4 * frames, stream, sizeof stream).length, frames == 0 ? 1 : 11);
    }
    damaged(vbus_encode(header_of(VBUS_DATAGRAM, 0x0300), payload, 6, stream, sizeof stream).length, 1);
    for (unsigned frames = 0; frames <= 3; frames++) {
        vbus_header header = header_of(VBUS_TELEGRAM_31, (uint16_t)(32 * frames));
        damaged(vbus_encode(header, payload, 7 * frames, stream, sizeof stream).length, 1);
    }
}

static void stored(const char *name) {
    FILE *file = fopen(name, "rb");
    if (file == NULL) {
        perror(name);
        exit(2);
    }
    size_t size = fread(input, 1, sizeof input, file);
    fclose(file);
    recording(size);
    received(size);
    faults(size);
}

static void chains(void) {
    /* 127 sections without a frame: the longest chain that there is */
    uint8_t chain[512] = {0};
    for (size_t i = 0; i < 127; i++) chain[4 * i + 1] = 0x01;
    for (size_t size = 0; size <= 512; size += 4) blocks(size, chain);
    blocks(507, chain);
    /* 126 sections, the last with elements */
    chain[4 * 125] = 1;
    blocks(508, chain);
    /* the same, the last past the end; and of an unknown type */
    chain[4 * 125] = 2;
    blocks(508, chain);
    chain[4 * 125] = 1;
    chain[4 * 125 + 1] = 0x77;
    blocks(508, chain);
    /* few sections, all of them long */
    memset(chain, 0, sizeof chain);
    chain[0] = 62;
    chain[1] = 0x0A;
    chain[252] = 63;
    chain[253] = 0x08;
    blocks(508, chain);
    /* the same, the last ends within an element */
    chain[253] = 0x0A;
    blocks(508, chain);
}

/* slave ID responses and records that are none; identifiers and addresses that are too large, and all rooms */
static void slave_ids(void) {
    static const uint8_t payload[8] = {0x38, 0x90, 0x0D, 0xB6, 0xC6, 0x23, 0x00, 0x00}, last[7] = {0, 0, 0, 0, 0, 0, 1};
    static const uint8_t versions[5] = {VBUS_TELEGRAM, VBUS_TELEGRAM_31, VBUS_PACKET, VBUS_DATAGRAM, 0x11};
    for (int i = 0; i < 5; i++) {
        for (uint16_t command = 0x22; command <= 0x24; command++) {
            call.header = header_of(versions[i], command);
            call.input = payload;
            for (call.n = 0; call.n <= 8; call.n++) measure(READ_SLAVE_ID);
            call.input = last;
            call.n = 7;
            measure(READ_SLAVE_ID);
        }
    }
    static const uint32_t identifiers[4] = {0, 888888, 0xFFFFFF, 0x1000000};
    static const uint16_t addresses[3] = {0x2010, 0x0080, 0x8000};
    call.out = out;
    for (int i = 0; i < 144; i++) {
        call.slave.product = identifiers[i % 4];
        call.slave.device = identifiers[i / 4 % 4];
        call.to = addresses[i / 16 % 3];
        call.from = addresses[i / 48];
        for (call.room = 0; call.room <= 18; call.room++) measure(WRITE_SLAVE_ID);
    }
}

/* the calls of an owner that get figures, on the table in `entries` and with those in `call` */
static void calls_with_figures(bool owner, uint16_t address) {
    call.owner = call.slave.owner = owner;
    call.from = call.slave.address = address;
    call.slave.product = 0xFFFFFF;
    measure(SLAVE_REMOVE);
    for (call.slave.device = 0xFFFFFF; call.slave.device <= 0x1000000; call.slave.device++) measure(SLAVE_ENTER);
}

/* what counting the table in `entries` gives; of one that isn't of the right length, of its first entries */
static vbus_figures counted(void) {
    vbus_figures figures = {0, 0, VBUS_SLAVES};
    for (size_t i = VBUS_SLAVES; i-- > 0;) {
        if (entries[i].address == 0) figures.lowest = (uint8_t)i;
        else if (entries[i].owner) figures.yes++;
        else figures.no++;
    }
    return figures;
}

/* Every call of both owners on the table in `entries`, with addresses that they have and others; with its figures, with
 * those of the empty table, by which it is searched from its start, and with ones that no table has. */
static void table_of(size_t n) {
    static const uint16_t addresses[7] = {0x2100, 0x210F, 0x211F, 0x2F7F, 0x2000, 0xA010, 0};
    const vbus_figures figures[3] = {counted(), {0, 0, 0}, {255, 255, 255}};
    call.n = n;
    for (int i = 0; i < 14; i++) {
        call.owner = i % 2 == 1;
        call.from = addresses[i / 2];
        measure(SLAVE_FIND);
        for (int j = 0; j < 7; j++) {
            call.to = addresses[j];
            measure(SLAVE_CHANGE_ADDRESS);
        }
    }
    for (int k = 0; k < 3; k++) {
        call.figures = figures[k];
        measure(SLAVE_CHECK_FIGURES);
        for (int i = 0; i < 14; i++) calls_with_figures(i % 2 == 1, addresses[i / 2]);
    }
}

/* A table in which the first `share` entries are the one owner's and the others the other's: full, and with one entry
 * free, each in turn. */
static void shared(size_t n, size_t share) {
    for (size_t k = 0; k < ENTRIES; k++) {
        entries[k].address = (uint16_t)(0x2100 + k);
        entries[k].owner = k < share;
        entries[k].product = entries[k].device = (uint32_t)(1000 * k);
    }
    table_of(n);
    for (size_t k = 0; k < n; k++) {
        entries[k].address = 0;
        table_of(n);
        entries[k].address = (uint16_t)(0x2100 + k);
    }
}

/* tables of right and wrong lengths, empty and shared; in those of the right length owners hold all, as many as they
 * may, one more and one less, half, and none */
static void slaves(void) {
    static const size_t lengths[6] = {0, 1, 31, VBUS_SLAVES, 33, ENTRIES};
    static const size_t shares[6] = {0, 16, VBUS_SLAVES_PER_OWNER - 1, VBUS_SLAVES_PER_OWNER, VBUS_SLAVES_PER_OWNER + 1, VBUS_SLAVES};
    for (int i = 0; i < 6; i++) {
        memset(entries, 0, sizeof entries);
        table_of(lengths[i]);
        for (int j = 0; j < 6; j++)
            if (lengths[i] == VBUS_SLAVES || shares[j] == 16) shared(lengths[i], shares[j]);
    }
}

/* every call of the sender in `call`: no bytes, few, as many as the queue holds, and one more; rooms likewise; no time, some,
 * and all that can be told */
static void sender(void) {
    static const size_t counts[4] = {0, 7, VBUS_MAX_STREAM, VBUS_MAX_STREAM + 1};
    static const uint64_t times[4] = {0, 1, 1000, UINT64_MAX};
    call.input = input;
    call.out = out;
    measure(SENDER_IS_IDLE);
    measure(SENDER_ENERGY);
    for (int i = 0; i < 4; i++) {
        call.n = call.room = counts[i];
        measure(SENDER_ENQUEUE);
        measure(SENDER_TRANSMIT);
        call.microseconds = times[i];
        measure(SENDER_WAIT);
    }
}

/* Senders by settings of all kinds, refused ones last: empty, full, and with more energy than there can be; idle, with some
 * bytes to send, with the whole queue, and with counts that no calls lead to. */
static void senders(void) {
    static const vbus_sender_settings settings[9] = {
        {0, 0, 0}, {10, 3, 2}, {16672, 1042, 1}, {VBUS_MAX_STREAM, 1, 1}, {UINT32_MAX, 1, UINT32_MAX}, {UINT32_MAX, UINT32_MAX, 1},
        {1, 0, 1}, {1, 1, 0}, {1, 2, 1}};
    static const size_t queued[4] = {0, 7, VBUS_MAX_STREAM, SIZE_MAX}, sent[4] = {0, 3, VBUS_MAX_STREAM, SIZE_MAX};
    for (int i = 0; i < 9; i++) {
        const uint32_t energies[3] = {0, settings[i].max_energy, UINT32_MAX};
        call.sender.settings = settings[i];
        measure(SENDER_START);
        for (int k = 0; k < 48; k++) {
            call.sender.energy = energies[k % 3];
            call.sender.queued = queued[k / 3 % 4];
            call.sender.sent = sent[k / 12];
            sender();
        }
    }
}

/* Prints each export's figure; gives the number of those over their limit. */
static int report(size_t limit, size_t sections_limit) {
    int over = 0;
    printf("%-26s %6s\n", "export", "bytes");
    for (int i = 0; i < EXPORTS; i++) {
        size_t most = i >= SECTION_COUNT ? sections_limit : limit;
        printf("%-26s %6zu%s\n", names[i], deepest[i], deepest[i] > most ? "  over the limit" : "");
        over += deepest[i] > most;
    }
    printf("%lu calls measured; limits %zu and, of the lookups of sections, %zu bytes\n", calls, limit, sections_limit);
    printf("%d passed, %d failed\n", EXPORTS - over, over);
    return over;
}

int main(int argc, char **argv) {
    if (argc < 3) {
        fprintf(stderr, "usage: stack LIMIT SECTIONS-LIMIT RECORDING..\n");
        return 2;
    }
    uint8_t payload[512];
    for (size_t i = 0; i < sizeof payload; i++) payload[i] = (uint8_t)(i * 73 + 5);
    septets(payload);
    signed_numbers(payload);
    writing(payload);
    whole_streams(payload);
    damaged_streams(payload);
    for (int i = 3; i < argc; i++) stored(argv[i]);
    chains();
    slave_ids();
    slaves();
    senders();
    return report(strtoul(argv[1], NULL, 10), strtoul(argv[2], NULL, 10)) == 0 ? 0 : 1;
}
