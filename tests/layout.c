/*
 * Calls every export with values that differ from field to field, so that a field at the wrong place or of the wrong
 * width shows; every refusal with its buffers filled beforehand, which must stay; and every slice as NULL with count 0.
 * Compares the header's names with the papers' numbers. The last line is 'N passed, M failed'.
 */
#include <stdio.h>
#include <string.h>

#include "vbus.h"

static unsigned passed, failed;

static void check(const char *what, int holds, int line) {
    if (holds) {
        passed++;
    } else {
        failed++;
        printf("FAILED: line %d: %s\n", line, what);
    }
}
#define CHECK(condition) check(#condition, (condition) != 0, __LINE__)

/* by the specification, not by the library */
static uint8_t sum(const uint8_t *bytes, size_t n) {
    unsigned left = 0x7F;
    for (size_t i = 0; i < n; i++) left = (left + 256 - bytes[i]) % 128;
    return (uint8_t)left;
}

/* a buffer of which every byte is known */
static void paint(uint8_t *buffer, size_t n) {
    for (size_t i = 0; i < n; i++) buffer[i] = (uint8_t)(i * 37 + 11);
}

static int painted(const uint8_t *buffer, size_t from, size_t n) {
    for (size_t i = from; i < n; i++)
        if (buffer[i] != (uint8_t)(i * 37 + 11)) return 0;
    return 1;
}

static vbus_header header(uint8_t version, uint16_t destination, uint16_t source, uint16_t command) {
    vbus_header made;
    /* the padding too, so that none of it can pass for a field */
    memset(&made, 0xFF, sizeof made);
    made.version = version;
    made.destination = destination;
    made.source = source;
    made.command = command;
    return made;
}

static int found_is(vbus_found a, uint32_t number, int found, uint64_t position, size_t length, vbus_header h, size_t payload_length) {
    return a.number == number && (int)a.found == found && a.position == position && a.length == length &&
           a.header.version == h.version && a.header.destination == h.destination && a.header.source == h.source &&
           a.header.command == h.command && a.payload_length == payload_length;
}
static int nothing_found(vbus_found a, uint32_t number) {
    const vbus_header none = {0, 0, 0, 0};
    return found_is(a, number, 0, 0, 0, none, 0);
}
static int receiver_is(vbus_receiver a, size_t held, uint64_t position) { return a.held == held && a.position == position; }
static int received_is(vbus_received a, size_t used, uint64_t position, size_t length, vbus_header h, size_t payload_length) {
    return a.number == 0 && (int)a.found == 1 && a.used == used && a.position == position && a.length == length &&
           a.header.version == h.version && a.header.destination == h.destination && a.header.source == h.source &&
           a.header.command == h.command && a.payload_length == payload_length &&
           receiver_is(a.receiver, 0, position + length);
}
static int nothing_received(vbus_received a, uint32_t number, size_t used, size_t held, uint64_t position) {
    return a.number == number && (int)a.found == 0 && a.used == used && a.position == 0 && a.length == 0 &&
           a.header.version == 0 && a.header.destination == 0 && a.header.source == 0 && a.header.command == 0 &&
           a.payload_length == 0 && receiver_is(a.receiver, held, position);
}
static int written_is(vbus_written a, uint32_t number, size_t length) { return a.number == number && a.length == length; }
static int count_is(vbus_count a, uint32_t number, size_t count) { return a.number == number && a.count == count; }
static int part_is(vbus_part a, uint32_t number, size_t start, size_t length) {
    return a.number == number && a.start == start && a.length == length;
}
static int septets_are(vbus_septets a, uint32_t number, const uint8_t *bytes, size_t length, uint8_t septet) {
    return a.number == number && memcmp(a.bytes, bytes, 7) == 0 && a.length == length && a.septet == septet;
}
static int whole_is(vbus_validation a, size_t length, size_t unused_septets) {
    return a.verdict == VBUS_VERDICT_WHOLE && a.offset == length && a.unused_septets == unused_septets;
}
static int fault_is(vbus_validation a, uint8_t verdict, size_t offset) {
    return a.verdict == verdict && a.offset == offset && a.unused_septets == 0;
}
static int next_fault_is(vbus_fault a, size_t place, uint8_t verdict, size_t offset, uint8_t byte) {
    return (int)a.found == 1 && a.place == place && a.verdict == verdict && a.offset == offset &&
           (int)a.has_byte == (verdict != VBUS_VERDICT_ENDED) && a.byte == byte;
}
static int wanted_is(vbus_fault a, uint8_t wanted) { return (int)a.has_wanted == 1 && a.wanted == wanted; }
static int nothing_wanted(vbus_fault a) { return (int)a.has_wanted == 0 && a.wanted == 0; }
static int no_fault(vbus_fault a) {
    return (int)a.found == 0 && a.place == 0 && a.verdict == 0 && a.offset == 0 && (int)a.has_byte == 0 && a.byte == 0 &&
           nothing_wanted(a);
}
static int slave_id_is(vbus_slave_id a, uint32_t number, uint32_t product, uint32_t device, uint8_t week, uint32_t serial) {
    return a.number == number && a.product == product && a.device == device && a.week == week && a.serial == serial;
}
static int slave_is(vbus_slave a, uint16_t address, bool owner, uint32_t product, uint32_t device) {
    uint8_t byte; /* the owner's, so that a bool which is neither 0 nor 1 shows */
    memcpy(&byte, &a.owner, 1);
    return a.address == address && byte == (owner ? 1 : 0) && a.product == product && a.device == device;
}
static int figures_are(vbus_figures a, unsigned no, unsigned yes, unsigned lowest) {
    return a.no == no && a.yes == yes && a.lowest == lowest;
}
static int kept_is(vbus_slave_kept a, uint32_t number, unsigned no, unsigned yes, unsigned lowest) {
    return a.number == number && figures_are(a.figures, no, yes, lowest);
}
static int checked_is(vbus_figures_checked a, uint32_t number, int right) {
    return a.number == number && (int)a.right == right;
}
static int slave_found_is(vbus_slave_found a, uint32_t number, uint32_t product, uint32_t device) {
    return a.number == number && a.product == product && a.device == device;
}
static int sender_is(vbus_sender a, vbus_sender b) {
    return a.settings.max_energy == b.settings.max_energy && a.settings.loss_per_byte == b.settings.loss_per_byte &&
           a.settings.gain_per_microsecond == b.settings.gain_per_microsecond && a.energy == b.energy &&
           a.queued == b.queued && a.sent == b.sent;
}
static int sent_is(vbus_sent a, uint32_t number, size_t length, vbus_sender sender) {
    return a.number == number && a.length == length && sender_is(a.sender, sender);
}

/* The papers' numbers, written out once more: a name that has another one in the header shows here. */
static const struct {
    const char *name;
    long here, document;
} numbers[] = {
#define NUMBER(name, document) {#name, name, document}
    NUMBER(VBUS_PACKET, 0x10),
    NUMBER(VBUS_DATAGRAM, 0x20),
    NUMBER(VBUS_TELEGRAM, 0x30),
    NUMBER(VBUS_TELEGRAM_31, 0x31),
    NUMBER(VBUS_UNKNOWN_VERSION, 1),
    NUMBER(VBUS_HIGH_ADDRESS, 2),
    NUMBER(VBUS_HIGH_COMMAND, 3),
    NUMBER(VBUS_WRONG_LENGTH, 4),
    NUMBER(VBUS_OUTPUT_TOO_SHORT, 5),
    NUMBER(VBUS_START_PAST_END, 6),
    NUMBER(VBUS_WRONG_SEPTET_BLOCK, 7),
    NUMBER(VBUS_NOT_BLOCK_PACKET, 8),
    NUMBER(VBUS_SECTION_PAST_END, 9),
    NUMBER(VBUS_NO_SUCH_PART, 10),
    NUMBER(VBUS_UNKNOWN_SECTION_TYPE, 11),
    NUMBER(VBUS_POSITION_OVERFLOW, 12),
    NUMBER(VBUS_PARTIAL_ELEMENT, 13),
    NUMBER(VBUS_NOT_SLAVE_ADDRESS, 14),
    NUMBER(VBUS_ADDRESS_TAKEN, 15),
    NUMBER(VBUS_TABLE_FULL, 16),
    NUMBER(VBUS_NO_SUCH_ADDRESS, 17),
    NUMBER(VBUS_NOT_SLAVE_ID, 18),
    NUMBER(VBUS_WRONG_SETTINGS, 19),
    NUMBER(VBUS_SENDER_BUSY, 20),
    NUMBER(VBUS_WRONG_TABLE_LENGTH, 24),
    NUMBER(VBUS_QUEUE_TOO_LONG, 25),
    NUMBER(VBUS_VERDICT_WHOLE, 0),
    NUMBER(VBUS_VERDICT_NO_SYNC, 1),
    NUMBER(VBUS_VERDICT_HIGH_BYTE, 2),
    NUMBER(VBUS_VERDICT_UNKNOWN_VERSION, 3),
    NUMBER(VBUS_VERDICT_HEADER_CHECKSUM, 4),
    NUMBER(VBUS_VERDICT_FRAME_CHECKSUM, 6),
    NUMBER(VBUS_VERDICT_ENDED, 7),
    NUMBER(VBUS_MAX_PAYLOAD, 508),
    NUMBER(VBUS_MAX_STREAM, 772),
    NUMBER(VBUS_SLAVES, 32),
    NUMBER(VBUS_SLAVES_PER_OWNER, 24),
};

static void names(void) {
    for (size_t i = 0; i < sizeof numbers / sizeof *numbers; i++)
        check(numbers[i].name, numbers[i].here == numbers[i].document, __LINE__);
}

#define WIDTH(type, field) sizeof(((type *)0)->field)

static void layouts(void) {
    CHECK(sizeof(vbus_header) == 8 && offsetof(vbus_header, version) == 0 && offsetof(vbus_header, destination) == 2 &&
          offsetof(vbus_header, source) == 4 && offsetof(vbus_header, command) == 6);
    CHECK(sizeof(vbus_validation) == 24 && offsetof(vbus_validation, verdict) == 0 && offsetof(vbus_validation, offset) == 8 &&
          offsetof(vbus_validation, unused_septets) == 16);
    CHECK(sizeof(vbus_found) == 40 && offsetof(vbus_found, number) == 0 && offsetof(vbus_found, found) == 4 &&
          offsetof(vbus_found, position) == 8 && offsetof(vbus_found, length) == 16 && offsetof(vbus_found, header) == 24 &&
          offsetof(vbus_found, payload_length) == 32);
    CHECK(sizeof(vbus_fault) == 40 && offsetof(vbus_fault, found) == 0 && offsetof(vbus_fault, place) == 8 &&
          offsetof(vbus_fault, verdict) == 16 && offsetof(vbus_fault, offset) == 24 && offsetof(vbus_fault, has_byte) == 32 &&
          offsetof(vbus_fault, byte) == 33 && offsetof(vbus_fault, has_wanted) == 34 && offsetof(vbus_fault, wanted) == 35);
    CHECK(sizeof(vbus_receiver) == 16 && offsetof(vbus_receiver, held) == 0 && offsetof(vbus_receiver, position) == 8);
    CHECK(sizeof(vbus_received) == 64 && offsetof(vbus_received, number) == 0 && offsetof(vbus_received, found) == 4 &&
          offsetof(vbus_received, used) == 8 && offsetof(vbus_received, position) == 16 &&
          offsetof(vbus_received, length) == 24 && offsetof(vbus_received, header) == 32 &&
          offsetof(vbus_received, payload_length) == 40 && offsetof(vbus_received, receiver) == 48);
    CHECK(sizeof(vbus_written) == 16 && offsetof(vbus_written, number) == 0 && offsetof(vbus_written, length) == 8);
    CHECK(sizeof(vbus_count) == 16 && offsetof(vbus_count, number) == 0 && offsetof(vbus_count, count) == 8);
    CHECK(sizeof(vbus_part) == 24 && offsetof(vbus_part, number) == 0 && offsetof(vbus_part, start) == 8 &&
          offsetof(vbus_part, length) == 16);
    CHECK(sizeof(vbus_septets) == 32 && offsetof(vbus_septets, number) == 0 && offsetof(vbus_septets, bytes) == 4 &&
          offsetof(vbus_septets, length) == 16 && offsetof(vbus_septets, septet) == 24);
    CHECK(sizeof(vbus_slave_id) == 20 && offsetof(vbus_slave_id, number) == 0 && offsetof(vbus_slave_id, product) == 4 &&
          offsetof(vbus_slave_id, device) == 8 && offsetof(vbus_slave_id, week) == 12 && offsetof(vbus_slave_id, serial) == 16);
    CHECK(sizeof(vbus_slave) == 12 && offsetof(vbus_slave, address) == 0 && offsetof(vbus_slave, owner) == 2 &&
          offsetof(vbus_slave, product) == 4 && offsetof(vbus_slave, device) == 8);
    CHECK(sizeof(vbus_slave_found) == 12 && offsetof(vbus_slave_found, number) == 0 &&
          offsetof(vbus_slave_found, product) == 4 && offsetof(vbus_slave_found, device) == 8);
    CHECK(sizeof(vbus_figures) == 3 && offsetof(vbus_figures, no) == 0 && offsetof(vbus_figures, yes) == 1 &&
          offsetof(vbus_figures, lowest) == 2);
    CHECK(sizeof(vbus_slave_kept) == 8 && offsetof(vbus_slave_kept, number) == 0 && offsetof(vbus_slave_kept, figures) == 4);
    CHECK(sizeof(vbus_figures_checked) == 8 && offsetof(vbus_figures_checked, number) == 0 &&
          offsetof(vbus_figures_checked, right) == 4);
    CHECK(sizeof(bool) == 1 && WIDTH(vbus_validation, verdict) == 1 && WIDTH(vbus_validation, offset) == 8 &&
          WIDTH(vbus_validation, unused_septets) == 8 && WIDTH(vbus_found, number) == 4 &&
          WIDTH(vbus_found, position) == 8 && WIDTH(vbus_found, payload_length) == 8 && WIDTH(vbus_fault, place) == 8 &&
          WIDTH(vbus_fault, verdict) == 1 && WIDTH(vbus_fault, offset) == 8 && WIDTH(vbus_fault, wanted) == 1 &&
          WIDTH(vbus_receiver, held) == 8 && WIDTH(vbus_receiver, position) == 8 && WIDTH(vbus_received, number) == 4 &&
          WIDTH(vbus_received, found) == 1 && WIDTH(vbus_received, used) == 8 && WIDTH(vbus_received, position) == 8 &&
          WIDTH(vbus_received, payload_length) == 8 && WIDTH(vbus_written, number) == 4 &&
          WIDTH(vbus_written, length) == 8 && WIDTH(vbus_count, number) == 4 && WIDTH(vbus_count, count) == 8 &&
          WIDTH(vbus_part, number) == 4 && WIDTH(vbus_part, length) == 8 && WIDTH(vbus_septets, number) == 4 &&
          WIDTH(vbus_septets, septet) == 1 && WIDTH(vbus_slave_id, number) == 4 && WIDTH(vbus_slave_id, device) == 4 &&
          WIDTH(vbus_slave_id, week) == 1 && WIDTH(vbus_slave_id, serial) == 4 && WIDTH(vbus_slave, address) == 2 &&
          WIDTH(vbus_slave, owner) == 1 && WIDTH(vbus_slave, device) == 4 && WIDTH(vbus_slave_found, number) == 4 &&
          WIDTH(vbus_slave_found, device) == 4 && WIDTH(vbus_figures, no) == 1 && WIDTH(vbus_figures, yes) == 1 &&
          WIDTH(vbus_figures, lowest) == 1 && WIDTH(vbus_slave_kept, number) == 4 && WIDTH(vbus_slave_kept, figures) == 3 &&
          WIDTH(vbus_figures_checked, number) == 4 && WIDTH(vbus_figures_checked, right) == 1);
}

static void layouts_of_a_sender(void) {
    CHECK(sizeof(vbus_sender_settings) == 12 && offsetof(vbus_sender_settings, max_energy) == 0 &&
          offsetof(vbus_sender_settings, loss_per_byte) == 4 && offsetof(vbus_sender_settings, gain_per_microsecond) == 8);
    CHECK(sizeof(vbus_sender) == 32 && offsetof(vbus_sender, settings) == 0 && offsetof(vbus_sender, energy) == 12 &&
          offsetof(vbus_sender, queued) == 16 && offsetof(vbus_sender, sent) == 24);
    CHECK(sizeof(vbus_sent) == 48 && offsetof(vbus_sent, number) == 0 && offsetof(vbus_sent, length) == 8 &&
          offsetof(vbus_sent, sender) == 16);
    CHECK(WIDTH(vbus_sender_settings, max_energy) == 4 && WIDTH(vbus_sender_settings, loss_per_byte) == 4 &&
          WIDTH(vbus_sender_settings, gain_per_microsecond) == 4 && WIDTH(vbus_sender, energy) == 4 &&
          WIDTH(vbus_sender, queued) == 8 && WIDTH(vbus_sender, sent) == 8 && WIDTH(vbus_sent, number) == 4 &&
          WIDTH(vbus_sent, length) == 8);
}

static void checksum_and_septets(void) {
    const uint8_t bytes[] = {0x11, 0x44, 0x10, 0x66, 0x10, 0x00, 0x02, 0x01};
    CHECK(vbus_checksum(bytes, 8) == 0x21);
    CHECK(vbus_checksum(bytes, 7) == 0x22);
    CHECK(vbus_checksum(bytes, 0) == 0x7F);

    const uint8_t high[7] = {0xE8, 0x03, 0xF4, 0x01, 0x91, 0x22, 0xB3};
    const uint8_t low4[7] = {0x68, 0x03, 0x74, 0x01, 0, 0, 0};
    const uint8_t low7[7] = {0x68, 0x03, 0x74, 0x01, 0x11, 0x22, 0x33};
    const uint8_t high4[7] = {0xE8, 0x03, 0xF4, 0x01, 0, 0, 0};
    CHECK(septets_are(vbus_extract(high, 4), 0, low4, 4, 0x05));
    CHECK(septets_are(vbus_extract(high, 7), 0, low7, 7, 0x55));
    CHECK(septets_are(vbus_inject(low4, 4, 0x05), 0, high4, 4, 0));
    CHECK(septets_are(vbus_inject(low7, 7, 0x55), 0, high, 7, 0));
    const uint8_t zero[7] = {0};
    CHECK(septets_are(vbus_inject(high, 0, 0), 0, zero, 0, 0));
    /* septet bits at or above the length */
    CHECK(septets_are(vbus_inject(low7, 4, 0x75), 0, high4, 4, 0));
    CHECK(septets_are(vbus_inject(low7, 4, 0x10), 0, low4, 4, 0));
    CHECK(septets_are(vbus_inject(high, 0, 0x7F), 0, zero, 0, 0));

    CHECK(septets_are(vbus_extract(high, 8), VBUS_WRONG_SEPTET_BLOCK, zero, 0, 0));
    CHECK(septets_are(vbus_inject(low7, 8, 0x05), VBUS_WRONG_SEPTET_BLOCK, zero, 0, 0));
    CHECK(septets_are(vbus_inject(high, 4, 0x05), VBUS_WRONG_SEPTET_BLOCK, zero, 0, 0));
    CHECK(septets_are(vbus_inject(low7, 7, 0x80), VBUS_WRONG_SEPTET_BLOCK, zero, 0, 0));
    CHECK(septets_are(vbus_inject(low7, 4, 0x80), VBUS_WRONG_SEPTET_BLOCK, zero, 0, 0));
}

static void packet_with(const uint8_t *payload, size_t frames, uint8_t *out) {
    const uint8_t head[9] = {0xAA, 0x34, 0x12, 0x71, 0x56, 0x10, 0x4C, 0x2B, (uint8_t)frames};
    memcpy(out, head, 9);
    out[9] = sum(out + 1, 8);
    for (size_t frame = 0; frame < frames; frame++) {
        uint8_t *at = out + 10 + 6 * frame;
        at[4] = 0;
        for (size_t i = 0; i < 4; i++) {
            uint8_t byte = payload[4 * frame + i];
            at[i] = byte & 0x7F;
            at[4] = (uint8_t)(at[4] | (byte >> 7 << i));
        }
        at[5] = sum(at, 5);
    }
}

/* A packet of 5 frames: every field differs from every other, and so do the bytes within each. */
static const uint8_t payload20[20] = {0x01, 0x82, 0x03, 0x84, 0x85, 0x06, 0x87, 0x08, 0x89, 0x8A,
                                      0x8B, 0x8C, 0x0D, 0x0E, 0x0F, 0x10, 0x91, 0x12, 0x13, 0x94};
static size_t packet_of(uint8_t *out) {
    packet_with(payload20, 5, out);
    return 40;
}

static const uint8_t datagram[16] = {0xAA, 0x20, 0x00, 0x11, 0x19, 0x20, 0x00, 0x01, 0, 0, 0, 0, 0, 0, 0, 0x14};
static const uint8_t telegram[17] = {0xAA, 0x31, 0x77, 0x10, 0x20, 0x30, 0x23, 0x54, 0x38,
                                     0x10, 0x0D, 0x36, 0x46, 0x23, 0x00, 0x1A, 0x71};
static const uint8_t telegram_payload[7] = {0x38, 0x90, 0x0D, 0xB6, 0xC6, 0x23, 0x00};
static const uint8_t clearance[8] = {0xAA, 0x10, 0x20, 0x31, 0x77, 0x30, 0x01, 0x76};

static vbus_header packet_header(void) { return header(VBUS_PACKET, 0x1234, 0x5671, 0x2B4C); }
static vbus_header datagram_header(void) { return header(VBUS_DATAGRAM, 0x0020, 0x1911, 0x0100); }
static vbus_header telegram_header(void) { return header(VBUS_TELEGRAM, 0x7731, 0x2010, 0x23); }
static vbus_header clearance_header(void) { return header(VBUS_TELEGRAM, 0x2010, 0x7731, 0x01); }

/* a recording: noise, then all four */
#define MIXED (3 + 40 + 17 + 8 + 16)
static void mix(uint8_t input[MIXED]) {
    memcpy(input, "\x01\xAA\x99", 3);
    packet_of(input + 3);
    memcpy(input + 43, telegram, 17);
    memcpy(input + 60, clearance, 8);
    memcpy(input + 68, datagram, 16);
}

static void verdicts(void) {
    uint8_t packet[40], bad[40], input[MIXED];
    packet_of(packet);
    mix(input);
    CHECK(whole_is(vbus_validate(packet, 40), 40, 0));
    CHECK(whole_is(vbus_validate(input + 3, MIXED - 3), 40, 0));
    CHECK(fault_is(vbus_validate(packet + 1, 39), VBUS_VERDICT_NO_SYNC, 0));
    CHECK(fault_is(vbus_validate(input + 1, MIXED - 1), VBUS_VERDICT_HIGH_BYTE, 1));
    memcpy(bad, packet, 40);
    bad[5] = 0x40;
    CHECK(fault_is(vbus_validate(bad, 40), VBUS_VERDICT_UNKNOWN_VERSION, 5));
    bad[5] = packet[5];
    bad[9] ^= 1;
    CHECK(fault_is(vbus_validate(bad, 40), VBUS_VERDICT_HEADER_CHECKSUM, 9));
    bad[9] = packet[9];
    bad[39] ^= 1;
    CHECK(fault_is(vbus_validate(bad, 40), VBUS_VERDICT_FRAME_CHECKSUM, 39));
    CHECK(fault_is(vbus_validate(packet, 39), VBUS_VERDICT_ENDED, 39));
}

static void finding(void) {
    uint8_t input[MIXED], payload[64];
    mix(input);
    paint(payload, sizeof payload);
    CHECK(found_is(vbus_next(input, MIXED, 0, payload, sizeof payload), 0, 1, 3, 40, packet_header(), 20));
    CHECK(memcmp(payload, payload20, 20) == 0 && painted(payload, 20, sizeof payload));
    paint(payload, sizeof payload);
    CHECK(found_is(vbus_next(input, MIXED, 4, payload, 7), 0, 1, 43, 17, telegram_header(), 7));
    CHECK(memcmp(payload, telegram_payload, 7) == 0 && painted(payload, 7, sizeof payload));
    paint(payload, sizeof payload);
    CHECK(found_is(vbus_next(input, MIXED, 44, payload, 0), 0, 1, 60, 8, clearance_header(), 0));
    CHECK(found_is(vbus_next(input, MIXED, 61, payload, 6), 0, 1, 68, 16, datagram_header(), 6));
    CHECK(memcmp(payload, "\0\0\0\0\0\0", 6) == 0 && painted(payload, 6, sizeof payload));
    paint(payload, sizeof payload);
    CHECK(nothing_found(vbus_next(input, MIXED, 69, payload, sizeof payload), 0));
    CHECK(nothing_found(vbus_next(input, MIXED, MIXED, payload, sizeof payload), 0));
    CHECK(nothing_found(vbus_next(input, MIXED, 0, payload, 19), VBUS_OUTPUT_TOO_SHORT));
    CHECK(nothing_found(vbus_next(input, MIXED, MIXED + 1, payload, 0), VBUS_START_PAST_END));
    CHECK(painted(payload, 0, sizeof payload));
}

/* the recording with a byte changed in each of the first three streams, and without the last one's second half */
static void telling_faults(void) {
    uint8_t input[MIXED], before[MIXED];
    mix(input);
    const size_t cut = MIXED - 8;
    const uint8_t frame = input[42], head = input[50];
    input[42] ^= 0x2A;
    input[50] ^= 0x11;
    input[65] = 0x41;
    memcpy(before, input, MIXED);
    vbus_fault answer = vbus_next_fault(input, cut, 0);
    CHECK(next_fault_is(answer, 1, VBUS_VERDICT_HIGH_BYTE, 1, 0x99) && nothing_wanted(answer));
    answer = vbus_next_fault(input, cut, 2);
    CHECK(next_fault_is(answer, 3, VBUS_VERDICT_FRAME_CHECKSUM, 39, frame ^ 0x2A) && wanted_is(answer, frame));
    answer = vbus_next_fault(input, cut, 4);
    CHECK(next_fault_is(answer, 43, VBUS_VERDICT_HEADER_CHECKSUM, 7, head ^ 0x11) && wanted_is(answer, head));
    answer = vbus_next_fault(input, cut, 44);
    CHECK(next_fault_is(answer, 60, VBUS_VERDICT_UNKNOWN_VERSION, 5, 0x41) && nothing_wanted(answer));
    answer = vbus_next_fault(input, cut, 61);
    CHECK(next_fault_is(answer, 68, VBUS_VERDICT_ENDED, 8, 0) && nothing_wanted(answer));
    CHECK(no_fault(vbus_next_fault(input, cut, 69)));
    CHECK(no_fault(vbus_next_fault(input, MIXED, 61)));
    CHECK(no_fault(vbus_next_fault(input, MIXED, MIXED)));
    CHECK(no_fault(vbus_next_fault(input, MIXED, MIXED + 1)));
    CHECK(no_fault(vbus_next_fault(input, MIXED, (size_t)1 << 32)));
    CHECK(no_fault(vbus_next_fault(input, MIXED, (size_t)-1)));
    CHECK(memcmp(input, before, MIXED) == 0);
}

static const vbus_receiver fresh = {0, 0};
/* numbers that no 32 bits hold; so many bytes can't be held */
static const vbus_receiver no_receiver = {0xFEDCBA9876543210, 0xFEDCBA9800000000};

/* the recording in two chunks, the packet cut after 25 bytes; the bytes behind the memory and the payload stay */
static void receiving(void) {
    uint8_t input[MIXED], memory[VBUS_MAX_STREAM + 8], before[VBUS_MAX_STREAM], payload[VBUS_MAX_PAYLOAD + 8];
    mix(input);
    paint(memory, sizeof memory);
    paint(payload, sizeof payload);
    vbus_received answer = vbus_receive(fresh, memory, input, 28, payload, VBUS_MAX_PAYLOAD);
    CHECK(nothing_received(answer, 0, 28, 25, 28) && memcmp(memory, input + 3, 25) == 0);
    CHECK(painted(payload, 0, sizeof payload));
    memcpy(before, memory, sizeof before);
    const vbus_received refused = vbus_receive(answer.receiver, memory, input + 28, MIXED - 28, payload, 507);
    CHECK(nothing_received(refused, VBUS_OUTPUT_TOO_SHORT, 0, 25, 28) && memcmp(memory, before, sizeof before) == 0);
    CHECK(painted(payload, 0, sizeof payload));
    answer = vbus_receive(refused.receiver, memory, input + 28, MIXED - 28, payload, VBUS_MAX_PAYLOAD);
    CHECK(received_is(answer, 15, 3, 40, packet_header(), 20));
    CHECK(memcmp(payload, payload20, 20) == 0 && painted(payload, 20, sizeof payload));
    paint(payload, sizeof payload);
    answer = vbus_receive(answer.receiver, memory, input + 43, MIXED - 43, payload, sizeof payload);
    CHECK(received_is(answer, 17, 43, 17, telegram_header(), 7));
    CHECK(memcmp(payload, telegram_payload, 7) == 0 && painted(payload, 7, sizeof payload));
    paint(payload, sizeof payload);
    answer = vbus_receive(answer.receiver, memory, input + 60, MIXED - 60, payload, sizeof payload);
    CHECK(received_is(answer, 8, 60, 8, clearance_header(), 0) && painted(payload, 0, sizeof payload));
    answer = vbus_receive(answer.receiver, memory, input + 68, MIXED - 68, payload, sizeof payload);
    CHECK(received_is(answer, 16, 68, 16, datagram_header(), 6));
    CHECK(painted(memory, VBUS_MAX_STREAM, sizeof memory));
}

static void receiving_the_longest(void) {
    uint8_t stream[VBUS_MAX_STREAM], memory[VBUS_MAX_STREAM], payload[VBUS_MAX_PAYLOAD], expected[VBUS_MAX_PAYLOAD];
    paint(expected, sizeof expected);
    packet_with(expected, 127, stream);
    vbus_received answer = vbus_receive(fresh, memory, stream, 771, payload, sizeof payload);
    CHECK(nothing_received(answer, 0, 771, 771, 771) && memcmp(memory, stream, 771) == 0);
    answer = vbus_receive(answer.receiver, memory, stream + 771, 1, payload, sizeof payload);
    CHECK(received_is(answer, 1, 0, 772, packet_header(), 508) && memcmp(payload, expected, sizeof expected) == 0);
}

static void resetting(void) {
    uint8_t memory[VBUS_MAX_STREAM], payload[VBUS_MAX_PAYLOAD];
    vbus_received answer = vbus_receive(fresh, memory, clearance, 7, payload, sizeof payload);
    CHECK(nothing_received(answer, 0, 7, 7, 7));
    const vbus_receiver reset = vbus_reset(answer.receiver);
    CHECK(receiver_is(reset, 0, 7));
    CHECK(nothing_received(vbus_receive(reset, memory, clearance + 7, 1, payload, sizeof payload), 0, 1, 0, 8));
    CHECK(received_is(vbus_receive(reset, memory, clearance, 8, payload, sizeof payload), 8, 7, 8, clearance_header(), 0));
    /* a receiver that no call gave: as it was after a refusal, else as one that holds nothing */
    answer = vbus_receive(no_receiver, memory, clearance, 8, payload, 507);
    CHECK(nothing_received(answer, VBUS_OUTPUT_TOO_SHORT, 0, no_receiver.held, no_receiver.position));
    answer = vbus_receive(no_receiver, memory, clearance, 7, payload, sizeof payload);
    CHECK(nothing_received(answer, 0, 7, 7, no_receiver.position + 7));
    CHECK(receiver_is(vbus_reset(no_receiver), 0, no_receiver.position));
    /* one that says more bytes held than used */
    memcpy(memory, clearance, 7);
    const vbus_receiver ahead = {7, 6};
    CHECK(nothing_received(vbus_receive(ahead, memory, clearance + 7, 1, payload, sizeof payload), 0, 1, 0, 7));
}

/* a count of 2^64 - 1 less n, with chunks of n - 1, n and n + 1 bytes; then one that holds seven of eight bytes */
static void counting_to_the_end(void) {
    uint8_t memory[VBUS_MAX_STREAM], before[VBUS_MAX_STREAM], payload[VBUS_MAX_PAYLOAD], nine[9] = {0};
    memcpy(nine, clearance, 8);
    paint(memory, sizeof memory);
    paint(payload, sizeof payload);
    memcpy(before, memory, sizeof before);
    const vbus_receiver eight = {0, UINT64_MAX - 8};
    CHECK(nothing_received(vbus_receive(eight, memory, nine, 9, payload, 507), VBUS_OUTPUT_TOO_SHORT, 0, 0, UINT64_MAX - 8));
    CHECK(nothing_received(vbus_receive(eight, memory, nine, 9, payload, 508), VBUS_POSITION_OVERFLOW, 0, 0, UINT64_MAX - 8));
    CHECK(memcmp(memory, before, sizeof before) == 0 && painted(payload, 0, sizeof payload));
    CHECK(nothing_received(vbus_receive(eight, memory, nine, 7, payload, 508), 0, 7, 7, UINT64_MAX - 1));
    CHECK(received_is(vbus_receive(eight, memory, nine, 8, payload, 508), 8, UINT64_MAX - 8, 8, clearance_header(), 0));
    memcpy(memory, clearance, 7);
    memcpy(before, memory, sizeof before);
    const vbus_receiver one = {7, UINT64_MAX - 1}, none = {7, UINT64_MAX};
    CHECK(nothing_received(vbus_receive(one, memory, nine + 7, 2, payload, 508), VBUS_POSITION_OVERFLOW, 0, 7, UINT64_MAX - 1));
    CHECK(nothing_received(vbus_receive(none, memory, nine + 7, 1, payload, 508), VBUS_POSITION_OVERFLOW, 0, 7, UINT64_MAX));
    CHECK(nothing_received(vbus_receive(none, memory, nine, 0, payload, 508), 0, 0, 7, UINT64_MAX));
    CHECK(memcmp(memory, before, sizeof before) == 0 && painted(payload, 0, sizeof payload));
    CHECK(received_is(vbus_receive(one, memory, nine + 7, 1, payload, 508), 1, UINT64_MAX - 8, 8, clearance_header(), 0));
    CHECK(receiver_is(vbus_reset(none), 0, UINT64_MAX));
}

static void normalizing(void) {
    uint8_t input[MIXED], out[96];
    mix(input);
    paint(out, sizeof out);
    CHECK(written_is(vbus_normalize(input, MIXED, out, sizeof out), 0, 81));
    CHECK(memcmp(out, input + 3, 81) == 0 && painted(out, 81, sizeof out));
    paint(out, sizeof out);
    CHECK(written_is(vbus_normalize(input, MIXED, out, 81), 0, 81));
    CHECK(memcmp(out, input + 3, 81) == 0 && painted(out, 81, sizeof out));
    paint(out, sizeof out);
    CHECK(written_is(vbus_normalize(input, MIXED, out, 80), VBUS_OUTPUT_TOO_SHORT, 0));
    CHECK(painted(out, 0, sizeof out));
}

/* The packet with all unused septet bits in its first frame, one in its third and two in its last, under their checksums.
 * Used bits are set in all three. */
static void packet_with_unused(uint8_t packet[40]) {
    packet_of(packet);
    packet[14] |= 0x70;
    packet[15] = sum(packet + 10, 5);
    packet[26] |= 0x10;
    packet[27] = sum(packet + 22, 5);
    packet[38] |= 0x60;
    packet[39] = sum(packet + 34, 5);
}

static void unused_septets(void) {
    uint8_t packet[40], clean[40], other[16], out[64], payload[VBUS_MAX_PAYLOAD], memory[VBUS_MAX_STREAM];
    packet_with_unused(packet);
    packet_of(clean);
    memcpy(other, datagram, 16);
    other[14] = 0x40;
    other[15] = 0x54;
    CHECK(whole_is(vbus_validate(packet, 40), 40, 3));
    CHECK(whole_is(vbus_validate(other, 16), 16, 1));
    CHECK(whole_is(vbus_validate(telegram, 17), 17, 0));
    CHECK(found_is(vbus_next(packet, 40, 0, payload, 20), 0, 1, 0, 40, packet_header(), 20));
    CHECK(memcmp(payload, payload20, 20) == 0);
    paint(payload, sizeof payload);
    CHECK(received_is(vbus_receive(fresh, memory, packet, 40, payload, sizeof payload), 40, 0, 40, packet_header(), 20));
    CHECK(memcmp(payload, payload20, 20) == 0 && painted(payload, 20, sizeof payload));
    CHECK(written_is(vbus_normalize(packet, 40, out, 40), 0, 40) && memcmp(out, clean, 40) == 0);
    CHECK(written_is(vbus_normalize(other, 16, out, 16), 0, 16) && memcmp(out, datagram, 16) == 0);
    paint(out, sizeof out);
    CHECK(written_is(vbus_normalize(packet, 40, out, 39), VBUS_OUTPUT_TOO_SHORT, 0) && painted(out, 0, sizeof out));
    /* the checksums of the septets without them */
    packet[27] = clean[27];
    other[15] = datagram[15];
    CHECK(fault_is(vbus_validate(packet, 40), VBUS_VERDICT_FRAME_CHECKSUM, 27));
    CHECK(fault_is(vbus_validate(other, 16), VBUS_VERDICT_HEADER_CHECKSUM, 15));
}

static void writing(void) {
    uint8_t packet[40], out[64];
    packet_of(packet);
    paint(out, sizeof out);
    CHECK(written_is(vbus_encode(packet_header(), payload20, 20, out, sizeof out), 0, 40));
    CHECK(memcmp(out, packet, 40) == 0 && painted(out, 40, sizeof out));
    paint(out, sizeof out);
    CHECK(written_is(vbus_encode(datagram_header(), (const uint8_t *)"\0\0\0\0\0\0", 6, out, 16), 0, 16));
    CHECK(memcmp(out, datagram, 16) == 0 && painted(out, 16, sizeof out));
    paint(out, sizeof out);
    CHECK(written_is(vbus_encode(telegram_header(), telegram_payload, 7, out, sizeof out), 0, 17));
    CHECK(memcmp(out, telegram, 17) == 0 && painted(out, 17, sizeof out));
    paint(out, sizeof out);
    CHECK(written_is(vbus_encode(clearance_header(), payload20, 0, out, 8), 0, 8));
    CHECK(memcmp(out, clearance, 8) == 0 && painted(out, 8, sizeof out));
}

/* encode's refusal of three payload bytes without room, so that every later refusal applies too */
static uint32_t refusal(uint8_t version, uint16_t destination, uint16_t source, uint16_t command) {
    uint8_t out[64];
    paint(out, sizeof out);
    vbus_written answer = vbus_encode(header(version, destination, source, command), payload20, 3, out, 0);
    CHECK(answer.length == 0 && painted(out, 0, sizeof out));
    return answer.number;
}

static void refused_writing(void) {
    CHECK(refusal(0x11, 0x0080, 0x5671, 0x8000) == VBUS_UNKNOWN_VERSION);
    CHECK(refusal(VBUS_PACKET, 0x0080, 0x5671, 0x8000) == VBUS_HIGH_ADDRESS);
    CHECK(refusal(VBUS_PACKET, 0x1234, 0x8071, 0x8000) == VBUS_HIGH_ADDRESS);
    CHECK(refusal(VBUS_PACKET, 0x1234, 0x5671, 0x8000) == VBUS_HIGH_COMMAND);
    CHECK(refusal(VBUS_TELEGRAM, 0x1234, 0x5671, 0x0100) == VBUS_HIGH_COMMAND);
    CHECK(refusal(VBUS_TELEGRAM_31, 0x1234, 0x5671, 0x0080) == VBUS_HIGH_COMMAND);
    CHECK(refusal(VBUS_PACKET, 0x1234, 0x5671, 0x2B4C) == VBUS_WRONG_LENGTH);
    uint8_t out[64];
    paint(out, sizeof out);
    CHECK(written_is(vbus_encode(packet_header(), payload20, 20, out, 39), VBUS_OUTPUT_TOO_SHORT, 0));
    CHECK(painted(out, 0, sizeof out));
}

/* as a wider type, so that a declaration without the sign shows */
static long temperature(uint8_t low, uint8_t high) {
    const uint8_t bytes[2] = {low, high};
    return vbus_temperature(bytes);
}

static void signed_numbers(void) {
    const uint8_t value[6] = {0x11, 0x22, 0xFE, 0x56, 0x34, 0x92};
    CHECK(sizeof vbus_value(value) == 4 && sizeof vbus_temperature(value) == 2);
    CHECK(vbus_value(value) == -1842063618);
    CHECK(vbus_value((const uint8_t *)"\x11\x22\xFF\xFF\xFF\xFF") == -1);
    CHECK(vbus_value((const uint8_t *)"\x11\x22\x04\x03\x02\x01") == 0x01020304);

    CHECK(temperature(0x00, 0x00) == 0);
    CHECK(temperature(0x01, 0x00) == 1);
    CHECK(temperature(0x80, 0x00) == 128);
    CHECK(temperature(0x34, 0x12) == 0x1234);
    CHECK(temperature(0xFF, 0x7F) == 32767);
    CHECK(temperature(0x00, 0x80) == -32768);
    CHECK(temperature(0x34, 0x92) == -28108);
    CHECK(temperature(0x80, 0xFF) == -128);
    CHECK(temperature(0xFF, 0xFF) == -1);
    long wrong = 0;
    for (long word = 0; word < 65536; word++)
        wrong += temperature((uint8_t)(word % 256), (uint8_t)(word / 256)) != (word < 32768 ? word : word - 65536);
    CHECK(wrong == 0);
}

/* three sections: 3 frames of temperatures, 1 frame of an unknown type, 4 frames of display */
#define BLOCKS 44
static void block_payload(uint8_t payload[BLOCKS]) {
    paint(payload, BLOCKS);
    memcpy(payload, "\x03\x01\x55\xAA", 4);
    memcpy(payload + 16, "\x01\x77\x00\x00", 4);
    memcpy(payload + 24, "\x04\x0A\x00\x00", 4);
}

static vbus_header block_header(void) { return header(VBUS_PACKET, 0x0015, 0x7E21, 0x0100); }

static void blocks(void) {
    uint8_t payload[BLOCKS], before[BLOCKS];
    block_payload(payload);
    block_payload(before);
    const vbus_header block = block_header();
    CHECK(count_is(vbus_section_count(block, payload, BLOCKS), 0, 3));
    CHECK(part_is(vbus_section(block, payload, BLOCKS, 0), 0, 0, 16));
    CHECK(part_is(vbus_section(block, payload, BLOCKS, 1), 0, 16, 8));
    CHECK(part_is(vbus_section(block, payload, BLOCKS, 2), 0, 24, 20));
    CHECK(count_is(vbus_element_count(block, payload, BLOCKS, 0), 0, 6));
    CHECK(count_is(vbus_element_count(block, payload, BLOCKS, 2), 0, 2));
    CHECK(part_is(vbus_element(block, payload, BLOCKS, 2, 1), 0, 36, 8));
    const vbus_part last = vbus_element(block, payload, BLOCKS, 0, 5);
    CHECK(part_is(last, 0, 14, 2));
    /* painted: 14 * 37 + 11 = 529, 15 * 37 + 11 = 566, each modulo 256 */
    CHECK(vbus_temperature(payload + last.start) == 0x3611);
    CHECK(memcmp(payload, before, BLOCKS) == 0);
}

static void refused_blocks(void) {
    uint8_t payload[BLOCKS], before[BLOCKS];
    block_payload(payload);
    block_payload(before);
    const vbus_header block = block_header();
    const vbus_header no_packet = header(VBUS_DATAGRAM, 0x0015, 0x7E21, 0x0100);
    const vbus_header elsewhere = header(VBUS_PACKET, 0x0016, 0x7E21, 0x0100);
    const vbus_header other_command = header(VBUS_PACKET, 0x0015, 0x7E21, 0x0101);
    CHECK(count_is(vbus_section_count(no_packet, payload, BLOCKS), VBUS_NOT_BLOCK_PACKET, 0));
    CHECK(part_is(vbus_section(elsewhere, payload, BLOCKS, 0), VBUS_NOT_BLOCK_PACKET, 0, 0));
    CHECK(count_is(vbus_element_count(other_command, payload, BLOCKS, 0), VBUS_NOT_BLOCK_PACKET, 0));
    CHECK(part_is(vbus_element(block, payload, BLOCKS - 1, 0, 0), VBUS_NOT_BLOCK_PACKET, 0, 0));
    CHECK(count_is(vbus_section_count(block, payload, BLOCKS - 4), VBUS_SECTION_PAST_END, 0));
    CHECK(part_is(vbus_section(block, payload, BLOCKS - 4, 0), VBUS_SECTION_PAST_END, 0, 0));
    CHECK(count_is(vbus_element_count(block, payload, BLOCKS - 4, 0), VBUS_SECTION_PAST_END, 0));
    CHECK(part_is(vbus_element(block, payload, BLOCKS - 4, 0, 0), VBUS_SECTION_PAST_END, 0, 0));
    CHECK(part_is(vbus_section(block, payload, BLOCKS, 3), VBUS_NO_SUCH_PART, 0, 0));
    CHECK(count_is(vbus_element_count(block, payload, BLOCKS, 3), VBUS_NO_SUCH_PART, 0));
    CHECK(part_is(vbus_element(block, payload, BLOCKS, 3, 0), VBUS_NO_SUCH_PART, 0, 0));
    CHECK(part_is(vbus_element(block, payload, BLOCKS, 0, 6), VBUS_NO_SUCH_PART, 0, 0));
    CHECK(count_is(vbus_element_count(block, payload, BLOCKS, 1), VBUS_UNKNOWN_SECTION_TYPE, 0));
    CHECK(part_is(vbus_element(block, payload, BLOCKS, 1, 9), VBUS_UNKNOWN_SECTION_TYPE, 0, 0));
    payload[17] = before[17] = 0x0A; /* one frame of display */
    CHECK(part_is(vbus_section(block, payload, BLOCKS, 1), 0, 16, 8));
    CHECK(count_is(vbus_element_count(block, payload, BLOCKS, 1), VBUS_PARTIAL_ELEMENT, 0));
    CHECK(part_is(vbus_element(block, payload, BLOCKS, 1, 0), VBUS_PARTIAL_ELEMENT, 0, 0));
    CHECK(part_is(vbus_element(block, payload, BLOCKS, 1, SIZE_MAX), VBUS_PARTIAL_ELEMENT, 0, 0));
    CHECK(memcmp(payload, before, BLOCKS) == 0);
}

/* Document 02's slave: product 888888, week 17, number 116406 is T2 of document 01, `telegram` here. */
static void slave_ids(void) {
    const uint32_t device = 17 * 131072 + 116406;
    CHECK(slave_id_is(vbus_read_slave_id(telegram_header(), telegram_payload, 7), 0, 888888, device, 17, 116406));
    /* any addresses; every field and every byte of the identifiers differs from the others */
    const uint8_t other[8] = {0xC1, 0xB2, 0xA3, 0xD4, 0xE5, 0xF7, 0x00, 0x00};
    const vbus_header high = header(VBUS_TELEGRAM_31, 0xFFFF, 0x8080, 0x23);
    CHECK(slave_id_is(vbus_read_slave_id(high, other, 7), 0, 0xA3B2C1, 0xF7E5D4, 0x7B, 0x1E5D4));

    uint8_t out[20];
    paint(out, sizeof out);
    CHECK(written_is(vbus_write_slave_id(0x7731, 0x2010, 888888, device, out, sizeof out), 0, 17));
    CHECK(memcmp(out, telegram, 17) == 0 && painted(out, 17, sizeof out));
    paint(out, sizeof out);
    CHECK(written_is(vbus_write_slave_id(0x7731, 0x2010, 888888, device, out, 17), 0, 17));
    CHECK(memcmp(out, telegram, 17) == 0 && painted(out, 17, sizeof out));
    CHECK(written_is(vbus_write_slave_id(0x1234, 0x5678, 0xFFFFFF, 0xFFFFFF, out, 17), 0, 17));
    CHECK(memcmp(out, "\xAA\x34\x12\x78\x56\x30\x23\x18\x7F\x7F\x7F\x7F\x7F\x7F\x00\x3F\x46", 17) == 0);
}

static int no_slave_id(vbus_slave_id a) { return slave_id_is(a, VBUS_NOT_SLAVE_ID, 0, 0, 0, 0); }

static void refused_slave_ids(void) {
    const uint8_t eight[8] = {0x38, 0x90, 0x0D, 0xB6, 0xC6, 0x23, 0x00, 0x00};
    const uint8_t last[7] = {0x38, 0x90, 0x0D, 0xB6, 0xC6, 0x23, 0x01};
    CHECK(no_slave_id(vbus_read_slave_id(header(VBUS_PACKET, 0x7731, 0x2010, 0x23), eight, 7)));
    CHECK(no_slave_id(vbus_read_slave_id(header(VBUS_DATAGRAM, 0x7731, 0x2010, 0x23), eight, 7)));
    CHECK(no_slave_id(vbus_read_slave_id(header(0x32, 0x7731, 0x2010, 0x23), eight, 7)));
    CHECK(no_slave_id(vbus_read_slave_id(header(VBUS_TELEGRAM, 0x7731, 0x2010, 0x25), eight, 7)));
    CHECK(no_slave_id(vbus_read_slave_id(header(VBUS_TELEGRAM, 0x7731, 0x2010, 0x0123), eight, 7)));
    CHECK(no_slave_id(vbus_read_slave_id(telegram_header(), eight, 6)));
    CHECK(no_slave_id(vbus_read_slave_id(telegram_header(), eight, 8)));
    CHECK(no_slave_id(vbus_read_slave_id(telegram_header(), last, 7)));

    /* each with all that comes behind it in the order */
    uint8_t out[20];
    paint(out, sizeof out);
    CHECK(written_is(vbus_write_slave_id(0x0080, 0x2010, 0x1000000, 0, out, 16), VBUS_NOT_SLAVE_ID, 0));
    CHECK(written_is(vbus_write_slave_id(0x7731, 0x8000, 0, 0xFFFFFFFF, out, 0), VBUS_NOT_SLAVE_ID, 0));
    CHECK(written_is(vbus_write_slave_id(0x0080, 0x2010, 0, 0, out, 16), VBUS_HIGH_ADDRESS, 0));
    CHECK(written_is(vbus_write_slave_id(0x7731, 0x8000, 0, 0, out, 17), VBUS_HIGH_ADDRESS, 0));
    CHECK(written_is(vbus_write_slave_id(0x7731, 0x2010, 0, 0, out, 16), VBUS_OUTPUT_TOO_SHORT, 0));
    CHECK(painted(out, 0, sizeof out));
}

static vbus_slave slave(uint16_t address, bool owner, uint32_t product, uint32_t device) {
    vbus_slave made;
    memset(&made, 0xFF, sizeof made);
    made.address = address;
    made.owner = owner;
    made.product = product;
    made.device = device;
    return made;
}

/* A table of 32 slaves with an entry behind it: 0x2100 to 0x210F, 0x2200 to 0x220F, and 0x2300. Those with 0 to 7 as
 * their last digit are of the one owner, those with 8 to F of the other. */
#define ENTRIES (VBUS_SLAVES + 1)
static vbus_slave numbered(size_t i) {
    const uint32_t number = (uint32_t)i;
    return slave((uint16_t)(0x2100 + 0x100 * (i / 16) + i % 16), i % 16 >= 8, 0x810000 + number, 0x920000 + number);
}
static void fill(vbus_slave table[ENTRIES]) {
    for (size_t i = 0; i < ENTRIES; i++) table[i] = numbered(i);
}
static int filled(const vbus_slave *table, size_t from, size_t to) {
    for (size_t i = from; i < to; i++) {
        const vbus_slave a = numbered(i);
        if (!slave_is(table[i], a.address, a.owner, a.product, a.device)) return 0;
    }
    return 1;
}

static vbus_figures figures(unsigned no, unsigned yes, unsigned lowest) {
    vbus_figures made;
    made.no = (uint8_t)no;
    made.yes = (uint8_t)yes;
    made.lowest = (uint8_t)lowest;
    return made;
}

/* What counting a table gives, as the header has it. */
static vbus_figures counted(const vbus_slave *table) {
    vbus_figures figures = {0, 0, VBUS_SLAVES};
    for (size_t i = VBUS_SLAVES; i-- > 0;) {
        if (table[i].address == 0) figures.lowest = (uint8_t)i;
        else if (table[i].owner) figures.yes++;
        else figures.no++;
    }
    return figures;
}

/* Enters with the figures that counting gives, and odd ones if the length is wrong: those that come back are what
 * counting gives afterwards, or those handed over. Gives the number. */
static uint32_t put_in(vbus_slave *table, size_t n, vbus_slave slave) {
    const vbus_figures before = n == VBUS_SLAVES ? counted(table) : figures(0x12, 0xF4, 0x86);
    const vbus_slave_kept kept = vbus_slave_enter(table, n, before, slave);
    const vbus_figures after = n == VBUS_SLAVES ? counted(table) : before;
    CHECK(figures_are(kept.figures, after.no, after.yes, after.lowest));
    return kept.number;
}

/* Removes likewise. */
static uint32_t take_out(vbus_slave *table, size_t n, bool owner, uint16_t address) {
    const vbus_figures before = n == VBUS_SLAVES ? counted(table) : figures(0x12, 0xF4, 0x86);
    const vbus_slave_kept kept = vbus_slave_remove(table, n, before, owner, address);
    const vbus_figures after = n == VBUS_SLAVES ? counted(table) : before;
    CHECK(figures_are(kept.figures, after.no, after.yes, after.lowest));
    return kept.number;
}

static void slaves(void) {
    vbus_slave table[ENTRIES];
    memset(table, 0, sizeof table);
    const size_t n = VBUS_SLAVES;
    const vbus_slave first = slave(0x2345, true, 0xA3B2C1, 0xF7E5D4), second = slave(0x2010, false, 888888, 2344630);
    CHECK(put_in(table, n, first) == 0 && slave_is(table[0], 0x2345, true, 0xA3B2C1, 0xF7E5D4));
    CHECK(put_in(table, n, second) == 0 && slave_is(table[1], 0x2010, false, 888888, 2344630));
    CHECK(slave_found_is(vbus_slave_find(table, n, true, 0x2345), 0, 0xA3B2C1, 0xF7E5D4));
    CHECK(slave_found_is(vbus_slave_find(table, n, false, 0x2010), 0, 888888, 2344630));
    CHECK(vbus_slave_change_address(table, n, true, 0x2345, 0x2F7F) == 0);
    CHECK(slave_is(table[0], 0x2F7F, true, 0xA3B2C1, 0xF7E5D4) && slave_is(table[1], 0x2010, false, 888888, 2344630));
    CHECK(vbus_slave_change_address(table, n, true, 0x2F7F, 0x2F7F) == 0 && slave_is(table[0], 0x2F7F, true, 0xA3B2C1, 0xF7E5D4));
    CHECK(take_out(table, n, true, 0x2F7F) == 0 && slave_is(table[0], 0, false, 0, 0));
    CHECK(slave_is(table[1], 0x2010, false, 888888, 2344630));
    /* the lowest free entry, which is the first again */
    CHECK(put_in(table, n, first) == 0 && slave_is(table[0], 0x2345, true, 0xA3B2C1, 0xF7E5D4));
    for (size_t i = 2; i < ENTRIES; i++) CHECK(slave_is(table[i], 0, false, 0, 0));

    /* the last entry, and none behind it */
    fill(table);
    CHECK(slave_found_is(vbus_slave_find(table, n, true, 0x220F), 0, 0x81001F, 0x92001F));
    CHECK(slave_found_is(vbus_slave_find(table, n, false, 0x2300), VBUS_NO_SUCH_ADDRESS, 0, 0));
    CHECK(take_out(table, n, true, 0x220F) == 0 && slave_is(table[31], 0, false, 0, 0));
    CHECK(put_in(table, n, first) == 0 && slave_is(table[31], 0x2345, true, 0xA3B2C1, 0xF7E5D4));
    CHECK(filled(table, 0, 31) && filled(table, 32, ENTRIES));
}

/* The same address under both owners: each finds, changes and removes its own, whichever entry is the lower one. */
static void two_owners(void) {
    vbus_slave table[ENTRIES];
    const size_t n = VBUS_SLAVES;
    for (int one = 0; one < 2; one++) {
        const bool own = one == 1, other = one == 0;
        memset(table, 0, sizeof table);
        CHECK(put_in(table, n, slave(0x2010, own, 1, 2)) == 0);
        CHECK(slave_found_is(vbus_slave_find(table, n, other, 0x2010), VBUS_NO_SUCH_ADDRESS, 0, 0));
        CHECK(vbus_slave_change_address(table, n, other, 0x2010, 0x2020) == VBUS_NO_SUCH_ADDRESS);
        CHECK(take_out(table, n, other, 0x2010) == VBUS_NO_SUCH_ADDRESS);
        CHECK(put_in(table, n, slave(0x2010, other, 3, 4)) == 0);
        CHECK(slave_is(table[0], 0x2010, own, 1, 2) && slave_is(table[1], 0x2010, other, 3, 4));
        CHECK(put_in(table, n, slave(0x2010, own, 5, 6)) == VBUS_ADDRESS_TAKEN);
        CHECK(put_in(table, n, slave(0x2010, other, 5, 6)) == VBUS_ADDRESS_TAKEN);
        CHECK(slave_found_is(vbus_slave_find(table, n, own, 0x2010), 0, 1, 2));
        CHECK(slave_found_is(vbus_slave_find(table, n, other, 0x2010), 0, 3, 4));
        CHECK(vbus_slave_change_address(table, n, other, 0x2010, 0x2020) == 0);
        CHECK(slave_is(table[0], 0x2010, own, 1, 2) && slave_is(table[1], 0x2020, other, 3, 4));
        CHECK(vbus_slave_change_address(table, n, other, 0x2020, 0x2010) == 0);
        CHECK(take_out(table, n, other, 0x2010) == 0 && slave_is(table[1], 0, false, 0, 0));
        CHECK(slave_is(table[0], 0x2010, own, 1, 2));
        CHECK(take_out(table, n, own, 0x2010) == 0 && slave_is(table[0], 0, false, 0, 0));
    }
}

/* Enters so many slaves of an owner, from 0x2100 on. */
static int entered(vbus_slave *table, bool owner, uint16_t count) {
    for (uint16_t i = 0; i < count; i++)
        if (put_in(table, VBUS_SLAVES, slave((uint16_t)(0x2100 + i), owner, i, i)) != 0) return 0;
    return 1;
}

/* From the empty table on: 24 of the one owner and 8 of the other; the 25th though entries are free, the ninth once
 * none is. */
static void shares(void) {
    vbus_slave table[ENTRIES], before[ENTRIES];
    const size_t n = VBUS_SLAVES;
    for (int one = 0; one < 2; one++) {
        const bool own = one == 1, other = one == 0;
        memset(table, 0, sizeof table);
        CHECK(entered(table, own, 24));
        memcpy(before, table, sizeof before);
        CHECK(put_in(table, n, slave(0x2200, own, 0, 0)) == VBUS_TABLE_FULL);
        CHECK(put_in(table, n, slave(0x2100, own, 0, 0)) == VBUS_ADDRESS_TAKEN);
        CHECK(memcmp(table, before, sizeof before) == 0);
        CHECK(entered(table, other, 8));
        memcpy(before, table, sizeof before);
        CHECK(put_in(table, n, slave(0x2200, own, 0, 0)) == VBUS_TABLE_FULL);
        CHECK(put_in(table, n, slave(0x2200, other, 0, 0)) == VBUS_TABLE_FULL);
        CHECK(memcmp(table, before, sizeof before) == 0);
        /* an entry that the other gives up isn't for the one; one that the one gives up is for the other */
        CHECK(take_out(table, n, other, 0x2107) == 0);
        CHECK(put_in(table, n, slave(0x2200, own, 0, 0)) == VBUS_TABLE_FULL);
        CHECK(put_in(table, n, slave(0x2200, other, 3, 4)) == 0 && slave_is(table[31], 0x2200, other, 3, 4));
        CHECK(take_out(table, n, own, 0x2107) == 0);
        CHECK(put_in(table, n, slave(0x2201, other, 5, 6)) == 0 && slave_is(table[7], 0x2201, other, 5, 6));
        CHECK(put_in(table, n, slave(0x2107, own, 0, 0)) == VBUS_TABLE_FULL);
    }
}

/* Tables as no calls leave them: an address twice under an owner, of which the lower index counts, and lower still under
 * the other; an address that no slave has, with identifiers that are too large; a free entry with an owner and
 * identifiers. No other byte of the table changes. */
static void slaves_brought_in(void) {
    vbus_slave table[ENTRIES], expected[ENTRIES];
    const size_t n = VBUS_SLAVES;
    fill(table);
    table[20].address = 0x2103;
    table[8] = slave(0x2008, true, 0xFFFFFFFF, 0x80000000);
    table[2].address = 0;
    table[1] = slave(0x2103, true, 1, 2);
    memcpy(expected, table, sizeof expected);
    CHECK(slave_found_is(vbus_slave_find(table, n, false, 0x2103), 0, 0x810003, 0x920003));
    CHECK(slave_found_is(vbus_slave_find(table, n, true, 0x2103), 0, 1, 2));
    CHECK(slave_found_is(vbus_slave_find(table, n, true, 0x2008), 0, 0xFFFFFFFF, 0x80000000));
    CHECK(vbus_slave_change_address(table, n, false, 0x2103, 0x2103) == 0 && slave_is(table[3], 0x2103, false, 0x810003, 0x920003));
    CHECK(vbus_slave_change_address(table, n, false, 0x2103, 0x2400) == 0 && slave_is(table[3], 0x2400, false, 0x810003, 0x920003));
    CHECK(slave_found_is(vbus_slave_find(table, n, false, 0x2103), 0, 0x810014, 0x920014));
    CHECK(vbus_slave_change_address(table, n, true, 0x2008, 0x2108) == 0 && slave_is(table[8], 0x2108, true, 0xFFFFFFFF, 0x80000000));
    CHECK(put_in(table, n, slave(0x2401, true, 1, 0x1000000)) == VBUS_NOT_SLAVE_ID);
    CHECK(slave_is(table[2], 0, false, 0x810002, 0x920002));
    CHECK(put_in(table, n, slave(0x2401, true, 1, 2)) == 0 && slave_is(table[2], 0x2401, true, 1, 2));
    memcpy(expected + 2, table + 2, 2 * sizeof *table);
    memcpy(expected + 8, table + 8, sizeof *table);
    CHECK(memcmp(table, expected, sizeof table) == 0);
    table[9].address = table[10].address = expected[10].address = 0xFFFF;
    CHECK(take_out(table, n, true, 0xFFFF) == 0 && slave_is(table[9], 0, false, 0, 0));
    memcpy(expected + 9, table + 9, sizeof *table);
    CHECK(memcmp(table, expected, sizeof table) == 0);
}

/* Numbers of entries as no calls leave them: an owner with more than it may hold keeps them; a free entry counts for
 * nobody, whatever owner it names. */
static void shares_brought_in(void) {
    vbus_slave table[ENTRIES];
    const size_t n = VBUS_SLAVES;
    for (int one = 0; one < 2; one++) {
        const bool own = one == 1, other = one == 0;
        fill(table);
        for (size_t i = 0; i < VBUS_SLAVES; i++) table[i].owner = own;
        for (uint16_t i = 0; i < 8; i++) {
            CHECK(put_in(table, n, slave(0x2400, own, 0, 0)) == VBUS_TABLE_FULL);
            CHECK(put_in(table, n, slave(0x2400, other, 0, 0)) == VBUS_TABLE_FULL);
            CHECK(take_out(table, n, own, (uint16_t)(0x2100 + i)) == 0);
            /* free again, but in name the owner's */
            table[i].owner = own;
            CHECK(put_in(table, n, slave(0x2400, own, 0, 0)) == VBUS_TABLE_FULL);
            CHECK(put_in(table, n, slave(0x2400, other, 0, 0)) == 0 && slave_is(table[i], 0x2400, other, 0, 0));
            CHECK(vbus_slave_change_address(table, n, other, 0x2400, (uint16_t)(0x2401 + i)) == 0);
        }
        CHECK(take_out(table, n, own, 0x220F) == 0);
        table[31].owner = own;
        CHECK(put_in(table, n, slave(0x2400, own, 1, 2)) == 0 && slave_is(table[31], 0x2400, own, 1, 2));
    }
}

/* Each with all that comes behind it in the order; nothing in the table changes. */
static void refused_slaves(void) {
    vbus_slave table[ENTRIES], before[ENTRIES];
    fill(table);
    table[8].address = 0x2008; /* brought in: no slave has it */
    memcpy(before, table, sizeof before);
    const size_t n = VBUS_SLAVES;
    CHECK(put_in(table, n, slave(0x2008, true, 0x1000000, 0)) == VBUS_NOT_SLAVE_ADDRESS);
    CHECK(put_in(table, n, slave(0x0000, true, 0, 0)) == VBUS_NOT_SLAVE_ADDRESS);
    CHECK(put_in(table, n, slave(0x2080, true, 0, 0)) == VBUS_NOT_SLAVE_ADDRESS);
    CHECK(put_in(table, n, slave(0xA010, false, 0, 0)) == VBUS_NOT_SLAVE_ADDRESS);
    CHECK(put_in(table, n, slave(0x3010, false, 0, 0)) == VBUS_NOT_SLAVE_ADDRESS);
    CHECK(put_in(table, n, slave(0x2100, false, 0x1000000, 0)) == VBUS_NOT_SLAVE_ID);
    CHECK(put_in(table, n, slave(0x2100, false, 0, 0xFFFFFFFF)) == VBUS_NOT_SLAVE_ID);
    CHECK(put_in(table, n, slave(0x2100, false, 0, 0)) == VBUS_ADDRESS_TAKEN);
    CHECK(put_in(table, n, slave(0x2100, true, 0, 0)) == VBUS_TABLE_FULL);
    CHECK(put_in(table, n, slave(0x2400, false, 0, 0)) == VBUS_TABLE_FULL);
    CHECK(vbus_slave_change_address(table, n, true, 0x2400, 0x2008) == VBUS_NOT_SLAVE_ADDRESS);
    CHECK(vbus_slave_change_address(table, n, true, 0x2008, 0x2008) == VBUS_NOT_SLAVE_ADDRESS);
    CHECK(vbus_slave_change_address(table, n, false, 0x2400, 0x2100) == VBUS_NO_SUCH_ADDRESS);
    CHECK(vbus_slave_change_address(table, n, true, 0x2100, 0x2400) == VBUS_NO_SUCH_ADDRESS);
    CHECK(vbus_slave_change_address(table, n, false, 0, 0x2400) == VBUS_NO_SUCH_ADDRESS);
    CHECK(vbus_slave_change_address(table, n, false, 0x2100, 0x2101) == VBUS_ADDRESS_TAKEN);
    CHECK(slave_found_is(vbus_slave_find(table, n, false, 0x2400), VBUS_NO_SUCH_ADDRESS, 0, 0));
    CHECK(slave_found_is(vbus_slave_find(table, n, true, 0x2100), VBUS_NO_SUCH_ADDRESS, 0, 0));
    CHECK(take_out(table, n, false, 0x2400) == VBUS_NO_SUCH_ADDRESS);
    CHECK(take_out(table, n, true, 0x2100) == VBUS_NO_SUCH_ADDRESS);
    const size_t lengths[] = {1, 31, 33};
    for (size_t i = 0; i < 3; i++) {
        CHECK(put_in(table, lengths[i], slave(0x2008, true, 0x1000000, 0)) == VBUS_WRONG_TABLE_LENGTH);
        CHECK(put_in(table, lengths[i], slave(0x2400, true, 0, 0)) == VBUS_WRONG_TABLE_LENGTH);
        CHECK(slave_found_is(vbus_slave_find(table, lengths[i], false, 0x2100), VBUS_WRONG_TABLE_LENGTH, 0, 0));
        CHECK(slave_found_is(vbus_slave_find(table, lengths[i], true, 0), VBUS_WRONG_TABLE_LENGTH, 0, 0));
        CHECK(vbus_slave_change_address(table, lengths[i], false, 0x2100, 0x2400) == VBUS_WRONG_TABLE_LENGTH);
        CHECK(vbus_slave_change_address(table, lengths[i], true, 0, 0) == VBUS_WRONG_TABLE_LENGTH);
        CHECK(take_out(table, lengths[i], false, 0x2100) == VBUS_WRONG_TABLE_LENGTH);
        CHECK(take_out(table, lengths[i], true, 0) == VBUS_WRONG_TABLE_LENGTH);
    }
    CHECK(memcmp(table, before, sizeof before) == 0);
    /* a free entry is never found, whatever it has besides its address */
    table[8].address = before[8].address = 0;
    CHECK(slave_found_is(vbus_slave_find(table, n, true, 0), VBUS_NO_SUCH_ADDRESS, 0, 0));
    CHECK(take_out(table, n, true, 0) == VBUS_NO_SUCH_ADDRESS);
    CHECK(vbus_slave_change_address(table, n, true, 0, 0x2400) == VBUS_NO_SUCH_ADDRESS);
    CHECK(memcmp(table, before, sizeof before) == 0);
}

/* Figures kept from call to call, from the empty table's on, which are all zero bytes. */
static void kept_figures(void) {
    vbus_slave table[ENTRIES];
    const size_t n = VBUS_SLAVES;
    memset(table, 0, sizeof table);
    vbus_slave_kept kept;
    memset(&kept, 0, sizeof kept);
    CHECK(sizeof vbus_slave_enter(table, n, kept.figures, slave(0x2010, true, 1, 2)) == 8);
    CHECK(sizeof vbus_slave_remove(table, n, kept.figures, true, 0x2010) == 8);
    CHECK(sizeof vbus_slave_check_figures(table, n, kept.figures) == 8);
    CHECK(checked_is(vbus_slave_check_figures(table, n, kept.figures), 0, 1));
    CHECK(kept_is(kept = vbus_slave_enter(table, n, kept.figures, slave(0x2010, true, 1, 2)), 0, 0, 1, 1));
    CHECK(kept_is(kept = vbus_slave_enter(table, n, kept.figures, slave(0x2010, false, 1, 2)), 0, 1, 1, 2));
    CHECK(kept_is(kept = vbus_slave_enter(table, n, kept.figures, slave(0x2011, true, 1, 2)), 0, 1, 2, 3));
    CHECK(kept_is(kept = vbus_slave_enter(table, n, kept.figures, slave(0x2012, true, 1, 2)), 0, 1, 3, 4));
    CHECK(kept_is(kept = vbus_slave_enter(table, n, kept.figures, slave(0x2012, true, 1, 2)), VBUS_ADDRESS_TAKEN, 1, 3, 4));
    CHECK(vbus_slave_change_address(table, n, true, 0x2012, 0x2013) == 0);
    CHECK(checked_is(vbus_slave_check_figures(table, n, kept.figures), 0, 1));
    CHECK(kept_is(kept = vbus_slave_remove(table, n, kept.figures, false, 0x2013), VBUS_NO_SUCH_ADDRESS, 1, 3, 4));
    CHECK(kept_is(kept = vbus_slave_remove(table, n, kept.figures, true, 0x2011), 0, 1, 2, 2));
    CHECK(kept_is(kept = vbus_slave_remove(table, n, kept.figures, false, 0x2010), 0, 0, 2, 1));
    CHECK(kept_is(kept = vbus_slave_remove(table, n, kept.figures, true, 0x2013), 0, 0, 1, 1));
    CHECK(kept_is(kept = vbus_slave_enter(table, n, kept.figures, slave(0x2014, false, 1, 2)), 0, 1, 1, 2));
    /* the last free entry: behind it there is none */
    fill(table);
    table[30].address = 0;
    table[3].address = 0;
    CHECK(kept_is(kept = vbus_slave_enter(table, n, figures(15, 15, 3), slave(0x2400, true, 1, 2)), 0, 15, 16, 30));
    CHECK(kept_is(kept = vbus_slave_enter(table, n, kept.figures, slave(0x2401, true, 1, 2)), 0, 15, 17, 32));
    CHECK(kept_is(kept = vbus_slave_enter(table, n, kept.figures, slave(0x2402, true, 1, 2)), VBUS_TABLE_FULL, 15, 17, 32));
    CHECK(kept_is(kept = vbus_slave_remove(table, n, kept.figures, true, 0x220F), 0, 15, 16, 31));
    CHECK(filled(table, 32, ENTRIES));
}

/* Right are the figures that counting gives, all three, and no others. Nothing in the table changes. */
static void checked_figures(void) {
    vbus_slave table[ENTRIES], before[ENTRIES];
    const size_t n = VBUS_SLAVES;
    fill(table);
    table[2].address = table[9].address = table[31].address = 0;
    table[4].address = table[5].address = 0xFFFF;
    memcpy(before, table, sizeof before);
    for (unsigned value = 0; value < 256; value++) {
        CHECK(checked_is(vbus_slave_check_figures(table, n, figures(value, 14, 2)), 0, value == 15));
        CHECK(checked_is(vbus_slave_check_figures(table, n, figures(15, value, 2)), 0, value == 14));
        CHECK(checked_is(vbus_slave_check_figures(table, n, figures(15, 14, value)), 0, value == 2));
    }
    CHECK(checked_is(vbus_slave_check_figures(table, n, figures(14, 15, 2)), 0, 0));
    const size_t lengths[] = {0, 1, 31, 33};
    for (size_t i = 0; i < 4; i++)
        CHECK(checked_is(vbus_slave_check_figures(table, lengths[i], figures(15, 14, 2)), VBUS_WRONG_TABLE_LENGTH, 0));
    CHECK(memcmp(table, before, sizeof before) == 0);
    /* no entry is free: 32 and nothing above it; an owner with more than it may hold */
    fill(table);
    for (unsigned value = 0; value < 256; value++)
        CHECK(checked_is(vbus_slave_check_figures(table, n, figures(16, 16, value)), 0, value == 32));
    for (size_t i = 0; i < VBUS_SLAVES; i++) table[i].owner = true;
    for (unsigned value = 0; value < 256; value++)
        CHECK(checked_is(vbus_slave_check_figures(table, n, figures(0, value, 32)), 0, value == 32));
}

/* With figures that aren't the table's, only 16, the entry taken and the figures afterwards go by them. */
/* every entry but this one is what it was */
static int only(const vbus_slave *table, const vbus_slave *before, size_t entry) {
    return memcmp(table, before, entry * sizeof *table) == 0 &&
           memcmp(table + entry + 1, before + entry + 1, (ENTRIES - entry - 1) * sizeof *table) == 0;
}

static void false_figures(void) {
    vbus_slave table[ENTRIES], before[ENTRIES];
    const size_t n = VBUS_SLAVES;
    fill(table);
    table[5].address = table[20].address = 0;
    memcpy(before, table, sizeof before);
    for (unsigned value = 0; value < 256; value++) {
        const vbus_figures all = figures(value, value, value);
        const unsigned less = value == 0 ? 0 : value - 1;
        /* the owner's alone, and the lowest */
        memcpy(table, before, sizeof before);
        if (value < 24) {
            CHECK(kept_is(vbus_slave_enter(table, n, figures(99, value, 0), slave(0x2400, true, 1, 2)), 0, 99, value + 1, 20));
            CHECK(slave_is(table[5], 0x2400, true, 1, 2) && only(table, before, 5));
        } else {
            CHECK(kept_is(vbus_slave_enter(table, n, figures(99, value, 0), slave(0x2400, true, 1, 2)), VBUS_TABLE_FULL, 99, value, 0));
            CHECK(memcmp(table, before, sizeof before) == 0);
        }
        memcpy(table, before, sizeof before);
        if (value <= 5) {
            CHECK(kept_is(vbus_slave_enter(table, n, figures(7, 255, value), slave(0x2400, false, 1, 2)), 0, 8, 255, 20));
            CHECK(slave_is(table[5], 0x2400, false, 1, 2) && only(table, before, 5));
        } else if (value <= 20) {
            CHECK(kept_is(vbus_slave_enter(table, n, figures(7, 255, value), slave(0x2400, false, 1, 2)), 0, 8, 255, 32));
            CHECK(slave_is(table[20], 0x2400, false, 1, 2) && only(table, before, 20));
        } else {
            CHECK(kept_is(vbus_slave_enter(table, n, figures(7, 255, value), slave(0x2400, false, 1, 2)), VBUS_TABLE_FULL, 7, 255, value));
            CHECK(memcmp(table, before, sizeof before) == 0);
        }
        /* the other refusals, which change nothing */
        memcpy(table, before, sizeof before);
        CHECK(kept_is(vbus_slave_enter(table, n, all, slave(0x2000, true, 0x1000000, 0)), VBUS_NOT_SLAVE_ADDRESS, value, value, value));
        CHECK(kept_is(vbus_slave_enter(table, n, all, slave(0x2100, false, 0x1000000, 0)), VBUS_NOT_SLAVE_ID, value, value, value));
        CHECK(kept_is(vbus_slave_enter(table, n, all, slave(0x2100, false, 0, 0)), VBUS_ADDRESS_TAKEN, value, value, value));
        CHECK(kept_is(vbus_slave_enter(table, 31, all, slave(0x2400, false, 0, 0)), VBUS_WRONG_TABLE_LENGTH, value, value, value));
        CHECK(kept_is(vbus_slave_remove(table, n, all, true, 0x2100), VBUS_NO_SUCH_ADDRESS, value, value, value));
        CHECK(kept_is(vbus_slave_remove(table, 33, all, false, 0x2100), VBUS_WRONG_TABLE_LENGTH, value, value, value));
        CHECK(memcmp(table, before, sizeof before) == 0);
        /* removing goes by the table; 0 stays 0, and the lowest is never raised */
        CHECK(kept_is(vbus_slave_remove(table, n, all, true, 0x2108), 0, value, less, value < 8 ? value : 8));
        CHECK(slave_is(table[8], 0, false, 0, 0) && only(table, before, 8));
        memcpy(table, before, sizeof before);
        CHECK(kept_is(vbus_slave_remove(table, n, all, false, 0x2200), 0, less, value, value < 16 ? value : 16));
        CHECK(slave_is(table[16], 0, false, 0, 0) && only(table, before, 16));
        CHECK(kept_is(vbus_slave_remove(table, n, figures(0, 0, value), false, 0x2207), 0, 0, 0, value < 23 ? value : 23));
    }
}

static vbus_sender_settings settings(uint32_t max_energy, uint32_t loss_per_byte, uint32_t gain_per_microsecond) {
    vbus_sender_settings made;
    made.max_energy = max_energy;
    made.loss_per_byte = loss_per_byte;
    made.gain_per_microsecond = gain_per_microsecond;
    return made;
}

/* a sender by its six numbers, in the header's order */
static vbus_sender sender(uint32_t max_energy, uint32_t loss_per_byte, uint32_t gain_per_microsecond, uint32_t energy, size_t queued,
                          size_t sent) {
    vbus_sender made;
    made.settings = settings(max_energy, loss_per_byte, gain_per_microsecond);
    made.energy = energy;
    made.queued = queued;
    made.sent = sent;
    return made;
}

/* A sender's buffers: the queue is just as long as it must be, with others' bytes before and behind it. */
typedef struct {
    uint8_t before[8], queue[VBUS_MAX_STREAM], behind[8], out[VBUS_MAX_STREAM], behind_out[8];
} buffers;
static void paint_buffers(buffers *b) { paint((uint8_t *)b, sizeof *b); }
static int same(const buffers *a, const buffers *b) { return memcmp(a, b, sizeof *a) == 0; }

/* Bytes to queue, more than go into a queue: never twice the same 256, so that a wrong place shows. */
#define MANY (VBUS_MAX_STREAM + 256)
static void bytes_to_queue(uint8_t bytes[MANY]) {
    for (size_t i = 0; i < MANY; i++) bytes[i] = (uint8_t)(i * 91 + i / 256 * 5 + 7);
}

static int shows(vbus_sender a, int idle, uint32_t energy) {
    return (int)vbus_sender_is_idle(a) == idle && vbus_sender_energy(a) == energy;
}

/* It waits after the last byte too, and then takes bytes again: here after those that sending() has sent. */
static void sending_again(vbus_sent sent, buffers b, const uint8_t bytes[MANY]) {
    buffers expected = b;
    CHECK(sent_is(sent = vbus_sender_wait(sent.sender, 1), 0, 0, sender(10, 3, 2, 9, 7, 7)) && shows(sent.sender, 0, 9));
    CHECK(sent_is(sent = vbus_sender_wait(sent.sender, 1), 0, 0, sender(10, 3, 2, 10, 7, 7)) && shows(sent.sender, 1, 10));
    CHECK(sent_is(vbus_sender_transmit(sent.sender, b.queue, b.out, 7), 0, 0, sender(10, 3, 2, 10, 7, 7)) && same(&b, &expected));
    CHECK(sent_is(vbus_sender_wait(sent.sender, 1), 0, 0, sender(10, 3, 2, 10, 7, 7)));
    /* no bytes leave it idle; fewer than before go to the queue's start */
    CHECK(sent_is(vbus_sender_enqueue(sent.sender, b.queue, bytes, 0), 0, 0, sender(10, 3, 2, 10, 0, 0)) && same(&b, &expected));
    sent = vbus_sender_enqueue(sent.sender, b.queue, bytes + 20, 2);
    memcpy(expected.queue, bytes + 20, 2);
    CHECK(sent_is(sent, 0, 0, sender(10, 3, 2, 10, 2, 0)) && same(&b, &expected));
    sent = vbus_sender_transmit(sent.sender, b.queue, b.out, sizeof b.out);
    memcpy(expected.out, bytes + 20, 2);
    CHECK(sent_is(sent, 0, 2, sender(10, 3, 2, 4, 2, 2)) && same(&b, &expected));
}

/* A largest energy of 10, a loss of 3 and a gain of 2 with seven bytes: portions of three, three and one. What lies behind
 * the bytes written stays, and only waiting gives energy back. */
static void sending(void) {
    buffers b, expected;
    uint8_t bytes[MANY];
    paint_buffers(&b);
    paint_buffers(&expected);
    bytes_to_queue(bytes);
    vbus_sent sent = vbus_sender_start(settings(10, 3, 2));
    /* no field has a sign */
    const vbus_sender largest = sender(UINT32_MAX, UINT32_MAX, UINT32_MAX, UINT32_MAX, SIZE_MAX, SIZE_MAX);
    CHECK(largest.settings.max_energy > 0 && largest.settings.loss_per_byte > 0 && largest.settings.gain_per_microsecond > 0);
    CHECK(largest.energy > 0 && largest.queued > 0 && largest.sent > 0);
    CHECK(sizeof sent == 48 && sizeof vbus_sender_is_idle(sent.sender) == 1 && sizeof vbus_sender_energy(sent.sender) == 4);
    CHECK(sent_is(sent, 0, 0, sender(10, 3, 2, 10, 0, 0)) && shows(sent.sender, 1, 10));
    CHECK(sent_is(vbus_sender_wait(sent.sender, 9), 0, 0, sender(10, 3, 2, 10, 0, 0)));
    CHECK(sent_is(vbus_sender_transmit(sent.sender, b.queue, b.out, 7), 0, 0, sender(10, 3, 2, 10, 0, 0)) && same(&b, &expected));
    sent = vbus_sender_enqueue(sent.sender, b.queue, bytes, 7);
    memcpy(expected.queue, bytes, 7);
    CHECK(sent_is(sent, 0, 0, sender(10, 3, 2, 10, 7, 0)) && shows(sent.sender, 0, 10) && same(&b, &expected));
    CHECK(sent_is(sent = vbus_sender_wait(sent.sender, 9), 0, 0, sender(10, 3, 2, 10, 7, 0)));
    sent = vbus_sender_transmit(sent.sender, b.queue, b.out, 7);
    memcpy(expected.out, bytes, 3);
    CHECK(sent_is(sent, 0, 3, sender(10, 3, 2, 1, 7, 3)) && shows(sent.sender, 0, 1) && same(&b, &expected));
    CHECK(sent_is(sent = vbus_sender_wait(sent.sender, 0), 0, 0, sender(10, 3, 2, 1, 7, 3)));
    CHECK(sent_is(sent = vbus_sender_wait(sent.sender, 1), 0, 0, sender(10, 3, 2, 3, 7, 3)));
    CHECK(sent_is(sent = vbus_sender_wait(sent.sender, 3), 0, 0, sender(10, 3, 2, 9, 7, 3)) && shows(sent.sender, 0, 9));
    CHECK(sent_is(sent = vbus_sender_transmit(sent.sender, b.queue, b.out, 7), 0, 0, sender(10, 3, 2, 9, 7, 3)) && same(&b, &expected));
    CHECK(sent_is(sent = vbus_sender_wait(sent.sender, 1), 0, 0, sender(10, 3, 2, 10, 7, 3)) && shows(sent.sender, 0, 10));
    /* what is told beyond isn't kept */
    CHECK(sent_is(sent = vbus_sender_wait(sent.sender, 1), 0, 0, sender(10, 3, 2, 10, 7, 3)));
    sent = vbus_sender_transmit(sent.sender, b.queue, b.out, 3);
    memcpy(expected.out, bytes + 3, 3);
    CHECK(sent_is(sent, 0, 3, sender(10, 3, 2, 1, 7, 6)) && shows(sent.sender, 0, 1) && same(&b, &expected));
    CHECK(sent_is(sent = vbus_sender_wait(sent.sender, 1000), 0, 0, sender(10, 3, 2, 10, 7, 6)));
    sent = vbus_sender_transmit(sent.sender, b.queue, b.out, 1);
    expected.out[0] = bytes[6];
    CHECK(sent_is(sent, 0, 1, sender(10, 3, 2, 7, 7, 7)) && shows(sent.sender, 0, 7) && same(&b, &expected));
    sending_again(sent, b, bytes);
}

/* The longest stream, sent whole by settings that need so many portions of so many bytes: each byte once and in order, with
 * the microseconds of the rule after each portion and not one less. */
static void sending_the_longest_by(vbus_sender_settings by, size_t portions, size_t at_once) {
    buffers b, expected;
    uint8_t bytes[MANY], all[VBUS_MAX_STREAM];
    size_t count = 0, length = 0;
    paint_buffers(&b);
    paint_buffers(&expected);
    bytes_to_queue(bytes);
    memcpy(expected.queue, bytes, VBUS_MAX_STREAM);
    vbus_sent sent = vbus_sender_start(by);
    CHECK(sent_is(sent, 0, 0, sender(by.max_energy, by.loss_per_byte, by.gain_per_microsecond, by.max_energy, 0, 0)));
    sent = vbus_sender_enqueue(sent.sender, b.queue, bytes, VBUS_MAX_STREAM);
    CHECK(sent.number == 0 && same(&b, &expected));
    while (length < VBUS_MAX_STREAM && count < portions) {
        const size_t rest = VBUS_MAX_STREAM - length, size = rest < at_once ? rest : at_once;
        const uint64_t lost = by.max_energy == 0 ? 0 : (uint64_t)size * by.loss_per_byte;
        const uint64_t wait = lost == 0 ? 0 : (lost - 1) / by.gain_per_microsecond + 1;
        sent = vbus_sender_transmit(sent.sender, b.queue, b.out, size);
        CHECK(sent.number == 0 && sent.length == size && sent.sender.sent == length + size);
        CHECK(shows(sent.sender, by.max_energy == 0 && size == rest, (uint32_t)(by.max_energy - lost)));
        memcpy(all + length, b.out, size);
        memcpy(expected.out, bytes + length, size);
        CHECK(same(&b, &expected));
        if (wait > 0) {
            sent = vbus_sender_wait(sent.sender, wait - 1);
            CHECK(shows(sent.sender, 0, (uint32_t)(by.max_energy - lost + (wait - 1) * by.gain_per_microsecond)));
            CHECK(vbus_sender_transmit(sent.sender, b.queue, b.out, sizeof b.out).length == 0);
            sent = vbus_sender_wait(sent.sender, 1);
        }
        CHECK(shows(sent.sender, size == rest, by.max_energy));
        length += size;
        count++;
    }
    CHECK(count == portions && length == VBUS_MAX_STREAM && memcmp(all, bytes, VBUS_MAX_STREAM) == 0);
}

static void sending_the_longest(void) {
    sending_the_longest_by(settings(0, 0, 0), 1, 772);
    sending_the_longest_by(settings(0, 1, 0), 1, 772);
    sending_the_longest_by(settings(0, UINT32_MAX, UINT32_MAX), 1, 772);
    sending_the_longest_by(settings(16672, 1042, 1), 49, 16);
    sending_the_longest_by(settings(10, 3, 2), 258, 3);
    sending_the_longest_by(settings(1, 1, UINT32_MAX), 772, 1);
    sending_the_longest_by(settings(771, 1, 1), 2, 771);
    sending_the_longest_by(settings(772, 1, 1), 1, 772);
    sending_the_longest_by(settings(UINT32_MAX, 1, 1), 1, 772);
    sending_the_longest_by(settings(UINT32_MAX, UINT32_MAX, 1), 772, 1);
    sending_the_longest_by(settings(UINT32_MAX, 0x80000000, 0x7FFFFFFF), 772, 1);
    sending_the_longest_by(settings(UINT32_MAX, 0x01000001, 3), 4, 255);
}

/* Numbers of microseconds that no 32 bits hold, and ones that times the gain are none of 64 bits. */
static void waiting_for_long(void) {
    const uint64_t times[] = {(uint64_t)1 << 32, (uint64_t)1 << 63, ((uint64_t)1 << 63) + 1, UINT64_MAX / 2 + 2, UINT64_MAX - 1, UINT64_MAX};
    for (size_t i = 0; i < sizeof times / sizeof *times; i++) {
        CHECK(sent_is(vbus_sender_wait(sender(10, 3, 2, 1, 7, 3), times[i]), 0, 0, sender(10, 3, 2, 10, 7, 3)));
        CHECK(sent_is(vbus_sender_wait(sender(10, 3, 2, 10, 7, 3), times[i]), 0, 0, sender(10, 3, 2, 10, 7, 3)));
        CHECK(sent_is(vbus_sender_wait(sender(0, 3, 2, 0, 7, 3), times[i]), 0, 0, sender(0, 3, 2, 0, 7, 3)));
        CHECK(sent_is(vbus_sender_wait(sender(UINT32_MAX, 1, 1, 0, 7, 3), times[i]), 0, 0, sender(UINT32_MAX, 1, 1, UINT32_MAX, 7, 3)));
    }
    CHECK(sent_is(vbus_sender_wait(sender(UINT32_MAX, 1, 1, 0, 7, 3), UINT32_MAX - 1), 0, 0, sender(UINT32_MAX, 1, 1, UINT32_MAX - 1, 7, 3)));
    CHECK(sent_is(vbus_sender_wait(sender(UINT32_MAX, 1, UINT32_MAX, 1, 7, 3), 1), 0, 0, sender(UINT32_MAX, 1, UINT32_MAX, UINT32_MAX, 7, 3)));
    CHECK(sent_is(vbus_sender_wait(sender(UINT32_MAX, 1, 0x80000000, 0, 7, 3), 1), 0, 0, sender(UINT32_MAX, 1, 0x80000000, 0x80000000, 7, 3)));
    CHECK(sent_is(vbus_sender_wait(sender(UINT32_MAX, 1, 0x80000000, 0, 7, 3), 2), 0, 0, sender(UINT32_MAX, 1, 0x80000000, UINT32_MAX, 7, 3)));
}

/* Settings that no sender has, with all that comes behind them in the order. The sender comes back as it was, but that of a
 * refused start is zero; no byte is written. */
static void wrong_settings(void) {
    buffers b, expected;
    uint8_t bytes[MANY];
    paint_buffers(&b);
    paint_buffers(&expected);
    bytes_to_queue(bytes);
    const vbus_sender_settings wrong[] = {settings(1, 0, 1), settings(1, 1, 0), settings(1, 0, 0), settings(1, 2, 1), settings(10, 11, 2),
                                          settings(UINT32_MAX, 0, UINT32_MAX), settings(UINT32_MAX, UINT32_MAX, 0),
                                          settings(UINT32_MAX - 1, UINT32_MAX, UINT32_MAX), settings(256, 65536, 1),
                                          settings(0x81828384, 0x91929394, 0xA1A2A3A4)};
    for (size_t i = 0; i < sizeof wrong / sizeof *wrong; i++) {
        const vbus_sender_settings w = wrong[i];
        /* idle, with bytes to send, waiting, and one in which each byte differs from the others */
        const vbus_sender with[] = {sender(w.max_energy, w.loss_per_byte, w.gain_per_microsecond, w.max_energy, 0, 0),
                                    sender(w.max_energy, w.loss_per_byte, w.gain_per_microsecond, w.max_energy, 7, 3),
                                    sender(w.max_energy, w.loss_per_byte, w.gain_per_microsecond, 0, 7, 7),
                                    sender(w.max_energy, w.loss_per_byte, w.gain_per_microsecond, 0xB1B2B3B4, 0xC1C2C3C4C5C6C7C8, 0xD1D2D3D4D5D6D7D8)};
        CHECK(sent_is(vbus_sender_start(w), VBUS_WRONG_SETTINGS, 0, sender(0, 0, 0, 0, 0, 0)));
        for (size_t k = 0; k < 4; k++) {
            CHECK(sent_is(vbus_sender_enqueue(with[k], b.queue, bytes, 7), VBUS_WRONG_SETTINGS, 0, with[k]));
            CHECK(sent_is(vbus_sender_enqueue(with[k], b.queue, bytes, 773), VBUS_WRONG_SETTINGS, 0, with[k]));
            CHECK(sent_is(vbus_sender_transmit(with[k], b.queue, b.out, 0), VBUS_WRONG_SETTINGS, 0, with[k]));
            CHECK(sent_is(vbus_sender_transmit(with[k], b.queue, b.out, sizeof b.out), VBUS_WRONG_SETTINGS, 0, with[k]));
            CHECK(sent_is(vbus_sender_wait(with[k], 0), VBUS_WRONG_SETTINGS, 0, with[k]));
            CHECK(sent_is(vbus_sender_wait(with[k], 1000), VBUS_WRONG_SETTINGS, 0, with[k]));
            /* these two refuse nothing */
            CHECK(shows(with[k], k == 0 || (k == 3 && w.max_energy <= 0xB1B2B3B4), k < 2 || w.max_energy <= with[k].energy ? w.max_energy : with[k].energy));
        }
    }
    CHECK(same(&b, &expected));
}

/* The other refusals likewise. */
static void refused_sending(void) {
    buffers b, expected;
    uint8_t bytes[MANY];
    paint_buffers(&b);
    paint_buffers(&expected);
    bytes_to_queue(bytes);
    const size_t counts[] = {0, 1, 772, 773, MANY};
    const vbus_sender busy[] = {sender(10, 3, 2, 10, 7, 0), sender(10, 3, 2, 10, 7, 6), sender(10, 3, 2, 1, 7, 3), sender(10, 3, 2, 9, 7, 7),
                                sender(10, 3, 2, 0, 0, 0), sender(0, 0, 0, 0, 1, 0), sender(0, 9, 9, 9, 772, 771)};
    for (size_t i = 0; i < 5; i++)
        for (size_t k = 0; k < sizeof busy / sizeof *busy; k++)
            CHECK(sent_is(vbus_sender_enqueue(busy[k], b.queue, bytes, counts[i]), VBUS_SENDER_BUSY, 0, busy[k]));
    const vbus_sender idle[] = {sender(10, 3, 2, 10, 0, 0), sender(10, 3, 2, 10, 7, 7), sender(0, 0, 0, 0, 0, 0), sender(0, 9, 9, 0, 772, 772)};
    for (size_t k = 0; k < 4; k++) {
        CHECK(sent_is(vbus_sender_enqueue(idle[k], b.queue, bytes, 773), VBUS_QUEUE_TOO_LONG, 0, idle[k]));
        CHECK(sent_is(vbus_sender_enqueue(idle[k], b.queue, bytes, MANY), VBUS_QUEUE_TOO_LONG, 0, idle[k]));
        CHECK(sent_is(vbus_sender_transmit(idle[k], b.queue, b.out, 0), 0, 0, idle[k]));
    }
    /* the portion's length decides, not that of what is left; one that waits hands out nothing, whatever the room */
    CHECK(sent_is(vbus_sender_transmit(busy[0], b.queue, b.out, 0), VBUS_OUTPUT_TOO_SHORT, 0, busy[0]));
    CHECK(sent_is(vbus_sender_transmit(busy[0], b.queue, b.out, 2), VBUS_OUTPUT_TOO_SHORT, 0, busy[0]));
    CHECK(sent_is(vbus_sender_transmit(busy[1], b.queue, b.out, 0), VBUS_OUTPUT_TOO_SHORT, 0, busy[1]));
    CHECK(sent_is(vbus_sender_transmit(busy[2], b.queue, b.out, 0), 0, 0, busy[2]));
    CHECK(sent_is(vbus_sender_transmit(busy[3], b.queue, b.out, 0), 0, 0, busy[3]));
    CHECK(sent_is(vbus_sender_transmit(sender(10, 3, 2, 10, 772, 0), b.queue, b.out, 2), VBUS_OUTPUT_TOO_SHORT, 0, sender(10, 3, 2, 10, 772, 0)));
    CHECK(sent_is(vbus_sender_transmit(sender(0, 3, 2, 0, 772, 0), b.queue, b.out, 771), VBUS_OUTPUT_TOO_SHORT, 0, sender(0, 3, 2, 0, 772, 0)));
    CHECK(same(&b, &expected));
}

/* A sender that no calls lead to: it has this energy left, and hands out the queue's bytes from `sent` on, so many of them;
 * then its energy is `after`. */
static void brought_in(vbus_sender a, uint32_t energy, size_t length, uint32_t after) {
    buffers b, expected;
    paint_buffers(&b);
    paint_buffers(&expected);
    vbus_sender then = a;
    if (length > 0) {
        then.energy = after;
        then.sent = a.sent + length;
        memcpy(expected.out, expected.queue + a.sent, length);
        CHECK(sent_is(vbus_sender_transmit(a, b.queue, b.out, length - 1), VBUS_OUTPUT_TOO_SHORT, 0, a));
    }
    CHECK(shows(a, length == 0 && a.energy >= a.settings.max_energy, energy));
    CHECK(sent_is(vbus_sender_transmit(a, b.queue, b.out, sizeof b.out), 0, length, then) && same(&b, &expected));
}

static void senders_brought_in(void) {
    /* more energy than the largest: it is full */
    brought_in(sender(10, 3, 2, 11, 7, 0), 10, 3, 1);
    brought_in(sender(10, 3, 2, UINT32_MAX, 7, 6), 10, 1, 7);
    brought_in(sender(0, 3, 2, 5, 7, 2), 0, 5, 0);
    brought_in(sender(10, 3, 2, UINT32_MAX, 0, 0), 10, 0, 0);
    CHECK(sent_is(vbus_sender_wait(sender(10, 3, 2, 11, 7, 7), 1000), 0, 0, sender(10, 3, 2, 11, 7, 7)));
    /* more sent than queued: nothing is to be sent */
    brought_in(sender(10, 3, 2, 10, 7, 8), 10, 0, 0);
    brought_in(sender(0, 3, 2, 0, 0, SIZE_MAX), 0, 0, 0);
    brought_in(sender(10, 3, 2, 9, 7, 8), 9, 0, 0);
    brought_in(sender(10, 3, 2, 10, SIZE_MAX - 1, SIZE_MAX), 10, 0, 0);
    /* more queued than the queue holds: as far as it goes */
    brought_in(sender(0, 3, 2, 0, 773, 0), 0, 772, 0);
    brought_in(sender(0, 3, 2, 0, SIZE_MAX, 0), 0, 772, 0);
    brought_in(sender(0, 3, 2, 0, (size_t)1 << 32, 5), 0, 767, 0);
    brought_in(sender(0, 3, 2, 0, SIZE_MAX, 770), 0, 2, 0);
    brought_in(sender(0, 3, 2, 0, SIZE_MAX, 772), 0, 0, 0);
    brought_in(sender(0, 3, 2, 0, SIZE_MAX, 773), 0, 0, 0);
    brought_in(sender(0, 3, 2, 0, 7, (size_t)1 << 32), 0, 0, 0);
    brought_in(sender(0, 3, 2, 0, SIZE_MAX, SIZE_MAX), 0, 0, 0);
    brought_in(sender(10, 3, 2, 10, SIZE_MAX, 766), 10, 3, 1);
    brought_in(sender(10, 3, 2, 10, SIZE_MAX, 770), 10, 2, 4);
    brought_in(sender(10, 3, 2, 10, SIZE_MAX, 772), 10, 0, 0);
    brought_in(sender(10, 3, 2, 0, SIZE_MAX, 0), 0, 0, 0);
    brought_in(sender(UINT32_MAX, 1, 1, UINT32_MAX, SIZE_MAX, 0), UINT32_MAX, 772, UINT32_MAX - 772);
    brought_in(sender(UINT32_MAX, 1, 1, UINT32_MAX, SIZE_MAX, SIZE_MAX), UINT32_MAX, 0, 0);
}

/* Senders of which each byte differs from the others: a call that isn't refused changes only what it must. */
static void odd_senders_brought_in(void) {
    /* an idle one */
    const vbus_sender odd = sender(0x91929394, 0x81828384, 0xA1A2A3A4, 0xB1B2B3B4, 0xC1C2C3C4C5C6C7C8, 0xD1D2D3D4D5D6D7D8);
    brought_in(odd, 0x91929394, 0, 0);
    CHECK(sent_is(vbus_sender_wait(odd, 0xE1E2E3E4E5E6E7E8), 0, 0, odd));
    buffers b, expected;
    uint8_t bytes[MANY];
    paint_buffers(&b);
    paint_buffers(&expected);
    bytes_to_queue(bytes);
    CHECK(sent_is(vbus_sender_enqueue(odd, b.queue, bytes, 773), VBUS_QUEUE_TOO_LONG, 0, odd) && same(&b, &expected));
    memcpy(expected.queue, bytes, 772);
    CHECK(sent_is(vbus_sender_enqueue(odd, b.queue, bytes, 772), 0, 0, sender(0x91929394, 0x81828384, 0xA1A2A3A4, 0xB1B2B3B4, 772, 0)) && same(&b, &expected));
    /* one of which no field is refused, nor the sender idle */
    const vbus_sender waits = sender(0xB1B2B3B4, 0x81828384, 0x00010203, 0x91929394, 0xC1C2C3C4C5C6C7C8, 0xD1D2D3D4D5D6D7D8);
    CHECK(sent_is(vbus_sender_enqueue(waits, b.queue, bytes + 1, 772), VBUS_SENDER_BUSY, 0, waits) && same(&b, &expected));
    CHECK(sent_is(vbus_sender_wait(waits, 2), 0, 0, sender(0xB1B2B3B4, 0x81828384, 0x00010203, 0x9194979A, 0xC1C2C3C4C5C6C7C8, 0xD1D2D3D4D5D6D7D8)));
}

/* NULL is never read or written where its count is 0: a read would end the program. */
static void null_with_zero(void) {
    const vbus_header block = block_header();
    uint8_t out[16], memory[VBUS_MAX_STREAM], payload[VBUS_MAX_PAYLOAD];
    CHECK(vbus_checksum(NULL, 0) == 0x7F);
    CHECK(fault_is(vbus_validate(NULL, 0), VBUS_VERDICT_ENDED, 0));
    CHECK(nothing_found(vbus_next(NULL, 0, 0, NULL, 0), 0));
    CHECK(nothing_found(vbus_next(NULL, 0, 1, NULL, 0), VBUS_START_PAST_END));
    CHECK(found_is(vbus_next(clearance, 8, 0, NULL, 0), 0, 1, 0, 8, clearance_header(), 0));
    CHECK(no_fault(vbus_next_fault(NULL, 0, 0)) && no_fault(vbus_next_fault(NULL, 0, 1)));
    CHECK(nothing_found(vbus_next(datagram, 16, 0, NULL, 0), VBUS_OUTPUT_TOO_SHORT));
    CHECK(nothing_found(vbus_next(telegram, 17, 0, NULL, 0), VBUS_OUTPUT_TOO_SHORT));
    memcpy(memory, clearance, 7);
    const vbus_receiver seven = {7, 7};
    CHECK(nothing_received(vbus_receive(seven, memory, NULL, 0, payload, sizeof payload), 0, 0, 7, 7));
    CHECK(nothing_received(vbus_receive(seven, memory, NULL, 0, NULL, 0), VBUS_OUTPUT_TOO_SHORT, 0, 7, 7));
    CHECK(nothing_received(vbus_receive(seven, memory, clearance + 7, 1, NULL, 0), VBUS_OUTPUT_TOO_SHORT, 0, 7, 7));
    CHECK(written_is(vbus_encode(block, NULL, 0, out, 16), 0, 10));
    CHECK(memcmp(out, "\xAA\x15\x00\x21\x7E\x10\x00\x01\x00\x3A", 10) == 0);
    CHECK(written_is(vbus_encode(clearance_header(), NULL, 0, out, 16), 0, 8));
    CHECK(written_is(vbus_encode(datagram_header(), NULL, 0, out, 16), VBUS_WRONG_LENGTH, 0));
    CHECK(written_is(vbus_encode(block, NULL, 0, NULL, 0), VBUS_OUTPUT_TOO_SHORT, 0));
    CHECK(written_is(vbus_normalize(NULL, 0, NULL, 0), 0, 0));
    CHECK(written_is(vbus_normalize(NULL, 0, out, 16), 0, 0));
    CHECK(written_is(vbus_normalize(clearance + 1, 7, NULL, 0), 0, 0));
    CHECK(written_is(vbus_normalize(clearance, 8, NULL, 0), VBUS_OUTPUT_TOO_SHORT, 0));
    CHECK(count_is(vbus_section_count(block, NULL, 0), 0, 0));
    CHECK(part_is(vbus_section(block, NULL, 0, 0), VBUS_NO_SUCH_PART, 0, 0));
    CHECK(count_is(vbus_element_count(block, NULL, 0, 0), VBUS_NO_SUCH_PART, 0));
    CHECK(part_is(vbus_element(block, NULL, 0, 0, 0), VBUS_NO_SUCH_PART, 0, 0));
    CHECK(count_is(vbus_section_count(clearance_header(), NULL, 0), VBUS_NOT_BLOCK_PACKET, 0));
    CHECK(no_slave_id(vbus_read_slave_id(telegram_header(), NULL, 0)));
    CHECK(written_is(vbus_write_slave_id(0x7731, 0x2010, 0, 0, NULL, 0), VBUS_OUTPUT_TOO_SHORT, 0));
}

/* Nor is anything of a table whose count is wrong, here that of its bytes too, and ones whose low byte or half is right. */
static void null_with_a_wrong_count(void) {
    const size_t counts[] = {0, 1, 31, 33, VBUS_SLAVES * sizeof(vbus_slave), VBUS_SLAVES + 256, VBUS_SLAVES + ((size_t)1 << 32), (size_t)-1};
    for (size_t i = 0; i < sizeof counts / sizeof *counts; i++) {
        CHECK(kept_is(vbus_slave_enter(NULL, counts[i], figures(1, 2, 3), slave(0x2010, true, 0, 0)), VBUS_WRONG_TABLE_LENGTH, 1, 2, 3));
        CHECK(slave_found_is(vbus_slave_find(NULL, counts[i], true, 0x2010), VBUS_WRONG_TABLE_LENGTH, 0, 0));
        CHECK(vbus_slave_change_address(NULL, counts[i], true, 0x2010, 0x2011) == VBUS_WRONG_TABLE_LENGTH);
        CHECK(kept_is(vbus_slave_remove(NULL, counts[i], figures(1, 2, 3), true, 0x2010), VBUS_WRONG_TABLE_LENGTH, 1, 2, 3));
        CHECK(checked_is(vbus_slave_check_figures(NULL, counts[i], figures(0, 0, 0)), VBUS_WRONG_TABLE_LENGTH, 0));
    }
}

static void null_with_zero_to_a_sender(void) {
    uint8_t memory[VBUS_MAX_STREAM] = {0};
    const vbus_sender idle = sender(10, 3, 2, 10, 7, 7), to_send = sender(10, 3, 2, 10, 7, 6), waits = sender(10, 3, 2, 1, 7, 3);
    CHECK(sent_is(vbus_sender_enqueue(idle, memory, NULL, 0), 0, 0, sender(10, 3, 2, 10, 0, 0)));
    CHECK(sent_is(vbus_sender_enqueue(to_send, memory, NULL, 0), VBUS_SENDER_BUSY, 0, to_send));
    CHECK(sent_is(vbus_sender_enqueue(sender(1, 2, 3, 4, 5, 6), memory, NULL, 0), VBUS_WRONG_SETTINGS, 0, sender(1, 2, 3, 4, 5, 6)));
    CHECK(sent_is(vbus_sender_transmit(idle, memory, NULL, 0), 0, 0, idle));
    CHECK(sent_is(vbus_sender_transmit(waits, memory, NULL, 0), 0, 0, waits));
    CHECK(sent_is(vbus_sender_transmit(to_send, memory, NULL, 0), VBUS_OUTPUT_TOO_SHORT, 0, to_send));
    CHECK(sent_is(vbus_sender_transmit(sender(1, 2, 3, 4, 5, 6), memory, NULL, 0), VBUS_WRONG_SETTINGS, 0, sender(1, 2, 3, 4, 5, 6)));
}

static void senders(void) {
    layouts_of_a_sender();
    sending();
    sending_the_longest();
    waiting_for_long();
    wrong_settings();
    refused_sending();
    senders_brought_in();
    odd_senders_brought_in();
    null_with_zero_to_a_sender();
}

int main(void) {
    names();
    layouts();
    checksum_and_septets();
    verdicts();
    finding();
    telling_faults();
    receiving();
    receiving_the_longest();
    resetting();
    counting_to_the_end();
    normalizing();
    unused_septets();
    writing();
    refused_writing();
    signed_numbers();
    blocks();
    refused_blocks();
    slave_ids();
    refused_slave_ids();
    slaves();
    two_owners();
    shares();
    slaves_brought_in();
    shares_brought_in();
    refused_slaves();
    kept_figures();
    checked_figures();
    false_figures();
    senders();
    null_with_zero();
    null_with_a_wrong_count();
    printf("%u passed, %u failed\n", passed, failed);
    return failed == 0 ? 0 : 1;
}
