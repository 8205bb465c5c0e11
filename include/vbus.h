/*
 * Reads and writes RESOL VBus streams: packets, datagrams and telegrams. For C99 and C++98.
 * Link with libvbus.a (x86-64, System V calling convention).
 *
 * Memory. No heap, no globals, nothing kept between calls: every function may be called from several threads and from
 * signal handlers at once. What must be remembered, a receiver and its memory, a table of slaves and its figures, a
 * sender and its queue, is the caller's. The archive needs nothing from outside. Stack: at most 256 bytes a call, but up
 * to 6,400 in the four section functions, which call themselves once a section: up to 48 bytes each, 127 at most.
 * tests/stack in the repository measures it.
 *
 * Pointers and owners. This is the caller's to keep; no function can check it:
 *  - A pointer has as many bytes, a table as many entries, behind it as the count says that follows it (n, room), and
 *    bytes[7], bytes[2], payload[6], memory[VBUS_MAX_STREAM] and queue[VBUS_MAX_STREAM] as many as the brackets say,
 *    whatever `length`, `held` or `queued` says. Nothing beyond them is read or written.
 *  - With a count above 0, or brackets, the pointer must not be NULL. With count 0 it isn't read or written, and NULL
 *    is fine.
 *  - A buffer that is written (payload of vbus_next and vbus_receive, memory, queue of vbus_sender_enqueue, out, a
 *    table) must not overlap another of the call: a recording can't be normalized in place.
 *  - While a call runs, nothing else writes to its buffers, nor reads those that it writes.
 *  - Each `owner` in a table of slaves is 0 or 1 as a byte, as C and C++ store a bool. Whoever brings a table in as bytes,
 *    from flash say, must see to that before handing it over.
 *
 * Refusals. `number` is 0 where the function did its work, else the number of a refusal. At each function its refusals
 * stand in the order in which they are checked; the first that applies is given. After a refusal every buffer holds
 * what it held before, and every other field of the answer is 0, but a receiver, the figures of a table or a sender that
 * was handed in, which comes back as it was. vbus_slave_change_address answers the number alone. A function without one
 * never refuses.
 *
 * Unused septet bits. Bit i of a septet is the top bit of byte i of its block. A packet's frame has four bytes and a
 * datagram six, so bits 4 to 6 of a packet's septets and bit 6 of a datagram's stand for no byte; a telegram's frame
 * has seven, and uses all. Some controllers set unused bits: they are ignored in what is read, but the checksums cover
 * them as they came. Whatever is written has 0 there.
 */
#ifndef VBUS_H
#define VBUS_H

#include <stddef.h>
#include <stdint.h>
#ifndef __cplusplus
#include <stdbool.h>
#endif

/* The version of this library, not of a stream. */
#define VBUS_VERSION_MAJOR 0
#define VBUS_VERSION_MINOR 10
#define VBUS_VERSION_PATCH 0

/* The longest payload and the longest stream, both those of a packet with 127 frames. */
#define VBUS_MAX_PAYLOAD 508
#define VBUS_MAX_STREAM 772

/* The entries of a table of slaves, and the most that one of its two owners may hold. */
#define VBUS_SLAVES 32
#define VBUS_SLAVES_PER_OWNER 24

#ifdef __cplusplus
extern "C" {
#endif

/* The versions of streams. This enum and the others only name numbers: the fields that hold these have fixed widths. */
enum vbus_stream_version {
    VBUS_PACKET = 0x10,
    VBUS_DATAGRAM = 0x20,
    VBUS_TELEGRAM = 0x30,
    VBUS_TELEGRAM_31 = 0x31
};

/* The refusals. Each function says which it gives, in which order, and exactly when. */
enum vbus_refusal {
    VBUS_UNKNOWN_VERSION = 1,       /* no stream has that version */
    VBUS_HIGH_ADDRESS = 2,          /* a bit of the destination or the source is set that no stream carries */
    VBUS_HIGH_COMMAND = 3,          /* a bit of the command is set that no stream carries */
    VBUS_WRONG_LENGTH = 4,          /* the payload's length isn't the record's */
    VBUS_OUTPUT_TOO_SHORT = 5,      /* too little room for what would be written */
    VBUS_START_PAST_END = 6,        /* the place to start from is behind the input */
    VBUS_WRONG_SEPTET_BLOCK = 7,    /* too long, or a byte or the septet is 0x80 or more */
    VBUS_NOT_BLOCK_PACKET = 8,      /* the header or the payload's length isn't a block packet's */
    VBUS_SECTION_PAST_END = 9,      /* a section runs past the payload's end */
    VBUS_NO_SUCH_PART = 10,         /* no section or element has that number */
    VBUS_UNKNOWN_SECTION_TYPE = 11, /* no element size is known for the section's type */
    VBUS_POSITION_OVERFLOW = 12,    /* a receiver's position would pass the largest 64-bit number */
    VBUS_PARTIAL_ELEMENT = 13,      /* a section ends within an element */
    VBUS_NOT_SLAVE_ADDRESS = 14,    /* no slave has an address like that */
    VBUS_ADDRESS_TAKEN = 15,        /* the owner already has an entry with that address */
    VBUS_TABLE_FULL = 16,           /* the owner holds VBUS_SLAVES_PER_OWNER entries or more, or none is free */
    VBUS_NO_SUCH_ADDRESS = 17,      /* the owner has no entry with that address */
    VBUS_NOT_SLAVE_ID = 18,         /* no slave ID response, or an identifier that needs more than 24 bits */
    VBUS_WRONG_SETTINGS = 19,       /* a sender's loss or gain is 0, or its loss above its largest, which isn't 0 */
    VBUS_SENDER_BUSY = 20,          /* the sender has bytes to send, or waits */
    VBUS_WRONG_TABLE_LENGTH = 24,   /* the table hasn't VBUS_SLAVES entries */
    VBUS_QUEUE_TOO_LONG = 25        /* more than VBUS_MAX_STREAM bytes to be queued */
};

/* A record is this and a payload: 4 bytes a frame in a packet (0 to 127 frames); 6 bytes in a datagram (2 of
 * parameter, 4 of value); 7 bytes a frame in a telegram, whose command says in bits 5 and 6 how many frames there
 * are (0 to 3). A telegram's command is one byte, 0 to 0x7F. */
typedef struct {
    uint8_t version; /* enum vbus_stream_version */
    uint16_t destination, source, command;
} vbus_header;

typedef struct {
    uint8_t verdict; /* enum vbus_verdict */
    size_t offset;
    size_t unused_septets; /* blocks of a whole stream that have unused septet bits set */
} vbus_validation;

typedef struct {
    uint32_t number;
    bool found;
    uint64_t position; /* of the stream's 0xAA, counted from the input's first byte, wherever the search began */
    size_t length; /* bytes of the stream */
    vbus_header header;
    size_t payload_length; /* bytes written to the payload buffer */
} vbus_found;

typedef struct {
    bool found;
    size_t place; /* where the 0xAA stands in the input */
    uint8_t verdict; /* enum vbus_verdict */
    size_t offset; /* counted from the 0xAA */
    bool has_byte;
    uint8_t byte; /* found at the offset */
    bool has_wanted;
    uint8_t wanted; /* the right checksum at the offset */
} vbus_fault;

/* A receiver between two calls, with its memory. All zero bytes are a fresh one. */
typedef struct {
    size_t held; /* bytes of a stream that isn't complete, at the start of the memory */
    uint64_t position; /* bytes used so far: the position that the next byte has */
} vbus_receiver;

typedef struct {
    uint32_t number;
    bool found;
    size_t used; /* bytes of the chunk that were used */
    uint64_t position; /* of the stream's 0xAA among all bytes used, counted as the receiver's position is */
    size_t length; /* bytes of the stream */
    vbus_header header;
    size_t payload_length; /* bytes written to the payload buffer */
    vbus_receiver receiver; /* to hand over with the next call */
} vbus_received;

typedef struct {
    uint32_t number;
    size_t length; /* bytes written */
} vbus_written;

typedef struct {
    uint32_t number;
    size_t count;
} vbus_count;

typedef struct {
    uint32_t number;
    size_t start, length; /* bytes start to start + length - 1 of the payload handed in */
} vbus_part;

typedef struct {
    uint32_t number;
    uint8_t bytes[7];
    size_t length;
    uint8_t septet;
} vbus_septets;

typedef struct {
    uint32_t number;
    uint32_t product, device; /* identifiers of 24 bits */
    uint8_t week; /* of production, 0 to 127: device / 131072 */
    uint32_t serial; /* consecutive number, 0 to 131071: device % 131072 */
} vbus_slave_id;

/* An entry of a table of slaves. It is free exactly if its address is 0; it is nobody's then, whatever `owner` says. */
typedef struct {
    uint16_t address;
    bool owner; /* which of the table's two owners it is of */
    uint32_t product, device; /* identifiers of 24 bits */
} vbus_slave;

typedef struct {
    uint32_t number;
    uint32_t product, device; /* those of the entry */
} vbus_slave_found;

/* What is kept with a table of slaves, so that no call counts. All zero bytes are those of an empty table. */
typedef struct {
    uint8_t no, yes; /* entries that the owners false and true hold */
    uint8_t lowest; /* index of the lowest free entry, VBUS_SLAVES if none is free */
} vbus_figures;

typedef struct {
    uint32_t number;
    vbus_figures figures; /* to hand over with the next call */
} vbus_slave_kept;

typedef struct {
    uint32_t number;
    bool right; /* the figures are the table's */
} vbus_figures_checked;

/* A sender's energy, in any unit: only the ratios of the three numbers matter. */
typedef struct {
    uint32_t max_energy; /* the most that may be used before the sender has to wait; 0 switches energy keeping off */
    uint32_t loss_per_byte; /* what a byte sent uses of it */
    uint32_t gain_per_microsecond; /* what a microsecond of waiting gives back */
} vbus_sender_settings;

/* A sender between two calls, with its queue. Made by vbus_sender_start. */
typedef struct {
    vbus_sender_settings settings;
    uint32_t energy; /* below the largest while it waits */
    size_t queued, sent; /* bytes queued, and how many of these were handed out */
} vbus_sender;

typedef struct {
    uint32_t number;
    size_t length; /* bytes handed out by vbus_sender_transmit, else 0 */
    vbus_sender sender; /* to hand over with the next call; not that of a refused vbus_sender_start */
} vbus_sent;

/* The checksum of n bytes: 0x7F less each byte, the low seven bits kept. Of no bytes it is 0x7F. */
uint8_t vbus_checksum(const uint8_t *bytes, size_t n);

/* Takes the top bits out of the first `length` bytes: bit i of the answer's septet is the top bit of byte i, which is
 * clear in the answer's bytes. The answer's bytes from `length` on are 0. `length` is the length handed in.
 *   VBUS_WRONG_SEPTET_BLOCK (7): length is above 7 */
vbus_septets vbus_extract(const uint8_t bytes[7], size_t length);

/* Puts the top bits back: byte i of the answer is byte i with bit i of the septet as its top bit. The answer's bytes
 * from `length` on are 0. `length` is the length handed in, `septet` is 0: its bits are back in the bytes. Unused bits,
 * those at or above `length`, are ignored.
 *   VBUS_WRONG_SEPTET_BLOCK (7): length is above 7, or one of the first `length` bytes or the septet is 0x80 or more */
vbus_septets vbus_inject(const uint8_t bytes[7], size_t length, uint8_t septet);

/* Verdicts on a stream. The offset is that of the wrong byte; where a checksum is wrong, the checksum's. 5 is no longer
 * given: it stood for an unused septet bit that is set. */
enum vbus_verdict {
    VBUS_VERDICT_WHOLE = 0,           /* a whole stream; the offset is its length, and what follows isn't looked at */
    VBUS_VERDICT_NO_SYNC = 1,         /* the byte at offset 0 isn't 0xAA */
    VBUS_VERDICT_HIGH_BYTE = 2,       /* a byte of 0x80 or more at a later offset */
    VBUS_VERDICT_UNKNOWN_VERSION = 3, /* the version, at offset 5, is none of those above */
    VBUS_VERDICT_HEADER_CHECKSUM = 4, /* wrong checksum of a packet's or telegram's header, or of a datagram */
    VBUS_VERDICT_FRAME_CHECKSUM = 6,  /* wrong checksum of a frame */
    VBUS_VERDICT_ENDED = 7            /* the input ends before the stream does; the offset is n */
};

/* Looks at the stream that begins at the first byte. Gives the fault at the lowest offset, of two there the one with
 * the lower number, or VBUS_VERDICT_WHOLE. Of a whole stream `unused_septets` counts the blocks (frames, or the one
 * block of a datagram) that have unused septet bits set; with a fault it is 0. */
vbus_validation vbus_validate(const uint8_t *input, size_t n);

/* Finds the first whole stream (VBUS_VERDICT_WHOLE) that begins at `start` or later, and reads its record. To read a
 * whole recording call again from position + length. Where there is none `found` is false and every other field 0.
 * Where found, the record's payload stands at the start of `payload`; the bytes behind it stay. Where there is none
 * `payload` stays as it was. A room of VBUS_MAX_PAYLOAD always suffices.
 *   VBUS_START_PAST_END (6): start is above n (start == n is fine: there is none)
 *   VBUS_OUTPUT_TOO_SHORT (5): room is less than the payload of the stream found */
vbus_found vbus_next(const uint8_t *input, size_t n, size_t start, uint8_t *payload, size_t room);

/* Finds the first 0xAA at `start` or later that gave no record, and says why: `verdict` and `offset` are those that
 * vbus_validate gives of the bytes from there to the input's end. The bytes before the offset could still have grown
 * into a whole stream; with the byte found at the offset, `byte`, they no longer can. Where it is 0xAA, the stream was
 * cut off by a new one. `has_byte` is false, and `byte` 0, exactly for VBUS_VERDICT_ENDED: all the bytes that there are
 * could have grown on. `has_wanted` is true exactly for VBUS_VERDICT_HEADER_CHECKSUM and VBUS_VERDICT_FRAME_CHECKSUM;
 * `wanted` is then the checksum that would have been right at the offset, else 0.
 * To read a whole recording call again from place + 1; all these calls together take time linear in n. Where there is
 * none, also where start is n or above, `found` is false and every other field 0. */
vbus_fault vbus_next_fault(const uint8_t *input, size_t n, size_t start);

/* Takes in bytes as they arrive, a chunk at a time, cut anyhow and possibly empty, up to the byte that completes a whole
 * stream, and reads its record; with no such byte it takes in all of them. A stream that is shorter than it announces
 * is kept in `memory` for the next call, which gets the same memory and the answer's receiver; the caller leaves both
 * alone. Behind the bytes held, `memory` may hold anything.
 * Where found, `used` counts up to the stream's last byte: hand the rest of the chunk over in the next call. The payload
 * stands at the start of `payload`; the bytes behind it stay. Where there is none, `used` is n, `payload` stays as it
 * was, and `position`, `length`, `header` and `payload_length` are 0. Either way the receiver's position grows by `used`.
 * A recording, fed to a fresh receiver until it is used up, gives just the records that vbus_next finds in it, with
 * their positions. Whatever receiver and memory are handed in, nothing is delivered but a whole stream that ends with
 * the last byte used. A receiver that holds 0 bytes may be given any position to count on from.
 *   VBUS_OUTPUT_TOO_SHORT (5): room is less than VBUS_MAX_PAYLOAD, whatever this chunk brings; nothing is used
 *   VBUS_POSITION_OVERFLOW (12): the receiver's position and n make more than UINT64_MAX; nothing is used. From 0 on the
 *     bus, at 960 bytes a second, takes 600 million years to get there */
vbus_received vbus_receive(vbus_receiver receiver, uint8_t memory[VBUS_MAX_STREAM], const uint8_t *chunk, size_t n,
                           uint8_t *payload, size_t room);

/* Forgets the unfinished stream, and only that: what follows is received as by a fresh receiver, but that the positions
 * go on, up to VBUS_POSITION_OVERFLOW. */
vbus_receiver vbus_reset(vbus_receiver receiver);

/* Writes a record's stream to the start of `out`; the bytes behind it stay. A packet needs 10 bytes and 6 a frame, a
 * datagram 16, a telegram 8 and 9 a frame. A room of VBUS_MAX_STREAM always suffices.
 *   VBUS_UNKNOWN_VERSION (1): version is none of VBUS_PACKET, VBUS_DATAGRAM, VBUS_TELEGRAM, VBUS_TELEGRAM_31
 *   VBUS_HIGH_ADDRESS (2): bit 7 or bit 15 of the destination or the source is set
 *   VBUS_HIGH_COMMAND (3): packet or datagram: bit 7 or bit 15 of the command is set; telegram: it is above 0x7F
 *   VBUS_WRONG_LENGTH (4): n isn't the record's payload length: packet a multiple of 4 up to 508, datagram 6, telegram
 *     7 a frame
 *   VBUS_OUTPUT_TOO_SHORT (5): room is less than the stream's length */
vbus_written vbus_encode(vbus_header header, const uint8_t *payload, size_t n, uint8_t *out, size_t room);

/* Writes the streams of all records of a recording, in their order and with nothing between them, to the start of
 * `out`; the bytes behind them stay. It never needs more room than n. They are the streams that vbus_encode writes:
 * unused septet bits are 0 in them, and the checksums are those of the bytes written.
 *   VBUS_OUTPUT_TOO_SHORT (5): room is less than the length of all those streams */
vbus_written vbus_normalize(const uint8_t *input, size_t n, uint8_t *out, size_t room);

/* A datagram's value: the last four payload bytes, low byte first, as a signed number. */
int32_t vbus_value(const uint8_t payload[6]);

/*
 * Sections of a block packet (version 0x10, destination 0x0015, command 0x0100; the source is free). A section is a
 * header of 4 bytes (payload frames f, type, two reserved bytes) and 4f bytes. Sections and elements count from 0.
 * Elements have 2 bytes in type 0x01 (temperatures), 4 in 0x05 (heat quantities), 1 in 0x08 (relay speeds), 8 in
 * 0x0A (smart display), 4 in 0x0B, 0x0C and 0x0D (masks). Elements that are counted fill their section: no byte is
 * left over. A section of type 0x0A with an odd number of frames ends within an element: vbus_section finds it, and its
 * elements are refused.
 * The refusals, of which each function names its own:
 *   VBUS_NOT_BLOCK_PACKET (8): the header isn't a block packet's, or n isn't a multiple of 4 or is above 508
 *   VBUS_SECTION_PAST_END (9): some section, whichever is asked for, runs past the payload's end
 *   VBUS_NO_SUCH_PART (10) for the section: there is none with that number
 *   VBUS_UNKNOWN_SECTION_TYPE (11): the section's type isn't one of those above
 *   VBUS_PARTIAL_ELEMENT (13): the section has type 0x0A and an odd number of frames
 *   VBUS_NO_SUCH_PART (10) for the element: the section has none with that number
 */

/* How many sections the payload has. An empty payload has none.
 *   VBUS_NOT_BLOCK_PACKET (8), VBUS_SECTION_PAST_END (9) */
vbus_count vbus_section_count(vbus_header header, const uint8_t *payload, size_t n);

/* Where a section is, its header and its payload.
 *   VBUS_NOT_BLOCK_PACKET (8), VBUS_SECTION_PAST_END (9), VBUS_NO_SUCH_PART (10) for the section */
vbus_part vbus_section(vbus_header header, const uint8_t *payload, size_t n, size_t section);

/* How many elements a section has.
 *   VBUS_NOT_BLOCK_PACKET (8), VBUS_SECTION_PAST_END (9), VBUS_NO_SUCH_PART (10) for the section,
 *   VBUS_UNKNOWN_SECTION_TYPE (11), VBUS_PARTIAL_ELEMENT (13) */
vbus_count vbus_element_count(vbus_header header, const uint8_t *payload, size_t n, size_t section);

/* Where an element is.
 *   VBUS_NOT_BLOCK_PACKET (8), VBUS_SECTION_PAST_END (9), VBUS_NO_SUCH_PART (10) for the section,
 *   VBUS_UNKNOWN_SECTION_TYPE (11), VBUS_PARTIAL_ELEMENT (13), VBUS_NO_SUCH_PART (10) for the element */
vbus_part vbus_element(vbus_header header, const uint8_t *payload, size_t n, size_t section, size_t element);

/* A temperature: an element's two bytes in a section of type 0x01, low byte first, as a signed number. They stand at
 * payload + start of vbus_element's answer. */
int16_t vbus_temperature(const uint8_t bytes[2]);

/*
 * Slaves. A slave answers a request for its identity with a slave ID response: a telegram with command 0x23, whose seven
 * payload bytes are the product identifier, the device identifier, both of 24 bits and low byte first, and a 0.
 */

/* Reads the slave ID response that a record is: version VBUS_TELEGRAM or VBUS_TELEGRAM_31, any destination and source.
 *   VBUS_NOT_SLAVE_ID (18): the record isn't such a telegram, or its seventh payload byte isn't 0 */
vbus_slave_id vbus_read_slave_id(vbus_header header, const uint8_t *payload, size_t n);

/* Writes the stream of a slave ID response, with version VBUS_TELEGRAM, to the start of `out`; the bytes behind it stay.
 * It needs 17 bytes.
 *   VBUS_NOT_SLAVE_ID (18): product or device is above 0xFFFFFF
 *   VBUS_HIGH_ADDRESS (2): bit 7 or bit 15 of the destination or the source is set
 *   VBUS_OUTPUT_TOO_SHORT (5): room is less than 17 */
vbus_written vbus_write_slave_id(uint16_t destination, uint16_t source, uint32_t product, uint32_t device, uint8_t *out,
                                 size_t room);

/*
 * A table of slaves is an array of VBUS_SLAVES entries of the caller's; all zero bytes are an empty one. Any n but
 * VBUS_SLAVES is refused, and then nothing of the table is read or written, whatever n says. Each call changes at most
 * the one entry that it names, and after a refusal every entry is what it was. Compare entries field by field: the byte
 * between the fields may hold anything.
 *
 * Two owners use the table, false and true: two plants, say, whose buses end in one box. An entry that isn't free is of
 * the owner that it names. A call is about one owner, and finds, changes and removes that owner's entries alone, so that
 * both may have a slave with the same address. Calls never make an address stand in two entries of an owner; in a table
 * brought in that has one twice, the owner's entry with the lower index counts.
 *
 * Figures. With each table goes a vbus_figures of its own, which the caller keeps: zeroed with the empty table, handed
 * over to vbus_slave_enter and vbus_slave_remove, and replaced by what these answer. vbus_slave_find and
 * vbus_slave_change_address neither need nor change figures. From true ones, those that counting the table gives, each
 * call, a refused one too, leaves true ones. They can become false where the caller writes an address or an owner into
 * the table by itself, drops figures that came back, or hands over those of another table.
 * With figures that aren't true nothing goes out of range, a slave still goes into a free entry, and a refusal still
 * changes nothing; only these may differ: whether a slave is refused as VBUS_TABLE_FULL, which free entry it goes into,
 * and the figures afterwards. A table brought in with its figures, from flash say, is therefore checked with
 * vbus_slave_check_figures. One without, or with false ones, is counted:
 *
 *     vbus_figures figures = {0, 0, VBUS_SLAVES};
 *     for (size_t i = VBUS_SLAVES; i-- > 0;) {
 *         if (table[i].address == 0) figures.lowest = (uint8_t)i;
 *         else if (table[i].owner) figures.yes++;
 *         else figures.no++;
 *     }
 *
 * With true figures an owner may hold VBUS_SLAVES_PER_OWNER entries; one that was brought in with more keeps them, and
 * gets a further one only when it holds fewer than that. In a table that was empty, and that these calls alone have
 * changed with its figures handed on from call to call, an owner with fewer than 8 entries is never refused as
 * VBUS_TABLE_FULL: its neighbour can't hold all the rest. Whether one with 8 to 23 is refused so is all that depends on
 * the neighbour: after the same calls, of which the same were refused so, an owner finds the same and meets the same
 * other refusals, whatever its neighbour does.
 *
 * The refusals, of which each function names its own; `number`, or the number that is answered, is 0 where there is none:
 *   VBUS_WRONG_TABLE_LENGTH (24): n isn't VBUS_SLAVES
 *   VBUS_NOT_SLAVE_ADDRESS (14): bits 14 to 12 of the (new) address aren't 2, bit 7 or 15 is set, or bits 11 to 4 are all
 *     0. A slave has 0x2010 to 0x201F, for example, or 0x2100, and none below 0x2010 or above 0x2F7F
 *   VBUS_NOT_SLAVE_ID (18): product or device is above 0xFFFFFF
 *   VBUS_ADDRESS_TAKEN (15): an entry of the owner has the (new) address
 *   VBUS_TABLE_FULL (16): the owner holds VBUS_SLAVES_PER_OWNER entries or more, or no entry of the table is free, by the
 *     figures: the owner's is VBUS_SLAVES_PER_OWNER or more, or no entry from index `lowest` on is free
 *   VBUS_NO_SUCH_ADDRESS (17): no entry of the owner has the (old) address, or it is 0
 */

/* Enters a slave, for the owner that it names, as the free entry with the lowest index, which is sought from `lowest` on.
 * Afterwards the owner's figure is one more, and `lowest` the free entry that comes next, VBUS_SLAVES if none does. After
 * a refusal the figures are those handed in.
 *   VBUS_WRONG_TABLE_LENGTH (24), VBUS_NOT_SLAVE_ADDRESS (14), VBUS_NOT_SLAVE_ID (18), VBUS_ADDRESS_TAKEN (15),
 *   VBUS_TABLE_FULL (16) */
vbus_slave_kept vbus_slave_enter(vbus_slave *table, size_t n, vbus_figures figures, vbus_slave slave);

/* The identifiers of the owner's slave with an address.
 *   VBUS_WRONG_TABLE_LENGTH (24), VBUS_NO_SUCH_ADDRESS (17) */
vbus_slave_found vbus_slave_find(const vbus_slave *table, size_t n, bool owner, uint16_t address);

/* Gives the owner's slave with address `from` the address `to`; it keeps its owner and its identifiers, and its entry, so
 * that the table's figures stay. To the address that it has, it succeeds and changes nothing.
 *   VBUS_WRONG_TABLE_LENGTH (24), VBUS_NOT_SLAVE_ADDRESS (14) for `to`, VBUS_NO_SUCH_ADDRESS (17) for `from`,
 *   VBUS_ADDRESS_TAKEN (15) for `to`, unless it is `from` */
uint32_t vbus_slave_change_address(vbus_slave *table, size_t n, bool owner, uint16_t from, uint16_t to);

/* Removes the owner's slave with an address: every field of its entry is 0 afterwards, so its owner false. The owner's
 * figure is one less, or 0 if it was 0, and `lowest` becomes the index of that entry if that is lower. After a refusal
 * the figures are those handed in.
 *   VBUS_WRONG_TABLE_LENGTH (24), VBUS_NO_SUCH_ADDRESS (17) */
vbus_slave_kept vbus_slave_remove(vbus_slave *table, size_t n, vbus_figures figures, bool owner, uint16_t address);

/* Whether the figures are those that counting the table gives, all three of them. `right` is false in a refusal.
 *   VBUS_WRONG_TABLE_LENGTH (24) */
vbus_figures_checked vbus_slave_check_figures(const vbus_slave *table, size_t n, vbus_figures figures);

/*
 * Sending. The bus carries energy as well as bytes, and sending bytes disrupts carrying energy, so not too many may go at
 * once. A sender keeps account of that. It is full at first. Of the bytes queued, a full sender hands out as many as its
 * largest energy pays for (a portion); then it waits until it is full again, after the last portion too, and goes on or
 * is idle. It has no clock: time is what vbus_sender_wait tells it. A portion has max_energy / loss_per_byte bytes,
 * rounded down, and the last one what is left; after one of n bytes it waits for n * loss_per_byte /
 * gain_per_microsecond microseconds, rounded up. With a largest energy of 0 all bytes are one portion, and it never waits.
 *
 * How to choose the settings. Let gain_per_microsecond be 1: energy is then counted in microseconds of waiting. Let
 * loss_per_byte be the microseconds that the bus needs to make good a byte: 1,042 if it regains energy as fast as it
 * loses it, since a byte takes that long (10 bits at 9,600 a second). Let max_energy be loss_per_byte times the bytes
 * that may go at once: as many as the devices on the bus can go without energy for. A greater gain, with the other two
 * as many times as great, is for losses that aren't whole microseconds. README.md has a table of how long the longest
 * packet takes.
 *
 * A loop that sends, where `portion` has VBUS_MAX_STREAM bytes and `sent` is the answer of vbus_sender_enqueue:
 *
 *     while (!vbus_sender_is_idle(sent.sender)) {
 *         sent = vbus_sender_transmit(sent.sender, queue, portion, sizeof portion);
 *         if (sent.length > 0) write_port(portion, sent.length); // comes back when the last bit is out
 *         sent = vbus_sender_wait(sent.sender, rest()); // sleeps, and tells for how many microseconds
 *     }
 *
 * Any sender and queue may be handed in, also one that no calls lead to: nothing beyond the queue is read, whatever the
 * sender says. It waits exactly if its energy is below its largest; of its bytes, those from index `sent` up to `queued`
 * are to be sent, as far as they stand in the queue. Between calls the caller leaves a sender and its queue alone.
 *
 * The refusals, of which each function names its own:
 *   VBUS_WRONG_SETTINGS (19): max_energy isn't 0, and loss_per_byte is 0, gain_per_microsecond is 0, or loss_per_byte is
 *     above max_energy
 *   VBUS_SENDER_BUSY (20): vbus_sender_is_idle says no
 *   VBUS_QUEUE_TOO_LONG (25): n is above VBUS_MAX_STREAM
 *   VBUS_OUTPUT_TOO_SHORT (5): room is less than the portion that would be handed out
 */

/* A full sender with nothing queued. Look at the number: the sender of a refused answer is all zero, which is one with
 * energy keeping switched off, so that it would send everything at once.
 *   VBUS_WRONG_SETTINGS (19) */
vbus_sent vbus_sender_start(vbus_sender_settings settings);

/* Queues n bytes, a stream say: they stand at the start of `queue` then, and the bytes behind them stay. With no bytes
 * the sender stays idle.
 *   VBUS_WRONG_SETTINGS (19), VBUS_SENDER_BUSY (20), VBUS_QUEUE_TOO_LONG (25) */
vbus_sent vbus_sender_enqueue(vbus_sender sender, uint8_t queue[VBUS_MAX_STREAM], const uint8_t *bytes, size_t n);

/* Hands out the next portion, if the sender is full and has bytes to send: `length` of them stand at the start of `out`,
 * the bytes behind them stay, and the sender waits, unless energy keeping is off. Otherwise `length` is 0, and sender and
 * `out` stay as they were. A room of VBUS_MAX_STREAM always suffices.
 *   VBUS_WRONG_SETTINGS (19), VBUS_OUTPUT_TOO_SHORT (5) */
vbus_sent vbus_sender_transmit(vbus_sender sender, const uint8_t queue[VBUS_MAX_STREAM], uint8_t *out, size_t room);

/* Tells the sender how much time has passed since the portion's last bit was out, or since it was told last. While it
 * waits, its energy grows by that times the gain, at most to the largest. While it doesn't wait, nothing changes: such
 * time doesn't count. Any number of microseconds may be told; rounded down, no byte goes early.
 *   VBUS_WRONG_SETTINGS (19) */
vbus_sent vbus_sender_wait(vbus_sender sender, uint64_t microseconds);

/* Whether it has nothing to send and doesn't wait. */
bool vbus_sender_is_idle(vbus_sender sender);

/* The energy left: what the last portion has left of the largest, and what was regained since, at most the largest; 0
 * with a largest of 0. It still waits for max_energy less this, divided by gain_per_microsecond and rounded up,
 * microseconds. */
uint32_t vbus_sender_energy(vbus_sender sender);

#ifdef __cplusplus
}
#endif

#endif
