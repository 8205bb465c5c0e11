//! The exports of `libvbus.a`, as `include/vbus.h` declares and explains them. The crate `vbus`
//! makes safe calls of them.
//!
//! The archive is taken from the folder that the environment variable `VBUS_LIB_DIR` names at
//! build time, else from `target/staticlib` at the repository's top, where `./build vbus` puts it.
//!
//! An answer's `number` is 0, or that of a refusal; every other field of a refused answer is 0, but
//! a receiver, the figures of a table and a sender that was handed in, which come back as they were.
//! `vbus_slave_change_address` answers the number alone.
//!
//! # Safety
//!
//! A pointer must be valid for as many bytes, or entries of a table, as the count beside it says (an
//! array's for its length), for reading where const, for writing where mut, and a receiver's memory
//! and a table for both; a table's must be aligned, and the owners in it bools: 0 or 1 as bytes. With
//! count 0 it may be anything, null too. What is written must not overlap another buffer of the call.
//! Nothing else is asked: any number may be passed, also within a receiver or a sender, beyond whose
//! memory or queue nothing is read or written.

#![no_std]
#![deny(missing_docs)]

/// The entries of a table of slaves. Any other count is refused.
pub const SLAVES: usize = 32;

/// How many entries one of the two owners of a table may hold at most.
pub const SLAVES_PER_OWNER: usize = 24;

/// Everything of a record but its payload.
#[repr(C)]
#[derive(Clone, Copy, PartialEq, Eq, Debug, Default)]
pub struct Header {
    /// 0x10 for a packet, 0x20 for a datagram, 0x30 or 0x31 for a telegram.
    pub version: u8,
    /// The address of the receiver.
    pub destination: u16,
    /// The address of the sender.
    pub source: u16,
    /// What is asked or told.
    pub command: u16,
}

/// What is wrong with a stretch of bytes, and where.
#[repr(C)]
#[derive(Clone, Copy, PartialEq, Eq, Debug, Default)]
pub struct Validation {
    /// 0 for a whole stream, else the number of the fault.
    pub verdict: u8,
    /// The offset of the fault, or the length of the stream.
    pub offset: usize,
    /// How many blocks of a whole stream have unused septet bits set.
    pub unused_septets: usize,
}

/// A record and where its stream lies.
#[repr(C)]
#[derive(Clone, Copy, PartialEq, Eq, Debug, Default)]
pub struct Found {
    /// 0, or the number of the refusal.
    pub number: u32,
    /// Whether there is a record.
    pub found: bool,
    /// The position of its 0xAA, counted from the input's start.
    pub position: u64,
    /// The length of its stream.
    pub length: usize,
    /// The record but for its payload.
    pub header: Header,
    /// Bytes written to the payload's buffer.
    pub payload_length: usize,
}

/// A 0xAA that gave no record, and why.
#[repr(C)]
#[derive(Clone, Copy, PartialEq, Eq, Debug, Default)]
pub struct Fault {
    /// Whether there is one.
    pub found: bool,
    /// Where the 0xAA stands.
    pub place: usize,
    /// The number of the fault.
    pub verdict: u8,
    /// The offset of the fault, counted from the 0xAA.
    pub offset: usize,
    /// Whether there is a byte at the offset, which isn't so where the input ended first.
    pub has_byte: bool,
    /// The byte at the offset.
    pub byte: u8,
    /// Whether a byte is wanted: exactly for a wrong checksum's verdicts, 4 and 6.
    pub has_wanted: bool,
    /// The checksum that would have been right at the offset.
    pub wanted: u8,
}

/// A receiver between two calls, with its memory. The default is a fresh one.
#[repr(C)]
#[derive(Clone, Copy, PartialEq, Eq, Debug, Default)]
pub struct Receiver {
    /// Bytes of an unfinished stream, at the start of the memory.
    pub held: usize,
    /// Bytes used so far.
    pub position: u64,
}

/// What a chunk brought.
#[repr(C)]
#[derive(Clone, Copy, PartialEq, Eq, Debug, Default)]
pub struct Received {
    /// 0, or the number of the refusal.
    pub number: u32,
    /// Whether there is a record.
    pub found: bool,
    /// Bytes of the chunk that were used.
    pub used: usize,
    /// The position of the record's 0xAA among all bytes used.
    pub position: u64,
    /// The length of the record's stream.
    pub length: usize,
    /// The record but for its payload.
    pub header: Header,
    /// Bytes written to the payload's buffer.
    pub payload_length: usize,
    /// To hand over with the next call.
    pub receiver: Receiver,
}

/// How much was written.
#[repr(C)]
#[derive(Clone, Copy, PartialEq, Eq, Debug, Default)]
pub struct Written {
    /// 0, or the number of the refusal.
    pub number: u32,
    /// Bytes written.
    pub length: usize,
}

/// How many there are.
#[repr(C)]
#[derive(Clone, Copy, PartialEq, Eq, Debug, Default)]
pub struct Count {
    /// 0, or the number of the refusal.
    pub number: u32,
    /// How many there are.
    pub count: usize,
}

/// A part of a payload.
#[repr(C)]
#[derive(Clone, Copy, PartialEq, Eq, Debug, Default)]
pub struct Part {
    /// 0, or the number of the refusal.
    pub number: u32,
    /// Where the part starts.
    pub start: usize,
    /// Its length.
    pub length: usize,
}

/// A block of at most seven bytes and its septet.
#[repr(C)]
#[derive(Clone, Copy, PartialEq, Eq, Debug, Default)]
pub struct Septets {
    /// 0, or the number of the refusal.
    pub number: u32,
    /// The block; 0 behind its length.
    pub bytes: [u8; 7],
    /// The block's length.
    pub length: usize,
    /// The top bits that were taken out.
    pub septet: u8,
}

/// What a slave ID response tells.
#[repr(C)]
#[derive(Clone, Copy, PartialEq, Eq, Debug, Default)]
pub struct SlaveId {
    /// 0, or the number of the refusal.
    pub number: u32,
    /// The product identifier, of 24 bits.
    pub product: u32,
    /// The device identifier, of 24 bits.
    pub device: u32,
    /// The production week, 0 to 127: the device identifier divided by 131072.
    pub week: u8,
    /// The consecutive number, 0 to 131071: the remainder of that.
    pub serial: u32,
}

/// An entry of a table of slaves. It is free exactly if its address is 0, and nobody's then.
#[repr(C)]
#[derive(Clone, Copy, PartialEq, Eq, Debug, Default)]
pub struct Slave {
    /// The slave's address.
    pub address: u16,
    /// Which of the table's two owners it is of.
    pub owner: bool,
    /// The product identifier, of 24 bits.
    pub product: u32,
    /// The device identifier, of 24 bits.
    pub device: u32,
}

/// The identifiers of a slave that was found.
#[repr(C)]
#[derive(Clone, Copy, PartialEq, Eq, Debug, Default)]
pub struct SlaveFound {
    /// 0, or the number of the refusal.
    pub number: u32,
    /// The product identifier.
    pub product: u32,
    /// The device identifier.
    pub device: u32,
}

/// What is kept with a table of slaves. The default ones are those of an empty table.
#[repr(C)]
#[derive(Clone, Copy, PartialEq, Eq, Debug, Default)]
pub struct Figures {
    /// Entries that the owner `false` holds.
    pub no: u8,
    /// Entries that the owner `true` holds.
    pub yes: u8,
    /// The index of the lowest free entry, [`SLAVES`] if none is free.
    pub lowest: u8,
}

/// The number that a call answers which changes a table's figures, and the figures afterwards.
#[repr(C)]
#[derive(Clone, Copy, PartialEq, Eq, Debug, Default)]
pub struct SlaveKept {
    /// 0, or the number of the refusal.
    pub number: u32,
    /// To hand over with the next call.
    pub figures: Figures,
}

/// Whether figures are those of a table.
#[repr(C)]
#[derive(Clone, Copy, PartialEq, Eq, Debug, Default)]
pub struct FiguresChecked {
    /// 0, or the number of the refusal.
    pub number: u32,
    /// Whether they are.
    pub right: bool,
}

/// A sender's energy, in any unit: only the ratios of the three numbers matter.
#[repr(C)]
#[derive(Clone, Copy, PartialEq, Eq, Debug, Default)]
pub struct SenderSettings {
    /// The most that may be used before the sender has to wait; 0 switches energy keeping off.
    pub max_energy: u32,
    /// What a byte sent uses of it.
    pub loss_per_byte: u32,
    /// What a microsecond of waiting gives back.
    pub gain_per_microsecond: u32,
}

/// A sender between two calls, with its queue. The default is a full one with nothing queued and with
/// energy keeping switched off.
#[repr(C)]
#[derive(Clone, Copy, PartialEq, Eq, Debug, Default)]
pub struct Sender {
    /// What it was started with.
    pub settings: SenderSettings,
    /// The energy left: it waits exactly while that is below the largest.
    pub energy: u32,
    /// Bytes queued, at the start of the queue.
    pub queued: usize,
    /// How many of these were handed out.
    pub sent: usize,
}

/// What a call did, and the sender afterwards.
#[repr(C)]
#[derive(Clone, Copy, PartialEq, Eq, Debug, Default)]
pub struct Sent {
    /// 0, or the number of the refusal.
    pub number: u32,
    /// Bytes handed out by `vbus_sender_transmit`, else 0.
    pub length: usize,
    /// To hand over with the next call; not that of a refused `vbus_sender_start`, which is all zero.
    pub sender: Sender,
}

extern "C" {
    /// The checksum of a block.
    pub fn vbus_checksum(bytes: *const u8, n: usize) -> u8;

    /// Takes the top bits out of a block.
    pub fn vbus_extract(bytes: *const [u8; 7], length: usize) -> Septets;

    /// Puts the top bits back into a block.
    pub fn vbus_inject(bytes: *const [u8; 7], length: usize, septet: u8) -> Septets;

    /// Whether the stream at the input's start is whole, or its first fault.
    pub fn vbus_validate(input: *const u8, n: usize) -> Validation;

    /// The first record at `start` or later; its payload goes to `payload`.
    pub fn vbus_next(
        input: *const u8,
        n: usize,
        start: usize,
        payload: *mut u8,
        room: usize,
    ) -> Found;

    /// The first 0xAA at `start` or later that gave no record, and why.
    pub fn vbus_next_fault(input: *const u8, n: usize, start: usize) -> Fault;

    /// Takes in a chunk up to the end of the first record; its payload goes to `payload`.
    pub fn vbus_receive(
        receiver: Receiver,
        memory: *mut [u8; 772],
        chunk: *const u8,
        n: usize,
        payload: *mut u8,
        room: usize,
    ) -> Received;

    /// Forgets the unfinished stream; the position stays.
    pub fn vbus_reset(receiver: Receiver) -> Receiver;

    /// Writes a record's stream.
    pub fn vbus_encode(
        header: Header,
        payload: *const u8,
        n: usize,
        out: *mut u8,
        room: usize,
    ) -> Written;

    /// Writes the streams of all records of a recording.
    pub fn vbus_normalize(input: *const u8, n: usize, out: *mut u8, room: usize) -> Written;

    /// A datagram's value.
    pub fn vbus_value(payload: *const [u8; 6]) -> i32;

    /// A temperature of a block packet's section.
    pub fn vbus_temperature(bytes: *const [u8; 2]) -> i16;

    /// How many sections a block packet has.
    pub fn vbus_section_count(header: Header, payload: *const u8, n: usize) -> Count;

    /// Where a section is.
    pub fn vbus_section(header: Header, payload: *const u8, n: usize, section: usize) -> Part;

    /// How many elements a section has.
    pub fn vbus_element_count(
        header: Header,
        payload: *const u8,
        n: usize,
        section: usize,
    ) -> Count;

    /// Where an element is.
    pub fn vbus_element(
        header: Header,
        payload: *const u8,
        n: usize,
        section: usize,
        element: usize,
    ) -> Part;

    /// Reads the slave ID response that a record is.
    pub fn vbus_read_slave_id(header: Header, payload: *const u8, n: usize) -> SlaveId;

    /// Writes the stream of a slave ID response.
    pub fn vbus_write_slave_id(
        destination: u16,
        source: u16,
        product: u32,
        device: u32,
        out: *mut u8,
        room: usize,
    ) -> Written;

    /// Enters a slave, for the owner that it names, as the lowest free entry from the figures' on.
    pub fn vbus_slave_enter(
        table: *mut Slave,
        n: usize,
        figures: Figures,
        slave: Slave,
    ) -> SlaveKept;

    /// The identifiers of the owner's slave with an address.
    pub fn vbus_slave_find(table: *const Slave, n: usize, owner: bool, address: u16) -> SlaveFound;

    /// Gives the owner's slave with address `from` the address `to`.
    pub fn vbus_slave_change_address(
        table: *mut Slave,
        n: usize,
        owner: bool,
        from: u16,
        to: u16,
    ) -> u32;

    /// Removes the owner's slave with an address.
    pub fn vbus_slave_remove(
        table: *mut Slave,
        n: usize,
        figures: Figures,
        owner: bool,
        address: u16,
    ) -> SlaveKept;

    /// Whether the figures are those that counting the table gives.
    pub fn vbus_slave_check_figures(
        table: *const Slave,
        n: usize,
        figures: Figures,
    ) -> FiguresChecked;

    /// A full sender with nothing queued. That of a refused answer is all zero, which is one with
    /// energy keeping switched off.
    pub fn vbus_sender_start(settings: SenderSettings) -> Sent;

    /// Queues bytes, if the sender is idle: they go to the start of `queue`.
    pub fn vbus_sender_enqueue(
        sender: Sender,
        queue: *mut [u8; 772],
        bytes: *const u8,
        n: usize,
    ) -> Sent;

    /// Hands out the next portion, if the sender is full and has bytes to send.
    pub fn vbus_sender_transmit(
        sender: Sender,
        queue: *const [u8; 772],
        out: *mut u8,
        room: usize,
    ) -> Sent;

    /// Tells the sender how much time has passed, which counts while it waits.
    pub fn vbus_sender_wait(sender: Sender, microseconds: u64) -> Sent;

    /// Whether the sender has nothing to send and doesn't wait.
    pub fn vbus_sender_is_idle(sender: Sender) -> bool;

    /// The energy left.
    pub fn vbus_sender_energy(sender: Sender) -> u32;
}
