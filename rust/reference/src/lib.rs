//! A second implementation of the VBus library, written from the specification alone.
//!
//! The differential tests compare the proved library with it, and the benchmarks measure against
//! it. It therefore shares no code with the library and follows the same interface: an answer
//! carries a `number`, 0 on success and else that of the refusal, and every other field of a refusal
//! is zero, but the figures of a table and a sender that was handed in, which come back as they were.

#![forbid(unsafe_code)]

mod faults;
mod receiver;
mod sender;
mod slaves;

pub use faults::{faults, line, next_fault, Fault};
pub use receiver::{Received, Receiver};
pub use sender::{
    sender_energy, sender_enqueue, sender_is_idle, sender_start, sender_transmit, sender_wait,
};
pub use sender::{Sender, SenderSettings, Sent};
pub use slaves::{
    figures_of, slave_check_figures, slave_enter_counting, slave_remove_counting, Figures,
    FiguresChecked, SlaveKept,
};
pub use slaves::{
    read_slave_id, slave_change_address, slave_enter, slave_find, slave_remove, write_slave_id,
};
pub use slaves::{Slave, SlaveFound, SlaveId};

/// Starts every stream, and occurs nowhere else in one.
const SYNC: u8 = 0xAA;

/// A packet has at most 127 frames of four bytes.
const MAX_PACKET_PAYLOAD: usize = 4 * 127;

/// No stream is longer than the packet with the most frames.
const MAX_STREAM: usize = 10 + 6 * 127;

const BAD_VERSION: u32 = 1;
const BAD_ADDRESS: u32 = 2;
const BAD_COMMAND: u32 = 3;
const BAD_PAYLOAD_LENGTH: u32 = 4;
const NO_ROOM: u32 = 5;
const BAD_START: u32 = 6;
const BAD_SEPTETS: u32 = 7;
const NOT_A_BLOCK_PACKET: u32 = 8;
const SECTION_TOO_LONG: u32 = 9;
const NO_SUCH_PART: u32 = 10;
const UNKNOWN_SECTION_TYPE: u32 = 11;
const TOO_MANY_BYTES: u32 = 12;
const PARTIAL_ELEMENT: u32 = 13;
const NOT_A_SLAVES_ADDRESS: u32 = 14;
const ADDRESS_IN_USE: u32 = 15;
const NO_ENTRY_LEFT: u32 = 16;
const NO_SUCH_ADDRESS: u32 = 17;
const NOT_A_SLAVE_ID: u32 = 18;
const BAD_SETTINGS: u32 = 19;
const NOT_IDLE: u32 = 20;
const BAD_TABLE_LENGTH: u32 = 24;
const TOO_MANY_TO_QUEUE: u32 = 25;

#[derive(Clone, Copy, PartialEq, Eq, Debug, Default)]
pub struct Header {
    pub version: u8,
    pub destination: u16,
    pub source: u16,
    pub command: u16,
}

#[derive(Clone, Copy, PartialEq, Eq, Debug, Default)]
pub struct Septets {
    pub number: u32,
    pub bytes: [u8; 7],
    pub length: usize,
    pub septet: u8,
}

/// Verdict 0 to 7, but never 5; the offset of the fault or, for 0, the stream's length; and how many
/// of the stream's blocks have unused septet bits, 0 unless the verdict is 0.
#[derive(Clone, Copy, PartialEq, Eq, Debug, Default)]
pub struct Validation {
    pub verdict: u8,
    pub offset: usize,
    pub unused_septets: usize,
}

/// If `found`, a record, with the position of its stream's 0xAA in the input.
#[derive(Clone, Copy, PartialEq, Eq, Debug, Default)]
pub struct Found {
    pub number: u32,
    pub found: bool,
    pub position: u64,
    pub length: usize,
    pub header: Header,
    pub payload_length: usize,
}

#[derive(Clone, Copy, PartialEq, Eq, Debug, Default)]
pub struct Written {
    pub number: u32,
    pub length: usize,
}

#[derive(Clone, Copy, PartialEq, Eq, Debug, Default)]
pub struct Count {
    pub number: u32,
    pub count: usize,
}

#[derive(Clone, Copy, PartialEq, Eq, Debug, Default)]
pub struct Part {
    pub number: u32,
    pub start: usize,
    pub length: usize,
}

// Checksums and septets

/// 0x7F less every byte, in seven bits.
#[inline]
pub fn checksum(block: &[u8]) -> u8 {
    // 256 is a multiple of 128, so the sum may wrap before the seven bits are taken.
    let sum = block.iter().fold(0u8, |sum, &byte| sum.wrapping_add(byte));
    0x7Fu8.wrapping_sub(sum) & 0x7F
}

/// Moves the top bits of the first `length` bytes into the septet.
pub fn extract(bytes: [u8; 7], length: usize) -> Septets {
    let Some(used) = bytes.get(..length) else {
        return Septets {
            number: BAD_SEPTETS,
            ..Septets::default()
        };
    };
    let mut answer = Septets {
        length,
        ..Septets::default()
    };
    answer.septet = take_top_bits(used, &mut answer.bytes[..length]);
    answer
}

/// Moves the septet's bits back into the first `length` bytes; the answer's septet is 0. Bits that
/// stand for no byte are ignored.
pub fn inject(bytes: [u8; 7], length: usize, septet: u8) -> Septets {
    let refused = Septets {
        number: BAD_SEPTETS,
        ..Septets::default()
    };
    let Some(used) = bytes.get(..length) else {
        return refused;
    };
    if used.iter().any(|&byte| byte >= 0x80) || septet >= 0x80 {
        return refused;
    }
    let mut answer = Septets {
        length,
        ..Septets::default()
    };
    put_top_bits(used, septet, &mut answer.bytes[..length]);
    answer
}

/// Writes `block` without its top bits, and returns those bits.
#[inline]
fn take_top_bits(block: &[u8], out: &mut [u8]) -> u8 {
    let mut septet = 0;
    for (i, (&byte, slot)) in block.iter().zip(out).enumerate() {
        *slot = byte & 0x7F;
        septet |= (byte >> 7) << i;
    }
    septet
}

/// Writes `block` with the septet's bits as its top bits.
#[inline]
fn put_top_bits(block: &[u8], septet: u8, out: &mut [u8]) {
    for (i, (&byte, slot)) in block.iter().zip(out).enumerate() {
        *slot = byte | ((septet >> i & 1) << 7);
    }
}

/// The septet of a block of `length` bytes has a bit set that stands for none of them.
#[inline]
fn has_unused_bits(septet: u8, length: usize) -> bool {
    septet >> length != 0
}

// Reading streams

#[derive(Clone, Copy, PartialEq, Eq)]
enum Kind {
    Packet,
    Datagram,
    Telegram,
}

impl Kind {
    #[inline]
    fn of(version: u8) -> Option<Kind> {
        match version {
            0x10 => Some(Kind::Packet),
            0x20 => Some(Kind::Datagram),
            0x30 | 0x31 => Some(Kind::Telegram),
            _ => None,
        }
    }
}

/// A telegram's command says how many frames follow.
#[inline]
fn telegram_frames(command: u8) -> usize {
    usize::from(command >> 5 & 3)
}

/// What `parse` learns of a valid stream.
#[derive(Clone, Copy)]
struct Stream {
    kind: Kind,
    length: usize,
    payload_length: usize,
    /// Some septet has unused bits.
    unused_bits: bool,
}

/// What is wrong with a stream, and where.
#[derive(Clone, Copy)]
struct FirstFault {
    verdict: u8,
    offset: usize,
}

type Parsed<T> = Result<T, FirstFault>;

#[inline]
fn fault<T>(verdict: u8, offset: usize) -> Parsed<T> {
    Err(FirstFault { verdict, offset })
}

/// Bytes `from..to` are there and below 0x80.
#[inline]
fn seven_bit(input: &[u8], from: usize, to: usize) -> Parsed<()> {
    match input.get(from..to) {
        Some(part) if part.iter().fold(0, |all, &byte| all | byte) < 0x80 => Ok(()),
        _ => seven_bit_fault(input, from),
    }
}

/// Either a byte of 0x80 or more at or after `from`, or the input's end.
#[cold]
fn seven_bit_fault(input: &[u8], from: usize) -> Parsed<()> {
    match input[from..].iter().position(|&byte| byte >= 0x80) {
        Some(i) => fault(2, from + i),
        None => fault(7, input.len()),
    }
}

/// A frame of `N` payload bytes, the septet and the checksum, at offset `at`; returns the septet.
#[inline]
fn parse_frame<const N: usize>(input: &[u8], at: usize) -> Parsed<u8> {
    if let Some(frame) = input.get(at..at + N + 2) {
        let all = frame.iter().fold(0, |all, &byte| all | byte);
        if all < 0x80 && frame[N + 1] == checksum(&frame[..N + 1]) {
            return Ok(frame[N]);
        }
    }
    frame_fault::<N>(input, at)
}

/// Names the first fault of a frame known to be faulty.
#[cold]
fn frame_fault<const N: usize>(input: &[u8], at: usize) -> Parsed<u8> {
    seven_bit(input, at, at + N + 2)?;
    fault(6, at + N + 1)
}

/// Every frame, or the first fault among them: where they end, and whether a septet has unused bits.
#[inline]
fn parse_frames<const N: usize>(
    input: &[u8],
    start: usize,
    frames: usize,
) -> Parsed<(usize, bool)> {
    let mut at = start;
    let mut septets = 0;
    for _ in 0..frames {
        septets |= parse_frame::<N>(input, at)?;
        at += N + 2;
    }
    Ok((at, has_unused_bits(septets, N)))
}

/// The stream at the start of `input`, or its first fault.
fn parse(input: &[u8]) -> Parsed<Stream> {
    match input.first() {
        None => return fault(7, 0),
        Some(&SYNC) => {}
        Some(_) => return fault(1, 0),
    }
    seven_bit(input, 1, 6)?;
    let Some(kind) = Kind::of(input[5]) else {
        return fault(3, 5);
    };
    let (payload_length, (length, unused_bits)) = match kind {
        Kind::Packet => {
            seven_bit(input, 6, 10)?;
            if input[9] != checksum(&input[1..9]) {
                return fault(4, 9);
            }
            let frames = usize::from(input[8]);
            (4 * frames, parse_frames::<4>(input, 10, frames)?)
        }
        Kind::Datagram => {
            seven_bit(input, 6, 16)?;
            if input[15] != checksum(&input[1..15]) {
                return fault(4, 15);
            }
            (6, (16, has_unused_bits(input[14], 6)))
        }
        Kind::Telegram => {
            seven_bit(input, 6, 8)?;
            if input[7] != checksum(&input[1..7]) {
                return fault(4, 7);
            }
            let frames = telegram_frames(input[6]);
            (7 * frames, parse_frames::<7>(input, 8, frames)?)
        }
    };
    Ok(Stream {
        kind,
        length,
        payload_length,
        unused_bits,
    })
}

/// Says whether `input` starts with a valid stream, and otherwise names its first fault.
pub fn validate(input: &[u8]) -> Validation {
    match parse(input) {
        Ok(stream) => Validation {
            verdict: 0,
            offset: stream.length,
            unused_septets: unused_septets(input, stream),
        },
        Err(FirstFault { verdict, offset }) => Validation {
            verdict,
            offset,
            unused_septets: 0,
        },
    }
}

/// How many blocks of the valid stream at the start of `input` have unused septet bits.
fn unused_septets(input: &[u8], stream: Stream) -> usize {
    if !stream.unused_bits {
        return 0;
    }
    match stream.kind {
        Kind::Packet => input[10..stream.length]
            .chunks_exact(6)
            .filter(|frame| has_unused_bits(frame[4], 4))
            .count(),
        // It is one block.
        Kind::Datagram => 1,
        // Its septets use all seven bits.
        Kind::Telegram => 0,
    }
}

/// The first valid stream at or after `start`, which is at most the input's length.
fn find(input: &[u8], start: usize) -> Option<(usize, Stream)> {
    let mut at = start;
    loop {
        at += input[at..].iter().position(|&byte| byte == SYNC)?;
        match parse(&input[at..]) {
            Ok(stream) => return Some((at, stream)),
            // The bytes between the first and the fault are below 0x80, so none of them starts a
            // stream. Resuming at the fault keeps the search linear.
            Err(fault) => at += fault.offset,
        }
    }
}

#[inline]
fn number_at(stream: &[u8], at: usize) -> u16 {
    u16::from_le_bytes([stream[at], stream[at + 1]])
}

fn header_of(stream: &[u8], kind: Kind) -> Header {
    Header {
        version: stream[5],
        destination: number_at(stream, 1),
        source: number_at(stream, 3),
        command: match kind {
            Kind::Telegram => u16::from(stream[6]),
            _ => number_at(stream, 6),
        },
    }
}

fn decode_payload(stream: &[u8], kind: Kind, payload: &mut [u8]) {
    match kind {
        Kind::Packet => decode_frames::<4>(&stream[10..], payload),
        Kind::Datagram => put_top_bits(&stream[8..14], stream[14], payload),
        Kind::Telegram => decode_frames::<7>(&stream[8..], payload),
    }
}

#[inline]
fn decode_frames<const N: usize>(frames: &[u8], payload: &mut [u8]) {
    for (frame, block) in frames.chunks_exact(N + 2).zip(payload.chunks_exact_mut(N)) {
        put_top_bits(&frame[..N], frame[N], block);
    }
}

/// The first valid stream at or after `start`; its payload goes to the start of `payload`.
pub fn next(input: &[u8], start: usize, payload: &mut [u8]) -> Found {
    let refused = |number| Found {
        number,
        ..Found::default()
    };
    if start > input.len() {
        return refused(BAD_START);
    }
    let Some((position, stream)) = find(input, start) else {
        return Found::default();
    };
    let Some(room) = payload.get_mut(..stream.payload_length) else {
        return refused(NO_ROOM);
    };
    let bytes = &input[position..position + stream.length];
    decode_payload(bytes, stream.kind, room);
    Found {
        number: 0,
        found: true,
        position: position as u64,
        length: stream.length,
        header: header_of(bytes, stream.kind),
        payload_length: stream.payload_length,
    }
}

// Writing streams

/// The record's kind and the length of its stream, or the number of the refusal.
fn plan(header: Header, payload: &[u8]) -> Result<(Kind, usize), u32> {
    let kind = Kind::of(header.version).ok_or(BAD_VERSION)?;
    if (header.destination | header.source) & 0x8080 != 0 {
        return Err(BAD_ADDRESS);
    }
    let command_bits = match kind {
        Kind::Telegram => 0x007F,
        _ => 0x7F7F,
    };
    if header.command & !command_bits != 0 {
        return Err(BAD_COMMAND);
    }
    let (fits, length) = match kind {
        Kind::Packet => (
            payload.len() % 4 == 0 && payload.len() <= MAX_PACKET_PAYLOAD,
            10 + payload.len() / 4 * 6,
        ),
        Kind::Datagram => (payload.len() == 6, 16),
        Kind::Telegram => {
            let frames = telegram_frames(header.command as u8);
            (payload.len() == 7 * frames, 8 + 9 * frames)
        }
    };
    if fits {
        Ok((kind, length))
    } else {
        Err(BAD_PAYLOAD_LENGTH)
    }
}

/// Writes the record's stream to the start of `out`.
pub fn encode(header: Header, payload: &[u8], out: &mut [u8]) -> Written {
    let refused = |number| Written { number, length: 0 };
    let (kind, length) = match plan(header, payload) {
        Ok(plan) => plan,
        Err(number) => return refused(number),
    };
    let Some(out) = out.get_mut(..length) else {
        return refused(NO_ROOM);
    };
    write_stream(kind, header, payload, out);
    Written { number: 0, length }
}

/// Writes the stream of a record that fits, to an output of just its length.
#[inline]
fn write_stream(kind: Kind, header: Header, payload: &[u8], out: &mut [u8]) {
    out[0] = SYNC;
    out[1..3].copy_from_slice(&header.destination.to_le_bytes());
    out[3..5].copy_from_slice(&header.source.to_le_bytes());
    out[5] = header.version;
    let [low, high] = header.command.to_le_bytes();
    out[6] = low;
    match kind {
        Kind::Packet => {
            out[7] = high;
            out[8] = (payload.len() / 4) as u8;
            out[9] = checksum(&out[1..9]);
            encode_frames::<4>(payload, &mut out[10..]);
        }
        Kind::Datagram => {
            out[7] = high;
            out[14] = take_top_bits(payload, &mut out[8..14]);
            out[15] = checksum(&out[1..15]);
        }
        Kind::Telegram => {
            out[7] = checksum(&out[1..7]);
            encode_frames::<7>(payload, &mut out[8..]);
        }
    }
}

#[inline]
fn encode_frames<const N: usize>(payload: &[u8], out: &mut [u8]) {
    for (block, frame) in payload.chunks_exact(N).zip(out.chunks_exact_mut(N + 2)) {
        frame[N] = take_top_bits(block, &mut frame[..N]);
        frame[N + 1] = checksum(&frame[..N + 1]);
    }
}

/// Writes the streams of all the input's records, with nothing between them.
pub fn normalize(input: &[u8], out: &mut [u8]) -> Written {
    // The result is never longer than the input; only a shorter output has to be measured first.
    if out.len() < input.len() && total_length(input) > out.len() {
        return Written {
            number: NO_ROOM,
            length: 0,
        };
    }
    let mut length = 0;
    for (bytes, stream) in streams(input) {
        rewrite(bytes, stream, &mut out[length..length + stream.length]);
        length += stream.length;
    }
    Written { number: 0, length }
}

/// The valid streams of `input`, in order.
fn streams(input: &[u8]) -> impl Iterator<Item = (&[u8], Stream)> {
    let mut start = 0;
    std::iter::from_fn(move || {
        let (position, stream) = find(input, start)?;
        start = position + stream.length;
        Some((&input[position..start], stream))
    })
}

/// The length of all valid streams of `input`; written again, each keeps its own.
fn total_length(input: &[u8]) -> usize {
    streams(input).map(|(_, stream)| stream.length).sum()
}

/// Writes the stream that `encode` gives for the record of a valid one.
///
/// Without unused septet bits every byte of a valid stream follows from its record: it is copied.
#[inline]
fn rewrite(bytes: &[u8], stream: Stream, out: &mut [u8]) {
    if !stream.unused_bits {
        out.copy_from_slice(bytes);
        return;
    }
    let mut payload = [0; MAX_PACKET_PAYLOAD];
    let payload = &mut payload[..stream.payload_length];
    decode_payload(bytes, stream.kind, payload);
    write_stream(stream.kind, header_of(bytes, stream.kind), payload, out);
}

// What payloads hold

/// A datagram's value: the last four payload bytes as a signed number.
pub fn value(payload: &[u8; 6]) -> i32 {
    let [_, _, value @ ..] = *payload;
    i32::from_le_bytes(value)
}

/// A temperature of a section: its two bytes as a signed number.
pub fn temperature(bytes: &[u8; 2]) -> i16 {
    i16::from_le_bytes(*bytes)
}

/// Splits the first section off: its header and payload, and the rest.
fn split_section(payload: &[u8]) -> Option<(&[u8], &[u8])> {
    payload.split_at_checked(4 + 4 * usize::from(*payload.first()?))
}

/// Checks that this is a block packet and that its sections fill the payload; returns their count.
fn check_sections(header: Header, payload: &[u8]) -> Result<usize, u32> {
    let block = header.version == 0x10 && header.destination == 0x0015 && header.command == 0x0100;
    if !block || payload.len() % 4 != 0 || payload.len() > MAX_PACKET_PAYLOAD {
        return Err(NOT_A_BLOCK_PACKET);
    }
    let mut count = 0;
    let mut rest = payload;
    while !rest.is_empty() {
        (_, rest) = split_section(rest).ok_or(SECTION_TOO_LONG)?;
        count += 1;
    }
    Ok(count)
}

/// Start and bytes of one section.
fn find_section(header: Header, payload: &[u8], section: usize) -> Result<(usize, &[u8]), u32> {
    if section >= check_sections(header, payload)? {
        return Err(NO_SUCH_PART);
    }
    let mut rest = payload;
    for _ in 0..section {
        (_, rest) = split_section(rest).ok_or(SECTION_TOO_LONG)?;
    }
    let (found, _) = split_section(rest).ok_or(SECTION_TOO_LONG)?;
    Ok((payload.len() - rest.len(), found))
}

/// Size and number of a section's elements.
fn elements_of(section: &[u8]) -> Result<(usize, usize), u32> {
    let size = match section[1] {
        0x01 => 2,
        0x05 => 4,
        0x08 => 1,
        0x0A => 8,
        0x0B..=0x0D => 4,
        _ => return Err(UNKNOWN_SECTION_TYPE),
    };
    if section[1] == 0x0A && section[0] % 2 == 1 {
        return Err(PARTIAL_ELEMENT);
    }
    Ok((size, (section.len() - 4) / size))
}

fn count(answer: Result<usize, u32>) -> Count {
    match answer {
        Ok(count) => Count { number: 0, count },
        Err(number) => Count { number, count: 0 },
    }
}

fn part(answer: Result<(usize, usize), u32>) -> Part {
    match answer {
        Ok((start, length)) => Part {
            number: 0,
            start,
            length,
        },
        Err(number) => Part {
            number,
            start: 0,
            length: 0,
        },
    }
}

/// The number of sections.
pub fn section_count(header: Header, payload: &[u8]) -> Count {
    count(check_sections(header, payload))
}

/// Where section number `section` lies in the payload, its header included.
pub fn section(header: Header, payload: &[u8], section: usize) -> Part {
    part(find_section(header, payload, section).map(|(start, bytes)| (start, bytes.len())))
}

/// The number of elements of a section.
pub fn element_count(header: Header, payload: &[u8], section: usize) -> Count {
    count(
        find_section(header, payload, section)
            .and_then(|(_, bytes)| elements_of(bytes))
            .map(|(_, elements)| elements),
    )
}

/// Where an element lies in the payload.
pub fn element(header: Header, payload: &[u8], section: usize, element: usize) -> Part {
    part(find_element(header, payload, section, element))
}

fn find_element(
    header: Header,
    payload: &[u8],
    section: usize,
    element: usize,
) -> Result<(usize, usize), u32> {
    let (start, bytes) = find_section(header, payload, section)?;
    let (size, elements) = elements_of(bytes)?;
    if element >= elements {
        return Err(NO_SUCH_PART);
    }
    Ok((start + 4 + element * size, size))
}

#[cfg(test)]
mod tests;
