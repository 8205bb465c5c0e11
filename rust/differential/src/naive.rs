//! A recording's records by the rule itself: every place is tried, and every record is written
//! anew. The reference, like the library, goes on at a fault and copies whole streams that have no
//! unused septet bits; here neither shortcut is taken. A checksum and a receiver by their rules, byte
//! after byte, the receiver in any state. And whether bytes can still grow into a whole stream, by
//! letting them grow.

use crate::library::Receiver;
use crate::recordings::{self, MAX_PAYLOAD, MAX_STREAM};
use reference::{Header, Received};
use std::slice::Chunks;

/// The longest recording that is read this way; the work grows with the square of its length.
pub const MOST: usize = 600;

/// Starts at 0x7F, subtracts each byte and keeps the low seven bits each time.
pub fn checksum(block: &[u8]) -> u8 {
    let step = |sum: u8, &byte: &u8| sum.wrapping_sub(byte) % 128;
    block.iter().fold(0x7F, step)
}

/// A record, and where its stream lies.
#[derive(PartialEq, Debug)]
pub struct Delivered {
    pub position: u64,
    pub length: usize,
    pub header: Header,
    pub payload: Vec<u8>,
}

/// The records at all positions from which the input begins with a whole stream.
pub fn records(input: &[u8]) -> Vec<Delivered> {
    (0..input.len())
        .filter_map(|position| Some(read(position as u64, whole_stream(&input[position..])?)))
        .collect()
}

/// The whole stream that the input begins with.
pub fn whole_stream(input: &[u8]) -> Option<&[u8]> {
    let stream = input.get(..announced(input))?;
    whole(stream).then_some(stream)
}

/// The blocks of a whole stream, each of so many bytes, their septet and a checksum. A datagram is
/// one block.
fn blocks(stream: &[u8]) -> (usize, Chunks<'_, u8>) {
    let (first, width) = match stream[5] {
        0x10 => (10, 4),
        0x20 => (8, 6),
        _ => (8, 7),
    };
    (width, stream[first..].chunks(width + 2))
}

/// How many blocks a whole stream has.
pub fn block_count(stream: &[u8]) -> usize {
    blocks(stream).1.count()
}

/// How many blocks of a whole stream have a septet bit set that stands for none of their bytes.
pub fn unused_septets(stream: &[u8]) -> usize {
    let (width, blocks) = blocks(stream);
    blocks.filter(|block| block[width] >= 1 << width).count()
}

impl Delivered {
    /// The record's stream in a recording that begins at that position.
    pub fn stream<'i>(&self, input: &'i [u8], from: u64) -> &'i [u8] {
        let begin = (self.position - from) as usize;
        &input[begin..begin + self.length]
    }
}

/// The record of a whole stream at that position.
fn read(position: u64, stream: &[u8]) -> Delivered {
    let word = |at: usize| u16::from(stream[at]) + 256 * u16::from(stream[at + 1]);
    let version = stream[5];
    let command = match version {
        0x10 | 0x20 => word(6),
        _ => u16::from(stream[6]),
    };
    let (width, blocks) = blocks(stream);
    let mut payload = Vec::new();
    for block in blocks {
        for i in 0..width {
            let top = block[width] >> i & 1;
            payload.push(block[i] + 128 * top);
        }
    }
    Delivered {
        position,
        length: stream.len(),
        header: Header {
            version,
            destination: word(1),
            source: word(3),
            command,
        },
        payload,
    }
}

/// The streams of the records, each written from its fields, with nothing between them.
pub fn normalized(records: &[Delivered]) -> Vec<u8> {
    records
        .iter()
        .flat_map(|record| recordings::encoded(record.header, &record.payload))
        .collect()
}

/// A call of a receiver in any state; also the receiver afterwards.
pub fn receive(
    receiver: Receiver,
    memory: &mut [u8],
    chunk: &[u8],
    payload: &mut [u8],
) -> (Received, Receiver) {
    let number = refusal(receiver, chunk, payload);
    if number != 0 {
        return (without(number, 0), receiver);
    }
    let mut stream = held_in(receiver, memory);
    // No sum is too large: a chunk that would be is refused.
    let mut position = receiver.position;
    let mut begins = position - stream.len() as u64;
    for (i, &byte) in chunk.iter().enumerate() {
        match byte {
            0xAA => (stream, begins) = (vec![0xAA], position),
            0x80.. => stream = Vec::new(),
            _ if stream.is_empty() => {}
            _ => stream.push(byte),
        }
        position += 1;
        if whole(&stream) {
            let received = delivered(read(begins, &stream), i + 1, payload);
            return (received, Receiver { held: 0, position });
        }
        stream = kept(stream);
    }
    memory[..stream.len()].copy_from_slice(&stream);
    let held = stream.len();
    (without(0, chunk.len()), Receiver { held, position })
}

/// An answer without a record.
fn without(number: u32, used: usize) -> Received {
    Received {
        number,
        used,
        ..Received::default()
    }
}

/// Too little room; then too many bytes to be counted, in numbers that hold any sum.
fn refusal(receiver: Receiver, chunk: &[u8], payload: &[u8]) -> u32 {
    let count = u128::from(receiver.position) + chunk.len() as u128;
    if payload.len() < MAX_PAYLOAD {
        5
    } else if count >= 1 << 64 {
        12
    } else {
        0
    }
}

/// What a state holds: nothing if it says more than were used, or than an unfinished stream has.
fn held_in(receiver: Receiver, memory: &[u8]) -> Vec<u8> {
    let Receiver { held, position } = receiver;
    if held < MAX_STREAM && held as u64 <= position {
        kept(memory[..held].to_vec())
    } else {
        Vec::new()
    }
}

/// The bytes, if more are announced and a stream can have as many; else none.
fn kept(stream: Vec<u8>) -> Vec<u8> {
    let length = announced(&stream);
    if stream.len() < length && length <= MAX_STREAM {
        stream
    } else {
        Vec::new()
    }
}

/// How many bytes the stream has, as far as those that are there tell.
fn announced(stream: &[u8]) -> usize {
    let byte = |at: usize| stream.get(at).map_or(0, |&byte| usize::from(byte));
    if stream.len() < 6 {
        return 6;
    }
    match byte(5) {
        0x10 => 10 + 6 * byte(8),
        0x20 => 16,
        0x30 | 0x31 => 8 + 9 * (byte(6) / 32 % 4),
        _ => 6,
    }
}

/// Whether the bytes are a whole stream, with nothing behind it.
fn whole(stream: &[u8]) -> bool {
    if stream.len() < 6 || stream.len() != announced(stream) || stream[0] != 0xAA {
        return false;
    }
    let low = stream[1..].iter().all(|&byte| byte < 0x80);
    low && match stream[5] {
        0x10 => summed(&stream[1..10]) && framed(&stream[10..], 4),
        0x20 => summed(&stream[1..16]),
        0x30 | 0x31 => summed(&stream[1..8]) && framed(&stream[8..], 7),
        _ => false,
    }
}

/// Whether the bytes are frames of `width` payload bytes, their septet and the checksum.
fn framed(bytes: &[u8], width: usize) -> bool {
    bytes.chunks(width + 2).all(summed)
}

/// Whether the last byte is the checksum of those before it.
fn summed(block: &[u8]) -> bool {
    let (last, before) = block.split_last().expect("there is a checksum");
    checksum(before) == *last
}

/// The answer for a record whose stream ends with byte number `used` of the chunk.
fn delivered(record: Delivered, used: usize, payload: &mut [u8]) -> Received {
    let payload_length = record.payload.len();
    payload[..payload_length].copy_from_slice(&record.payload);
    Received {
        number: 0,
        found: true,
        used,
        position: record.position,
        length: record.length,
        header: record.header,
        payload_length,
    }
}

/// The bytes, with others behind them that make a whole stream of them, if it is one in the end. Where
/// the rules leave the next byte free it is `free`'s, or at the version's place `version`.
pub fn grown_with(bytes: &[u8], version: u8, mut free: impl FnMut() -> u8) -> Option<Vec<u8>> {
    let mut stream = bytes.to_vec();
    while stream.len() < announced(&stream) {
        stream.push(match stream.len() {
            0 => 0xAA,
            5 => version,
            _ => summed_next(&stream).map_or_else(&mut free, checksum),
        });
    }
    whole(&stream).then_some(stream)
}

/// Whether bytes can grow into a whole stream: if any bytes make them one, then so do zeros, with a
/// packet's version and right checksums, since no rule speaks of the other bytes behind them.
pub fn can_grow(bytes: &[u8]) -> bool {
    grown_with(bytes, 0x10, || 0).is_some()
}

/// The bytes whose checksum comes next in a stream that begins with these; `None` where another byte
/// comes next.
fn summed_next(stream: &[u8]) -> Option<&[u8]> {
    let at = stream.len();
    let (header, first, frame) = recordings::layout(*stream.get(5)?)?;
    if at == header {
        return Some(&stream[1..]);
    }
    let in_frames = frame > 0 && at >= first;
    (in_frames && (at - first) % frame == frame - 1).then(|| &stream[at - (frame - 1)..])
}

/// The verdict on a byte with which bytes that could grow no longer can, by its place.
pub fn verdict(before: &[u8], byte: u8) -> u8 {
    let at = before.len();
    let header = before
        .get(5)
        .and_then(|&version| recordings::layout(version));
    match header {
        _ if byte >= 0x80 => 2,
        None => 3,
        Some((header, _, _)) if at == header => 4,
        Some(_) => 6,
    }
}
