//! Records out of bytes that arrive in chunks.

use super::*;

/// What became of a chunk: the bytes used and, if `found`, a record, with the position of its 0xAA
/// among all bytes that the receiver used.
#[derive(Clone, Copy, PartialEq, Eq, Debug, Default)]
pub struct Received {
    pub number: u32,
    pub found: bool,
    pub used: usize,
    pub position: u64,
    pub length: usize,
    pub header: Header,
    pub payload_length: usize,
}

/// Keeps the stream that the chunks so far left unfinished, if there is one, and counts their bytes.
///
/// A stream within one chunk is read where it lies; only one that a chunk's end cuts off is copied.
#[derive(Clone, Debug)]
pub struct Receiver {
    stream: [u8; MAX_STREAM],
    held: usize,
    /// The length up to which bytes are only collected: with it the stream is whole, or tells more
    /// of its length. It is above `held` while something is held.
    goal: usize,
    /// How many bytes were used.
    position: u64,
}

impl Default for Receiver {
    fn default() -> Receiver {
        Receiver::at(0)
    }
}

impl Receiver {
    pub fn new() -> Receiver {
        Receiver::default()
    }

    /// Holds nothing, and counts on from there.
    pub fn at(position: u64) -> Receiver {
        Receiver {
            stream: [0; MAX_STREAM],
            held: 0,
            goal: 0,
            position,
        }
    }

    /// How many bytes were used, those before the position that it began at among them.
    pub fn position(&self) -> u64 {
        self.position
    }

    /// Forgets the unfinished stream, and only that.
    pub fn reset(&mut self) {
        self.held = 0;
    }

    /// Uses `chunk` up to the end of the first record's stream, or all of it. The record's payload
    /// goes to the start of `payload`, which must have room for any.
    pub fn receive(&mut self, chunk: &[u8], payload: &mut [u8]) -> Received {
        let refused = |number| Received {
            number,
            ..Received::default()
        };
        if payload.len() < MAX_PACKET_PAYLOAD {
            return refused(NO_ROOM);
        }
        if self.position.checked_add(chunk.len() as u64).is_none() {
            return refused(TOO_MANY_BYTES);
        }
        let mut received = self.take(chunk, payload);
        self.position += received.used as u64;
        if received.found {
            received.position = self.position - received.length as u64;
        }
        received
    }

    /// Receives without counting: the answer has no position yet.
    #[inline]
    fn take(&mut self, chunk: &[u8], payload: &mut [u8]) -> Received {
        let (used, stream) = self.go_on(chunk);
        if let Some(stream) = stream {
            return delivered(&self.stream[..stream.length], stream, used, payload);
        }
        if let Some((begin, stream)) = self.search(chunk, used) {
            let end = begin + stream.length;
            return delivered(&chunk[begin..end], stream, end, payload);
        }
        Received {
            used: chunk.len(),
            ..Received::default()
        }
    }

    /// Adds to the unfinished stream: the bytes used, and the stream if it is whole with them. A
    /// byte that can't belong to it isn't used: it may start another. If a stream is still held
    /// afterwards the chunk is used up.
    #[inline]
    fn go_on(&mut self, chunk: &[u8]) -> (usize, Option<Stream>) {
        let mut used = 0;
        while self.held > 0 && used < chunk.len() {
            let part = &chunk[used..];
            let part = &part[..part.len().min(self.goal - self.held)];
            let low = low_bytes(part);
            self.stream[self.held..][..low].copy_from_slice(&part[..low]);
            self.held += low;
            used += low;
            if low < part.len() {
                self.held = 0;
            } else if self.held == self.goal {
                let held = &self.stream[..self.held];
                match parse(held) {
                    Err(fault) if fault.verdict == ENDED => self.goal = goal(held),
                    parsed => {
                        self.held = 0;
                        return (used, parsed.ok());
                    }
                }
            }
        }
        (used, None)
    }

    /// The first whole stream at or after `start`; one that the chunk's end cuts off is held.
    #[inline]
    fn search(&mut self, chunk: &[u8], start: usize) -> Option<(usize, Stream)> {
        let mut at = start;
        loop {
            at += chunk[at..].iter().position(|&byte| byte == SYNC)?;
            let rest = &chunk[at..];
            match parse(rest) {
                Ok(stream) => return Some((at, stream)),
                Err(fault) if fault.verdict == ENDED => {
                    self.stream[..rest.len()].copy_from_slice(rest);
                    self.held = rest.len();
                    self.goal = goal(rest);
                    return None;
                }
                // No byte before the fault starts a stream.
                Err(fault) => at += fault.offset,
            }
        }
    }
}

/// How many bytes come before the first of 0x80 or more.
#[inline]
fn low_bytes(bytes: &[u8]) -> usize {
    if bytes.is_ascii() {
        return bytes.len();
    }
    bytes
        .iter()
        .position(|&byte| byte >= 0x80)
        .unwrap_or(bytes.len())
}

/// The verdict on a stream that is right so far.
const ENDED: u8 = 7;

/// The length with which a stream that is right so far is whole, or tells more of its length.
fn goal(stream: &[u8]) -> usize {
    match stream.get(5).and_then(|&version| Kind::of(version)) {
        None => 6,
        Some(Kind::Packet) => match stream.get(9) {
            None => 10,
            Some(_) => 10 + 6 * usize::from(stream[8]),
        },
        Some(Kind::Datagram) => 16,
        Some(Kind::Telegram) => match stream.get(7) {
            None => 8,
            Some(_) => 8 + 9 * telegram_frames(stream[6]),
        },
    }
}

/// The answer for the record of a whole stream, which ends with the last byte used.
fn delivered(bytes: &[u8], stream: Stream, used: usize, payload: &mut [u8]) -> Received {
    decode_payload(bytes, stream.kind, &mut payload[..stream.payload_length]);
    Received {
        number: 0,
        found: true,
        used,
        position: 0,
        length: stream.length,
        header: header_of(bytes, stream.kind),
        payload_length: stream.payload_length,
    }
}
