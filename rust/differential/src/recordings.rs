//! Inputs: valid streams, damaged ones and hostile ones.

use crate::rng::Rng;
use reference::Header;
use std::iter::StepBy;
use std::ops::Range;

pub const MAX_PAYLOAD: usize = 508;
pub const MAX_STREAM: usize = 772;

fn seven_bit_word(rng: &mut Rng) -> u16 {
    rng.word() & 0x7F7F
}

fn payload(rng: &mut Rng, length: usize) -> Vec<u8> {
    match rng.below(8) {
        0 => vec![rng.pick(&[0x00, 0x7F, 0x80, 0xAA, 0xFF]); length],
        1 => (0..length).map(|_| rng.byte() | 0x80).collect(),
        _ => rng.bytes(length),
    }
}

/// A record that can be encoded, of any kind and size.
pub fn record(rng: &mut Rng) -> (Header, Vec<u8>) {
    let version = rng.pick(&[0x10, 0x10, 0x20, 0x30, 0x31]);
    let mut header = Header {
        version,
        destination: seven_bit_word(rng),
        source: seven_bit_word(rng),
        command: seven_bit_word(rng),
    };
    let length = match version {
        0x10 => 4 * frames(rng),
        0x20 => 6,
        _ => {
            header.command &= 0x7F;
            7 * usize::from(header.command >> 5)
        }
    };
    if version == 0x10 && rng.once_in(4) {
        header.destination = 0x0015;
        header.command = 0x0100;
    }
    (header, payload(rng, length))
}

/// A packet's frame count: mostly small, the ends often.
fn frames(rng: &mut Rng) -> usize {
    match rng.below(16) {
        0 => rng.below(128),
        1 => rng.pick(&[126, 127]),
        2 => 0,
        _ => rng.below(6),
    }
}

pub fn encoded(header: Header, payload: &[u8]) -> Vec<u8> {
    let mut out = [0; MAX_STREAM];
    let written = reference::encode(header, payload, &mut out);
    assert_eq!(written.number, 0);
    out[..written.length].to_vec()
}

/// A stream of any kind and size; one in three has unused septet bits, if its kind has any.
pub fn stream(rng: &mut Rng) -> Vec<u8> {
    let (header, payload) = record(rng);
    let stream = encoded(header, &payload);
    one_in_three_unused(rng, stream)
}

/// A packet with 127 frames; one in three has unused septet bits.
pub fn longest(rng: &mut Rng) -> Vec<u8> {
    let header = Header {
        version: 0x10,
        destination: seven_bit_word(rng),
        source: seven_bit_word(rng),
        command: seven_bit_word(rng),
    };
    let payload = payload(rng, MAX_PAYLOAD);
    let stream = encoded(header, &payload);
    one_in_three_unused(rng, stream)
}

fn one_in_three_unused(rng: &mut Rng, mut stream: Vec<u8>) -> Vec<u8> {
    if rng.once_in(3) {
        set_unused_bits(rng, &mut stream);
        fix_checksums(&mut stream);
    }
    stream
}

/// Streams one after the other, sometimes with bytes between.
pub fn recording(rng: &mut Rng) -> Vec<u8> {
    let mut bytes = Vec::new();
    let streams = match rng.below(32) {
        0 => 0,
        1 => rng.below(60),
        _ => 1 + rng.below(4),
    };
    let noise = rng.once_in(2);
    for _ in 0..streams {
        bytes.extend(stream(rng));
        if noise && rng.once_in(2) {
            let length = 1 + rng.below(5);
            bytes.extend(rng.bytes(length));
        }
    }
    bytes
}

/// A recording with at least one byte.
fn some_recording(rng: &mut Rng) -> Vec<u8> {
    let mut bytes = recording(rng);
    if bytes.is_empty() {
        bytes = stream(rng);
    }
    bytes
}

pub fn one_bit(rng: &mut Rng) -> Vec<u8> {
    let mut bytes = some_recording(rng);
    let at = rng.below(bytes.len());
    bytes[at] ^= 1 << rng.below(8);
    bytes
}

pub fn one_byte(rng: &mut Rng) -> Vec<u8> {
    let mut bytes = some_recording(rng);
    let at = rng.below(bytes.len());
    match rng.below(4) {
        0 => bytes[at] = 0xAA,
        1 => bytes[at] = rng.byte(),
        2 => {
            bytes.remove(at);
        }
        _ => bytes.insert(at, rng.byte()),
    }
    bytes
}

pub fn cut(rng: &mut Rng) -> Vec<u8> {
    let mut bytes = some_recording(rng);
    let from = rng.below(bytes.len());
    let to = from + rng.below(bytes.len() - from + 1);
    match rng.below(3) {
        0 => bytes.truncate(to),
        1 => bytes.drain(..from).for_each(drop),
        _ => bytes.drain(from..to).for_each(drop),
    }
    bytes
}

pub fn spliced(rng: &mut Rng) -> Vec<u8> {
    let mut bytes = some_recording(rng);
    let other = some_recording(rng);
    let at = rng.below(bytes.len());
    if rng.once_in(2) {
        // One inside the other.
        bytes.splice(at..at, other);
    } else {
        // The start of one, the end of the other.
        bytes.truncate(at);
        let from = rng.below(other.len());
        bytes.extend(&other[from..]);
    }
    bytes
}

pub fn repeated(rng: &mut Rng) -> Vec<u8> {
    let mut bytes = some_recording(rng);
    let from = rng.below(bytes.len());
    let to = from + 1 + rng.below((bytes.len() - from).min(40));
    let part = bytes[from..to].to_vec();
    for _ in 0..1 + rng.below(3) {
        bytes.splice(to..to, part.iter().copied());
    }
    bytes
}

/// The offset of the header's checksum, the first frame and the length of a frame; a datagram has
/// no frames.
pub fn layout(version: u8) -> Option<(usize, usize, usize)> {
    match version {
        0x10 => Some((9, 10, 6)),
        0x20 => Some((15, 16, 0)),
        0x30 | 0x31 => Some((7, 8, 9)),
        _ => None,
    }
}

/// Puts right checksums wherever a stream of its version has them.
pub fn fix_checksums(stream: &mut [u8]) {
    fix_checksums_as(stream, stream[5]);
}

/// Puts right checksums wherever a stream of this version has them.
fn fix_checksums_as(stream: &mut [u8], version: u8) {
    let Some((header, first, frame)) = layout(version) else {
        return;
    };
    if header < stream.len() {
        stream[header] = reference::checksum(&stream[1..header]);
    }
    if frame > 0 && first < stream.len() {
        for frame in stream[first..].chunks_exact_mut(frame) {
            let last = frame.len() - 1;
            frame[last] = reference::checksum(&frame[..last]);
        }
    }
}

/// Wrong fields under right checksums.
pub fn wrong_fields(rng: &mut Rng) -> Vec<u8> {
    let mut bytes = stream(rng);
    let version = bytes[5];
    let mut fix_as = version;
    match rng.below(6) {
        // An unknown version, in the layout of the old one.
        0 => bytes[5] = rng.byte() & 0x7F,
        // Another version, in its own layout.
        1 => {
            bytes[5] = rng.pick(&[0x10, 0x20, 0x30, 0x31]);
            fix_as = bytes[5];
        }
        // Another frame count or command.
        2 => {
            let at = if version == 0x10 { 8 } else { 6 };
            bytes[at] = rng.byte() & 0x7F;
        }
        // Bytes of 0x80 or more; their checksums are right in seven bits.
        3 => {
            let at = 1 + rng.below(bytes.len() - 1);
            bytes[at] |= 0x80;
        }
        // A frame count that is off by one.
        4 => {
            let at = if version == 0x10 { 8 } else { 6 };
            let step = if version == 0x10 { 1 } else { 0x20 };
            bytes[at] = bytes[at].wrapping_add(rng.pick(&[step, 0u8.wrapping_sub(step)])) & 0x7F;
        }
        // Checksums that leave the septet out.
        _ => {
            fix_checksums_as(&mut bytes, version);
            if let Some((_, first, frame)) = layout(version).filter(|&(_, _, frame)| frame > 0) {
                for frame in bytes[first..].chunks_exact_mut(frame) {
                    let last = frame.len() - 1;
                    frame[last] = reference::checksum(&frame[..last - 1]);
                }
            }
            fix_as = 0;
        }
    }
    fix_checksums_as(&mut bytes, fix_as);
    surrounded(rng, bytes)
}

/// Where a stream's septets stand, and which of their bits stand for no byte.
pub fn septets(stream: &[u8]) -> (StepBy<Range<usize>>, u8) {
    let (first, step, unused) = match stream[5] {
        0x10 => (14, 6, 0x70),
        0x20 => (14, 16, 0x40),
        _ => (15, 9, 0x00),
    };
    ((first..stream.len()).step_by(step), unused)
}

/// Sets unused septet bits in one, some or all blocks, if their septets have any. The checksums stay
/// those of the septets without these bits.
fn set_unused_bits(rng: &mut Rng, stream: &mut [u8]) {
    let (septets, unused) = septets(stream);
    let one = rng.below(septets.len().max(1));
    let others = rng.below(3);
    for (i, at) in septets.enumerate() {
        let chosen = i == one
            || match others {
                0 => false,
                1 => rng.once_in(2),
                _ => true,
            };
        if chosen {
            stream[at] |= match rng.byte() & unused {
                0 => unused,
                some => some,
            };
        }
    }
}

/// The stream with unused bits set in the septets that `chosen` names by their number, under right
/// checksums.
pub fn with_unused_bits(stream: &[u8], chosen: impl Fn(usize) -> bool) -> Vec<u8> {
    let mut bytes = stream.to_vec();
    let (septets, unused) = septets(stream);
    for (_, at) in septets.enumerate().filter(|&(i, _)| chosen(i)) {
        bytes[at] |= unused;
    }
    fix_checksums(&mut bytes);
    bytes
}

/// Unused septet bits under right checksums.
pub fn unused_bits(rng: &mut Rng) -> Vec<u8> {
    let mut bytes = stream(rng);
    set_unused_bits(rng, &mut bytes);
    fix_checksums(&mut bytes);
    surrounded(rng, bytes)
}

/// A packet or datagram with unused septet bits under the checksums of its septets without them, and
/// the offset of the first such septet.
pub fn uncovered_bits(rng: &mut Rng) -> (Vec<u8>, usize) {
    loop {
        let (header, payload) = record(rng);
        let mut bytes = encoded(header, &payload);
        set_unused_bits(rng, &mut bytes);
        let (mut septets, unused) = septets(&bytes);
        if let Some(at) = septets.find(|&at| bytes[at] & unused != 0) {
            return (bytes, at);
        }
    }
}

/// Sometimes cut, sometimes between other streams.
pub fn surrounded(rng: &mut Rng, mut bytes: Vec<u8>) -> Vec<u8> {
    if rng.once_in(4) {
        bytes.truncate(rng.below(bytes.len() + 1));
    }
    if rng.once_in(2) {
        bytes.extend(stream(rng));
    }
    if rng.once_in(4) {
        let mut before = stream(rng);
        before.extend(bytes);
        bytes = before;
    }
    bytes
}

/// A packet's header that announces 127 frames.
fn announcing(rng: &mut Rng) -> Vec<u8> {
    longest(rng)[..10].to_vec()
}

/// 0xAA before every byte.
pub fn interleaved(bytes: &[u8]) -> Vec<u8> {
    bytes.iter().flat_map(|&byte| [0xAA, byte]).collect()
}

pub fn hostile(rng: &mut Rng) -> Vec<u8> {
    let mut bytes = match rng.below(6) {
        0 => vec![0xAA; rng.below(2000)],
        1 => interleaved(&some_recording(rng)),
        // Longest packets, cut.
        2 => (0..1 + rng.below(4))
            .flat_map(|_| {
                let mut packet = longest(rng);
                packet.truncate(rng.below(packet.len()));
                packet
            })
            .collect(),
        3 => (0..rng.below(100)).flat_map(|_| announcing(rng)).collect(),
        // The longest packet, wrong at its very end.
        4 => {
            let mut packet = longest(rng);
            let last = packet.len() - 1;
            packet[last] ^= 1 << rng.below(8);
            packet
        }
        // Announced frames that are other streams' bytes without their 0xAA.
        _ => {
            let mut bytes = announcing(rng);
            for _ in 0..rng.below(20) {
                bytes.extend(&stream(rng)[1..]);
            }
            bytes
        }
    };
    if rng.once_in(2) {
        bytes.extend(stream(rng));
    }
    bytes
}

/// Random bytes with many 0xAA.
pub fn random(rng: &mut Rng) -> Vec<u8> {
    let length = match rng.below(8) {
        0 => rng.below(1500),
        _ => rng.below(60),
    };
    let kind = rng.below(3);
    (0..length)
        .map(|_| match kind {
            0 if rng.once_in(4) => 0xAA,
            0 => rng.byte() & 0x7F,
            1 if rng.once_in(8) => 0xAA,
            1 => rng.byte(),
            _ => rng.pick(&[0xAA, 0x10, 0x20, 0x30, 0x31, 0x00, 0x7F, 0x80]),
        })
        .collect()
}

pub const BLOCK: Header = Header {
    version: 0x10,
    destination: 0x0015,
    source: 0x7E21,
    command: 0x0100,
};

pub const SECTION_TYPES: [u8; 7] = [0x01, 0x05, 0x08, 0x0A, 0x0B, 0x0C, 0x0D];

/// A block packet's payload whose sections fill it.
pub fn block_payload(rng: &mut Rng) -> Vec<u8> {
    let mut payload = Vec::new();
    let limit = match rng.below(4) {
        0 => MAX_PAYLOAD,
        _ => 4 * (1 + rng.below(20)),
    };
    let most = rng.pick(&[1, 3, 8, 128]);
    while payload.len() + 4 <= limit && !rng.once_in(40) {
        let left = (limit - payload.len()) / 4 - 1;
        let frames = rng.below(left.min(most) + 1);
        let section_type = match rng.below(5) {
            0 => rng.byte(),
            _ => rng.pick(&SECTION_TYPES),
        };
        payload.extend([frames as u8, section_type, rng.byte(), rng.byte()]);
        payload.extend(rng.bytes(4 * frames));
    }
    payload
}

/// A block packet's source, which is free: 0 often.
pub fn source(rng: &mut Rng) -> u16 {
    match rng.below(4) {
        0 => 0,
        _ => rng.word(),
    }
}

/// A block packet's header or payload with something wrong.
pub fn broken_block(rng: &mut Rng) -> (Header, Vec<u8>) {
    let mut header = Header {
        source: source(rng),
        ..BLOCK
    };
    let mut payload = block_payload(rng);
    match rng.below(7) {
        0 => header.version ^= 1 << rng.below(8),
        1 => header.destination ^= 1 << rng.below(16),
        2 => header.command ^= 1 << rng.below(16),
        3 => {
            let length = 1 + rng.below(3);
            payload.extend(rng.bytes(length));
        }
        4 => payload.resize(512 + 4 * rng.below(20), 0),
        5 if !payload.is_empty() => {
            let at = 4 * rng.below(payload.len() / 4);
            payload[at] = rng.byte();
        }
        _ => payload.truncate(payload.len() / 4 * 4 - 4.min(payload.len())),
    }
    (header, payload)
}
