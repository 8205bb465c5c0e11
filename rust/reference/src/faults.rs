//! Why parts of a recording gave no record.

use super::*;

/// If `found`, a 0xAA that gave no record: its place, the verdict on the stretch from there to the
/// input's end, and the offset. The byte at the offset is there unless the input ended first, the
/// byte wanted only where a checksum is wrong. What isn't there is 0.
#[derive(Clone, Copy, PartialEq, Eq, Debug, Default)]
pub struct Fault {
    pub found: bool,
    pub place: usize,
    pub verdict: u8,
    pub offset: usize,
    pub has_byte: bool,
    pub byte: u8,
    pub has_wanted: bool,
    pub wanted: u8,
}

/// The first 0xAA at or after `start` that gave no record; there is none behind the input's end.
pub fn next_fault(input: &[u8], start: usize) -> Fault {
    let mut at = start;
    while let Some(rest) = input.get(at..) {
        let Some(skipped) = rest.iter().position(|&byte| byte == SYNC) else {
            break;
        };
        at += skipped;
        let stretch = &rest[skipped..];
        match parse(stretch) {
            // Behind its first byte a valid stream has no 0xAA.
            Ok(stream) => at += stream.length,
            Err(first) => return explained(at, stretch, first),
        }
    }
    Fault::default()
}

/// A stretch's first fault with the byte found, which no stretch has that ended, and the byte wanted.
fn explained(place: usize, stretch: &[u8], first: FirstFault) -> Fault {
    let FirstFault { verdict, offset } = first;
    let byte = stretch.get(offset).copied();
    let wanted = summed(stretch, first).map(checksum);
    Fault {
        found: true,
        place,
        verdict,
        offset,
        has_byte: byte.is_some(),
        byte: byte.unwrap_or(0),
        has_wanted: wanted.is_some(),
        wanted: wanted.unwrap_or(0),
    }
}

/// The bytes that a wrong checksum should have summed up.
fn summed(stretch: &[u8], first: FirstFault) -> Option<&[u8]> {
    let before = &stretch[..first.offset];
    match first.verdict {
        // All from the destination on.
        4 => Some(&before[1..]),
        // The frame's payload bytes and septet.
        6 if stretch[5] == 0x10 => Some(&before[before.len() - 5..]),
        6 => Some(&before[before.len() - 8..]),
        _ => None,
    }
}

/// Every 0xAA that gave no record, in order of place.
pub fn faults(input: &[u8]) -> impl Iterator<Item = Fault> + '_ {
    let mut start = 0;
    std::iter::from_fn(move || {
        let fault = next_fault(input, start);
        start = fault.place + 1;
        fault.found.then_some(fault)
    })
}

/// The line that tells a fault, without the newline.
pub fn line(fault: &Fault) -> String {
    let Fault {
        place,
        verdict,
        offset,
        byte,
        wanted,
        ..
    } = *fault;
    match (verdict, byte) {
        (2, SYNC) => format!("{place} V2 {offset} AA cut off by a new stream"),
        (4 | 6, _) => format!("{place} V{verdict} {offset} {byte:02X} {wanted:02X}"),
        (7, _) => format!("{place} V7 {offset}"),
        _ => format!("{place} V{verdict} {offset} {byte:02X}"),
    }
}
