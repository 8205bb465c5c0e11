//! Why parts of a recording gave no record.

use core::fmt;
use core::iter::FusedIterator;

use crate::{Fault, Verdict};

/// Starts every stream.
const SYNC: u8 = 0xAA;

/// A 0xAA of a recording that gave no record, and why. Made by [`faults`].
///
/// The reason is a true one: the bytes before the fault's offset could still have grown into a whole
/// stream, and with the byte found there they no longer can. Where the input ended first all of them
/// could have grown on.
#[derive(Clone, Copy, PartialEq, Eq, Hash, Debug)]
pub struct FaultEntry {
    /// Where the 0xAA stands in the recording.
    pub place: usize,
    /// What [`validate`](crate::validate) fails with from there on; its offset counts from the 0xAA.
    pub fault: Fault,
    /// The byte found at the offset; `None` if the input ended first.
    pub byte: Option<u8>,
    /// The checksum that would have been right at the offset; for a verdict on a checksum only.
    pub wanted: Option<u8>,
}

impl FaultEntry {
    /// Another stream begins where this one should have gone on.
    fn is_cut_off(&self) -> bool {
        self.fault.verdict == Verdict::HighByte && self.byte == Some(SYNC)
    }
}

/// The fault's line, without the newline: place, verdict, offset, the byte found and, for a checksum,
/// the one wanted.
///
/// ```
/// let recording = [
///     0xAA, 0x20, 0x00, 0x11, 0x19, 0x20, 0x00, 0x01, 0x00, 0x00, 0x00, 0x00, 0x00, 0x00, 0x00, 0x14,
///     0xAA, 0x10, 0x20, 0x31, 0x77, 0x30, 0x01, 0x77,
/// ];
/// let entry = vbus::faults(&recording).next().unwrap();
/// assert_eq!(entry.to_string(), "16 V4 7 77 76");
/// ```
impl fmt::Display for FaultEntry {
    fn fmt(&self, f: &mut fmt::Formatter<'_>) -> fmt::Result {
        let Fault { verdict, offset } = self.fault;
        write!(f, "{} V{} {offset}", self.place, verdict.number())?;
        for byte in [self.byte, self.wanted].into_iter().flatten() {
            write!(f, " {byte:02X}")?;
        }
        if self.is_cut_off() {
            f.write_str(" cut off by a new stream")?;
        }
        Ok(())
    }
}

/// The 0xAA of a recording that gave no record, in order. Made by [`faults`].
#[derive(Clone, Debug)]
pub struct Faults<'a> {
    input: &'a [u8],
    start: usize,
}

/// Every 0xAA of a recording that gave no record, in order of place, and why. All of them together
/// take time linear in the recording's length.
///
/// ```
/// let recording = [
///     0xAA, // cut off
///     0xAA, 0x11, 0x44, 0x10, 0x66, 0x10, 0x00, 0x02, 0x01, 0x21, // header
///     0x07, 0x04, 0x0F, 0x00, 0x00, 0x65, // frame
/// ];
/// let lines: Vec<String> = vbus::faults(&recording).map(|entry| entry.to_string()).collect();
/// assert_eq!(lines, ["0 V2 1 AA cut off by a new stream"]);
/// ```
pub fn faults(recording: &[u8]) -> Faults<'_> {
    Faults {
        input: recording,
        start: 0,
    }
}

impl Iterator for Faults<'_> {
    type Item = FaultEntry;

    fn next(&mut self) -> Option<FaultEntry> {
        let (pointer, n) = (self.input.as_ptr(), self.input.len());
        // SAFETY: pointer and count are those of a slice.
        let answer = unsafe { vbus_sys::vbus_next_fault(pointer, n, self.start) };
        if !answer.found {
            // Nothing is left to be looked at.
            self.start = n;
            return None;
        }
        self.start = answer.place + 1;
        Some(FaultEntry {
            place: answer.place,
            fault: Fault::from_sys(answer.verdict, answer.offset),
            byte: answer.has_byte.then_some(answer.byte),
            wanted: answer.has_wanted.then_some(answer.wanted),
        })
    }
}

impl FusedIterator for Faults<'_> {}
