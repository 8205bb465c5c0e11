//! Reads and writes VBus streams: packets, datagrams and telegrams.
//!
//! The work is done by `libvbus.a`, a formally proved library without heap or global state; this
//! crate gives it the interface that Rust users expect.
//!
//! ```
//! # #[cfg(feature = "std")] {
//! let recording = [
//!     0x00, 0xAA, // noise
//!     0xAA, 0x11, 0x44, 0x10, 0x66, 0x10, 0x00, 0x02, 0x01, 0x21, // header
//!     0x07, 0x04, 0x0F, 0x00, 0x00, 0x65, // frame
//! ];
//! let entries: Vec<vbus::Entry> = vbus::records(&recording).collect();
//! assert_eq!(entries.len(), 1);
//! assert_eq!((entries[0].position, entries[0].length), (2, 16));
//! assert_eq!(entries[0].record.header.source, 0x6610);
//! assert_eq!(entries[0].record.payload, [0x07, 0x04, 0x0F, 0x00]);
//! assert_eq!(entries[0].record.to_string(), "P 4411 6610 10 0200 07040F00");
//! # }
//! ```
//!
//! What arrives in chunks, such as from a serial port, is read with a [`Receiver`], or with a
//! `RecordReader` over anything that implements `std::io::Read`.
//!
//! Every record carries the position of its 0xAA, in 64 bits: from the start of the input, or of all
//! that the receiver used.
//!
//! Why a 0xAA, with which every stream begins, gave no record is told by [`faults`].
//!
//! Who a slave is that answered is told by [`read_slave_id`]; a [`SlaveTable`] keeps the slaves of
//! two owners by their addresses.
//!
//! What is to be sent goes through a [`Sender`], which hands it out in portions and waits between
//! them, so that the bus can carry energy.
//!
//! The archive is taken from the folder that the environment variable `VBUS_LIB_DIR` names at
//! build time, else from `target/staticlib` at the repository's top, where `./build vbus` puts it.
//!
//! Without the feature `std`, which is on by default, this crate uses `core` alone and has no heap:
//! [`next`], a [`Receiver`] and [`Found`] do what `records`, `RecordReader` and `Entry` do with it,
//! [`encode`] and [`normalize`] write to a buffer.

#![cfg_attr(not(feature = "std"), no_std)]
#![deny(missing_docs)]

mod error;
mod faults;
mod found;
mod header;
mod receiver;
#[cfg(feature = "std")]
mod record;
#[cfg(feature = "std")]
mod record_reader;
mod sections;
mod sender;
mod slave_id;
mod slaves;

pub use error::{Error, Fault, Verdict};
pub use faults::{faults, FaultEntry, Faults};
pub use found::Found;
pub use header::{Header, Kind};
#[cfg(feature = "std")]
pub use receiver::ReceivedRecords;
pub use receiver::{Received, Receiver};
#[cfg(feature = "std")]
pub use record::{encode_to_vec, normalize_to_vec, records, Entry, Record, Records};
#[cfg(feature = "std")]
pub use record_reader::RecordReader;
pub use sections::{section, sections, Elements, Section, Sections};
pub use sender::{Sender, SenderSettings};
pub use slave_id::{read_slave_id, write_slave_id, Identifiers, SlaveId};
pub use slaves::{Figures, Slave, SlaveTable, Slaves};

/// The longest payload, that of a packet with 127 frames.
pub const MAX_PAYLOAD: usize = 508;

/// The longest stream, that of a packet with 127 frames.
pub const MAX_STREAM: usize = 772;

/// The entries of a table of slaves.
pub const SLAVES: usize = vbus_sys::SLAVES;

/// How many entries one of the two owners of a table of slaves may hold at most.
pub const SLAVES_PER_OWNER: usize = vbus_sys::SLAVES_PER_OWNER;

fn check(number: u32) -> Result<(), Error> {
    match number {
        0 => Ok(()),
        _ => Err(Error::from_number(number).expect("libvbus gives only numbers of the table")),
    }
}

// Checksums and septets

/// The checksum of `block`: 0x7F less every byte, in seven bits.
///
/// ```
/// assert_eq!(vbus::checksum(&[]), 0x7F);
/// assert_eq!(vbus::checksum(&[0x68, 0x03, 0x74, 0x01, 0x05]), 0x1A);
/// ```
pub fn checksum(block: &[u8]) -> u8 {
    // SAFETY: pointer and count are those of a slice.
    unsafe { vbus_sys::vbus_checksum(block.as_ptr(), block.len()) }
}

/// Clears the top bits of at most seven bytes and returns them as a septet.
///
/// ```
/// let mut block = [0xE8, 0x03, 0xF4, 0x01];
/// assert_eq!(vbus::extract(&mut block), Ok(0x05));
/// assert_eq!(block, [0x68, 0x03, 0x74, 0x01]);
/// assert_eq!(vbus::inject(&mut block, 0x05), Ok(()));
/// assert_eq!(block, [0xE8, 0x03, 0xF4, 0x01]);
/// ```
pub fn extract(block: &mut [u8]) -> Result<u8, Error> {
    let bytes = seven(block);
    // SAFETY: `bytes` is an array of seven bytes.
    let answer = unsafe { vbus_sys::vbus_extract(&bytes, block.len()) };
    check(answer.number)?;
    block.copy_from_slice(&answer.bytes[..block.len()]);
    Ok(answer.septet)
}

/// Puts the bits of a septet back as the top bits of at most seven bytes.
///
/// Unused bits, those that stand for no byte of the block, are ignored.
///
/// ```
/// let mut block = [0x68, 0x03, 0x74, 0x01];
/// assert_eq!(vbus::inject(&mut block, 0x75), Ok(()));
/// assert_eq!(block, [0xE8, 0x03, 0xF4, 0x01]);
/// ```
pub fn inject(block: &mut [u8], septet: u8) -> Result<(), Error> {
    let bytes = seven(block);
    // SAFETY: `bytes` is an array of seven bytes.
    let answer = unsafe { vbus_sys::vbus_inject(&bytes, block.len(), septet) };
    check(answer.number)?;
    block.copy_from_slice(&answer.bytes[..block.len()]);
    Ok(())
}

/// The first seven bytes of `block`, or zeros where it is shorter.
fn seven(block: &[u8]) -> [u8; 7] {
    let mut bytes = [0; 7];
    for (slot, &byte) in bytes.iter_mut().zip(block) {
        *slot = byte;
    }
    bytes
}

// Reading

/// A whole stream at the start of the input. Made by [`validate`].
#[derive(Clone, Copy, PartialEq, Eq, Hash, Debug)]
pub struct Whole {
    /// The stream's length.
    pub length: usize,
    /// How many of its blocks have unused septet bits set: bits 4 to 6 in a packet's frame, bit 6
    /// in a datagram. Reading ignores them; what is written has none.
    pub unused_septets: usize,
}

/// The whole stream at the start of `input`, or the first fault there.
///
/// Bytes behind the stream are not looked at.
///
/// ```
/// use vbus::{validate, Fault, Verdict, Whole};
///
/// let mut stream = [0xAA, 0x10, 0x20, 0x31, 0x77, 0x30, 0x01, 0x76];
/// assert_eq!(validate(&stream), Ok(Whole { length: 8, unused_septets: 0 }));
/// stream[7] = 0x77;
/// let fault = Fault { verdict: Verdict::HeaderChecksum, offset: 7 };
/// assert_eq!(validate(&stream), Err(fault));
/// ```
pub fn validate(input: &[u8]) -> Result<Whole, Fault> {
    // SAFETY: pointer and count are those of a slice.
    let answer = unsafe { vbus_sys::vbus_validate(input.as_ptr(), input.len()) };
    match answer.verdict {
        0 => Ok(Whole {
            length: answer.offset,
            unused_septets: answer.unused_septets,
        }),
        verdict => Err(Fault::from_sys(verdict, answer.offset)),
    }
}

/// The first record of `input` at or after `start`, without allocating.
///
/// The payload goes to the start of `buffer`; [`MAX_PAYLOAD`] bytes always suffice.
///
/// ```
/// let input = [0xAA, 0x10, 0x20, 0x31, 0x77, 0x30, 0x01, 0x76];
/// let mut buffer = [0; vbus::MAX_PAYLOAD];
/// let found = vbus::next(&input, 0, &mut buffer)?.unwrap();
/// assert_eq!((found.position, found.length), (0, 8));
/// assert_eq!(found.header.destination, 0x2010);
/// assert!(found.payload.is_empty());
/// assert_eq!(vbus::next(&input, found.end(), &mut buffer)?, None);
/// # Ok::<(), vbus::Error>(())
/// ```
pub fn next<'b>(
    input: &[u8],
    start: usize,
    buffer: &'b mut [u8],
) -> Result<Option<Found<'b>>, Error> {
    let (pointer, room) = (buffer.as_mut_ptr(), buffer.len());
    // SAFETY: pointers and counts are those of slices; `buffer` is borrowed mutably, so it does
    // not overlap `input`.
    let answer = unsafe { vbus_sys::vbus_next(input.as_ptr(), input.len(), start, pointer, room) };
    check(answer.number)?;
    Ok(answer.found.then(|| Found {
        position: answer.position,
        length: answer.length,
        header: Header::from_sys(answer.header),
        payload: &buffer[..answer.payload_length],
    }))
}

// Writing

/// Writes a record's stream to the start of `out` and returns its length.
///
/// [`MAX_STREAM`] bytes always suffice.
///
/// ```
/// let header = vbus::Header::telegram(0x2010, 0x7731, 0x01);
/// let mut out = [0; 10];
/// assert_eq!(vbus::encode(header, &[], &mut out), Ok(8));
/// assert_eq!(out, [0xAA, 0x10, 0x20, 0x31, 0x77, 0x30, 0x01, 0x76, 0, 0]);
/// assert_eq!(vbus::encode(header, &[], &mut out[..7]), Err(vbus::Error::OutputTooShort));
/// ```
pub fn encode(header: Header, payload: &[u8], out: &mut [u8]) -> Result<usize, Error> {
    let (from, n) = (payload.as_ptr(), payload.len());
    let (to, room) = (out.as_mut_ptr(), out.len());
    // SAFETY: pointers and counts are those of slices; `out` is borrowed mutably, so it does not
    // overlap `payload`.
    let answer = unsafe { vbus_sys::vbus_encode(header.to_sys(), from, n, to, room) };
    check(answer.number)?;
    Ok(answer.length)
}

/// Writes the streams of all records of a recording to the start of `out`, with nothing between
/// them, and returns their length.
///
/// They are those that [`encode`] writes: unused septet bits are 0 in them. As much room as the
/// recording's length always suffices.
///
/// ```
/// let recording = [0x10, 0xAA, 0x10, 0x20, 0x31, 0x77, 0x30, 0x01, 0x76, 0xAA];
/// let mut out = [0; 10];
/// assert_eq!(vbus::normalize(&recording, &mut out), Ok(8));
/// assert_eq!(out[..8], recording[1..9]);
/// ```
pub fn normalize(recording: &[u8], out: &mut [u8]) -> Result<usize, Error> {
    let (from, n) = (recording.as_ptr(), recording.len());
    let (to, room) = (out.as_mut_ptr(), out.len());
    // SAFETY: pointers and counts are those of slices; `out` is borrowed mutably, so it does not
    // overlap `recording`.
    let answer = unsafe { vbus_sys::vbus_normalize(from, n, to, room) };
    check(answer.number)?;
    Ok(answer.length)
}

// What payloads hold

/// A datagram's parameter: the first two payload bytes, low byte first.
///
/// ```
/// assert_eq!(vbus::parameter(&[0x34, 0x12, 0xEE, 0x02, 0x00, 0x00]), 0x1234);
/// ```
pub fn parameter(payload: &[u8; 6]) -> u16 {
    u16::from_le_bytes([payload[0], payload[1]])
}

/// A datagram's value: the last four payload bytes, low byte first, as a signed number.
///
/// ```
/// assert_eq!(vbus::value(&[0x34, 0x12, 0xEE, 0x02, 0x00, 0x00]), 750);
/// ```
pub fn value(payload: &[u8; 6]) -> i32 {
    // SAFETY: `payload` is an array of six bytes.
    unsafe { vbus_sys::vbus_value(payload) }
}

/// A temperature of a block packet: the two bytes of an element, low byte first, as a signed
/// number. [`Section::temperatures`] gives all of a section.
///
/// ```
/// assert_eq!(vbus::temperature(&[0xEE, 0x02]), 750);
/// assert_eq!(vbus::temperature(&[0xFF, 0xFF]), -1);
/// ```
pub fn temperature(bytes: &[u8; 2]) -> i16 {
    // SAFETY: `bytes` is an array of two bytes.
    unsafe { vbus_sys::vbus_temperature(bytes) }
}
