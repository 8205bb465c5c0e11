//! A record without a heap: its payload is in a buffer.

use core::fmt;

use crate::header::{datagram_payload, write_line};
use crate::sections::{sections, Sections};
use crate::{parameter, read_slave_id, value, Error, Header, SlaveId};
#[cfg(feature = "std")]
use crate::{Entry, Record};

/// A record, its payload in a buffer: that of the call of [`next`](crate::next) that found it, or the
/// [`Receiver`](crate::Receiver)'s. Two records are the same, wherever they stand, if their headers
/// and payloads are equal; `==` compares their positions too.
///
/// ```
/// let recording = [0x00, 0xAA, 0xAA, 0x10, 0x20, 0x31, 0x77, 0x30, 0x01, 0x76];
/// let mut buffer = [0; vbus::MAX_PAYLOAD];
/// let found = vbus::next(&recording, 0, &mut buffer)?.unwrap();
/// let mut receiver = vbus::Receiver::new();
/// assert_eq!(receiver.receive(&recording)?.record, Some(found));
/// assert_eq!((found.position, found.length), (2, 8));
/// # Ok::<(), vbus::Error>(())
/// ```
#[derive(Clone, Copy, PartialEq, Eq, Hash, Debug)]
pub struct Found<'b> {
    /// The position of the record's 0xAA: from the start of the input of [`next`](crate::next), or
    /// of all that the receiver used, in whichever chunks it came.
    pub position: u64,
    /// The length of the record's stream.
    pub length: usize,
    /// Everything of the record but its payload.
    pub header: Header,
    /// The payload, with its top bits.
    pub payload: &'b [u8],
}

impl<'b> Found<'b> {
    /// The place behind the record's stream in the input of [`next`](crate::next): where to look for
    /// the next record. Of a receiver's record it is no place in any input.
    ///
    /// ```
    /// let telegram = [0xAA, 0x10, 0x20, 0x31, 0x77, 0x30, 0x01, 0x76];
    /// let recording = [telegram, telegram].concat();
    /// let mut buffer = [0; vbus::MAX_PAYLOAD];
    /// let mut start = 0;
    /// let mut positions = Vec::new();
    /// while let Some(found) = vbus::next(&recording, start, &mut buffer)? {
    ///     positions.push(found.position);
    ///     start = found.end();
    /// }
    /// assert_eq!(positions, [0, 8]);
    /// # Ok::<(), vbus::Error>(())
    /// ```
    pub fn end(&self) -> usize {
        self.position as usize + self.length
    }

    /// A datagram's parameter; `None` for other kinds and other payloads than of six bytes.
    ///
    /// ```
    /// let stream = [
    ///     0xAA, 0x20, 0x00, 0x11, 0x19, 0x20, 0x00, 0x02, // header
    ///     0x34, 0x12, 0x7E, 0x7F, 0x7F, 0x7F, 0x3C, 0x16, // parameter and value
    /// ];
    /// let mut buffer = [0; vbus::MAX_PAYLOAD];
    /// let found = vbus::next(&stream, 0, &mut buffer)?.unwrap();
    /// assert_eq!(found.parameter(), Some(0x1234));
    /// # Ok::<(), vbus::Error>(())
    /// ```
    pub fn parameter(&self) -> Option<u16> {
        datagram_payload(self.header, self.payload).map(parameter)
    }

    /// A datagram's value; `None` for other kinds and other payloads than of six bytes.
    ///
    /// ```
    /// let stream = [
    ///     0xAA, 0x20, 0x00, 0x11, 0x19, 0x20, 0x00, 0x02, // header
    ///     0x34, 0x12, 0x7E, 0x7F, 0x7F, 0x7F, 0x3C, 0x16, // parameter and value
    /// ];
    /// let mut buffer = [0; vbus::MAX_PAYLOAD];
    /// let found = vbus::next(&stream, 0, &mut buffer)?.unwrap();
    /// assert_eq!(found.value(), Some(-2));
    /// # Ok::<(), vbus::Error>(())
    /// ```
    pub fn value(&self) -> Option<i32> {
        datagram_payload(self.header, self.payload).map(value)
    }

    /// The sections of a block packet.
    pub fn sections(&self) -> Result<Sections<'b>, Error> {
        sections(self.header, self.payload)
    }

    /// What a slave ID response tells; refused for other records.
    pub fn slave_id(&self) -> Result<SlaveId, Error> {
        read_slave_id(self.header, self.payload)
    }

    /// A copy that doesn't borrow from the buffer.
    #[cfg(feature = "std")]
    pub fn to_record(&self) -> Record {
        Record {
            header: self.header,
            payload: self.payload.to_vec(),
        }
    }

    /// The same with where the stream lies.
    #[cfg(feature = "std")]
    pub fn to_entry(&self) -> Entry {
        Entry {
            position: self.position,
            length: self.length,
            record: self.to_record(),
        }
    }
}

/// The record's line of a listing, without the newline.
///
/// ```
/// let input = [0xAA, 0x10, 0x20, 0x31, 0x77, 0x30, 0x01, 0x76];
/// let mut buffer = [0; vbus::MAX_PAYLOAD];
/// let found = vbus::next(&input, 0, &mut buffer)?.unwrap();
/// assert_eq!(found.to_string(), "T 2010 7731 30 01");
/// # Ok::<(), vbus::Error>(())
/// ```
impl fmt::Display for Found<'_> {
    fn fmt(&self, f: &mut fmt::Formatter<'_>) -> fmt::Result {
        write_line(f, self.header, self.payload)
    }
}
