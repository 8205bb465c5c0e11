//! Records on the heap.

use core::fmt;
use core::iter::FusedIterator;

use crate::header::{datagram_payload, write_line};
use crate::sections::{sections, Sections};
use crate::{encode, next, normalize, parameter, read_slave_id, value};
use crate::{Error, Header, SlaveId, MAX_PAYLOAD, MAX_STREAM};

/// What a stream carries.
///
/// The constructors check nothing: a record that no stream carries is refused when it is encoded.
#[derive(Clone, PartialEq, Eq, Hash, Debug, Default)]
pub struct Record {
    /// Everything but the payload.
    pub header: Header,
    /// The payload, with its top bits.
    pub payload: Vec<u8>,
}

impl Record {
    /// A packet.
    ///
    /// ```
    /// let record = vbus::Record::packet(0x4411, 0x6610, 0x0200, [0x07, 0x04, 0x0F, 0x00]);
    /// assert_eq!(record.to_stream()?.len(), 16);
    /// let odd = vbus::Record::packet(0x4411, 0x6610, 0x0200, [0x07]);
    /// assert_eq!(odd.to_stream(), Err(vbus::Error::WrongLength));
    /// # Ok::<(), vbus::Error>(())
    /// ```
    pub fn packet(
        destination: u16,
        source: u16,
        command: u16,
        payload: impl Into<Vec<u8>>,
    ) -> Record {
        Record {
            header: Header::packet(destination, source, command),
            payload: payload.into(),
        }
    }

    /// A datagram.
    ///
    /// ```
    /// let record = vbus::Record::datagram(0x0020, 0x1911, 0x0200, 0x1234, -2);
    /// assert_eq!(record.payload, [0x34, 0x12, 0xFE, 0xFF, 0xFF, 0xFF]);
    /// assert_eq!((record.parameter(), record.value()), (Some(0x1234), Some(-2)));
    /// ```
    pub fn datagram(
        destination: u16,
        source: u16,
        command: u16,
        parameter: u16,
        value: i32,
    ) -> Record {
        let mut payload = parameter.to_le_bytes().to_vec();
        payload.extend(value.to_le_bytes());
        Record {
            header: Header::datagram(destination, source, command),
            payload,
        }
    }

    /// A telegram of version 3.0; its command says how many frames of seven bytes it has.
    ///
    /// ```
    /// let record = vbus::Record::telegram(0x2010, 0x7731, 0x01, []);
    /// assert_eq!(record.to_stream()?, [0xAA, 0x10, 0x20, 0x31, 0x77, 0x30, 0x01, 0x76]);
    /// # Ok::<(), vbus::Error>(())
    /// ```
    pub fn telegram(
        destination: u16,
        source: u16,
        command: u8,
        payload: impl Into<Vec<u8>>,
    ) -> Record {
        Record {
            header: Header::telegram(destination, source, command),
            payload: payload.into(),
        }
    }

    /// A telegram of version 3.1; its command says how many frames of seven bytes it has.
    ///
    /// ```
    /// let record = vbus::Record::telegram_31(0x2010, 0x7731, 0x01, []);
    /// assert_eq!(record.to_stream()?, [0xAA, 0x10, 0x20, 0x31, 0x77, 0x31, 0x01, 0x75]);
    /// # Ok::<(), vbus::Error>(())
    /// ```
    pub fn telegram_31(
        destination: u16,
        source: u16,
        command: u8,
        payload: impl Into<Vec<u8>>,
    ) -> Record {
        Record {
            header: Header::telegram_31(destination, source, command),
            payload: payload.into(),
        }
    }

    /// Writes the record's stream to the start of `out` and returns its length.
    pub fn encode(&self, out: &mut [u8]) -> Result<usize, Error> {
        encode(self.header, &self.payload, out)
    }

    /// The record's stream.
    pub fn to_stream(&self) -> Result<Vec<u8>, Error> {
        encode_to_vec(self.header, &self.payload)
    }

    /// A datagram's parameter; `None` for other kinds and other payloads than of six bytes.
    ///
    /// ```
    /// let record = vbus::Record::datagram(0x0020, 0x1911, 0x0200, 0x1234, 750);
    /// assert_eq!(record.parameter(), Some(0x1234));
    /// assert_eq!(vbus::Record::packet(0x0010, 0x7E21, 0x0100, [0; 8]).parameter(), None);
    /// ```
    pub fn parameter(&self) -> Option<u16> {
        datagram_payload(self.header, &self.payload).map(parameter)
    }

    /// A datagram's value; `None` for other kinds and other payloads than of six bytes.
    ///
    /// ```
    /// let record = vbus::Record::datagram(0x0020, 0x1911, 0x0200, 0x1234, 750);
    /// assert_eq!(record.value(), Some(750));
    /// assert_eq!(vbus::Record::packet(0x0010, 0x7E21, 0x0100, [0; 8]).value(), None);
    /// ```
    pub fn value(&self) -> Option<i32> {
        datagram_payload(self.header, &self.payload).map(value)
    }

    /// The sections of a block packet.
    pub fn sections(&self) -> Result<Sections<'_>, Error> {
        sections(self.header, &self.payload)
    }

    /// What a slave ID response tells; refused for other records.
    ///
    /// ```
    /// let payload = [0x38, 0x90, 0x0D, 0xB6, 0xC6, 0x23, 0x00];
    /// let id = vbus::Record::telegram(0x7731, 0x2010, 0x23, payload).slave_id()?;
    /// assert_eq!((id.product, id.week, id.serial), (888_888, 17, 116_406));
    /// # Ok::<(), vbus::Error>(())
    /// ```
    pub fn slave_id(&self) -> Result<SlaveId, Error> {
        read_slave_id(self.header, &self.payload)
    }
}

/// The record's line of a listing, without the newline.
///
/// ```
/// let packet = vbus::Record::packet(0x4411, 0x6610, 0x0200, [0x07, 0x04, 0x0F, 0x00]);
/// assert_eq!(packet.to_string(), "P 4411 6610 10 0200 07040F00");
/// let telegram = vbus::Record::telegram(0x2010, 0x7731, 0x01, []);
/// assert_eq!(telegram.to_string(), "T 2010 7731 30 01");
/// ```
impl fmt::Display for Record {
    fn fmt(&self, f: &mut fmt::Formatter<'_>) -> fmt::Result {
        write_line(f, self.header, &self.payload)
    }
}

/// A record, and where its stream lies. Two records are the same, wherever they stand, if their
/// `record`s are equal.
#[derive(Clone, PartialEq, Eq, Hash, Debug)]
pub struct Entry {
    /// The position of the record's 0xAA, from the start of the recording, or of all that the
    /// [`Receiver`](crate::Receiver) used.
    pub position: u64,
    /// The length of the record's stream.
    pub length: usize,
    /// The record.
    pub record: Record,
}

/// The records of a recording, in order. Made by [`records`].
#[derive(Clone, Debug)]
pub struct Records<'a> {
    input: &'a [u8],
    start: usize,
}

/// The records of a recording, in order; damaged streams and noise are passed over.
///
/// ```
/// let stream = [0xAA, 0x10, 0x20, 0x31, 0x77, 0x30, 0x01, 0x76];
/// let recording = [&stream[..], &stream[..5], &stream[..]].concat();
/// let positions: Vec<u64> = vbus::records(&recording).map(|entry| entry.position).collect();
/// assert_eq!(positions, [0, 13]);
/// ```
pub fn records(recording: &[u8]) -> Records<'_> {
    Records {
        input: recording,
        start: 0,
    }
}

impl Iterator for Records<'_> {
    type Item = Entry;

    fn next(&mut self) -> Option<Entry> {
        let mut buffer = [0; MAX_PAYLOAD];
        let found = next(self.input, self.start, &mut buffer)
            .expect("the start lies in the input and every payload fits");
        // Where there is none, nothing is left to be looked at.
        self.start = found.map_or(self.input.len(), |found| found.end());
        found.map(|found| found.to_entry())
    }
}

impl FusedIterator for Records<'_> {}

/// A record's stream.
///
/// ```
/// let header = vbus::Header::telegram(0x2010, 0x7731, 0x01);
/// let stream = vbus::encode_to_vec(header, &[])?;
/// assert_eq!(stream, [0xAA, 0x10, 0x20, 0x31, 0x77, 0x30, 0x01, 0x76]);
/// # Ok::<(), vbus::Error>(())
/// ```
pub fn encode_to_vec(header: Header, payload: &[u8]) -> Result<Vec<u8>, Error> {
    let mut out = [0; MAX_STREAM];
    let length = encode(header, payload, &mut out)?;
    Ok(out[..length].to_vec())
}

/// The streams of all records of a recording, with nothing between them; unused septet bits are 0
/// in them.
///
/// ```
/// let stream = [0xAA, 0x10, 0x20, 0x31, 0x77, 0x30, 0x01, 0x76];
/// let recording = [&stream[..5], &stream[..], &[0x00]].concat();
/// assert_eq!(vbus::normalize_to_vec(&recording), stream);
/// ```
pub fn normalize_to_vec(recording: &[u8]) -> Vec<u8> {
    let mut out = vec![0; recording.len()];
    let length =
        normalize(recording, &mut out).expect("the streams are no longer than the recording");
    out.truncate(length);
    out
}
