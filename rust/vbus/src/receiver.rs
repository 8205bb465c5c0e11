//! Records out of bytes that arrive in chunks.

use core::fmt;
#[cfg(feature = "std")]
use core::iter::FusedIterator;
#[cfg(feature = "std")]
use core::mem;

#[cfg(feature = "std")]
use crate::Entry;
use crate::{check, Error, Found, Header, MAX_PAYLOAD, MAX_STREAM};

/// Takes in bytes as they arrive, a chunk at a time, and keeps an unfinished stream between calls.
///
/// However a recording is cut, a fresh receiver that all of it is handed to gives the records of the
/// whole recording, in order, at their positions there.
///
/// ```
/// let telegram = [0xAA, 0x10, 0x20, 0x31, 0x77, 0x30, 0x01, 0x76];
/// let mut receiver = vbus::Receiver::new();
/// assert_eq!(receiver.receive(&[0x00, 0x00])?.record, None);
/// assert_eq!(receiver.receive(&telegram[..5])?.record, None);
/// assert_eq!(receiver.held(), &telegram[..5]);
///
/// let chunk = [0x30, 0x01, 0x76, 0xAA];
/// let received = receiver.receive(&chunk)?;
/// assert_eq!(received.used, 3);
/// let record = received.record.unwrap();
/// assert_eq!((record.position, record.length), (2, 8));
/// assert_eq!(record.header.source, 0x7731);
/// assert_eq!(receiver.position(), 10);
///
/// // What is left of the chunk is handed over in the next call.
/// let received = receiver.receive(&chunk[3..])?;
/// assert_eq!((received.used, received.record), (1, None));
/// # Ok::<(), vbus::Error>(())
/// ```
///
/// It counts the bytes used in 64 bits. A chunk that would take the count further is refused; on a
/// bus that takes hundreds of millions of years.
///
/// It needs no heap: it owns its buffers, some 1,300 bytes, and [`Receiver::new`] is `const`, so that
/// it can be part of a `static`.
#[derive(Clone)]
pub struct Receiver {
    state: vbus_sys::Receiver,
    memory: [u8; MAX_STREAM],
    payload: [u8; MAX_PAYLOAD],
}

impl Receiver {
    /// A fresh receiver, which holds nothing and used nothing.
    pub const fn new() -> Receiver {
        Receiver::at(0)
    }

    /// A receiver that holds nothing and counts on from `position`, such as where an earlier
    /// recording or an earlier receiver ended.
    ///
    /// ```
    /// let telegram = [0xAA, 0x10, 0x20, 0x31, 0x77, 0x30, 0x01, 0x76];
    /// let mut receiver = vbus::Receiver::at(5_000_000_000);
    /// let received = receiver.receive(&telegram)?;
    /// assert_eq!(received.record.unwrap().position, 5_000_000_000);
    /// assert_eq!(receiver.position(), 5_000_000_008);
    /// # Ok::<(), vbus::Error>(())
    /// ```
    pub const fn at(position: u64) -> Receiver {
        Receiver {
            state: vbus_sys::Receiver { held: 0, position },
            memory: [0; MAX_STREAM],
            payload: [0; MAX_PAYLOAD],
        }
    }

    /// Takes in `chunk` up to the last byte of the first record's stream, or, if no record ends in
    /// it, all of it. A chunk may have any length, also 0.
    ///
    /// To read a chunk whole, call again with what is left of it until nothing is.
    ///
    /// ```
    /// let telegram = [0xAA, 0x10, 0x20, 0x31, 0x77, 0x30, 0x01, 0x76];
    /// let chunk = [telegram, telegram].concat();
    /// let mut receiver = vbus::Receiver::new();
    /// let mut rest = &chunk[..];
    /// let mut positions = Vec::new();
    /// while !rest.is_empty() {
    ///     let received = receiver.receive(rest)?;
    ///     rest = &rest[received.used..];
    ///     if let Some(record) = received.record {
    ///         assert_eq!(record.to_string(), "T 2010 7731 30 01");
    ///         positions.push(record.position);
    ///     }
    /// }
    /// assert_eq!(positions, [0, 8]);
    /// # Ok::<(), vbus::Error>(())
    /// ```
    ///
    /// The only refusal is [`Error::PositionOverflow`]: the chunk, wholly used, would take the
    /// receiver's position past the largest 64-bit number. Nothing is used and nothing changes then.
    ///
    /// ```
    /// let mut receiver = vbus::Receiver::at(u64::MAX - 2);
    /// assert_eq!(receiver.receive(&[0; 3]), Err(vbus::Error::PositionOverflow));
    /// assert_eq!(receiver.receive(&[0; 2])?.used, 2);
    /// assert_eq!(receiver.position(), u64::MAX);
    /// # Ok::<(), vbus::Error>(())
    /// ```
    pub fn receive(&mut self, chunk: &[u8]) -> Result<Received<'_>, Error> {
        let (from, n) = (chunk.as_ptr(), chunk.len());
        let (to, room) = (self.payload.as_mut_ptr(), self.payload.len());
        // SAFETY: pointers and counts are those of a slice and of two arrays; the arrays are
        // borrowed mutably, so nothing overlaps them.
        let answer =
            unsafe { vbus_sys::vbus_receive(self.state, &mut self.memory, from, n, to, room) };
        check(answer.number)?;
        self.state = answer.receiver;
        Ok(Received {
            used: answer.used,
            record: answer.found.then(|| Found {
                position: answer.position,
                length: answer.length,
                header: Header::from_sys(answer.header),
                payload: &self.payload[..answer.payload_length],
            }),
        })
    }

    /// The records that end in `chunk`, in order; all of it is used, also if not all of them are
    /// asked for. Refused as [`Receiver::receive`] refuses the whole chunk, before any of it is used.
    ///
    /// ```
    /// let telegram = [0xAA, 0x10, 0x20, 0x31, 0x77, 0x30, 0x01, 0x76];
    /// let mut receiver = vbus::Receiver::new();
    /// let mut positions = Vec::new();
    /// for chunk in [&telegram[..3], &telegram[3..], &[], &[telegram, telegram].concat()] {
    ///     positions.extend(receiver.records(chunk)?.map(|entry| entry.position));
    /// }
    /// assert_eq!(positions, [0, 8, 16]);
    /// # Ok::<(), vbus::Error>(())
    /// ```
    #[cfg(feature = "std")]
    pub fn records<'r, 'c>(
        &'r mut self,
        chunk: &'c [u8],
    ) -> Result<ReceivedRecords<'r, 'c>, Error> {
        let end = self.position().checked_add(chunk.len() as u64);
        end.ok_or(Error::PositionOverflow)?;
        Ok(ReceivedRecords {
            receiver: self,
            rest: chunk,
        })
    }

    /// How many bytes were used so far, those before the position that it began at among them.
    pub fn position(&self) -> u64 {
        self.state.position
    }

    /// The bytes of the unfinished stream, which the next chunk may go on with.
    ///
    /// A stream is kept until it is as long as it announces, also where a checksum in it is already
    /// wrong. Bytes outside of a stream are not kept.
    pub fn held(&self) -> &[u8] {
        &self.memory[..self.state.held]
    }

    /// Forgets the unfinished stream: what follows is received as by a fresh receiver, but that the
    /// position stays and counts on.
    ///
    /// ```
    /// let telegram = [0xAA, 0x10, 0x20, 0x31, 0x77, 0x30, 0x01, 0x76];
    /// let mut receiver = vbus::Receiver::new();
    /// assert_eq!(receiver.receive(&telegram[..5])?.used, 5);
    /// receiver.reset();
    /// assert_eq!(receiver.position(), 5);
    /// assert_eq!(receiver.receive(&telegram[5..])?.record, None);
    /// let received = receiver.receive(&telegram)?;
    /// assert_eq!(received.record.unwrap().position, 8);
    /// # Ok::<(), vbus::Error>(())
    /// ```
    pub fn reset(&mut self) {
        // SAFETY: it takes no pointer.
        self.state = unsafe { vbus_sys::vbus_reset(self.state) };
    }
}

impl Default for Receiver {
    fn default() -> Receiver {
        Receiver::new()
    }
}

/// Shows the position and the bytes held; the other bytes have no meaning.
impl fmt::Debug for Receiver {
    fn fmt(&self, f: &mut fmt::Formatter<'_>) -> fmt::Result {
        f.debug_struct("Receiver")
            .field("position", &self.position())
            .field("held", &self.held())
            .finish()
    }
}

/// What [`Receiver::receive`] made of a chunk.
#[derive(Clone, Copy, PartialEq, Eq, Hash, Debug)]
#[must_use = "what is left of the chunk has to be handed over again"]
pub struct Received<'r> {
    /// How many bytes of the chunk were used: all of them if there is no record.
    pub used: usize,
    /// The record whose stream ends with the last byte used.
    pub record: Option<Found<'r>>,
}

/// The records that end in a chunk, in order. Made by [`Receiver::records`].
///
/// Dropped before its end it uses the rest of the chunk, without the records there: so the receiver
/// has taken in every byte, and a stream that the chunk leaves unfinished isn't lost. To go on with
/// these records later, take [`ReceivedRecords::into_rest`].
#[cfg(feature = "std")]
#[derive(Debug)]
#[must_use = "dropped at once, it passes over the chunk's records"]
pub struct ReceivedRecords<'r, 'c> {
    receiver: &'r mut Receiver,
    rest: &'c [u8],
}

#[cfg(feature = "std")]
impl<'c> ReceivedRecords<'_, 'c> {
    /// Stops here: the bytes that weren't used yet, for the receiver to take in later.
    ///
    /// ```
    /// let telegram = [0xAA, 0x10, 0x20, 0x31, 0x77, 0x30, 0x01, 0x76];
    /// let chunk = [telegram, telegram].concat();
    /// let mut receiver = vbus::Receiver::new();
    /// let mut records = receiver.records(&chunk)?;
    /// assert!(records.next().is_some());
    /// let rest = records.into_rest();
    /// assert_eq!(rest, telegram);
    /// assert_eq!(receiver.records(rest)?.count(), 1);
    /// # Ok::<(), vbus::Error>(())
    /// ```
    pub fn into_rest(mut self) -> &'c [u8] {
        // Nothing is left to be used when it is dropped.
        mem::take(&mut self.rest)
    }

    /// Hands the rest over once.
    fn receive_rest(&mut self) -> Option<Found<'_>> {
        // What a call uses moves from the rest to the position: their sum stays that of the whole
        // chunk, which `Receiver::records` found small enough.
        let received = self.receiver.receive(self.rest).expect("the chunk fits");
        self.rest = &self.rest[received.used..];
        received.record
    }
}

#[cfg(feature = "std")]
impl Iterator for ReceivedRecords<'_, '_> {
    type Item = Entry;

    fn next(&mut self) -> Option<Entry> {
        // An empty rest brings no record: a call with it would change nothing.
        if self.rest.is_empty() {
            return None;
        }
        self.receive_rest().map(|record| record.to_entry())
    }
}

#[cfg(feature = "std")]
impl FusedIterator for ReceivedRecords<'_, '_> {}

#[cfg(feature = "std")]
impl Drop for ReceivedRecords<'_, '_> {
    fn drop(&mut self) {
        while !self.rest.is_empty() {
            self.receive_rest();
        }
    }
}
