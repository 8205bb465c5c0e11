//! Records out of anything that can be read.

use std::io::{self, BufRead, BufReader, ErrorKind, Read};

use crate::{Entry, Receiver};

/// The records that a reader gives, such as a serial port or a file, in order.
///
/// It reads into a buffer of its own, as much as there is at a time, and gives a record as soon as
/// its last byte was read. It ends where the reader is at its end.
///
/// ```
/// # fn main() -> std::io::Result<()> {
/// let recording = [
///     0xAA, 0x10, 0x20, // cut off
///     0xAA, 0x10, 0x20, 0x31, 0x77, 0x30, 0x01, 0x76,
/// ];
/// for entry in vbus::RecordReader::new(&recording[..]) {
///     let entry = entry?;
///     assert_eq!(entry.position, 3);
///     assert_eq!(entry.record.to_string(), "T 2010 7731 30 01");
/// }
/// # Ok(())
/// # }
/// ```
///
/// A read that is interrupted is repeated. Any other error is handed on, and nothing is lost by it:
/// asked again, as after a port's timeout, this reads on where it was, also within a stream. The same
/// holds after its end, for a file that grows. A reader that fails for good gives its error each
/// time it is asked; and so does a receiver that can't count on
/// ([`Error::PositionOverflow`](crate::Error::PositionOverflow), in an error of kind `Other`).
#[derive(Debug)]
pub struct RecordReader<R> {
    reader: BufReader<R>,
    receiver: Receiver,
}

impl<R: Read> RecordReader<R> {
    /// Reads records from `reader`, with a fresh receiver.
    pub fn new(reader: R) -> RecordReader<R> {
        RecordReader::with_receiver(reader, Receiver::new())
    }

    /// Goes on with a receiver: with what it holds and from its position.
    ///
    /// After a port was opened again positions go on, and what was left unfinished is forgotten:
    ///
    /// ```
    /// # fn main() -> std::io::Result<()> {
    /// # let telegram = [0xAA, 0x10, 0x20, 0x31, 0x77, 0x30, 0x01, 0x76];
    /// # let (port, reopened) = (&telegram[..5], &telegram[..]);
    /// use vbus::RecordReader;
    ///
    /// let mut records = RecordReader::new(port); // gives five bytes of a stream, then ends
    /// assert!(records.next().is_none());
    /// let mut receiver = records.receiver().clone();
    /// receiver.reset();
    /// let mut records = RecordReader::with_receiver(reopened, receiver);
    /// assert_eq!(records.next().unwrap()?.position, 5);
    /// # Ok(())
    /// # }
    /// ```
    pub fn with_receiver(reader: R, receiver: Receiver) -> RecordReader<R> {
        RecordReader {
            reader: BufReader::new(reader),
            receiver,
        }
    }
}

impl<R> RecordReader<R> {
    /// The reader underneath.
    pub fn get_ref(&self) -> &R {
        self.reader.get_ref()
    }

    /// The reader underneath, such as to set a port's timeout. Bytes read from it here are missing
    /// from the records.
    pub fn get_mut(&mut self) -> &mut R {
        self.reader.get_mut()
    }

    /// The receiver that the bytes went to so far; it tells how many these were, and whether a stream
    /// was left unfinished.
    ///
    /// ```
    /// let mut records = vbus::RecordReader::new(&[0x00, 0xAA, 0x10, 0x20][..]);
    /// assert!(records.next().is_none());
    /// assert_eq!(records.receiver().position(), 4);
    /// assert_eq!(records.receiver().held(), [0xAA, 0x10, 0x20]);
    /// ```
    pub fn receiver(&self) -> &Receiver {
        &self.receiver
    }

    /// Gives the reader back. Bytes that it read but didn't use yet, and an unfinished stream, are
    /// lost.
    pub fn into_inner(self) -> R {
        self.reader.into_inner()
    }
}

impl<R: Read> Iterator for RecordReader<R> {
    type Item = io::Result<Entry>;

    fn next(&mut self) -> Option<io::Result<Entry>> {
        loop {
            let chunk = match self.reader.fill_buf() {
                Ok([]) => return None,
                Ok(chunk) => chunk,
                Err(error) if error.kind() == ErrorKind::Interrupted => continue,
                Err(error) => return Some(Err(error)),
            };
            let received = match self.receiver.receive(chunk) {
                Ok(received) => received,
                Err(error) => return Some(Err(io::Error::other(error))),
            };
            self.reader.consume(received.used);
            if let Some(record) = received.record {
                return Some(Ok(record.to_entry()));
            }
        }
    }
}
