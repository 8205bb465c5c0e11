//! What of the receiver needs the feature `std`: its iterator, and the reader of records.

mod samples;

use std::collections::VecDeque;
use std::io::{self, ErrorKind, Read};

use samples::{D1, P1, T2};
use vbus::*;

/// P1, D1 and T2, and the start of another stream.
fn chunk() -> Vec<u8> {
    [&P1[..], &D1, &[0x00], &T2, &P1[..9]].concat()
}

/// The positions and commands of entries.
fn known(entries: &[Entry]) -> Vec<(u64, u16)> {
    entries
        .iter()
        .map(|entry| (entry.position, entry.record.header.command))
        .collect()
}

#[test]
fn records_of_chunks() {
    let recording = [chunk(), P1[9..].to_vec()].concat();
    let expected: Vec<Entry> = records(&recording).collect();
    let all = [(0, 0x0200), (16, 0x0100), (33, 0x23), (50, 0x0200)];
    assert_eq!(known(&expected), all);
    for length in 1..=recording.len() {
        let mut receiver = Receiver::new();
        let mut received = Vec::new();
        for chunk in recording.chunks(length) {
            received.extend(receiver.records(chunk).unwrap());
        }
        assert_eq!(received, expected, "in chunks of {length}");
    }
}

#[test]
fn stays_at_its_end() {
    let mut receiver = Receiver::new();
    let mut records = receiver.records(&P1).unwrap();
    assert!(records.next().is_some());
    assert!(records.next().is_none());
    assert!(records.next().is_none());
}

#[test]
fn dropped_early_it_uses_the_rest() {
    let chunk = chunk();
    let mut receiver = Receiver::new();
    let first = receiver.records(&chunk).unwrap().next().unwrap();
    assert_eq!(known(&[first]), [(0, 0x0200)]);
    assert_eq!(receiver.held(), &P1[..9]);
    assert_eq!(receiver.position(), 59);
    let next: Vec<Entry> = receiver.records(&P1[9..]).unwrap().collect();
    assert_eq!(known(&next), [(50, 0x0200)]);
    // Also if no record was asked for.
    drop(receiver.records(&chunk).unwrap());
    assert_eq!(receiver.held(), &P1[..9]);
    assert_eq!(receiver.position(), 66 + 59);
}

#[test]
fn the_rest_is_given_back() {
    let chunk = chunk();
    let mut receiver = Receiver::new();
    let mut records = receiver.records(&chunk).unwrap();
    assert!(records.next().is_some());
    let rest = records.into_rest();
    assert_eq!(rest, &chunk[16..]);
    assert!(receiver.held().is_empty());
    assert_eq!(receiver.position(), 16);
    let records: Vec<Entry> = receiver.records(rest).unwrap().collect();
    assert_eq!(known(&records), [(16, 0x0100), (33, 0x23)]);
    let all = receiver.records(&P1[9..]).unwrap().into_rest();
    assert_eq!(all, &P1[9..]);
    assert_eq!(receiver.held(), &P1[..9]);
}

/// Refused before any of the chunk is used, also where its first record would have fitted; and never
/// on the way, where the chunk ends just at the largest position.
#[test]
fn a_chunk_is_refused_whole() {
    let chunk = chunk();
    let start = u64::MAX - chunk.len() as u64;
    let mut receiver = Receiver::at(start + 1);
    let refused = receiver.records(&chunk).err();
    assert_eq!(refused, Some(Error::PositionOverflow));
    assert_eq!(receiver.position(), start + 1);
    assert!(receiver.held().is_empty());

    let mut receiver = Receiver::at(start);
    let entries: Vec<Entry> = receiver.records(&chunk).unwrap().collect();
    let positions = [0, 16, 33].map(|at| start + at);
    assert!(entries.iter().map(|entry| entry.position).eq(positions));
    assert_eq!(receiver.position(), u64::MAX);
    assert_eq!(receiver.records(&[]).unwrap().count(), 0);
    assert!(receiver.records(&[0x00]).is_err());

    let mut receiver = Receiver::at(start);
    drop(receiver.records(&chunk).unwrap());
    assert_eq!(receiver.position(), u64::MAX);
    assert_eq!(receiver.held(), &P1[..9]);
}

/// Gives what it was told to, one after the other: bytes, or an error. Then it is at its end.
struct Script(VecDeque<Result<Vec<u8>, ErrorKind>>);

impl Read for Script {
    fn read(&mut self, buffer: &mut [u8]) -> io::Result<usize> {
        match self.0.pop_front() {
            None => Ok(0),
            Some(Err(kind)) => Err(kind.into()),
            Some(Ok(bytes)) => {
                buffer[..bytes.len()].copy_from_slice(&bytes);
                Ok(bytes.len())
            }
        }
    }
}

/// What a reader of records gives: a record's position, or the kind of an error.
fn asked<R: Read>(records: &mut RecordReader<R>) -> Option<Result<u64, ErrorKind>> {
    records.next().map(|record| match record {
        Ok(entry) => Ok(entry.position),
        Err(error) => Err(error.kind()),
    })
}

#[test]
fn reads_a_recording() {
    let chunk = chunk();
    let mut reader = RecordReader::new(&chunk[..]);
    let read: Vec<Entry> = reader.by_ref().collect::<io::Result<_>>().unwrap();
    assert!(records(&chunk).eq(read));
    assert_eq!(reader.receiver().held(), &P1[..9]);
    assert_eq!(reader.receiver().position(), 59);
    assert!(reader.get_ref().is_empty());
    assert!(reader.into_inner().is_empty());
}

/// Longer than any buffer of a reader.
#[test]
fn reads_a_long_recording() {
    let recording = chunk().repeat(5_000);
    let read = RecordReader::new(&recording[..]).map(io::Result::unwrap);
    let positions: Vec<u64> = read.map(|entry| entry.position).collect();
    assert_eq!(positions.len(), 15_000);
    assert_eq!(positions[14_997..], [0, 16, 33].map(|at| 4_999 * 59 + at));
}

#[test]
fn goes_on_after_errors() {
    let script = [
        Ok(P1[..7].to_vec()),
        Err(ErrorKind::Interrupted),
        Err(ErrorKind::TimedOut),
        Err(ErrorKind::Interrupted),
        Ok([&P1[7..], &D1[..2]].concat()),
        Err(ErrorKind::WouldBlock),
        Err(ErrorKind::WouldBlock),
        Ok([&D1[2..], &T2].concat()),
    ];
    let mut records = RecordReader::new(Script(script.into()));
    assert_eq!(asked(&mut records), Some(Err(ErrorKind::TimedOut)));
    assert_eq!(records.receiver().held(), &P1[..7]);
    assert_eq!(asked(&mut records), Some(Ok(0)));
    assert_eq!(asked(&mut records), Some(Err(ErrorKind::WouldBlock)));
    assert_eq!(asked(&mut records), Some(Err(ErrorKind::WouldBlock)));
    assert_eq!(asked(&mut records), Some(Ok(16)));
    assert_eq!(asked(&mut records), Some(Ok(32)));
    assert_eq!(asked(&mut records), None);
}

#[test]
fn goes_on_where_a_file_grew() {
    let mut records = RecordReader::new(Script([Ok(P1[..7].to_vec())].into()));
    assert_eq!(asked(&mut records), None);
    assert_eq!(asked(&mut records), None);
    let rest = [&P1[7..], &D1].concat();
    records.get_mut().0.push_back(Ok(rest));
    assert_eq!(asked(&mut records), Some(Ok(0)));
    assert_eq!(asked(&mut records), Some(Ok(16)));
    assert_eq!(asked(&mut records), None);
}

/// A receiver goes on with another reader; after a reset only its position is left of what it had.
#[test]
fn goes_on_with_another_reader() {
    for (reset, positions) in [(false, vec![7, 24]), (true, vec![24])] {
        let first = [&D1[..7], &P1[..9]].concat();
        let mut records = RecordReader::new(&first[..]);
        assert_eq!(asked(&mut records), None);
        let mut receiver = records.receiver().clone();
        if reset {
            receiver.reset();
        }
        let again = [&P1[9..], &[0x00], &T2].concat();
        let records = RecordReader::with_receiver(&again[..], receiver);
        let read = records.map(|entry| entry.unwrap().position);
        assert_eq!(read.collect::<Vec<u64>>(), positions);
    }
}

/// A chunk that would take the position too far is refused each time it comes up, and nothing behind
/// it is read.
#[test]
fn refused_at_the_largest_position() {
    let script = [Ok(P1.to_vec()), Ok(T2.to_vec()), Ok(vec![0x00])];
    let start = u64::MAX - 16 - 16;
    let mut records = RecordReader::with_receiver(Script(script.into()), Receiver::at(start));
    assert_eq!(asked(&mut records), Some(Ok(start)));
    for _ in 0..3 {
        let error = records.next().unwrap().unwrap_err();
        assert_eq!(error.kind(), ErrorKind::Other);
        let inner = error.get_ref().and_then(|inner| inner.downcast_ref());
        assert_eq!(inner, Some(&Error::PositionOverflow));
        assert_eq!(records.receiver().position(), start + 16);
    }
    assert_eq!(records.get_ref().0.len(), 1);
}

/// A record is given as soon as its last byte was read: reading on would wait for ever.
#[test]
fn does_not_read_on_behind_a_record() {
    let script = [Ok([&P1[..], &T2].concat()), Err(ErrorKind::Other)];
    let mut records = RecordReader::new(Script(script.into()));
    assert_eq!(asked(&mut records), Some(Ok(0)));
    assert_eq!(asked(&mut records), Some(Ok(16)));
    assert_eq!(records.get_ref().0.len(), 1);
    assert_eq!(asked(&mut records), Some(Err(ErrorKind::Other)));
}
