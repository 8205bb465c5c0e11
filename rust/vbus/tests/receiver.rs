//! The receiver, as far as it is there without the feature `std` too.

mod samples;

use samples::{D1, P1, T2};
use vbus::*;

/// Whole streams, and two that are cut off.
fn recording() -> Vec<u8> {
    [&P1[..], &D1, &P1[..9], &T2, &[0x00, 0x80], &D1[..12]].concat()
}

/// The position and the line of every record of a recording that begins at `from`.
fn listed(from: u64, recording: &[u8]) -> Vec<(u64, String)> {
    let mut buffer = [0; MAX_PAYLOAD];
    let mut lines = Vec::new();
    let mut start = 0;
    while let Some(found) = next(recording, start, &mut buffer).unwrap() {
        lines.push((from + found.position, found.to_string()));
        start = found.end();
    }
    lines
}

/// The same by a receiver that the chunks are handed to.
fn received<'c>(
    receiver: &mut Receiver,
    chunks: impl Iterator<Item = &'c [u8]>,
) -> Vec<(u64, String)> {
    let mut lines = Vec::new();
    for mut chunk in chunks {
        while !chunk.is_empty() {
            let received = receiver.receive(chunk).unwrap();
            chunk = &chunk[received.used..];
            let line = |record: Found| (record.position, record.to_string());
            lines.extend(received.record.map(line));
        }
    }
    lines
}

/// From several positions on; the last one just lets the recording fit.
#[test]
fn chunks_of_every_length() {
    let recording = recording();
    let n = recording.len() as u64;
    for from in [0, 1, (1 << 32) - 20, (1 << 63) - 20, u64::MAX - n] {
        let expected = listed(from, &recording);
        let positions: Vec<u64> = expected
            .iter()
            .map(|(position, _)| position - from)
            .collect();
        assert_eq!(positions, [0, 16, 41]);
        for length in 1..=recording.len() {
            let mut receiver = Receiver::at(from);
            let lines = received(&mut receiver, recording.chunks(length));
            assert_eq!(lines, expected, "in chunks of {length}");
            assert_eq!(receiver.position(), from + n);
            assert_eq!(receiver.held(), &D1[..12]);
        }
    }
}

#[test]
fn the_longest_stream_cut_at_every_byte() {
    let mut stream = [0; MAX_STREAM];
    let header = Header::packet(0x0010, 0x7E21, 0x0100);
    assert_eq!(
        encode(header, &[0xAB; MAX_PAYLOAD], &mut stream),
        Ok(MAX_STREAM)
    );
    for at in 0..MAX_STREAM {
        let mut receiver = Receiver::default();
        let first = receiver.receive(&stream[..at]).unwrap();
        assert_eq!((first.used, first.record), (at, None));
        assert_eq!(receiver.held(), &stream[..at]);
        let last = receiver.receive(&stream[at..]).unwrap();
        assert_eq!(last.used, MAX_STREAM - at);
        let record = last.record.unwrap();
        assert_eq!((record.position, record.length), (0, MAX_STREAM));
        assert_eq!(record.header, header);
        assert_eq!(record.payload, [0xAB; MAX_PAYLOAD]);
        assert!(receiver.held().is_empty());
    }
}

/// Whether a chunk brings a record.
fn delivers(receiver: &mut Receiver, chunk: &[u8]) -> bool {
    receiver.receive(chunk).unwrap().record.is_some()
}

#[test]
fn empty_chunks_change_nothing() {
    let mut receiver = Receiver::new();
    for byte in &P1[..15] {
        let received = receiver.receive(&[]).unwrap();
        assert_eq!((received.used, received.record), (0, None));
        assert!(!delivers(&mut receiver, &[*byte]));
    }
    assert_eq!(receiver.held(), &P1[..15]);
    assert_eq!(receiver.position(), 15);
    assert!(delivers(&mut receiver, &P1[15..]));
}

#[test]
fn high_bytes_end_a_stream() {
    for high in 0x80..=0xFF {
        let mut receiver = Receiver::new();
        for chunk in [&P1[..15], &[high], &P1[15..]] {
            assert!(!delivers(&mut receiver, chunk));
        }
        assert!(delivers(&mut receiver, &P1));
    }
    let mut receiver = Receiver::new();
    let received = receiver.receive(&[0xAA, 0x80, 0x00, 0xAA, 0x10]).unwrap();
    assert_eq!((received.used, received.record), (5, None));
    assert_eq!(receiver.held(), [0xAA, 0x10]);
}

#[test]
fn reset_at_every_byte() {
    let recording = recording();
    for at in 0..=recording.len() {
        let (before, behind) = recording.split_at(at);
        let mut receiver = Receiver::new();
        let lines = received(&mut receiver, before.chunks(5));
        assert_eq!(lines, listed(0, before), "before byte {at}");
        receiver.reset();
        assert!(receiver.held().is_empty());
        assert_eq!(receiver.position(), at as u64);
        let lines = received(&mut receiver, behind.chunks(5));
        assert_eq!(lines, listed(at as u64, behind), "from byte {at} on");
    }
}

/// A chunk with just so many bytes as the position has room for, and with one less and one more.
#[test]
fn up_to_the_largest_position() {
    for n in (0usize..=20).chain([772, 773]) {
        let start = u64::MAX - n as u64;
        for length in [n + 1, n, n.saturating_sub(1)] {
            let chunk: Vec<u8> = T2.into_iter().cycle().take(length).collect();
            let mut receiver = Receiver::at(start);
            if length > n {
                assert_eq!(receiver.receive(&chunk), Err(Error::PositionOverflow));
                assert_eq!(receiver.position(), start);
                assert!(receiver.held().is_empty());
            } else {
                let lines = received(&mut receiver, [&chunk[..]].into_iter());
                assert_eq!(lines, listed(start, &chunk));
                assert_eq!(receiver.position(), start + length as u64);
            }
        }
    }
}

#[test]
fn a_refused_chunk_changes_nothing() {
    let start = u64::MAX - 16;
    let mut receiver = Receiver::at(start);
    assert!(!delivers(&mut receiver, &P1[..9]));
    let long = [&P1[9..], &[0x00]].concat();
    for _ in 0..2 {
        assert_eq!(receiver.receive(&long), Err(Error::PositionOverflow));
        assert_eq!(receiver.held(), &P1[..9]);
        assert_eq!(receiver.position(), start + 9);
    }
    let record = receiver.receive(&P1[9..]).unwrap().record.unwrap();
    assert_eq!((record.position, record.length), (start, 16));
    assert_eq!(record.payload, [0x07, 0x04, 0x0F, 0x00]);
    // Then nothing fits but a chunk without a byte, also after a reset.
    for _ in 0..2 {
        assert_eq!(receiver.receive(&[0x00]), Err(Error::PositionOverflow));
        assert!(!delivers(&mut receiver, &[]));
        assert_eq!(receiver.position(), u64::MAX);
        receiver.reset();
    }
}

#[test]
fn what_a_record_holds() {
    let mut receiver = Receiver::new();
    let stream = [
        0xAA, 0x20, 0x00, 0x11, 0x19, 0x20, 0x00, 0x02, 0x34, 0x12, 0x7E, 0x7F, 0x7F, 0x7F, 0x3C,
        0x16,
    ];
    let datagram = receiver.receive(&stream).unwrap().record.unwrap();
    assert_eq!(datagram.parameter(), Some(0x1234));
    assert_eq!(datagram.value(), Some(-2));
    assert_eq!(datagram.sections().unwrap_err(), Error::NotBlockPacket);

    let mut stream = [0; 22];
    let header = Header::packet(0x0015, 0x7E21, 0x0100);
    let payload = [1, 0x01, 0, 0, 0xEE, 0x02, 0xFF, 0xFF];
    assert_eq!(encode(header, &payload, &mut stream), Ok(22));
    let block = receiver.receive(&stream).unwrap().record.unwrap();
    assert_eq!((block.parameter(), block.value()), (None, None));
    let section = block.sections().unwrap().next().unwrap();
    assert!(section.temperatures().unwrap().eq([750, -1]));
}

#[test]
fn unused_septet_bits_are_ignored() {
    let mut unused = P1;
    unused[14..].copy_from_slice(&[0x10, 0x55]);
    let mut receiver = Receiver::new();
    assert!(!delivers(&mut receiver, &unused[..14]));
    let received = receiver.receive(&unused[14..]).unwrap();
    let record = received.record.unwrap();
    assert_eq!((received.used, record.length), (2, 16));
    assert_eq!(record.payload, [0x07, 0x04, 0x0F, 0x00]);
    // Under the checksum of the septet without it.
    unused[15] = 0x65;
    assert!(!delivers(&mut receiver, &unused));
}

#[test]
fn made_at_compile_time_copied_and_shown() {
    const FRESH: Receiver = Receiver::new();
    const LATER: Receiver = Receiver::at(7);
    let mut receiver = LATER;
    assert!(!delivers(&mut receiver, &[0x00, 0xAA, 0x10]));
    let shown = "Receiver { position: 10, held: [170, 16] }";
    assert_eq!(format!("{receiver:?}"), shown);
    let copy = receiver.clone();
    receiver.reset();
    assert_eq!(copy.held(), [0xAA, 0x10]);
    assert_eq!(copy.position(), 10);
    assert_eq!(
        format!("{receiver:?}"),
        "Receiver { position: 10, held: [] }"
    );
    assert_eq!(format!("{FRESH:?}"), "Receiver { position: 0, held: [] }");
}
