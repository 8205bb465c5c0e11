//! What needs the feature `std`.

mod samples;

use samples::{D1, P1, T2};
use vbus::*;

#[test]
fn records_and_back() {
    let input = [&P1[..], &P1[..9], &T2].concat();
    let entries: Vec<Entry> = records(&input).collect();
    assert_eq!(entries.len(), 2);
    assert_eq!((entries[0].position, entries[0].length), (0, 16));
    assert_eq!((entries[1].position, entries[1].length), (25, 17));
    assert_eq!(
        entries[1].record.payload,
        [0x38, 0x90, 0x0D, 0xB6, 0xC6, 0x23, 0x00]
    );
    assert_eq!(entries[0].record.to_stream().unwrap(), P1);
    let mut out = [0xEE; 18];
    assert_eq!(entries[1].record.encode(&mut out), Ok(17));
    assert_eq!(out[..17], T2);
    assert_eq!(out[17], 0xEE);
    assert_eq!(entries[0].record.value(), None);
}

/// `next`, the recording's iterator and a receiver's give the same entries.
#[test]
fn entries() {
    let input = [&[0x00][..], &P1, &P1[..9], &T2].concat();
    let mut buffer = [0; MAX_PAYLOAD];
    let first = next(&input, 0, &mut buffer).unwrap().unwrap();
    let expected = Entry {
        position: 1,
        length: 16,
        record: Record::packet(0x4411, 0x6610, 0x0200, [0x07, 0x04, 0x0F, 0x00]),
    };
    assert_eq!(first.to_entry(), expected);
    assert_eq!(first.to_record(), expected.record);
    assert_eq!(records(&input).next(), Some(expected));
    let mut receiver = Receiver::new();
    assert!(receiver.records(&input).unwrap().eq(records(&input)));
}

/// Two records are the same wherever they stand, and give the same stream.
#[test]
fn the_same_record_twice() {
    let input = [P1, P1].concat();
    let entries: Vec<Entry> = records(&input).collect();
    assert_ne!(entries[0], entries[1]);
    assert_eq!(entries[0].record, entries[1].record);
    assert_eq!(normalize_to_vec(&input), input);
}

#[test]
fn made_and_written() {
    let packet = Record::packet(0x4411, 0x6610, 0x0200, [0x07, 0x04, 0x0F, 0x00]);
    assert_eq!(packet.to_stream().unwrap(), P1);
    let datagram = Record::datagram(0x0020, 0x1911, 0x0100, 0, 0);
    assert_eq!(datagram.to_stream().unwrap(), D1);
    let payload = [0x38, 0x90, 0x0D, 0xB6, 0xC6, 0x23, 0x00];
    let telegram = Record::telegram(0x7731, 0x2010, 0x23, payload);
    assert_eq!(telegram.to_stream().unwrap(), T2);
    let other = Record::telegram_31(0x7731, 0x2010, 0x23, payload.to_vec());
    assert_eq!(other.header.version, 0x31);
    assert_eq!(other.payload, payload);
}

#[test]
fn datagrams() {
    for (parameter, value) in [(0, 0), (0x1234, -2), (0xFFFF, i32::MIN), (0x8000, i32::MAX)] {
        let record = Record::datagram(0x0020, 0x1911, 0x0200, parameter, value);
        let read = records(&record.to_stream().unwrap()).next().unwrap().record;
        assert_eq!(read, record);
        assert_eq!(read.parameter(), Some(parameter));
        assert_eq!(read.value(), Some(value));
    }
    let packet = Record::packet(0, 0, 0, [0; 6]);
    assert_eq!((packet.parameter(), packet.value()), (None, None));
}

#[test]
fn lines() {
    let telegram = Record::telegram_31(0x2010, 0x7731, 0x01, []);
    assert_eq!(telegram.to_string(), "T 2010 7731 31 01");
    let datagram = Record::datagram(0x0020, 0x1911, 0x0200, 0x1234, -2);
    assert_eq!(datagram.to_string(), "D 0020 1911 20 0200 3412FEFFFFFF");
}

#[test]
fn normalizing() {
    let input = [&P1[..], &P1[..9], &T2].concat();
    assert_eq!(normalize_to_vec(&input), [&P1[..], &T2].concat());
    assert_eq!(normalize_to_vec(&[]), []);
    // An unused septet bit is written as 0.
    let mut unused = P1;
    unused[14..].copy_from_slice(&[0x10, 0x55]);
    assert_eq!(normalize_to_vec(&unused), P1);
    let entry = records(&unused).next().unwrap();
    assert_eq!(entry.record.to_stream().unwrap(), P1);
}

#[test]
fn sections_of_a_record() {
    let payload = [1, 0x01, 0, 0, 0xEE, 0x02, 0xFF, 0xFF];
    let block = Record::packet(0x0015, 0x7E21, 0x0100, payload);
    let section = block.sections().unwrap().next().unwrap();
    assert!(section.temperatures().unwrap().eq([750, -1]));
    let other = Record::packet(0x0010, 0x7E21, 0x0100, payload);
    assert_eq!(other.sections().unwrap_err(), Error::NotBlockPacket);
}
