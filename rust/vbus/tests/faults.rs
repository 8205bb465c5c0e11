//! Why parts of a recording gave no record; with and without the feature `std`.

mod samples;

use samples::{D1, P1, T2};
use vbus::{faults, Fault, FaultEntry, Verdict};

/// T1 of document 01, and with 77 as its last byte.
const T1: [u8; 8] = [0xAA, 0x10, 0x20, 0x31, 0x77, 0x30, 0x01, 0x76];
const WRONG_T1: [u8; 8] = [0xAA, 0x10, 0x20, 0x31, 0x77, 0x30, 0x01, 0x77];

fn lines(recording: &[u8]) -> Vec<String> {
    faults(recording).map(|entry| entry.to_string()).collect()
}

/// The stream with another byte at that offset.
fn with<const N: usize>(mut stream: [u8; N], at: usize, byte: u8) -> [u8; N] {
    stream[at] = byte;
    stream
}

/// The lines that the request names.
#[test]
fn lines_of_the_request() {
    assert_eq!(lines(&[&D1[..], &WRONG_T1].concat()), ["16 V4 7 77 76"]);
    let cut_off = ["0 V2 1 AA cut off by a new stream"];
    assert_eq!(lines(&[&[0xAA][..], &P1].concat()), cut_off);
}

#[test]
fn high_bytes() {
    assert_eq!(lines(&with(P1, 3, 0x80)), ["0 V2 3 80"]);
    assert_eq!(lines(&with(P1, 15, 0xFF)), ["0 V2 15 FF"]);
    // Also where a version or a checksum should stand.
    assert_eq!(lines(&with(T1, 5, 0xB0)), ["0 V2 5 B0"]);
    assert_eq!(lines(&with(T1, 7, 0xF6)), ["0 V2 7 F6"]);
    // Only another 0xAA begins a stream.
    assert_eq!(lines(&with(T2, 9, 0xAB)), ["0 V2 9 AB"]);
    let two = ["0 V2 9 AA cut off by a new stream", "9 V3 5 00"];
    assert_eq!(lines(&with(T2, 9, 0xAA)), two);
}

#[test]
fn unknown_versions() {
    assert_eq!(lines(&with(P1, 5, 0x11)), ["0 V3 5 11"]);
    assert_eq!(lines(&with(T1, 5, 0x00)), ["0 V3 5 00"]);
}

#[test]
fn wrong_checksums() {
    assert_eq!(lines(&with(P1, 9, 0x20)), ["0 V4 9 20 21"]);
    assert_eq!(lines(&with(D1, 15, 0x00)), ["0 V4 15 00 14"]);
    assert_eq!(lines(&with(T2, 7, 0x0A)), ["0 V4 7 0A 54"]);
    assert_eq!(lines(&with(P1, 15, 0x64)), ["0 V6 15 64 65"]);
    assert_eq!(lines(&with(T2, 16, 0x01)), ["0 V6 16 01 71"]);
}

/// The checksum that is wanted covers unused septet bits as they came.
#[test]
fn unused_septet_bits() {
    assert_eq!(lines(&with(P1, 14, 0x10)), ["0 V6 15 65 55"]);
    assert_eq!(lines(&with(D1, 14, 0x40)), ["0 V4 15 14 54"]);
}

#[test]
fn ended_inputs() {
    assert_eq!(lines(&[0xAA]), ["0 V7 1"]);
    assert_eq!(lines(&P1[..9]), ["0 V7 9"]);
    assert_eq!(lines(&P1[..15]), ["0 V7 15"]);
    assert_eq!(lines(&[&T1[..], &T2[..8]].concat()), ["8 V7 8"]);
}

/// A stream that announces more than it has hides neither the stream behind it nor that one's fault.
#[test]
fn several_in_order() {
    let recording = [&T1[..7], &D1, &WRONG_T1, &T2, &P1[..12]].concat();
    let expected = [
        "0 V2 7 AA cut off by a new stream",
        "23 V4 7 77 76",
        "48 V7 12",
    ];
    assert_eq!(lines(&recording), expected);
}

#[test]
fn places_of_five_digits() {
    let recording = [&[0; 12_345][..], &WRONG_T1, &[0; 100]].concat();
    assert_eq!(lines(&recording), ["12345 V4 7 77 76"]);
}

#[test]
fn no_faults() {
    for recording in [&[][..], &[0x10, 0x80, 0xFF], &[&P1[..], &D1, &T2].concat()] {
        let mut none = faults(recording);
        assert_eq!((none.next(), none.next()), (None, None));
    }
}

#[test]
fn fields() {
    let entry = |recording: &[u8]| faults(recording).next();
    let expected = |place, verdict, offset, byte, wanted| {
        let fault = Fault { verdict, offset };
        let entry = FaultEntry {
            place,
            fault,
            byte,
            wanted,
        };
        Some(entry)
    };
    let recording = [&[0x01, 0x02][..], &with(P1, 15, 0x64)].concat();
    let frame = expected(2, Verdict::FrameChecksum, 15, Some(0x64), Some(0x65));
    assert_eq!(entry(&recording), frame);
    let version = expected(0, Verdict::UnknownVersion, 5, Some(0x11), None);
    assert_eq!(entry(&with(P1, 5, 0x11)), version);
    assert_eq!(entry(&[0xAA]), expected(0, Verdict::Ended, 1, None, None));
}
