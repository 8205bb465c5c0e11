//! What is there without the feature `std` too.

mod samples;

use samples::{D1, P1, T2};
use vbus::*;

/// A block packet's payload: relay speeds without a frame, two temperatures, an unknown type.
const BLOCK: [u8; 20] = [
    0, 0x08, 0, 0, 1, 0x01, 0, 0, 0x10, 0, 0x20, 0x80, 1, 0x77, 0, 0, 9, 9, 9, 9,
];

/// P1 or D1 with these bytes as septet and checksum, its last two.
fn ending(mut stream: [u8; 16], last: [u8; 2]) -> [u8; 16] {
    stream[14..].copy_from_slice(&last);
    stream
}

fn block_header() -> Header {
    Header::packet(0x0015, 0x7E21, 0x0100)
}

#[test]
fn listing() {
    let recording = [&P1[..], &D1, &P1[..9], &T2].concat();
    let mut buffer = [0; MAX_PAYLOAD];
    let mut lines = String::new();
    let mut positions = Vec::new();
    let mut start = 0;
    while let Some(found) = next(&recording, start, &mut buffer).unwrap() {
        lines += &format!("{found}\n");
        positions.push(found.position);
        start = found.end();
    }
    assert_eq!(positions, [0, 16, 41]);
    // The example of document 01.
    assert_eq!(
        lines,
        "P 4411 6610 10 0200 07040F00\n\
         D 0020 1911 20 0100 000000000000\n\
         T 7731 2010 30 23 38900DB6C62300\n"
    );
}

/// Counted from the input's start, wherever the search begins.
#[test]
fn positions() {
    let recording = [&[0x00, 0xAA][..], &P1, &T2].concat();
    let mut buffer = [0; MAX_PAYLOAD];
    for start in 0..=recording.len() {
        let found = next(&recording, start, &mut buffer).unwrap();
        let stands = found.map(|found| (found.position, found.end()));
        let expected = match start {
            0..=2 => Some((2, 18)),
            3..=18 => Some((18, 35)),
            _ => None,
        };
        assert_eq!(stands, expected, "from {start}");
    }
}

#[test]
fn lines_that_no_stream_has() {
    let line = |version, command| {
        let header = Header {
            version,
            destination: 0x2010,
            source: 0xFFFF,
            command,
        };
        let found = Found {
            position: 0,
            length: 0,
            header,
            payload: &[0xAB],
        };
        found.to_string()
    };
    assert_eq!(line(0x11, 0x01), "? 2010 FFFF 11 0001 AB");
    assert_eq!(line(0x00, 0xFFFF), "? 2010 FFFF 00 FFFF AB");
    assert_eq!(line(0x31, 0xFF), "T 2010 FFFF 31 FF AB");
    assert_eq!(line(0x30, 0x0100), "T 2010 FFFF 30 0100 AB");
}

#[test]
fn headers() {
    let fields = |header: Header| {
        (
            header.version,
            header.destination,
            header.source,
            header.command,
        )
    };
    assert_eq!(fields(Header::packet(1, 2, 3)), (0x10, 1, 2, 3));
    assert_eq!(fields(Header::datagram(1, 2, 3)), (0x20, 1, 2, 3));
    assert_eq!(fields(Header::telegram(1, 2, 3)), (0x30, 1, 2, 3));
    assert_eq!(fields(Header::telegram_31(1, 2, 3)), (0x31, 1, 2, 3));
}

#[test]
fn encoding() {
    let mut out = [0xEE; 18];
    let payload = [0x38, 0x90, 0x0D, 0xB6, 0xC6, 0x23, 0x00];
    let header = Header::telegram(0x7731, 0x2010, 0x23);
    assert_eq!(encode(header, &payload, &mut out), Ok(17));
    assert_eq!(out[..17], T2);
    assert_eq!(out[17], 0xEE);
}

#[test]
fn normalizing() {
    let recording = [&P1[..], &P1[..9], &T2].concat();
    let mut out = [0xEE; 34];
    let refused = normalize(&recording, &mut out[..32]);
    assert_eq!(refused, Err(Error::OutputTooShort));
    assert_eq!(out, [0xEE; 34]);
    assert_eq!(normalize(&recording, &mut out), Ok(33));
    assert_eq!(out[..], [&P1[..], &T2, &[0xEE]].concat());
}

#[test]
fn refusals() {
    let encoded = |header, length| encode(header, &[0; MAX_STREAM][..length], &mut [0; MAX_STREAM]);
    let packet = |source, command| Header::packet(0x0015, source, command);
    let unknown = Header {
        version: 0x11,
        ..packet(0, 0)
    };
    assert_eq!(encoded(unknown, 0), Err(Error::UnknownVersion));
    assert_eq!(encoded(packet(0x80, 0), 0), Err(Error::HighAddress));
    assert_eq!(encoded(packet(0, 0x80), 0), Err(Error::HighCommand));
    assert_eq!(encoded(packet(0, 0), 3), Err(Error::WrongLength));
    assert_eq!(next(&P1, 0, &mut [0; 3]), Err(Error::OutputTooShort));
    assert_eq!(next(&P1, 17, &mut []), Err(Error::StartPastEnd));
    assert_eq!(extract(&mut [0; 8]), Err(Error::WrongSeptetBlock));
    assert_eq!(inject(&mut [0x80], 0), Err(Error::WrongSeptetBlock));
    assert_eq!(inject(&mut [0x00], 0x80), Err(Error::WrongSeptetBlock));
    let block = block_header();
    assert_eq!(section(unknown, &[], 0), Err(Error::NotBlockPacket));
    assert_eq!(section(block, &[1, 1, 0, 0], 0), Err(Error::SectionPastEnd));
    assert_eq!(section(block, &[0, 1, 0, 0], 1), Err(Error::NoSuchPart));
    let unknown = section(block, &[0, 0x77, 0, 0], 0).unwrap();
    assert_eq!(unknown.element(0), Err(Error::UnknownSectionType));
    let partial = section(block, &[1, 0x0A, 0, 0, 1, 2, 3, 4], 0).unwrap();
    assert_eq!(partial.payload(), [1, 2, 3, 4]);
    assert_eq!(partial.element_count(), Err(Error::PartialElement));
    assert_eq!(partial.element(0), Err(Error::PartialElement));
    assert_eq!(partial.element(usize::MAX), Err(Error::PartialElement));
    assert_eq!(partial.elements().unwrap_err(), Error::PartialElement);
}

#[test]
fn faults() {
    let fault = |changes: &[(usize, u8)]| {
        let mut stream = P1;
        for &(at, byte) in changes {
            stream[at] = byte;
        }
        let fault = validate(&stream).unwrap_err();
        (fault.verdict, fault.offset)
    };
    let whole = Whole {
        length: 16,
        unused_septets: 0,
    };
    assert_eq!(validate(&P1), Ok(whole));
    assert_eq!(fault(&[(0, 0x2A)]), (Verdict::NoSync, 0));
    assert_eq!(fault(&[(3, 0x80)]), (Verdict::HighByte, 3));
    assert_eq!(fault(&[(5, 0x11)]), (Verdict::UnknownVersion, 5));
    assert_eq!(fault(&[(9, 0x20)]), (Verdict::HeaderChecksum, 9));
    assert_eq!(fault(&[(15, 0x64)]), (Verdict::FrameChecksum, 15));
    let ended = Fault {
        verdict: Verdict::Ended,
        offset: 15,
    };
    assert_eq!(validate(&P1[..15]), Err(ended));
}

#[test]
fn unused_septet_bits() {
    let (packet, datagram) = (ending(P1, [0x10, 0x55]), ending(D1, [0x40, 0x54]));
    for stream in [packet, datagram] {
        let whole = Whole {
            length: 16,
            unused_septets: 1,
        };
        assert_eq!(validate(&stream), Ok(whole));
    }
    let recording = [packet, datagram].concat();
    let mut buffer = [0; MAX_PAYLOAD];
    let found = next(&recording, 0, &mut buffer).unwrap().unwrap();
    assert_eq!((found.position, found.length), (0, 16));
    assert_eq!(found.payload, [0x07, 0x04, 0x0F, 0x00]);
    let found = next(&recording, 16, &mut buffer).unwrap().unwrap();
    assert_eq!((found.position, found.length), (16, 16));
    assert_eq!(found.payload, [0; 6]);
    let mut out = [0; 32];
    assert_eq!(normalize(&recording, &mut out), Ok(32));
    assert_eq!(out[..], [P1, D1].concat());
}

/// The first and the third frame have unused septet bits set, beside bits that stand for bytes.
#[test]
fn unused_septet_bits_in_some_frames() {
    let stream = [
        0xAA, 0x11, 0x44, 0x10, 0x66, 0x10, 0x00, 0x02, 0x03, 0x1F, // header
        0x68, 0x03, 0x74, 0x01, 0x65, 0x3A, // E8 03 F4 01
        0x07, 0x04, 0x0F, 0x7F, 0x09, 0x5D, // 87 04 0F FF
        0x01, 0x02, 0x03, 0x04, 0x1A, 0x5B, // 01 82 03 84
    ];
    let whole = Whole {
        length: 28,
        unused_septets: 2,
    };
    assert_eq!(validate(&stream), Ok(whole));
    let mut buffer = [0; MAX_PAYLOAD];
    let found = next(&stream, 0, &mut buffer).unwrap().unwrap();
    let payload = [
        0xE8, 0x03, 0xF4, 0x01, 0x87, 0x04, 0x0F, 0xFF, 0x01, 0x82, 0x03, 0x84,
    ];
    assert_eq!(found.payload, payload);
    let mut again = [0; 28];
    assert_eq!(encode(found.header, found.payload, &mut again), Ok(28));
    let mut written = stream;
    written[14..16].copy_from_slice(&[0x05, 0x1A]);
    written[26..].copy_from_slice(&[0x0A, 0x6B]);
    assert_eq!(again, written);
}

/// A checksum covers the septet as it came.
#[test]
fn checksums_without_unused_septet_bits() {
    let fault = |stream: [u8; 16]| {
        let fault = validate(&stream).unwrap_err();
        assert_eq!(next(&stream, 0, &mut [0; MAX_PAYLOAD]), Ok(None));
        (fault.verdict, fault.offset)
    };
    let packet = ending(P1, [0x10, 0x65]);
    assert_eq!(fault(packet), (Verdict::FrameChecksum, 15));
    let datagram = ending(D1, [0x40, 0x14]);
    assert_eq!(fault(datagram), (Verdict::HeaderChecksum, 15));
}

#[test]
fn datagrams() {
    let found = |header, payload| Found {
        position: 0,
        length: 16,
        header,
        payload,
    };
    let payload = [0x34, 0x92, 0xFE, 0xFF, 0xFF, 0xFF];
    let datagram = found(Header::datagram(0, 0, 0), &payload);
    assert_eq!(datagram.parameter(), Some(0x9234));
    assert_eq!(datagram.value(), Some(-2));
    let telegram = found(Header::telegram(0, 0, 0), &payload);
    assert_eq!((telegram.parameter(), telegram.value()), (None, None));
    let short = found(Header::datagram(0, 0, 0), &payload[..5]);
    assert_eq!((short.parameter(), short.value()), (None, None));
}

#[test]
fn block_packet() {
    let found = Found {
        position: 0,
        length: 40,
        header: block_header(),
        payload: &BLOCK,
    };
    let sections: Vec<Section> = found.sections().unwrap().collect();
    assert_eq!(sections.len(), 3);
    assert_eq!(sections[0].elements().unwrap().len(), 0);
    assert_eq!(sections[1].start(), 4);
    assert_eq!(sections[1].payload(), [0x10, 0, 0x20, 0x80]);
    let elements: Vec<&[u8]> = sections[1].elements().unwrap().collect();
    assert_eq!(elements, [[0x10, 0], [0x20, 0x80]]);
    assert_eq!(sections[2].element_count(), Err(Error::UnknownSectionType));
    assert_eq!(sections[2].payload(), [9; 4]);
    assert!(sections[0].temperatures().is_none());
    assert!(sections[2].temperatures().is_none());
    let temperatures: Vec<i16> = sections[1].temperatures().unwrap().collect();
    assert_eq!(temperatures, [0x10, -0x7FE0]);
}
