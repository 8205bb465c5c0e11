//! The samples that come with the rules, and the other examples of the specification.

use super::*;

const P1: [u8; 16] = [
    0xAA, 0x11, 0x44, 0x10, 0x66, 0x10, 0x00, 0x02, 0x01, 0x21, 0x07, 0x04, 0x0F, 0x00, 0x00, 0x65,
];
const D1: [u8; 16] = [
    0xAA, 0x20, 0x00, 0x11, 0x19, 0x20, 0x00, 0x01, 0x00, 0x00, 0x00, 0x00, 0x00, 0x00, 0x00, 0x14,
];
const T1: [u8; 8] = [0xAA, 0x10, 0x20, 0x31, 0x77, 0x30, 0x01, 0x76];
const T2: [u8; 17] = [
    0xAA, 0x31, 0x77, 0x10, 0x20, 0x30, 0x23, 0x54, 0x38, 0x10, 0x0D, 0x36, 0x46, 0x23, 0x00, 0x1A,
    0x71,
];
const T3: [u8; 17] = [
    0xAA, 0x31, 0x77, 0x10, 0x20, 0x30, 0x25, 0x52, 0x68, 0x03, 0x69, 0x00, 0x00, 0x00, 0x00, 0x05,
    0x26,
];

/// A packet of three frames with the septets 05, 09 and 0A, and bits 5 and 6 set in the first, bit 4 in
/// the last.
const P3: [u8; 28] = [
    0xAA, 0x11, 0x44, 0x10, 0x66, 0x10, 0x00, 0x02, 0x03, 0x1F, // header
    0x68, 0x03, 0x74, 0x01, 0x65, 0x3A, // E8 03 F4 01
    0x07, 0x04, 0x0F, 0x7F, 0x09, 0x5D, // 87 04 0F FF
    0x01, 0x02, 0x03, 0x04, 0x1A, 0x5B, // 01 82 03 84
];

const BLOCK: Header = Header {
    version: 0x10,
    destination: 0x0015,
    source: 0x1234,
    command: 0x0100,
};

/// The payload of the specification's block packet: smart display, two masks, relay speeds.
fn block_payload() -> [u8; 48] {
    let mut payload = [0; 48];
    payload[0..5].copy_from_slice(&[2, 0x0A, 0, 0, 3]);
    payload[6] = 8;
    payload[12..14].copy_from_slice(&[1, 0x0B]);
    payload[20..22].copy_from_slice(&[4, 0x08]);
    payload[40..42].copy_from_slice(&[1, 0x0C]);
    payload
}

fn verdict(verdict: u8, offset: usize) -> Validation {
    Validation {
        verdict,
        offset,
        unused_septets: 0,
    }
}

fn whole(length: usize, unused_septets: usize) -> Validation {
    Validation {
        unused_septets,
        ..verdict(0, length)
    }
}

/// A stream with these bytes in place of its last two, a septet and its checksum.
fn ending<const N: usize>(mut stream: [u8; N], last: [u8; 2]) -> [u8; N] {
    stream[N - 2..].copy_from_slice(&last);
    stream
}

fn packet(destination: u16, payload: usize) -> Written {
    let header = Header {
        version: 0x10,
        destination,
        ..Header::default()
    };
    encode(header, &vec![0; payload], &mut [0; 800])
}

/// `next` and `encode` take the stream apart and put it together again.
fn round_trip(stream: &[u8]) -> (Header, Vec<u8>) {
    let mut payload = [0; 508];
    let found = next(stream, 0, &mut payload);
    assert_eq!((found.number, found.found), (0, true));
    assert_eq!((found.position, found.length), (0, stream.len()));
    let payload = payload[..found.payload_length].to_vec();
    let mut out = vec![0; stream.len()];
    let written = encode(found.header, &payload, &mut out);
    assert_eq!((written.number, written.length), (0, stream.len()));
    assert_eq!(out, stream);
    (found.header, payload)
}

#[test]
fn samples_are_valid() {
    for stream in [&P1[..], &D1, &T1, &T2, &T3] {
        assert_eq!(validate(stream), whole(stream.len(), 0));
        round_trip(stream);
    }
    let (header, payload) = round_trip(&P1);
    assert_eq!(payload, [0x07, 0x04, 0x0F, 0x00]);
    assert_eq!(
        header,
        Header {
            version: 0x10,
            destination: 0x4411,
            source: 0x6610,
            command: 0x0200,
        }
    );
    let (_, payload) = round_trip(&T2);
    assert_eq!(payload, [0x38, 0x90, 0x0D, 0xB6, 0xC6, 0x23, 0x00]);
}

#[test]
fn other_examples_of_the_specification() {
    let request_data = [0xAA, 0x10, 0x20, 0x31, 0x77, 0x30, 0x04, 0x73];
    let change_baud_rate = [
        0xAA, 0x31, 0x77, 0x10, 0x20, 0x30, 0x25, 0x52, 0x00, 0x42, 0x01, 0x00, 0x00, 0x00, 0x00,
        0x02, 0x3A,
    ];
    let change_sub_address = [
        0xAA, 0x10, 0x20, 0x31, 0x77, 0x30, 0x27, 0x50, 0x38, 0x10, 0x0D, 0x36, 0x46, 0x23, 0x01,
        0x1A, 0x70,
    ];
    round_trip(&request_data);
    let (_, payload) = round_trip(&change_baud_rate);
    assert_eq!(payload, [0x00, 0xC2, 0x01, 0x00, 0x00, 0x00, 0x00]);
    let (_, payload) = round_trip(&change_sub_address);
    assert_eq!(payload, [0x38, 0x90, 0x0D, 0xB6, 0xC6, 0x23, 0x01]);
}

#[test]
fn faults() {
    assert_eq!(validate(&[]), verdict(7, 0));
    assert_eq!(validate(&[0x00]), verdict(1, 0));
    assert_eq!(validate(&P1[..15]), verdict(7, 15));
    for end in 0..P1.len() {
        assert_eq!(validate(&P1[..end]), verdict(7, end));
    }
    let mut wrong = T1;
    wrong[7] = 0x77;
    assert_eq!(validate(&wrong), verdict(4, 7));
    let mut wrong = P1;
    wrong[15] = 0x64;
    assert_eq!(validate(&wrong), verdict(6, 15));
    let mut wrong = P1;
    wrong[5] = 0x11;
    assert_eq!(validate(&wrong), verdict(3, 5));
    wrong[5] = 0x90;
    assert_eq!(validate(&wrong), verdict(2, 5));
    let mut wrong = D1;
    wrong[15] = 0x15;
    assert_eq!(validate(&wrong), verdict(4, 15));
}

#[test]
fn unused_septet_bits() {
    let packet = ending(P1, [0x10, 0x55]);
    let datagram = ending(D1, [0x40, 0x54]);
    assert_eq!(validate(&packet), whole(16, 1));
    assert_eq!(validate(&ending(P1, [0x70, 0x75])), whole(16, 1));
    assert_eq!(validate(&datagram), whole(16, 1));
    assert_eq!(validate(&P3), whole(28, 2));
    // A telegram's septet has no unused bits; the top bit is never one.
    let telegram = ending(T2, [0x7F, 0x0C]);
    assert_eq!(validate(&telegram), whole(17, 0));
    assert_eq!(validate(&ending(P1, [0x90, 0x55])), verdict(2, 14));
    // Checksums cover the bytes as they came.
    assert_eq!(validate(&ending(P1, [0x10, 0x65])), verdict(6, 15));
    assert_eq!(validate(&ending(D1, [0x40, 0x14])), verdict(4, 15));
    // Only a whole stream's are counted.
    assert_eq!(validate(&packet[..15]), verdict(7, 15));
    assert_eq!(validate(&ending(P3, [0x1A, 0x5C])), verdict(6, 27));

    let mut payload = [0; 12];
    let found = next(&P3, 0, &mut payload);
    assert_eq!((found.length, found.payload_length), (28, 12));
    let expected = [
        0xE8, 0x03, 0xF4, 0x01, 0x87, 0x04, 0x0F, 0xFF, 0x01, 0x82, 0x03, 0x84,
    ];
    assert_eq!(payload, expected);
    let mut written = ending(P3, [0x0A, 0x6B]);
    written[14..16].copy_from_slice(&[0x05, 0x1A]);
    round_trip(&written);

    let input = [&packet[..], &P1, &[0xAA], &datagram, &P3, &telegram].concat();
    let expected = [&P1[..], &P1, &D1, &written, &telegram].concat();
    let mut out = vec![0xEE; 94];
    assert_eq!(normalize(&input, &mut out[..92]).number, 5);
    assert_eq!(out, [0xEE; 94]);
    assert_eq!(normalize(&input, &mut out).length, 93);
    assert_eq!(out, [&expected[..], &[0xEE]].concat());
    assert_eq!(normalize(&expected, &mut out[..93]).length, 93);
    assert_eq!(out[..93], expected);
}

#[test]
fn finding_records() {
    assert_eq!(next(&[], 0, &mut []), Found::default());
    assert_eq!(
        next(&[], 1, &mut []),
        Found {
            number: 6,
            ..Found::default()
        }
    );
    let mut input = vec![0xAA];
    input.extend(P1);
    assert_eq!(validate(&input), verdict(2, 1));
    let mut payload = [0xEE; 5];
    let found = next(&input, 0, &mut payload);
    assert_eq!(
        (found.position, found.length, found.payload_length),
        (1, 16, 4)
    );
    assert_eq!(payload, [0x07, 0x04, 0x0F, 0x00, 0xEE]);
    let mut short = [0xEE; 3];
    assert_eq!(
        next(&input, 0, &mut short),
        Found {
            number: 5,
            ..Found::default()
        }
    );
    assert_eq!(short, [0xEE; 3]);
    assert!(!next(&input, 2, &mut []).found);
}

#[test]
fn a_record_inside_a_damaged_stream() {
    // The packet announces 127 frames; a valid telegram follows at once.
    let mut input = vec![0xAA, 0x11, 0x44, 0x10, 0x66, 0x10, 0x00, 0x02, 0x7F, 0x23];
    assert_eq!(validate(&input), verdict(7, 10));
    input.extend(T1);
    assert_eq!(next(&input, 0, &mut []).position, 10);
    assert_eq!(next(&input, 18, &mut []), Found::default());
}

#[test]
fn writing() {
    assert_eq!(packet(0, 508).length, 772);
    assert_eq!(packet(0, 512).number, 4);
    assert_eq!(packet(0, 3).number, 4);
    assert_eq!(packet(0x0080, 0).number, 2);
    assert_eq!(packet(0x7F7F, 0).number, 0);
    let telegram = |command, payload: usize| {
        let header = Header {
            version: 0x30,
            command,
            ..Header::default()
        };
        encode(header, &vec![0; payload], &mut [0; 40]).number
    };
    assert_eq!(telegram(0x14, 0), 0);
    assert_eq!(telegram(0x14, 7), 4);
    assert_eq!(telegram(0x7F, 21), 0);
    assert_eq!(telegram(0x80, 0), 3);
    let mut short = [0xEE; 15];
    let header = Header {
        version: 0x20,
        ..Header::default()
    };
    assert_eq!(encode(header, &[0; 6], &mut short).number, 5);
    assert_eq!(short, [0xEE; 15]);
}

#[test]
fn normalizing() {
    assert_eq!(normalize(&[], &mut []), Written::default());
    let mut input = vec![0x00, 0xAA, 0xAA];
    input.extend(&P1[..15]);
    input.extend(P1);
    input.push(0x55);
    input.extend(T2);
    let mut expected = P1.to_vec();
    expected.extend(T2);
    for room in 0..60 {
        let mut out = vec![0xEE; room];
        let written = normalize(&input, &mut out);
        if room < 33 {
            assert_eq!((written.number, written.length), (5, 0));
            assert_eq!(out, vec![0xEE; room]);
        } else {
            assert_eq!((written.number, written.length), (0, 33));
            assert_eq!(out[..33], expected);
            assert_eq!(out[33..], vec![0xEE; room - 33]);
        }
    }
}

#[test]
fn checksums() {
    assert_eq!(checksum(&[]), 0x7F);
    assert_eq!(checksum(&P1[1..9]), 0x21);
    assert_eq!(checksum(&[0x68, 0x03, 0x74, 0x01, 0x05]), 0x1A);
}

#[test]
fn septets() {
    let block = [0xE8, 0x03, 0xF4, 0x01, 0x99, 0x99, 0x99];
    let moved = extract(block, 4);
    assert_eq!(
        moved,
        Septets {
            number: 0,
            bytes: [0x68, 0x03, 0x74, 0x01, 0, 0, 0],
            length: 4,
            septet: 5,
        }
    );
    let back = inject(moved.bytes, 4, 5);
    assert_eq!(back.bytes, [0xE8, 0x03, 0xF4, 0x01, 0, 0, 0]);
    assert_eq!((back.number, back.length, back.septet), (0, 4, 0));
    let refused = Septets {
        number: 7,
        ..Septets::default()
    };
    assert_eq!(extract(block, 8), refused);
    assert_eq!(extract(block, usize::MAX), refused);
    assert_eq!(inject([0; 7], 8, 0), refused);
    assert_eq!(inject(block, 4, 0), refused);
    assert_eq!(inject([0; 7], 7, 0x80), refused);
    assert_eq!(inject([0; 7], 0, 0x80), refused);
    assert_eq!(inject([0; 7], 0, 0).number, 0);
    assert_eq!(inject([0x99; 7], 0, 0).number, 0);
    // Bits at or above the length are ignored.
    assert_eq!(inject(moved.bytes, 4, 0x75), back);
    assert_eq!(inject([0; 7], 4, 0x10).bytes, [0; 7]);
    let six = inject([1, 2, 3, 4, 5, 6, 0x99], 6, 0x7F);
    assert_eq!(six.bytes, [0x81, 0x82, 0x83, 0x84, 0x85, 0x86, 0]);
    assert_eq!((six.number, six.length, six.septet), (0, 6, 0));
    assert_eq!(inject([0x99; 7], 0, 0x7F).bytes, [0; 7]);
}

#[test]
fn values() {
    assert_eq!(value(&[9, 9, 0xFF, 0xFF, 0xFF, 0xFF]), -1);
    assert_eq!(value(&[9, 9, 0, 0, 0, 0x80]), i32::MIN);
    assert_eq!(value(&[9, 9, 0xEE, 0x02, 0, 0]), 750);
}

#[test]
fn temperatures() {
    assert_eq!(temperature(&[0xFF, 0xFF]), -1);
    assert_eq!(temperature(&[0x00, 0x80]), i16::MIN);
    assert_eq!(temperature(&[0xFF, 0x7F]), i16::MAX);
    assert_eq!(temperature(&[0xEE, 0x02]), 750);
}

#[test]
fn sections() {
    let payload = block_payload();
    assert_eq!(section_count(BLOCK, &payload).count, 4);
    let elements: Vec<usize> = (0..4)
        .map(|k| element_count(BLOCK, &payload, k).count)
        .collect();
    assert_eq!(elements, [1, 1, 16, 1]);
    let third = section(BLOCK, &payload, 2);
    assert_eq!((third.number, third.start, third.length), (0, 20, 20));
    let speed = element(BLOCK, &payload, 2, 15);
    assert_eq!((speed.number, speed.start, speed.length), (0, 39, 1));
    assert_eq!(element(BLOCK, &payload, 2, 16).number, 10);
    assert_eq!(section(BLOCK, &payload, 4).number, 10);
    assert_eq!(section_count(BLOCK, &[]).count, 0);
    assert_eq!(section(BLOCK, &[], 0).number, 10);
}

#[test]
fn broken_sections() {
    let mut payload = [2, 0x0B, 0, 0, 0, 0, 0, 0];
    assert_eq!(section_count(BLOCK, &payload).number, 9);
    assert_eq!(section(BLOCK, &payload, 7).number, 9);
    payload[0] = 1;
    assert_eq!(section_count(BLOCK, &payload).count, 1);
    payload[1] = 0x02;
    assert_eq!(section_count(BLOCK, &payload).count, 1);
    assert_eq!(element_count(BLOCK, &payload, 0).number, 11);
    assert_eq!(element(BLOCK, &payload, 0, 9).number, 11);
    assert_eq!(element(BLOCK, &payload, 1, 0).number, 10);
    payload[1] = 0x0A;
    assert_eq!(section(BLOCK, &payload, 0).length, 8);
    assert_eq!(element_count(BLOCK, &payload, 0).number, 13);
    assert_eq!(element(BLOCK, &payload, 0, 0).number, 13);
    assert_eq!(element(BLOCK, &payload, 0, 9).number, 13);
    assert_eq!(section_count(BLOCK, &payload[..7]).number, 8);
    assert_eq!(section_count(BLOCK, &[0; 512]).number, 8);
    assert_eq!(section_count(BLOCK, &[0; 508]).count, 127);
}

#[test]
fn only_block_packets_have_sections() {
    let payload = [1, 0x0B, 0, 0, 0, 0, 0, 0];
    let number = |header| {
        let numbers = [
            section_count(header, &payload).number,
            section(header, &payload, 0).number,
            element_count(header, &payload, 0).number,
            element(header, &payload, 0, 0).number,
        ];
        assert_eq!(numbers, [numbers[0]; 4]);
        numbers[0]
    };
    for source in [0, 0x7E21, 0xFFFF] {
        let block = Header { source, ..BLOCK };
        assert_eq!(number(block), 0);
        for version in (0..=255).filter(|&version| version != 0x10) {
            assert_eq!(number(Header { version, ..block }), 8);
        }
        for bit in 0..16 {
            let destination = 0x0015 ^ 1 << bit;
            let header = Header {
                destination,
                ..block
            };
            assert_eq!(number(header), 8);
            let command = 0x0100 ^ 1 << bit;
            assert_eq!(number(Header { command, ..block }), 8);
        }
    }
}

#[test]
fn hostile_input_takes_linear_time() {
    let mut input = vec![0xAA; 1 << 20];
    assert!(!next(&input, 0, &mut []).found);
    for byte in input.iter_mut().skip(1).step_by(2) {
        *byte = 0x10;
    }
    assert!(!next(&input, 0, &mut []).found);
    assert_eq!(normalize(&input, &mut []), Written::default());
}

/// A record with its position.
type Positioned = (u64, Header, Vec<u8>);

/// What a receiver makes of the chunks.
fn receive_all<'c>(
    receiver: &mut Receiver,
    chunks: impl Iterator<Item = &'c [u8]>,
) -> Vec<Positioned> {
    let mut payload = [0; 508];
    let mut records = Vec::new();
    for mut chunk in chunks {
        while !chunk.is_empty() {
            let answer = receiver.receive(chunk, &mut payload);
            assert_eq!(answer.number, 0);
            assert!(answer.found || answer.used == chunk.len());
            chunk = &chunk[answer.used..];
            if answer.found {
                let payload = payload[..answer.payload_length].to_vec();
                records.push((answer.position, answer.header, payload));
            }
        }
    }
    records
}

/// The same by `next` over a whole recording that begins at that position.
fn next_all(from: u64, input: &[u8]) -> Vec<Positioned> {
    let mut payload = [0; 508];
    let mut records = Vec::new();
    let mut start = 0;
    loop {
        let found = next(input, start, &mut payload);
        if !found.found {
            return records;
        }
        let payload = payload[..found.payload_length].to_vec();
        records.push((from + found.position, found.header, payload));
        start = found.position as usize + found.length;
    }
}

/// Every sample, a packet without a frame and one with unused septet bits: whole, with its last byte
/// twice, cut off before it, damaged, and with a high byte in it.
fn samples_and_damage() -> Vec<u8> {
    let short = [0xAA, 0x11, 0x44, 0x10, 0x66, 0x10, 0x00, 0x02, 0x00, 0x22];
    let mut input = vec![0x00, 0xAA];
    for stream in [&short[..], &P1, &D1, &T1, &T2, &T3, &P3] {
        let last = stream.len() - 1;
        input.extend(stream);
        input.push(stream[last]);
        input.extend(&stream[..last]);
        input.extend(stream);
        for change in [0x01, 0x80] {
            let mut wrong = stream.to_vec();
            wrong[6] ^= change;
            input.extend(wrong);
        }
        input.extend([0x10, 0xFF]);
    }
    input
}

#[test]
fn receiving_in_chunks_of_every_length() {
    let input = samples_and_damage();
    // The last one just lets the recording fit.
    let most = u64::MAX - input.len() as u64;
    for from in [0, 1, (1 << 32) - 100, (1 << 63) - 100, most] {
        let expected = next_all(from, &input);
        assert_eq!(expected.len(), 14);
        for length in 1..=input.len() {
            let mut receiver = Receiver::at(from);
            let received = receive_all(&mut receiver, input.chunks(length));
            assert_eq!(received, expected, "in chunks of {length}");
            assert_eq!(receiver.position(), from + input.len() as u64);
        }
    }
}

#[test]
fn positions_of_known_bytes() {
    let input = [&[0x00, 0xAA][..], &P1, &[0x10], &T1, &D1[..9], &T2].concat();
    let positions = |records: Vec<Positioned>| -> Vec<u64> {
        records.into_iter().map(|(position, ..)| position).collect()
    };
    assert_eq!(positions(next_all(0, &input)), [2, 19, 36]);
    let mut receiver = Receiver::new();
    let received = receive_all(&mut receiver, input.chunks(5));
    assert_eq!(positions(received), [2, 19, 36]);
    assert_eq!(receiver.position(), 53);
    receiver.reset();
    assert_eq!(receiver.position(), 53);
    let received = receive_all(&mut receiver, input.chunks(5));
    assert_eq!(positions(received), [55, 72, 89]);
}

#[test]
fn receiving_from_every_byte_after_a_reset() {
    let input = samples_and_damage();
    let mut receiver = Receiver::new();
    for at in 0..=input.len() {
        receive_all(&mut receiver, input[..at].chunks(7));
        let from = receiver.position();
        receiver.reset();
        assert_eq!(receiver.position(), from);
        let received = receive_all(&mut receiver, input[at..].chunks(7));
        assert_eq!(received, next_all(from, &input[at..]), "from byte {at}");
    }
}

#[test]
fn receiving_the_longest_stream() {
    let header = Header {
        version: 0x10,
        destination: 0x0010,
        source: 0x7E21,
        command: 0x0100,
    };
    let mut stream = [0; 772];
    assert_eq!(encode(header, &[0xC5; 508], &mut stream).length, 772);
    for at in 0..stream.len() {
        let mut receiver = Receiver::new();
        let mut payload = [0; 508];
        let first = receiver.receive(&stream[..at], &mut payload);
        assert_eq!((first.found, first.used), (false, at));
        let last = receiver.receive(&stream[at..], &mut payload);
        let expected = Received {
            number: 0,
            found: true,
            used: 772 - at,
            position: 0,
            length: 772,
            header,
            payload_length: 508,
        };
        assert_eq!(last, expected);
        assert_eq!(payload, [0xC5; 508]);
    }
}

fn refused(number: u32) -> Received {
    Received {
        number,
        ..Received::default()
    }
}

#[test]
fn receiving_without_room() {
    let mut receiver = Receiver::new();
    let mut payload = [0xEE; 509];
    assert_eq!(receiver.receive(&P1[..15], &mut payload).used, 15);
    for room in [0, 4, 507] {
        let answer = receiver.receive(&P1[15..], &mut payload[..room]);
        assert_eq!(answer, refused(5));
    }
    assert_eq!(receiver.receive(&[], &mut payload[..507]).number, 5);
    assert_eq!(receiver.position(), 15);
    let empty = receiver.receive(&[], &mut payload);
    assert_eq!(empty, Received::default());
    assert_eq!(payload, [0xEE; 509]);
    assert!(receiver.receive(&P1[15..], &mut payload[..508]).found);
    assert_eq!(payload[..5], [0x07, 0x04, 0x0F, 0x00, 0xEE]);
}

/// Chunks that the count has just no room for, and just room for, with and without payload room.
#[test]
fn receiving_at_the_largest_position() {
    for n in (0usize..=20).chain([771, 772, 773]) {
        for length in [n + 1, n, n.saturating_sub(1)] {
            let chunk: Vec<u8> = T1.into_iter().cycle().take(length).collect();
            let start = u64::MAX - n as u64;
            let mut receiver = Receiver::at(start);
            let mut payload = [0xEE; 508];
            let short = receiver.receive(&chunk, &mut payload[..507]);
            assert_eq!(short, refused(5));
            assert_eq!(receiver.position(), start);
            if length > n {
                assert_eq!(receiver.receive(&chunk, &mut payload), refused(12));
                assert_eq!(receiver.position(), start);
                assert_eq!(payload, [0xEE; 508]);
            } else {
                let received = receive_all(&mut receiver, [&chunk[..]].into_iter());
                assert_eq!(received, next_all(start, &chunk));
                assert_eq!(receiver.position(), start + length as u64);
            }
        }
    }
}

/// The refusal keeps the unfinished stream; its last byte has the largest position but one.
#[test]
fn refused_at_the_largest_position_nothing_is_lost() {
    let start = u64::MAX - 16;
    let mut receiver = Receiver::at(start);
    let mut payload = [0xEE; 508];
    assert_eq!(receiver.receive(&P1[..9], &mut payload).used, 9);
    let chunk = [&P1[9..], &[0x00]].concat();
    for _ in 0..2 {
        assert_eq!(receiver.receive(&chunk, &mut payload), refused(12));
    }
    let answer = receiver.receive(&P1[9..], &mut payload);
    assert_eq!((answer.found, answer.used), (true, 7));
    assert_eq!((answer.position, answer.length), (start, 16));
    // Nothing more fits, also after a reset.
    for _ in 0..2 {
        assert_eq!(receiver.receive(&[0x00], &mut payload), refused(12));
        let empty = receiver.receive(&[], &mut payload);
        assert_eq!(empty, Received::default());
        receiver.reset();
    }
}

fn fault_lines(input: &[u8]) -> Vec<String> {
    super::faults(input).map(|fault| line(&fault)).collect()
}

/// The stream with another byte at that offset.
fn with<const N: usize>(mut stream: [u8; N], at: usize, byte: u8) -> [u8; N] {
    stream[at] = byte;
    stream
}

#[test]
fn fault_lines_of_the_request() {
    let wrong = with(T1, 7, 0x77);
    assert_eq!(fault_lines(&[&D1[..], &wrong].concat()), ["16 V4 7 77 76"]);
    let cut_off = ["0 V2 1 AA cut off by a new stream"];
    assert_eq!(fault_lines(&[&[0xAA][..], &P1].concat()), cut_off);
}

#[test]
fn faults_of_each_verdict() {
    for (input, expected) in [
        (&with(P1, 1, 0x91)[..], "0 V2 1 91"),
        (&with(T1, 7, 0xF6), "0 V2 7 F6"),
        (&with(T1, 5, 0x32), "0 V3 5 32"),
        (&with(P1, 9, 0x20), "0 V4 9 20 21"),
        (&with(D1, 15, 0x04), "0 V4 15 04 14"),
        (&with(D1, 14, 0x40), "0 V4 15 14 54"),
        (&with(P1, 15, 0x64), "0 V6 15 64 65"),
        (&with(P1, 14, 0x10), "0 V6 15 65 55"),
        (&with(P3, 21, 0x00), "0 V6 21 00 5D"),
        (&with(T2, 16, 0x01), "0 V6 16 01 71"),
        (&[0xAA], "0 V7 1"),
        (&P1[..9], "0 V7 9"),
        (&T3[..16], "0 V7 16"),
    ] {
        assert_eq!(fault_lines(input), [expected]);
    }
}

#[test]
fn faults_from_any_start() {
    let recording = [&[0x00, 0xAA][..], &T1, &T1[..7]].concat();
    let places = [1, 1, 10, 10];
    for (start, place) in places.into_iter().enumerate() {
        assert_eq!(next_fault(&recording, start).place, place);
    }
    for start in [11, 17, 18, usize::MAX] {
        assert_eq!(next_fault(&recording, start), Fault::default());
    }
    for clean in [&[][..], &[0x80, 0xFF], &P3, &[&P1[..], &D1, &T2].concat()] {
        assert_eq!(next_fault(clean, 0), Fault::default());
    }
}

const T2_HEADER: Header = Header {
    version: 0x30,
    destination: 0x7731,
    source: 0x2010,
    command: 0x23,
};
const T2_PAYLOAD: [u8; 7] = [0x38, 0x90, 0x0D, 0xB6, 0xC6, 0x23, 0x00];

#[test]
fn slave_id_of_the_request() {
    let expected = SlaveId {
        number: 0,
        product: 888_888,
        device: 17 * 131_072 + 116_406,
        week: 17,
        serial: 116_406,
    };
    assert_eq!(round_trip(&T2), (T2_HEADER, T2_PAYLOAD.to_vec()));
    assert_eq!(read_slave_id(T2_HEADER, &T2_PAYLOAD), expected);
    let mut out = [0xEE; 18];
    let (product, device) = (expected.product, expected.device);
    let written = write_slave_id(0x7731, 0x2010, product, device, &mut out);
    assert_eq!((written.number, written.length), (0, 17));
    assert_eq!(out[..], [&T2[..], &[0xEE]].concat());
}

/// The largest week and number, and the week's lowest bit.
#[test]
fn weeks_and_consecutive_numbers() {
    for (week, serial) in [
        (0, 0),
        (0, 131_071),
        (1, 0),
        (63, 1),
        (64, 0),
        (127, 131_071),
    ] {
        let device = u32::from(week) * 131_072 + serial;
        let mut out = [0; 17];
        assert_eq!(write_slave_id(0, 0, 0xFF_FFFF, device, &mut out).number, 0);
        let (header, payload) = round_trip(&out);
        let id = read_slave_id(header, &payload);
        assert_eq!((id.number, id.product, id.device), (0, 0xFF_FFFF, device));
        assert_eq!((id.week, id.serial), (week, serial));
    }
}

#[test]
fn no_slave_id_to_read() {
    let refused = SlaveId {
        number: 18,
        ..SlaveId::default()
    };
    let with = |version, command| Header {
        version,
        command,
        ..T2_HEADER
    };
    assert_eq!(read_slave_id(with(0x31, 0x23), &T2_PAYLOAD).number, 0);
    for header in [
        with(0x10, 0x23),
        with(0x20, 0x23),
        with(0x32, 0x23),
        with(0x30, 0x22),
        with(0x30, 0x63),
        with(0x30, 0x2300),
        with(0x30, 0x0123),
    ] {
        assert_eq!(read_slave_id(header, &T2_PAYLOAD), refused);
    }
    for length in (0..30).filter(|length| *length != 7) {
        assert_eq!(read_slave_id(T2_HEADER, &vec![0; length]), refused);
    }
    for last in 1..=255 {
        let payload = with_last(T2_PAYLOAD, last);
        assert_eq!(read_slave_id(T2_HEADER, &payload), refused);
    }
}

fn with_last(mut payload: [u8; 7], last: u8) -> [u8; 7] {
    payload[6] = last;
    payload
}

/// 18, then 2, then 5.
#[test]
fn order_when_writing_a_slave_id() {
    let wide = 1 << 24;
    for (destination, source, product, device, room, number) in [
        (0x0080, 0, wide, 0, 0, 18),
        (0, 0, 0, u32::MAX, 17, 18),
        (0x0080, 0, 0, 0, 16, 2),
        (0, 0x8000, 0, 0, 17, 2),
        (0, 0, 0, 0, 16, 5),
    ] {
        let mut out = [0xEE; 17];
        let written = write_slave_id(destination, source, product, device, &mut out[..room]);
        assert_eq!((written.number, written.length), (number, 0));
        assert_eq!(out, [0xEE; 17]);
    }
}

/// The owner of the tests that aren't about owners; the other one is `!OWNER`.
const OWNER: bool = true;

fn slave(address: u16) -> Slave {
    Slave {
        address,
        owner: OWNER,
        product: 0x10_0000 + u32::from(address),
        device: 0x20_0000 + u32::from(address),
    }
}

fn others(address: u16) -> Slave {
    Slave {
        owner: !OWNER,
        device: 0x30_0000 + u32::from(address),
        ..slave(address)
    }
}

/// 16 slaves of each owner, from 0x2100 to 0x210F and, the other's, from 0x2300 to 0x230F.
fn full_table() -> [Slave; 32] {
    std::array::from_fn(|i| match i as u16 {
        i @ 0..16 => slave(0x2100 + i),
        i => others(0x2300 + i - 16),
    })
}

/// Enters with the table's own figures: those afterwards are the table's again, and the table and the
/// number, which is answered, are those by counting.
fn enter(table: &mut [Slave], slave: Slave) -> u32 {
    let mut counted = table.to_vec();
    let before = figures_of(table);
    let SlaveKept { number, figures } = slave_enter(table, before, slave);
    assert_eq!(slave_enter_counting(&mut counted, slave), number);
    assert_eq!(table, counted);
    assert_eq!(figures, figures_of(table));
    number
}

fn remove(table: &mut [Slave], owner: bool, address: u16) -> u32 {
    let mut counted = table.to_vec();
    let before = figures_of(table);
    let SlaveKept { number, figures } = slave_remove(table, before, owner, address);
    assert_eq!(slave_remove_counting(&mut counted, owner, address), number);
    assert_eq!(table, counted);
    assert_eq!(figures, figures_of(table));
    number
}

/// All four operations on the table, with the numbers given.
fn numbers(table: &mut [Slave], slave: Slave, from: u16) -> [u32; 4] {
    [
        enter(table, slave),
        slave_find(table, slave.owner, slave.address).number,
        slave_change_address(table, slave.owner, from, slave.address),
        remove(table, slave.owner, slave.address),
    ]
}

/// 24 before all else, whatever else is wrong; nothing changes.
#[test]
fn tables_of_other_lengths() {
    let full = [full_table(), full_table()].concat();
    for length in (0..=64).filter(|length| *length != 32) {
        let mut table = full[..length].to_vec();
        for address in [0, 0x2000, 0x2100, 0x2F7F] {
            assert_eq!(numbers(&mut table, slave(address), 0), [24; 4]);
            let wide = Slave {
                product: 1 << 24,
                ..slave(address)
            };
            assert_eq!(enter(&mut table, wide), 24);
        }
        assert_eq!(table, full[..length]);
    }
}

#[test]
fn addresses_of_slaves() {
    for (address, number) in [
        (0x0000, 14),
        (0x1010, 14),
        (0x2000, 14),
        (0x200F, 14),
        (0x2010, 0),
        (0x207F, 0),
        (0x2080, 14),
        (0x20FF, 14),
        (0x2100, 0),
        (0x210F, 0),
        (0x2180, 14),
        (0x2F7F, 0),
        (0x2F80, 14),
        (0x3010, 14),
        (0x6010, 14),
        (0xA010, 14),
    ] {
        let mut table = [Slave::default(); 32];
        assert_eq!(enter(&mut table, slave(address)), number, "{address:04X}");
        table[0] = slave(0x2F00);
        let changed = slave_change_address(&mut table, OWNER, 0x2F00, address);
        assert_eq!(changed, number, "{address:04X}");
    }
}

/// 14, 18, 15 and 16, each with all that comes behind it.
#[test]
fn order_when_entering() {
    let mut table = full_table();
    table[8].address = 0x2008;
    let before = table;
    let wide = |address| Slave {
        device: 1 << 24,
        ..slave(address)
    };
    assert_eq!(enter(&mut table, wide(0x2008)), 14);
    assert_eq!(enter(&mut table, slave(0x2008)), 14);
    assert_eq!(enter(&mut table, wide(0x2100)), 18);
    assert_eq!(enter(&mut table, slave(0x2100)), 15);
    assert_eq!(enter(&mut table, slave(0x2400)), 16);
    assert_eq!(table, before);
}

/// The lowest free entry is taken, with whatever identifiers it had.
#[test]
fn entering_takes_the_lowest_free_entry() {
    let mut table = full_table();
    table[30] = Slave::default();
    table[17] = slave(0);
    let mut expected = table;
    for (address, index) in [(0x2400, 17), (0x2401, 30)] {
        assert_eq!(enter(&mut table, slave(address)), 0);
        expected[index] = slave(address);
        assert_eq!(table, expected);
    }
}

/// The new address (14), the old (17), the new again (15), unless it equals the old.
#[test]
fn order_when_changing() {
    let mut table = full_table();
    table[8].address = 0x2008;
    let before = table;
    assert_eq!(slave_change_address(&mut table, OWNER, 0x2400, 0x2008), 14);
    assert_eq!(slave_change_address(&mut table, OWNER, 0x2008, 0x2008), 14);
    assert_eq!(slave_change_address(&mut table, OWNER, 0x2400, 0x2101), 17);
    assert_eq!(slave_change_address(&mut table, OWNER, 0x2400, 0x2400), 17);
    assert_eq!(slave_change_address(&mut table, OWNER, 0, 0x2400), 17);
    assert_eq!(slave_change_address(&mut table, OWNER, 0x2100, 0x2101), 15);
    assert_eq!(slave_change_address(&mut table, OWNER, 0x2100, 0x2100), 0);
    assert_eq!(table, before);
    assert_eq!(slave_change_address(&mut table, OWNER, 0x2008, 0x2400), 0);
    let mut expected = before;
    expected[8].address = 0x2400;
    assert_eq!(table, expected);
}

/// Found are the identifiers as they are, also of an address that no slave has, but never those of a
/// free entry.
#[test]
fn finding_and_removing() {
    let mut table = full_table();
    table[5] = Slave {
        product: u32::MAX,
        device: 1 << 31,
        ..slave(0xFFFF)
    };
    table[6].address = 0;
    let before = table;
    let found = slave_find(&table, OWNER, 0xFFFF);
    assert_eq!(
        (found.number, found.product, found.device),
        (0, u32::MAX, 1 << 31)
    );
    for absent in [0, 0x2106, 0x2400] {
        let refused = SlaveFound {
            number: 17,
            ..SlaveFound::default()
        };
        assert_eq!(slave_find(&table, OWNER, absent), refused);
        assert_eq!(remove(&mut table, OWNER, absent), 17);
    }
    assert_eq!(table, before);
    assert_eq!(remove(&mut table, OWNER, 0xFFFF), 0);
    let mut expected = before;
    expected[5] = Slave::default();
    assert_eq!(table, expected);
}

/// The lowest entry counts, one after the other.
#[test]
fn an_address_in_two_entries() {
    let mut table = full_table();
    table[20] = Slave {
        product: 1,
        ..table[3]
    };
    let mut expected = table;
    assert_eq!(slave_find(&table, OWNER, 0x2103).product, table[3].product);
    assert_eq!(slave_change_address(&mut table, OWNER, 0x2103, 0x2103), 0);
    assert_eq!(table, expected);
    assert_eq!(slave_change_address(&mut table, OWNER, 0x2103, 0x2400), 0);
    expected[3].address = 0x2400;
    assert_eq!(table, expected);
    assert_eq!(slave_find(&table, OWNER, 0x2103).product, table[20].product);
    assert_eq!(remove(&mut table, OWNER, 0x2103), 0);
    expected[20] = Slave::default();
    assert_eq!(table, expected);
}

/// Both owners have the address: each finds, changes and removes its own entry, whichever is lower.
#[test]
fn the_same_address_under_both_owners() {
    for [own, other] in [[3, 20], [20, 3]] {
        let mut table = full_table();
        table[own] = slave(0x2400);
        table[other] = others(0x2400);
        let before = table;
        for (owner, entry) in [(OWNER, own), (!OWNER, other)] {
            let found = slave_find(&table, owner, 0x2400);
            assert_eq!((found.number, found.device), (0, table[entry].device));
            table = before;
            assert_eq!(slave_change_address(&mut table, owner, 0x2400, 0x2401), 0);
            let mut expected = before;
            expected[entry].address = 0x2401;
            assert_eq!(table, expected);
            table = before;
            assert_eq!(remove(&mut table, owner, 0x2400), 0);
            expected[entry] = Slave::default();
            assert_eq!(table, expected);
            assert_eq!(slave_find(&table, owner, 0x2400).number, 17);
            assert_eq!(slave_find(&table, !owner, 0x2400).number, 0);
            table = before;
        }
    }
}

/// What the neighbour has is neither found nor in the way.
#[test]
fn the_neighbours_addresses() {
    let mut table = full_table();
    assert_eq!(slave_find(&table, OWNER, 0x2300).number, 17);
    assert_eq!(remove(&mut table, OWNER, 0x2300), 17);
    assert_eq!(slave_change_address(&mut table, OWNER, 0x2300, 0x2400), 17);
    assert_eq!(table, full_table());
    assert_eq!(slave_change_address(&mut table, OWNER, 0x2100, 0x2300), 0);
    assert_eq!(remove(&mut table, OWNER, 0x2101), 0);
    assert_eq!(enter(&mut table, slave(0x2301)), 0);
    let mut expected = full_table();
    expected[0].address = 0x2300;
    expected[1] = slave(0x2301);
    assert_eq!(table, expected);
}

/// `own` entries of the owner and `other` of its neighbour; all others are free, and say that they are
/// the owner's.
fn shared(own: usize, other: usize) -> [Slave; 32] {
    std::array::from_fn(|i| match i {
        _ if i < own => slave(0x2100 + i as u16 % 16 + 0x100 * (i as u16 / 16)),
        _ if i < own + other => others(0x2100 + i as u16 % 16),
        _ => slave(0),
    })
}

/// 16 exactly with 24 or more of the owner's, or without a free entry; 15 comes before it.
#[test]
fn how_many_an_owner_may_hold() {
    for own in 0..=32 {
        for other in 0..=32 - own {
            let number = if own >= 24 || own + other == 32 {
                16
            } else {
                0
            };
            let mut table = shared(own, other);
            let mut expected = table;
            assert_eq!(enter(&mut table, slave(0x2400)), number);
            if number == 0 {
                expected[own + other] = slave(0x2400);
            }
            assert_eq!(table, expected, "{own} and {other}");
            if own > 0 {
                assert_eq!(enter(&mut table, slave(0x2100)), 15);
            }
        }
    }
}

/// From the empty table on: 24 of the one and 8 of the other, then the 25th and the ninth.
#[test]
fn two_owners_fill_a_table() {
    let mut table = [Slave::default(); 32];
    for slave in &shared(24, 8) {
        assert_eq!(enter(&mut table, *slave), 0);
    }
    assert_eq!(table, shared(24, 8));
    assert_eq!(enter(&mut table, slave(0x2400)), 16);
    assert_eq!(enter(&mut table, others(0x2400)), 16);
    // Another's free entry is no use to an owner that has its share.
    assert_eq!(remove(&mut table, !OWNER, 0x210F), 0);
    assert_eq!(enter(&mut table, slave(0x2400)), 16);
    assert_eq!(enter(&mut table, others(0x2400)), 0);
    assert_eq!(enter(&mut table, others(0x2401)), 16);
    assert_eq!(remove(&mut table, OWNER, 0x2100), 0);
    assert_eq!(enter(&mut table, others(0x2401)), 0);
    assert_eq!(table[0], others(0x2401));
    assert_eq!(enter(&mut table, slave(0x2100)), 16);
}

const fn figures(no: u8, yes: u8, lowest: u8) -> Figures {
    Figures { no, yes, lowest }
}

/// An entry is held if its address isn't 0, whatever else it has.
#[test]
fn figures_by_counting() {
    let mut table = [Slave::default(); 32];
    assert_eq!(figures_of(&table), Figures::default());
    table[0] = others(0xFFFF);
    table[1] = slave(1);
    table[2] = slave(0);
    table[31] = slave(0x2100);
    assert_eq!(figures_of(&table), figures(1, 2, 2));
    assert_eq!(figures_of(&full_table()), figures(16, 16, 32));
    assert_eq!(figures_of(&shared(24, 8)), figures(8, 24, 32));
    assert_eq!(figures_of(&shared(32, 0)), figures(0, 32, 32));
    assert_eq!(figures_of(&shared(0, 25)), figures(25, 0, 25));
}

/// Right are the table's figures, and no others; 24 comes first.
#[test]
fn checking_figures() {
    let mut table = shared(5, 7);
    table[3].address = 0;
    let right = figures_of(&table);
    assert_eq!(right, figures(7, 4, 3));
    let checked = |number, right| FiguresChecked { number, right };
    assert_eq!(slave_check_figures(&table, right), checked(0, true));
    for value in 0..=255 {
        for (false_ones, is) in [
            (figures(value, 4, 3), value == 7),
            (figures(7, value, 3), value == 4),
            (figures(7, 4, value), value == 3),
        ] {
            assert_eq!(slave_check_figures(&table, false_ones), checked(0, is));
        }
    }
    // The owners' exchanged.
    let exchanged = slave_check_figures(&table, figures(4, 7, 3));
    assert_eq!(exchanged, checked(0, false));
    for length in [0, 1, 31, 33] {
        let table = vec![Slave::default(); length];
        for figures in [Figures::default(), figures_of(&table)] {
            assert_eq!(slave_check_figures(&table, figures), checked(24, false));
        }
    }
}

/// Kept from call to call, from the empty table's on.
#[test]
fn figures_from_call_to_call() {
    let mut table = [Slave::default(); 32];
    let mut kept = SlaveKept::default();
    let enter = |table: &mut [Slave], kept: &mut SlaveKept, slave| {
        *kept = slave_enter(table, kept.figures, slave);
    };
    let remove = |table: &mut [Slave], kept: &mut SlaveKept, owner, address| {
        *kept = slave_remove(table, kept.figures, owner, address);
    };
    let is = |number, no, yes, lowest| SlaveKept {
        number,
        figures: figures(no, yes, lowest),
    };
    enter(&mut table, &mut kept, slave(0x2100));
    assert_eq!(kept, is(0, 0, 1, 1));
    enter(&mut table, &mut kept, others(0x2100));
    assert_eq!(kept, is(0, 1, 1, 2));
    enter(&mut table, &mut kept, slave(0x2101));
    assert_eq!(kept, is(0, 1, 2, 3));
    enter(&mut table, &mut kept, slave(0x2101));
    assert_eq!(kept, is(15, 1, 2, 3));
    remove(&mut table, &mut kept, !OWNER, 0x2101);
    assert_eq!(kept, is(17, 1, 2, 3));
    remove(&mut table, &mut kept, OWNER, 0x2101);
    assert_eq!(kept, is(0, 1, 1, 2));
    remove(&mut table, &mut kept, OWNER, 0x2100);
    assert_eq!(kept, is(0, 1, 0, 0));
    // Behind the lowest free entry others may be free.
    enter(&mut table, &mut kept, slave(0x2102));
    assert_eq!(kept, is(0, 1, 1, 2));
    enter(&mut table, &mut kept, slave(0x2000));
    assert_eq!(kept, is(14, 1, 1, 2));
    let mut table = full_table();
    kept.figures = figures_of(&table);
    enter(&mut table, &mut kept, slave(0x2400));
    assert_eq!(kept, is(16, 16, 16, 32));
    remove(&mut table, &mut kept, !OWNER, 0x230F);
    assert_eq!(kept, is(0, 15, 16, 31));
    remove(&mut table, &mut kept, OWNER, 0x2103);
    assert_eq!(kept, is(0, 15, 15, 3));
    enter(&mut table, &mut kept, slave(0x2400));
    assert_eq!(kept, is(0, 15, 16, 31));
    enter(&mut table, &mut kept, slave(0x2401));
    assert_eq!(kept, is(0, 15, 17, 32));
}

/// 16 by the figures alone: with an owner's of 24 or more, or without a free entry from the lowest on.
/// The entry that is taken is free. What comes before 16 stays.
#[test]
fn entering_with_false_figures() {
    let mut before = full_table();
    before[5].address = 0;
    before[20].address = 0;
    for value in 0..=255u8 {
        for (slave, given, raised) in [
            (slave(0x2400), figures(0, value, 0), figures(0, 1, 0)),
            (others(0x2400), figures(value, 0, 0), figures(1, 0, 0)),
        ] {
            let mut table = before;
            let kept = slave_enter(&mut table, given, slave);
            let mut expected = before;
            if value < 24 {
                expected[5] = slave;
                let after = figures(given.no + raised.no, given.yes + raised.yes, 20);
                assert_eq!((kept.number, kept.figures), (0, after));
            } else {
                assert_eq!((kept.number, kept.figures), (16, given));
            }
            assert_eq!(table, expected);
        }
        let mut table = before;
        let kept = slave_enter(&mut table, figures(99, 7, value), slave(0x2400));
        let (index, after) = match value {
            0..=5 => (Some(5), figures(99, 8, 20)),
            6..=20 => (Some(20), figures(99, 8, 32)),
            _ => (None, figures(99, 7, value)),
        };
        let mut expected = before;
        if let Some(index) = index {
            expected[index] = slave(0x2400);
        }
        let number = if index.is_some() { 0 } else { 16 };
        assert_eq!((kept.number, kept.figures), (number, after));
        assert_eq!(table, expected);
        let any = figures(value, value, value);
        for (slave, number) in [
            (slave(0x2000), 14),
            (slave(0x2100), 15),
            (others(0x2300), 15),
        ] {
            let mut table = before;
            let kept = slave_enter(&mut table, any, slave);
            assert_eq!((kept.number, kept.figures), (number, any));
            assert_eq!(table, before);
        }
    }
}

/// Removing goes by the table; 0 stays 0, and the lowest is never raised.
#[test]
fn removing_with_false_figures() {
    for value in 0..=255u8 {
        let mut table = full_table();
        let kept = slave_remove(&mut table, figures(value, 9, value), !OWNER, 0x2304);
        let after = figures(value.saturating_sub(1), 9, value.min(20));
        assert_eq!((kept.number, kept.figures), (0, after));
        let mut expected = full_table();
        expected[20] = Slave::default();
        assert_eq!(table, expected);
        let any = figures(value, 0, 255 - value);
        let kept = slave_remove(&mut table, any, !OWNER, 0x2304);
        assert_eq!((kept.number, kept.figures), (17, any));
        assert_eq!(table, expected);
        let kept = slave_remove(&mut table, any, OWNER, 0x2100);
        let after = figures(value, 0, 0);
        assert_eq!((kept.number, kept.figures), (0, after));
    }
}

/// 24 comes first, whatever the figures, which come back.
#[test]
fn figures_of_other_lengths() {
    for length in [0, 1, 31, 33] {
        let mut table = vec![Slave::default(); length];
        let any = figures(1, 200, 77);
        for kept in [
            slave_enter(&mut table, any, slave(0x2100)),
            slave_remove(&mut table, any, OWNER, 0x2100),
        ] {
            assert_eq!((kept.number, kept.figures), (24, any));
        }
    }
}

fn sender_settings(
    max_energy: u32,
    loss_per_byte: u32,
    gain_per_microsecond: u32,
) -> SenderSettings {
    SenderSettings {
        max_energy,
        loss_per_byte,
        gain_per_microsecond,
    }
}

/// Bytes 0, 1, 2, ... as a queue.
fn queue() -> [u8; 772] {
    std::array::from_fn(|i| i as u8)
}

/// What a call that did its work answers.
fn done(length: usize, settings: SenderSettings, state: (u32, usize, usize)) -> Sent {
    let (energy, queued, sent) = state;
    let sender = Sender {
        settings,
        energy,
        queued,
        sent,
    };
    Sent {
        number: 0,
        length,
        sender,
    }
}

/// Largest 10, loss 3, gain 2: three bytes at once, with 1 left, and 5 microseconds until it is full.
#[test]
fn seven_bytes_are_three_portions() {
    let settings = sender_settings(10, 3, 2);
    let is = |length, energy, queued, sent| done(length, settings, (energy, queued, sent));
    let mut queue = queue();
    let mut out = [0xEE; 8];
    let mut answer = sender_start(settings);
    assert_eq!(answer, is(0, 10, 0, 0));
    assert!(sender_is_idle(answer.sender));
    answer = sender_enqueue(answer.sender, &mut queue, &[11, 22, 33, 44, 55, 66, 77]);
    assert_eq!(answer, is(0, 10, 7, 0));
    assert_eq!(queue[..9], [11, 22, 33, 44, 55, 66, 77, 7, 8]);
    answer = sender_transmit(answer.sender, &queue, &mut out);
    assert_eq!(answer, is(3, 1, 7, 3));
    assert_eq!(out, [11, 22, 33, 0xEE, 0xEE, 0xEE, 0xEE, 0xEE]);
    assert!(!sender_is_idle(answer.sender));
    answer = sender_wait(answer.sender, 4);
    assert_eq!(answer, is(0, 9, 7, 3));
    assert_eq!(sender_transmit(answer.sender, &queue, &mut out), answer);
    answer = sender_wait(answer.sender, 1);
    assert_eq!(answer, is(0, 10, 7, 3));
    answer = sender_transmit(answer.sender, &queue, &mut out);
    assert_eq!(answer, is(3, 1, 7, 6));
    assert_eq!(out, [44, 55, 66, 0xEE, 0xEE, 0xEE, 0xEE, 0xEE]);
    answer = sender_wait(answer.sender, 5);
    answer = sender_transmit(answer.sender, &queue, &mut out);
    assert_eq!(answer, is(1, 7, 7, 7));
    assert_eq!(out, [77, 55, 66, 0xEE, 0xEE, 0xEE, 0xEE, 0xEE]);
    // After the last byte it waits too.
    answer = sender_wait(answer.sender, 1);
    assert_eq!(answer, is(0, 9, 7, 7));
    assert!(!sender_is_idle(answer.sender));
    answer = sender_wait(answer.sender, u64::MAX);
    assert_eq!(answer, is(0, 10, 7, 7));
    assert!(sender_is_idle(answer.sender));
}

/// With a largest energy of 0, whatever the loss and the gain.
#[test]
fn switched_off_a_sender_never_waits() {
    for settings in [sender_settings(0, 0, 0), sender_settings(0, 9, 0)] {
        let is = |length, queued, sent| done(length, settings, (0, queued, sent));
        let (mut queue, mut out) = ([0; 772], [0xEE; 773]);
        let bytes = self::queue();
        let answer = sender_enqueue(sender_start(settings).sender, &mut queue, &bytes);
        assert_eq!(answer, is(0, 772, 0));
        assert_eq!(sender_energy(answer.sender), 0);
        let answer = sender_transmit(answer.sender, &queue, &mut out);
        assert_eq!(answer, is(772, 772, 772));
        assert_eq!((&out[..772], out[772]), (&bytes[..], 0xEE));
        assert!(sender_is_idle(answer.sender));
        assert_eq!(sender_wait(answer.sender, 7), is(0, 772, 772));
    }
}

#[test]
fn settings_of_a_sender() {
    for (settings, number) in [
        (sender_settings(10, 0, 2), 19),
        (sender_settings(10, 3, 0), 19),
        (sender_settings(10, 11, 2), 19),
        (sender_settings(10, 10, 2), 0),
        (sender_settings(1, 1, 1), 0),
        (sender_settings(u32::MAX, u32::MAX, u32::MAX), 0),
        (sender_settings(0, 0, 0), 0),
        (sender_settings(0, 5, 7), 0),
    ] {
        let sender = match number {
            0 => Sender {
                settings,
                energy: settings.max_energy,
                ..Sender::default()
            },
            _ => Sender::default(),
        };
        let length = 0;
        let expected = Sent {
            number,
            length,
            sender,
        };
        assert_eq!(sender_start(settings), expected);
    }
}

/// A sender that has handed out nothing yet.
fn sender_with(settings: SenderSettings, energy: u32, queued: usize) -> Sender {
    Sender {
        settings,
        energy,
        queued,
        sent: 0,
    }
}

/// 19 before 20 before 25; the sender and the queue stay.
#[test]
fn refusals_of_queueing() {
    let wrong = sender_settings(10, 11, 2);
    let right = sender_settings(10, 3, 2);
    let long = [0x55; 773];
    for (sender, n, number) in [
        (sender_with(wrong, 0, 0), 773, 19),
        (sender_with(wrong, 10, 0), 1, 19),
        (sender_with(right, 9, 0), 773, 20),
        (sender_with(right, 10, 1), 0, 20),
        (sender_with(right, 10, 0), 773, 25),
        (sender_with(right, 10, 0), 772, 0),
        (sender_with(right, 10, 0), 0, 0),
    ] {
        let mut queue = queue();
        let answer = sender_enqueue(sender, &mut queue, &long[..n]);
        assert_eq!((answer.number, answer.length), (number, 0));
        if number != 0 {
            assert_eq!((answer.sender, queue), (sender, self::queue()));
        }
    }
}

/// 19 before 5; the sender and the room stay.
#[test]
fn refusals_of_handing_out() {
    let wrong = sender_settings(10, 11, 2);
    let right = sender_settings(10, 3, 2);
    for (sender, room, number) in [
        (sender_with(wrong, 10, 7), 2, 19),
        (sender_with(right, 10, 7), 2, 5),
        (sender_with(right, 10, 7), 3, 0),
        (sender_with(right, 9, 7), 0, 0),
        (sender_with(right, 10, 0), 0, 0),
    ] {
        let mut out = [0xEE; 3];
        let answer = sender_transmit(sender, &queue(), &mut out[..room]);
        assert_eq!(answer.number, number);
        if answer.length == 0 {
            assert_eq!((answer.sender, out), (sender, [0xEE; 3]));
        }
    }
}

#[test]
fn refusals_of_waiting() {
    let wrong = sender_with(sender_settings(10, 11, 2), 0, 7);
    let refused = sender_wait(wrong, 1);
    assert_eq!((refused.number, refused.sender), (19, wrong));
}

/// Numbers that no 64 bits hold, and those just below a full sender.
#[test]
fn long_waits() {
    let waiting = |settings| Sender {
        settings,
        energy: 0,
        queued: 5,
        sent: 1,
    };
    for (settings, microseconds, energy) in [
        (sender_settings(10, 3, 2), u64::MAX, 10),
        (sender_settings(u32::MAX, 1, u32::MAX), 1, u32::MAX),
        (sender_settings(u32::MAX, 1, u32::MAX), u64::MAX, u32::MAX),
        (sender_settings(u32::MAX, 1, 2), 1 << 63, u32::MAX),
        (sender_settings(u32::MAX, 1, 1 << 31), 1, 1 << 31),
        (sender_settings(u32::MAX, 1, 1 << 31), 2, u32::MAX),
        (sender_settings(u32::MAX, 1, 1), (1 << 32) - 2, u32::MAX - 1),
        (sender_settings(u32::MAX, 1, 1), (1 << 32) - 1, u32::MAX),
        (sender_settings(u32::MAX, 1, 1), 1 << 32, u32::MAX),
    ] {
        let answer = sender_wait(waiting(settings), microseconds);
        assert_eq!(answer, done(0, settings, (energy, 5, 1)));
    }
}

/// States that no calls lead to.
#[test]
fn impossible_senders() {
    let settings = sender_settings(10, 3, 2);
    let sender = |energy, queued, sent| done(0, settings, (energy, queued, sent)).sender;
    let queue = queue();
    let mut out = [0xEE; 8];
    // More energy than the largest is a full sender's, and stays until a portion goes.
    assert_eq!(sender_energy(sender(99, 0, 0)), 10);
    assert!(sender_is_idle(sender(99, 0, 0)));
    assert_eq!(
        sender_wait(sender(99, 5, 0), 3),
        done(0, settings, (99, 5, 0))
    );
    let answer = sender_transmit(sender(99, 5, 3), &queue, &mut out);
    assert_eq!(answer, done(2, settings, (4, 5, 5)));
    assert_eq!(out[..3], [3, 4, 0xEE]);
    // Of a queue that is said to be longer, what stands in it is sent.
    let answer = sender_transmit(sender(10, usize::MAX, 770), &queue, &mut out);
    assert_eq!(answer, done(2, settings, (4, usize::MAX, 772)));
    assert_eq!(out[..3], [2, 3, 0xEE]);
    for (queued, sent) in [(5, 6), (5, usize::MAX), (900, 772), (usize::MAX, 773)] {
        assert!(sender_is_idle(sender(10, queued, sent)));
        let answer = sender_transmit(sender(10, queued, sent), &queue, &mut []);
        assert_eq!(answer, done(0, settings, (10, queued, sent)));
    }
}
