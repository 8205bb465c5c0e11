//! Recordings to time on, the same in every run.

use reference::{checksum, encode, validate, Header};

/// xorshift64
pub struct Random(pub u64);

impl Random {
    fn next(&mut self) -> u64 {
        self.0 ^= self.0 << 13;
        self.0 ^= self.0 >> 7;
        self.0 ^= self.0 << 17;
        self.0
    }

    fn below(&mut self, n: usize) -> usize {
        (self.next() >> 32) as usize % n
    }

    pub fn fill(&mut self, bytes: &mut [u8]) {
        for byte in bytes {
            *byte = (self.next() >> 24) as u8;
        }
    }
}

type Make = fn(usize, &mut Random) -> Vec<u8>;

/// What is read beside clean recordings.
pub const OTHERS: [(&str, Make); 3] = [
    ("noisy", noisy),
    ("no 0xAA", without_sync),
    ("all 0xAA", all_sync),
];

/// What is handed to a receiver.
pub const RECEIVED: [(&str, Make); 4] = [
    ("clean", clean),
    ("noisy", noisy),
    ("all 0xAA", all_sync),
    ("cut packets", cut_packets),
];

/// What has faults only.
pub const HOSTILE: [(&str, Make); 2] = [("all 0xAA", all_sync), ("cut packets", cut_packets)];

/// A stream as a bus carries them: of ten, six packets, two datagrams and two telegrams. Most
/// packets have up to 32 frames, every tenth any number.
fn stream(random: &mut Random, out: &mut [u8; 772]) -> usize {
    let mut payload = [0u8; 508];
    random.fill(&mut payload);
    let (version, command, length) = match random.below(10) {
        0..=5 => {
            let most = if random.below(10) == 0 { 128 } else { 33 };
            (0x10, 0x0100, 4 * random.below(most))
        }
        6..=7 => (0x20, 0x0500, 6),
        _ => {
            let command = random.below(128);
            (0x30, command as u16, command / 32 * 7)
        }
    };
    let header = Header {
        version,
        destination: random.next() as u16 & 0x7F7F,
        source: random.next() as u16 & 0x7F7F,
        command,
    };
    encode(header, &payload[..length], out).length
}

/// Whole streams with nothing between, up to `n` bytes.
pub fn clean(n: usize, random: &mut Random) -> Vec<u8> {
    let mut bytes = Vec::with_capacity(n);
    let mut one = [0; 772];
    loop {
        let length = stream(random, &mut one);
        if bytes.len() + length > n {
            return bytes;
        }
        bytes.extend_from_slice(&one[..length]);
    }
}

/// A clean recording with all unused bits set in every septet, under right checksums.
pub fn with_unused_bits(mut bytes: Vec<u8>) -> Vec<u8> {
    let mut rest = &mut bytes[..];
    while !rest.is_empty() {
        let (stream, behind) = rest.split_at_mut(validate(rest).offset);
        set_unused_bits(stream);
        rest = behind;
    }
    bytes
}

/// Telegrams have no unused bits.
fn set_unused_bits(stream: &mut [u8]) {
    match stream[5] {
        0x10 => {
            for frame in stream[10..].chunks_exact_mut(6) {
                frame[4] |= 0x70;
                frame[5] = checksum(&frame[..5]);
            }
        }
        0x20 => {
            stream[14] |= 0x40;
            stream[15] = checksum(&stream[1..15]);
        }
        _ => {}
    }
}

/// Streams, each behind up to 40 random bytes. One in three has a bit flipped, one in six is cut off.
fn noisy(n: usize, random: &mut Random) -> Vec<u8> {
    let mut bytes = Vec::with_capacity(n + 1024);
    let mut one = [0; 772];
    while bytes.len() < n {
        let mut noise = [0; 40];
        random.fill(&mut noise);
        bytes.extend_from_slice(&noise[..random.below(41)]);
        let mut length = stream(random, &mut one);
        match random.below(6) {
            0 | 1 => one[random.below(length)] ^= 1 << random.below(8),
            2 => length = random.below(length),
            _ => {}
        }
        bytes.extend_from_slice(&one[..length]);
    }
    bytes.truncate(n);
    bytes
}

fn without_sync(n: usize, random: &mut Random) -> Vec<u8> {
    let mut bytes = vec![0; n];
    random.fill(&mut bytes);
    for byte in &mut bytes {
        if *byte == 0xAA {
            *byte = 0x55;
        }
    }
    bytes
}

fn all_sync(n: usize, _: &mut Random) -> Vec<u8> {
    vec![0xAA; n]
}

/// A longest packet without its last byte, again and again: as much as can be held in vain.
fn cut_packets(n: usize, random: &mut Random) -> Vec<u8> {
    let mut payload = [0; 508];
    random.fill(&mut payload);
    let header = Header {
        version: 0x10,
        destination: 0x0010,
        source: 0x7E21,
        command: 0x0100,
    };
    let mut packet = [0; 772];
    let length = encode(header, &payload, &mut packet).length;
    packet[..length - 1]
        .iter()
        .copied()
        .cycle()
        .take(n)
        .collect()
}
