//! What is called for each input.

use crate::check::{hex, Checked, Checker};
use crate::library;
use crate::naive::{self, Delivered};
use crate::recordings::{self, BLOCK, MAX_PAYLOAD, MAX_STREAM};
use reference::{Header, Validation};

pub type Class = (&'static str, fn(&mut Checker) -> Checked<()>);

/// The classes of random cases.
pub const CLASSES: [Class; 28] = [
    ("valid", |c| c.random_recording(recordings::recording)),
    ("one bit", |c| c.random_recording(recordings::one_bit)),
    ("one byte", |c| c.random_recording(recordings::one_byte)),
    ("cut", |c| c.random_recording(recordings::cut)),
    ("spliced", |c| c.random_recording(recordings::spliced)),
    ("repeated", |c| c.random_recording(recordings::repeated)),
    ("wrong fields", |c| {
        c.random_recording(recordings::wrong_fields)
    }),
    ("unused bits", |c| {
        c.random_recording(recordings::unused_bits)
    }),
    ("uncovered bits", Checker::random_uncovered_bits),
    ("hostile", |c| c.random_recording(recordings::hostile)),
    ("random bytes", |c| c.random_recording(recordings::random)),
    ("encode", Checker::random_encode),
    ("sections", Checker::random_sections),
    ("broken sections", Checker::random_broken_sections),
    ("septets", Checker::random_septets),
    ("checksum and value", Checker::random_sums),
    ("faults: any start", Checker::faults_from_any_start),
    ("receive: cut", Checker::receive_cut),
    ("receive: any state", Checker::receive_in_any_state),
    ("receive: resets", Checker::receive_with_resets),
    ("receive: hostile", Checker::receive_hostile),
    ("receive: wrapper", Checker::receive_wrapped),
    ("slave IDs", Checker::random_slave_id),
    ("slaves: runs", Checker::random_slaves),
    ("owners: histories", Checker::random_owners),
    ("figures: runs", Checker::random_figures),
    ("sender: runs", Checker::random_sender_run),
    ("sender: any state", Checker::random_sender_states),
];

/// The records of random recordings by how many of their blocks have unused septet bits; those of a
/// telegram have none. Where one stays 0 the run has shown less than it claims.
pub const UNUSED: [&str; 7] = [
    "packets, unused: 0",
    "packets, unused: 1",
    "packets, some unused",
    "packets, all unused",
    "datagrams, unused: 0",
    "datagrams, unused: 1",
    "telegrams",
];

/// The one of these that a whole stream belongs to.
fn unused_class(stream: &[u8]) -> &'static str {
    let unused = naive::unused_septets(stream);
    UNUSED[match (stream[5], unused) {
        (0x10, 0) => 0,
        (0x10, 1) => 1,
        (0x10, _) if unused < naive::block_count(stream) => 2,
        (0x10, _) => 3,
        (0x20, 0) => 4,
        (0x20, _) => 5,
        _ => 6,
    }]
}

impl Checker {
    fn random_recording(&mut self, make: fn(&mut crate::rng::Rng) -> Vec<u8>) -> Checked<()> {
        let input = make(&mut self.rng);
        for record in self.recording(&input)? {
            self.count(unused_class(record.stream(&input, 0)));
        }
        self.random_faults(&input)
    }

    /// A checksum that leaves unused septet bits out is wrong, though what is read would be the same.
    fn random_uncovered_bits(&mut self) -> Checked<()> {
        let (stream, septet) = recordings::uncovered_bits(&mut self.rng);
        let verdict = if stream[5] == 0x20 { 4 } else { 6 };
        self.validated(&stream, verdict, septet + 1, 0)?;
        let input = recordings::surrounded(&mut self.rng, stream);
        self.recording(&input)?;
        Ok(())
    }

    /// `validate` gives just these.
    fn validated(
        &mut self,
        input: &[u8],
        verdict: u8,
        offset: usize,
        unused_septets: usize,
    ) -> Checked<()> {
        let answer = self.validate(input)?;
        let expected = Validation {
            verdict,
            offset,
            unused_septets,
        };
        self.holds(answer == expected, || {
            let input = hex(input);
            format!("vbus_validate of {input} gives {expected:?}; it gave {answer:?}")
        })
    }

    /// Everything that reads a recording, and what must hold of the answers together. Gives the records.
    pub fn recording(&mut self, input: &[u8]) -> Checked<Vec<Delivered>> {
        let before = input.to_vec();
        self.validate(input)?;
        let from = self.rng.below(input.len() + 1);
        self.validate(&input[from..])?;
        self.places(input)?;
        let records = self.records(input)?;
        self.all_faults(input, &records)?;

        let (_, normal) = self.normalize(input, input.len())?;
        let need = normal.len();
        let other = self.rng.below(2 * input.len() + 2);
        for room in [0, need.saturating_sub(1), need, need + 1, other] {
            self.normalize(input, room)?;
        }
        if input.len() <= naive::MOST {
            self.by_every_place(input, &records, &normal)?;
        }
        self.normalized_again(input, &records, &normal)?;
        let wrapped = vbus::normalize_to_vec(input);
        self.holds(wrapped == normal, || {
            format!("vbus::normalize_to_vec of {}", hex(input))
        })?;
        self.holds(before == input, || {
            format!("the input is left alone: {}", hex(&before))
        })?;
        Ok(records)
    }

    /// The normalized recording has just the recording's records, the same but for their positions, and
    /// stays as it is when normalized.
    fn normalized_again(
        &mut self,
        input: &[u8],
        records: &[Delivered],
        normal: &[u8],
    ) -> Checked<()> {
        let (_, again) = self.normalize(normal, normal.len())?;
        self.holds(again == normal, || {
            format!("normalizing twice is normalizing once: {}", hex(input))
        })?;
        let mut at = 0;
        let mut payload = [0; MAX_PAYLOAD];
        for record in records {
            let found = library::next(normal, at, &mut payload);
            let same = found.found
                && found.position == at as u64
                && found.header == record.header
                && payload[..found.payload_length] == record.payload[..];
            self.holds(same, || {
                format!("the normalized recording's records: {}", hex(input))
            })?;
            self.validated(&normal[at..], 0, found.length, 0)?;
            at += found.length;
        }
        self.holds(at == normal.len(), || {
            format!("nothing else in the normalized recording: {}", hex(input))
        })
    }

    /// What was found and written, against the records by the rule itself.
    fn by_every_place(
        &mut self,
        input: &[u8],
        records: &[Delivered],
        normal: &[u8],
    ) -> Checked<()> {
        let expected = naive::records(input);
        self.count("naive recordings");
        *self.cases.entry("naive records").or_default() += expected.len() as u64;
        self.holds(records == expected, || {
            let input = hex(input);
            format!("the records of {input} are {expected:X?}; found were {records:X?}")
        })?;
        let expected = naive::normalized(&expected);
        self.holds(normal == expected, || {
            let (input, expected, normal) = (hex(input), hex(&expected), hex(normal));
            format!("{input} normalized is {expected}; written was {normal}")
        })
    }

    /// `next` and `next_fault` from places around both ends and somewhere between.
    fn places(&mut self, input: &[u8]) -> Checked<()> {
        let n = input.len();
        let between = self.rng.below(n + 1);
        for start in [1, between, n.saturating_sub(1), n, n + 1, usize::MAX] {
            let room = self
                .rng
                .pick(&[0, 3, 4, 6, 7, MAX_PAYLOAD, MAX_PAYLOAD + 1]);
            self.next(input, start, room)?;
            self.next_fault(input, start)?;
        }
        Ok(())
    }

    /// The recording's records, each looked for with rooms around its need and written again.
    fn records(&mut self, input: &[u8]) -> Checked<Vec<Delivered>> {
        let mut records = Vec::new();
        let mut wrapped = vbus::records(input);
        let mut start = 0;
        loop {
            let (found, payload) = self.next(input, start, MAX_PAYLOAD)?;
            let entry = wrapped.next();
            let same = match &entry {
                None => !found.found,
                Some(entry) => {
                    found.found
                        && (entry.position, entry.length) == (found.position, found.length)
                        && entry.record.header == wrapper(found.header)
                        && entry.record.payload == payload
                }
            };
            self.holds(same, || {
                format!("vbus::records of {} from {start}", hex(input))
            })?;
            if !found.found {
                return Ok(records);
            }
            if records.len() < 2 {
                let need = found.payload_length;
                for room in [0, need.saturating_sub(1), need, need + 1] {
                    self.next(input, start, room)?;
                }
            }
            let record = Delivered {
                position: found.position,
                length: found.length,
                header: found.header,
                payload,
            };
            self.written_again(record.stream(input, 0), &record)?;
            start = found.position as usize + found.length;
            records.push(record);
        }
    }

    /// A record written again is the stream that was read, but for its unused septet bits; and read again
    /// it is the same record, at another position.
    fn written_again(&mut self, read: &[u8], record: &Delivered) -> Checked<()> {
        let (_, stream) = self.encode(record.header, &record.payload, record.length)?;
        let clean = self.validate(read)?.unused_septets == 0;
        self.holds((stream == read) == clean, || {
            let read = hex(read);
            format!("encoding gives {read} again exactly if it has no unused septet bits")
        })?;
        let (back, copy) = self.next(&stream, 0, MAX_PAYLOAD)?;
        let same = back.found
            && (back.position, back.length) == (0, stream.len())
            && back.header == record.header
            && copy == record.payload;
        self.holds(same, || {
            format!("the encoded stream's record: {}", hex(&stream))
        })
    }

    fn random_encode(&mut self) -> Checked<()> {
        let (mut header, mut payload) = recordings::record(&mut self.rng);
        // Wrong fields, alone and together: the first refusal that applies is given.
        for _ in 0..self.rng.below(3) {
            match self.rng.below(5) {
                0 => header.version = self.rng.byte(),
                1 => header.destination ^= 1 << self.rng.below(16),
                2 => header.source ^= 1 << self.rng.below(16),
                3 => header.command ^= 1 << self.rng.below(16),
                _ => payload.resize(self.rng.below(530), 0x5A),
            }
        }
        self.encode_around(header, &payload)
    }

    /// `encode` with rooms around the need.
    fn encode_around(&mut self, header: Header, payload: &[u8]) -> Checked<()> {
        let (written, stream) = self.encode(header, payload, MAX_STREAM)?;
        let need = written.length;
        let other = self.rng.below(MAX_STREAM + 2);
        for room in [0, need.saturating_sub(1), need, need + 1, other] {
            self.encode(header, payload, room)?;
        }
        let wrapped = vbus::encode_to_vec(wrapper(header), payload);
        let same = match &wrapped {
            Ok(bytes) => written.number == 0 && *bytes == stream,
            Err(error) => error.number() == written.number,
        };
        self.holds(same, || {
            format!("vbus::encode_to_vec({header:X?}, {})", hex(payload))
        })?;
        if written.number == 0 {
            let (found, copy) = self.next(&stream, 0, payload.len())?;
            let same = found.found
                && (found.position, found.length) == (0, stream.len())
                && found.header == header
                && copy == payload;
            self.holds(same, || {
                format!("the record is found again: {header:X?}, {}", hex(payload))
            })?;
        }
        Ok(())
    }

    fn random_sections(&mut self) -> Checked<()> {
        let payload = recordings::block_payload(&mut self.rng);
        let source = recordings::source(&mut self.rng);
        self.sections(Header { source, ..BLOCK }, &payload)
    }

    fn random_broken_sections(&mut self) -> Checked<()> {
        let (header, payload) = recordings::broken_block(&mut self.rng);
        self.sections(header, &payload)
    }

    /// Every section and element, and numbers behind the last.
    fn sections(&mut self, header: Header, payload: &[u8]) -> Checked<()> {
        let before = payload.to_vec();
        let count = self.section_count(header, payload)?;
        let other = self.rng.below(200);
        let behind = [count.count, count.count + 1, other, usize::MAX];
        for section in (0..count.count).chain(behind) {
            self.section(header, payload, section)?;
            let elements = self.element_count(header, payload, section)?.count;
            let last = elements.saturating_sub(1);
            let some = self.rng.below(elements + 1);
            for element in [0, some, last, elements, elements + 1, usize::MAX] {
                self.element(header, payload, section, element)?;
            }
        }
        self.wrapped_sections(header, payload)?;
        self.holds(before == payload, || {
            format!("the payload is left alone: {}", hex(&before))
        })
    }

    /// The `vbus` crate's sections and elements against the reference's.
    fn wrapped_sections(&mut self, header: Header, payload: &[u8]) -> Checked<()> {
        let expected = reference::section_count(header, payload);
        let what = || format!("vbus::sections({header:X?}, {})", hex(payload));
        let sections = match vbus::sections(wrapper(header), payload) {
            Ok(sections) => sections,
            Err(error) => return self.holds(error.number() == expected.number, what),
        };
        let same = expected.number == 0 && sections.len() == expected.count;
        self.holds(same, what)?;
        for (k, section) in sections.enumerate() {
            let part = reference::section(header, payload, k);
            let bytes = &payload[part.start..part.start + part.length];
            self.holds(section.bytes() == bytes, what)?;
            self.wrapped_temperatures(&section, what)?;
            let count = reference::element_count(header, payload, k);
            match section.elements() {
                Err(error) => self.holds(error.number() == count.number, what)?,
                Ok(elements) => {
                    let joined: Vec<u8> = elements.clone().flatten().copied().collect();
                    self.holds(joined == section.payload(), what)?;
                    let same = elements.len() == count.count
                        && elements.enumerate().all(|(i, bytes)| {
                            let part = reference::element(header, payload, k, i);
                            bytes == &payload[part.start..part.start + part.length]
                        });
                    self.holds(same, what)?;
                }
            }
        }
        Ok(())
    }

    /// A section's temperatures are there exactly if its type is 0x01, one for every two bytes.
    fn wrapped_temperatures(
        &mut self,
        section: &vbus::Section,
        what: impl Fn() -> String,
    ) -> Checked<()> {
        let pairs = section.payload().chunks_exact(2);
        let expected = pairs.map(|pair| reference::temperature(&[pair[0], pair[1]]));
        let same = match section.temperatures() {
            Some(temperatures) => section.section_type() == 0x01 && temperatures.eq(expected),
            None => section.section_type() != 0x01,
        };
        self.holds(same, what)
    }

    fn random_septets(&mut self) -> Checked<()> {
        let length = match self.rng.below(12) {
            10 => self.rng.next() as usize,
            11 => usize::MAX,
            length => length,
        };
        let mut bytes = [0; 7];
        let mask = self.rng.pick(&[0x7F, 0x7F, 0xFF]);
        for byte in &mut bytes {
            *byte = self.rng.byte() & mask;
        }
        // High bytes behind the length do not count.
        if self.rng.once_in(2) {
            bytes.iter_mut().skip(length).for_each(|byte| *byte |= 0x80);
        }
        let bits = self.rng.pick(&[8, 7, length.min(7)]);
        let septet = (self.rng.next() & ((1 << bits) - 1)) as u8;
        self.septets(bytes, length, septet)
    }

    fn random_sums(&mut self) -> Checked<()> {
        let length = match self.rng.below(8) {
            0 => self.rng.below(3000),
            _ => self.rng.below(40),
        };
        let block = self.rng.bytes(length);
        let sum = self.checksum(&block)?;
        self.holds(vbus::checksum(&block) == sum, || {
            format!("vbus::checksum of {}", hex(&block))
        })?;
        let mut payload = [0; 6];
        let edge = self.rng.once_in(4);
        for byte in &mut payload {
            *byte = if edge {
                self.rng.pick(&[0x00, 0x7F, 0x80, 0xFF])
            } else {
                self.rng.byte()
            };
        }
        let value = self.value(&payload)?;
        self.holds(vbus::value(&payload) == value, || {
            format!("vbus::value of {}", hex(&payload))
        })
    }

    /// The cases that every run makes, whatever the seed.
    pub fn fixed(&mut self) -> Checked<()> {
        self.every_encode()?;
        self.every_place_and_room()?;
        self.every_bit()?;
        self.every_cut()?;
        self.every_septet()?;
        self.every_unused_septet()?;
        self.every_uncovered_septet()?;
        self.every_section()?;
        self.every_block_header()?;
        self.every_temperature()?;
        self.every_held_and_room()?;
        self.every_limit()?;
        self.every_announcement()?;
        self.every_two_cuts()?;
        self.every_block_length()?;
        self.every_slave_id()?;
        self.every_slave_address()?;
        self.every_two_entries()?;
        self.every_table_length()?;
        self.every_identifier_width()?;
        self.every_share()?;
        self.shares_by_calls()?;
        self.many_slaves()?;
        self.many_owners()?;
        self.every_length_with_figures()?;
        self.every_figure()?;
        self.many_figures()?;
        self.every_sender_start()?;
        self.every_queue_sent()?;
        self.every_sender_room()?;
        self.every_sender_wait()?;
        self.every_sender_state()?;
        self.many_senders()?;
        for byte in 0..=255 {
            self.checksum(&[byte])?;
            for at in 0..6 {
                let mut payload = [0x55; 6];
                payload[at] = byte;
                self.value(&payload)?;
            }
        }
        Ok(())
    }

    /// The checksum of every length up to five pieces of 256 bytes, and of a long block; the largest
    /// bytes give the largest sums.
    fn every_block_length(&mut self) -> Checked<()> {
        for length in (0..=5 * 256).chain([65_537]) {
            let block = self.rng.bytes(length);
            self.checksum(&block)?;
            self.checksum(&vec![0xFF; length])?;
        }
        Ok(())
    }

    /// Every version, command, address bit, payload length and room.
    fn every_encode(&mut self) -> Checked<()> {
        let plain = Header {
            version: 0x10,
            destination: 0x1234,
            source: 0x5678,
            command: 0x0300,
        };
        for version in 0..=255 {
            for length in [0, 4, 6, 7] {
                let header = Header { version, ..plain };
                self.encode_around(header, &vec![0x81; length])?;
                let command = 0x20;
                let header = Header { command, ..header };
                self.encode_around(header, &vec![0x81; length])?;
            }
        }
        for version in [0x10, 0x20, 0x30, 0x31] {
            let mut header = Header { version, ..plain };
            let length = match version {
                0x10 => 8,
                0x20 => 6,
                _ => {
                    header.command = 0x41;
                    14
                }
            };
            let payload = self.rng.bytes(length);
            for bit in 0..16 {
                for field in 0..3 {
                    let mut header = header;
                    match field {
                        0 => header.destination ^= 1 << bit,
                        1 => header.source ^= 1 << bit,
                        _ => header.command ^= 1 << bit,
                    }
                    self.encode_around(header, &payload)?;
                }
            }
            for room in 0..MAX_STREAM + 2 {
                self.encode(header, &payload, room)?;
            }
            for length in 0..=530 {
                self.encode_around(header, &vec![0xC3; length])?;
            }
        }
        for command in 0..=0x101 {
            for frames in 0..=4 {
                let version = self.rng.pick(&[0x30, 0x31]);
                let header = Header {
                    version,
                    command,
                    ..plain
                };
                let payload = self.rng.bytes(7 * frames);
                self.encode_around(header, &payload)?;
            }
        }
        Ok(())
    }

    /// A short recording from every place and with every room.
    fn every_place_and_room(&mut self) -> Checked<()> {
        self.recording(&[])?;
        self.next(&[], 0, 0)?;
        self.next(&[], 1, 0)?;
        let mut input = vec![0x00, 0xAA, 0xAA, 0x15];
        for (version, command, length) in [(0x10, 0x0300, 8), (0x20, 0x0100, 6), (0x31, 0x69, 21)] {
            let header = Header {
                version,
                destination: 0x0020,
                source: 0x7E21,
                command,
            };
            let payload = self.rng.bytes(length);
            let stream = recordings::encoded(header, &payload);
            input.extend(&stream[..stream.len() - 1]);
            input.extend(recordings::with_unused_bits(&stream, |_| true));
            input.extend(stream);
            input.push(0xAA);
        }
        self.recording(&input)?;
        for start in (0..input.len() + 3).chain([1 << 32, usize::MAX - 1, usize::MAX]) {
            for room in 0..24 {
                self.next(&input, start, room)?;
            }
            self.next_fault(&input, start)?;
        }
        for room in 0..input.len() + 3 {
            self.normalize(&input, room)?;
        }
        for from in 0..=input.len() {
            for to in from..=input.len() {
                self.validate(&input[from..to])?;
                self.next_fault(&input[from..to], 0)?;
            }
        }
        Ok(())
    }

    /// Short streams with every bit changed.
    fn every_bit(&mut self) -> Checked<()> {
        for (version, command, length) in [
            (0x10, 0x0100, 0),
            (0x10, 0x0200, 12),
            (0x20, 0x0500, 6),
            (0x30, 0x04, 0),
            (0x30, 0x24, 7),
            (0x31, 0x69, 21),
        ] {
            let header = Header {
                version,
                destination: 0x2011,
                source: 0x7731,
                command,
            };
            let payload = self.rng.bytes(length);
            let stream = recordings::encoded(header, &payload);
            for at in 0..stream.len() {
                for bit in 0..8 {
                    let mut input = stream.clone();
                    input[at] ^= 1 << bit;
                    self.recording(&input)?;
                    self.all_reasons(&input)?;
                    input.extend(&stream);
                    self.recording(&input)?;
                }
                let mut input = stream.clone();
                input.splice(at..at, stream.iter().copied());
                self.recording(&input)?;
                for byte in 0..=255 {
                    let mut input = stream.clone();
                    input[at] = byte;
                    self.validate(&input)?;
                    self.next_fault(&input, 0)?;
                }
            }
        }
        Ok(())
    }

    /// The longest packet, cut at every byte, alone and before another.
    fn every_cut(&mut self) -> Checked<()> {
        let packet = recordings::longest(&mut self.rng);
        for end in 0..=packet.len() {
            self.validate(&packet[..end])?;
            self.next(&packet[..end], 0, MAX_PAYLOAD)?;
            self.all_reasons(&packet[..end])?;
            self.normalize(&packet[..end], end)?;
            let input = [&packet[..end], &packet[..]].concat();
            self.next(&input, 0, MAX_PAYLOAD)?;
            self.normalize(&input, input.len())?;
        }
        for room in 0..MAX_PAYLOAD + 2 {
            self.next(&packet, 0, room)?;
        }
        Ok(())
    }

    /// Every length and septet.
    fn every_septet(&mut self) -> Checked<()> {
        let lengths = (0..=9).chain([255, 256, 1 << 32, (1 << 32) + 3, usize::MAX]);
        for length in lengths {
            for septet in 0..=255 {
                let mut bytes = [0; 7];
                for byte in &mut bytes {
                    *byte = self.rng.byte() & 0x7F;
                }
                self.septets(bytes, length, septet)?;
                for at in 0..7 {
                    let mut high = bytes;
                    high[at] |= 0x80;
                    self.septets(high, length, septet)?;
                }
            }
        }
        Ok(())
    }

    /// Packets of every size with unused septet bits in the first frame, the last, every second, all
    /// and none; and every septet of each kind's block, in a stream with one block.
    fn every_unused_septet(&mut self) -> Checked<()> {
        for frames in 0..=127 {
            let packet = self.packet_of(frames);
            let last = frames.saturating_sub(1);
            let patterns: [(usize, &dyn Fn(usize) -> bool); 5] = [
                (frames.min(1), &|i| i == 0),
                (frames.min(1), &|i| i == last),
                (frames.div_ceil(2), &|i| i % 2 == 0),
                (frames, &|_| true),
                (0, &|_| false),
            ];
            for (count, chosen) in patterns {
                let stream = recordings::with_unused_bits(&packet, chosen);
                self.validated(&stream, 0, stream.len(), count)?;
                self.recording(&stream)?;
            }
        }
        for (version, command, length) in [(0x10, 0x0100, 4), (0x20, 0x0100, 6), (0x30, 0x25, 7)] {
            for septet in 0..=0x7F {
                let mut stream = self.stream_of(version, command, length);
                let at = stream.len() - 2;
                stream[at] = septet;
                recordings::fix_checksums(&mut stream);
                let unused = usize::from(septet >> length != 0);
                self.validated(&stream, 0, stream.len(), unused)?;
                self.recording(&stream)?;
            }
        }
        Ok(())
    }

    /// An unused septet bit of each frame in turn is changed and its checksum kept, in packets without
    /// unused bits and with all of them.
    fn every_uncovered_septet(&mut self) -> Checked<()> {
        for frames in [1, 2, 3, 10, 127] {
            let packet = self.packet_of(frames);
            for all in [false, true] {
                let stream = recordings::with_unused_bits(&packet, |_| all);
                let (septets, _) = recordings::septets(&stream);
                for septet in septets {
                    let mut wrong = stream.clone();
                    wrong[septet] ^= self.rng.pick(&[0x10, 0x20, 0x40]);
                    self.validated(&wrong, 6, septet + 1, 0)?;
                    self.next(&wrong, 0, MAX_PAYLOAD)?;
                    self.next_fault(&wrong, 0)?;
                }
            }
        }
        Ok(())
    }

    fn packet_of(&mut self, frames: usize) -> Vec<u8> {
        self.stream_of(0x10, 0x0300, 4 * frames)
    }

    /// A stream with this payload's length, without unused septet bits.
    fn stream_of(&mut self, version: u8, command: u16, length: usize) -> Vec<u8> {
        let header = Header {
            version,
            destination: 0x0020,
            source: 0x7E21,
            command,
        };
        let payload = self.rng.bytes(length);
        recordings::encoded(header, &payload)
    }

    /// Every section type, frame count and number of sections.
    fn every_section(&mut self) -> Checked<()> {
        self.sections(BLOCK, &[])?;
        for section_type in 0..=255 {
            let mut payload = vec![0, 0x08, 1, 2, 5, section_type, 3, 4];
            payload.extend(self.rng.bytes(20));
            self.sections(BLOCK, &payload)?;
        }
        for frames in 0..=255 {
            for length in [4, 8, 4 + 4 * 126, 4 + 4 * usize::from(frames)] {
                for section_type in recordings::SECTION_TYPES {
                    let mut payload = vec![0; length];
                    payload[0] = frames;
                    payload[1] = section_type;
                    self.sections(BLOCK, &payload)?;
                }
            }
        }
        for count in 0..=128 {
            self.sections(BLOCK, &vec![0; 4 * count])?;
        }
        for length in 0..=530 {
            self.section_count(BLOCK, &vec![0; length])?;
        }
        Ok(())
    }

    /// Every version and every bit of the other fields around a block packet's header, with a
    /// payload whose sections are right: only the source is free.
    fn every_block_header(&mut self) -> Checked<()> {
        let payload = [1, 0x0B, 0, 0, 1, 2, 3, 4, 0, 0x08, 0, 0];
        for source in [0, BLOCK.source, 0xFFFF] {
            let block = Header { source, ..BLOCK };
            self.sections(block, &payload)?;
            for version in 0..=255 {
                self.sections(Header { version, ..block }, &payload)?;
            }
            for bit in 0..16 {
                let mut other = block;
                other.source ^= 1 << bit;
                self.sections(other, &payload)?;
                let mut other = block;
                other.destination ^= 1 << bit;
                self.sections(other, &payload)?;
                let mut other = block;
                other.command ^= 1 << bit;
                self.sections(other, &payload)?;
            }
        }
        Ok(())
    }

    fn every_temperature(&mut self) -> Checked<()> {
        for word in 0..=u16::MAX {
            let bytes = word.to_le_bytes();
            let temperature = self.temperature(&bytes)?;
            self.holds(vbus::temperature(&bytes) == temperature, || {
                format!("vbus::temperature of {}", hex(&bytes))
            })?;
        }
        Ok(())
    }

    /// Long hostile inputs: only a linear search answers in time.
    pub fn long(&mut self) -> Checked<()> {
        const LENGTH: usize = 1 << 19;
        let announcing = recordings::longest(&mut self.rng)[..10].to_vec();
        let mut packet = recordings::longest(&mut self.rng);
        let last = packet.len() - 1;
        packet[last] ^= 1;
        let valid = recordings::stream(&mut self.rng);
        let unused = recordings::with_unused_bits(&self.packet_of(127), |_| true);
        for part in [
            vec![0xAA],
            vec![0x00],
            vec![0xAA, 0x10],
            announcing,
            recordings::interleaved(&valid),
            packet,
            valid,
            unused,
        ] {
            let input: Vec<u8> = part.iter().copied().cycle().take(LENGTH).collect();
            self.validate(&input)?;
            self.next(&input, 1, MAX_PAYLOAD)?;
            let (written, _) = self.normalize(&input, LENGTH)?;
            self.normalize(&input, written.length)?;
            self.normalize(&input, written.length.saturating_sub(1))?;
            self.told_faults(&input)?;
            self.count("long input");
        }
        self.far()?;
        self.receive_long()
    }

    /// Records around 4 GiB, from where a position has more than 32 bits. Only what is near them is
    /// touched, so the input takes addresses but no memory.
    fn far(&mut self) -> Checked<()> {
        self.note(|| "a record around 4 GiB".to_string());
        let stream = recordings::stream(&mut self.rng);
        let mut input = vec![0; (1 << 32) + 2 * MAX_STREAM];
        for position in [(1 << 32) - 1, 1 << 32, (1 << 32) + 300] {
            let end = position + stream.len();
            input[position..end].copy_from_slice(&stream);
            let mut buffer = [0; MAX_PAYLOAD];
            let found = library::next(&input, position - 3, &mut buffer);
            let same = found == reference::next(&input, position - 3, &mut buffer)
                && found.position == position as u64
                && vbus::next(&input, position - 3, &mut buffer).is_ok_and(|found| {
                    found.is_some_and(|found| {
                        (found.position, found.end()) == (position as u64, end)
                    })
                });
            self.holds(same, || format!("a record at {position}: {found:X?}"))?;
            self.count("long input");
            input[position..end].fill(0);
        }
        Ok(())
    }
}

pub fn wrapper(header: Header) -> vbus::Header {
    vbus::Header {
        version: header.version,
        destination: header.destination,
        source: header.source,
        command: header.command,
    }
}
