//! What is handed to receivers.

use crate::cases::wrapper;
use crate::check::{hex, Checked, Checker, State};
use crate::library::{self, Receiver};
use crate::naive::{self, Delivered};
use crate::recordings::{self, MAX_PAYLOAD, MAX_STREAM};
use crate::rng::Rng;
use reference::{Header, Received};
use std::io::{self, ErrorKind, Read};
use vbus::{Entry, Error, RecordReader};

const CUT: &str = "records: cut";
const ANY_STATE: &str = "records: any state";
const RESETS: &str = "records: resets";
const HOSTILE: &str = "records: hostile";
const WRAPPER: &str = "records: wrapper";
const FIXED: &str = "records: fixed";
const UNUSED: &str = "records: unused bits";

/// The counts of records that each class delivers, and of those of random recordings whose streams have
/// unused septet bits. Where one stays 0 the class has shown nothing.
pub const RECORDS: [&str; 7] = [CUT, ANY_STATE, RESETS, HOSTILE, WRAPPER, FIXED, UNUSED];

/// The random calls whose chunk takes the position just to its limit, the largest 64-bit number, and
/// those that would take it one byte further. Where one stays 0 the run has shown less than it claims.
pub const LIMITS: [Limit; 3] = [LIMIT_ANY_STATE, LIMIT_RUNS, LIMIT_WRAPPER];

type Limit = [&'static str; 2];
const LIMIT_ANY_STATE: Limit = ["limit: any state", "past limit: any state"];
const LIMIT_RUNS: Limit = ["limit: runs", "past limit: runs"];
const LIMIT_WRAPPER: Limit = ["limit: wrapper", "past limit: wrapper"];

/// Every kind of recording.
const RECORDINGS: [fn(&mut Rng) -> Vec<u8>; 11] = [
    recordings::recording,
    recordings::one_bit,
    recordings::one_byte,
    recordings::cut,
    recordings::spliced,
    recordings::repeated,
    recordings::wrong_fields,
    recordings::unused_bits,
    |rng| recordings::uncovered_bits(rng).0,
    recordings::hostile,
    recordings::random,
];

pub fn any_recording(rng: &mut Rng) -> Vec<u8> {
    rng.pick(&RECORDINGS)(rng)
}

/// A recording cut at random, with empty chunks too.
fn chunks<'a>(rng: &mut Rng, input: &'a [u8]) -> Vec<&'a [u8]> {
    let most = rng.pick(&[1, 2, 9, 20, 300, 1000]);
    let single = rng.once_in(8);
    let mut chunks = Vec::new();
    let mut rest = input;
    while !rest.is_empty() {
        let length = if single { 1 } else { rng.below(most + 1) };
        let (chunk, behind) = rest.split_at(length.min(rest.len()));
        chunks.push(chunk);
        rest = behind;
    }
    if rng.once_in(8) {
        chunks = vec![input];
    }
    chunks
}

/// Where a receiver begins to which a recording of `n` bytes is handed, so that it fits, often just.
fn any_start(rng: &mut Rng, n: usize) -> u64 {
    let within = rng.below(n + 1) as u64;
    match rng.below(8) {
        0..=2 => 0,
        3 => rng.below(1 << 20) as u64,
        // 2^32 or 2^63 is passed on the way.
        4 => (1 << 32) - within,
        5 => (1 << 63) - within,
        _ => u64::MAX - n as u64,
    }
}

/// The records of `input`, which begins at position `from`, by the reference.
fn records_from(from: u64, input: &[u8]) -> Vec<Delivered> {
    let mut records = Vec::new();
    let mut payload = [0; MAX_PAYLOAD];
    let mut start = 0;
    loop {
        let found = reference::next(input, start, &mut payload);
        if !found.found {
            return records;
        }
        records.push(Delivered {
            position: from + found.position,
            length: found.length,
            header: found.header,
            payload: payload[..found.payload_length].to_vec(),
        });
        start = found.position as usize + found.length;
    }
}

/// A run of calls: receivers of the library and of the reference that get the same chunks, and what
/// they gave.
struct Run {
    library: State,
    reference: reference::Receiver,
    /// The library's, fresh when the others began or were last reset, which was at position `since`.
    fresh: State,
    since: u64,
    records: Vec<Delivered>,
    /// Chunks refused as 12.
    overflows: usize,
}

impl Run {
    fn at(position: u64, rng: &mut Rng) -> Run {
        Run {
            library: State::at(position, rng),
            reference: reference::Receiver::at(position),
            fresh: State::at(0, rng),
            since: position,
            records: Vec::new(),
            overflows: 0,
        }
    }

    fn position(&self) -> u64 {
        self.library.receiver.position
    }

    /// The records since the last reset, of a recording that began at position `start`: those of a
    /// recording that begins and ends there.
    fn expected(&self, start: u64, input: &[u8]) -> Vec<Delivered> {
        let [from, to] = [self.since, self.position()].map(|position| (position - start) as usize);
        records_from(self.since, &input[from..to])
    }
}

impl Checker {
    /// One call of all receivers; gives the bytes used.
    fn receive_all(&mut self, run: &mut Run, chunk: &[u8], room: usize) -> Checked<usize> {
        let (received, payload) = self.receive(&mut run.library, chunk, room)?;
        let mut copy = vec![0; room];
        let other = run.reference.receive(chunk, &mut copy);
        let same = other == received
            && run.reference.position() == run.position()
            && copy[..other.payload_length] == payload;
        self.holds(same, || {
            let (chunk, position) = (hex(chunk), run.reference.position());
            format!(
                "the library gives {received:X?} for {chunk}, the reference's receiver {other:X?} \
                 and is at {position}"
            )
        })?;
        if received.number == 12 {
            // Here they differ: a fresh receiver takes it.
            run.overflows += 1;
            return Ok(0);
        }
        self.as_if_fresh(run, chunk, room, received, &payload)?;
        if received.found {
            run.records.push(Delivered {
                position: received.position,
                length: received.length,
                header: received.header,
                payload,
            });
        }
        Ok(received.used)
    }

    /// After a reset only positions and 12 differ from a fresh receiver's: positions by that at which
    /// it was reset.
    fn as_if_fresh(
        &mut self,
        run: &mut Run,
        chunk: &[u8],
        room: usize,
        received: Received,
        payload: &[u8],
    ) -> Checked<()> {
        let mut copy = vec![0; room];
        let State { receiver, memory } = &mut run.fresh;
        let mut fresh;
        (fresh, *receiver) = library::receive(*receiver, memory, chunk, &mut copy);
        if fresh.found {
            fresh.position += run.since;
        }
        let same = fresh == received
            && copy[..fresh.payload_length] == *payload
            && run.fresh.bytes() == run.library.bytes()
            && run.since + run.fresh.receiver.position == run.position();
        self.holds(same, || {
            let (chunk, since) = (hex(chunk), run.since);
            format!("as if fresh at {since}, {chunk} gives {fresh:X?}; it gave {received:X?}")
        })
    }

    /// A chunk until it is used up; now and then a call is refused before.
    fn feed(&mut self, run: &mut Run, chunk: &[u8]) -> Checked<()> {
        let mut rest = chunk;
        loop {
            if self.rng.once_in(16) {
                let room = self.rng.below(MAX_PAYLOAD);
                self.receive_all(run, rest, room)?;
            }
            let left = u64::MAX - run.position();
            if left < 3000 && self.rng.once_in(32) {
                let mut long = rest.to_vec();
                long.resize(left as usize + 1, 0xAA);
                let room = self.rng.pick(&[MAX_PAYLOAD, MAX_PAYLOAD - 1]);
                self.receive_all(run, &long, room)?;
            }
            let room = MAX_PAYLOAD + self.rng.below(2);
            let used = self.receive_all(run, rest, room)?;
            rest = &rest[used..];
            if rest.is_empty() {
                return Ok(());
            }
        }
    }

    /// A recording in chunks, with a reset before one chunk in `resets` (0: none).
    fn fed(
        &mut self,
        class: &'static str,
        input: &[u8],
        chunks: &[&[u8]],
        resets: usize,
    ) -> Checked<()> {
        let start = any_start(&mut self.rng, input.len());
        let mut run = Run::at(start, &mut self.rng);
        let mut expected = Vec::new();
        for chunk in chunks {
            if resets > 0 && self.rng.once_in(resets) {
                expected.extend(run.expected(start, input));
                self.reset(&mut run.library)?;
                run.reference.reset();
                run.fresh = State::at(0, &mut self.rng);
                run.since = run.position();
            }
            self.feed(&mut run, chunk)?;
        }
        expected.extend(run.expected(start, input));
        self.holds(run.records == expected, || {
            let (input, records) = (hex(input), &run.records);
            format!(
                "from {start} the records of {input} are {expected:X?}; received were {records:X?}"
            )
        })?;
        self.delivered(class, expected.len());
        if class != FIXED {
            let unused =
                |record: &&Delivered| naive::unused_septets(record.stream(input, start)) > 0;
            self.delivered(UNUSED, expected.iter().filter(unused).count());
            let [limit, past] = LIMIT_RUNS;
            self.delivered(limit, usize::from(run.position() == u64::MAX));
            self.delivered(past, run.overflows);
        }
        Ok(())
    }

    fn delivered(&mut self, class: &'static str, records: usize) {
        *self.cases.entry(class).or_default() += records as u64;
    }

    pub fn receive_cut(&mut self) -> Checked<()> {
        let input = any_recording(&mut self.rng);
        let chunks = chunks(&mut self.rng, &input);
        self.fed(CUT, &input, &chunks, 0)
    }

    pub fn receive_with_resets(&mut self) -> Checked<()> {
        let input = any_recording(&mut self.rng);
        let chunks = chunks(&mut self.rng, &input);
        let resets = self.rng.pick(&[1, 2, 5, 20, 100]);
        self.fed(RESETS, &input, &chunks, resets)
    }

    /// Bytes that make work in vain, one by one, and a whole stream behind them.
    pub fn receive_hostile(&mut self) -> Checked<()> {
        let mut input = match self.rng.below(3) {
            0 => vec![0xAA; self.rng.below(1000)],
            1 => {
                let packet = recordings::longest(&mut self.rng);
                packet[..MAX_STREAM - 1].repeat(1 + self.rng.below(2))
            }
            _ => recordings::hostile(&mut self.rng),
        };
        input.extend(recordings::stream(&mut self.rng));
        let chunks: Vec<&[u8]> = input.chunks(1).collect();
        self.fed(HOSTILE, &input, &chunks, 0)
    }

    /// Any receiver, memory, chunk and room.
    pub fn receive_in_any_state(&mut self) -> Checked<()> {
        let (mut state, chunk) = any_state(&mut self.rng);
        self.reset(&mut state.clone())?;
        let room = match self.rng.below(6) {
            0 => self.rng.pick(&[0, 4, 507]),
            1 => self.rng.below(600),
            _ => MAX_PAYLOAD,
        };
        if room >= MAX_PAYLOAD {
            self.count_limit(LIMIT_ANY_STATE, &state, &chunk);
        }
        let (received, _) = self.receive(&mut state, &chunk, room)?;
        self.delivered(ANY_STATE, usize::from(received.found));
        // And on from the state that this left.
        let rest = &chunk[received.used..];
        let (received, _) = self.receive(&mut state, rest, MAX_PAYLOAD)?;
        self.delivered(ANY_STATE, usize::from(received.found));
        Ok(())
    }

    /// Counts a call if its chunk takes the position just to its limit, or would one byte further.
    fn count_limit(&mut self, [limit, past]: Limit, state: &State, chunk: &[u8]) {
        let left = u64::MAX - state.receiver.position;
        match chunk.len() as u64 {
            n if n == left => self.count(limit),
            n if n > left && n - left == 1 => self.count(past),
            _ => {}
        }
    }
}

/// A state, also such as no calls lead to, and a chunk that often completes what it holds.
fn any_state(rng: &mut Rng) -> (State, Vec<u8>) {
    let mut state = State::at(0, rng);
    let mut stream = match rng.below(4) {
        0 => recordings::longest(rng),
        1 => any_recording(rng),
        _ => recordings::stream(rng),
    };
    if rng.once_in(4) && !stream.is_empty() {
        let at = rng.below(stream.len().min(12));
        stream[at] = rng.byte();
    }
    let first = stream.len().min(MAX_STREAM);
    state.memory[..first].copy_from_slice(&stream[..first]);
    let held = match rng.below(8) {
        0 => rng.below(MAX_STREAM + 4),
        1 => rng.pick(&[0, 771, 772, 773, 1 << 32, usize::MAX]),
        2 => rng.below(12),
        3 => first.saturating_sub(1),
        _ => rng.below(first + 1),
    };
    let mut chunk = match rng.below(4) {
        0 => any_recording(rng),
        _ => stream[held.min(stream.len())..].to_vec(),
    };
    if rng.once_in(4) && !chunk.is_empty() {
        let at = rng.below(chunk.len());
        chunk[at] = rng.pick(&[0xAA, 0x80, 0xFF, 0x00, 0x7F]);
    }
    if rng.once_in(4) {
        chunk.extend(any_recording(rng));
    }
    let position = any_position(rng, held, chunk.len());
    state.receiver = Receiver { held, position };
    (state, chunk)
}

/// Any position, often one around those from which a state holds its bytes, and from which a chunk of
/// `n` bytes just fits.
fn any_position(rng: &mut Rng, held: usize, n: usize) -> u64 {
    let near = |middle: u64, rng: &mut Rng| {
        let step = rng.below(3) as u64;
        middle.saturating_sub(1).saturating_add(step)
    };
    match rng.below(12) {
        0 => 0,
        1 | 2 => near(held as u64, rng),
        3 => rng.below(100_000) as u64,
        4 => near(1 << 32, rng),
        5 => near(1 << 63, rng),
        6 => rng.next(),
        _ => near(u64::MAX - n as u64, rng),
    }
}

// The cases that every run makes, whatever the seed

impl Checker {
    /// The longest packet with every number of bytes held, of which as many were used, fewer and more;
    /// and every room.
    pub fn every_held_and_room(&mut self) -> Checked<()> {
        let packet = recordings::longest(&mut self.rng);
        let mut memory = [0; MAX_STREAM];
        memory.copy_from_slice(&packet);
        let state = |held, position| {
            let receiver = Receiver { held, position };
            State { receiver, memory }
        };
        for held in (0..MAX_STREAM + 2).chain([1 << 32, usize::MAX - 1, usize::MAX]) {
            let rest = &packet[held.min(MAX_STREAM)..];
            let (short, other) = (&rest[..rest.len().min(1)], &rest[rest.len() / 2..]);
            let least = held as u64;
            for position in [least.saturating_sub(1), least, 1 << 40] {
                for chunk in [rest, short, other, &packet, &[]] {
                    self.receive(&mut state(held, position), chunk, MAX_PAYLOAD)?;
                }
                self.reset(&mut state(held, position))?;
            }
        }
        let chunk = [&packet[MAX_STREAM - 1..], &packet[..]].concat();
        for room in 0..MAX_PAYLOAD + 2 {
            for held in [0, MAX_STREAM - 1, usize::MAX] {
                self.receive(&mut state(held, 1 << 40), &chunk, room)?;
            }
        }
        Ok(())
    }

    /// Chunks of just as many bytes as lead to the limit of positions, of one less and of one more: behind a stream
    /// that they complete, or go on with, or that begins with them. 5 is given before 12.
    pub fn every_limit(&mut self) -> Checked<()> {
        let telegram = recordings::encoded(
            Header {
                version: 0x30,
                ..Header::default()
            },
            &[],
        );
        let packet = recordings::longest(&mut self.rng);
        for n in (0..=20).chain([MAX_STREAM, MAX_STREAM + 1]) {
            for length in [n.saturating_sub(1), n, n + 1] {
                for stream in [&telegram, &packet] {
                    let completed = stream.len().saturating_sub(length);
                    for held in [0, stream.len() / 2, completed] {
                        let bytes = stream.iter().copied().cycle().skip(held);
                        let chunk: Vec<u8> = bytes.take(length).collect();
                        self.around_the_limit(stream, held, &chunk, n)?;
                    }
                }
            }
        }
        Ok(())
    }

    /// A chunk behind the first bytes of a stream, `n` bytes before the limit.
    fn around_the_limit(
        &mut self,
        stream: &[u8],
        held: usize,
        chunk: &[u8],
        n: usize,
    ) -> Checked<()> {
        let mut state = State::at(u64::MAX - n as u64, &mut self.rng);
        state.receiver.held = held;
        state.memory[..held].copy_from_slice(&stream[..held]);
        for room in [0, MAX_PAYLOAD - 1, MAX_PAYLOAD] {
            let (received, _) = self.receive(&mut state, chunk, room)?;
            let expected = match room {
                MAX_PAYLOAD if chunk.len() > n => 12,
                MAX_PAYLOAD => 0,
                _ => 5,
            };
            self.holds(received.number == expected, || {
                let chunk = hex(chunk);
                format!("{n} bytes before the limit, {chunk} gives {expected}: {received:X?}")
            })?;
            self.delivered(FIXED, usize::from(received.found));
        }
        self.reset(&mut state)
    }

    /// Every value of each byte that says how long a stream is, or whether it is one.
    pub fn every_announcement(&mut self) -> Checked<()> {
        for version in [0x10, 0x20, 0x30, 0x31] {
            for byte in 0..=255 {
                for at in [0, 5, 6, 8] {
                    let mut memory = [0x11; MAX_STREAM];
                    memory[0] = 0xAA;
                    memory[5] = version;
                    memory[at] = byte;
                    self.around_the_length(memory, usize::from(byte))?;
                }
            }
        }
        Ok(())
    }

    /// As many bytes held as a stream with that many frames may lack, or more.
    fn around_the_length(&mut self, memory: [u8; MAX_STREAM], frames: usize) -> Checked<()> {
        let packet = 10 + 6 * frames;
        let telegrams = [16, 17, 25, 26, 34, 35];
        let lengths = telegrams
            .into_iter()
            .chain([packet - 1, packet, MAX_STREAM - 1]);
        for held in (4..12).chain(lengths) {
            let position = held as u64;
            for chunk in [&[0x22][..], &[0x22; 40]] {
                let receiver = Receiver { held, position };
                self.receive(&mut State { receiver, memory }, chunk, MAX_PAYLOAD)?;
            }
        }
        Ok(())
    }

    /// A short recording cut at any two places; and, byte by byte, with a high byte at any place.
    pub fn every_two_cuts(&mut self) -> Checked<()> {
        let mut input = vec![0x15, 0xAA, 0x10];
        for (version, command, length) in [(0x10, 0x0300, 4), (0x20, 0x0100, 6), (0x31, 0x29, 7)] {
            let header = Header {
                version,
                destination: 0x0020,
                source: 0x7E21,
                command,
            };
            let payload = self.rng.bytes(length);
            let stream = recordings::encoded(header, &payload);
            input.extend(recordings::with_unused_bits(&stream, |_| true));
        }
        for first in 0..=input.len() {
            for second in first..=input.len() {
                let chunks = [&input[..first], &input[first..second], &input[second..]];
                self.fed(FIXED, &input, &chunks, 0)?;
            }
            let broken = [&input[..first], &[0x80], &input[first..]].concat();
            let chunks: Vec<&[u8]> = broken.chunks(1).collect();
            self.fed(FIXED, &broken, &chunks, 0)?;
        }
        Ok(())
    }

    /// Long hostile inputs before a whole stream, in one chunk and byte by byte. (What a byte costs is
    /// the benchmark's to measure.)
    pub fn receive_long(&mut self) -> Checked<()> {
        let mut packet = recordings::longest(&mut self.rng);
        packet.pop();
        let announcing = packet[..10].to_vec();
        let stream = recordings::stream(&mut self.rng);
        for part in [
            vec![0xAA],
            vec![0x00],
            vec![0xAA, 0x10],
            announcing,
            packet,
            stream.clone(),
        ] {
            for (length, chunk) in [(1 << 18, 1 << 20), (1 << 14, 1)] {
                let mut input: Vec<u8> = part.iter().copied().cycle().take(length).collect();
                input.extend(&stream);
                let chunks: Vec<&[u8]> = input.chunks(chunk).collect();
                self.fed(FIXED, &input, &chunks, 0)?;
                self.count("long input");
            }
        }
        Ok(())
    }
}

// The crate `vbus`

/// A record of a chunk by the library.
struct Ending {
    /// Bytes of the chunk used with it.
    used: usize,
    received: Received,
    payload: Vec<u8>,
}

impl Ending {
    fn is(&self, entry: &Entry) -> bool {
        (entry.position, entry.length) == (self.received.position, self.received.length)
            && entry.record.header == wrapper(self.received.header)
            && entry.record.payload == self.payload
    }
}

fn are(entries: &[Entry], expected: &[Ending]) -> bool {
    let mut both = entries.iter().zip(expected);
    entries.len() == expected.len() && both.all(|(entry, ending)| ending.is(entry))
}

/// Uses a chunk up; gives its records, or the number with which it was refused.
fn endings(state: &mut State, chunk: &[u8]) -> Result<Vec<Ending>, u32> {
    let mut endings = Vec::new();
    let mut payload = [0; MAX_PAYLOAD];
    let mut used = 0;
    while used < chunk.len() {
        let received;
        let State { receiver, memory } = state;
        (received, *receiver) = library::receive(*receiver, memory, &chunk[used..], &mut payload);
        if received.number != 0 {
            return Err(received.number);
        }
        used += received.used;
        if received.found {
            endings.push(Ending {
                used,
                received,
                payload: payload[..received.payload_length].to_vec(),
            });
        }
    }
    Ok(endings)
}

impl Checker {
    /// The crate's receiver, its iterator and its reader, against the library. Not every recording
    /// fits.
    pub fn receive_wrapped(&mut self) -> Checked<()> {
        let input = any_recording(&mut self.rng);
        let chunks = chunks(&mut self.rng, &input);
        let further = self.rng.pick(&[0, 0, 1, 20]);
        let start = any_start(&mut self.rng, input.len()).saturating_add(further);
        self.note(|| format!("vbus::Receiver::at({start}) on {}", hex(&input)));
        let mut state = State::at(start, &mut self.rng);
        let mut by_calls = vbus::Receiver::at(start);
        let mut by_records = by_calls.clone();
        for chunk in chunks {
            self.count_limit(LIMIT_WRAPPER, &state, chunk);
            match endings(&mut state, chunk) {
                Ok(records) => {
                    self.wrapped_calls(&mut by_calls, chunk, &records)?;
                    self.wrapped_records(&mut by_records, chunk, &records)?;
                    self.delivered(WRAPPER, records.len());
                }
                Err(number) => {
                    let refused = Error::from_number(number);
                    let same = by_calls.receive(chunk).err() == refused
                        && by_records.records(chunk).err() == refused;
                    let what = || format!("vbus::Receiver gives {refused:?} for {}", hex(chunk));
                    self.holds(same, what)?;
                }
            }
            self.wrapped_states(&state, [&by_calls, &by_records], chunk)?;
            if self.rng.once_in(16) {
                by_calls.reset();
                by_records.reset();
                state.receiver = library::reset(state.receiver);
                self.wrapped_states(&state, [&by_calls, &by_records], &[])?;
            }
        }
        self.wrapped_reader(start, &input)
    }

    /// The two receivers, the first by calls and the other by its iterator, are in the library's state.
    fn wrapped_states(
        &mut self,
        state: &State,
        receivers: [&vbus::Receiver; 2],
        chunk: &[u8],
    ) -> Checked<()> {
        let position = state.receiver.position;
        for (name, receiver) in ["receive", "records"].into_iter().zip(receivers) {
            let same = receiver.held() == state.bytes() && receiver.position() == position;
            self.holds(same, || {
                let (held, chunk) = (hex(state.bytes()), hex(chunk));
                format!(
                    "{held} held at {position} after vbus::Receiver::{name} of {chunk}: {receiver:?}"
                )
            })?;
        }
        Ok(())
    }

    fn wrapped_calls(
        &mut self,
        receiver: &mut vbus::Receiver,
        chunk: &[u8],
        records: &[Ending],
    ) -> Checked<()> {
        let what = || format!("vbus::Receiver::receive of {}", hex(chunk));
        let mut used = 0;
        for expected in records {
            let received = receiver.receive(&chunk[used..]);
            let same = received.is_ok_and(|received| {
                used += received.used;
                let entry = received.record.map(|record| record.to_entry());
                used == expected.used && entry.is_some_and(|entry| expected.is(&entry))
            });
            self.holds(same, what)?;
        }
        // Also with nothing left.
        let rest = &chunk[used..];
        let same = receiver
            .receive(rest)
            .is_ok_and(|received| received.record.is_none() && received.used == rest.len());
        self.holds(same, what)
    }

    /// The iterator, asked for some of the records and then dropped, or taken up again.
    fn wrapped_records(
        &mut self,
        receiver: &mut vbus::Receiver,
        chunk: &[u8],
        records: &[Ending],
    ) -> Checked<()> {
        let asked = self.rng.below(records.len() + 2);
        let what = || {
            format!(
                "vbus::Receiver::records of {}, {asked} asked for",
                hex(chunk)
            )
        };
        let Ok(mut given) = receiver.records(chunk) else {
            return self.holds(false, what);
        };
        let first: Vec<Entry> = given.by_ref().take(asked).collect();
        let (expected, left) = records.split_at(asked.min(records.len()));
        self.holds(are(&first, expected), what)?;
        if self.rng.once_in(2) {
            // Whoever asks for more than there are has used the chunk up.
            let used = match expected.last() {
                _ if asked > records.len() => chunk.len(),
                last => last.map_or(0, |ending| ending.used),
            };
            let rest = given.into_rest();
            self.holds(rest == &chunk[used..], what)?;
            let behind: Option<Vec<Entry>> = receiver.records(rest).ok().map(Iterator::collect);
            self.holds(behind.is_some_and(|behind| are(&behind, left)), what)?;
        }
        Ok(())
    }

    /// Every record comes out of a reader, and every error but interruptions; a chunk that doesn't fit
    /// is refused each time it comes up.
    fn wrapped_reader(&mut self, start: u64, input: &[u8]) -> Checked<()> {
        let mut reader = Unsteady {
            rest: input,
            rng: Rng::new(self.rng.next()),
            errors: 0,
        };
        let mut records = RecordReader::with_receiver(&mut reader, vbus::Receiver::at(start));
        let mut entries = Vec::new();
        let (mut errors, mut refused) = (0, 0);
        while refused < 3 {
            match records.next() {
                None => break,
                Some(Ok(entry)) => entries.push(entry),
                Some(Err(error)) if is_overflow(&error) => refused += 1,
                Some(Err(_)) => errors += 1,
            }
        }
        let used = records.receiver().position().wrapping_sub(start) as usize;
        let what = || format!("vbus::RecordReader from {start} over {}", hex(input));
        let Some(read) = input.get(..used) else {
            return self.holds(false, what);
        };
        let expected = vbus::records(read).map(|entry| Entry {
            position: start + entry.position,
            ..entry
        });
        let fits = input.len() as u64 <= u64::MAX - start;
        let ended = match fits {
            true => refused == 0 && read == input && reader.rest.is_empty(),
            false => refused == 3,
        };
        let same = ended && errors == reader.errors && expected.eq(entries);
        self.holds(same, what)
    }
}

fn is_overflow(error: &io::Error) -> bool {
    let inner = error.get_ref().and_then(|inner| inner.downcast_ref());
    inner == Some(&Error::PositionOverflow)
}

/// Reads some bytes at a time, is often interrupted and sometimes has nothing yet.
struct Unsteady<'a> {
    rest: &'a [u8],
    rng: Rng,
    /// How often it had nothing yet.
    errors: usize,
}

impl Read for Unsteady<'_> {
    fn read(&mut self, buffer: &mut [u8]) -> io::Result<usize> {
        match self.rng.below(8) {
            0 => Err(ErrorKind::Interrupted.into()),
            1 => {
                self.errors += 1;
                Err(ErrorKind::TimedOut.into())
            }
            _ => {
                let most = 1 + self.rng.below(100);
                let length = most.min(buffer.len());
                self.rest.read(&mut buffer[..length])
            }
        }
    }
}
