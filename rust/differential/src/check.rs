//! Makes one call of the library and of the reference and compares everything they leave.

use crate::library::{self, Receiver};
use crate::naive;
use crate::recordings::{MAX_PAYLOAD, MAX_STREAM};
use crate::rng::Rng;
use crate::sender::{self, Sending};
use crate::slaves::{Operation, Table};
use reference::{Count, Fault, Found, Header, Part, Received, Validation, Written};
use reference::{Figures, FiguresChecked, Slave, SlaveFound, SlaveId};
use reference::{Sender, Sent};
use std::collections::BTreeMap;
use std::fmt;
use std::fs::File;
use std::io::{Seek, Write};
use vbus::{Error, Verdict};

/// A difference, described for the reader.
#[derive(Debug)]
pub struct Failure(pub String);

pub type Checked<T> = Result<T, Failure>;

/// Bytes shown in hex.
#[derive(PartialEq, Clone)]
pub struct Hex(pub Vec<u8>);

impl fmt::Debug for Hex {
    fn fmt(&self, f: &mut fmt::Formatter<'_>) -> fmt::Result {
        f.write_str(&hex(&self.0))
    }
}

pub fn hex(bytes: &[u8]) -> String {
    let digits: String = bytes.iter().map(|byte| format!("{byte:02X}")).collect();
    format!("[{}: {digits}]", bytes.len())
}

/// Bytes on both sides of an output that no call may change.
const GUARD: usize = 16;

/// An output, filled with a pattern, with guards around it.
struct Output {
    bytes: Vec<u8>,
    from: usize,
    to: usize,
}

impl Output {
    fn new(rng: &mut Rng, room: usize) -> Output {
        // Every alignment occurs.
        let from = GUARD + rng.below(8);
        let first = rng.byte();
        let bytes = (0..from + room + GUARD)
            .map(|i| first.wrapping_add((i as u8).wrapping_mul(37)))
            .collect();
        Output {
            bytes,
            from,
            to: from + room,
        }
    }

    /// An output that holds these bytes.
    fn holding(rng: &mut Rng, bytes: &[u8]) -> Output {
        let mut output = Output::new(rng, bytes.len());
        output.bytes[output.from..output.to].copy_from_slice(bytes);
        output
    }

    /// Calls `f` with a copy; returns its answer and the whole copy afterwards.
    fn lend<T>(&self, f: impl FnOnce(&mut [u8]) -> T) -> (T, Hex) {
        let mut copy = self.bytes.clone();
        let answer = f(&mut copy[self.from..self.to]);
        (answer, Hex(copy))
    }
}

/// A receiver of the library between two calls, with its memory.
#[derive(Clone)]
pub struct State {
    pub receiver: Receiver,
    pub memory: [u8; MAX_STREAM],
}

impl State {
    /// A receiver that holds nothing; what its memory holds doesn't matter.
    pub fn at(position: u64, rng: &mut Rng) -> State {
        let mut memory = [0; MAX_STREAM];
        memory.fill_with(|| rng.byte());
        let receiver = Receiver { held: 0, position };
        State { receiver, memory }
    }

    /// The bytes held, as far as the memory has as many.
    pub fn bytes(&self) -> &[u8] {
        &self.memory[..self.receiver.held.min(MAX_STREAM)]
    }
}

/// What a call of a receiver leaves, both buffers with their guards.
#[derive(PartialEq, Debug)]
struct Left {
    received: Received,
    receiver: Receiver,
    memory: Hex,
    payload: Hex,
}

/// A call of a receiver: its state, the memory, the chunk and the payload's buffer. It gives the
/// answer and the state afterwards.
type Receive = fn(Receiver, &mut [u8], &[u8], &mut [u8]) -> (Received, Receiver);

impl Left {
    /// What `receive` leaves of copies of the two outputs.
    fn by(
        receive: Receive,
        receiver: Receiver,
        memory: &Output,
        chunk: &[u8],
        payload: &Output,
    ) -> Left {
        let (((received, receiver), memory), payload) =
            payload.lend(|payload| memory.lend(|memory| receive(receiver, memory, chunk, payload)));
        Left {
            received,
            receiver,
            memory,
            payload,
        }
    }

    /// The same with 0 in the memory behind the bytes held, which is free unless the call was
    /// refused.
    fn without_free(mut self, memory: &Output) -> Left {
        if self.received.number == 0 {
            let bytes = self.memory.0[memory.from..memory.to].iter_mut();
            bytes.skip(self.receiver.held).for_each(|byte| *byte = 0);
        }
        self
    }
}

/// The greatest numbers of refusals and verdicts.
const LAST_ERROR: usize = Error::ALL[Error::ALL.len() - 1].number() as usize;
const LAST_VERDICT: usize = Verdict::ALL[Verdict::ALL.len() - 1].number() as usize;

/// A function, and its refusals in their order.
pub type Refusals = (&'static str, &'static [u32]);

/// Each function with each number that it gives, and with each refusal that applies behind it; 0 for
/// success, and for none behind it.
pub fn orders(
    functions: impl Iterator<Item = Refusals>,
) -> impl Iterator<Item = (&'static str, u32, u32)> {
    functions.flat_map(|(function, refusals)| {
        let lines = refusals.iter().enumerate();
        let pairs = lines.flat_map(move |(i, first)| {
            let behind = refusals[i + 1..].iter().chain(&[0]);
            behind.map(move |behind| (function, *first, *behind))
        });
        pairs.chain([(function, 0, 0)])
    })
}

pub struct Checker {
    pub rng: Rng,
    pub calls: u64,
    /// How often each number was answered, 0 for success.
    pub numbers: [u64; LAST_ERROR + 1],
    pub verdicts: [u64; LAST_VERDICT + 1],
    pub cases: BTreeMap<&'static str, u64>,
    /// How often a function of slaves or of a sender gave a refusal, 0 for success, and how often another
    /// applied behind it.
    pub orders: BTreeMap<(&'static str, u32, u32), u64>,
    /// Takes the call about to be made, to name it if it does not come back.
    trace: Option<File>,
}

impl Checker {
    pub fn new(seed: u64, trace: Option<File>) -> Checker {
        Checker {
            rng: Rng::new(seed),
            calls: 0,
            numbers: [0; LAST_ERROR + 1],
            verdicts: [0; LAST_VERDICT + 1],
            cases: BTreeMap::new(),
            orders: BTreeMap::new(),
            trace,
        }
    }

    pub fn count(&mut self, class: &'static str) {
        *self.cases.entry(class).or_default() += 1;
    }

    /// Writes the call about to be made to the trace, if there is one.
    pub fn note(&mut self, call: impl Fn() -> String) {
        if let Some(file) = &mut self.trace {
            let text = call();
            file.rewind()
                .and_then(|()| file.set_len(0))
                .and_then(|()| file.write_all(text.as_bytes()))
                .expect("the trace file can be written");
        }
    }

    /// Compares the answers of one call.
    fn same<T: PartialEq + fmt::Debug>(
        &mut self,
        call: impl Fn() -> String,
        library: impl FnOnce() -> T,
        reference: impl FnOnce() -> T,
    ) -> Checked<T> {
        self.calls += 1;
        self.note(&call);
        let ours = library();
        let theirs = reference();
        if ours == theirs {
            Ok(theirs)
        } else {
            let call = call();
            Err(Failure(format!(
                "{call}\n  library   {ours:?}\n  reference {theirs:?}"
            )))
        }
    }

    fn number(&mut self, number: u32) {
        self.numbers[number as usize] += 1;
    }

    pub fn checksum(&mut self, block: &[u8]) -> Checked<u8> {
        let sum = self.same(
            || format!("vbus_checksum(block = {})", hex(block)),
            || library::checksum(block),
            || reference::checksum(block),
        )?;
        let rule = naive::checksum(block);
        self.holds(rule == sum, || {
            format!(
                "byte after byte {rule} is the checksum {sum} of {}",
                hex(block)
            )
        })?;
        Ok(sum)
    }

    pub fn value(&mut self, payload: &[u8; 6]) -> Checked<i32> {
        self.same(
            || format!("vbus_value(payload = {})", hex(payload)),
            || library::value(payload),
            || reference::value(payload),
        )
    }

    pub fn temperature(&mut self, bytes: &[u8; 2]) -> Checked<i16> {
        self.same(
            || format!("vbus_temperature(bytes = {})", hex(bytes)),
            || library::temperature(bytes),
            || reference::temperature(bytes),
        )
    }

    /// `extract` and `inject` on the same block, and each after the other.
    pub fn septets(&mut self, bytes: [u8; 7], length: usize, septet: u8) -> Checked<()> {
        let block = hex(&bytes);
        let taken = self.same(
            || format!("vbus_extract(bytes = {block}, length = {length})"),
            || library::extract(bytes, length),
            || reference::extract(bytes, length),
        )?;
        self.number(taken.number);
        let put = self.same(
            || format!("vbus_inject(bytes = {block}, length = {length}, septet = {septet})"),
            || library::inject(bytes, length, septet),
            || reference::inject(bytes, length, septet),
        )?;
        self.number(put.number);
        if taken.number == 0 {
            let back = library::inject(taken.bytes, length, taken.septet);
            let same = back.number == 0 && back.bytes[..length] == bytes[..length];
            self.holds(same, || {
                format!("vbus_inject after vbus_extract of {block}, length {length}")
            })?;
        }
        if put.number == 0 {
            let back = library::extract(put.bytes, length);
            // Unused bits, those at or above the length, are gone.
            let used = septet % (1 << length);
            let same =
                back.number == 0 && back.bytes[..length] == bytes[..length] && back.septet == used;
            self.holds(same, || {
                format!("vbus_extract after vbus_inject of {block}, length {length}, {septet}")
            })?;
        }
        if length <= bytes.len() {
            let mut block = bytes;
            let answer = vbus::extract(&mut block[..length]);
            let same = answer == Ok(taken.septet) && block[..length] == taken.bytes[..length];
            self.holds(same, || {
                format!("vbus::extract of {}", hex(&bytes[..length]))
            })?;
            let mut block = bytes;
            let answer = vbus::inject(&mut block[..length], septet);
            let same = match put.number {
                0 => answer == Ok(()) && block[..length] == put.bytes[..length],
                _ => answer == Err(Error::WrongSeptetBlock) && block == bytes,
            };
            self.holds(same, || {
                format!("vbus::inject of {} and {septet}", hex(&bytes[..length]))
            })?;
        }
        Ok(())
    }

    pub fn validate(&mut self, input: &[u8]) -> Checked<Validation> {
        let answer = self.same(
            || format!("vbus_validate(input = {})", hex(input)),
            || library::validate(input),
            || reference::validate(input),
        )?;
        self.verdicts[usize::from(answer.verdict)] += 1;
        let rule =
            naive::whole_stream(input).map(|stream| (stream.len(), naive::unused_septets(stream)));
        let whole = (answer.verdict == 0).then_some((answer.offset, answer.unused_septets));
        self.holds(whole == rule, || {
            let input = hex(input);
            format!(
                "the length and the unused septets of {input} are {rule:?}; given were {whole:?}"
            )
        })?;
        let wrapped = match vbus::validate(input) {
            Ok(whole) => Validation {
                verdict: 0,
                offset: whole.length,
                unused_septets: whole.unused_septets,
            },
            Err(fault) => Validation {
                verdict: fault.verdict.number(),
                offset: fault.offset,
                unused_septets: 0,
            },
        };
        self.holds(wrapped == answer, || {
            format!("vbus::validate of {}", hex(input))
        })?;
        Ok(answer)
    }

    pub fn next(&mut self, input: &[u8], start: usize, room: usize) -> Checked<(Found, Vec<u8>)> {
        let output = Output::new(&mut self.rng, room);
        let (found, Hex(left)) = self.same(
            || {
                let input = hex(input);
                format!("vbus_next(input = {input}, start = {start}, room = {room})")
            },
            || output.lend(|out| library::next(input, start, out)),
            || output.lend(|out| reference::next(input, start, out)),
        )?;
        self.number(found.number);
        let payload = left[output.from..output.from + found.payload_length].to_vec();
        Ok((found, payload))
    }

    /// The answer's place is that of a 0xAA at the start or later, its verdict and offset those of
    /// `vbus_validate`.
    pub fn next_fault(&mut self, input: &[u8], start: usize) -> Checked<Fault> {
        let call = || {
            let input = hex(input);
            format!("vbus_next_fault(input = {input}, start = {start})")
        };
        let fault = self.same(
            call,
            || library::next_fault(input, start),
            || reference::next_fault(input, start),
        )?;
        if fault.found {
            let place = fault.place;
            let sync = place >= start && input.get(place) == Some(&0xAA);
            self.holds(sync, || format!("{} gives a 0xAA's place: {place}", call()))?;
            let stretch = library::validate(&input[place..]);
            let same = (stretch.verdict, stretch.offset) == (fault.verdict, fault.offset);
            self.holds(same, || {
                format!("{} gives what vbus_validate gives: {stretch:?}", call())
            })?;
        }
        Ok(fault)
    }

    /// One call of a receiver, which may be in any state, against the naive definition.
    pub fn receive(
        &mut self,
        state: &mut State,
        chunk: &[u8],
        room: usize,
    ) -> Checked<(Received, Vec<u8>)> {
        let memory = Output::holding(&mut self.rng, &state.memory);
        let payload = Output::new(&mut self.rng, room);
        let before = state.receiver;
        let mut after = [0; MAX_STREAM];
        let left = self.same(
            || {
                let (memory, chunk) = (hex(&state.memory), hex(chunk));
                format!(
                    "vbus_receive({before:?}, memory = {memory}, chunk = {chunk}, room = {room})"
                )
            },
            || {
                let left = Left::by(library::receive, before, &memory, chunk, &payload);
                after.copy_from_slice(&left.memory.0[memory.from..memory.to]);
                left.without_free(&memory)
            },
            || Left::by(naive::receive, before, &memory, chunk, &payload).without_free(&memory),
        )?;
        self.number(left.received.number);
        let record = left.payload.0[payload.from..][..left.received.payload_length].to_vec();
        self.ends_whole(state, chunk, left.received, &record)?;
        *state = State {
            receiver: left.receiver,
            memory: after,
        };
        Ok((left.received, record))
    }

    /// A record that was delivered is that of a whole stream, which ends with the last byte used, also
    /// by its position, and has no bytes but those held and used.
    fn ends_whole(
        &mut self,
        before: &State,
        chunk: &[u8],
        received: Received,
        payload: &[u8],
    ) -> Checked<()> {
        if !received.found {
            return Ok(());
        }
        let fed = [before.bytes(), &chunk[..received.used]].concat();
        let stream = &fed[fed.len().saturating_sub(received.length)..];
        let end = u128::from(before.receiver.position) + received.used as u128;
        let mut copy = [0; MAX_PAYLOAD];
        let found = reference::next(stream, 0, &mut copy);
        let same = found.found
            && (found.position, found.length) == (0, stream.len())
            && received.length == stream.len()
            && u128::from(received.position) + stream.len() as u128 == end
            && received.header == found.header
            && copy[..found.payload_length] == *payload;
        self.holds(same, || {
            format!(
                "{} ends at {end} with the stream of {received:X?}",
                hex(&fed)
            )
        })
    }

    pub fn reset(&mut self, state: &mut State) -> Checked<()> {
        let before = state.receiver;
        let position = before.position;
        state.receiver = self.same(
            || format!("vbus_reset({before:?})"),
            || library::reset(before),
            || Receiver { held: 0, position },
        )?;
        Ok(())
    }

    pub fn encode(
        &mut self,
        header: Header,
        payload: &[u8],
        room: usize,
    ) -> Checked<(Written, Vec<u8>)> {
        let output = Output::new(&mut self.rng, room);
        let (written, Hex(left)) = self.same(
            || {
                let payload = hex(payload);
                format!("vbus_encode({header:X?}, payload = {payload}, room = {room})")
            },
            || output.lend(|out| library::encode(header, payload, out)),
            || output.lend(|out| reference::encode(header, payload, out)),
        )?;
        self.number(written.number);
        let stream = left[output.from..output.from + written.length].to_vec();
        Ok((written, stream))
    }

    pub fn normalize(&mut self, input: &[u8], room: usize) -> Checked<(Written, Vec<u8>)> {
        let output = Output::new(&mut self.rng, room);
        let (written, Hex(left)) = self.same(
            || {
                let input = hex(input);
                format!("vbus_normalize(input = {input}, room = {room})")
            },
            || output.lend(|out| library::normalize(input, out)),
            || output.lend(|out| reference::normalize(input, out)),
        )?;
        self.number(written.number);
        let streams = left[output.from..output.from + written.length].to_vec();
        Ok((written, streams))
    }

    pub fn section_count(&mut self, header: Header, payload: &[u8]) -> Checked<Count> {
        let answer = self.same(
            || {
                let payload = hex(payload);
                format!("vbus_section_count({header:X?}, payload = {payload})")
            },
            || library::section_count(header, payload),
            || reference::section_count(header, payload),
        )?;
        self.number(answer.number);
        Ok(answer)
    }

    pub fn section(&mut self, header: Header, payload: &[u8], section: usize) -> Checked<Part> {
        let answer = self.same(
            || {
                let payload = hex(payload);
                format!("vbus_section({header:X?}, payload = {payload}, section = {section})")
            },
            || library::section(header, payload, section),
            || reference::section(header, payload, section),
        )?;
        self.number(answer.number);
        Ok(answer)
    }

    pub fn element_count(
        &mut self,
        header: Header,
        payload: &[u8],
        section: usize,
    ) -> Checked<Count> {
        let answer = self.same(
            || {
                let payload = hex(payload);
                format!("vbus_element_count({header:X?}, payload = {payload}, section = {section})")
            },
            || library::element_count(header, payload, section),
            || reference::element_count(header, payload, section),
        )?;
        self.number(answer.number);
        Ok(answer)
    }

    pub fn element(
        &mut self,
        header: Header,
        payload: &[u8],
        section: usize,
        element: usize,
    ) -> Checked<Part> {
        let answer = self.same(
            || {
                let payload = hex(payload);
                format!(
                    "vbus_element({header:X?}, payload = {payload}, section = {section}, \
                     element = {element})"
                )
            },
            || library::element(header, payload, section, element),
            || reference::element(header, payload, section, element),
        )?;
        self.number(answer.number);
        Ok(answer)
    }

    pub fn read_slave_id(&mut self, header: Header, payload: &[u8]) -> Checked<SlaveId> {
        let answer = self.same(
            || {
                let payload = hex(payload);
                format!("vbus_read_slave_id({header:X?}, payload = {payload})")
            },
            || library::read_slave_id(header, payload),
            || reference::read_slave_id(header, payload),
        )?;
        self.number(answer.number);
        Ok(answer)
    }

    pub fn write_slave_id(
        &mut self,
        destination: u16,
        source: u16,
        [product, device]: [u32; 2],
        room: usize,
    ) -> Checked<(Written, Vec<u8>)> {
        let output = Output::new(&mut self.rng, room);
        let (written, Hex(left)) = self.same(
            || {
                format!(
                    "vbus_write_slave_id(destination = {destination:X}, source = {source:X}, \
                     product = {product:X}, device = {device:X}, room = {room})"
                )
            },
            || {
                output
                    .lend(|out| library::write_slave_id(destination, source, product, device, out))
            },
            || {
                output.lend(|out| {
                    reference::write_slave_id(destination, source, product, device, out)
                })
            },
        )?;
        self.number(written.number);
        let stream = left[output.from..output.from + written.length].to_vec();
        Ok((written, stream))
    }

    /// One call on a table of slaves: the answer, and the table afterwards. The table gets the figures
    /// that come back.
    pub fn on_table(
        &mut self,
        table: &mut Table,
        operation: Operation,
    ) -> Checked<(SlaveFound, Vec<Slave>)> {
        let before = table.slaves();
        let figures = table.figures;
        let (answer, after, figures) = self.same(
            || {
                let n = before.len();
                format!("{operation:X?} with {figures:?} on {n} entries {before:X?}")
            },
            || {
                let mut figures = figures;
                let answer = operation.by_library(table.lent(), &mut figures);
                (answer, table.slaves(), figures)
            },
            || {
                let (mut slaves, mut figures) = (before.clone(), figures);
                let answer = operation.by_reference(&mut slaves, &mut figures);
                (answer, slaves, figures)
            },
        )?;
        table.figures = figures;
        self.number(answer.number);
        Ok((answer, after))
    }

    pub fn slave_check_figures(
        &mut self,
        table: &mut Table,
        figures: Figures,
    ) -> Checked<FiguresChecked> {
        let slaves = table.slaves();
        let answer = self.same(
            || {
                let n = slaves.len();
                format!("vbus_slave_check_figures({figures:?}) on {n} entries {slaves:X?}")
            },
            || library::slave_check_figures(table.lent(), figures),
            || reference::slave_check_figures(&slaves, figures),
        )?;
        self.number(answer.number);
        Ok(answer)
    }

    /// One call of a sender, which may be in any state: the answer, and `out` before and afterwards. The
    /// sender and its queue become those afterwards.
    pub fn on_sender(
        &mut self,
        sending: &mut Sending,
        operation: &sender::Operation,
    ) -> Checked<(Sent, [Vec<u8>; 2])> {
        let before = sending.sender;
        let queue = Output::holding(&mut self.rng, &sending.queue);
        let out = Output::new(&mut self.rng, operation.room());
        let ((sent, Hex(queue_left)), Hex(out_left)) = self.same(
            || {
                let queue = hex(&sending.queue);
                format!("{operation:?} of {before:?} with queue = {queue}")
            },
            || out.lend(|out| queue.lend(|queue| operation.by_library(before, queue, out))),
            || out.lend(|out| queue.lend(|queue| operation.by_reference(before, queue, out))),
        )?;
        self.number(sent.number);
        sending.sender = sent.sender;
        let left = &queue_left[queue.from..queue.to];
        sending.queue.copy_from_slice(left);
        let outs = [out.bytes, out_left].map(|bytes| bytes[out.from..out.to].to_vec());
        Ok((sent, outs))
    }

    /// Whether a sender is idle, and its energy.
    pub fn sender_values(&mut self, sender: Sender) -> Checked<(bool, u32)> {
        let idle = self.same(
            || format!("vbus_sender_is_idle({sender:?})"),
            || library::sender_is_idle(sender),
            || reference::sender_is_idle(sender),
        )?;
        let energy = self.same(
            || format!("vbus_sender_energy({sender:?})"),
            || library::sender_energy(sender),
            || reference::sender_energy(sender),
        )?;
        Ok((idle, energy))
    }

    /// The number is that of the first refusal that applies, 0 if none does. Counts it, alone and before
    /// each that applies behind it.
    pub fn first_given(
        &mut self,
        function: &'static str,
        number: u32,
        refusals: &[u32],
        what: impl Fn() -> String,
    ) -> Checked<()> {
        let first = refusals.first().copied().unwrap_or(0);
        self.holds(number == first, || {
            let what = what();
            format!("{what} gives the first of {refusals:?}, or 0; it gave {number}")
        })?;
        let behind = refusals.iter().skip(1);
        for behind in behind.chain(&[0]) {
            *self.orders.entry((function, first, *behind)).or_default() += 1;
        }
        Ok(())
    }

    /// Fails with `what` unless `condition` holds.
    pub fn holds(&mut self, condition: bool, what: impl Fn() -> String) -> Checked<()> {
        if condition {
            Ok(())
        } else {
            Err(Failure(format!("does not hold: {}", what())))
        }
    }
}
