//! Times the proved library against the reference implementation, in one run and in turns, and
//! prints a table of ratios (library / reference; below 1 the library is faster).
//!
//! Both sides get the same bytes through the same loops, and must give the same answers. Neither
//! is inlined into the loops: the library can't be, and the reference isn't allowed to be.
//!
//! A second table has the library's time for recordings in which all unused septet bits are set
//! against its time for the same recordings without. A third has its time for the faults of hostile
//! recordings against its time for as many bytes in recordings of an eighth of the size. A fourth has
//! calls on a table of slaves, again against the reference, and those that keep figures also against a
//! reference that keeps none, which counts in each call that enters.

mod library;
mod recordings;

use library as lib;
use recordings::Random;
use reference::Header;
use std::hint::black_box;

const ROUNDS: usize = 9;
/// Measurements of each side within a round, in turns; the fastest of each side counts.
const TURNS: usize = 7;
/// The same for work that takes long by itself.
const LONG_TURNS: usize = 3;
/// Short work is repeated until one measurement lasts this many nanoseconds: long against the clock's
/// resolution, and short enough that many measurements run undisturbed on a busy machine.
const LEAST: f64 = 500_000.0;
/// The bus carries 9,600 bits a second, ten for a byte.
const BUS: f64 = 960.0;
/// The recordings' sizes.
const SIZES: [(&str, usize); 3] = [("4 KiB", 1 << 12), ("64 KiB", 1 << 16), ("16 MiB", 1 << 24)];

// The reference, not inlined.

#[inline(never)]
fn ref_validate(input: &[u8]) -> reference::Validation {
    reference::validate(input)
}

#[inline(never)]
fn ref_next(input: &[u8], start: usize, payload: &mut [u8]) -> reference::Found {
    reference::next(input, start, payload)
}

#[inline(never)]
fn ref_next_fault(input: &[u8], start: usize) -> reference::Fault {
    reference::next_fault(input, start)
}

#[inline(never)]
fn ref_normalize(input: &[u8], out: &mut [u8]) -> reference::Written {
    reference::normalize(input, out)
}

#[inline(never)]
fn ref_encode(header: Header, payload: &[u8], out: &mut [u8]) -> reference::Written {
    reference::encode(header, payload, out)
}

#[inline(never)]
fn ref_checksum(block: &[u8]) -> u8 {
    reference::checksum(block)
}

#[inline(never)]
fn ref_receive(
    receiver: &mut reference::Receiver,
    chunk: &[u8],
    payload: &mut [u8],
) -> reference::Received {
    receiver.receive(chunk, payload)
}

#[inline(never)]
fn ref_slave_enter(
    table: &mut [reference::Slave],
    figures: reference::Figures,
    slave: reference::Slave,
) -> reference::SlaveKept {
    reference::slave_enter(table, figures, slave)
}

#[inline(never)]
fn ref_slave_enter_counting(table: &mut [reference::Slave], slave: reference::Slave) -> u32 {
    reference::slave_enter_counting(table, slave)
}

#[inline(never)]
fn ref_slave_find(
    table: &mut [reference::Slave],
    owner: bool,
    address: u16,
) -> reference::SlaveFound {
    reference::slave_find(table, owner, address)
}

#[inline(never)]
fn ref_slave_change_address(
    table: &mut [reference::Slave],
    owner: bool,
    from: u16,
    to: u16,
) -> u32 {
    reference::slave_change_address(table, owner, from, to)
}

#[inline(never)]
fn ref_slave_remove(
    table: &mut [reference::Slave],
    figures: reference::Figures,
    owner: bool,
    address: u16,
) -> reference::SlaveKept {
    reference::slave_remove(table, figures, owner, address)
}

#[inline(never)]
fn ref_slave_remove_counting(table: &mut [reference::Slave], owner: bool, address: u16) -> u32 {
    reference::slave_remove_counting(table, owner, address)
}

#[inline(never)]
fn ref_slave_check_figures(
    table: &mut [reference::Slave],
    figures: reference::Figures,
) -> reference::FiguresChecked {
    reference::slave_check_figures(table, figures)
}

#[inline(never)]
fn ref_sender_enqueue(
    sender: reference::Sender,
    queue: &mut [u8],
    bytes: &[u8],
) -> reference::Sent {
    reference::sender_enqueue(sender, queue, bytes)
}

#[inline(never)]
fn ref_sender_transmit(sender: reference::Sender, queue: &[u8], out: &mut [u8]) -> reference::Sent {
    reference::sender_transmit(sender, queue, out)
}

#[inline(never)]
fn ref_sender_wait(sender: reference::Sender, microseconds: u64) -> reference::Sent {
    reference::sender_wait(sender, microseconds)
}

#[inline(never)]
fn ref_sender_is_idle(sender: reference::Sender) -> bool {
    reference::sender_is_idle(sender)
}

// What is timed. Each answers with a number that depends on every answer it got.

/// Validates at one place after the other, and steps over a whole stream.
macro_rules! validate_all {
    ($validate:expr, $input:expr) => {{
        let input: &[u8] = black_box($input);
        let mut place = 0;
        let mut seen = 0usize;
        while place < input.len() {
            let answer = $validate(&input[place..]);
            seen = seen
                .wrapping_mul(31)
                .wrapping_add(answer.offset * 8 + answer.verdict as usize)
                .wrapping_add(answer.unused_septets << 16);
            place += if answer.verdict == 0 {
                answer.offset
            } else {
                1
            };
        }
        seen
    }};
}

/// Reads every record.
macro_rules! next_all {
    ($next:expr, $input:expr, $payload:expr) => {{
        let input: &[u8] = black_box($input);
        let mut start = 0;
        let mut seen = 0usize;
        loop {
            let answer = $next(input, start, $payload);
            if !answer.found {
                break;
            }
            black_box(&$payload);
            seen = seen
                .wrapping_mul(31)
                .wrapping_add(answer.position as usize ^ answer.payload_length);
            start = answer.position as usize + answer.length;
        }
        seen
    }};
}

/// Asks for every fault.
macro_rules! faults_all {
    ($next_fault:expr, $input:expr) => {{
        let input: &[u8] = black_box($input);
        let mut start = 0;
        let mut seen = 0usize;
        loop {
            let answer = $next_fault(input, start);
            if !answer.found {
                break;
            }
            let bytes = usize::from(answer.byte) << 8 | usize::from(answer.wanted);
            seen = seen
                .wrapping_mul(31)
                .wrapping_add(answer.offset * 8 + answer.verdict as usize)
                .wrapping_add(answer.place ^ bytes << 16);
            start = answer.place + 1;
        }
        seen
    }};
}

/// Hands every chunk over to a fresh receiver, again from where a record ended.
macro_rules! receive_all {
    ($receive:expr, $fresh:expr, $chunks:expr, $payload:expr) => {{
        let mut receiver = $fresh;
        let mut seen = 0usize;
        for chunk in $chunks {
            let mut rest: &[u8] = black_box(chunk);
            while !rest.is_empty() {
                let answer = $receive(&mut receiver, rest, $payload);
                black_box(&$payload);
                seen = seen
                    .wrapping_mul(31)
                    .wrapping_add(answer.used ^ answer.length ^ answer.payload_length);
                rest = &rest[answer.used..];
            }
        }
        seen
    }};
}

/// Queues bytes and hands them out portion by portion, waiting as long as a portion of 16 needs.
macro_rules! send_all {
    (
        $side:ident,
        [$enqueue:expr, $transmit:expr, $wait:expr, $is_idle:expr],
        $bytes:expr, $queue:expr, $out:expr
    ) => {{
        let full = $side::Sender {
            settings: $side::SenderSettings {
                max_energy: 16 * 1_042,
                loss_per_byte: 1_042,
                gain_per_microsecond: 1,
            },
            energy: 16 * 1_042,
            queued: 0,
            sent: 0,
        };
        let mut answer = $enqueue(black_box(full), $queue, black_box($bytes));
        let mut seen = 0usize;
        while !$is_idle(answer.sender) {
            answer = $transmit(answer.sender, $queue, $out);
            black_box(&$out);
            seen = seen
                .wrapping_mul(31)
                .wrapping_add(answer.length ^ answer.sender.energy as usize);
            answer = $wait(answer.sender, black_box(16 * 1_042));
        }
        seen
    }};
}

/// A call on a table whose last entry is free, with its figures, and 32 slaves, all but the last of them
/// in it: 16 and 15 of the two owners. The last of those and the one that isn't there are of the same
/// owner. The call puts right before what it changed the last time.
macro_rules! on_table {
    ($side:ident, |$table:ident, $figures:ident, $slaves:ident| $call:expr) => {{
        use $side::{Figures, Slave};
        let slaves: [Slave; 32] = std::array::from_fn(|i| Slave {
            address: 0x2010 + 0x100 * (i as u16 / 7) + 0x10 * (i as u16 % 7),
            owner: i >= 16,
            product: 888_888,
            device: 17 * 131_072 + i as u32,
        });
        let figures = Figures {
            no: 16,
            yes: 15,
            lowest: 31,
        };
        let mut table = slaves;
        table[31].address = 0;
        move || {
            let ($table, $slaves) = (black_box(&mut table), black_box(&slaves));
            let $figures = black_box(figures);
            $call
        }
    }};
}

/// A number that depends on all that a call answers which keeps figures.
macro_rules! kept {
    ($answer:expr) => {{
        let answer = $answer;
        let figures = answer.figures;
        let numbers = [figures.no, figures.yes, figures.lowest].map(usize::from);
        numbers
            .iter()
            .fold(answer.number as usize, |all, number| all << 8 | number)
    }};
}

#[repr(C)]
struct Timespec {
    seconds: i64,
    nanoseconds: i64,
}

extern "C" {
    fn clock_gettime(clock: i32, time: *mut Timespec) -> i32;
}

/// This thread's processor time in nanoseconds: time for which another program had the processor
/// doesn't count.
fn now() -> f64 {
    const CLOCK_THREAD_CPUTIME_ID: i32 = 3;
    let mut time = Timespec {
        seconds: 0,
        nanoseconds: 0,
    };
    let status = unsafe { clock_gettime(CLOCK_THREAD_CPUTIME_ID, &mut time) };
    assert_eq!(status, 0, "no clock of the thread's processor time");
    time.seconds as f64 * 1e9 + time.nanoseconds as f64
}

/// Nanoseconds for one of `repeats` runs.
fn time(repeats: u32, work: &mut dyn FnMut() -> usize) -> f64 {
    let start = now();
    for _ in 0..repeats {
        black_box(work());
    }
    (now() - start) / f64::from(repeats)
}

fn median(sorted: &[f64]) -> f64 {
    sorted[sorted.len() / 2]
}

fn sorted(mut numbers: Vec<f64>) -> Vec<f64> {
    numbers.sort_by(f64::total_cmp);
    numbers
}

/// Times both sides, which must give the same answer, and prints a row.
fn compare(
    name: &str,
    bytes: usize,
    mut library: impl FnMut() -> usize,
    mut reference: impl FnMut() -> usize,
) {
    assert_eq!(library(), reference(), "{name}: the answers differ");
    row(name, bytes, library, reference);
}

/// Times two works in turns and prints a row of a table. `bytes` is what one run handles.
fn row(name: &str, bytes: usize, work: impl FnMut() -> usize, other: impl FnMut() -> usize) {
    let Times {
        ratios,
        of_work,
        of_other,
    } = times(work, other);
    let per_byte = median(&of_work) / bytes as f64;
    println!(
        "| {name} | {:.2} | {:.2} | {:.2} | {:.3} | {:.3} | {:.0} |",
        ratios[0],
        median(&ratios),
        ratios[ROUNDS - 1],
        per_byte,
        median(&of_other) / bytes as f64,
        1e9 / per_byte / BUS,
    );
}

/// Each round's ratio and the nanoseconds of both works, all of them sorted.
struct Times {
    ratios: Vec<f64>,
    of_work: Vec<f64>,
    of_other: Vec<f64>,
}

/// Times two works in turns.
fn times(mut work: impl FnMut() -> usize, mut other: impl FnMut() -> usize) -> Times {
    let mut repeats = 1;
    while time(repeats, &mut work) * f64::from(repeats) < LEAST {
        repeats *= 2;
    }
    let turns = if repeats == 1 { LONG_TURNS } else { TURNS };
    let mut of_work = Vec::new();
    let mut of_other = Vec::new();
    for _ in 0..ROUNDS {
        let mut best = (f64::INFINITY, f64::INFINITY);
        for _ in 0..turns {
            best.0 = best.0.min(time(repeats, &mut work));
            best.1 = best.1.min(time(repeats, &mut other));
        }
        of_work.push(best.0);
        of_other.push(best.1);
    }
    let ratios = of_work.iter().zip(&of_other).map(|(a, b)| a / b).collect();
    Times {
        ratios: sorted(ratios),
        of_work: sorted(of_work),
        of_other: sorted(of_other),
    }
}

/// A table's head; `other` names what the work is compared with.
fn head(work: &str, other: &str) {
    println!("| {work} | min | median | max | ns a byte | {other} | times the bus |");
    println!("|---|---|---|---|---|---|---|");
}

fn recording(kind: &str, size: &str, input: &[u8]) {
    let mut payload_a = [0u8; 508];
    let mut payload_b = [0u8; 508];
    let mut out_a = vec![0u8; input.len()];
    let mut out_b = vec![0u8; input.len()];
    let n = input.len();
    compare(
        &format!("validate, {kind}, {size}"),
        n,
        || validate_all!(lib::validate, input),
        || validate_all!(ref_validate, input),
    );
    compare(
        &format!("next, {kind}, {size}"),
        n,
        || next_all!(lib::next, input, &mut payload_a),
        || next_all!(ref_next, input, &mut payload_b),
    );
    faults(kind, size, input);
    compare(
        &format!("normalize, {kind}, {size}"),
        n,
        || {
            let answer = lib::normalize(black_box(input), &mut out_a);
            black_box(&mut out_a);
            answer.length
        },
        || {
            let answer = ref_normalize(black_box(input), &mut out_b);
            black_box(&mut out_b);
            answer.length
        },
    );
    assert!(
        out_a == out_b,
        "normalize, {kind}, {size}: the bytes differ"
    );
}

fn faults(kind: &str, size: &str, input: &[u8]) {
    compare(
        &format!("faults, {kind}, {size}"),
        input.len(),
        || faults_all!(lib::next_fault, input),
        || faults_all!(ref_next_fault, input),
    );
}

/// The faults of a hostile recording against those of an eighth of it, eight times: the same number of
/// bytes, so that the ratio is 1 where a byte costs the same in both.
fn growth(kind: &str, input: &[u8]) {
    let part = &input[..input.len() / 8];
    row(
        &format!("faults, {kind}"),
        input.len(),
        || faults_all!(lib::next_fault, input),
        || (0..8).fold(0, |seen, _| seen ^ faults_all!(lib::next_fault, part)),
    );
}

/// The library with a recording that has unused septet bits against the library with the same without.
fn unused_bits(size: &str, with: &[u8], without: &[u8]) {
    let mut payload_a = [0u8; 508];
    let mut payload_b = [0u8; 508];
    let mut out_a = vec![0u8; with.len()];
    let mut out_b = vec![0u8; with.len()];
    let n = with.len();
    row(
        &format!("validate, {size}"),
        n,
        || validate_all!(lib::validate, with),
        || validate_all!(lib::validate, without),
    );
    row(
        &format!("next, {size}"),
        n,
        || next_all!(lib::next, with, &mut payload_a),
        || next_all!(lib::next, without, &mut payload_b),
    );
    row(
        &format!("normalize, {size}"),
        n,
        || {
            let answer = lib::normalize(black_box(with), &mut out_a);
            black_box(&mut out_a);
            answer.length
        },
        || {
            let answer = lib::normalize(black_box(without), &mut out_b);
            black_box(&mut out_b);
            answer.length
        },
    );
    assert!(
        out_a == without && out_b == without,
        "normalize, {size}: the bytes differ"
    );
}

fn receiver(kind: &str, input: &[u8]) {
    for size in [1, 16, 256, 65_536] {
        let name = format!("receive, {kind}, chunks of {size}");
        receive(&name, input, size, lib::receive);
    }
    let name = format!("receive, {kind}, chunks of 1, the receiver in memory");
    receive(&name, input, 1, lib::receive_in_memory);
}

fn receive(
    name: &str,
    input: &[u8],
    size: usize,
    library: impl Fn(&mut lib::Receiver, &[u8], &mut [u8]) -> vbus_sys::Received,
) {
    let mut payload_a = [0u8; 508];
    let mut payload_b = [0u8; 508];
    let mut memory = [0u8; 772];
    compare(
        name,
        input.len(),
        || {
            let chunks = input.chunks(size);
            let fresh = lib::Receiver::new(&mut memory);
            receive_all!(library, fresh, chunks, &mut payload_a)
        },
        || {
            let chunks = input.chunks(size);
            let fresh = reference::Receiver::new();
            receive_all!(ref_receive, fresh, chunks, &mut payload_b)
        },
    );
    assert!(payload_a == payload_b, "{name}: the last payload differs");
}

fn encode(name: &str, version: u8, command: u16, length: usize, random: &mut Random) {
    let mut payload = [0u8; 508];
    random.fill(&mut payload);
    let payload = &payload[..length];
    let header = Header {
        version,
        destination: 0x0010,
        source: 0x7E21,
        command,
    };
    let mut out_a = [0u8; 772];
    let mut out_b = [0u8; 772];
    let bytes = reference::encode(header, payload, &mut out_b).length;
    compare(
        &format!("encode, {name}"),
        bytes,
        || {
            let answer = lib::encode(black_box(header), black_box(payload), &mut out_a);
            black_box(&mut out_a);
            answer.length
        },
        || {
            let answer = ref_encode(black_box(header), black_box(payload), &mut out_b);
            black_box(&mut out_b);
            answer.length
        },
    );
    assert!(out_a == out_b, "encode, {name}: the bytes differ");
}

/// One stream to write, or one block to sum up.
fn short_work(random: &mut Random) {
    encode("packet of 0 frames", 0x10, 0x0100, 0, random);
    encode("packet of 8 frames", 0x10, 0x0100, 32, random);
    encode("packet of 127 frames", 0x10, 0x0100, 508, random);
    encode("datagram", 0x20, 0x0100, 6, random);
    encode("telegram of 3 frames", 0x30, 0x0065, 21, random);
    for n in [8, 256, 4096] {
        let mut block = vec![0u8; n];
        random.fill(&mut block);
        compare(
            &format!("checksum, {n} bytes"),
            n,
            || usize::from(lib::checksum(black_box(&block))),
            || usize::from(ref_checksum(black_box(&block))),
        );
    }
}

fn send_by_library(bytes: &[u8; 772], queue: &mut [u8; 772], out: &mut [u8; 772]) -> usize {
    send_all!(
        vbus_sys,
        [
            lib::sender_enqueue,
            lib::sender_transmit,
            lib::sender_wait,
            lib::sender_is_idle
        ],
        bytes,
        queue,
        out
    )
}

fn send_by_reference(bytes: &[u8; 772], queue: &mut [u8; 772], out: &mut [u8; 772]) -> usize {
    send_all!(
        reference,
        [
            ref_sender_enqueue,
            ref_sender_transmit,
            ref_sender_wait,
            ref_sender_is_idle
        ],
        bytes,
        queue,
        out
    )
}

/// The longest packet, portion by portion.
fn send(random: &mut Random) {
    let mut bytes = [0u8; 772];
    random.fill(&mut bytes);
    let (mut queue_a, mut queue_b) = ([0u8; 772], [0u8; 772]);
    let (mut out_a, mut out_b) = ([0u8; 772], [0u8; 772]);
    compare(
        "send, packet of 127 frames, 16 bytes at once",
        bytes.len(),
        || send_by_library(&bytes, &mut queue_a, &mut out_a),
        || send_by_reference(&bytes, &mut queue_b, &mut out_b),
    );
    assert!(
        queue_a == bytes && queue_a == queue_b && out_a == out_b,
        "send: the bytes differ"
    );
}

/// Times a call on a table of slaves on both sides, which must give the same answer, and prints a row.
fn table_row(name: &str, mut library: impl FnMut() -> usize, mut reference: impl FnMut() -> usize) {
    assert_eq!(library(), reference(), "{name}: the answers differ");
    let Times {
        ratios,
        of_work,
        of_other,
    } = times(library, reference);
    println!(
        "| {name} | {:.2} | {:.2} | {:.2} | {:.1} | {:.1} |",
        ratios[0],
        median(&ratios),
        ratios[ROUNDS - 1],
        median(&of_work),
        median(&of_other),
    );
}

/// The calls that look furthest: at the last of 31 slaves, or behind it.
fn slaves() {
    println!("| Slaves | min | median | max | ns a call | reference |");
    println!("|---|---|---|---|---|---|");
    entering();
    table_row(
        "find the last of 31 slaves",
        on_table!(vbus_sys, |table, _figures, slaves| {
            let Slave { owner, address, .. } = slaves[30];
            lib::slave_find(table, owner, address).device as usize
        }),
        on_table!(reference, |table, _figures, slaves| {
            let Slave { owner, address, .. } = slaves[30];
            ref_slave_find(table, owner, address).device as usize
        }),
    );
    table_row(
        "change_address of the last of 31 slaves",
        on_table!(vbus_sys, |table, _figures, slaves| {
            table[30].address = slaves[30].address;
            let Slave { owner, address, .. } = slaves[30];
            lib::slave_change_address(table, owner, address, slaves[31].address) as usize
        }),
        on_table!(reference, |table, _figures, slaves| {
            table[30].address = slaves[30].address;
            let Slave { owner, address, .. } = slaves[30];
            ref_slave_change_address(table, owner, address, slaves[31].address) as usize
        }),
    );
    removing();
    table_row(
        "check_figures, 31 slaves",
        on_table!(vbus_sys, |table, figures, _slaves| {
            lib::slave_check_figures(table, figures).right as usize
        }),
        on_table!(reference, |table, figures, _slaves| {
            ref_slave_check_figures(table, figures).right as usize
        }),
    );
}

fn entering() {
    table_row(
        "enter, 31 slaves",
        on_table!(vbus_sys, |table, figures, slaves| {
            table[31].address = 0;
            kept!(lib::slave_enter(table, figures, slaves[31]))
        }),
        on_table!(reference, |table, figures, slaves| {
            table[31].address = 0;
            kept!(ref_slave_enter(table, figures, slaves[31]))
        }),
    );
    table_row(
        "enter, 31 slaves / counting",
        on_table!(vbus_sys, |table, figures, slaves| {
            table[31].address = 0;
            lib::slave_enter(table, figures, slaves[31]).number as usize
        }),
        on_table!(reference, |table, _figures, slaves| {
            table[31].address = 0;
            ref_slave_enter_counting(table, slaves[31]) as usize
        }),
    );
}

fn removing() {
    table_row(
        "remove the last of 31 slaves",
        on_table!(vbus_sys, |table, figures, slaves| {
            table[30] = slaves[30];
            let Slave { owner, address, .. } = slaves[30];
            kept!(lib::slave_remove(table, figures, owner, address))
        }),
        on_table!(reference, |table, figures, slaves| {
            table[30] = slaves[30];
            let Slave { owner, address, .. } = slaves[30];
            kept!(ref_slave_remove(table, figures, owner, address))
        }),
    );
    table_row(
        "remove the last of 31 slaves / without figures",
        on_table!(vbus_sys, |table, figures, slaves| {
            table[30] = slaves[30];
            let Slave { owner, address, .. } = slaves[30];
            lib::slave_remove(table, figures, owner, address).number as usize
        }),
        on_table!(reference, |table, _figures, slaves| {
            table[30] = slaves[30];
            let Slave { owner, address, .. } = slaves[30];
            ref_slave_remove_counting(table, owner, address) as usize
        }),
    );
}

fn main() {
    head("Work", "reference");
    let mut random = Random(0x9E37_79B9_7F4A_7C15);
    let clean = SIZES.map(|(size, n)| (size, recordings::clean(n, &mut random)));
    let unused = clean
        .clone()
        .map(|(size, input)| (size, recordings::with_unused_bits(input)));
    for (kind, inputs) in [("clean", &clean), ("unused bits", &unused)] {
        for (size, input) in inputs {
            recording(kind, size, input);
        }
    }
    for (kind, make) in recordings::OTHERS {
        for (size, n) in SIZES {
            recording(kind, size, &make(n, &mut random));
        }
    }
    short_work(&mut random);
    for (kind, make) in recordings::RECEIVED {
        receiver(kind, &make(1 << 16, &mut random));
    }
    send(&mut random);
    println!();
    head("Library, unused bits / clean", "clean");
    for ((size, with), (_, without)) in unused.iter().zip(&clean) {
        unused_bits(size, with, without);
    }
    println!();
    head("Library, 512 KiB / 64 KiB eight times", "64 KiB");
    for (kind, make) in recordings::HOSTILE {
        growth(kind, &make(1 << 19, &mut random));
    }
    println!();
    slaves();
}
