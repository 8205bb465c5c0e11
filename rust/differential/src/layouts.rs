//! Calls whose answers have another value in every field, so that a wrong layout shows.

use crate::check::{Checked, Checker};
use crate::library::{self, Entry, Receiver};
use reference::{Count, Fault, Found, Header, Part, Received, Septets, Validation, Written};
use reference::{Figures, FiguresChecked, Slave, SlaveFound, SlaveId, SlaveKept};
use reference::{Sender, SenderSettings, Sent};
use std::mem::{offset_of, size_of, transmute};
use std::ptr::{null, null_mut};

const HEADER: Header = Header {
    version: 0x10,
    destination: 0x1234,
    source: 0x5678,
    command: 0x1A2B,
};

const PAYLOAD: [u8; 8] = [0x80, 0x01, 0x02, 0x83, 0x44, 0xF5, 0x66, 0x77];

/// `HEADER` and `PAYLOAD` as a stream, worked out by hand.
const STREAM: [u8; 22] = [
    0xAA, 0x34, 0x12, 0x78, 0x56, 0x10, 0x2B, 0x1A, 0x02, 0x14, // header
    0x00, 0x01, 0x02, 0x03, 0x09, 0x70, // 80 01 02 83
    0x44, 0x75, 0x66, 0x77, 0x02, 0x67, // 44 F5 66 77
];

const BLOCK: Header = Header {
    version: 0x10,
    destination: 0x0015,
    source: 0x5678,
    command: 0x0100,
};

const SECTIONS: [u8; 32] = [
    0, 0x77, 0, 0, // no payload
    1, 0x08, 0, 0, 1, 2, 3, 4, // four relays
    4, 0x01, 0, 0, 1, 2, 3, 4, 5, 6, 7, 8, 9, 10, 11, 12, 13, 14, 15, 16,
];

/// A telegram to 0x1234 from 0x5678 with product 0xA3B2C1 and device 0xF7E5D4, worked out by hand.
const SLAVE_ID: [u8; 17] = [
    0xAA, 0x34, 0x12, 0x78, 0x56, 0x30, 0x23, 0x18, // header
    0x41, 0x32, 0x23, 0x54, 0x65, 0x77, 0x00, 0x3F, 0x7A, // C1 B2 A3 D4 E5 F7 00
];

const SLAVE: Slave = Slave {
    address: 0x2345,
    owner: true,
    product: 0xA3_B2C1,
    device: 0xF7_E5D4,
};

/// Four bytes at once, which leave an energy of 0x1357_9BDF.
const SETTINGS: SenderSettings = SenderSettings {
    max_energy: 0xFEDC_BA97,
    loss_per_byte: 0x3AE1_47AE,
    gain_per_microsecond: 0x0203,
};

/// A sender that waits, with another value in each field.
const ODD: Sender = Sender {
    settings: SETTINGS,
    energy: 0x89AB_CDEF,
    queued: 0x0123_4567_89AB_CDEF,
    sent: 0xFEDC_BA98_7654_3210,
};

fn sent(number: u32, length: usize, sender: Sender) -> Sent {
    Sent {
        number,
        length,
        sender,
    }
}

/// `Found` with the flag as the byte that it is.
#[repr(C)]
struct FoundBytes {
    number: u32,
    found: u8,
    position: u64,
    length: usize,
    header: vbus_sys::Header,
    payload_length: usize,
}

/// `Fault` with the flags as the bytes that they are.
#[repr(C)]
#[derive(PartialEq, Debug)]
struct FaultBytes {
    found: u8,
    place: usize,
    verdict: u8,
    offset: usize,
    has_byte: u8,
    byte: u8,
    has_wanted: u8,
    wanted: u8,
}

/// `Received` with the flag as the byte that it is.
#[repr(C)]
struct ReceivedBytes {
    number: u32,
    found: u8,
    used: usize,
    position: u64,
    length: usize,
    header: vbus_sys::Header,
    payload_length: usize,
    held: usize,
    end: u64,
}

type Receive = unsafe extern "C" fn(
    vbus_sys::Receiver,
    *mut [u8; 772],
    *const u8,
    usize,
    *mut u8,
    usize,
) -> vbus_sys::Received;

type ReceiveBytes = unsafe extern "C" fn(
    usize,
    u64,
    *mut [u8; 772],
    *const u8,
    usize,
    *mut u8,
    usize,
) -> ReceivedBytes;

type Entries = *mut vbus_sys::Slave;
type ConstEntries = *const vbus_sys::Slave;

type Enter =
    unsafe extern "C" fn(Entries, usize, vbus_sys::Figures, vbus_sys::Slave) -> vbus_sys::SlaveKept;
type Find = unsafe extern "C" fn(ConstEntries, usize, bool, u16) -> vbus_sys::SlaveFound;
type ChangeAddress = unsafe extern "C" fn(Entries, usize, bool, u16, u16) -> u32;
type Remove =
    unsafe extern "C" fn(Entries, usize, vbus_sys::Figures, bool, u16) -> vbus_sys::SlaveKept;
type CheckFigures =
    unsafe extern "C" fn(ConstEntries, usize, vbus_sys::Figures) -> vbus_sys::FiguresChecked;

type EnterWords = unsafe extern "C" fn(Entries, usize, u64, u64, u64) -> u64;
type FindWords = unsafe extern "C" fn(ConstEntries, usize, u64, u64) -> vbus_sys::SlaveFound;
type ChangeAddressWords = unsafe extern "C" fn(Entries, usize, u64, u64, u64) -> u32;
type RemoveWords = unsafe extern "C" fn(Entries, usize, u64, u64, u64) -> u64;
type CheckFiguresWords = unsafe extern "C" fn(ConstEntries, usize, u64) -> u64;

/// The calls on a table of slaves, with what they get by value as it lies in the registers, and so what
/// they answer in one.
struct ByWords {
    enter: EnterWords,
    find: FindWords,
    change_address: ChangeAddressWords,
    remove: RemoveWords,
    check_figures: CheckFiguresWords,
}

fn by_words() -> ByWords {
    use vbus_sys::{
        vbus_slave_change_address, vbus_slave_check_figures, vbus_slave_enter, vbus_slave_find,
        vbus_slave_remove,
    };
    // SAFETY: a struct of twelve bytes is passed in two registers, as two numbers of 64 bits are, one of
    // three bytes, a bool or a number of 16 bits in the lower part of one, and a struct of eight bytes is
    // answered in one.
    unsafe {
        ByWords {
            enter: transmute::<Enter, EnterWords>(vbus_slave_enter),
            find: transmute::<Find, FindWords>(vbus_slave_find),
            change_address: transmute::<ChangeAddress, ChangeAddressWords>(
                vbus_slave_change_address,
            ),
            remove: transmute::<Remove, RemoveWords>(vbus_slave_remove),
            check_figures: transmute::<CheckFigures, CheckFiguresWords>(vbus_slave_check_figures),
        }
    }
}

/// The number and the three figures of an answer as it lies in a register; its last byte may be anything.
fn kept_bytes(word: u64) -> (u32, [u8; 3]) {
    let [.., no, yes, lowest, _] = word.to_le_bytes();
    (word as u32, [no, yes, lowest])
}

impl Checker {
    pub fn layouts(&mut self) -> Checked<()> {
        self.note(|| "the first layout check".to_string());
        self.sizes()?;
        self.received_offsets()?;
        self.fault_offsets()?;
        self.found()?;
        self.fault()?;
        self.received()?;
        self.receivers_by_value()?;
        self.small_answers()?;
        self.septets_by_value()?;
        self.encoded()?;
        self.wrong_fields()?;
        self.parts()?;
        self.padding()?;
        self.flag()?;
        self.fault_flags()?;
        self.received_flag()?;
        self.slave_offsets()?;
        self.slave_ids()?;
        self.slaves()?;
        self.figures_by_value()?;
        self.no_table()?;
        self.slave_by_registers()?;
        self.sender_offsets()?;
        self.senders_by_value()?;
        self.sender_by_registers()?;
        self.sender_counts()
    }

    fn expect<T: PartialEq + std::fmt::Debug>(
        &mut self,
        what: &str,
        answer: T,
        expected: T,
    ) -> Checked<()> {
        self.count("layout");
        // These calls are made without a trace; the last one that came back says where.
        self.note(|| format!("the layout check after that of {what}"));
        self.holds(answer == expected, || {
            format!("{what} gives {expected:X?}; it gave {answer:X?}")
        })
    }

    fn sizes(&mut self) -> Checked<()> {
        let sizes = [
            size_of::<vbus_sys::Header>(),
            size_of::<vbus_sys::Validation>(),
            size_of::<vbus_sys::Found>(),
            size_of::<vbus_sys::Written>(),
            size_of::<vbus_sys::Count>(),
            size_of::<vbus_sys::Part>(),
            size_of::<vbus_sys::Septets>(),
            size_of::<vbus_sys::Receiver>(),
            size_of::<vbus_sys::Received>(),
            size_of::<vbus_sys::Fault>(),
            size_of::<vbus_sys::SlaveId>(),
            size_of::<vbus_sys::Slave>(),
            size_of::<vbus_sys::SlaveFound>(),
            size_of::<vbus_sys::Figures>(),
            size_of::<vbus_sys::SlaveKept>(),
            size_of::<vbus_sys::FiguresChecked>(),
            size_of::<Entry>(),
            size_of::<vbus_sys::SenderSettings>(),
            size_of::<vbus_sys::Sender>(),
            size_of::<vbus_sys::Sent>(),
        ];
        let expected = [
            8, 24, 40, 16, 16, 24, 32, 16, 64, 40, 20, 12, 12, 3, 8, 8, 12, 12, 32, 48,
        ];
        self.expect("sizes on x86-64", sizes, expected)?;
        let offsets = [
            offset_of!(vbus_sys::Validation, verdict),
            offset_of!(vbus_sys::Validation, offset),
            offset_of!(vbus_sys::Validation, unused_septets),
        ];
        self.expect("offsets of Validation on x86-64", offsets, [0, 8, 16])?;
        let offsets = [
            offset_of!(vbus_sys::Found, found),
            offset_of!(vbus_sys::Found, position),
            offset_of!(vbus_sys::Found, length),
            offset_of!(vbus_sys::Found, header),
            offset_of!(vbus_sys::Found, payload_length),
            offset_of!(vbus_sys::Septets, bytes),
            offset_of!(vbus_sys::Septets, length),
            offset_of!(vbus_sys::Septets, septet),
        ];
        self.expect("offsets on x86-64", offsets, [4, 8, 16, 24, 32, 4, 16, 24])
    }

    fn received_offsets(&mut self) -> Checked<()> {
        let offsets = [
            offset_of!(vbus_sys::Received, found),
            offset_of!(vbus_sys::Received, used),
            offset_of!(vbus_sys::Received, position),
            offset_of!(vbus_sys::Received, length),
            offset_of!(vbus_sys::Received, header),
            offset_of!(vbus_sys::Received, payload_length),
            offset_of!(vbus_sys::Received, receiver),
            offset_of!(vbus_sys::Receiver, held),
            offset_of!(vbus_sys::Receiver, position),
        ];
        let expected = [4, 8, 16, 24, 32, 40, 48, 0, 8];
        self.expect("offsets of Received on x86-64", offsets, expected)
    }

    fn fault_offsets(&mut self) -> Checked<()> {
        let offsets = [
            offset_of!(vbus_sys::Fault, found),
            offset_of!(vbus_sys::Fault, place),
            offset_of!(vbus_sys::Fault, verdict),
            offset_of!(vbus_sys::Fault, offset),
            offset_of!(vbus_sys::Fault, has_byte),
            offset_of!(vbus_sys::Fault, byte),
            offset_of!(vbus_sys::Fault, has_wanted),
            offset_of!(vbus_sys::Fault, wanted),
        ];
        let expected = [0, 8, 16, 24, 32, 33, 34, 35];
        self.expect("offsets of Fault on x86-64", offsets, expected)
    }

    fn found(&mut self) -> Checked<()> {
        let input = [&[0x01, 0x02, 0x03][..], &STREAM].concat();
        let mut payload = [0xEE; 9];
        let found = library::next(&input, 0, &mut payload);
        self.expect(
            "vbus_next",
            found,
            Found {
                number: 0,
                found: true,
                position: 3,
                length: 22,
                header: HEADER,
                payload_length: 8,
            },
        )?;
        self.expect("vbus_next's payload", &payload[..8], &PAYLOAD[..])?;
        self.expect("the byte behind it", payload[8], 0xEE)?;

        let refused = library::next(&input, 26, &mut payload);
        let expected = Found {
            number: 6,
            ..Found::default()
        };
        self.expect("vbus_next behind the end", refused, expected)
    }

    fn fault(&mut self) -> Checked<()> {
        let mut input = [&[0x01, 0x02, 0x03][..], &STREAM].concat();
        input[3 + 21] = 0x5A;
        let fault = library::next_fault(&input, 0);
        let expected = Fault {
            found: true,
            place: 3,
            verdict: 6,
            offset: 21,
            has_byte: true,
            byte: 0x5A,
            has_wanted: true,
            wanted: 0x67,
        };
        self.expect("vbus_next_fault", fault, expected)?;
        let none = library::next_fault(&input, 4);
        self.expect("vbus_next_fault behind it", none, Fault::default())
    }

    fn received(&mut self) -> Checked<()> {
        let mut memory = [0xEE; 772];
        let mut payload = [0xEE; 509];
        let start = 0x0123_4567_89AB_CDE0;
        let receiver = |held, position| Receiver { held, position };
        // Three bytes of no stream, and twelve that are held.
        let chunk = [&[0x01, 0x02, 0x03][..], &STREAM[..12]].concat();
        let answer = library::receive(receiver(0, start), &mut memory, &chunk, &mut payload);
        let none = Received {
            used: 15,
            ..Received::default()
        };
        let holding = receiver(12, start + 15);
        self.expect("vbus_receive of a part", answer, (none, holding))?;
        self.expect("vbus_receive's memory", &memory[..12], &STREAM[..12])?;
        self.expect("vbus_receive's payload", payload, [0xEE; 509])?;

        let chunk = [&STREAM[12..], &STREAM[..5]].concat();
        let answer = library::receive(holding, &mut memory, &chunk, &mut payload);
        let found = Received {
            number: 0,
            found: true,
            used: 10,
            position: start + 3,
            length: 22,
            header: HEADER,
            payload_length: 8,
        };
        let after = receiver(0, start + 25);
        self.expect("vbus_receive of the rest", answer, (found, after))?;
        self.expect("vbus_receive's payload", &payload[..8], &PAYLOAD[..])?;
        self.expect("the bytes behind it", &payload[8..], &[0xEE; 501][..])
    }

    /// A receiver comes back as it was, in all its bits; a reset one has its position.
    fn receivers_by_value(&mut self) -> Checked<()> {
        let mut memory = [0; 772];
        let mut payload = [0; 508];
        let refused = |number| Received {
            number,
            ..Received::default()
        };
        let held = 0xFEDC_BA98_7654_3210;
        for (position, room, number) in [
            (0x0123_4567_89AB_CDEF, 507, 5),
            (u64::MAX - 9, 507, 5),
            (u64::MAX - 9, 508, 12),
        ] {
            let receiver = Receiver { held, position };
            let to = &mut payload[..room];
            let answer = library::receive(receiver, &mut memory, &STREAM[12..], to);
            let expected = (refused(number), receiver);
            self.expect("vbus_receive, refused", answer, expected)?;
            let reset = Receiver { held: 0, position };
            self.expect("vbus_reset", library::reset(receiver), reset)?;
        }
        Ok(())
    }

    fn small_answers(&mut self) -> Checked<()> {
        let mut wrong = STREAM;
        wrong[21] ^= 1;
        let fault = Validation {
            verdict: 6,
            offset: 21,
            unused_septets: 0,
        };
        self.expect("vbus_validate", library::validate(&wrong), fault)?;
        // Both septets with unused bits, 09 as 19 and 02 as 62.
        let mut unused = STREAM;
        unused[14..16].copy_from_slice(&[0x19, 0x60]);
        unused[20..22].copy_from_slice(&[0x62, 0x07]);
        let whole = Validation {
            verdict: 0,
            offset: 22,
            unused_septets: 2,
        };
        self.expect("vbus_validate", library::validate(&unused), whole)?;
        let value = library::value(&[0x11, 0x22, 0x84, 0x73, 0x62, 0xF1]);
        self.expect("vbus_value", value, -0x0E9D_8C7C)?;
        let temperature = library::temperature(&[0x84, 0xF1]);
        self.expect("vbus_temperature", temperature, -0x0E7C)?;
        self.expect("vbus_checksum", library::checksum(&STREAM[1..9]), 0x14)
    }

    fn septets_by_value(&mut self) -> Checked<()> {
        let block = [0x81, 0x02, 0x83, 0x84, 0x05, 0x99, 0x99];
        let septets = Septets {
            number: 0,
            bytes: [0x01, 0x02, 0x03, 0x04, 0x05, 0, 0],
            length: 5,
            septet: 0x0D,
        };
        self.expect("vbus_extract", library::extract(block, 5), septets)?;
        let back = Septets {
            number: 0,
            bytes: [0x81, 0x02, 0x83, 0x84, 0x05, 0, 0],
            length: 5,
            septet: 0,
        };
        let put = library::inject([0x01, 0x02, 0x03, 0x04, 0x05, 0x66, 0x99], 5, 0x0D);
        self.expect("vbus_inject", put, back)
    }

    fn encoded(&mut self) -> Checked<()> {
        let mut out = [0xEE; 24];
        let written = library::encode(HEADER, &PAYLOAD, &mut out);
        let expected = Written {
            number: 0,
            length: 22,
        };
        self.expect("vbus_encode", written, expected)?;
        self.expect("vbus_encode's stream", &out[..22], &STREAM[..])?;
        self.expect("the bytes behind it", &out[22..], &[0xEE; 2][..])
    }

    /// Each field of a header alone decides a refusal, so none is taken for another.
    fn wrong_fields(&mut self) -> Checked<()> {
        for (header, number) in [
            (
                Header {
                    version: 0x11,
                    ..HEADER
                },
                1,
            ),
            (
                Header {
                    destination: 0x9234,
                    ..HEADER
                },
                2,
            ),
            (
                Header {
                    source: 0x56F8,
                    ..HEADER
                },
                2,
            ),
            (
                Header {
                    command: 0x9A2B,
                    ..HEADER
                },
                3,
            ),
        ] {
            let written = library::encode(header, &PAYLOAD, &mut [0; 24]);
            self.expect("a wrong field", written, Written { number, length: 0 })?;
        }
        Ok(())
    }

    fn parts(&mut self) -> Checked<()> {
        let count = |number, count| Count { number, count };
        let part = |number, start, length| Part {
            number,
            start,
            length,
        };
        let answer = library::section_count(BLOCK, &SECTIONS);
        self.expect("vbus_section_count", answer, count(0, 3))?;
        let answer = library::section(BLOCK, &SECTIONS, 2);
        self.expect("vbus_section", answer, part(0, 12, 20))?;
        let answer = library::element_count(BLOCK, &SECTIONS, 2);
        self.expect("vbus_element_count", answer, count(0, 8))?;
        let answer = library::element(BLOCK, &SECTIONS, 2, 5);
        self.expect("vbus_element", answer, part(0, 26, 2))?;
        let answer = library::element(BLOCK, &SECTIONS, 0, 5);
        self.expect("vbus_element", answer, part(11, 0, 0))
    }

    /// The byte of padding in a header may hold anything.
    fn padding(&mut self) -> Checked<()> {
        type ByHeader = unsafe extern "C" fn(vbus_sys::Header, *const u8, usize) -> vbus_sys::Count;
        type ByWord = unsafe extern "C" fn(u64, *const u8, usize) -> vbus_sys::Count;
        // SAFETY: a header of eight bytes is passed in one register, as a u64 is.
        let by_word = unsafe { transmute::<ByHeader, ByWord>(vbus_sys::vbus_section_count) };
        for padding in [0x00, 0x5A, 0x80, 0xFF] {
            let word = u64::from_le_bytes([0x10, padding, 0x15, 0x00, 0x78, 0x56, 0x00, 0x01]);
            // SAFETY: pointer and count are those of an array.
            let answer = unsafe { by_word(word, SECTIONS.as_ptr(), SECTIONS.len()) };
            let answer = (answer.number, answer.count);
            self.expect("a header with padding", answer, (0, 3))?;
        }
        Ok(())
    }

    /// The flag is 0 or 1, as C's and Rust's bool must be.
    fn flag(&mut self) -> Checked<()> {
        type Next =
            unsafe extern "C" fn(*const u8, usize, usize, *mut u8, usize) -> vbus_sys::Found;
        type NextBytes =
            unsafe extern "C" fn(*const u8, usize, usize, *mut u8, usize) -> FoundBytes;
        // SAFETY: the two answers differ only in bool and u8, which have the same size.
        let next = unsafe { transmute::<Next, NextBytes>(vbus_sys::vbus_next) };
        let mut out = [0; 8];
        for (start, room, expected) in [
            (0, 8, (0, 1, 0, 22, 0x1A2B, 8)),
            (1, 8, (0, 0, 0, 0, 0, 0)),
            (0, 7, (5, 0, 0, 0, 0, 0)),
            (23, 8, (6, 0, 0, 0, 0, 0)),
        ] {
            // SAFETY: pointers and counts are those of arrays; `room` is at most the length.
            let answer =
                unsafe { next(STREAM.as_ptr(), STREAM.len(), start, out.as_mut_ptr(), room) };
            let fields = (
                answer.number,
                answer.found,
                answer.position,
                answer.length,
                answer.header.command,
                answer.payload_length,
            );
            self.expect("vbus_next, with the flag as a byte", fields, expected)?;
        }
        Ok(())
    }

    /// All three flags are 0 or 1, with a wrong checksum, another wrong byte, an end, and no fault.
    fn fault_flags(&mut self) -> Checked<()> {
        type NextFault = unsafe extern "C" fn(*const u8, usize, usize) -> vbus_sys::Fault;
        type NextFaultBytes = unsafe extern "C" fn(*const u8, usize, usize) -> FaultBytes;
        // SAFETY: the two answers differ only in bool and u8, which have the same size.
        let next = unsafe { transmute::<NextFault, NextFaultBytes>(vbus_sys::vbus_next_fault) };
        let bytes = |flags: [u8; 3], verdict, offset, byte, wanted| FaultBytes {
            found: flags[0],
            place: 0,
            verdict,
            offset,
            has_byte: flags[1],
            byte,
            has_wanted: flags[2],
            wanted,
        };
        for (at, byte, n, expected) in [
            (9, 0x15, 22, bytes([1, 1, 1], 4, 9, 0x15, 0x14)),
            (5, 0x11, 22, bytes([1, 1, 0], 3, 5, 0x11, 0)),
            (5, 0x10, 20, bytes([1, 0, 0], 7, 20, 0, 0)),
            (5, 0x10, 22, bytes([0, 0, 0], 0, 0, 0, 0)),
        ] {
            let mut input = STREAM;
            input[at] = byte;
            // SAFETY: `n` is at most the array's length.
            let answer = unsafe { next(input.as_ptr(), n, 0) };
            self.expect("vbus_next_fault, with the flags as bytes", answer, expected)?;
        }
        Ok(())
    }

    fn received_flag(&mut self) -> Checked<()> {
        // SAFETY: a bool and a u8 have the same size, and a struct of two numbers of 64 bits is passed
        // in two registers, as these are by themselves.
        let receive = unsafe { transmute::<Receive, ReceiveBytes>(vbus_sys::vbus_receive) };
        let mut memory = [0; 772];
        memory[..12].copy_from_slice(&STREAM[..12]);
        let rest = &STREAM[12..];
        let mut out = [0; 508];
        let (start, limit) = (0x0123_4567_89AB_CDE0, u64::MAX);
        for (position, n, room, expected) in [
            (start, 9, 507, (5, 0, 0, 0, 0, 0, 0, 12, start)),
            (limit, 1, 508, (12, 0, 0, 0, 0, 0, 0, 12, limit)),
            (start, 0, 508, (0, 0, 0, 0, 0, 0, 0, 12, start)),
            (
                start,
                10,
                508,
                (0, 1, 10, start - 12, 22, 0x1A2B, 8, 0, start + 10),
            ),
        ] {
            let (chunk, to) = (rest.as_ptr(), out.as_mut_ptr());
            // SAFETY: pointers and counts are those of arrays; `n` and `room` are at most their lengths.
            let answer = unsafe { receive(12, position, &mut memory, chunk, n, to, room) };
            let fields = (
                answer.number,
                answer.found,
                answer.used,
                answer.position,
                answer.length,
                answer.header.command,
                answer.payload_length,
                answer.held,
                answer.end,
            );
            self.expect("vbus_receive, with the flag as a byte", fields, expected)?;
        }
        Ok(())
    }

    fn slave_offsets(&mut self) -> Checked<()> {
        let offsets = [
            offset_of!(vbus_sys::SlaveId, number),
            offset_of!(vbus_sys::SlaveId, product),
            offset_of!(vbus_sys::SlaveId, device),
            offset_of!(vbus_sys::SlaveId, week),
            offset_of!(vbus_sys::SlaveId, serial),
        ];
        self.expect("offsets of SlaveId on x86-64", offsets, [0, 4, 8, 12, 16])?;
        let offsets = [
            offset_of!(vbus_sys::SlaveFound, number),
            offset_of!(vbus_sys::SlaveFound, product),
            offset_of!(vbus_sys::SlaveFound, device),
        ];
        self.expect("offsets of SlaveFound on x86-64", offsets, [0, 4, 8])?;
        let offsets = [
            offset_of!(vbus_sys::Slave, address),
            offset_of!(vbus_sys::Slave, owner),
            offset_of!(vbus_sys::Slave, product),
            offset_of!(vbus_sys::Slave, device),
        ];
        self.expect("offsets of Slave on x86-64", offsets, [0, 2, 4, 8])?;
        let offsets = [
            offset_of!(vbus_sys::Figures, no),
            offset_of!(vbus_sys::Figures, yes),
            offset_of!(vbus_sys::Figures, lowest),
            offset_of!(vbus_sys::SlaveKept, number),
            offset_of!(vbus_sys::SlaveKept, figures),
            offset_of!(vbus_sys::FiguresChecked, number),
            offset_of!(vbus_sys::FiguresChecked, right),
        ];
        let expected = [0, 1, 2, 0, 4, 0, 4];
        self.expect("offsets of figures on x86-64", offsets, expected)?;
        let offsets = [
            offset_of!(Entry, address),
            offset_of!(Entry, owner),
            offset_of!(Entry, product),
            offset_of!(Entry, device),
        ];
        let what = "offsets of an entry of these tests";
        self.expect(what, offsets, [0, 2, 4, 8])
    }

    fn slave_ids(&mut self) -> Checked<()> {
        let header = Header {
            version: 0x30,
            destination: 0x1234,
            source: 0x5678,
            command: 0x23,
        };
        let payload = [0xC1, 0xB2, 0xA3, 0xD4, 0xE5, 0xF7, 0x00];
        let id = SlaveId {
            number: 0,
            product: 0xA3_B2C1,
            device: 0xF7_E5D4,
            week: 0x7B,
            serial: 0x1_E5D4,
        };
        let read = library::read_slave_id(header, &payload);
        self.expect("vbus_read_slave_id", read, id)?;
        let refused = SlaveId {
            number: 18,
            ..SlaveId::default()
        };
        let read = library::read_slave_id(HEADER, &payload);
        self.expect("vbus_read_slave_id of a packet", read, refused)?;
        let mut out = [0xEE; 19];
        let written = library::write_slave_id(0x1234, 0x5678, id.product, id.device, &mut out);
        let expected = Written {
            number: 0,
            length: 17,
        };
        self.expect("vbus_write_slave_id", written, expected)?;
        self.expect("vbus_write_slave_id's stream", &out[..17], &SLAVE_ID[..])?;
        self.expect("the bytes behind it", &out[17..], &[0xEE; 2][..])
    }

    fn slaves(&mut self) -> Checked<()> {
        for owner in [false, true] {
            self.slaves_of(Slave { owner, ..SLAVE })?;
        }
        Ok(())
    }

    /// Every call of an owner on an empty table, and what its neighbour sees of it.
    fn slaves_of(&mut self, slave: Slave) -> Checked<()> {
        let Slave { address, owner, .. } = slave;
        let mut table = [Entry::new(Slave::default(), 0x5A); 32];
        let empty = Figures::default();
        let kept = |number, figures| SlaveKept { number, figures };
        let one = Figures {
            no: u8::from(!owner),
            yes: u8::from(owner),
            lowest: 1,
        };
        let entered = library::slave_enter(&mut table, empty, slave);
        self.expect("vbus_slave_enter", entered, kept(0, one))?;
        self.expect("vbus_slave_enter's entry", table[0].slave(), slave)?;
        let byte = u8::from(owner);
        self.expect("its owner as a byte", table[0].owner, byte)?;
        let found = library::slave_find(&table, owner, address);
        let expected = SlaveFound {
            number: 0,
            product: slave.product,
            device: slave.device,
        };
        self.expect("vbus_slave_find", found, expected)?;
        let absent = SlaveFound {
            number: 17,
            ..SlaveFound::default()
        };
        let found = library::slave_find(&table, owner, 0x2346);
        self.expect("vbus_slave_find of another", found, absent)?;
        let found = library::slave_find(&table, !owner, address);
        self.expect("vbus_slave_find by the neighbour", found, absent)?;
        let changed = library::slave_change_address(&mut table, !owner, address, 0x2F67);
        self.expect("vbus_slave_change_address by it", changed, 17)?;
        let changed = library::slave_change_address(&mut table, owner, address, 0x2F67);
        self.expect("vbus_slave_change_address", changed, 0)?;
        let elsewhere = Slave {
            address: 0x2F67,
            ..slave
        };
        self.expect("its entry", table[0].slave(), elsewhere)?;
        self.expect("its owner as a byte", table[0].owner, byte)?;
        let refused = kept(17, one);
        let removed = library::slave_remove(&mut table, one, owner, address);
        self.expect("vbus_slave_remove of the old address", removed, refused)?;
        let removed = library::slave_remove(&mut table, one, !owner, 0x2F67);
        self.expect("vbus_slave_remove by the neighbour", removed, refused)?;
        let removed = library::slave_remove(&mut table, one, owner, 0x2F67);
        self.expect("vbus_slave_remove", removed, kept(0, empty))?;
        self.expect("its entry", table[0].slave(), Slave::default())?;
        let free = Entry::new(Slave::default(), 0x5A);
        self.expect("all other entries", &table[1..], &[free; 31][..])
    }

    /// Figures with another value in each field, kept and checked.
    fn figures_by_value(&mut self) -> Checked<()> {
        // Five of the one owner, three of the other, and a free entry behind two of them.
        let mut table = [Entry::new(Slave::default(), 0x5A); 32];
        for index in [0, 1, 3, 4, 5, 6, 7, 8] {
            let slave = Slave {
                address: 0x2100 + index as u16,
                owner: index >= 6,
                ..SLAVE
            };
            table[index] = Entry::new(slave, 0xA5);
        }
        let figures = |no, yes, lowest| Figures { no, yes, lowest };
        let kept = |number, figures| SlaveKept { number, figures };
        let checked = |number, right| FiguresChecked { number, right };
        for (given, right) in [
            (figures(5, 3, 2), true),
            (figures(3, 5, 2), false),
            (figures(2, 3, 5), false),
            (figures(5, 2, 3), false),
        ] {
            let answer = library::slave_check_figures(&table, given);
            self.expect("vbus_slave_check_figures", answer, checked(0, right))?;
            let answer = library::slave_check_figures(&table[..31], given);
            self.expect("vbus_slave_check_figures of 31", answer, checked(24, false))?;
        }
        let after = kept(0, figures(5, 4, 9));
        let entered = library::slave_enter(&mut table, figures(5, 3, 2), SLAVE);
        self.expect("vbus_slave_enter", entered, after)?;
        let after = kept(0, figures(4, 4, 3));
        let removed = library::slave_remove(&mut table, figures(5, 4, 9), false, 0x2103);
        self.expect("vbus_slave_remove", removed, after)?;
        let odd = figures(0x12, 0x34, 0xF6);
        let refused = library::slave_enter(&mut table, odd, SLAVE);
        self.expect("vbus_slave_enter, refused", refused, kept(15, odd))?;
        let refused = library::slave_remove(&mut table, odd, true, 0x2103);
        self.expect("vbus_slave_remove, refused", refused, kept(17, odd))?;
        let refused = library::slave_enter(&mut table[..31], odd, SLAVE);
        self.expect("vbus_slave_enter into 31", refused, kept(24, odd))?;
        let refused = library::slave_remove(&mut table[..31], odd, true, 0x2345);
        self.expect("vbus_slave_remove from 31", refused, kept(24, odd))
    }

    /// Nothing is read of a table with another length: here it isn't there, and lengths have 32 as their
    /// low byte, word or half.
    fn no_table(&mut self) -> Checked<()> {
        let figures = Figures {
            no: 0x12,
            yes: 0x34,
            lowest: 0xF6,
        };
        let (number, right) = (24, false);
        let refused = SlaveKept { number, figures };
        let expected = ([refused; 2], [number; 2], FiguresChecked { number, right });
        let lengths = [1 << 8, 1 << 16, 1 << 32].map(|more| 32 + more);
        for n in [0, 1, 31, 33, 32 * 12, usize::MAX]
            .into_iter()
            .chain(lengths)
        {
            let answers = library::without_table(n, figures, SLAVE);
            self.expect("calls on no table", answers, expected)?;
        }
        Ok(())
    }

    /// The padding of an entry that is handed over may hold anything, and so may the upper part of a
    /// register that has figures, an owner, an address or an identifier.
    fn slave_by_registers(&mut self) -> Checked<()> {
        for owner in [false, true] {
            for padding in [0, 0x5A, 0x80, 0xFF] {
                self.slave_with_padding(Slave { owner, ..SLAVE }, padding)?;
            }
        }
        Ok(())
    }

    fn slave_with_padding(&mut self, slave: Slave, padding: u8) -> Checked<()> {
        let calls = by_words();
        let mut table = [vbus_sys::Slave::default(); 32];
        let upper = u64::from_le_bytes([padding; 8]) << 32;
        let [owner, address] = [u64::from(slave.owner), u64::from(slave.address)];
        let first = address | owner << 16 | u64::from(padding) << 24;
        let first = first | u64::from(slave.product) << 32;
        let second = u64::from(slave.device) | upper;
        let own = [1 - owner, owner].map(|held| held as u8);
        let [none, one] = [[0; 2], own].map(|[no, yes]| {
            let bytes = [
                no,
                yes,
                no | yes,
                padding,
                padding,
                padding,
                padding,
                padding,
            ];
            u64::from_le_bytes(bytes)
        });
        // SAFETY: pointer and count are those of an array.
        let answer = unsafe { (calls.enter)(table.as_mut_ptr(), 32, none, first, second) };
        let after = (0, [own[0], own[1], 1]);
        self.expect("vbus_slave_enter with padding", kept_bytes(answer), after)?;
        self.expect("the entry entered", table[0], library::slave(slave))?;
        // The flag is 0 or 1, as C's and Rust's bool must be.
        for (figures, n, expected) in [(one, 32, [0, 1]), (none, 32, [0, 0]), (one, 31, [24, 0])] {
            // SAFETY: as above; `n` is at most the array's length.
            let answer = unsafe { (calls.check_figures)(table.as_ptr(), n, figures) };
            let flag = answer.to_le_bytes()[4];
            let answer = [answer as u32, flag.into()];
            self.expect("vbus_slave_check_figures with padding", answer, expected)?;
        }
        let [owner, from, to] = [owner, address, 0x2F67].map(|word| word | upper);
        // SAFETY: as above.
        let found = unsafe { (calls.find)(table.as_ptr(), 32, owner, from) };
        let found = (found.number, found.product, found.device);
        let expected = (0, slave.product, slave.device);
        self.expect("vbus_slave_find with padding", found, expected)?;
        // SAFETY: as above.
        let number = unsafe { (calls.change_address)(table.as_mut_ptr(), 32, owner, from, to) };
        self.expect("vbus_slave_change_address with padding", number, 0)?;
        self.expect("the address changed", table[0].address, 0x2F67)?;
        // SAFETY: as above.
        let answer = unsafe { (calls.remove)(table.as_mut_ptr(), 32, one, owner, to) };
        let after = (0, [0; 3]);
        self.expect("vbus_slave_remove with padding", kept_bytes(answer), after)?;
        let free = vbus_sys::Slave::default();
        self.expect("the entry removed", table[0], free)
    }

    fn sender_offsets(&mut self) -> Checked<()> {
        let offsets = [
            offset_of!(vbus_sys::SenderSettings, max_energy),
            offset_of!(vbus_sys::SenderSettings, loss_per_byte),
            offset_of!(vbus_sys::SenderSettings, gain_per_microsecond),
            offset_of!(vbus_sys::Sender, settings),
            offset_of!(vbus_sys::Sender, energy),
            offset_of!(vbus_sys::Sender, queued),
            offset_of!(vbus_sys::Sender, sent),
            offset_of!(vbus_sys::Sent, number),
            offset_of!(vbus_sys::Sent, length),
            offset_of!(vbus_sys::Sent, sender),
        ];
        let expected = [0, 4, 8, 0, 12, 16, 24, 0, 8, 16];
        self.expect("offsets of a sender on x86-64", offsets, expected)
    }

    /// Senders with another value in each field, worked out by hand.
    fn senders_by_value(&mut self) -> Checked<()> {
        let mut queue = [0xDD; 772];
        let mut out = [0xEE; 8];
        let full = Sender {
            settings: SETTINGS,
            energy: 0xFEDC_BA97,
            queued: 0,
            sent: 0,
        };
        let started = library::sender_start(SETTINGS);
        self.expect("vbus_sender_start", started, sent(0, 0, full))?;
        let loaded = Sender { queued: 8, ..full };
        let enqueued = library::sender_enqueue(full, &mut queue, &PAYLOAD);
        self.expect("vbus_sender_enqueue", enqueued, sent(0, 0, loaded))?;
        self.expect("the queue", &queue[..9], &[&PAYLOAD[..], &[0xDD]].concat())?;
        let some = Sender { sent: 3, ..loaded };
        let waiting = Sender {
            energy: 0x1357_9BDF,
            sent: 7,
            ..some
        };
        let answer = library::sender_transmit(some, &queue, &mut out);
        self.expect("vbus_sender_transmit", answer, sent(0, 4, waiting))?;
        let portion = [0x83, 0x44, 0xF5, 0x66, 0xEE, 0xEE, 0xEE, 0xEE];
        self.expect("the portion", out, portion)?;
        self.waiting_sender_by_value(waiting)?;
        self.wrong_settings_by_value()?;
        self.refused_senders_by_value()
    }

    fn waiting_sender_by_value(&mut self, waiting: Sender) -> Checked<()> {
        let later = Sender {
            energy: 0x155A_9DE2,
            ..waiting
        };
        let waited = library::sender_wait(waiting, 0x1_0001);
        self.expect("vbus_sender_wait", waited, sent(0, 0, later))?;
        // All bits of the time are taken, and of a sender that comes back.
        let waited = library::sender_wait(waiting, 1 << 32);
        let again = Sender {
            energy: 0xFEDC_BA97,
            ..waiting
        };
        self.expect("vbus_sender_wait for long", waited, sent(0, 0, again))
    }

    fn wrong_settings_by_value(&mut self) -> Checked<()> {
        let (mut queue, mut out) = ([0xDD; 772], [0xEE; 4]);
        let settings = SenderSettings {
            loss_per_byte: 0xFEDC_BA98,
            ..SETTINGS
        };
        let sender = Sender { settings, ..ODD };
        let nothing = sent(19, 0, Sender::default());
        let started = library::sender_start(settings);
        self.expect("vbus_sender_start, refused", started, nothing)?;
        for answer in [
            library::sender_enqueue(sender, &mut queue, &PAYLOAD),
            library::sender_transmit(sender, &queue, &mut out),
            library::sender_wait(sender, 1),
        ] {
            self.expect("a refused sender", answer, sent(19, 0, sender))?;
        }
        Ok(())
    }

    fn refused_senders_by_value(&mut self) -> Checked<()> {
        let (mut queue, mut out) = ([0xDD; 772], [0xEE; 4]);
        let waiting = ODD;
        let answer = library::sender_enqueue(waiting, &mut queue, &PAYLOAD);
        let busy = sent(20, 0, waiting);
        self.expect("vbus_sender_enqueue, refused", answer, busy)?;
        let full = Sender {
            energy: u32::MAX,
            ..waiting
        };
        let answer = library::sender_enqueue(full, &mut queue, &[0; 773]);
        self.expect("vbus_sender_enqueue of 773", answer, sent(25, 0, full))?;
        let some = Sender { sent: 769, ..full };
        let answer = library::sender_transmit(some, &queue, &mut out[..2]);
        self.expect("vbus_sender_transmit, refused", answer, sent(5, 0, some))?;
        let energies = [waiting, full].map(library::sender_energy);
        let expected = [0x89AB_CDEF, 0xFEDC_BA97];
        self.expect("vbus_sender_energy", energies, expected)
    }

    /// The upper part of the register that has the gain may hold anything. Whether a sender is idle is 0
    /// or 1, as C's and Rust's bool must be.
    fn sender_by_registers(&mut self) -> Checked<()> {
        type BySettings = unsafe extern "C" fn(vbus_sys::SenderSettings) -> vbus_sys::Sent;
        type ByWords = unsafe extern "C" fn(u64, u64) -> vbus_sys::Sent;
        type IsIdle = unsafe extern "C" fn(vbus_sys::Sender) -> bool;
        type IsIdleByte = unsafe extern "C" fn(vbus_sys::Sender) -> u8;
        // SAFETY: twelve bytes are passed in two registers, as two numbers of 64 bits are; a bool and a u8
        // have the same size.
        let (start, is_idle) = unsafe {
            (
                transmute::<BySettings, ByWords>(vbus_sys::vbus_sender_start),
                transmute::<IsIdle, IsIdleByte>(vbus_sys::vbus_sender_is_idle),
            )
        };
        for upper in [0, 1, 0x5A5A_5A5A, 0x8000_0000, 0xFFFF_FFFF] {
            for (loss, gain, number) in [(3, 2, 0), (3, 0, 19), (11, 2, 19)] {
                // SAFETY: it takes no pointer.
                let answer = unsafe { start(10 | loss << 32, gain | upper << 32) };
                self.expect("vbus_sender_start, padded", answer.number, number)?;
                let kept = answer.sender.settings.gain_per_microsecond;
                let expected = if number == 0 { gain as u32 } else { 0 };
                self.expect("its gain", kept, expected)?;
            }
        }
        for (energy, queued, idle) in [(10, 0, 1), (9, 0, 0), (10, 1, 0), (9, 1 << 32, 0)] {
            let settings = SenderSettings {
                max_energy: 10,
                ..SenderSettings::default()
            };
            let sender = Sender {
                settings,
                energy,
                queued,
                sent: 0,
            };
            // SAFETY: it takes no pointer.
            let answer = unsafe { is_idle(library::sender(sender)) };
            self.expect("vbus_sender_is_idle as a byte", answer, idle)?;
        }
        Ok(())
    }

    /// No bytes and no room need no pointer; counts have all their bits.
    fn sender_counts(&mut self) -> Checked<()> {
        let full = library::sender_start(SETTINGS).sender;
        self.counts_queued(full)?;
        self.room_for_portions(full)
    }

    fn counts_queued(&mut self, full: Sender) -> Checked<()> {
        let mut queue = [0xDD; 772];
        let idle = library::sender(full);
        let from = PAYLOAD.as_ptr();
        for (bytes, n, number) in [
            (null(), 0, 0),
            (from, 5 + (1 << 32), 25),
            (from, usize::MAX, 25),
        ] {
            // SAFETY: without bytes none is read, and none if there are more than the queue takes.
            let answer = unsafe { vbus_sys::vbus_sender_enqueue(idle, &mut queue, bytes, n) };
            let answer = (library::sent(answer).sender, answer.number, queue);
            self.expect(
                "vbus_sender_enqueue of no bytes, and of many",
                answer,
                (full, number, [0xDD; 772]),
            )?;
        }
        Ok(())
    }

    fn room_for_portions(&mut self, full: Sender) -> Checked<()> {
        let (queue, mut out) = ([0xDD; 772], [0xEE; 772]);
        let loaded = Sender { queued: 3, ..full };
        let [idle, busy] = [full, loaded].map(library::sender);
        let to = out.as_mut_ptr();
        for (out, room, answer) in [
            (null_mut(), 0, (5, 0)),
            (to, 2 + (1 << 32), (0, 3)),
            (to, usize::MAX, (0, 3)),
        ] {
            // SAFETY: without room nothing is written; else only the three bytes are.
            let sent = unsafe { vbus_sys::vbus_sender_transmit(busy, &queue, out, room) };
            self.expect(
                "vbus_sender_transmit to no room, and to much",
                (sent.number, sent.length),
                answer,
            )?;
        }
        // SAFETY: as above, with nothing to be handed out.
        let sent = unsafe { vbus_sys::vbus_sender_transmit(idle, &queue, null_mut(), 0) };
        self.expect(
            "vbus_sender_transmit of nothing",
            (sent.number, sent.length),
            (0, 0),
        )
    }
}
