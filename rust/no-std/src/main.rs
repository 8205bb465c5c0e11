//! Uses the library without std and without a heap, as firmware does.
//!
//! It has a panic handler of its own, which rustc refuses if vbus refers to std, and no allocator,
//! which rustc asks for if vbus refers to alloc. Exit status 0: every answer is the expected one;
//! otherwise it aborts.

#![no_std]
#![no_main]

use core::fmt::{self, Write};
use core::panic::PanicInfo;

use vbus::{Error, Figures, Header, Kind, Receiver, Sender, SenderSettings, Slave, SlaveTable};

/// A telegram without a frame, behind the start of a stream that was cut off.
const RECORDING: [u8; 11] = [
    0xAA, 0x10, 0x20, 0xAA, 0x10, 0x20, 0x31, 0x77, 0x30, 0x01, 0x76,
];

// For the start-up code that calls main, and for memcpy and the like.
#[link(name = "c")]
extern "C" {
    fn abort() -> !;
}

#[panic_handler]
fn panic(_: &PanicInfo) -> ! {
    // SAFETY: it may be called at any time.
    unsafe { abort() }
}

/// Named by the tables of core, which was compiled to unwind; never called.
#[no_mangle]
pub extern "C" fn rust_eh_personality() {}

#[no_mangle]
pub extern "C" fn main() -> i32 {
    reading();
    receiving();
    writing();
    septets();
    sections();
    slaves();
    sending();
    0
}

fn reading() {
    let mut buffer = [0; vbus::MAX_PAYLOAD];
    let found = vbus::next(&RECORDING, 0, &mut buffer).unwrap().unwrap();
    assert_eq!((found.position, found.length), (3, 8));
    assert_eq!(found.header.kind(), Some(Kind::Telegram));
    assert_eq!(Line::of(found).text(), "T 2010 7731 30 01");
    let error = vbus::next(&RECORDING, 12, &mut buffer).unwrap_err();
    let error: &dyn core::error::Error = &error;
    let text = "the starting place lies past the input's end";
    assert_eq!(Line::of(error).text(), text);
    let whole = vbus::validate(&RECORDING[3..]).unwrap();
    assert_eq!((whole.length, whole.unused_septets), (8, 0));
    let fault = vbus::validate(&RECORDING).unwrap_err();
    let fault: &dyn core::error::Error = &fault;
    let text = "at offset 3: a later byte is 0x80 or more";
    assert_eq!(Line::of(fault).text(), text);
    let mut faults = vbus::faults(&RECORDING);
    let text = "0 V2 3 AA cut off by a new stream";
    assert_eq!(Line::of(faults.next().unwrap()).text(), text);
    assert_eq!(faults.next(), None);
}

fn receiving() {
    let start = u64::MAX - 22;
    let mut receiver = Receiver::at(start);
    let (first, second) = RECORDING.split_at(5);
    assert_eq!(receiver.receive(first).unwrap().record, None);
    assert_eq!(receiver.held(), &RECORDING[3..5]);
    let received = receiver.receive(second).unwrap();
    assert_eq!(received.used, second.len());
    let record = received.record.unwrap();
    assert_eq!((record.position, record.length), (start + 3, 8));
    assert_eq!(Line::of(record).text(), "T 2010 7731 30 01");
    assert_eq!(receiver.receive(first).unwrap().record, None);
    receiver.reset();
    assert_eq!(receiver.position(), start + 16);
    assert_eq!(receiver.receive(second).unwrap().record, None);
    assert_eq!(receiver.receive(&[0]), Err(Error::PositionOverflow));
}

fn writing() {
    let mut out = [0; vbus::MAX_STREAM];
    let header = Header::telegram(0x2010, 0x7731, 0x01);
    assert_eq!(vbus::encode(header, &[], &mut out), Ok(8));
    assert_eq!(out[..8], RECORDING[3..]);
    assert_eq!(vbus::normalize(&RECORDING, &mut out), Ok(8));
    let refused = vbus::normalize(&RECORDING, &mut out[..7]);
    assert_eq!(refused, Err(Error::OutputTooShort));
    assert_eq!(vbus::value(&[0x34, 0x12, 0xFE, 0xFF, 0xFF, 0xFF]), -2);
    assert_eq!(vbus::parameter(&[0x34, 0x12, 0, 0, 0, 0]), 0x1234);
}

fn septets() {
    let mut block = [0xE8, 0x03, 0xF4, 0x01];
    assert_eq!(vbus::extract(&mut block), Ok(0x05));
    assert_eq!(vbus::checksum(&block), 0x1F);
    assert_eq!(vbus::inject(&mut block, 0x05), Ok(()));
    assert_eq!(block, [0xE8, 0x03, 0xF4, 0x01]);
}

fn sections() {
    let header = Header::packet(0x0015, 0x7E21, 0x0100);
    let payload = [1, 0x01, 0, 0, 0xEE, 0x02, 0xFF, 0xFF];
    let mut sections = vbus::sections(header, &payload).unwrap();
    let section = sections.next().unwrap();
    assert_eq!(section.element(1), Ok(&payload[6..]));
    assert!(section.temperatures().unwrap().eq([750, -1]));
    assert_eq!(vbus::temperature(&[0xEE, 0x02]), 750);
    assert!(sections.next().is_none());
}

fn slaves() {
    static EMPTY: SlaveTable = SlaveTable::new();
    let header = Header::telegram(0x7731, 0x2010, 0x23);
    let payload = [0x38, 0x90, 0x0D, 0xB6, 0xC6, 0x23, 0x00];
    let id = vbus::read_slave_id(header, &payload).unwrap();
    assert_eq!((id.week, id.serial), (17, 116_406));
    let mut out = [0; 17];
    let written = vbus::write_slave_id(0x7731, 0x2010, id.identifiers(), &mut out);
    assert_eq!(written, vbus::encode(header, &payload, &mut [0; 17]));
    assert_eq!((out[0], out[16]), (0xAA, 0x71));

    let mut table = EMPTY.clone();
    let (product, device) = (id.product, id.device);
    let slave = |owner, address| Slave {
        address,
        owner,
        product,
        device,
    };
    for owner in [false, true] {
        table.enter(slave(owner, 0x2010)).unwrap();
        let again = table.enter(slave(owner, 0x2010));
        assert_eq!(again, Err(Error::AddressTaken));
        let everyone = table.enter(slave(owner, 0x2000));
        assert_eq!(everyone, Err(Error::NotSlaveAddress));
    }
    let one_each = Figures {
        no: 1,
        yes: 1,
        lowest: 2,
    };
    assert_eq!(table.figures(), one_each);
    table.change_address(true, 0x2010, 0x2011).unwrap();
    assert_eq!(table.find(true, 0x2011), Ok(id.identifiers()));
    assert_eq!(table.find(false, 0x2010), Ok(id.identifiers()));
    let both = [slave(false, 0x2010), slave(true, 0x2011)];
    assert!(table.slaves().eq(both));
    let (entries, figures) = table.clone().into_parts();
    assert_eq!(figures, one_each);
    assert_eq!(SlaveTable::from_parts(entries, Figures::default()), None);
    assert_eq!(SlaveTable::from_parts(entries, figures), Some(table));
    let mut table = SlaveTable::from(entries);
    table.remove(true, 0x2011).unwrap();
    let error = table.find(true, 0x2010).unwrap_err();
    let text = "the owner has no entry with that address";
    assert_eq!(Line::of(error).text(), text);
    table.remove(false, 0x2010).unwrap();
    assert_eq!(table, EMPTY);
    shares(slave);
}

/// An owner gets so many entries, its neighbour those that are left.
fn shares(slave: impl Fn(bool, u16) -> Slave) {
    let mut table = SlaveTable::new();
    let shares = [
        (true, vbus::SLAVES_PER_OWNER),
        (false, vbus::SLAVES - vbus::SLAVES_PER_OWNER),
    ];
    for (owner, share) in shares {
        let mut addresses = (0x2100..0x2180).step_by(4);
        for address in addresses.by_ref().take(share) {
            table.enter(slave(owner, address)).unwrap();
        }
        let address = addresses.next().unwrap();
        let error = table.enter(slave(owner, address)).unwrap_err();
        let text = "the owner holds 24 entries or more, or no entry of the table is free";
        assert_eq!(Line::of(error).text(), text);
    }
}

fn sending() {
    let settings = SenderSettings {
        max_energy: 10,
        loss_per_byte: 3,
        gain_per_microsecond: 2,
    };
    let mut sender = Sender::new(settings).unwrap();
    assert_eq!(sender.settings(), settings);
    sender.enqueue(&RECORDING[4..]).unwrap();
    for (sent, unsent, energy, microseconds) in
        [(4..7, 7, 1, 5), (7..10, 10, 1, 5), (10..11, 11, 7, 2)]
    {
        assert_eq!(sender.transmit(), &RECORDING[sent]);
        assert_eq!(sender.unsent(), &RECORDING[unsent..]);
        assert_eq!(sender.energy(), energy);
        assert_eq!(sender.microseconds_to_full(), microseconds);
        sender.wait(microseconds - 1);
        assert!(sender.transmit().is_empty());
        let refused = sender.enqueue(&[]).unwrap_err();
        let text = "the sender is not idle: it has bytes to send, or waits";
        assert_eq!(Line::of(refused).text(), text);
        sender.wait(1);
    }
    assert!(sender.is_idle());
    let long = [0; vbus::MAX_STREAM + 1];
    assert_eq!(sender.enqueue(&long), Err(Error::QueueTooLong));

    let mut off = Sender::new(SenderSettings::OFF).unwrap();
    off.enqueue(&RECORDING).unwrap();
    assert_eq!(off.transmit(), RECORDING);
    assert!(off.is_idle());
    let gain_per_microsecond = 0;
    let wrong = SenderSettings {
        gain_per_microsecond,
        ..settings
    };
    assert_eq!(Sender::new(wrong).unwrap_err(), Error::WrongSettings);
}

/// A line of text without a heap.
struct Line {
    bytes: [u8; 80],
    length: usize,
}

impl Line {
    fn of(shown: impl fmt::Display) -> Line {
        let (bytes, length) = ([0; 80], 0);
        let mut line = Line { bytes, length };
        write!(line, "{shown}").unwrap();
        line
    }

    fn text(&self) -> &str {
        core::str::from_utf8(&self.bytes[..self.length]).unwrap()
    }
}

impl Write for Line {
    fn write_str(&mut self, text: &str) -> fmt::Result {
        let end = self.length + text.len();
        let room = self.bytes.get_mut(self.length..end).ok_or(fmt::Error)?;
        room.copy_from_slice(text.as_bytes());
        self.length = end;
        Ok(())
    }
}
