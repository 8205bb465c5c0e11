//! The archive's exports with the reference's types, so that answers can be compared.

use reference::{Count, Fault, Found, Header, Part, Received, Septets, Validation, Written};
use reference::{Figures, FiguresChecked, Slave, SlaveFound, SlaveId, SlaveKept};
use reference::{Sender, SenderSettings, Sent};

/// A receiver between two calls, but for its memory.
pub use vbus_sys::Receiver;

/// An answer as the reference's struct of that name. Every field of both is named, so that none
/// can be left out of a comparison.
macro_rules! as_reference {
    ($answer:expr => $name:ident { $($field:ident),+ }) => {{
        let vbus_sys::$name { $($field),+ } = $answer;
        $name { $($field),+ }
    }};
}

pub fn header(header: Header) -> vbus_sys::Header {
    vbus_sys::Header {
        version: header.version,
        destination: header.destination,
        source: header.source,
        command: header.command,
    }
}

pub fn checksum(block: &[u8]) -> u8 {
    // SAFETY: pointer and count are those of a slice.
    unsafe { vbus_sys::vbus_checksum(block.as_ptr(), block.len()) }
}

pub fn extract(bytes: [u8; 7], length: usize) -> Septets {
    // SAFETY: `bytes` is an array of seven bytes.
    let answer = unsafe { vbus_sys::vbus_extract(&bytes, length) };
    as_reference!(answer => Septets { number, bytes, length, septet })
}

pub fn inject(bytes: [u8; 7], length: usize, septet: u8) -> Septets {
    // SAFETY: `bytes` is an array of seven bytes.
    let answer = unsafe { vbus_sys::vbus_inject(&bytes, length, septet) };
    as_reference!(answer => Septets { number, bytes, length, septet })
}

pub fn validate(input: &[u8]) -> Validation {
    // SAFETY: pointer and count are those of a slice.
    let answer = unsafe { vbus_sys::vbus_validate(input.as_ptr(), input.len()) };
    as_reference!(answer => Validation { verdict, offset, unused_septets })
}

pub fn next(input: &[u8], start: usize, payload: &mut [u8]) -> Found {
    let (pointer, room) = (payload.as_mut_ptr(), payload.len());
    // SAFETY: pointers and counts are those of slices that do not overlap.
    let answer = unsafe { vbus_sys::vbus_next(input.as_ptr(), input.len(), start, pointer, room) };
    let vbus_sys::Found {
        number,
        found,
        position,
        length,
        header,
        payload_length,
    } = answer;
    Found {
        number,
        found,
        position,
        length,
        header: as_reference!(header => Header { version, destination, source, command }),
        payload_length,
    }
}

pub fn next_fault(input: &[u8], start: usize) -> Fault {
    // SAFETY: pointer and count are those of a slice.
    let answer = unsafe { vbus_sys::vbus_next_fault(input.as_ptr(), input.len(), start) };
    as_reference!(answer => Fault {
        found, place, verdict, offset, has_byte, byte, has_wanted, wanted
    })
}

/// Also the receiver afterwards. The memory has 772 bytes.
pub fn receive(
    receiver: Receiver,
    memory: &mut [u8],
    chunk: &[u8],
    payload: &mut [u8],
) -> (Received, Receiver) {
    let memory: &mut [u8; 772] = memory.try_into().expect("the memory has 772 bytes");
    let (from, n) = (chunk.as_ptr(), chunk.len());
    let (to, room) = (payload.as_mut_ptr(), payload.len());
    // SAFETY: pointers and counts are those of slices and of an array that do not overlap.
    let answer = unsafe { vbus_sys::vbus_receive(receiver, memory, from, n, to, room) };
    let vbus_sys::Received {
        number,
        found,
        used,
        position,
        length,
        header,
        payload_length,
        receiver,
    } = answer;
    let received = Received {
        number,
        found,
        used,
        position,
        length,
        header: as_reference!(header => Header { version, destination, source, command }),
        payload_length,
    };
    (received, receiver)
}

pub fn reset(receiver: Receiver) -> Receiver {
    // SAFETY: it takes no pointer.
    unsafe { vbus_sys::vbus_reset(receiver) }
}

pub fn encode(head: Header, payload: &[u8], out: &mut [u8]) -> Written {
    let (from, n) = (payload.as_ptr(), payload.len());
    let (to, room) = (out.as_mut_ptr(), out.len());
    // SAFETY: pointers and counts are those of slices that do not overlap.
    let answer = unsafe { vbus_sys::vbus_encode(header(head), from, n, to, room) };
    as_reference!(answer => Written { number, length })
}

pub fn normalize(input: &[u8], out: &mut [u8]) -> Written {
    let (pointer, room) = (out.as_mut_ptr(), out.len());
    // SAFETY: pointers and counts are those of slices that do not overlap.
    let answer = unsafe { vbus_sys::vbus_normalize(input.as_ptr(), input.len(), pointer, room) };
    as_reference!(answer => Written { number, length })
}

pub fn value(payload: &[u8; 6]) -> i32 {
    // SAFETY: `payload` is an array of six bytes.
    unsafe { vbus_sys::vbus_value(payload) }
}

pub fn temperature(bytes: &[u8; 2]) -> i16 {
    // SAFETY: `bytes` is an array of two bytes.
    unsafe { vbus_sys::vbus_temperature(bytes) }
}

pub fn section_count(head: Header, payload: &[u8]) -> Count {
    let (pointer, n) = (payload.as_ptr(), payload.len());
    // SAFETY: pointer and count are those of a slice.
    let answer = unsafe { vbus_sys::vbus_section_count(header(head), pointer, n) };
    as_reference!(answer => Count { number, count })
}

pub fn section(head: Header, payload: &[u8], section: usize) -> Part {
    let (pointer, n) = (payload.as_ptr(), payload.len());
    // SAFETY: pointer and count are those of a slice.
    let answer = unsafe { vbus_sys::vbus_section(header(head), pointer, n, section) };
    as_reference!(answer => Part { number, start, length })
}

pub fn element_count(head: Header, payload: &[u8], section: usize) -> Count {
    let (pointer, n) = (payload.as_ptr(), payload.len());
    // SAFETY: pointer and count are those of a slice.
    let answer = unsafe { vbus_sys::vbus_element_count(header(head), pointer, n, section) };
    as_reference!(answer => Count { number, count })
}

pub fn element(head: Header, payload: &[u8], section: usize, element: usize) -> Part {
    let (pointer, n) = (payload.as_ptr(), payload.len());
    // SAFETY: pointer and count are those of a slice.
    let answer = unsafe { vbus_sys::vbus_element(header(head), pointer, n, section, element) };
    as_reference!(answer => Part { number, start, length })
}

pub fn read_slave_id(head: Header, payload: &[u8]) -> SlaveId {
    let (pointer, n) = (payload.as_ptr(), payload.len());
    // SAFETY: pointer and count are those of a slice.
    let answer = unsafe { vbus_sys::vbus_read_slave_id(header(head), pointer, n) };
    as_reference!(answer => SlaveId { number, product, device, week, serial })
}

pub fn write_slave_id(
    destination: u16,
    source: u16,
    product: u32,
    device: u32,
    out: &mut [u8],
) -> Written {
    let (to, room) = (out.as_mut_ptr(), out.len());
    // SAFETY: pointer and count are those of a slice.
    let answer =
        unsafe { vbus_sys::vbus_write_slave_id(destination, source, product, device, to, room) };
    as_reference!(answer => Written { number, length })
}

/// An entry of a table of slaves as it lies in memory: with the owner as the byte that it is, and the
/// byte behind it, which stands for nothing.
#[repr(C)]
#[derive(Clone, Copy, PartialEq, Eq, Debug)]
pub struct Entry {
    pub address: u16,
    pub owner: u8,
    pub padding: u8,
    pub product: u32,
    pub device: u32,
}

impl Entry {
    pub fn new(slave: Slave, padding: u8) -> Entry {
        Entry {
            address: slave.address,
            owner: u8::from(slave.owner),
            padding,
            product: slave.product,
            device: slave.device,
        }
    }

    pub fn slave(self) -> Slave {
        Slave {
            address: self.address,
            owner: self.owner != 0,
            product: self.product,
            device: self.device,
        }
    }
}

pub fn slave(slave: Slave) -> vbus_sys::Slave {
    vbus_sys::Slave {
        address: slave.address,
        owner: slave.owner,
        product: slave.product,
        device: slave.device,
    }
}

pub fn figures(figures: Figures) -> vbus_sys::Figures {
    vbus_sys::Figures {
        no: figures.no,
        yes: figures.yes,
        lowest: figures.lowest,
    }
}

fn kept(answer: vbus_sys::SlaveKept) -> SlaveKept {
    let vbus_sys::SlaveKept { number, figures } = answer;
    SlaveKept {
        number,
        figures: as_reference!(figures => Figures { no, yes, lowest }),
    }
}

pub fn slave_enter(table: &mut [Entry], given: Figures, entry: Slave) -> SlaveKept {
    let (pointer, n) = (table.as_mut_ptr().cast(), table.len());
    // SAFETY: pointer and count are those of a slice of entries, whose owners are 0 or 1.
    kept(unsafe { vbus_sys::vbus_slave_enter(pointer, n, figures(given), slave(entry)) })
}

pub fn slave_find(table: &[Entry], owner: bool, address: u16) -> SlaveFound {
    let (pointer, n) = (table.as_ptr().cast(), table.len());
    // SAFETY: as above.
    let answer = unsafe { vbus_sys::vbus_slave_find(pointer, n, owner, address) };
    as_reference!(answer => SlaveFound { number, product, device })
}

pub fn slave_change_address(table: &mut [Entry], owner: bool, from: u16, to: u16) -> u32 {
    let (pointer, n) = (table.as_mut_ptr().cast(), table.len());
    // SAFETY: as above.
    unsafe { vbus_sys::vbus_slave_change_address(pointer, n, owner, from, to) }
}

pub fn slave_remove(table: &mut [Entry], given: Figures, owner: bool, address: u16) -> SlaveKept {
    let (pointer, n) = (table.as_mut_ptr().cast(), table.len());
    // SAFETY: as above.
    kept(unsafe { vbus_sys::vbus_slave_remove(pointer, n, figures(given), owner, address) })
}

pub fn slave_check_figures(table: &[Entry], given: Figures) -> FiguresChecked {
    let (pointer, n) = (table.as_ptr().cast(), table.len());
    // SAFETY: as above.
    let answer = unsafe { vbus_sys::vbus_slave_check_figures(pointer, n, figures(given)) };
    as_reference!(answer => FiguresChecked { number, right })
}

/// What all calls on a table answer that has so many entries, not 32, of which none is there: those that
/// keep figures, the numbers of those that don't, and the check.
pub fn without_table(
    n: usize,
    given: Figures,
    entry: Slave,
) -> ([SlaveKept; 2], [u32; 2], FiguresChecked) {
    assert_ne!(n, vbus_sys::SLAVES);
    let (table, from) = (std::ptr::null_mut(), figures(given));
    let Slave { address, owner, .. } = entry;
    // SAFETY: nothing of a table is read or written whose count is another one.
    unsafe {
        let entered = vbus_sys::vbus_slave_enter(table, n, from, slave(entry));
        let removed = vbus_sys::vbus_slave_remove(table, n, from, owner, address);
        let found = vbus_sys::vbus_slave_find(table, n, owner, address);
        let changed = vbus_sys::vbus_slave_change_address(table, n, owner, address, address);
        let checked = vbus_sys::vbus_slave_check_figures(table, n, from);
        (
            [kept(entered), kept(removed)],
            [found.number, changed],
            as_reference!(checked => FiguresChecked { number, right }),
        )
    }
}

pub fn sender_settings(settings: SenderSettings) -> vbus_sys::SenderSettings {
    vbus_sys::SenderSettings {
        max_energy: settings.max_energy,
        loss_per_byte: settings.loss_per_byte,
        gain_per_microsecond: settings.gain_per_microsecond,
    }
}

pub fn sender(sender: Sender) -> vbus_sys::Sender {
    vbus_sys::Sender {
        settings: sender_settings(sender.settings),
        energy: sender.energy,
        queued: sender.queued,
        sent: sender.sent,
    }
}

pub fn sent(answer: vbus_sys::Sent) -> Sent {
    let vbus_sys::Sent {
        number,
        length,
        sender,
    } = answer;
    let vbus_sys::Sender {
        settings,
        energy,
        queued,
        sent,
    } = sender;
    let settings = as_reference!(settings => SenderSettings {
        max_energy, loss_per_byte, gain_per_microsecond
    });
    Sent {
        number,
        length,
        sender: Sender {
            settings,
            energy,
            queued,
            sent,
        },
    }
}

pub fn sender_start(settings: SenderSettings) -> Sent {
    // SAFETY: it takes no pointer.
    sent(unsafe { vbus_sys::vbus_sender_start(sender_settings(settings)) })
}

/// The queue has 772 bytes.
pub fn sender_enqueue(given: Sender, queue: &mut [u8], bytes: &[u8]) -> Sent {
    let queue: &mut [u8; 772] = queue.try_into().expect("the queue has 772 bytes");
    let (from, n) = (bytes.as_ptr(), bytes.len());
    // SAFETY: pointer and count are those of a slice; the array doesn't overlap it.
    sent(unsafe { vbus_sys::vbus_sender_enqueue(sender(given), queue, from, n) })
}

/// The queue has 772 bytes.
pub fn sender_transmit(given: Sender, queue: &[u8], out: &mut [u8]) -> Sent {
    let queue: &[u8; 772] = queue.try_into().expect("the queue has 772 bytes");
    let (to, room) = (out.as_mut_ptr(), out.len());
    // SAFETY: as above.
    sent(unsafe { vbus_sys::vbus_sender_transmit(sender(given), queue, to, room) })
}

pub fn sender_wait(given: Sender, microseconds: u64) -> Sent {
    // SAFETY: it takes no pointer.
    sent(unsafe { vbus_sys::vbus_sender_wait(sender(given), microseconds) })
}

pub fn sender_is_idle(given: Sender) -> bool {
    // SAFETY: it takes no pointer.
    unsafe { vbus_sys::vbus_sender_is_idle(sender(given)) }
}

pub fn sender_energy(given: Sender) -> u32 {
    // SAFETY: it takes no pointer.
    unsafe { vbus_sys::vbus_sender_energy(sender(given)) }
}
