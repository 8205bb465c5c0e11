//! The archive's exports on slices. The functions only split these into pointer and count, and are
//! inlined.

use std::hint::black_box;

#[inline(always)]
pub fn checksum(block: &[u8]) -> u8 {
    // SAFETY: pointer and count are those of a slice.
    unsafe { vbus_sys::vbus_checksum(block.as_ptr(), block.len()) }
}

#[inline(always)]
pub fn validate(input: &[u8]) -> vbus_sys::Validation {
    // SAFETY: pointer and count are those of a slice.
    unsafe { vbus_sys::vbus_validate(input.as_ptr(), input.len()) }
}

#[inline(always)]
pub fn next(input: &[u8], start: usize, payload: &mut [u8]) -> vbus_sys::Found {
    let (pointer, room) = (payload.as_mut_ptr(), payload.len());
    // SAFETY: pointers and counts are those of slices that do not overlap.
    unsafe { vbus_sys::vbus_next(input.as_ptr(), input.len(), start, pointer, room) }
}

#[inline(always)]
pub fn next_fault(input: &[u8], start: usize) -> vbus_sys::Fault {
    // SAFETY: pointer and count are those of a slice.
    unsafe { vbus_sys::vbus_next_fault(input.as_ptr(), input.len(), start) }
}

#[inline(always)]
pub fn encode(header: reference::Header, payload: &[u8], out: &mut [u8]) -> vbus_sys::Written {
    let header = vbus_sys::Header {
        version: header.version,
        destination: header.destination,
        source: header.source,
        command: header.command,
    };
    let (pointer, room) = (out.as_mut_ptr(), out.len());
    // SAFETY: pointers and counts are those of slices that do not overlap.
    unsafe { vbus_sys::vbus_encode(header, payload.as_ptr(), payload.len(), pointer, room) }
}

#[inline(always)]
pub fn normalize(input: &[u8], out: &mut [u8]) -> vbus_sys::Written {
    let (pointer, room) = (out.as_mut_ptr(), out.len());
    // SAFETY: pointers and counts are those of slices that do not overlap.
    unsafe { vbus_sys::vbus_normalize(input.as_ptr(), input.len(), pointer, room) }
}

/// A receiver and its memory, which lies elsewhere, as in a C program: so the compiler can keep the
/// receiver in registers.
pub struct Receiver<'m> {
    state: vbus_sys::Receiver,
    memory: &'m mut [u8; 772],
}

impl<'m> Receiver<'m> {
    /// A fresh one.
    #[inline(always)]
    pub fn new(memory: &'m mut [u8; 772]) -> Receiver<'m> {
        Receiver {
            state: vbus_sys::Receiver::default(),
            memory,
        }
    }
}

#[inline(always)]
pub fn receive(
    receiver: &mut Receiver<'_>,
    chunk: &[u8],
    payload: &mut [u8],
) -> vbus_sys::Received {
    let Receiver { state, memory } = receiver;
    let (pointer, room) = (payload.as_mut_ptr(), payload.len());
    // SAFETY: pointers and counts are those of slices and of an array that do not overlap.
    let answer = unsafe {
        vbus_sys::vbus_receive(*state, *memory, chunk.as_ptr(), chunk.len(), pointer, room)
    };
    *state = answer.receiver;
    answer
}

/// The same where the receiver lies in memory, as in a struct that is lent from call to call.
#[inline(always)]
pub fn receive_in_memory(
    receiver: &mut Receiver<'_>,
    chunk: &[u8],
    payload: &mut [u8],
) -> vbus_sys::Received {
    receive(black_box(receiver), chunk, payload)
}

#[inline(always)]
pub fn slave_enter(
    table: &mut [vbus_sys::Slave],
    figures: vbus_sys::Figures,
    slave: vbus_sys::Slave,
) -> vbus_sys::SlaveKept {
    // SAFETY: pointer and count are those of a slice.
    unsafe { vbus_sys::vbus_slave_enter(table.as_mut_ptr(), table.len(), figures, slave) }
}

#[inline(always)]
pub fn slave_find(
    table: &mut [vbus_sys::Slave],
    owner: bool,
    address: u16,
) -> vbus_sys::SlaveFound {
    // SAFETY: pointer and count are those of a slice.
    unsafe { vbus_sys::vbus_slave_find(table.as_ptr(), table.len(), owner, address) }
}

#[inline(always)]
pub fn slave_change_address(table: &mut [vbus_sys::Slave], owner: bool, from: u16, to: u16) -> u32 {
    let (pointer, n) = (table.as_mut_ptr(), table.len());
    // SAFETY: pointer and count are those of a slice.
    unsafe { vbus_sys::vbus_slave_change_address(pointer, n, owner, from, to) }
}

#[inline(always)]
pub fn slave_remove(
    table: &mut [vbus_sys::Slave],
    figures: vbus_sys::Figures,
    owner: bool,
    address: u16,
) -> vbus_sys::SlaveKept {
    let (pointer, n) = (table.as_mut_ptr(), table.len());
    // SAFETY: pointer and count are those of a slice.
    unsafe { vbus_sys::vbus_slave_remove(pointer, n, figures, owner, address) }
}

#[inline(always)]
pub fn slave_check_figures(
    table: &mut [vbus_sys::Slave],
    figures: vbus_sys::Figures,
) -> vbus_sys::FiguresChecked {
    // SAFETY: pointer and count are those of a slice.
    unsafe { vbus_sys::vbus_slave_check_figures(table.as_ptr(), table.len(), figures) }
}

#[inline(always)]
pub fn sender_enqueue(
    sender: vbus_sys::Sender,
    queue: &mut [u8; 772],
    bytes: &[u8],
) -> vbus_sys::Sent {
    // SAFETY: pointer and count are those of a slice; the array doesn't overlap it.
    unsafe { vbus_sys::vbus_sender_enqueue(sender, queue, bytes.as_ptr(), bytes.len()) }
}

#[inline(always)]
pub fn sender_transmit(
    sender: vbus_sys::Sender,
    queue: &[u8; 772],
    out: &mut [u8],
) -> vbus_sys::Sent {
    // SAFETY: pointer and count are those of a slice; the array doesn't overlap it.
    unsafe { vbus_sys::vbus_sender_transmit(sender, queue, out.as_mut_ptr(), out.len()) }
}

#[inline(always)]
pub fn sender_wait(sender: vbus_sys::Sender, microseconds: u64) -> vbus_sys::Sent {
    // SAFETY: it takes no pointer.
    unsafe { vbus_sys::vbus_sender_wait(sender, microseconds) }
}

#[inline(always)]
pub fn sender_is_idle(sender: vbus_sys::Sender) -> bool {
    // SAFETY: it takes no pointer.
    unsafe { vbus_sys::vbus_sender_is_idle(sender) }
}
