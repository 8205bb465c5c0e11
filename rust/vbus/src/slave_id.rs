//! The slave ID response, with which a slave tells who it is.

use crate::{check, Error, Header};

/// What a slave ID response tells. Made by [`read_slave_id`].
#[derive(Clone, Copy, PartialEq, Eq, Hash, Debug)]
pub struct SlaveId {
    /// The product identifier, of 24 bits.
    pub product: u32,
    /// The device identifier, of 24 bits: the week times 131072 plus the serial.
    pub device: u32,
    /// The production week, 0 to 127.
    pub week: u8,
    /// The consecutive number, 0 to 131071.
    pub serial: u32,
}

impl SlaveId {
    /// The identifiers alone, as [`write_slave_id`] takes them and a table of slaves has them.
    pub const fn identifiers(&self) -> Identifiers {
        Identifiers {
            product: self.product,
            device: self.device,
        }
    }
}

/// A slave's identifiers.
///
/// Nothing is checked here: what needs more than 24 bits is refused where it would be written or
/// entered.
#[derive(Clone, Copy, PartialEq, Eq, Hash, Debug, Default)]
pub struct Identifiers {
    /// The product identifier.
    pub product: u32,
    /// The device identifier: the production week, below 128, times 131072 plus the consecutive
    /// number, below 131072.
    pub device: u32,
}

/// Reads the slave ID response that a record is: a telegram with command 0x23 and seven payload bytes,
/// the last of them 0. Destination and source may be any.
///
/// ```
/// let header = vbus::Header::telegram(0x7731, 0x2010, 0x23);
/// let payload = [0x38, 0x90, 0x0D, 0xB6, 0xC6, 0x23, 0x00];
/// let id = vbus::read_slave_id(header, &payload)?;
/// assert_eq!((id.product, id.device), (888_888, 2_344_630));
/// assert_eq!((id.week, id.serial), (17, 116_406));
/// assert_eq!(vbus::read_slave_id(header, &payload[..6]), Err(vbus::Error::NotSlaveId));
/// # Ok::<(), vbus::Error>(())
/// ```
pub fn read_slave_id(header: Header, payload: &[u8]) -> Result<SlaveId, Error> {
    let (pointer, n) = (payload.as_ptr(), payload.len());
    // SAFETY: pointer and count are those of a slice.
    let answer = unsafe { vbus_sys::vbus_read_slave_id(header.to_sys(), pointer, n) };
    check(answer.number)?;
    Ok(SlaveId {
        product: answer.product,
        device: answer.device,
        week: answer.week,
        serial: answer.serial,
    })
}

/// Writes the stream of a slave ID response, a telegram of version 3.0, to the start of `out` and
/// returns its length, 17.
///
/// ```
/// let identifiers = vbus::Identifiers {
///     product: 888_888,
///     device: 17 * 131_072 + 116_406,
/// };
/// let mut out = [0; 17];
/// assert_eq!(vbus::write_slave_id(0x7731, 0x2010, identifiers, &mut out), Ok(17));
/// let stream = [
///     0xAA, 0x31, 0x77, 0x10, 0x20, 0x30, 0x23, 0x54, // header
///     0x38, 0x10, 0x0D, 0x36, 0x46, 0x23, 0x00, 0x1A, 0x71, // frame
/// ];
/// assert_eq!(out, stream);
/// let wide = vbus::Identifiers { product: 1 << 24, ..identifiers };
/// let refused = vbus::write_slave_id(0x7731, 0x2010, wide, &mut out);
/// assert_eq!(refused, Err(vbus::Error::NotSlaveId));
/// ```
pub fn write_slave_id(
    destination: u16,
    source: u16,
    identifiers: Identifiers,
    out: &mut [u8],
) -> Result<usize, Error> {
    let Identifiers { product, device } = identifiers;
    let (to, room) = (out.as_mut_ptr(), out.len());
    // SAFETY: pointer and count are those of a slice that is borrowed mutably.
    let answer =
        unsafe { vbus_sys::vbus_write_slave_id(destination, source, product, device, to, room) };
    check(answer.number)?;
    Ok(answer.length)
}
