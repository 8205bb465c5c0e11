//! What a record has besides its payload, and its line of a listing.

use core::fmt;

const PACKET: u8 = 0x10;
const DATAGRAM: u8 = 0x20;
const TELEGRAM: u8 = 0x30;
const TELEGRAM_31: u8 = 0x31;

/// Everything of a record but its payload.
///
/// The constructors check nothing: [`encode`](crate::encode) refuses what no stream carries.
#[derive(Clone, Copy, PartialEq, Eq, Hash, Debug, Default)]
pub struct Header {
    /// 0x10 for a packet, 0x20 for a datagram, 0x30 or 0x31 for a telegram.
    pub version: u8,
    /// The address of the receiver.
    pub destination: u16,
    /// The address of the sender.
    pub source: u16,
    /// What is asked or told. A telegram's is one byte, and its bits 5 and 6 are the number of frames.
    pub command: u16,
}

/// The kinds of records.
#[derive(Clone, Copy, PartialEq, Eq, Hash, Debug)]
pub enum Kind {
    /// Up to 127 frames of four bytes; version 1.0.
    Packet,
    /// A parameter and a value; version 2.0.
    Datagram,
    /// Up to three frames of seven bytes; version 3.0 or 3.1.
    Telegram,
}

impl Header {
    /// A packet's header.
    ///
    /// ```
    /// let header = vbus::Header::packet(0x0010, 0x7E21, 0x0100);
    /// assert_eq!(header.kind(), Some(vbus::Kind::Packet));
    /// assert_eq!((header.destination, header.source, header.command), (0x0010, 0x7E21, 0x0100));
    /// ```
    pub const fn packet(destination: u16, source: u16, command: u16) -> Header {
        Header {
            version: PACKET,
            destination,
            source,
            command,
        }
    }

    /// A datagram's header.
    ///
    /// ```
    /// let header = vbus::Header::datagram(0x0020, 0x1911, 0x0100);
    /// assert_eq!(header.kind(), Some(vbus::Kind::Datagram));
    /// ```
    pub const fn datagram(destination: u16, source: u16, command: u16) -> Header {
        Header {
            version: DATAGRAM,
            destination,
            source,
            command,
        }
    }

    /// The header of a telegram of version 3.0.
    ///
    /// ```
    /// let header = vbus::Header::telegram(0x7731, 0x2010, 0x23);
    /// assert_eq!(header.kind(), Some(vbus::Kind::Telegram));
    /// assert_eq!(header.version, 0x30);
    /// ```
    pub const fn telegram(destination: u16, source: u16, command: u8) -> Header {
        Header {
            version: TELEGRAM,
            destination,
            source,
            command: command as u16,
        }
    }

    /// The header of a telegram of version 3.1.
    ///
    /// ```
    /// let header = vbus::Header::telegram_31(0x7731, 0x2010, 0x23);
    /// assert_eq!(header.kind(), Some(vbus::Kind::Telegram));
    /// assert_eq!(header.version, 0x31);
    /// ```
    pub const fn telegram_31(destination: u16, source: u16, command: u8) -> Header {
        Header {
            version: TELEGRAM_31,
            ..Header::telegram(destination, source, command)
        }
    }

    /// The kind of record, or `None` if the version is unknown.
    ///
    /// ```
    /// let header = vbus::Header { version: 0x11, ..vbus::Header::packet(0x0010, 0x7E21, 0x0100) };
    /// assert_eq!(header.kind(), None);
    /// ```
    pub const fn kind(&self) -> Option<Kind> {
        match self.version {
            PACKET => Some(Kind::Packet),
            DATAGRAM => Some(Kind::Datagram),
            TELEGRAM | TELEGRAM_31 => Some(Kind::Telegram),
            _ => None,
        }
    }

    pub(crate) fn to_sys(self) -> vbus_sys::Header {
        vbus_sys::Header {
            version: self.version,
            destination: self.destination,
            source: self.source,
            command: self.command,
        }
    }

    pub(crate) fn from_sys(header: vbus_sys::Header) -> Header {
        Header {
            version: header.version,
            destination: header.destination,
            source: header.source,
            command: header.command,
        }
    }
}

/// The payload of a datagram, if the record is one and has its six bytes.
pub(crate) fn datagram_payload(header: Header, payload: &[u8]) -> Option<&[u8; 6]> {
    match header.kind() {
        Some(Kind::Datagram) => payload.try_into().ok(),
        _ => None,
    }
}

/// Writes a record as its line of a listing, without the newline.
pub(crate) fn write_line(
    f: &mut fmt::Formatter<'_>,
    header: Header,
    payload: &[u8],
) -> fmt::Result {
    let letter = match header.kind() {
        Some(Kind::Packet) => 'P',
        Some(Kind::Datagram) => 'D',
        Some(Kind::Telegram) => 'T',
        None => '?',
    };
    // A telegram's command is one byte; a header that no stream has may hold more.
    let digits = match header.kind() {
        Some(Kind::Telegram) if header.command <= 0xFF => 2,
        _ => 4,
    };
    write!(
        f,
        "{letter} {:04X} {:04X} {:02X} {:0digits$X}",
        header.destination, header.source, header.version, header.command
    )?;
    if !payload.is_empty() {
        f.write_str(" ")?;
    }
    payload.iter().try_for_each(|byte| write!(f, "{byte:02X}"))
}
