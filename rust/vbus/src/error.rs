//! Why a call was refused, and what is wrong with a stream.

use core::error;
use core::fmt;

/// Makes an enum of a table with a line for each number that the library gives: the number, the
/// variant, and what it means, which is both its documentation and its message.
macro_rules! numbered {
    (
        $(#[$about:meta])*
        pub enum $name:ident: $type:ty {
            $($number:literal $variant:ident $meaning:literal;)+
        }
    ) => {
        $(#[$about])*
        #[derive(Clone, Copy, PartialEq, Eq, Hash, Debug)]
        #[non_exhaustive]
        pub enum $name {
            $(
                #[doc = concat!("Number ", $number, ": ", $meaning, ".")]
                $variant = $number,
            )+
        }

        impl $name {
            /// Every variant, by rising number.
            pub const ALL: &'static [$name] = &[$($name::$variant),+];

            /// The library's number for it.
            pub const fn number(self) -> $type {
                self as $type
            }

            /// The variant with that number, if there is one.
            pub const fn from_number(number: $type) -> Option<$name> {
                match number {
                    $($number => Some($name::$variant),)+
                    _ => None,
                }
            }
        }

        impl fmt::Display for $name {
            fn fmt(&self, f: &mut fmt::Formatter<'_>) -> fmt::Result {
                f.write_str(match self {
                    $($name::$variant => $meaning,)+
                })
            }
        }
    };
}

numbered! {
    /// Why the library refused a call.
    ///
    /// A refused call has changed none of its buffers.
    ///
    /// ```
    /// let error = vbus::next(&[], 1, &mut []).unwrap_err();
    /// assert_eq!(error, vbus::Error::StartPastEnd);
    /// assert_eq!(error.number(), 6);
    /// assert_eq!(error.to_string(), "the starting place lies past the input's end");
    /// assert_eq!(vbus::Error::from_number(6), Some(error));
    /// ```
    pub enum Error: u32 {
        1 UnknownVersion "the version is none of 0x10, 0x20, 0x30 and 0x31";
        2 HighAddress "the destination or the source has bit 7 or 15 set";
        3 HighCommand "the command has bit 7 or 15 set, or is above 0x7F in a telegram";
        4 WrongLength "the payload's length does not fit the header";
        5 OutputTooShort "the output is too short for the result";
        6 StartPastEnd "the starting place lies past the input's end";
        7 WrongSeptetBlock "the septet block is longer than seven bytes, or a byte or the septet is 0x80 or more";
        8 NotBlockPacket "the header or the payload's length is not that of a block packet";
        9 SectionPastEnd "a section runs past the payload's end";
        10 NoSuchPart "there is no section or element with that number";
        11 UnknownSectionType "the section's type has no known element size";
        12 PositionOverflow "the chunk would take the position past the largest 64-bit number";
        13 PartialElement "the section ends within an element: it has type 0x0A and an odd number of frames";
        14 NotSlaveAddress "no slave has an address like that: bits 14 to 12 are not 2, bit 7 or 15 is set, or bits 11 to 4 are all 0";
        15 AddressTaken "the owner already has an entry with that address";
        16 TableFull "the owner holds 24 entries or more, or no entry of the table is free";
        17 NoSuchAddress "the owner has no entry with that address";
        18 NotSlaveId "the record is no slave ID response, or an identifier needs more than 24 bits";
        19 WrongSettings "the sender's loss or gain is 0, or its loss is above its largest energy";
        20 SenderBusy "the sender is not idle: it has bytes to send, or waits";
        24 WrongTableLength "the table does not have 32 entries";
        25 QueueTooLong "more than 772 bytes are to be queued";
    }
}

impl error::Error for Error {}

numbered! {
    /// What is wrong with a stream.
    ///
    /// Number 5 is no longer given: it stood for an unused septet bit that is set.
    ///
    /// ```
    /// let verdict = vbus::validate(&[0x00]).unwrap_err().verdict;
    /// assert_eq!(verdict, vbus::Verdict::NoSync);
    /// assert_eq!(verdict.number(), 1);
    /// assert_eq!(verdict.to_string(), "the first byte is not 0xAA");
    /// assert_eq!(vbus::Verdict::from_number(1), Some(verdict));
    /// ```
    pub enum Verdict: u8 {
        1 NoSync "the first byte is not 0xAA";
        2 HighByte "a later byte is 0x80 or more";
        3 UnknownVersion "the version is unknown";
        4 HeaderChecksum "the checksum of a header or of a datagram is wrong";
        6 FrameChecksum "the checksum of a frame is wrong";
        7 Ended "the input ends before the stream does";
    }
}

/// The first fault of a stream, and where it lies.
///
/// ```
/// let fault = vbus::validate(&[0xAA, 0x10, 0x20]).unwrap_err();
/// assert_eq!(fault.to_string(), "at offset 3: the input ends before the stream does");
/// ```
#[derive(Clone, Copy, PartialEq, Eq, Hash, Debug)]
pub struct Fault {
    /// What is wrong.
    pub verdict: Verdict,
    /// The offset of the fault; the input's length if the input ends first.
    pub offset: usize,
}

impl Fault {
    /// A fault as the library gives it.
    pub(crate) fn from_sys(verdict: u8, offset: usize) -> Fault {
        Fault {
            verdict: Verdict::from_number(verdict)
                .expect("libvbus gives only verdicts of the table"),
            offset,
        }
    }
}

impl fmt::Display for Fault {
    fn fmt(&self, f: &mut fmt::Formatter<'_>) -> fmt::Result {
        write!(f, "at offset {}: {}", self.offset, self.verdict)
    }
}

impl error::Error for Fault {}
