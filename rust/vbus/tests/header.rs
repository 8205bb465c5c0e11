//! The numbers and names of this crate against a table of their own, and against `include/vbus.h`.

use std::collections::BTreeSet;
use std::fmt::Debug;
use std::fs;

use vbus::{Error, Header, Verdict};

/// Numbers, each with its name in C's spelling.
type Names = BTreeSet<(u32, String)>;

/// What the header gives numbers to.
#[derive(PartialEq)]
enum Group {
    Refusals,
    Verdicts,
    /// The only ones in hexadecimal.
    Versions,
}

/// The text of `include/vbus.h` without its comments.
fn header() -> String {
    let path = concat!(env!("CARGO_MANIFEST_DIR"), "/../../include/vbus.h");
    let text = fs::read_to_string(path).expect("include/vbus.h can be read");
    let mut parts = text.split("/*");
    let code = parts.next().unwrap_or("").to_string();
    parts.fold(code, |code, part| {
        code + part.split_once("*/").map_or("", |(_, behind)| behind)
    })
}

/// The header's enumerators of a group: `VBUS_NAME = number` between commas and braces.
fn enumerators(group: Group) -> Names {
    header()
        .split([',', '{', '}'])
        .filter_map(|part| part.split_once('='))
        .map(|(name, number)| (name.trim(), number.trim()))
        .filter(|(name, number)| name.starts_with("VBUS_") && group == group_of(name, number))
        .map(|(name, number)| (value(number), name.to_string()))
        .collect()
}

fn group_of(name: &str, number: &str) -> Group {
    match number.strip_prefix("0x") {
        Some(_) => Group::Versions,
        None if name.starts_with("VBUS_VERDICT_") => Group::Verdicts,
        None => Group::Refusals,
    }
}

fn value(number: &str) -> u32 {
    match number.strip_prefix("0x") {
        Some(digits) => u32::from_str_radix(digits, 16),
        None => number.parse(),
    }
    .unwrap_or_else(|_| panic!("`{number}` is a number"))
}

/// `HighByte` as `PREFIX_HIGH_BYTE`.
fn in_c(prefix: &str, variant: impl Debug) -> String {
    let mut name = prefix.to_string();
    for letter in format!("{variant:?}").chars() {
        if letter.is_uppercase() {
            name.push('_');
        }
        name.push(letter.to_ascii_uppercase());
    }
    name
}

/// The refusals have these numbers, and there are no others.
#[test]
fn numbers_of_refusals() {
    let errors = [
        (1, Error::UnknownVersion),
        (2, Error::HighAddress),
        (3, Error::HighCommand),
        (4, Error::WrongLength),
        (5, Error::OutputTooShort),
        (6, Error::StartPastEnd),
        (7, Error::WrongSeptetBlock),
        (8, Error::NotBlockPacket),
        (9, Error::SectionPastEnd),
        (10, Error::NoSuchPart),
        (11, Error::UnknownSectionType),
        (12, Error::PositionOverflow),
        (13, Error::PartialElement),
        (14, Error::NotSlaveAddress),
        (15, Error::AddressTaken),
        (16, Error::TableFull),
        (17, Error::NoSuchAddress),
        (18, Error::NotSlaveId),
        (19, Error::WrongSettings),
        (20, Error::SenderBusy),
        (24, Error::WrongTableLength),
        (25, Error::QueueTooLong),
    ];
    assert_eq!(Error::ALL, errors.map(|(_, error)| error));
    for (number, error) in errors {
        assert_eq!(error.number(), number);
        assert_eq!(Error::from_number(number), Some(error));
    }
    for number in [0, 21, 22, 23, 26] {
        assert_eq!(Error::from_number(number), None);
    }
}

/// The verdicts have these numbers, and there are no others: 5 is no longer given.
#[test]
fn numbers_of_verdicts() {
    let verdicts = [
        (1, Verdict::NoSync),
        (2, Verdict::HighByte),
        (3, Verdict::UnknownVersion),
        (4, Verdict::HeaderChecksum),
        (6, Verdict::FrameChecksum),
        (7, Verdict::Ended),
    ];
    assert_eq!(Verdict::ALL, verdicts.map(|(_, verdict)| verdict));
    for (number, verdict) in verdicts {
        assert_eq!(verdict.number(), number);
        assert_eq!(Verdict::from_number(number), Some(verdict));
    }
    assert_eq!(Verdict::from_number(0), None);
    assert_eq!(Verdict::from_number(5), None);
    assert_eq!(Verdict::from_number(8), None);
}

#[test]
fn refusals_are_those_of_the_header() {
    let errors: Names = Error::ALL
        .iter()
        .map(|error| (error.number(), in_c("VBUS", error)))
        .collect();
    assert_eq!(errors, enumerators(Group::Refusals));
}

#[test]
fn verdicts_are_those_of_the_header() {
    let mut verdicts: Names = Verdict::ALL
        .iter()
        .map(|verdict| (verdict.number().into(), in_c("VBUS_VERDICT", verdict)))
        .collect();
    // A whole stream isn't a fault, so this crate has no variant for it.
    verdicts.insert((0, "VBUS_VERDICT_WHOLE".to_string()));
    assert_eq!(verdicts, enumerators(Group::Verdicts));
}

#[test]
fn versions_are_those_of_the_header() {
    let versions = [
        ("VBUS_PACKET", Header::packet(0, 0, 0)),
        ("VBUS_DATAGRAM", Header::datagram(0, 0, 0)),
        ("VBUS_TELEGRAM", Header::telegram(0, 0, 0)),
        ("VBUS_TELEGRAM_31", Header::telegram_31(0, 0, 0)),
    ];
    let versions: Names = versions
        .map(|(name, header)| (header.version.into(), name.to_string()))
        .into();
    assert_eq!(versions, enumerators(Group::Versions));
}

#[test]
fn definitions_are_those_of_the_header() {
    let text = header();
    // The word behind the name in the line that defines it.
    let defined = |name: &str| {
        text.lines()
            .filter_map(|line| line.strip_prefix("#define")?.trim().strip_prefix(name))
            .find(|behind| behind.starts_with(' '))
            .map_or("not defined", str::trim)
    };
    let version = [
        defined("VBUS_VERSION_MAJOR"),
        defined("VBUS_VERSION_MINOR"),
        defined("VBUS_VERSION_PATCH"),
    ];
    assert_eq!(version.join("."), env!("CARGO_PKG_VERSION"));
    assert_eq!(defined("VBUS_MAX_PAYLOAD"), vbus::MAX_PAYLOAD.to_string());
    assert_eq!(defined("VBUS_MAX_STREAM"), vbus::MAX_STREAM.to_string());
    assert_eq!(defined("VBUS_SLAVES"), vbus::SLAVES.to_string());
    let per_owner = vbus::SLAVES_PER_OWNER.to_string();
    assert_eq!(defined("VBUS_SLAVES_PER_OWNER"), per_owner);
}

/// The words that begin with `vbus_` and stand before a parenthesis.
fn functions(text: &str) -> BTreeSet<String> {
    let is_name = |c: char| c.is_alphanumeric() || c == '_';
    text.split('(')
        .filter_map(|before| before.rsplit(|c| !is_name(c)).next())
        .filter(|word| word.starts_with("vbus_"))
        .map(str::to_string)
        .collect()
}

#[test]
fn functions_are_those_of_the_header() {
    let path = concat!(env!("CARGO_MANIFEST_DIR"), "/../vbus-sys/src/lib.rs");
    let declarations = fs::read_to_string(path).expect("rust/vbus-sys can be read");
    assert_eq!(functions(&declarations), functions(&header()));
    assert!(functions(&declarations).len() >= 28);
}
