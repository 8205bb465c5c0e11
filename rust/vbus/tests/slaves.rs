//! The slave ID response, and the table of slaves; there without the feature `std` too.

mod samples;

use samples::{D1, P1, T2};
use vbus::*;

const ID: Identifiers = Identifiers {
    product: 888_888,
    device: 17 * 131_072 + 116_406,
};

/// The owner of the tests that aren't about owners; the other one is `!OWNER`.
const OWNER: bool = true;

fn slave_of(owner: bool, address: u16) -> Slave {
    Slave {
        address,
        owner,
        product: u32::from(address) + 1,
        device: 2 * u32::from(address) + u32::from(owner),
    }
}

fn slave(address: u16) -> Slave {
    slave_of(OWNER, address)
}

/// The address of the slave number `number`, each with a group of its own.
fn address(number: usize) -> u16 {
    [0x2010, 0x2100][number / 7 % 2] + 0x10 * (number % 7) as u16 + 0x200 * (number / 14) as u16
}

/// The slaves of a full table: the owner's as many as it may hold, and its neighbour's.
fn slaves() -> [Slave; SLAVES] {
    std::array::from_fn(|number| {
        let owner = if number < SLAVES_PER_OWNER {
            OWNER
        } else {
            !OWNER
        };
        slave_of(owner, address(number))
    })
}

fn full() -> SlaveTable {
    let mut table = SlaveTable::new();
    for slave in slaves() {
        assert_eq!(table.enter(slave), Ok(()));
    }
    table
}

fn entries(table: &SlaveTable) -> [Slave; SLAVES] {
    table.clone().into()
}

/// The call is refused so, and changes nothing.
fn refused(
    table: &mut SlaveTable,
    error: Error,
    call: impl FnOnce(&mut SlaveTable) -> Result<(), Error>,
) {
    let before = table.clone();
    assert_eq!(call(table), Err(error));
    assert_eq!(*table, before);
}

#[test]
fn reading() {
    let mut buffer = [0; MAX_PAYLOAD];
    let found = next(&T2, 0, &mut buffer).unwrap().unwrap();
    let id = found.slave_id().unwrap();
    let expected = SlaveId {
        product: 888_888,
        device: 2_344_630,
        week: 17,
        serial: 116_406,
    };
    assert_eq!(id, expected);
    assert_eq!(id.identifiers(), ID);
    for other in [P1, D1] {
        let found = next(&other, 0, &mut buffer).unwrap().unwrap();
        assert_eq!(found.slave_id(), Err(Error::NotSlaveId));
    }
}

/// Destination, source and the version of a telegram are free, all else isn't.
#[test]
fn what_is_a_response() {
    let payload = [0xFF, 0xFF, 0xFF, 0xFF, 0xFF, 0xFF, 0x00];
    let header = Header::telegram(0x8080, 0xFFFF, 0x23);
    let id = read_slave_id(header, &payload).unwrap();
    assert_eq!((id.product, id.device), (0xFF_FFFF, 0xFF_FFFF));
    assert_eq!((id.week, id.serial), (127, 131_071));
    let other = Header::telegram_31(0, 0, 0x23);
    assert_eq!(read_slave_id(other, &payload), Ok(id));

    let not = |header, payload: &[u8]| {
        assert_eq!(read_slave_id(header, payload), Err(Error::NotSlaveId));
    };
    not(Header::packet(0, 0, 0x23), &payload);
    not(Header::datagram(0, 0, 0x23), &payload);
    not(Header::telegram(0, 0, 0x22), &payload);
    let command = 0x0123;
    not(Header { command, ..header }, &payload);
    not(header, &payload[..6]);
    not(header, &[0; 8]);
    not(header, &[]);
    not(header, &[1, 2, 3, 4, 5, 6, 7]);
}

#[test]
fn writing() {
    let mut out = [0xEE; 18];
    assert_eq!(write_slave_id(0x7731, 0x2010, ID, &mut out), Ok(17));
    assert_eq!(out[..17], T2);
    assert_eq!(out[17], 0xEE);
    out = [0xEE; 18];
    let mut not = |destination, source, identifiers, room, error| {
        let refused = write_slave_id(destination, source, identifiers, &mut out[..room]);
        assert_eq!(refused, Err(error));
        assert_eq!(out, [0xEE; 18]);
    };
    let (product, device) = (1 << 24, u32::MAX);
    let wide = [Identifiers { product, ..ID }, Identifiers { device, ..ID }];
    // What comes later in the order is wrong too.
    not(0x80, 0, wide[0], 0, Error::NotSlaveId);
    not(0, 0x8000, wide[1], 16, Error::NotSlaveId);
    not(0x80, 0, ID, 0, Error::HighAddress);
    not(0, 0x8000, ID, 16, Error::HighAddress);
    not(0x7731, 0x2010, ID, 16, Error::OutputTooShort);
    not(0x7731, 0x2010, ID, 0, Error::OutputTooShort);
}

#[test]
fn entering() {
    let mut table = full();
    let expected = slaves();
    assert_eq!(entries(&table), expected);
    assert!(table.slaves().eq(expected));
    for entry in expected {
        let found = table.find(entry.owner, entry.address);
        assert_eq!(found, Ok(entry.identifiers()));
    }
    // The lowest free entry is taken, whosever it was.
    for index in [20, 3, 31] {
        let Slave { owner, address, .. } = expected[index];
        assert_eq!(table.remove(owner, address), Ok(()));
    }
    for (owner, address, index) in [
        (!OWNER, 0x2F7F, 3),
        (OWNER, 0x201F, 20),
        (OWNER, 0x207F, 31),
    ] {
        assert_eq!(table.enter(slave_of(owner, address)), Ok(()));
        assert_eq!(entries(&table)[index], slave_of(owner, address));
    }
    refused(&mut table, Error::TableFull, |table| {
        table.enter(slave(0x2F70))
    });
}

#[test]
fn order_when_entering() {
    let wide = |address| Slave {
        product: 1 << 24,
        ..slave(address)
    };
    // Also an address that no slave has can stand in a table that was brought in.
    let mut brought = slaves();
    brought[5].address = 0x2005;
    let mut table = SlaveTable::from(brought);
    refused(&mut table, Error::NotSlaveAddress, |table| {
        table.enter(wide(0x2005))
    });
    refused(&mut table, Error::NotSlaveId, |table| {
        table.enter(wide(0x2010))
    });
    refused(&mut table, Error::AddressTaken, |table| {
        table.enter(slave(0x2010))
    });
    refused(&mut table, Error::TableFull, |table| {
        table.enter(slave(0x2F70))
    });
}

/// 0x2000 is for all slaves, up to 0x200F there is none; bits 7 and 15 are always 0.
#[test]
fn addresses_of_slaves() {
    let slaves = (0..=u16::MAX).filter(|&address| {
        let entered = SlaveTable::new().enter(slave(address));
        assert!(entered.is_ok() || entered == Err(Error::NotSlaveAddress));
        entered.is_ok()
    });
    let groups = (0x20..0x30u16).flat_map(|high| (0..8).map(move |low| high << 8 | low << 4));
    let expected = groups
        .filter(|group| *group != 0x2000)
        .flat_map(|group| group..group + 0x10);
    assert!(slaves.eq(expected));
}

#[test]
fn changing_an_address() {
    let mut table = full();
    let mut expected = slaves();
    let (from, taken) = (expected[7].address, expected[9].address);
    refused(&mut table, Error::NotSlaveAddress, |table| {
        table.change_address(OWNER, 0x2F70, 0x2000)
    });
    refused(&mut table, Error::NoSuchAddress, |table| {
        table.change_address(OWNER, 0x2F70, taken)
    });
    refused(&mut table, Error::NoSuchAddress, |table| {
        table.change_address(OWNER, 0, 0x2F70)
    });
    refused(&mut table, Error::AddressTaken, |table| {
        table.change_address(OWNER, from, taken)
    });
    assert_eq!(table.change_address(OWNER, from, from), Ok(()));
    assert_eq!(entries(&table), expected);
    assert_eq!(table.change_address(OWNER, from, 0x2F70), Ok(()));
    expected[7].address = 0x2F70;
    assert_eq!(entries(&table), expected);
    assert_eq!(table.find(OWNER, from), Err(Error::NoSuchAddress));
    assert_eq!(table.find(OWNER, 0x2F70), Ok(slave(from).identifiers()));
}

#[test]
fn removing() {
    let mut table = full();
    let mut expected = slaves();
    for address in [0, 0x2F70, 0xFFFF] {
        refused(&mut table, Error::NoSuchAddress, |table| {
            table.remove(OWNER, address)
        });
    }
    let address = expected[12].address;
    assert_eq!(table.remove(OWNER, address), Ok(()));
    expected[12] = Slave::default();
    assert_eq!(entries(&table), expected);
    assert_eq!(table.slaves().count(), SLAVES - 1);
    refused(&mut table, Error::NoSuchAddress, |table| {
        table.remove(OWNER, address)
    });
}

/// A free entry is never found, whatever it has besides its address.
#[test]
fn nothing_is_found_at_address_0() {
    let mut brought = [Slave::default(); SLAVES];
    brought[4] = slave(0);
    let mut table = SlaveTable::from(brought);
    assert_eq!(table.find(OWNER, 0), Err(Error::NoSuchAddress));
    refused(&mut table, Error::NoSuchAddress, |table| {
        table.remove(OWNER, 0)
    });
    assert_eq!(table.slaves().next(), None);
    assert_eq!(
        SlaveTable::default().find(OWNER, 0),
        Err(Error::NoSuchAddress)
    );
}

/// Of an address that stands twice the entry with the lower index counts.
#[test]
fn an_address_twice() {
    let mut brought = [Slave::default(); SLAVES];
    brought[4] = slave(0x2010);
    brought[9] = Slave {
        product: 0xFFFF_FFFF,
        ..slave(0x2010)
    };
    let mut table = SlaveTable::from(brought);
    assert_eq!(table.find(OWNER, 0x2010), Ok(brought[4].identifiers()));
    assert_eq!(table.change_address(OWNER, 0x2010, 0x2011), Ok(()));
    assert_eq!(table.find(OWNER, 0x2011), Ok(brought[4].identifiers()));
    assert_eq!(table.find(OWNER, 0x2010), Ok(brought[9].identifiers()));
    refused(&mut table, Error::AddressTaken, |table| {
        table.change_address(OWNER, 0x2010, 0x2011)
    });
    assert_eq!(table.remove(OWNER, 0x2010), Ok(()));
    assert_eq!(table.find(OWNER, 0x2010), Err(Error::NoSuchAddress));
    assert!(table.slaves().eq([Slave {
        address: 0x2011,
        ..brought[4]
    }]));
}

/// Each owner sees its own slaves alone; of the same address under both, each its own.
#[test]
fn two_owners() {
    let mut table = SlaveTable::new();
    let mut expected = [Slave::default(); SLAVES];
    expected[..4].copy_from_slice(&[
        slave_of(false, 0x2010),
        slave_of(true, 0x2010),
        slave_of(true, 0x2020),
        slave_of(false, 0x2030),
    ]);
    for slave in &expected[..4] {
        assert_eq!(table.enter(*slave), Ok(()));
    }
    assert!(table.slaves().eq(expected[..4].iter().copied()));
    for owner in [false, true] {
        let found = table.find(owner, 0x2010);
        assert_eq!(found, Ok(slave_of(owner, 0x2010).identifiers()));
        refused(&mut table, Error::AddressTaken, |table| {
            table.enter(slave_of(owner, 0x2010))
        });
    }
    assert_eq!(table.find(false, 0x2020), Err(Error::NoSuchAddress));
    refused(&mut table, Error::NoSuchAddress, |table| {
        table.remove(false, 0x2020)
    });
    refused(&mut table, Error::NoSuchAddress, |table| {
        table.change_address(true, 0x2030, 0x2040)
    });
    refused(&mut table, Error::AddressTaken, |table| {
        table.change_address(true, 0x2020, 0x2010)
    });
    assert_eq!(table.change_address(true, 0x2020, 0x2030), Ok(()));
    expected[2].address = 0x2030;
    assert_eq!(table.remove(true, 0x2010), Ok(()));
    expected[1] = Slave::default();
    assert_eq!(entries(&table), expected);
}

/// The 25th of an owner is refused though entries are free, the ninth of its neighbour since none is.
#[test]
fn shares() {
    let mut table = full();
    let mut fresh =
        (0x2F00..0x2F80).map(|address| [slave_of(OWNER, address), slave_of(!OWNER, address)]);
    let mut next = || fresh.next().expect("there are as many addresses");
    for slave in next() {
        refused(&mut table, Error::TableFull, |table| table.enter(slave));
    }
    let neighbours = slaves()[SLAVES_PER_OWNER].address;
    assert_eq!(table.remove(!OWNER, neighbours), Ok(()));
    let [own, others] = next();
    refused(&mut table, Error::TableFull, |table| table.enter(own));
    assert_eq!(table.enter(others), Ok(()));
    assert_eq!(table.remove(OWNER, slaves()[0].address), Ok(()));
    let [own, others] = next();
    assert_eq!(table.enter(others), Ok(()));
    refused(&mut table, Error::TableFull, |table| table.enter(own));
}

/// An owner that was brought in with more than it may hold keeps them. A free entry is nobody's,
/// whatever it says.
#[test]
fn shares_brought_in() {
    for owner in [false, true] {
        let mut brought: [Slave; SLAVES] =
            std::array::from_fn(|number| slave_of(owner, address(number)));
        let mut table = SlaveTable::from(brought);
        assert_eq!(table.slaves().count(), SLAVES);
        for entry in &mut brought[SLAVES_PER_OWNER..] {
            assert_eq!(table.remove(owner, entry.address), Ok(()));
            refused(&mut table, Error::TableFull, |table| {
                table.enter(slave_of(owner, 0x2F70))
            });
            *entry = Slave::default();
        }
        assert_eq!(entries(&table), brought);
        brought[SLAVES_PER_OWNER - 1..].fill(slave_of(owner, 0));
        let mut table = SlaveTable::from(brought);
        assert_eq!(table.slaves().count(), SLAVES_PER_OWNER - 1);
        assert_eq!(table.enter(slave_of(owner, 0x2F70)), Ok(()));
        refused(&mut table, Error::TableFull, |table| {
            table.enter(slave_of(owner, 0x2F71))
        });
        assert_eq!(table.enter(slave_of(!owner, 0x2F71)), Ok(()));
    }
}

const fn figures(no: u8, yes: u8, lowest: u8) -> Figures {
    Figures { no, yes, lowest }
}

/// A table has the figures that counting it gives, whatever was called.
fn counted(table: &SlaveTable) {
    let entries = entries(table);
    let held = |owner| table.slaves().filter(|slave| slave.owner == owner).count() as u8;
    let free = entries.iter().position(|slave| slave.address == 0);
    let lowest = free.unwrap_or(SLAVES) as u8;
    assert_eq!(table.figures(), figures(held(false), held(true), lowest));
    assert_eq!(SlaveTable::from(entries), *table);
}

#[test]
fn figures_from_call_to_call() {
    let mut table = SlaveTable::new();
    assert_eq!(table.figures(), Figures::default());
    for slave in slaves() {
        assert_eq!(table.enter(slave), Ok(()));
        counted(&table);
    }
    assert_eq!(table.figures(), figures(8, 24, 32));
    refused(&mut table, Error::TableFull, |table| {
        table.enter(slave_of(!OWNER, 0x2F70))
    });
    for index in [20, 3, 31, 4] {
        let Slave { owner, address, .. } = slaves()[index];
        assert_eq!(table.remove(owner, address), Ok(()));
        counted(&table);
        refused(&mut table, Error::NoSuchAddress, |table| {
            table.remove(owner, address)
        });
    }
    assert_eq!(table.figures(), figures(7, 21, 3));
    let from = slaves()[0].address;
    assert_eq!(table.change_address(OWNER, from, 0x2F7F), Ok(()));
    counted(&table);
    for (address, after) in [(0x2F70, 4), (0x2F71, 20), (0x2F72, 31)] {
        assert_eq!(table.enter(slave(address)), Ok(()));
        assert_eq!(table.figures().lowest, after);
        counted(&table);
    }
    // The owner's share is used up, though an entry is free.
    refused(&mut table, Error::TableFull, |table| {
        table.enter(slave(0x2F73))
    });
    assert_eq!(table.figures(), figures(7, 24, 31));
}

/// A table is made of its parts alone: of entries and just their figures.
#[test]
fn parts() {
    let mut holes = slaves();
    holes[6] = Slave::default();
    holes[9] = slave(0);
    holes[30].address = 0xFFFF;
    let twice = [slave(0x2010); SLAVES];
    for entries in [[Slave::default(); SLAVES], slaves(), holes, twice] {
        let table = SlaveTable::from(entries);
        counted(&table);
        let (parts, own) = table.clone().into_parts();
        assert_eq!((parts, own), (entries, table.figures()));
        assert_eq!(SlaveTable::from_parts(parts, own), Some(table));
        for value in 0..=255 {
            for false_or_own in [
                figures(value, own.yes, own.lowest),
                figures(own.no, value, own.lowest),
                figures(own.no, own.yes, value),
            ] {
                let made = SlaveTable::from_parts(entries, false_or_own);
                assert_eq!(made.is_some(), false_or_own == own);
            }
        }
    }
    assert_eq!(SlaveTable::from(holes).figures(), figures(8, 22, 6));
    assert_eq!(SlaveTable::from(twice).figures(), figures(0, 32, 32));
}
