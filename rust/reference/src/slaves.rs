//! The slave ID response, and a table of the slaves of two owners with its figures.

use super::*;

/// A telegram with one frame.
const RESPONSE: u16 = 0x23;

/// How many entries a table has.
const TABLE: usize = 32;

/// How many of them an owner may hold.
const SHARE: usize = 24;

/// The device identifier is the week times this plus the consecutive number.
const WEEK: u32 = 131_072;

#[derive(Clone, Copy, PartialEq, Eq, Debug, Default)]
pub struct SlaveId {
    pub number: u32,
    pub product: u32,
    pub device: u32,
    pub week: u8,
    pub serial: u32,
}

/// An entry of a table; with address 0 it is free, and nobody's.
#[derive(Clone, Copy, PartialEq, Eq, Debug, Default)]
pub struct Slave {
    pub address: u16,
    pub owner: bool,
    pub product: u32,
    pub device: u32,
}

impl Slave {
    fn is_free(&self) -> bool {
        self.address == 0
    }

    fn is_of(&self, owner: bool) -> bool {
        !self.is_free() && self.owner == owner
    }
}

#[derive(Clone, Copy, PartialEq, Eq, Debug, Default)]
pub struct SlaveFound {
    pub number: u32,
    pub product: u32,
    pub device: u32,
}

/// What is kept with a table: how many entries each owner holds, and the index of the lowest free one,
/// 32 if there is none.
#[derive(Clone, Copy, PartialEq, Eq, Debug, Default)]
pub struct Figures {
    pub no: u8,
    pub yes: u8,
    pub lowest: u8,
}

impl Figures {
    /// How many entries an owner holds.
    #[inline]
    fn held(&mut self, owner: bool) -> &mut u8 {
        if owner {
            &mut self.yes
        } else {
            &mut self.no
        }
    }
}

#[derive(Clone, Copy, PartialEq, Eq, Debug, Default)]
pub struct SlaveKept {
    pub number: u32,
    pub figures: Figures,
}

#[derive(Clone, Copy, PartialEq, Eq, Debug, Default)]
pub struct FiguresChecked {
    pub number: u32,
    pub right: bool,
}

/// What a slave ID response tells: both identifiers, and of the device identifier the production week
/// and the consecutive number.
pub fn read_slave_id(header: Header, payload: &[u8]) -> SlaveId {
    let telegram = Kind::of(header.version) == Some(Kind::Telegram);
    match *payload {
        [p0, p1, p2, d0, d1, d2, 0] if telegram && header.command == RESPONSE => {
            let product = u32::from_le_bytes([p0, p1, p2, 0]);
            let device = u32::from_le_bytes([d0, d1, d2, 0]);
            SlaveId {
                number: 0,
                product,
                device,
                week: (device / WEEK) as u8,
                serial: device % WEEK,
            }
        }
        _ => SlaveId {
            number: NOT_A_SLAVE_ID,
            ..SlaveId::default()
        },
    }
}

/// Writes a slave ID response of version 0x30 to the start of `out`.
pub fn write_slave_id(
    destination: u16,
    source: u16,
    product: u32,
    device: u32,
    out: &mut [u8],
) -> Written {
    if too_wide(product, device) {
        return Written {
            number: NOT_A_SLAVE_ID,
            length: 0,
        };
    }
    let header = Header {
        version: 0x30,
        destination,
        source,
        command: RESPONSE,
    };
    let [p0, p1, p2, _] = product.to_le_bytes();
    let [d0, d1, d2, _] = device.to_le_bytes();
    // Of its refusals only the addresses' and the room's can apply.
    encode(header, &[p0, p1, p2, d0, d1, d2, 0], out)
}

/// An identifier needs more than 24 bits.
fn too_wide(product: u32, device: u32) -> bool {
    product >> 24 != 0 || device >> 24 != 0
}

/// Checks an address that an entry shall get: bits 14 to 12 are 2, bits 7 and 15 clear, and bits 4 to
/// 11, the group, not all zero.
fn check_address(address: u16) -> Result<(), u32> {
    let two = address >> 12 & 7 == 2;
    let seven_bit = address & 0x8080 == 0;
    let group = address >> 4 & 0xFF;
    if two && seven_bit && group != 0 {
        Ok(())
    } else {
        Err(NOT_A_SLAVES_ADDRESS)
    }
}

fn check_length(table: &[Slave]) -> Result<(), u32> {
    if table.len() == TABLE {
        Ok(())
    } else {
        Err(BAD_TABLE_LENGTH)
    }
}

/// The index of the owner's lowest entry with an address. A free entry is nobody's: 0 is never found.
#[inline]
fn index_of(table: &[Slave], owner: bool, address: u16) -> Option<usize> {
    table
        .iter()
        .position(|slave| slave.is_of(owner) && slave.address == address)
}

/// The owner has no entry with the address yet.
fn check_unused(table: &[Slave], owner: bool, address: u16) -> Result<(), u32> {
    match index_of(table, owner, address) {
        None => Ok(()),
        Some(_) => Err(ADDRESS_IN_USE),
    }
}

/// The lowest free entry from an index on.
fn free_from(table: &[Slave], start: usize) -> Option<usize> {
    (start..table.len()).find(|index| table[*index].is_free())
}

/// A table's figures, by counting.
pub fn figures_of(table: &[Slave]) -> Figures {
    let held = |owner| table.iter().filter(|slave| slave.is_of(owner)).count() as u8;
    Figures {
        no: held(false),
        yes: held(true),
        lowest: free_from(table, 0).unwrap_or(TABLE) as u8,
    }
}

/// Whether figures are those of the table.
pub fn slave_check_figures(table: &[Slave], figures: Figures) -> FiguresChecked {
    match check_length(table) {
        Ok(()) => FiguresChecked {
            number: 0,
            right: figures == figures_of(table),
        },
        Err(number) => FiguresChecked {
            number,
            right: false,
        },
    }
}

fn number(answer: Result<(), u32>) -> u32 {
    answer.err().unwrap_or(0)
}

/// In a refusal the figures come back as they were.
fn kept(before: Figures, after: Result<Figures, u32>) -> SlaveKept {
    match after {
        Ok(figures) => SlaveKept { number: 0, figures },
        Err(number) => SlaveKept {
            number,
            figures: before,
        },
    }
}

/// Puts a slave into the lowest free entry, for its owner.
pub fn slave_enter(table: &mut [Slave], figures: Figures, slave: Slave) -> SlaveKept {
    kept(figures, enter(table, figures, slave))
}

/// Whatever the figures are, an entry that is taken is free: it is sought from the lowest on. What false
/// ones lead to, here and in removing, document 02 leaves open: this is what the library's header says.
fn enter(table: &mut [Slave], mut figures: Figures, slave: Slave) -> Result<Figures, u32> {
    check_enterable(table, slave)?;
    let held = figures.held(slave.owner);
    if usize::from(*held) >= SHARE {
        return Err(NO_ENTRY_LEFT);
    }
    let index = free_from(table, figures.lowest.into()).ok_or(NO_ENTRY_LEFT)?;
    table[index] = slave;
    *figures.held(slave.owner) += 1;
    figures.lowest = free_from(table, index + 1).unwrap_or(TABLE) as u8;
    Ok(figures)
}

/// All that is checked before 16.
fn check_enterable(table: &[Slave], slave: Slave) -> Result<(), u32> {
    check_length(table)?;
    check_address(slave.address)?;
    if too_wide(slave.product, slave.device) {
        return Err(NOT_A_SLAVE_ID);
    }
    check_unused(table, slave.owner, slave.address)
}

/// The same by counting the table, as it was before figures were kept; the answer is the number.
pub fn slave_enter_counting(table: &mut [Slave], slave: Slave) -> u32 {
    number(enter_counting(table, slave))
}

fn enter_counting(table: &mut [Slave], slave: Slave) -> Result<(), u32> {
    check_enterable(table, slave)?;
    let own = table.iter().filter(|entry| entry.is_of(slave.owner));
    let held = own.count();
    match table.iter().position(Slave::is_free) {
        Some(index) if held < SHARE => {
            table[index] = slave;
            Ok(())
        }
        _ => Err(NO_ENTRY_LEFT),
    }
}

/// The identifiers of the owner's slave with that address.
pub fn slave_find(table: &[Slave], owner: bool, address: u16) -> SlaveFound {
    match find(table, owner, address) {
        Ok(slave) => SlaveFound {
            number: 0,
            product: slave.product,
            device: slave.device,
        },
        Err(number) => SlaveFound {
            number,
            ..SlaveFound::default()
        },
    }
}

fn find(table: &[Slave], owner: bool, address: u16) -> Result<Slave, u32> {
    check_length(table)?;
    let index = index_of(table, owner, address).ok_or(NO_SUCH_ADDRESS)?;
    Ok(table[index])
}

/// Gives a slave of the owner another address, or the one that it has; the answer is the number.
pub fn slave_change_address(table: &mut [Slave], owner: bool, from: u16, to: u16) -> u32 {
    number(change_address(table, owner, from, to))
}

fn change_address(table: &mut [Slave], owner: bool, from: u16, to: u16) -> Result<(), u32> {
    check_length(table)?;
    check_address(to)?;
    let index = index_of(table, owner, from).ok_or(NO_SUCH_ADDRESS)?;
    if to != from {
        check_unused(table, owner, to)?;
        table[index].address = to;
    }
    Ok(())
}

/// Zeroes the entry of the owner's slave with that address.
pub fn slave_remove(table: &mut [Slave], figures: Figures, owner: bool, address: u16) -> SlaveKept {
    kept(figures, remove(table, figures, owner, address))
}

fn remove(
    table: &mut [Slave],
    mut figures: Figures,
    owner: bool,
    address: u16,
) -> Result<Figures, u32> {
    let index = zero(table, owner, address)?;
    let held = figures.held(owner);
    // Figures that aren't true may say that it held none.
    *held = held.saturating_sub(1);
    figures.lowest = figures.lowest.min(index as u8);
    Ok(figures)
}

/// The same without figures, as it was before they were kept; the answer is the number.
pub fn slave_remove_counting(table: &mut [Slave], owner: bool, address: u16) -> u32 {
    number(zero(table, owner, address).map(|_| ()))
}

/// The index of the entry.
fn zero(table: &mut [Slave], owner: bool, address: u16) -> Result<usize, u32> {
    check_length(table)?;
    let index = index_of(table, owner, address).ok_or(NO_SUCH_ADDRESS)?;
    table[index] = Slave::default();
    Ok(index)
}
