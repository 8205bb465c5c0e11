//! A table of the slaves of two owners.

use core::iter::FusedIterator;
use core::slice;

use crate::{check, Error, Identifiers, SLAVES};

/// An entry of a table of slaves. It is free exactly if its address is 0, and nobody's then; the
/// default one is free.
#[derive(Clone, Copy, PartialEq, Eq, Hash, Debug, Default)]
pub struct Slave {
    /// The slave's address: bits 14 to 12 are 2, bits 15 and 7 are 0, and of bits 11 to 4 some is set.
    pub address: u16,
    /// Which of the table's two owners it is of.
    pub owner: bool,
    /// The product identifier, of 24 bits.
    pub product: u32,
    /// The device identifier, of 24 bits.
    pub device: u32,
}

impl Slave {
    /// The identifiers alone.
    pub const fn identifiers(&self) -> Identifiers {
        Identifiers {
            product: self.product,
            device: self.device,
        }
    }

    fn to_sys(self) -> vbus_sys::Slave {
        vbus_sys::Slave {
            address: self.address,
            owner: self.owner,
            product: self.product,
            device: self.device,
        }
    }

    fn from_sys(slave: vbus_sys::Slave) -> Slave {
        Slave {
            address: slave.address,
            owner: slave.owner,
            product: slave.product,
            device: slave.device,
        }
    }
}

/// What is kept with a table of slaves, so that no call counts. The default ones are those of an empty
/// table.
#[derive(Clone, Copy, PartialEq, Eq, Hash, Debug, Default)]
pub struct Figures {
    /// How many entries the owner `false` holds.
    pub no: u8,
    /// How many entries the owner `true` holds.
    pub yes: u8,
    /// The index of the lowest free entry, [`SLAVES`] if none is free.
    pub lowest: u8,
}

impl Figures {
    /// Those of a table, by counting.
    fn of(entries: &[vbus_sys::Slave; SLAVES]) -> Figures {
        let mut figures = Figures {
            lowest: SLAVES as u8,
            ..Figures::default()
        };
        for (index, entry) in entries.iter().enumerate().rev() {
            match (entry.address, entry.owner) {
                (0, _) => figures.lowest = index as u8,
                (_, false) => figures.no += 1,
                (_, true) => figures.yes += 1,
            }
        }
        figures
    }

    const fn to_sys(self) -> vbus_sys::Figures {
        vbus_sys::Figures {
            no: self.no,
            yes: self.yes,
            lowest: self.lowest,
        }
    }

    const fn from_sys(figures: vbus_sys::Figures) -> Figures {
        Figures {
            no: figures.no,
            yes: figures.yes,
            lowest: figures.lowest,
        }
    }
}

/// A table of at most [`SLAVES`] slaves of two owners, by their addresses.
///
/// The owners are `false` and `true`, such as two plants whose buses end in one box. A call is about
/// one owner and sees that owner's slaves alone; both may have one with the same address. Calls never
/// make an address stand twice under an owner, and a refused call changes nothing.
///
/// ```
/// use vbus::{Error, Slave, SlaveTable};
///
/// // A slave's answer: who it is, and by its source where it is. The bus that it came from has an
/// // owner.
/// let stream = [
///     0xAA, 0x31, 0x77, 0x10, 0x20, 0x30, 0x23, 0x54, // header
///     0x38, 0x10, 0x0D, 0x36, 0x46, 0x23, 0x00, 0x1A, 0x71, // frame
/// ];
/// let mut buffer = [0; vbus::MAX_PAYLOAD];
/// let found = vbus::next(&stream, 0, &mut buffer)?.unwrap();
/// let (address, id) = (found.header.source, found.slave_id()?);
/// let (here, there) = (false, true);
/// let slave = Slave { address, owner: here, product: id.product, device: id.device };
///
/// let mut table = SlaveTable::new();
/// table.enter(slave)?;
/// assert_eq!(table.enter(slave), Err(Error::AddressTaken));
/// table.change_address(here, 0x2010, 0x2011)?;
/// assert_eq!(table.find(here, 0x2011)?, id.identifiers());
/// assert_eq!(table.find(here, 0x2010), Err(Error::NoSuchAddress));
///
/// // The other plant may have a slave with the same address; it sees and removes only its own.
/// assert_eq!(table.find(there, 0x2011), Err(Error::NoSuchAddress));
/// table.enter(Slave { address: 0x2011, owner: there, product: 1, device: 2 })?;
/// table.remove(there, 0x2011)?;
/// assert_eq!(table.find(here, 0x2011)?, id.identifiers());
/// table.remove(here, 0x2011)?;
/// assert_eq!(table, SlaveTable::new());
/// # Ok::<(), vbus::Error>(())
/// ```
///
/// An owner may hold [`SLAVES_PER_OWNER`](crate::SLAVES_PER_OWNER) entries. In a table that was empty
/// and that calls alone have changed, one with fewer than eight is never refused as
/// [`TableFull`](Error::TableFull); whether one with eight to 23 is, is all that depends on the other.
///
/// ```
/// # use vbus::{Error, Slave, SlaveTable, SLAVES, SLAVES_PER_OWNER};
/// let slave = |owner, number: usize| Slave {
///     address: 0x2100 + 0x100 * (number / 16) as u16 + (number % 16) as u16,
///     owner,
///     product: 1,
///     device: number as u32,
/// };
/// let mut table = SlaveTable::new();
/// for number in 0..SLAVES_PER_OWNER {
///     table.enter(slave(false, number))?;
/// }
/// // The 25th, though entries are free.
/// assert_eq!(table.enter(slave(false, 24)), Err(Error::TableFull));
/// for number in 0..SLAVES - SLAVES_PER_OWNER {
///     table.enter(slave(true, number))?;
/// }
/// // The ninth: no entry is free until one of either owner is removed.
/// assert_eq!(table.enter(slave(true, 8)), Err(Error::TableFull));
/// table.remove(false, slave(false, 23).address)?;
/// table.enter(slave(true, 8))?;
/// # Ok::<(), vbus::Error>(())
/// ```
///
/// It needs no heap, and [`SlaveTable::new`] is `const`, so that it can be part of a `static`.
///
/// With its entries it keeps its [`Figures`], so that no call counts. They are always true: just what
/// counting the entries gives. Made into its parts, and of them, a table can be kept elsewhere, such as
/// in flash. [`from_parts`](SlaveTable::from_parts) checks the figures; of the entries alone, a table is
/// made by counting them.
///
/// ```
/// use vbus::{Figures, Slave, SlaveTable};
///
/// let mut table = SlaveTable::new();
/// table.enter(Slave { address: 0x2010, owner: true, product: 888_888, device: 2_344_630 })?;
/// let (kept, figures) = table.clone().into_parts();
/// assert_eq!((kept[0].owner, kept[0].address), (true, 0x2010));
/// assert_eq!(figures, Figures { no: 0, yes: 1, lowest: 1 });
/// assert_eq!(SlaveTable::from_parts(kept, figures), Some(table.clone()));
/// assert_eq!(SlaveTable::from(kept), table);
/// # Ok::<(), vbus::Error>(())
/// ```
#[derive(Clone, PartialEq, Eq, Debug)]
pub struct SlaveTable {
    entries: [vbus_sys::Slave; SLAVES],
    /// Those of the entries.
    figures: vbus_sys::Figures,
}

impl SlaveTable {
    /// An empty table.
    pub const fn new() -> SlaveTable {
        let free = vbus_sys::Slave {
            address: 0,
            owner: false,
            product: 0,
            device: 0,
        };
        let none = Figures {
            no: 0,
            yes: 0,
            lowest: 0,
        };
        SlaveTable {
            entries: [free; SLAVES],
            figures: none.to_sys(),
        }
    }

    /// A table with just these entries and figures, or `None` if the figures aren't those of the
    /// entries. The entries may be any, as where a table is made [from](From) them alone.
    ///
    /// ```
    /// use vbus::{Figures, Slave, SlaveTable, SLAVES};
    ///
    /// let mut entries = [Slave::default(); SLAVES];
    /// let empty = Figures::default();
    /// assert_eq!(SlaveTable::from_parts(entries, empty), Some(SlaveTable::new()));
    /// entries[0] = Slave { address: 0x2010, owner: false, product: 1, device: 2 };
    /// assert_eq!(SlaveTable::from_parts(entries, empty), None);
    /// assert!(SlaveTable::from_parts(entries, Figures { no: 1, yes: 0, lowest: 1 }).is_some());
    /// ```
    pub fn from_parts(entries: [Slave; SLAVES], figures: Figures) -> Option<SlaveTable> {
        let (entries, figures) = (entries.map(Slave::to_sys), figures.to_sys());
        let (table, n) = (entries.as_ptr(), entries.len());
        // SAFETY: pointer and count are those of an array.
        let answer = unsafe { vbus_sys::vbus_slave_check_figures(table, n, figures) };
        answer.right.then_some(SlaveTable { entries, figures })
    }

    /// All entries, the free ones too, and the figures.
    pub fn into_parts(self) -> ([Slave; SLAVES], Figures) {
        let figures = self.figures();
        (self.into(), figures)
    }

    /// How many entries each owner holds, and the lowest free one.
    ///
    /// ```
    /// use vbus::{Figures, Slave, SlaveTable};
    ///
    /// let mut table = SlaveTable::new();
    /// for (owner, address) in [(true, 0x2010), (false, 0x2010), (true, 0x2020)] {
    ///     table.enter(Slave { address, owner, product: 1, device: 2 })?;
    /// }
    /// assert_eq!(table.figures(), Figures { no: 1, yes: 2, lowest: 3 });
    /// table.remove(false, 0x2010)?;
    /// assert_eq!(table.figures(), Figures { no: 0, yes: 2, lowest: 1 });
    /// # Ok::<(), vbus::Error>(())
    /// ```
    pub const fn figures(&self) -> Figures {
        Figures::from_sys(self.figures)
    }

    /// Keeps the figures that a call answered.
    fn keep(&mut self, answer: vbus_sys::SlaveKept) -> Result<(), Error> {
        self.figures = answer.figures;
        check(answer.number)
    }

    /// Enters a slave, for the owner that it names, as the free entry with the lowest index.
    ///
    /// Refused, in this order, if no slave has an address like that
    /// ([`NotSlaveAddress`](Error::NotSlaveAddress)), if an identifier needs more than 24 bits
    /// ([`NotSlaveId`](Error::NotSlaveId)), if an entry of the owner has the address
    /// ([`AddressTaken`](Error::AddressTaken)), and if the owner holds
    /// [`SLAVES_PER_OWNER`](crate::SLAVES_PER_OWNER) entries or more, or no entry of the table is free
    /// ([`TableFull`](Error::TableFull)).
    ///
    /// ```
    /// use vbus::{Error, Slave, SlaveTable};
    ///
    /// let mut table = SlaveTable::new();
    /// let slave = Slave { address: 0x2010, owner: true, product: 1, device: 2 };
    /// let everyone = Slave { address: 0x2000, ..slave };
    /// assert_eq!(table.enter(everyone), Err(Error::NotSlaveAddress));
    /// let wide = Slave { device: 1 << 24, ..slave };
    /// assert_eq!(table.enter(wide), Err(Error::NotSlaveId));
    /// ```
    pub fn enter(&mut self, slave: Slave) -> Result<(), Error> {
        let (table, n) = (self.entries.as_mut_ptr(), self.entries.len());
        // SAFETY: pointer and count are those of an array that is borrowed mutably.
        let answer = unsafe { vbus_sys::vbus_slave_enter(table, n, self.figures, slave.to_sys()) };
        self.keep(answer)
    }

    /// The identifiers of the owner's slave with an address. The address 0, that of free entries, is
    /// never found.
    pub fn find(&self, owner: bool, address: u16) -> Result<Identifiers, Error> {
        let (table, n) = (self.entries.as_ptr(), self.entries.len());
        // SAFETY: pointer and count are those of an array.
        let answer = unsafe { vbus_sys::vbus_slave_find(table, n, owner, address) };
        check(answer.number)?;
        Ok(Identifiers {
            product: answer.product,
            device: answer.device,
        })
    }

    /// Gives the owner's slave with address `from` the address `to`; it keeps its owner and its
    /// identifiers. To the address that it has, it succeeds and changes nothing.
    ///
    /// Refused, in this order, if no slave has an address like `to`
    /// ([`NotSlaveAddress`](Error::NotSlaveAddress)), if no entry of the owner has the address `from`
    /// ([`NoSuchAddress`](Error::NoSuchAddress)), and if one of them already has `to`
    /// ([`AddressTaken`](Error::AddressTaken)).
    ///
    /// ```
    /// use vbus::{Error, Slave, SlaveTable};
    ///
    /// let mut table = SlaveTable::new();
    /// for (owner, address) in [(true, 0x2010), (true, 0x2020), (false, 0x2030)] {
    ///     table.enter(Slave { address, owner, product: 1, device: 2 })?;
    /// }
    /// assert_eq!(table.change_address(true, 0x2010, 0x2010), Ok(()));
    /// assert_eq!(table.change_address(true, 0x2010, 0x2020), Err(Error::AddressTaken));
    /// assert_eq!(table.change_address(true, 0x2030, 0x2020), Err(Error::NoSuchAddress));
    /// // The other owner's slave isn't in the way.
    /// assert_eq!(table.change_address(true, 0x2010, 0x2030), Ok(()));
    /// # Ok::<(), vbus::Error>(())
    /// ```
    pub fn change_address(&mut self, owner: bool, from: u16, to: u16) -> Result<(), Error> {
        let (table, n) = (self.entries.as_mut_ptr(), self.entries.len());
        // SAFETY: pointer and count are those of an array that is borrowed mutably.
        check(unsafe { vbus_sys::vbus_slave_change_address(table, n, owner, from, to) })
    }

    /// Removes the owner's slave with an address: its entry is the default one then, which is free.
    pub fn remove(&mut self, owner: bool, address: u16) -> Result<(), Error> {
        let (table, n) = (self.entries.as_mut_ptr(), self.entries.len());
        // SAFETY: pointer and count are those of an array that is borrowed mutably.
        let answer = unsafe { vbus_sys::vbus_slave_remove(table, n, self.figures, owner, address) };
        self.keep(answer)
    }

    /// The entries that aren't free, in order: both owners' slaves.
    ///
    /// ```
    /// use vbus::{Slave, SlaveTable};
    ///
    /// let mut table = SlaveTable::new();
    /// for (owner, address) in [(true, 0x2010), (false, 0x2010), (true, 0x2020), (true, 0x2030)] {
    ///     table.enter(Slave { address, owner, product: 1, device: 2 })?;
    /// }
    /// table.remove(true, 0x2020)?;
    /// let of_one = table.slaves().filter(|slave| slave.owner);
    /// assert!(of_one.map(|slave| slave.address).eq([0x2010, 0x2030]));
    /// for slave in &table {
    ///     println!("{} {:04X} {}", slave.owner, slave.address, slave.device);
    /// }
    /// # Ok::<(), vbus::Error>(())
    /// ```
    pub fn slaves(&self) -> Slaves<'_> {
        Slaves {
            entries: self.entries.iter(),
        }
    }
}

impl<'a> IntoIterator for &'a SlaveTable {
    type Item = Slave;
    type IntoIter = Slaves<'a>;

    fn into_iter(self) -> Slaves<'a> {
        self.slaves()
    }
}

impl Default for SlaveTable {
    fn default() -> SlaveTable {
        SlaveTable::new()
    }
}

/// A table with just these entries, and the figures that counting them gives. Nothing is checked: an
/// address that no slave has can be found, changed and removed, of one that stands twice under an owner
/// the entry with the lower index counts, and an owner with more entries than it may hold keeps them,
/// and gets no further one.
impl From<[Slave; SLAVES]> for SlaveTable {
    fn from(entries: [Slave; SLAVES]) -> SlaveTable {
        let entries = entries.map(Slave::to_sys);
        let figures = Figures::of(&entries).to_sys();
        SlaveTable { entries, figures }
    }
}

/// All entries, the free ones too.
impl From<SlaveTable> for [Slave; SLAVES] {
    fn from(table: SlaveTable) -> [Slave; SLAVES] {
        table.entries.map(Slave::from_sys)
    }
}

/// The entries of a table that aren't free, in order. Made by [`SlaveTable::slaves`].
#[derive(Clone, Debug)]
pub struct Slaves<'a> {
    entries: slice::Iter<'a, vbus_sys::Slave>,
}

impl Iterator for Slaves<'_> {
    type Item = Slave;

    fn next(&mut self) -> Option<Slave> {
        let entry = self.entries.find(|entry| entry.address != 0)?;
        Some(Slave::from_sys(*entry))
    }
}

impl FusedIterator for Slaves<'_> {}
