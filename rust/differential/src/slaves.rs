//! Tables of slaves: runs of calls on tables of any length that hold anything, with the figures that
//! counting gives.

use crate::check::{Checked, Checker, Refusals};
use crate::library::{self, Entry};
use crate::rng::Rng;
use reference::{Figures, Slave, SlaveFound, SlaveKept};
use vbus::{Identifiers, SlaveTable};

/// How many entries a table has.
pub const SLAVES: usize = 32;

/// Lengths that are refused.
pub const WRONG_LENGTHS: [usize; 5] = [0, 1, 31, 33, 64];

/// So many calls on tables every run makes, however short it is.
pub const LEAST: u64 = 1_500_000;

/// The calls on tables.
pub const CALLS: &str = "slaves: calls";

/// Kinds of calls. Where one stays 0 the run has shown less than it claims.
const KINDS: [&str; 20] = [
    SAME_ADDRESS,
    TWICE,
    WIDE,
    BOTH,
    NEIGHBOUR_LOWER,
    NEIGHBOURS_ALONE,
    ENTERED_BOTH,
    CHANGED_BOTH,
    LAST_OF_SHARE,
    FREE_NAMED,
    TAKEN_OVER,
    SHARE_USED,
    ABOVE_SHARE,
    NONE_FREE,
    FULL_AND_USED,
    NEXT_BEHIND,
    NONE_LEFT,
    LOWERED,
    LOWERED_FROM_NONE,
    LOWEST_STAYS,
];
/// Gave a slave the address that it has.
const SAME_ADDRESS: &str = "slaves: same address";
/// The address stood twice under the owner.
const TWICE: &str = "slaves: lower counts";
/// Found identifiers of more than 24 bits.
const WIDE: &str = "slaves: wide found";
/// Found, changed or removed an address that the neighbour has too; its entry was the lower one.
const BOTH: &str = "slaves: both have it";
const NEIGHBOUR_LOWER: &str = "slaves: other lower";
/// Refused as 17 though the neighbour has the address.
const NEIGHBOURS_ALONE: &str = "slaves: other alone";
/// Entered, or changed to, an address that the neighbour has.
const ENTERED_BOTH: &str = "slaves: entered both";
const CHANGED_BOTH: &str = "slaves: changed both";
/// Entered as the 24th of the owner's.
const LAST_OF_SHARE: &str = "slaves: the 24th";
/// Entered though 24 entries or more name the owner, some of them free.
const FREE_NAMED: &str = "slaves: free named";
/// Entered where a free entry names the neighbour.
const TAKEN_OVER: &str = "slaves: taken over";
/// Refused as 16: with 24 entries while some are free, with more, with fewer while none is free, and
/// with 24 or more while none is.
const SHARE_USED: &str = "slaves: 16 by 24";
const ABOVE_SHARE: &str = "slaves: 16 above 24";
const NONE_FREE: &str = "slaves: 16, no free";
const FULL_AND_USED: &str = "slaves: 16 by both";
/// Entered where the next free entry stands behind others, or there is none.
const NEXT_BEHIND: &str = "slaves: next behind";
const NONE_LEFT: &str = "slaves: none left";
/// Removed from below the lowest free entry, or where none was free; removed from behind it.
const LOWERED: &str = "slaves: lowered";
const LOWERED_FROM_NONE: &str = "slaves: first free";
const LOWEST_STAYS: &str = "slaves: lowest stays";

/// Each function's refusals in their order. Each must be given, also where each of those behind it applies
/// too, or the run has shown less than it claims.
pub const ORDERS: [Refusals; 11] = [
    ("read_slave_id", &[18]),
    ("write_slave_id", &[18, 2, 5]),
    ("enter", &[24, 14, 18, 15, 16]),
    ("find", &[24, 17]),
    ("change_address", &[24, 14, 17, 15]),
    ("remove", &[24, 17]),
    ("check_figures", &[24]),
    // With any figures, where 16 is given by them.
    ("enter, any", &[24, 14, 18, 15, 16]),
    ("find, any", &[24, 17]),
    ("change, any", &[24, 14, 17, 15]),
    ("remove, any", &[24, 17]),
];

/// All classes that are counted.
pub fn counted() -> impl Iterator<Item = &'static str> {
    let starts = STARTS.into_iter().map(|(class, _)| class);
    starts.chain(KINDS)
}

/// A call on a table.
#[derive(Clone, Copy, PartialEq, Debug)]
pub enum Operation {
    Enter(Slave),
    Find(bool, u16),
    ChangeAddress(bool, u16, u16),
    Remove(bool, u16),
}

pub use Operation::{ChangeAddress, Enter, Find, Remove};

/// The answer of a function that gives no identifiers.
fn alone(number: u32) -> SlaveFound {
    SlaveFound {
        number,
        ..SlaveFound::default()
    }
}

fn keep(figures: &mut Figures, answer: SlaveKept) -> SlaveFound {
    *figures = answer.figures;
    alone(answer.number)
}

impl Operation {
    fn name(self) -> &'static str {
        match self {
            Enter(_) => "enter",
            Find(..) => "find",
            ChangeAddress(..) => "change_address",
            Remove(..) => "remove",
        }
    }

    /// Whose call it is.
    pub fn owner(self) -> bool {
        match self {
            Enter(slave) => slave.owner,
            Find(owner, _) | ChangeAddress(owner, ..) | Remove(owner, _) => owner,
        }
    }

    /// The figures are replaced by those that come back, if the call has any.
    pub fn by_library(self, table: &mut [Entry], figures: &mut Figures) -> SlaveFound {
        match self {
            Enter(slave) => keep(figures, library::slave_enter(table, *figures, slave)),
            Find(owner, address) => library::slave_find(table, owner, address),
            ChangeAddress(owner, from, to) => {
                alone(library::slave_change_address(table, owner, from, to))
            }
            Remove(owner, address) => keep(
                figures,
                library::slave_remove(table, *figures, owner, address),
            ),
        }
    }

    pub fn by_reference(self, table: &mut [Slave], figures: &mut Figures) -> SlaveFound {
        match self {
            Enter(slave) => keep(figures, reference::slave_enter(table, *figures, slave)),
            Find(owner, address) => reference::slave_find(table, owner, address),
            ChangeAddress(owner, from, to) => {
                alone(reference::slave_change_address(table, owner, from, to))
            }
            Remove(owner, address) => keep(
                figures,
                reference::slave_remove(table, *figures, owner, address),
            ),
        }
    }

    /// By a reference that counts in each call, and keeps no figures.
    fn by_counting(self, table: &mut [Slave]) -> SlaveFound {
        match self {
            Enter(slave) => alone(reference::slave_enter_counting(table, slave)),
            Remove(owner, address) => {
                alone(reference::slave_remove_counting(table, owner, address))
            }
            Find(..) | ChangeAddress(..) => self.by_reference(table, &mut Figures::default()),
        }
    }

    fn by_wrapper(self, table: &mut SlaveTable) -> SlaveFound {
        let none = Identifiers::default();
        let answer = match self {
            Enter(slave) => table.enter(wrapper(slave)).map(|()| none),
            Find(owner, address) => table.find(owner, address),
            ChangeAddress(owner, from, to) => table.change_address(owner, from, to).map(|()| none),
            Remove(owner, address) => table.remove(owner, address).map(|()| none),
        };
        match answer {
            Ok(Identifiers { product, device }) => SlaveFound {
                number: 0,
                product,
                device,
            },
            Err(error) => alone(error.number()),
        }
    }
}

pub fn wrapper(slave: Slave) -> vbus::Slave {
    vbus::Slave {
        address: slave.address,
        owner: slave.owner,
        product: slave.product,
        device: slave.device,
    }
}

pub fn wrapped_figures(figures: Figures) -> vbus::Figures {
    vbus::Figures {
        no: figures.no,
        yes: figures.yes,
        lowest: figures.lowest,
    }
}

/// Entries on both sides of a table that no call may change.
const GUARD: usize = 2;

/// A table as it is lent to the library, with guards around it, and its figures. What stands between the
/// fields of its entries is known too.
#[derive(Clone)]
pub struct Table {
    entries: Vec<Entry>,
    pub figures: Figures,
}

impl Table {
    /// With the figures that counting gives. A table of another length has none: what is handed over
    /// with it may be anything.
    pub fn new(rng: &mut Rng, slaves: &[Slave]) -> Table {
        let figures = if slaves.len() == SLAVES || rng.once_in(2) {
            counted_figures(slaves)
        } else {
            any_figures(rng)
        };
        let guard = Slave {
            address: 0x2010,
            owner: rng.once_in(2),
            product: 0x5A5A_5A5A,
            device: 0xA5A5_A5A5,
        };
        let guards = [guard; GUARD];
        let around = guards.iter().chain(slaves).chain(&guards);
        let entries = around.map(|slave| Entry::new(*slave, rng.byte())).collect();
        Table { entries, figures }
    }

    pub fn lent(&mut self) -> &mut [Entry] {
        let end = self.entries.len() - GUARD;
        &mut self.entries[GUARD..end]
    }

    pub fn slaves(&self) -> Vec<Slave> {
        let end = self.entries.len() - GUARD;
        let entries = self.entries[GUARD..end].iter();
        entries.map(|entry| entry.slave()).collect()
    }

    /// The table and its guards, with all that stands between the fields.
    pub fn bytes(&self) -> &[Entry] {
        &self.entries
    }

    /// Every owner is a bool, and all is as it was but the entry with that index, if one is named: also
    /// the guards, and what stands between the fields of the other entries.
    pub fn kept_all_but(&self, named: Option<usize>, before: &[Entry]) -> bool {
        let named = named.map(|index| GUARD + index);
        let mut entries = before.iter().zip(&self.entries).enumerate();
        entries
            .all(|(i, (before, after))| after.owner <= 1 && (Some(i) == named || before == after))
    }
}

pub fn any_figures(rng: &mut Rng) -> Figures {
    Figures {
        no: rng.byte(),
        yes: rng.byte(),
        lowest: rng.byte(),
    }
}

/// A slave's address, of the 127 groups' 16 each.
pub fn slaves_address(rng: &mut Rng) -> u16 {
    let group = 1 + rng.below(127) as u16;
    let sub = rng.below(16) as u16;
    0x2000 | group >> 3 << 8 | (group & 7) << 4 | sub
}

/// Addresses for a run: so few slaves' that calls hit each other's entries, or more than a table holds;
/// some that differ from them in a bit or by one; 0, and those next to the first and the last slave's.
fn addresses(rng: &mut Rng) -> Vec<u16> {
    let few = rng.pick(&[2, 5, 20, 48]);
    let mut addresses: Vec<u16> = (0..few).map(|_| slaves_address(rng)).collect();
    for _ in 0..few / 4 + 1 {
        let near = rng.pick(&addresses);
        addresses.push(near ^ 1 << rng.below(16));
        addresses.push(rng.pick(&[near.wrapping_sub(1), near.wrapping_add(1)]));
    }
    let edges = [0, 0x2000, 0x200F, 0x2010, 0x2080, 0x2F7F, 0x2F80, 0xA010];
    addresses.push(rng.pick(&edges));
    addresses
}

/// An identifier, now and then of more than 24 bits.
pub fn identifier(rng: &mut Rng) -> u32 {
    match rng.below(16) {
        0 => rng.pick(&[1 << 24, 1 << 31, u32::MAX, 0xFF00_0000, 0x0100_0001]),
        1 => rng.pick(&[0, 1, 0xFF_FFFF, 0x80_0000]),
        _ => rng.next() as u32 & 0xFF_FFFF,
    }
}

/// A slave of an owner.
pub fn slave(rng: &mut Rng, owner: bool, address: u16) -> Slave {
    Slave {
        address,
        owner,
        product: identifier(rng),
        device: identifier(rng),
    }
}

/// A slave with identifiers of any width.
fn garbage(rng: &mut Rng, address: u16) -> Slave {
    Slave {
        address,
        owner: false,
        product: rng.next() as u32,
        device: rng.next() as u32,
    }
}

/// What a run starts from: the class, and a table's entry for an index, but for its owner.
type Start = (&'static str, fn(&mut Rng, &[u16], usize) -> Slave);

/// The starts. Where one stays 0 the run has shown less than it claims.
const STARTS: [Start; 7] = [
    ("slaves: empty", |_, _, _| Slave::default()),
    // Up to 127 entries have addresses of their own.
    ("slaves: full", |rng, _, index| {
        let group = (index % 127 + 1) as u16;
        slave(rng, false, 0x2000 | group >> 3 << 8 | (group & 7) << 4)
    }),
    ("slaves: some", |rng, addresses, _| match rng.below(2) {
        0 => Slave::default(),
        _ => {
            let address = rng.pick(addresses);
            slave(rng, false, address)
        }
    }),
    ("slaves: twice", |rng, addresses, _| {
        let address = rng.pick(&addresses[..2]);
        slave(rng, false, address)
    }),
    ("slaves: no slave", |rng, _, _| {
        let address = rng.word();
        slave(rng, false, address)
    }),
    // Free entries have identifiers too, and name owners.
    ("slaves: garbage", |rng, addresses, _| {
        let address = if rng.once_in(2) {
            0
        } else {
            rng.pick(addresses)
        };
        garbage(rng, address)
    }),
    ("slaves: anything", |rng, addresses, _| {
        let address = match rng.below(3) {
            0 => 0,
            1 => rng.pick(addresses),
            _ => rng.word(),
        };
        match rng.below(2) {
            0 => slave(rng, false, address),
            _ => garbage(rng, address),
        }
    }),
];

/// How many of a table's entries one owner gets.
const SHARES: [usize; 11] = [0, 1, 7, 8, 12, 16, 23, 24, 25, 31, 32];

/// Gives as many entries as one of the shares, wherever they stand, to the one owner and the others to
/// the other; those that are zeroed stay so.
fn share_out(rng: &mut Rng, slaves: &mut [Slave]) {
    let mut share = rng.pick(&SHARES);
    let one = rng.once_in(2);
    let entries = slaves
        .iter_mut()
        .filter(|slave| **slave != Slave::default());
    let mut entries: Vec<&mut Slave> = entries.collect();
    while !entries.is_empty() {
        let slave = entries.swap_remove(rng.below(entries.len()));
        slave.owner = if share > 0 { one } else { !one };
        share = share.saturating_sub(1);
    }
}

/// How the calls of a run are chosen.
pub struct Habits {
    /// Removes little.
    pub filling: bool,
    /// Whose calls they mostly are, and that the other's are one in so many; 0 for none.
    pub owner: bool,
    pub other: usize,
}

/// A call, mostly with addresses of these.
pub fn operation(rng: &mut Rng, addresses: &[u16], habits: &Habits) -> Operation {
    let mut address = || match rng.below(40) {
        0 => rng.word(),
        1 => 0,
        2 => slaves_address(rng),
        _ => rng.pick(addresses),
    };
    let (first, second) = (address(), address());
    let others = habits.other > 0 && rng.once_in(habits.other);
    let owner = habits.owner ^ others;
    match rng.below(if habits.filling { 64 } else { 16 }) {
        0..=2 => Remove(owner, first),
        3..=5 => Find(owner, first),
        6 => ChangeAddress(owner, first, first),
        7..=10 => ChangeAddress(owner, first, second),
        _ => Enter(slave(rng, owner, first)),
    }
}

// The rules, by document 02's words

/// The entries of an owner: those that aren't free and name it.
fn entries_of(owner: bool, table: &[Slave]) -> impl Iterator<Item = (usize, &Slave)> {
    let entries = table.iter().enumerate();
    entries.filter(move |(_, slave)| slave.address != 0 && slave.owner == owner)
}

/// An owner's lowest entry with an address.
fn lowest(owner: bool, address: u16, table: &[Slave]) -> Option<usize> {
    let mut own = entries_of(owner, table);
    own.find(|(_, slave)| slave.address == address)
        .map(|(index, _)| index)
}

/// The lowest free entry.
pub fn lowest_free(table: &[Slave]) -> Option<usize> {
    table.iter().position(|slave| slave.address == 0)
}

/// What counting a table gives.
pub fn counted_figures(table: &[Slave]) -> Figures {
    Figures {
        no: entries_of(false, table).count() as u8,
        yes: entries_of(true, table).count() as u8,
        lowest: lowest_free(table).unwrap_or(SLAVES) as u8,
    }
}

/// The refusals that apply to a call, in their order.
pub fn refusals(operation: Operation, table: &[Slave]) -> Vec<u32> {
    let owner = operation.owner();
    let held = entries_of(owner, table).count();
    let there = |address| entries_of(owner, table).any(|(_, slave)| slave.address == address);
    let no_slave = |address: u16| {
        let bit = |k: u16| address / (1 << k) % 2;
        let two = [bit(14), bit(13), bit(12)] == [0, 1, 0];
        !two || bit(7) == 1 || bit(15) == 1 || (4..=11).all(|k| bit(k) == 0)
    };
    let wide = |slave: Slave| slave.product >= 1 << 24 || slave.device >= 1 << 24;
    let none_free = table.iter().all(|slave| slave.address != 0);
    let mut lines = vec![(24, table.len() != SLAVES)];
    match operation {
        Enter(slave) => lines.extend([
            (14, no_slave(slave.address)),
            (18, wide(slave)),
            (15, there(slave.address)),
            (16, held >= 24 || none_free),
        ]),
        Find(_, address) | Remove(_, address) => lines.push((17, !there(address))),
        ChangeAddress(_, from, to) => lines.extend([
            (14, no_slave(to)),
            (17, !there(from)),
            (15, to != from && there(to)),
        ]),
    }
    lines.retain(|(_, applies)| *applies);
    lines.into_iter().map(|(number, _)| number).collect()
}

/// The entry that a call which isn't refused names, and what stands there afterwards.
pub fn named(operation: Operation, table: &[Slave]) -> Option<(usize, Slave)> {
    match operation {
        Enter(slave) => Some((lowest_free(table)?, slave)),
        Find(..) => None,
        ChangeAddress(owner, from, to) => {
            let i = lowest(owner, from, table)?;
            let changed = Slave {
                address: to,
                ..table[i]
            };
            Some((i, changed))
        }
        Remove(owner, address) => Some((lowest(owner, address, table)?, Slave::default())),
    }
}

/// The identifiers that a call gives which isn't refused.
pub fn told(operation: Operation, table: &[Slave]) -> (u32, u32) {
    let found = match operation {
        Find(owner, address) => lowest(owner, address, table),
        _ => None,
    };
    found.map_or((0, 0), |index| (table[index].product, table[index].device))
}

/// The kinds that a call on a table is of, by its number.
fn kinds(operation: Operation, number: u32, table: &[Slave]) -> Vec<&'static str> {
    let kinds = match operation {
        Enter(slave) => entering_kinds(slave, number, table),
        Find(owner, address) => {
            let (product, device) = told(operation, table);
            let mut kinds = kinds_of_address(owner, address, number, table);
            kinds.push((WIDE, (product | device) >> 24 != 0));
            kinds
        }
        ChangeAddress(owner, from, to) => {
            let mut kinds = kinds_of_address(owner, from, number, table);
            let neighbours = lowest(!owner, to, table).is_some();
            kinds.push((SAME_ADDRESS, number == 0 && from == to));
            kinds.push((CHANGED_BOTH, number == 0 && from != to && neighbours));
            kinds
        }
        Remove(owner, address) => {
            let mut kinds = kinds_of_address(owner, address, number, table);
            kinds.extend(removing_kinds(owner, address, number, table));
            kinds
        }
    };
    let kinds = kinds.into_iter().filter(|(_, is)| *is);
    kinds.map(|(kind, _)| kind).collect()
}

/// The kinds of a call that is about an address which an owner has, or hasn't.
fn kinds_of_address(
    owner: bool,
    address: u16,
    number: u32,
    table: &[Slave],
) -> Vec<(&'static str, bool)> {
    let (own, neighbours) = (
        lowest(owner, address, table),
        lowest(!owner, address, table),
    );
    let having = entries_of(owner, table).filter(|(_, slave)| slave.address == address);
    let both = number == 0 && neighbours.is_some();
    vec![
        (TWICE, number == 0 && having.count() > 1),
        (BOTH, both),
        (NEIGHBOUR_LOWER, both && neighbours < own),
        (NEIGHBOURS_ALONE, number == 17 && neighbours.is_some()),
    ]
}

fn removing_kinds(
    owner: bool,
    address: u16,
    number: u32,
    table: &[Slave],
) -> [(&'static str, bool); 3] {
    let removed = if number == 0 {
        lowest(owner, address, table)
    } else {
        None
    };
    let free = lowest_free(table);
    [
        (
            LOWERED,
            free.is_some() && removed.is_some() && removed < free,
        ),
        (LOWERED_FROM_NONE, free.is_none() && removed.is_some()),
        (LOWEST_STAYS, free.is_some() && removed > free),
    ]
}

fn entering_kinds(slave: Slave, number: u32, table: &[Slave]) -> Vec<(&'static str, bool)> {
    let Slave { address, owner, .. } = slave;
    let held = entries_of(owner, table).count();
    let naming = table.iter().filter(|slave| slave.owner == owner).count();
    let free = lowest_free(table);
    let taken = free.is_some_and(|index| table[index].owner != owner);
    let next = free.and_then(|index| lowest_free(&table[index + 1..]));
    let (entered, refused) = (number == 0, number == 16);
    vec![
        (
            NEXT_BEHIND,
            entered && next.is_some_and(|behind| behind > 0),
        ),
        (NONE_LEFT, entered && next.is_none()),
        (
            ENTERED_BOTH,
            entered && lowest(!owner, address, table).is_some(),
        ),
        (LAST_OF_SHARE, entered && held == 23),
        (FREE_NAMED, entered && naming >= 24),
        (TAKEN_OVER, entered && taken),
        (SHARE_USED, refused && held == 24 && free.is_some()),
        (ABOVE_SHARE, refused && held > 24 && free.is_some()),
        (NONE_FREE, refused && held < 24),
        (FULL_AND_USED, refused && held >= 24 && free.is_none()),
    ]
}

impl Checker {
    /// A call on a table with the figures that counting gives, and what must hold of it by the rules.
    fn by_the_rules(&mut self, table: &mut Table, operation: Operation) -> Checked<SlaveFound> {
        let before = table.slaves();
        let entries = table.entries.clone();
        let figures = table.figures;
        let (answer, after) = self.on_table(table, operation)?;
        self.count(CALLS);
        let what = || {
            let n = before.len();
            format!("{operation:X?} with {figures:?} on {n} entries {before:X?}")
        };
        let refusals = refusals(operation, &before);
        self.first_given(operation.name(), answer.number, &refusals, what)?;
        for kind in kinds(operation, answer.number, &before) {
            self.count(kind);
        }
        let mut expected = before.clone();
        let mut identifiers = (0, 0);
        let mut changed = None;
        if answer.number == 0 {
            identifiers = told(operation, &before);
            if let Some((index, slave)) = named(operation, &before) {
                expected[index] = slave;
                changed = Some(index);
            }
        }
        let same = after == expected && (answer.product, answer.device) == identifiers;
        self.holds(same, || {
            let what = what();
            format!("{what} tells {identifiers:X?} and leaves {expected:X?}")
        })?;
        self.holds(table.kept_all_but(changed, &entries), || {
            let (what, after) = (what(), &table.entries);
            format!("{what} leaves all other bytes of {entries:X?}; they are {after:X?}")
        })?;
        let mut counted = before.clone();
        let by_counting = (operation.by_counting(&mut counted), counted);
        self.holds(by_counting == (answer, after), || {
            let what = what();
            format!("{what} gives what counting gives, {by_counting:X?}")
        })?;
        self.figures_kept(table, figures, what)?;
        Ok(answer)
    }

    /// A call that was handed true figures leaves true ones. With a table of another length, which has
    /// none, those handed over come back.
    fn figures_kept(
        &mut self,
        table: &Table,
        before: Figures,
        what: impl Fn() -> String,
    ) -> Checked<()> {
        let after = table.slaves();
        let expected = if after.len() == SLAVES {
            counted_figures(&after)
        } else {
            before
        };
        self.holds(table.figures == expected, || {
            let (what, figures) = (what(), table.figures);
            format!("{what} leaves {expected:?}; it left {figures:?}")
        })
    }

    /// A run of calls on a table that starts so, and on one of the `vbus` crate if its length is right.
    /// Gives the numbers that were answered.
    pub fn run_on(
        &mut self,
        slaves: &[Slave],
        operations: impl IntoIterator<Item = Operation>,
    ) -> Checked<Vec<u32>> {
        let mut table = Table::new(&mut self.rng, slaves);
        let entries: Result<[Slave; SLAVES], _> = slaves.try_into();
        let mut wrapped = entries.map(|entries| SlaveTable::from(entries.map(wrapper)));
        let mut numbers = Vec::new();
        for operation in operations {
            let answer = self.by_the_rules(&mut table, operation)?;
            numbers.push(answer.number);
            let Ok(wrapped) = &mut wrapped else {
                continue;
            };
            let given = operation.by_wrapper(wrapped);
            let entries: [vbus::Slave; SLAVES] = wrapped.clone().into();
            let after: Vec<vbus::Slave> = table.slaves().into_iter().map(wrapper).collect();
            let used = after.iter().copied().filter(|slave| slave.address != 0);
            let figures = wrapped.figures();
            let same = given == answer
                && entries[..] == after
                && wrapped.slaves().eq(used)
                && figures == wrapped_figures(table.figures)
                && SlaveTable::from(entries) == *wrapped;
            self.holds(same, || {
                let expected = table.figures;
                format!(
                    "vbus::SlaveTable gives {answer:X?}, {after:X?} and {expected:?} for \
                     {operation:X?}; it gave {given:X?}, {entries:X?} and {figures:?}"
                )
            })?;
        }
        Ok(numbers)
    }

    /// A table of that length from one of the starts, and addresses for a run on it.
    pub fn start(&mut self, length: usize) -> (Vec<Slave>, Vec<u16>) {
        let rng = &mut self.rng;
        let (class, start) = rng.pick(&STARTS);
        let addresses = addresses(rng);
        let mut slaves: Vec<Slave> = (0..length).map(|i| start(rng, &addresses, i)).collect();
        share_out(rng, &mut slaves);
        self.count(class);
        (slaves, addresses)
    }

    /// Calls for a run, of both owners.
    pub fn operations(&mut self, addresses: &[u16], calls: usize) -> Vec<Operation> {
        let rng = &mut self.rng;
        let habits = Habits {
            filling: rng.once_in(2),
            owner: rng.once_in(2),
            other: rng.pick(&[2, 2, 8]),
        };
        (0..calls)
            .map(|_| operation(rng, addresses, &habits))
            .collect()
    }

    /// A run from one of the starts, mostly on a table of the right length.
    pub fn random_slaves(&mut self) -> Checked<()> {
        let (length, calls) = match self.rng.below(8) {
            0 => (self.rng.pick(&WRONG_LENGTHS), 10),
            _ => (SLAVES, 200),
        };
        let (slaves, addresses) = self.start(length);
        let operations = self.operations(&addresses, calls);
        self.run_on(&slaves, operations)?;
        Ok(())
    }

    /// Runs until so many calls were made as every run makes.
    pub fn many_slaves(&mut self) -> Checked<()> {
        while self.cases.get(CALLS).is_none_or(|calls| *calls < LEAST) {
            self.random_slaves()?;
        }
        Ok(())
    }

    /// Every address: entered, given to a slave, and found and removed where it stands in a table, once
    /// under the owner alone and once under both.
    pub fn every_slave_address(&mut self) -> Checked<()> {
        let mut entered = 0;
        for address in 0..=u16::MAX {
            let owner = self.rng.once_in(2);
            let entry = slave(&mut self.rng, owner, address);
            let mut slaves = [Slave::default(); SLAVES];
            let mut table = Table::new(&mut self.rng, &slaves);
            let plain = Slave {
                address,
                ..self.plain_slave()
            };
            let answer = self.by_the_rules(&mut table, Enter(plain))?;
            entered += usize::from(answer.number == 0);
            slaves[self.rng.below(SLAVES)] = slave(&mut self.rng, !owner, address);
            slaves[self.rng.below(SLAVES)] = entry;
            let calls = [
                Find(owner, address),
                Remove(owner, address),
                Find(owner, address),
                Find(!owner, address),
            ];
            self.run_on(&slaves, calls)?;
            slaves[7] = Slave {
                address: 0x2010,
                ..entry
            };
            let calls = [ChangeAddress(owner, 0x2010, address), Find(owner, address)];
            self.run_on(&slaves, calls)?;
        }
        self.holds(entered == 127 * 16, || {
            format!("127 groups of 16 slaves; entered were {entered}")
        })
    }

    /// A slave of either owner that can be entered.
    pub fn plain_slave(&mut self) -> Slave {
        Slave {
            address: slaves_address(&mut self.rng),
            owner: self.rng.once_in(2),
            product: self.rng.next() as u32 & 0xFF_FFFF,
            device: self.rng.next() as u32 & 0xFF_FFFF,
        }
    }

    /// A table without a free entry, 16 of each owner, each with an address of its own, none of them of
    /// 0x2F00 or above.
    fn full_table(&mut self) -> Vec<Slave> {
        (0..SLAVES)
            .map(|i| Slave {
                address: 0x2010 + 0x100 * (i / 4) as u16 + 0x10 * (i % 4) as u16,
                owner: i % 2 == 1,
                ..self.plain_slave()
            })
            .collect()
    }

    /// Every two entries, of the same owner and of both: both free, both with the same address, and the
    /// one changed to the other's.
    pub fn every_two_entries(&mut self) -> Checked<()> {
        for first in 0..SLAVES {
            for second in 0..SLAVES {
                for owners in [[false, false], [false, true], [true, false], [true, true]] {
                    let mut full = self.full_table();
                    full[first].owner = owners[0];
                    full[second].owner = owners[1];
                    self.two_entries(&full, first, second)?;
                    self.same_address(&full, first, second)?;
                }
            }
        }
        Ok(())
    }

    fn two_entries(&mut self, full: &[Slave], first: usize, second: usize) -> Checked<()> {
        let [one, other] = [full[first].owner, full[second].owner];
        let [a, b] = [full[first].address, full[second].address];
        let entering = [(one, 0x2F00), (other, 0x2F01), (one, 0x2F02)].map(|(owner, address)| {
            Enter(Slave {
                address,
                owner,
                ..self.plain_slave()
            })
        });
        let mut free = full.to_vec();
        free[first].address = 0;
        free[second] = Slave::default();
        self.run_on(&free, entering)?;
        let changing = [
            ChangeAddress(one, a, b),
            ChangeAddress(one, a, 0x2F7F),
            Find(one, b),
            Find(other, b),
        ];
        self.run_on(full, changing)?;
        let removing = [
            Remove(!one, a),
            Remove(one, a),
            Remove(other, b),
            Find(one, a),
            Remove(other, b),
            ChangeAddress(other, b, a),
        ];
        self.run_on(full, removing)?;
        Ok(())
    }

    fn same_address(&mut self, full: &[Slave], first: usize, second: usize) -> Checked<()> {
        let a = full[first].address;
        let mut twice = full.to_vec();
        twice[second].address = a;
        for owner in [full[first].owner, full[second].owner] {
            let calls = [
                Find(owner, a),
                ChangeAddress(owner, a, a),
                ChangeAddress(owner, a, 0x2F7F),
                Find(owner, a),
                Find(!owner, a),
            ];
            self.run_on(&twice, calls)?;
            let calls = [
                Find(owner, a),
                Remove(owner, a),
                Find(owner, a),
                Find(!owner, a),
                Remove(owner, a),
                Find(owner, a),
            ];
            self.run_on(&twice, calls)?;
        }
        Ok(())
    }

    /// Every length up to some, and those that have 32 as their low byte or word, of empty and of full
    /// tables.
    pub fn every_table_length(&mut self) -> Checked<()> {
        let full = self.full_table();
        for length in (0..=70).chain([255, 256, 256 + SLAVES, 65_536 + SLAVES]) {
            let again = full.iter().copied().cycle();
            let tables: [Vec<Slave>; 2] =
                [vec![Slave::default(); length], again.take(length).collect()];
            for slaves in tables {
                let entry = self.plain_slave();
                let owner = entry.owner;
                for address in [full[0].address, full[1].address, 0x2F00, 0x2000, 0] {
                    let calls = [
                        Find(owner, address),
                        Enter(Slave { address, ..entry }),
                        ChangeAddress(owner, address, 0x2F01),
                        ChangeAddress(owner, full[2].address, address),
                        ChangeAddress(owner, full[3].address, address),
                        Remove(owner, address),
                    ];
                    self.run_on(&slaves, calls)?;
                }
            }
        }
        Ok(())
    }

    /// Identifiers of every width, in a table with and without room.
    pub fn every_identifier_width(&mut self) -> Checked<()> {
        let mut free = self.full_table();
        free[30] = Slave::default();
        let full = self.full_table();
        for bit in 0..32 {
            for identifier in [1 << bit, u32::MAX >> bit] {
                for [product, device] in [[identifier, 0], [0, identifier], [identifier; 2]] {
                    for address in [0x2F00, full[0].address, 0x2000, 0] {
                        let owner = self.rng.once_in(2);
                        let entry = Slave {
                            address,
                            owner,
                            product,
                            device,
                        };
                        self.run_on(&free, [Enter(entry), Find(owner, address)])?;
                        self.run_on(&full, [Enter(entry), Find(owner, address)])?;
                    }
                }
            }
        }
        Ok(())
    }
}
