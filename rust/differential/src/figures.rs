//! The figures kept with a table of slaves: calls with any that a caller may hand over, true or not, and
//! the check that tells the true ones.

use crate::check::{Checked, Checker};
use crate::owners::address;
use crate::rng::Rng;
use crate::slaves::{any_figures, counted_figures, lowest_free, named, refusals, told};
use crate::slaves::{wrapped_figures, wrapper, ChangeAddress, Enter, Find, Remove};
use crate::slaves::{Operation, Table, SLAVES, WRONG_LENGTHS};
use reference::{Figures, Slave, SlaveFound};
use vbus::SlaveTable;

/// So many calls with any figures every run makes, however short it is.
pub const LEAST: u64 = 1_000_000;

/// The calls with any figures.
pub const CALLS: &str = "figures: calls";

/// Kinds of calls. Where one stays 0 the run has shown less than it claims.
const KINDS: [&str; 17] = [
    FULL_BY_SHARE,
    FULL_BY_LOWEST,
    ROOM,
    OTHER_ENTRY,
    LOWEST_TAKEN,
    LOWEST_ABOVE,
    NONE_BEHIND,
    ZERO_STAYS,
    NOT_RAISED,
    BECAME_TRUE,
    STAYED_FALSE,
    RIGHT,
    WRONG_NO,
    WRONG_YES,
    WRONG_LOWEST,
    EXCHANGED,
    WRONG_LENGTH,
];
/// Refused as 16 though counting finds room: by the owner's figure, and by the lowest free entry's.
const FULL_BY_SHARE: &str = "figures: 16 by share";
const FULL_BY_LOWEST: &str = "figures: 16 by low.";
/// Entered though counting finds no room.
const ROOM: &str = "figures: entered";
/// Entered as another than the lowest free entry.
const OTHER_ENTRY: &str = "figures: other entry";
/// Entered though the entry that shall be the lowest free one isn't free.
const LOWEST_TAKEN: &str = "figures: taken";
/// Refused as 16 with a lowest free entry behind the table's end.
const LOWEST_ABOVE: &str = "figures: above 32";
/// Entered where no later entry is free, though a lower one is.
const NONE_BEHIND: &str = "figures: none behind";
/// Removed where the owner's figure was 0, and from behind the lowest free entry.
const ZERO_STAYS: &str = "figures: 0 stays";
const NOT_RAISED: &str = "figures: not raised";
/// Calls that changed false figures, into true ones and others.
const BECAME_TRUE: &str = "figures: became true";
const STAYED_FALSE: &str = "figures: still false";
/// Checked: true ones, ones with a single false figure, both owners' exchanged, and any with a table of
/// another length.
const RIGHT: &str = "figures: right";
const WRONG_NO: &str = "figures: no wrong";
const WRONG_YES: &str = "figures: yes wrong";
const WRONG_LOWEST: &str = "figures: low. wrong";
const EXCHANGED: &str = "figures: exchanged";
const WRONG_LENGTH: &str = "figures: length";

/// All classes that are counted.
pub fn counted() -> impl Iterator<Item = &'static str> {
    let shapes = SHAPES.into_iter().map(|(class, _)| class);
    shapes.chain(KINDS)
}

/// A class, and a table's entries.
type Shape = (&'static str, fn(&mut Checker) -> Vec<Slave>);

const SHAPES: [Shape; 10] = [
    ("figures: empty", |_| vec![Slave::default(); SLAVES]),
    ("figures: full", |c| c.shared(16, 16, true)),
    ("figures: 24 and 8", |c| c.shared_anyhow(24, 8)),
    ("figures: 24 and 0", |c| c.shared_anyhow(24, 0)),
    ("figures: 31", |c| c.shared_anyhow(16, 15)),
    ("figures: 23 and 8", |c| c.shared_anyhow(23, 8)),
    ("figures: above 24", |c| c.shared_anyhow(26, 3)),
    ("figures: holes", |c| c.shared_anyhow(9, 7)),
    // Of either owner, the free ones with identifiers too.
    ("figures: twice", |c| {
        let twice = [address(0), address(1), 0];
        (0..SLAVES).map(|_| c.garbage_of(&twice)).collect()
    }),
    ("figures: garbage", |c| {
        let any = [c.rng.word(), c.rng.word(), c.rng.word(), 0x2000, 0xFFFF, 0];
        (0..SLAVES).map(|_| c.garbage_of(&any)).collect()
    }),
];

/// Figures of any kind, for a table that has these.
fn figures(rng: &mut Rng, own: Figures) -> Figures {
    let edge = |rng: &mut Rng| rng.pick(&[0, 1, 7, 23, 24, 25, 31, 32, 33, 127, 128, 255]);
    match rng.below(8) {
        0 => any_figures(rng),
        1 => {
            let (field, value) = (rng.below(3), rng.byte());
            with_field(own, field, value)
        }
        2 => {
            let field = rng.below(3);
            let by = rng.pick(&[1, 255]);
            with_field(own, field, field_of(own, field).wrapping_add(by))
        }
        3 => Figures {
            no: own.yes,
            yes: own.no,
            lowest: own.lowest,
        },
        4 => Figures::default(),
        5 => Figures {
            no: edge(rng),
            yes: edge(rng),
            lowest: edge(rng),
        },
        6 => {
            let (field, value) = (rng.below(3), edge(rng));
            with_field(own, field, value)
        }
        _ => own,
    }
}

fn field_of(figures: Figures, field: usize) -> u8 {
    [figures.no, figures.yes, figures.lowest][field]
}

fn with_field(figures: Figures, field: usize, value: u8) -> Figures {
    let mut fields = [figures.no, figures.yes, figures.lowest];
    fields[field] = value;
    let [no, yes, lowest] = fields;
    Figures { no, yes, lowest }
}

/// A call with any figures, and what it left.
struct Call<'t> {
    operation: Operation,
    before: &'t Table,
    slaves: Vec<Slave>,
    answer: SlaveFound,
    after: &'t Table,
    left: Vec<Slave>,
}

impl Call<'_> {
    fn what(&self) -> String {
        let Call {
            operation,
            before,
            slaves,
            answer,
            after,
            left,
        } = self;
        let (from, to, n) = (before.figures, after.figures, slaves.len());
        format!(
            "{operation:X?} with {from:?} on {n} entries {slaves:X?} gave {answer:X?} and {to:?} and \
             left {left:X?}"
        )
    }

    /// The figures handed over are those of the table.
    fn was_true(&self) -> bool {
        self.slaves.len() == SLAVES && self.before.figures == counted_figures(&self.slaves)
    }

    fn is_true(&self) -> bool {
        self.left.len() == SLAVES && self.after.figures == counted_figures(&self.left)
    }

    /// The indices of the entries that it changed.
    fn changed(&self) -> Vec<usize> {
        let entries = self.slaves.iter().zip(&self.left).enumerate();
        let changed = entries.filter(|(_, (before, after))| before != after);
        changed.map(|(index, _)| index).collect()
    }

    /// The owner's figure as it was handed over.
    fn held(&self) -> u8 {
        let Figures { no, yes, .. } = self.before.figures;
        if self.operation.owner() {
            yes
        } else {
            no
        }
    }

    /// The refusal by counting, 0 for none.
    fn by_counting(&self) -> u32 {
        let refusals = refusals(self.operation, &self.slaves);
        refusals.first().copied().unwrap_or(0)
    }
}

// By document 02's words: only 16, the entry taken and the figures afterwards are free

impl Call<'_> {
    /// Any number but 0 and 16 when entering is that by counting, and where counting gives neither,
    /// none of them is given.
    fn number_holds(&self) -> bool {
        let (number, counted) = (self.answer.number, self.by_counting());
        let free = matches!(self.operation, Enter(_)) && [0, 16].contains(&counted);
        number == counted || free && [0, 16].contains(&number)
    }

    /// A refusal changes nothing; entering takes one entry, which was free; any other call does to the
    /// table what it does by counting. All other bytes stay.
    fn table_holds(&self) -> bool {
        let changed = self.changed();
        let named = match (self.operation, self.answer.number) {
            (_, 1..) => None,
            (Enter(slave), 0) => match changed[..] {
                [index] if self.slaves[index].address == 0 && self.left[index] == slave => {
                    Some(index)
                }
                _ => return false,
            },
            (operation, 0) => match named(operation, &self.slaves) {
                Some((index, slave)) if self.left[index] == slave => Some(index),
                Some(_) => return false,
                None => None,
            },
        };
        let one = changed.iter().all(|index| Some(*index) == named);
        one && self.after.kept_all_but(named, self.before.bytes())
    }

    fn identifiers_hold(&self) -> bool {
        let expected = match self.answer.number {
            0 => told(self.operation, &self.slaves),
            _ => (0, 0),
        };
        (self.answer.product, self.answer.device) == expected
    }

    /// A refusal gives the figures back. From true ones the answer is that by counting, the lowest free
    /// entry is taken, and true ones are left.
    fn figures_hold(&self) -> bool {
        if self.answer.number != 0 && self.after.figures != self.before.figures {
            return false;
        }
        let entered = matches!(self.operation, Enter(_)) && self.answer.number == 0;
        let lowest = !entered || self.changed().first().copied() == lowest_free(&self.slaves);
        let number = self.answer.number == self.by_counting();
        !self.was_true() || number && lowest && self.is_true()
    }
}

// By the words of include/vbus.h, which leave nothing free

impl Call<'_> {
    /// The free entries from the lowest on that the figures have.
    fn free(&self) -> impl Iterator<Item = usize> + '_ {
        let from = usize::from(self.before.figures.lowest);
        let entries = self.slaves.iter().enumerate().skip(from);
        let free = entries.filter(|(_, slave)| slave.address == 0);
        free.map(|(index, _)| index)
    }

    /// The refusals that apply, in their order.
    fn refusals(&self) -> Vec<u32> {
        let mut numbers = refusals(self.operation, &self.slaves);
        numbers.retain(|number| *number != 16);
        let full = self.held() >= 24 || self.free().next().is_none();
        if matches!(self.operation, Enter(_)) && full {
            numbers.push(16);
        }
        numbers
    }

    /// The figures afterwards.
    fn figures(&self) -> Figures {
        let mut figures = self.before.figures;
        if self.answer.number != 0 {
            return figures;
        }
        let held = if self.operation.owner() {
            &mut figures.yes
        } else {
            &mut figures.no
        };
        match self.operation {
            Enter(_) => {
                *held += 1;
                figures.lowest = self.free().nth(1).unwrap_or(SLAVES) as u8;
            }
            Remove(..) => {
                if *held > 0 {
                    *held -= 1;
                }
                if let [index] = self.changed()[..] {
                    if usize::from(figures.lowest) > index {
                        figures.lowest = index as u8;
                    }
                }
            }
            Find(..) | ChangeAddress(..) => {}
        }
        figures
    }

    /// The entry that is taken is the lowest free one from the lowest on.
    fn taken_holds(&self) -> bool {
        let entered = matches!(self.operation, Enter(_)) && self.answer.number == 0;
        !entered || self.changed().first().copied() == self.free().next()
    }

    /// What it is counted as among these.
    fn function(&self) -> &'static str {
        match self.operation {
            Enter(_) => "enter, any",
            Find(..) => "find, any",
            ChangeAddress(..) => "change, any",
            Remove(..) => "remove, any",
        }
    }

    /// The kinds that it is of, if its figures were false.
    fn kinds(&self) -> Vec<&'static str> {
        if self.slaves.len() != SLAVES || self.was_true() {
            return Vec::new();
        }
        let (number, counted) = (self.answer.number, self.by_counting());
        let figures = self.before.figures;
        let low = usize::from(figures.lowest);
        let index = self.changed().first().copied();
        let entering = matches!(self.operation, Enter(_));
        let entered = entering && number == 0;
        let removed = matches!(self.operation, Remove(..)) && number == 0;
        let denied = entering && number == 16 && counted == 0;
        let taken = low < SLAVES && self.slaves[low].address != 0;
        let last = self.after.figures.lowest == SLAVES as u8;
        let changed = figures != self.after.figures;
        let kinds = [
            (FULL_BY_SHARE, denied && self.held() >= 24),
            (FULL_BY_LOWEST, denied && self.held() < 24),
            (ROOM, entered && counted == 16),
            (OTHER_ENTRY, entered && index != lowest_free(&self.slaves)),
            (LOWEST_TAKEN, entered && taken),
            (LOWEST_ABOVE, denied && low > SLAVES),
            (
                NONE_BEHIND,
                entered && last && lowest_free(&self.left).is_some(),
            ),
            (ZERO_STAYS, removed && self.held() == 0),
            (NOT_RAISED, removed && index > Some(low)),
            (BECAME_TRUE, changed && self.is_true()),
            (STAYED_FALSE, changed && !self.is_true()),
        ];
        let kinds = kinds.into_iter().filter(|(_, is)| *is);
        kinds.map(|(kind, _)| kind).collect()
    }
}

impl Checker {
    /// A call on a table with the figures that it has, whatever they are.
    fn with_any_figures(&mut self, table: &mut Table, operation: Operation) -> Checked<()> {
        let before = table.clone();
        let (answer, left) = self.on_table(table, operation)?;
        self.count(CALLS);
        let call = Call {
            operation,
            before: &before,
            slaves: before.slaves(),
            answer,
            after: table,
            left,
        };
        for (what, holds) in [
            ("only 16 is free", call.number_holds()),
            ("only a free entry is taken", call.table_holds()),
            ("the identifiers are those found", call.identifiers_hold()),
            ("figures come back, and stay true", call.figures_hold()),
            ("the entry is that of the figures", call.taken_holds()),
        ] {
            self.holds(holds, || format!("{what}: {}", call.what()))?;
        }
        let refusals = call.refusals();
        self.first_given(call.function(), answer.number, &refusals, || call.what())?;
        let figures = call.figures();
        self.holds(call.after.figures == figures, || {
            format!("{} and not {figures:?}", call.what())
        })?;
        for kind in call.kinds() {
            self.count(kind);
        }
        Ok(())
    }

    /// Whether these figures are the table's, by the check and by making a `vbus::SlaveTable`.
    fn check_figures(&mut self, table: &mut Table, figures: Figures) -> Checked<()> {
        let before = table.clone();
        let answer = self.slave_check_figures(table, figures)?;
        let slaves = table.slaves();
        let own = counted_figures(&slaves);
        let length = slaves.len() == SLAVES;
        let what = || format!("checking {figures:?} of {slaves:X?} gave {answer:?}");
        let refusals: &[u32] = if length { &[] } else { &[24] };
        self.first_given("check_figures", answer.number, refusals, what)?;
        self.holds(answer.right == (length && figures == own), what)?;
        let kept = before.bytes() == table.bytes();
        self.holds(kept, || format!("{} and changed the table", what()))?;
        if let Ok(entries) = <[Slave; SLAVES]>::try_from(&slaves[..]) {
            let (entries, figures) = (entries.map(wrapper), wrapped_figures(figures));
            let made = SlaveTable::from_parts(entries, figures);
            let same = match made {
                Some(made) => answer.right && made.into_parts() == (entries, figures),
                None => !answer.right,
            };
            self.holds(same, || format!("vbus::SlaveTable::from_parts: {}", what()))?;
        }
        let wrong = [0, 1, 2].map(|field| field_of(figures, field) != field_of(own, field));
        let kind = match (length, wrong) {
            (false, _) => WRONG_LENGTH,
            (_, [false, false, false]) => RIGHT,
            (_, [true, false, false]) => WRONG_NO,
            (_, [false, true, false]) => WRONG_YES,
            (_, [false, false, true]) => WRONG_LOWEST,
            _ if (figures.no, figures.yes) == (own.yes, own.no) => EXCHANGED,
            _ => return Ok(()),
        };
        self.count(kind);
        Ok(())
    }

    fn shared_anyhow(&mut self, one: usize, other: usize) -> Vec<Slave> {
        let (exchanged, zeroed) = (self.rng.once_in(2), self.rng.once_in(2));
        if exchanged {
            self.shared(other, one, zeroed)
        } else {
            self.shared(one, other, zeroed)
        }
    }

    /// A slave of either owner with one of these addresses, and identifiers of any width.
    fn garbage_of(&mut self, addresses: &[u16]) -> Slave {
        Slave {
            address: self.rng.pick(addresses),
            owner: self.rng.once_in(2),
            product: self.rng.next() as u32,
            device: self.rng.next() as u32,
        }
    }

    /// Calls of both owners that reach each answer, whatever the figures.
    fn calls_on(&mut self, slaves: &[Slave]) -> Vec<Operation> {
        let mut calls = Vec::new();
        for owner in [false, true] {
            let fresh = self.numbered(owner, SLAVES);
            let own = slaves.iter().filter(|slave| slave.owner == owner);
            let addresses: Vec<u16> = own.map(|slave| slave.address).collect();
            let address = match addresses[..] {
                [] => 0,
                _ => self.rng.pick(&addresses),
            };
            let device = 1 << 24;
            calls.extend([
                Enter(fresh),
                Enter(Slave { address, ..fresh }),
                Enter(Slave { device, ..fresh }),
                Remove(owner, address),
                Remove(owner, fresh.address),
                ChangeAddress(owner, address, fresh.address),
                Find(owner, address),
            ]);
        }
        calls
    }

    /// Each value of each figure, with the others true, on tables of every shape.
    pub fn every_figure(&mut self) -> Checked<()> {
        for (class, shape) in SHAPES {
            for _ in 0..4 {
                let slaves = shape(self);
                self.every_figure_of(&slaves)?;
                self.count(class);
            }
        }
        Ok(())
    }

    fn every_figure_of(&mut self, slaves: &[Slave]) -> Checked<()> {
        let mut table = Table::new(&mut self.rng, slaves);
        let own = table.figures;
        for field in 0..3 {
            for value in 0..=255 {
                table.figures = with_field(own, field, value);
                self.check_figures(&mut table, with_field(own, field, value))?;
                for call in self.calls_on(slaves) {
                    self.with_any_figures(&mut table.clone(), call)?;
                }
            }
        }
        Ok(())
    }

    /// Figures with tables of every length up to some, and of those that have 32 as their low byte or
    /// word.
    pub fn every_length_with_figures(&mut self) -> Checked<()> {
        for length in (0..=70).chain([255, 256, 256 + SLAVES, 65_536 + SLAVES]) {
            for slave in [Slave::default(), self.plain_slave()] {
                let mut table = Table::new(&mut self.rng, &vec![slave; length]);
                let own = table.figures;
                for figures in [own, Figures::default(), any_figures(&mut self.rng)] {
                    self.check_figures(&mut table, figures)?;
                    for call in self.calls_on(&[slave]) {
                        let mut table = table.clone();
                        table.figures = figures;
                        self.with_any_figures(&mut table, call)?;
                    }
                }
            }
        }
        Ok(())
    }

    /// A run with figures of any kind, which go on as they came back, or are others for each call.
    pub fn random_figures(&mut self) -> Checked<()> {
        let (length, calls) = match self.rng.below(16) {
            0 => (self.rng.pick(&WRONG_LENGTHS), 4),
            _ => (SLAVES, 60),
        };
        let (slaves, addresses) = self.start(length);
        let operations = self.operations(&addresses, calls);
        let mut table = Table::new(&mut self.rng, &slaves);
        table.figures = figures(&mut self.rng, table.figures);
        let others = self.rng.once_in(3);
        for operation in operations {
            if others {
                let own = counted_figures(&table.slaves());
                table.figures = figures(&mut self.rng, own);
            }
            self.with_any_figures(&mut table, operation)?;
            if self.rng.once_in(4) {
                let own = counted_figures(&table.slaves());
                let checked = figures(&mut self.rng, own);
                self.check_figures(&mut table, checked)?;
                let came_back = table.figures;
                self.check_figures(&mut table, came_back)?;
            }
        }
        Ok(())
    }

    /// Runs until so many calls were made as every run makes.
    pub fn many_figures(&mut self) -> Checked<()> {
        while self.cases.get(CALLS).is_none_or(|calls| *calls < LEAST) {
            self.random_figures()?;
        }
        Ok(())
    }
}
