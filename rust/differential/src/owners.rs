//! The two owners of a table of slaves: how many entries each may hold, and what one can tell of the
//! other.

use crate::check::{Checked, Checker};
use crate::library::Entry;
use crate::slaves::{counted_figures, operation, slaves_address, Habits, Operation, SLAVES};
use crate::slaves::{ChangeAddress, Enter, Find, Remove};
use reference::{Figures, Slave, SlaveFound};

/// So many calls in histories every run makes, however short it is.
pub const LEAST: u64 = 2_000_000;

/// The calls in histories.
pub const CALLS: &str = "owners: calls";

/// Two histories of an owner to their end with the same 16s, and those of them in which it met some
/// with fewer than 24 entries; those whose 16s differed somewhere; and the owners that got their eighth
/// entry beside a neighbour with 24. Where one stays 0 the run has shown less than it claims.
const KINDS: [&str; 4] = [AGREED, CROWDED, PARTED, EIGHTH];
const AGREED: &str = "owners: agreed";
const CROWDED: &str = "owners: 16s agreed";
const PARTED: &str = "owners: parted";
const EIGHTH: &str = "owners: the eighth";

/// All classes that are counted.
pub fn counted() -> impl Iterator<Item = &'static str> {
    KINDS.into_iter()
}

/// The address of an owner's slave number `number`, below 127; its neighbour's has the same one.
pub fn address(number: usize) -> u16 {
    let group = number as u16 + 1;
    0x2000 | group >> 3 << 8 | (group & 7) << 4
}

// How many entries an owner may hold

impl Checker {
    pub fn numbered(&mut self, owner: bool, number: usize) -> Slave {
        Slave {
            address: address(number),
            owner,
            ..self.plain_slave()
        }
    }

    /// A table with so many entries of each owner, wherever they stand. What the free ones have beside
    /// their address may be anything, if they aren't zeroed.
    pub fn shared(&mut self, yes: usize, no: usize, zeroed: bool) -> Vec<Slave> {
        let yes = (0..yes).map(|number| (true, number));
        let no = (0..no).map(|number| (false, number));
        let mut left: Vec<Slave> = yes
            .chain(no)
            .map(|(owner, number)| self.numbered(owner, number))
            .collect();
        left.resize_with(SLAVES, || {
            if zeroed {
                Slave::default()
            } else {
                Slave {
                    address: 0,
                    ..self.plain_slave()
                }
            }
        });
        (0..SLAVES)
            .map(|_| left.swap_remove(self.rng.below(left.len())))
            .collect()
    }

    /// Every two numbers of entries, and one more of each owner's.
    pub fn every_share(&mut self) -> Checked<()> {
        for yes in 0..=SLAVES {
            for no in 0..=SLAVES - yes {
                for zeroed in [false, true] {
                    let slaves = self.shared(yes, no, zeroed);
                    self.one_more(&slaves, true, yes, no)?;
                    self.one_more(&slaves, false, no, yes)?;
                }
            }
        }
        Ok(())
    }

    /// 16 exactly if the owner that enters a slave holds 24 or more, or no entry is free.
    fn one_more(
        &mut self,
        slaves: &[Slave],
        owner: bool,
        held: usize,
        others: usize,
    ) -> Checked<()> {
        let expected = match (held, held + others) {
            (24.., _) => 16,
            (_, 32) => 16,
            _ => 0,
        };
        let slave = self.numbered(owner, SLAVES);
        let numbers = self.run_on(slaves, [Enter(slave)])?;
        self.holds(numbers == [expected], || {
            format!(
                "one more for an owner with {held}, beside {others}, gives {expected}; \
                 it gave {numbers:?}"
            )
        })
    }

    /// From the empty table on: 24 entries of the one owner and 8 of the other, entered in any order,
    /// then the 25th and the ninth, before and after one of them is removed.
    pub fn shares_by_calls(&mut self) -> Checked<()> {
        for one in [false, true] {
            for round in 0..100 {
                let mut owners = [vec![one; 24], vec![!one; 8]].concat();
                match round {
                    0 => {}
                    1 => owners.reverse(),
                    _ => self.shuffle(&mut owners),
                }
                self.fill(one, &owners)?;
            }
        }
        Ok(())
    }

    fn shuffle(&mut self, owners: &mut [bool]) {
        for i in 1..owners.len() {
            owners.swap(i, self.rng.below(i + 1));
        }
    }

    /// Enters a slave for each of these owners, 24 of the one and 8 of the other, then goes on.
    fn fill(&mut self, one: bool, owners: &[bool]) -> Checked<()> {
        let mut held = [0, 0];
        let mut script = Vec::new();
        for &owner in owners {
            let number = &mut held[usize::from(owner)];
            script.push((Enter(self.numbered(owner, *number)), 0));
            *number += 1;
        }
        let other = !one;
        let mut enter = |owner, number| Enter(self.numbered(owner, number));
        script.extend([
            (enter(one, 24), 16),
            (enter(other, 8), 16),
            // An entry that the other gives up is of no use to the one, which has 24.
            (Remove(other, address(0)), 0),
            (enter(one, 24), 16),
            (enter(other, 8), 0),
            (enter(other, 9), 16),
            // One that the one gives up is of use to the other, and then none is free for the one.
            (Remove(one, address(0)), 0),
            (enter(other, 9), 0),
            (enter(one, 24), 16),
            (enter(other, 10), 16),
            (Remove(other, address(1)), 0),
            (enter(one, 24), 0),
            (enter(one, 25), 16),
            // Each still has its own.
            (Find(one, address(24)), 0),
            (Find(other, address(24)), 17),
            (Find(one, address(1)), 0),
            (Find(other, address(1)), 17),
            (ChangeAddress(other, address(2), address(24)), 0),
            (ChangeAddress(other, address(3), address(24)), 15),
            (Find(one, address(24)), 0),
        ]);
        let (calls, expected): (Vec<Operation>, Vec<u32>) = script.into_iter().unzip();
        let numbers = self.run_on(&[Slave::default(); SLAVES], calls.iter().copied())?;
        self.holds(numbers == expected, || {
            format!("{calls:X?} gives {expected:?}; it gave {numbers:?}")
        })
    }
}

// What an owner can tell of its neighbour

/// What the neighbour does before each of an owner's calls.
#[derive(Clone, Copy)]
enum Neighbour<'a> {
    Idle,
    /// Some calls of any kind.
    Busy,
    /// Some calls that mostly enter slaves.
    Greedy,
    /// Some calls of any kind, then as many as it takes for the owner to get 16 just where it got it in
    /// this history.
    Following(&'a [Told]),
}

use Neighbour::{Busy, Following, Greedy, Idle};

/// What an owner was answered, and how many entries it had before, by its own calls.
#[derive(Clone, Copy, Debug)]
struct Told {
    answer: SlaveFound,
    held: i64,
}

/// A table from the empty one on with its figures, and all calls on it.
struct History {
    table: [Entry; SLAVES],
    figures: Figures,
    calls: Vec<Operation>,
}

impl History {
    fn new() -> History {
        History {
            table: [Entry::new(Slave::default(), 0); SLAVES],
            figures: Figures::default(),
            calls: Vec::new(),
        }
    }

    fn slaves(&self) -> [Slave; SLAVES] {
        self.table.map(Entry::slave)
    }

    fn has_free(&self) -> bool {
        self.table.iter().any(|entry| entry.address == 0)
    }

    /// The addresses of an owner's entries.
    fn addresses_of(&self, owner: bool) -> Vec<u16> {
        let own = self
            .slaves()
            .into_iter()
            .filter(|slave| slave.address != 0 && slave.owner == owner);
        own.map(|slave| slave.address).collect()
    }
}

/// An owner and its calls.
struct Own<'a> {
    owner: bool,
    calls: &'a [Operation],
    /// The addresses that its calls, and its neighbour's, are mostly about.
    addresses: &'a [u16],
}

impl Checker {
    /// A call of the library alone. The figures stay those that counting gives.
    fn go_on(&mut self, history: &mut History, operation: Operation) -> Checked<SlaveFound> {
        self.calls += 1;
        self.count(CALLS);
        history.calls.push(operation);
        let calls = &history.calls;
        self.note(|| format!("the last of {calls:X?}"));
        let answer = operation.by_library(&mut history.table, &mut history.figures);
        let (figures, counted) = (history.figures, counted_figures(&history.slaves()));
        let calls = &history.calls;
        self.holds(figures == counted, || {
            format!("{calls:X?} leave {counted:?}; they left {figures:?}")
        })?;
        Ok(answer)
    }

    /// An owner's calls, with its neighbour's between them, on an empty table. With fewer than eight
    /// entries it never gets 16.
    fn history(&mut self, own: &Own, neighbour: Neighbour) -> Checked<(History, Vec<Told>)> {
        let mut history = History::new();
        let mut told = Vec::new();
        let mut held = 0;
        for (index, call) in own.calls.iter().enumerate() {
            self.neighbours_turn(&mut history, own, neighbour, index)?;
            let full = held == 7 && history.addresses_of(!own.owner).len() == 24;
            let answer = self.go_on(&mut history, *call)?;
            let calls = &history.calls;
            self.holds(answer.number != 16 || held >= 8, || {
                format!("{held} entries are too few for 16: {calls:X?}")
            })?;
            told.push(Told { answer, held });
            held += match (call, answer.number) {
                (Enter(_), 0) => 1,
                (Remove(..), 0) => -1,
                _ => 0,
            };
            if full && held == 8 {
                self.count(EIGHTH);
            }
        }
        Ok((history, told))
    }

    fn neighbours_turn(
        &mut self,
        history: &mut History,
        own: &Own,
        neighbour: Neighbour,
        index: usize,
    ) -> Checked<()> {
        let filling = match neighbour {
            Idle => return Ok(()),
            Busy | Following(_) => false,
            Greedy => true,
        };
        let habits = Habits {
            filling,
            owner: !own.owner,
            other: 0,
        };
        for _ in 0..self.rng.below(4) {
            let call = operation(&mut self.rng, own.addresses, &habits);
            self.go_on(history, call)?;
        }
        if let (Following(told), Enter(_)) = (neighbour, own.calls[index]) {
            self.follow(history, own, told[index].answer.number == 16)?;
        }
        Ok(())
    }

    /// Leaves the owner no entry, or one at least.
    fn follow(&mut self, history: &mut History, own: &Own, full: bool) -> Checked<()> {
        let neighbour = !own.owner;
        if full {
            // Those that it has already are refused as 15.
            let mut numbers = 0..127;
            while history.has_free() {
                let Some(number) = numbers.next() else { break };
                let slave = self.numbered(neighbour, number);
                self.go_on(history, Enter(slave))?;
            }
        } else if !history.has_free() {
            let addresses = history.addresses_of(neighbour);
            if !addresses.is_empty() {
                let address = self.rng.pick(&addresses);
                self.go_on(history, Remove(neighbour, address))?;
            }
        }
        Ok(())
    }

    /// The same calls of an owner with other calls of its neighbour: as long as its 16s are the same,
    /// so are its answers.
    pub fn random_owners(&mut self) -> Checked<()> {
        let rng = &mut self.rng;
        let owner = rng.once_in(2);
        let many = rng.pick(&[12, 30, 48]);
        let addresses: Vec<u16> = (0..many).map(|_| slaves_address(rng)).collect();
        let habits = Habits {
            filling: rng.once_in(2),
            owner,
            other: 0,
        };
        let length = rng.pick(&[20, 100, 200]);
        let mut calls: Vec<Operation> = (0..length)
            .map(|_| operation(rng, &addresses, &habits))
            .collect();
        calls.extend(addresses.iter().map(|address| Find(owner, *address)));
        let own = Own {
            owner,
            calls: &calls,
            addresses: &addresses,
        };
        let first = rng.pick(&[Idle, Busy, Greedy]);
        let (history, told) = self.history(&own, first)?;
        let second = self
            .rng
            .pick(&[Idle, Busy, Greedy, Following(&told), Following(&told)]);
        let (other_history, others) = self.history(&own, second)?;
        let what = |index: usize| {
            let [first, second] = [told[index].answer, others[index].answer];
            format!(
                "{:X?}, call {index} of owner {owner}, has the same answer, {first:X?} or \
                 {second:X?}, after\n  {:X?}\n  {:X?}",
                calls[index], history.calls, other_history.calls
            )
        };
        self.same_told(&told, &others, what)
    }

    /// Compares what an owner was told in two histories, up to where one 16 differs.
    fn same_told(
        &mut self,
        told: &[Told],
        others: &[Told],
        what: impl Fn(usize) -> String,
    ) -> Checked<()> {
        let mut crowded = false;
        for (index, (first, second)) in told.iter().zip(others).enumerate() {
            let numbers = [first.answer.number, second.answer.number];
            if numbers == [0, 16] || numbers == [16, 0] {
                self.count(PARTED);
                return Ok(());
            }
            self.holds(first.answer == second.answer, || what(index))?;
            crowded |= numbers[0] == 16 && first.held < 24;
        }
        self.count(AGREED);
        if crowded {
            self.count(CROWDED);
        }
        Ok(())
    }

    /// Histories until so many calls were made as every run makes.
    pub fn many_owners(&mut self) -> Checked<()> {
        while self.cases.get(CALLS).is_none_or(|calls| *calls < LEAST) {
            self.random_owners()?;
        }
        Ok(())
    }
}
