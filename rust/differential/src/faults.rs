//! The 0xAA of recordings that gave no record, and whether the reasons told for them are true.

use crate::check::{hex, Checked, Checker};
use crate::naive::{self, Delivered};
use crate::receiver::any_recording;
use reference::Fault;
use vbus::{FaultEntry, Verdict};

/// The faults of random recordings by what they tell, and how many of their reasons were tried by
/// letting the bytes grow. Where one stays 0 the run has shown less than it claims.
const CLASSES: [(&str, &str); 9] = [
    ("faults: V2 cut off", "reasons: V2 cut off"),
    ("faults: V2 other", "reasons: V2 other"),
    ("faults: V3", "reasons: V3"),
    ("faults: V4 packet", "reasons: V4 packet"),
    ("faults: V4 datagram", "reasons: V4 datagram"),
    ("faults: V4 telegram", "reasons: V4 telegram"),
    ("faults: V6 packet", "reasons: V6 packet"),
    ("faults: V6 telegram", "reasons: V6 telegram"),
    ("faults: V7", "reasons: V7"),
];

/// Recordings without a fault.
const NONE: &str = "faults: none";

/// All these classes.
pub fn counted() -> impl Iterator<Item = &'static str> {
    let classes = CLASSES.into_iter();
    classes
        .flat_map(|(fault, reason)| [fault, reason])
        .chain([NONE])
}

/// The class of the first fault of a stretch.
fn class(stretch: &[u8], fault: &Fault) -> (&'static str, &'static str) {
    // The version, if the verdict is one that comes behind it.
    let version = stretch.get(5);
    CLASSES[match (fault.verdict, version) {
        (2, _) if fault.byte == 0xAA => 0,
        (2, _) => 1,
        (3, _) => 2,
        (4, Some(0x10)) => 3,
        (4, Some(0x20)) => 4,
        (4, _) => 5,
        (6, Some(0x10)) => 6,
        (6, _) => 7,
        _ => 8,
    }]
}

/// What the crate `vbus` gives for this answer.
fn wrapper(fault: &Fault) -> Option<FaultEntry> {
    // There is no verdict 0: where none is found there is no entry.
    let verdict = Verdict::from_number(fault.verdict)?;
    Some(FaultEntry {
        place: fault.place,
        fault: vbus::Fault {
            verdict,
            offset: fault.offset,
        },
        byte: fault.has_byte.then_some(fault.byte),
        wanted: fault.has_wanted.then_some(fault.wanted),
    })
}

/// No byte is wanted, and what isn't there is 0.
fn nothing_wanted(fault: &Fault) -> bool {
    !fault.has_wanted && fault.wanted == 0
}

impl Checker {
    /// All faults of a recording, one after the other; and the crate's, with their lines.
    pub fn told_faults(&mut self, input: &[u8]) -> Checked<Vec<Fault>> {
        let mut faults = Vec::new();
        let mut wrapped = vbus::faults(input);
        let mut start = 0;
        loop {
            let fault = self.next_fault(input, start)?;
            let entry = wrapped.next();
            let line = entry.map(|entry| entry.to_string());
            let expected = fault.found.then(|| reference::line(&fault));
            let same = entry == wrapper(&fault) && line == expected;
            self.holds(same, || {
                let input = hex(input);
                format!("vbus::faults of {input} gives {expected:?}; it gave {line:?}, {entry:X?}")
            })?;
            if !fault.found {
                break;
            }
            start = fault.place + 1;
            faults.push(fault);
        }
        let ended = wrapped.next().is_none();
        self.holds(ended, || format!("vbus::faults of {} ends", hex(input)))?;
        Ok(faults)
    }

    /// Each 0xAA is the place of a record or of a fault, and nothing else is; in a short recording by
    /// trying every place.
    pub fn all_faults(&mut self, input: &[u8], records: &[Delivered]) -> Checked<()> {
        let faults = self.told_faults(input)?;
        let places: Vec<usize> = faults.iter().map(|fault| fault.place).collect();
        let syncs = || (0..input.len()).filter(|&place| input[place] == 0xAA);
        let mut both = places.clone();
        both.extend(records.iter().map(|record| record.position as usize));
        both.sort_unstable();
        self.holds(syncs().eq(both.iter().copied()), || {
            let input = hex(input);
            format!("each 0xAA of {input} is once a record's or a fault's place: {both:?}")
        })?;
        if input.len() <= naive::MOST {
            let without = syncs().filter(|&place| naive::whole_stream(&input[place..]).is_none());
            self.holds(without.eq(places.iter().copied()), || {
                let input = hex(input);
                format!("the places of {input} without a record; told were {places:?}")
            })?;
        }
        Ok(())
    }

    /// Counts the faults of a random recording, and tries the reason told for one of them.
    pub fn random_faults(&mut self, input: &[u8]) -> Checked<()> {
        let faults: Vec<Fault> = reference::faults(input).collect();
        if faults.is_empty() {
            self.count(NONE);
            return Ok(());
        }
        for fault in &faults {
            self.count(class(&input[fault.place..], fault).0);
        }
        let fault = self.rng.pick(&faults);
        let stretch = &input[fault.place..];
        self.reason(stretch, &fault)?;
        self.count(class(stretch, &fault).1);
        Ok(())
    }

    /// The reasons told for all faults of a recording.
    pub fn all_reasons(&mut self, input: &[u8]) -> Checked<()> {
        for fault in self.told_faults(input)? {
            self.reason(&input[fault.place..], &fault)?;
        }
        Ok(())
    }

    /// The bytes before the offset can grow into a whole stream, and with the byte found there they no
    /// longer can; or there is no more, and all of them can.
    fn reason(&mut self, stretch: &[u8], fault: &Fault) -> Checked<()> {
        let what = |what: &str| format!("{what}: {fault:X?} of {}", hex(stretch));
        let Some(before) = stretch.get(..fault.offset) else {
            return self.holds(false, || what("the offset lies within"));
        };
        let can_grow = naive::can_grow(before);
        self.holds(can_grow, || what("the bytes before can grow"))?;
        let Some(&byte) = stretch.get(fault.offset) else {
            let ended = fault.verdict == 7 && !fault.has_byte && nothing_wanted(fault);
            return self.holds(ended && fault.byte == 0, || what("the input ends"));
        };
        self.holds(fault.has_byte && fault.byte == byte, || what("the byte"))?;
        let verdict = naive::verdict(before, byte);
        self.holds(fault.verdict == verdict, || what("the verdict"))?;
        let with = &stretch[..=fault.offset];
        self.holds(!naive::can_grow(with), || what("with the byte they can't"))?;
        for version in [0x10, 0x20, 0x30, 0x31] {
            let rng = &mut self.rng;
            let grown = naive::grown_with(with, version, || rng.byte() & 0x7F);
            self.holds(grown.is_none(), || what("nor with others behind it"))?;
        }
        self.would_do(before, fault, what)
    }

    /// The bytes that could stand at the offset: for a checksum only the one wanted, for a version four.
    fn would_do(
        &mut self,
        before: &[u8],
        fault: &Fault,
        what: impl Fn(&str) -> String,
    ) -> Checked<()> {
        let would_do = || {
            let mut bytes = before.to_vec();
            bytes.push(0);
            let last = bytes.len() - 1;
            let fits = move |&byte: &u8| {
                bytes[last] = byte;
                naive::can_grow(&bytes)
            };
            (0..=255).filter(fits)
        };
        let right = match fault.verdict {
            4 | 6 => fault.has_wanted && would_do().eq([fault.wanted]),
            3 => nothing_wanted(fault) && would_do().eq([0x10, 0x20, 0x30, 0x31]),
            _ => nothing_wanted(fault),
        };
        self.holds(right, || what("the byte wanted"))
    }

    /// Any recording from every start, or from some if it is long: each time the first fault from there.
    pub fn faults_from_any_start(&mut self) -> Checked<()> {
        let input = any_recording(&mut self.rng);
        let faults = self.told_faults(&input)?;
        let n = input.len();
        let mut starts: Vec<usize> = match n {
            0..=64 => (0..n + 2).collect(),
            _ => (0..16).map(|_| self.rng.below(n + 2)).collect(),
        };
        starts.extend([1 << 32, self.rng.next() as usize, usize::MAX]);
        for start in starts {
            let fault = self.next_fault(&input, start)?;
            let first = faults.iter().find(|fault| fault.place >= start);
            let expected = first.copied().unwrap_or_default();
            self.holds(fault == expected, || {
                let input = hex(&input);
                format!(
                    "the first fault of {input} from {start} is {expected:X?}; told was {fault:X?}"
                )
            })?;
        }
        Ok(())
    }
}
