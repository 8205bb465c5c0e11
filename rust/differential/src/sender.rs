//! Senders: runs of calls from the start, held to what the sender was told and gave, and calls of senders
//! in any state.

use crate::check::{Checked, Checker, Hex, Refusals};
use crate::library;
use crate::recordings::MAX_STREAM;
use crate::rng::Rng;
use reference::{Sender, SenderSettings, Sent};

/// So many calls of senders every run makes, however short it is.
pub const LEAST: u64 = 1_000_000;

/// The calls of senders.
pub const CALLS: &str = "sender: calls";

/// Each function's refusals in their order. Each must be given, also where each of those behind it applies
/// too, or the run has shown less than it claims.
pub const ORDERS: [Refusals; 4] = [
    ("sender_start", &[19]),
    ("sender_enqueue", &[19, 20, 25]),
    ("sender_transmit", &[19, 5]),
    ("sender_wait", &[19]),
];

/// Kinds of calls. Where one stays 0 the run has shown less than it claims.
pub const KINDS: [&str; 27] = [
    NO_BYTES,
    LONGEST,
    ONE_TOO_MANY,
    BUSY_UNSENT,
    BUSY_WAITING,
    BUSY_BOTH,
    BY_ENERGY,
    THE_REST,
    EXACT_REST,
    AT_ONCE,
    EARLY,
    AFTER_LAST,
    NOTHING,
    ONE_LESS_ROOM,
    JUST_ROOM,
    MORE_ROOM,
    PARTLY,
    ONE_LESS,
    JUST_ENOUGH,
    ONE_MORE,
    NOT_COUNTED,
    BEYOND,
    ABOVE_LARGEST,
    SENT_ABOVE,
    QUEUED_PAST_END,
    SENT_PAST_END,
    FINISHED,
];
/// Queued no bytes, and 772; refused with 773.
const NO_BYTES: &str = "sender: no bytes";
const LONGEST: &str = "sender: 772 bytes";
const ONE_TOO_MANY: &str = "sender: 773 bytes";
/// Refused as 20: with bytes unsent, waiting, and both.
const BUSY_UNSENT: &str = "sender: 20, unsent";
const BUSY_WAITING: &str = "sender: 20, waiting";
const BUSY_BOTH: &str = "sender: 20 by both";
/// Handed out fewer bytes than were left, all that were left though there was energy for more, and just
/// as many as there was energy for.
const BY_ENERGY: &str = "sender: by energy";
const THE_REST: &str = "sender: the rest";
const EXACT_REST: &str = "sender: exact rest";
/// Handed out several bytes with energy keeping off.
const AT_ONCE: &str = "sender: all at once";
/// Handed out none: waiting with bytes unsent and without, and not waiting without.
const EARLY: &str = "sender: early";
const AFTER_LAST: &str = "sender: after last";
const NOTHING: &str = "sender: nothing";
/// Refused for a single byte of room; handed out with just as much, and with more.
const ONE_LESS_ROOM: &str = "sender: room, less";
const JUST_ROOM: &str = "sender: room, just";
const MORE_ROOM: &str = "sender: room, more";
/// Waited in part, by one microsecond too few, just long enough, and by one too many.
const PARTLY: &str = "sender: waits on";
const ONE_LESS: &str = "sender: 1 us less";
const JUST_ENOUGH: &str = "sender: just enough";
const ONE_MORE: &str = "sender: 1 us more";
/// Was told time while it didn't wait, and so much that 64 bits don't hold the gain.
const NOT_COUNTED: &str = "sender: not counted";
const BEYOND: &str = "sender: 2^64 gained";
/// Calls that weren't refused in states that no calls lead to: with more energy than the largest, more
/// bytes sent than queued, and more bytes queued and sent than the queue has.
const ABOVE_LARGEST: &str = "sender: above full";
const SENT_ABOVE: &str = "sender: sent above";
const QUEUED_PAST_END: &str = "sender: queued 773";
const SENT_PAST_END: &str = "sender: sent 773";
/// Became idle: all bytes of a queue were sent, in as many portions as the rules say.
const FINISHED: &str = "sender: all sent";

/// A call that answers with a sender.
#[derive(Clone, Debug)]
pub enum Operation {
    Start(SenderSettings),
    Enqueue(Hex),
    /// With so much room.
    Transmit(usize),
    Wait(u64),
}

use Operation::{Enqueue, Start, Transmit, Wait};

impl Operation {
    fn name(&self) -> &'static str {
        match self {
            Start(_) => "sender_start",
            Enqueue(_) => "sender_enqueue",
            Transmit(_) => "sender_transmit",
            Wait(_) => "sender_wait",
        }
    }

    pub fn room(&self) -> usize {
        match self {
            Transmit(room) => *room,
            _ => 0,
        }
    }

    pub fn by_library(&self, sender: Sender, queue: &mut [u8], out: &mut [u8]) -> Sent {
        match self {
            Start(settings) => library::sender_start(*settings),
            Enqueue(Hex(bytes)) => library::sender_enqueue(sender, queue, bytes),
            Transmit(_) => library::sender_transmit(sender, queue, out),
            Wait(microseconds) => library::sender_wait(sender, *microseconds),
        }
    }

    pub fn by_reference(&self, sender: Sender, queue: &mut [u8], out: &mut [u8]) -> Sent {
        match self {
            Start(settings) => reference::sender_start(*settings),
            Enqueue(Hex(bytes)) => reference::sender_enqueue(sender, queue, bytes),
            Transmit(_) => reference::sender_transmit(sender, queue, out),
            Wait(microseconds) => reference::sender_wait(sender, *microseconds),
        }
    }

    /// The number and the bytes handed out. The wrapper brings room for all of them.
    fn by_wrapper(&self, sender: &mut vbus::Sender) -> (u32, Hex) {
        let mut portion = Vec::new();
        let answer = match self {
            // The wrapper is made when a run starts.
            Start(_) => Ok(()),
            Enqueue(Hex(bytes)) => sender.enqueue(bytes),
            Transmit(_) => {
                portion.extend(sender.transmit());
                Ok(())
            }
            Wait(microseconds) => {
                sender.wait(*microseconds);
                Ok(())
            }
        };
        let number = answer.map_or_else(|error| error.number(), |()| 0);
        (number, Hex(portion))
    }
}

fn wrapped(settings: SenderSettings) -> vbus::SenderSettings {
    vbus::SenderSettings {
        max_energy: settings.max_energy,
        loss_per_byte: settings.loss_per_byte,
        gain_per_microsecond: settings.gain_per_microsecond,
    }
}

/// A sender of the library between two calls, with its queue.
#[derive(Clone, PartialEq, Debug)]
pub struct Sending {
    pub sender: Sender,
    pub queue: [u8; MAX_STREAM],
}

impl Sending {
    /// What the queue holds doesn't matter.
    fn new(sender: Sender, rng: &mut Rng) -> Sending {
        let mut queue = [0; MAX_STREAM];
        queue.fill_with(|| rng.byte());
        Sending { sender, queue }
    }
}

// What is told of a sender in any state

fn waits(sender: Sender) -> bool {
    sender.energy < sender.settings.max_energy
}

/// How many bytes are to be sent, as far as they stand in the queue.
fn unsent(sender: Sender) -> usize {
    sender.queued.min(MAX_STREAM).saturating_sub(sender.sent)
}

/// How many bytes would be handed out, one after the other while there is energy left for it.
fn portion(sender: Sender) -> usize {
    if waits(sender) {
        return 0;
    }
    let mut left = sender.settings.max_energy;
    let byte = |_: &usize| match sender.settings {
        SenderSettings { max_energy: 0, .. } => true,
        SenderSettings { loss_per_byte, .. } => {
            let enough = left >= loss_per_byte;
            left = left.saturating_sub(loss_per_byte);
            enough
        }
    };
    (0..unsent(sender)).take_while(byte).count()
}

/// How long it waits yet; as if a microsecond gave something back where it doesn't.
fn microseconds_left(sender: Sender) -> u64 {
    let SenderSettings {
        max_energy,
        gain_per_microsecond,
        ..
    } = sender.settings;
    let missing = u64::from(max_energy.saturating_sub(sender.energy));
    missing.div_ceil(gain_per_microsecond.max(1).into())
}

/// The refusals that apply, in their order. The room is too little also where the settings are wrong, if
/// there is a portion by them.
fn refusals(operation: &Operation, sender: Sender) -> Vec<u32> {
    let settings = match operation {
        Start(settings) => *settings,
        _ => sender.settings,
    };
    let [most, loss, gain] = [
        settings.max_energy,
        settings.loss_per_byte,
        settings.gain_per_microsecond,
    ];
    let wrong = most != 0 && (loss == 0 || gain == 0 || loss > most);
    let busy = waits(sender) || unsent(sender) > 0;
    let applying = match operation {
        Enqueue(Hex(bytes)) => vec![(19, wrong), (20, busy), (25, bytes.len() > MAX_STREAM)],
        Transmit(room) => vec![(19, wrong), (5, *room < portion(sender))],
        Start(_) | Wait(_) => vec![(19, wrong)],
    };
    let applying = applying.into_iter().filter(|(_, applies)| *applies);
    applying.map(|(number, _)| number).collect()
}

/// What a call that isn't refused leaves: how many bytes are handed out, the sender and its queue, and `out`.
fn left(operation: &Operation, before: &Sending, out: &[u8]) -> (usize, Sending, Vec<u8>) {
    let (mut length, mut after, mut out) = (0, before.clone(), out.to_vec());
    let sender = &mut after.sender;
    let SenderSettings {
        max_energy: most,
        loss_per_byte: loss,
        gain_per_microsecond: gain,
    } = sender.settings;
    match operation {
        Start(settings) => {
            *sender = Sender {
                settings: *settings,
                energy: settings.max_energy,
                ..Sender::default()
            }
        }
        Enqueue(Hex(bytes)) => {
            (sender.queued, sender.sent) = (bytes.len(), 0);
            after.queue[..bytes.len()].copy_from_slice(bytes);
        }
        Transmit(_) => {
            length = portion(*sender);
            let bytes = before.queue.iter().skip(sender.sent).take(length);
            out.iter_mut().zip(bytes).for_each(|(to, from)| *to = *from);
            sender.sent += length;
            if length > 0 {
                sender.energy = (0..length).fold(most, |left, _| left.saturating_sub(loss));
            }
        }
        Wait(microseconds) if waits(*sender) => {
            sender.energy = if *microseconds < microseconds_left(*sender) {
                sender.energy + *microseconds as u32 * gain
            } else {
                most
            }
        }
        Wait(_) => {}
    }
    (length, after, out)
}

fn kinds(operation: &Operation, before: Sender, sent: Sent) -> Vec<&'static str> {
    let Sender {
        settings,
        energy,
        queued,
        sent: handed_out,
    } = before;
    let done = sent.number == 0 && !matches!(operation, Start(_));
    let states = [
        (ABOVE_LARGEST, done && energy > settings.max_energy),
        (SENT_ABOVE, done && handed_out > queued),
        (QUEUED_PAST_END, done && queued > MAX_STREAM),
        (SENT_PAST_END, done && handed_out > MAX_STREAM),
    ];
    let kinds = match operation {
        Start(_) => Vec::new(),
        Enqueue(Hex(bytes)) => enqueue_kinds(bytes.len(), before, sent.number),
        Transmit(room) => transmit_kinds(*room, before, sent),
        Wait(microseconds) => wait_kinds(*microseconds, before, sent),
    };
    let kinds = kinds.into_iter().chain(states).filter(|(_, is)| *is);
    kinds.map(|(kind, _)| kind).collect()
}

type Kinds = Vec<(&'static str, bool)>;

fn enqueue_kinds(n: usize, before: Sender, number: u32) -> Kinds {
    let busy = number == 20;
    let (waits, unsent) = (waits(before), unsent(before) > 0);
    vec![
        (NO_BYTES, number == 0 && n == 0),
        (LONGEST, number == 0 && n == MAX_STREAM),
        (ONE_TOO_MANY, number == 25 && n == MAX_STREAM + 1),
        (BUSY_UNSENT, busy && unsent && !waits),
        (BUSY_WAITING, busy && waits && !unsent),
        (BUSY_BOTH, busy && waits && unsent),
    ]
}

fn transmit_kinds(room: usize, before: Sender, sent: Sent) -> Kinds {
    let (number, length) = (sent.number, sent.length);
    let (waits, unsent) = (waits(before), unsent(before));
    let last = length > 0 && length == unsent;
    let on = before.settings.max_energy > 0;
    let another = sent.sender.energy >= before.settings.loss_per_byte;
    vec![
        (BY_ENERGY, on && length > 0 && length < unsent),
        (THE_REST, on && last && another),
        (EXACT_REST, on && last && !another),
        (AT_ONCE, !on && length > 1),
        (EARLY, number == 0 && waits && unsent > 0),
        (AFTER_LAST, number == 0 && waits && unsent == 0),
        (NOTHING, number == 0 && !waits && unsent == 0),
        (ONE_LESS_ROOM, number == 5 && room + 1 == portion(before)),
        (JUST_ROOM, length > 0 && room == length),
        (MORE_ROOM, length > 0 && room > length),
    ]
}

fn wait_kinds(microseconds: u64, before: Sender, sent: Sent) -> Kinds {
    let left = microseconds_left(before);
    let waiting = sent.number == 0 && waits(before);
    let told = microseconds > 0;
    let gained = u128::from(before.settings.gain_per_microsecond) * u128::from(microseconds);
    vec![
        (PARTLY, waiting && told && waits(sent.sender)),
        (ONE_LESS, waiting && told && microseconds == left - 1),
        (JUST_ENOUGH, waiting && microseconds == left),
        (ONE_MORE, waiting && microseconds == left + 1),
        (NOT_COUNTED, sent.number == 0 && told && !waits(before)),
        (BEYOND, waiting && gained > u64::MAX.into()),
    ]
}

// A run from the start

/// What a sender was told and what it gave. The rules are checked by this alone: the sender's state is
/// nothing of it.
#[derive(Clone)]
struct History {
    settings: SenderSettings,
    /// The bytes queued last, and the portions of them.
    queued: Vec<u8>,
    portions: Vec<Vec<u8>>,
    /// Microseconds told since the last portion.
    told: u128,
}

impl History {
    fn handed_out(&self) -> usize {
        self.portions.iter().map(Vec::len).sum()
    }

    fn unsent(&self) -> &[u8] {
        &self.queued[self.handed_out()..]
    }

    /// How many bytes go at once.
    fn at_once(&self) -> usize {
        match self.settings.max_energy {
            0 => MAX_STREAM,
            most => (most / self.settings.loss_per_byte) as usize,
        }
    }

    /// The last portion's losses, and what was regained since.
    fn losses_and_gains(&self) -> (u128, u128) {
        let last = self.portions.last().map_or(0, Vec::len);
        let losses = match self.settings.max_energy {
            0 => 0,
            _ => last as u128 * u128::from(self.settings.loss_per_byte),
        };
        let gain = u128::from(self.settings.gain_per_microsecond);
        (losses, self.told * gain)
    }

    fn waits(&self) -> bool {
        let (losses, gains) = self.losses_and_gains();
        gains < losses
    }

    fn is_idle(&self) -> bool {
        !self.waits() && self.unsent().is_empty()
    }

    /// The largest, less the losses, plus the gains, at most the largest.
    fn energy(&self) -> u32 {
        let (losses, gains) = self.losses_and_gains();
        let most = u128::from(self.settings.max_energy);
        most.min(most + gains - losses) as u32
    }

    /// The least number of microseconds after which it doesn't wait.
    fn microseconds_left(&self) -> u64 {
        let (losses, gains) = self.losses_and_gains();
        let missing = losses.saturating_sub(gains);
        let gain = u128::from(self.settings.gain_per_microsecond.max(1));
        missing.div_ceil(gain) as u64
    }

    /// The number and the bytes that a call has to give.
    fn due(&self, operation: &Operation) -> (u32, Hex) {
        let unsent = self.unsent();
        let portion = &unsent[..unsent.len().min(self.at_once())];
        let (number, bytes) = match operation {
            Enqueue(_) if !self.is_idle() => (20, &[][..]),
            Enqueue(Hex(bytes)) if bytes.len() > MAX_STREAM => (25, &[][..]),
            Transmit(room) if !self.waits() && *room < portion.len() => (5, &[][..]),
            Transmit(_) if !self.waits() => (0, portion),
            _ => (0, &[][..]),
        };
        (number, Hex(bytes.to_vec()))
    }

    /// Goes on by a call that wasn't refused.
    fn follow(&mut self, operation: &Operation, portion: Vec<u8>) {
        match operation {
            Enqueue(Hex(bytes)) => {
                self.queued.clone_from(bytes);
                self.portions.clear();
                self.told = 0;
            }
            Transmit(_) if !portion.is_empty() => {
                self.portions.push(portion);
                self.told = 0;
            }
            Wait(microseconds) => self.told += u128::from(*microseconds),
            Start(_) | Transmit(_) => {}
        }
    }

    /// The portions are those of the bytes queued, in order, and an idle sender's are all and as many as
    /// the rules say.
    fn portions_hold(&self) -> bool {
        let went = self.portions.concat();
        let n = self.queued.len();
        let portions = match self.settings.max_energy {
            0 => usize::from(n > 0),
            _ => n.div_ceil(self.at_once()),
        };
        let all = went.len() == n && self.portions.len() == portions;
        self.queued.starts_with(&went) && (all || !self.is_idle())
    }
}

/// A sender, that of the `vbus` crate, and their history.
#[derive(Clone)]
struct Run {
    sending: Sending,
    wrapped: vbus::Sender,
    history: History,
}

// Cases

/// Numbers that settings may have.
const NUMBERS: [u32; 12] = [
    0,
    1,
    2,
    3,
    255,
    65_535,
    65_536,
    (1 << 31) - 1,
    1 << 31,
    (1 << 31) + 1,
    u32::MAX - 1,
    u32::MAX,
];

/// Byte counts that a state may have.
const COUNTS: [usize; 14] = [
    0,
    1,
    2,
    3,
    770,
    771,
    772,
    773,
    774,
    65_536,
    (1 << 32) + 1,
    1 << 63,
    usize::MAX - 1,
    usize::MAX,
];

fn settings(max_energy: u32, loss_per_byte: u32, gain_per_microsecond: u32) -> SenderSettings {
    SenderSettings {
        max_energy,
        loss_per_byte,
        gain_per_microsecond,
    }
}

/// Energy for so many bytes, or for the largest number of them that 32 bits allow, and for a part of
/// another one.
fn for_portions(rng: &mut Rng, at_once: u32, loss: u32, gain: u32) -> SenderSettings {
    let part = rng.below(loss as usize) as u32;
    let part = rng.pick(&[0, part, loss - 1]);
    let most = at_once.saturating_mul(loss).saturating_add(part);
    settings(most, loss, gain)
}

/// Settings that are accepted mostly.
fn any_settings(rng: &mut Rng) -> SenderSettings {
    let any = rng.next() as u32;
    let edges = [0, 1, 2].map(|_| rng.pick(&NUMBERS));
    let loss = rng.pick(&[1, 2, 3, 1_042, 65_536, 4_000_000, any >> 8 | 1]);
    let gain = rng.pick(&[1, 1, 2, 3, 7, 1_000, loss, loss + 1, any | 1, u32::MAX]);
    let at_once = rng.pick(&[1, 2, 3, 7, 16, 16, 100, 771, 772, 773, 5_000]);
    let right = for_portions(rng, at_once, loss, gain);
    match rng.below(16) {
        0 | 1 => SenderSettings {
            max_energy: 0,
            ..right
        },
        2 => settings(0, edges[1], edges[2]),
        3 | 4 => settings(edges[0], edges[1], edges[2]),
        5 => settings(any, rng.next() as u32, rng.next() as u32),
        6 => wrong_settings(rng, right),
        _ => right,
    }
}

/// The same, but wrong in one way.
fn wrong_settings(rng: &mut Rng, right: SenderSettings) -> SenderSettings {
    let (loss, gain) = (right.loss_per_byte, right.gain_per_microsecond);
    match rng.below(4) {
        0 => settings(right.max_energy, 0, gain),
        1 => settings(right.max_energy, loss, 0),
        2 => settings(loss - 1, loss, gain),
        _ => settings(right.max_energy, u32::MAX, gain),
    }
}

/// Microseconds to tell a sender with that gain that waits so many yet: also so many that the gain just
/// passes 32 and 64 bits.
fn microseconds(rng: &mut Rng, left: u64, gain: u32) -> u64 {
    let past = |bits: u32| {
        let past = (1u128 << bits).div_ceil(gain.max(1).into());
        u64::try_from(past).unwrap_or(u64::MAX)
    };
    let (few, any) = (rng.below(50) as u64, rng.next());
    let around = rng.pick(&[
        left,
        left,
        left,
        left / 2,
        past(32),
        past(64),
        1 << 32,
        1 << 63,
        any,
    ]);
    let near = rng.pick(&[around, around.saturating_sub(1), around.saturating_add(1)]);
    rng.pick(&[0, 1, few, near, near, near, u64::MAX])
}

/// Bytes to queue where so many go at once.
fn queue(rng: &mut Rng, at_once: usize) -> Vec<u8> {
    let at_once = at_once.clamp(1, MAX_STREAM);
    let any = rng.below(MAX_STREAM + 30);
    let several = at_once * (1 + rng.below(4));
    let few = rng.below(12);
    let lengths = [
        0,
        1,
        few,
        any,
        several - 1,
        several,
        several + 1,
        771,
        772,
        773,
        1_000,
    ];
    let length = rng.pick(&lengths);
    rng.bytes(length)
}

/// Room where so many bytes would be handed out.
fn room(rng: &mut Rng, portion: usize) -> usize {
    let any = rng.below(MAX_STREAM + 30);
    let near = rng.pick(&[portion.saturating_sub(1), portion, portion + 1]);
    rng.pick(&[0, any, near, near, near, MAX_STREAM])
}

fn any_sender(rng: &mut Rng) -> Sender {
    let settings = any_settings(rng);
    let most = settings.max_energy;
    let any = rng.next() as u32;
    let near = rng.pick(&[most, most.wrapping_sub(1), most.wrapping_add(1)]);
    let count = |rng: &mut Rng| {
        let within = rng.below(MAX_STREAM + 4);
        let edge = rng.pick(&COUNTS);
        rng.pick(&[within, within, edge])
    };
    Sender {
        settings,
        energy: rng.pick(&[most, near, any, any % most.max(1), 0, u32::MAX]),
        queued: count(rng),
        sent: count(rng),
    }
}

impl Checker {
    /// A call of a sender in any state, and what must hold of it by the state.
    fn call_sender(
        &mut self,
        sending: &mut Sending,
        operation: &Operation,
    ) -> Checked<(Sent, Vec<u8>)> {
        let before = sending.clone();
        let (sent, [lent, out]) = self.on_sender(sending, operation)?;
        self.count(CALLS);
        let what = || format!("{operation:?} of {:?} gave {sent:?}", before.sender);
        let refusals = refusals(operation, before.sender);
        self.first_given(operation.name(), sent.number, &refusals, what)?;
        // Before a start the sender is all zero, as that of a refused one.
        let expected = match sent.number {
            0 => left(operation, &before, &lent),
            _ => (0, before.clone(), lent),
        };
        let given = (sent.length, sending.clone(), out.clone());
        self.holds(given == expected, || {
            format!("{} and {given:?}, not {expected:?}", what())
        })?;
        for kind in kinds(operation, before.sender, sent) {
            self.count(kind);
        }
        Ok((sent, out))
    }

    /// A run that starts with these settings, `None` if they are refused.
    fn start_sender(&mut self, settings: SenderSettings) -> Checked<Option<Run>> {
        let mut sending = Sending::new(Sender::default(), &mut self.rng);
        let (sent, _) = self.call_sender(&mut sending, &Start(settings))?;
        let made = vbus::Sender::new(wrapped(settings));
        let number = made.as_ref().map_or_else(|error| error.number(), |_| 0);
        self.holds(number == sent.number, || {
            format!("vbus::Sender::new({settings:?}) gives {sent:?}; it gave {number}")
        })?;
        let Ok(wrapped) = made else {
            return Ok(None);
        };
        let history = History {
            settings,
            queued: Vec::new(),
            portions: Vec::new(),
            told: 0,
        };
        let run = Run {
            sending,
            wrapped,
            history,
        };
        self.values_by_history(&run)?;
        Ok(Some(run))
    }

    /// A call in a run, and what must hold of it by the history.
    fn go_on_sending(&mut self, run: &mut Run, operation: &Operation) -> Checked<()> {
        let due = run.history.due(operation);
        let busy = !run.history.is_idle();
        let (sent, out) = self.call_sender(&mut run.sending, operation)?;
        let given = (sent.number, Hex(out[..sent.length].to_vec()));
        self.holds(given == due, || {
            let settings = run.history.settings;
            format!("by {settings:?} {operation:?} gives {due:?}; it gave {given:?}")
        })?;
        if sent.number == 0 {
            run.history.follow(operation, out[..sent.length].to_vec());
        }
        self.holds(run.history.portions_hold(), || {
            let History {
                queued, portions, ..
            } = &run.history;
            format!("{queued:?} goes once and in order, not as {portions:?}")
        })?;
        if busy && run.history.is_idle() {
            self.count(FINISHED);
        }
        // The wrapper isn't asked for a portion without the room for it.
        if sent.number != 5 {
            let by_wrapper = operation.by_wrapper(&mut run.wrapped);
            self.holds(by_wrapper == given, || {
                format!("vbus::Sender gives {given:?} for {operation:?}; it gave {by_wrapper:?}")
            })?;
        }
        self.values_by_history(run)
    }

    /// What a sender and that of the `vbus` crate tell of themselves.
    fn values_by_history(&mut self, run: &Run) -> Checked<()> {
        let Run {
            sending,
            wrapped,
            history,
        } = run;
        let values = self.sender_values(sending.sender)?;
        let expected = (history.is_idle(), history.energy());
        let sender = sending.sender;
        self.holds(values == expected, || {
            format!("{sender:?} has {expected:?} as idle and energy; it has {values:?}")
        })?;
        let same = (wrapped.is_idle(), wrapped.energy()) == expected
            && wrapped.settings() == self::wrapped(history.settings)
            && wrapped.unsent() == history.unsent()
            && wrapped.microseconds_to_full() == history.microseconds_left();
        self.holds(same, || format!("{wrapped:?} is {sender:?}"))
    }

    /// From a run that waits: neither one microsecond less frees it, nor is one more needed.
    fn wait_around(&mut self, run: &Run) -> Checked<()> {
        let left = run.history.microseconds_left();
        if left == 0 {
            return Ok(());
        }
        for microseconds in [left - 1, left, left + 1] {
            let mut run = run.clone();
            self.go_on_sending(&mut run, &Wait(microseconds))?;
            self.go_on_sending(&mut run, &Transmit(MAX_STREAM))?;
        }
        Ok(())
    }

    /// A call for a run, mostly one that it goes on by.
    fn sender_operation(&mut self, run: &Run) -> Operation {
        let rng = &mut self.rng;
        let history = &run.history;
        let portion = history.unsent().len().min(history.at_once());
        let useful = match (history.is_idle(), history.waits()) {
            (true, _) => 0,
            (_, false) => 1,
            (_, true) => 2,
        };
        let any = rng.below(3);
        match rng.pick(&[useful, useful, useful, any]) {
            0 => Enqueue(Hex(queue(rng, history.at_once()))),
            1 => Transmit(room(rng, portion)),
            _ => {
                let gain = history.settings.gain_per_microsecond;
                Wait(microseconds(rng, history.microseconds_left(), gain))
            }
        }
    }

    /// A run of calls from the start.
    pub fn random_sender_run(&mut self) -> Checked<()> {
        let settings = any_settings(&mut self.rng);
        let Some(mut run) = self.start_sender(settings)? else {
            return Ok(());
        };
        for _ in 0..40 {
            let operation = self.sender_operation(&run);
            self.go_on_sending(&mut run, &operation)?;
            if self.rng.once_in(16) {
                self.wait_around(&run)?;
            }
        }
        Ok(())
    }

    /// Each call of a sender in any state.
    pub fn random_sender_states(&mut self) -> Checked<()> {
        for _ in 0..10 {
            let sender = any_sender(&mut self.rng);
            self.each_call(sender)?;
        }
        Ok(())
    }

    fn each_call(&mut self, sender: Sender) -> Checked<()> {
        let rng = &mut self.rng;
        let sending = Sending::new(sender, rng);
        let gain = sender.settings.gain_per_microsecond;
        let operations = [
            Enqueue(Hex(queue(rng, portion(sender)))),
            Transmit(room(rng, portion(sender))),
            Wait(microseconds(rng, microseconds_left(sender), gain)),
        ];
        self.values_by_state(sender)?;
        for operation in operations {
            let (sent, _) = self.call_sender(&mut sending.clone(), &operation)?;
            self.values_by_state(sent.sender)?;
        }
        Ok(())
    }

    fn values_by_state(&mut self, sender: Sender) -> Checked<()> {
        let values = self.sender_values(sender)?;
        let idle = !waits(sender) && unsent(sender) == 0;
        let energy = if waits(sender) {
            sender.energy
        } else {
            sender.settings.max_energy
        };
        self.holds(values == (idle, energy), || {
            format!("{sender:?} has {idle} and {energy} as idle and energy; it has {values:?}")
        })
    }

    /// Runs until so many calls were made as every run makes.
    pub fn many_senders(&mut self) -> Checked<()> {
        while self.cases.get(CALLS).is_none_or(|calls| *calls < LEAST) {
            self.random_sender_run()?;
            self.random_sender_states()?;
        }
        Ok(())
    }

    /// Settings of every edge.
    pub fn every_sender_start(&mut self) -> Checked<()> {
        for most in NUMBERS {
            for loss in NUMBERS {
                for gain in NUMBERS {
                    let run = self.start_sender(settings(most, loss, gain))?;
                    if let Some(mut run) = run {
                        self.go_on_sending(&mut run, &Enqueue(Hex(vec![0x55, 0xAA])))?;
                        self.send_all(run)?;
                    }
                }
            }
        }
        Ok(())
    }

    /// Sends all that a run has queued, with as little waiting as there may be.
    fn send_all(&mut self, mut run: Run) -> Checked<()> {
        while !run.history.is_idle() {
            self.go_on_sending(&mut run, &Transmit(MAX_STREAM))?;
            self.wait_around(&run)?;
            let left = run.history.microseconds_left();
            self.go_on_sending(&mut run, &Wait(left))?;
        }
        Ok(())
    }

    /// Queues of every length with typical settings, and those of some lengths with many.
    pub fn every_queue_sent(&mut self) -> Checked<()> {
        let lengths: Vec<usize> = (0..=MAX_STREAM + 2).collect();
        let some = [0, 1, 2, 15, 16, 17, 31, 32, 33, 100, 770, 771, 772, 773];
        for (at_once, loss, gain, lengths) in [
            (16, 1_042, 1, &lengths[..]),
            (100, 10, 3, &lengths),
            (0, 1, 1, &lengths),
            (1, 1_042, 1_042, &some),
            (3, 7, 2, &some),
            (15, 3, u32::MAX, &some),
            (771, 1_000_003, 12_345, &some),
            (772, 2, 3, &some),
            (773, 2, 3, &some),
            (u32::MAX, 5_000_000, 17, &some),
            (u32::MAX, 1, 1, &some),
        ] {
            let settings = match at_once {
                0 => settings(0, loss, gain),
                _ => for_portions(&mut self.rng, at_once, loss, gain),
            };
            for n in lengths {
                let run = self.start_sender(settings)?;
                let mut run = run.expect("the settings are accepted");
                let bytes = self.rng.bytes(*n);
                self.go_on_sending(&mut run, &Enqueue(Hex(bytes)))?;
                self.send_all(run)?;
            }
        }
        Ok(())
    }

    /// Every room for portions of every size up to some, and rooms around that of longer ones.
    pub fn every_sender_room(&mut self) -> Checked<()> {
        for portion in (1..=24).chain([255, 256, 257, 770, 771, 772]) {
            let few = portion <= 24;
            let rooms = if few {
                0..=30
            } else {
                portion - 2..=portion + 2
            };
            for settings in [
                settings(0, 0, 0),
                for_portions(&mut self.rng, portion as u32, 1_042, 1),
            ] {
                let sender = Sender {
                    settings,
                    energy: settings.max_energy,
                    queued: MAX_STREAM,
                    sent: MAX_STREAM - portion,
                };
                let sending = Sending::new(sender, &mut self.rng);
                for room in rooms.clone() {
                    self.call_sender(&mut sending.clone(), &Transmit(room))?;
                }
            }
        }
        Ok(())
    }

    /// Waits around each edge of each energy that may be missing and each gain.
    pub fn every_sender_wait(&mut self) -> Checked<()> {
        for most in NUMBERS {
            for gain in NUMBERS {
                for missing in NUMBERS.into_iter().filter(|missing| *missing <= most) {
                    let sender = Sender {
                        settings: settings(most, 1, gain),
                        energy: most - missing,
                        queued: 7,
                        sent: 3,
                    };
                    let left = microseconds_left(sender);
                    let edges = [left, 1 << 31, 1 << 32, 1 << 33, 1 << 63, u64::MAX];
                    for edge in edges {
                        for microseconds in [edge.saturating_sub(1), edge, edge.saturating_add(1)] {
                            let mut sending = Sending::new(sender, &mut self.rng);
                            self.call_sender(&mut sending, &Wait(microseconds))?;
                        }
                    }
                }
            }
        }
        Ok(())
    }

    /// Each combination of energies and byte counts, also impossible ones, with settings of each kind.
    pub fn every_sender_state(&mut self) -> Checked<()> {
        for settings in [
            settings(0, 0, 0),
            settings(0, 9, 7),
            settings(10, 3, 2),
            settings(1, 1, 1),
            settings(u32::MAX, 1, u32::MAX),
            settings(10, 11, 2),
            settings(10, 0, 2),
            settings(10, 3, 0),
        ] {
            let most = settings.max_energy;
            let energies = [0, 1, 9, 10, 11, most.saturating_sub(1), most, u32::MAX];
            for energy in energies {
                for queued in COUNTS {
                    for sent in COUNTS {
                        self.each_call(Sender {
                            settings,
                            energy,
                            queued,
                            sent,
                        })?;
                    }
                }
            }
        }
        Ok(())
    }
}
