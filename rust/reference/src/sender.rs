//! A sender's energy keeping, by the energy that is missing to the largest.

use super::*;

#[derive(Clone, Copy, PartialEq, Eq, Debug, Default)]
pub struct SenderSettings {
    pub max_energy: u32,
    pub loss_per_byte: u32,
    pub gain_per_microsecond: u32,
}

impl SenderSettings {
    /// Energy is kept.
    fn is_on(&self) -> bool {
        self.max_energy != 0
    }

    /// With those that are refused it could never send a byte, never go on, or need never wait.
    fn check(&self) -> Result<(), u32> {
        let affordable = (1..=self.max_energy).contains(&self.loss_per_byte);
        let gaining = self.gain_per_microsecond != 0;
        if !self.is_on() || affordable && gaining {
            Ok(())
        } else {
            Err(BAD_SETTINGS)
        }
    }

    /// How many of `n` bytes go at once.
    fn portion(&self, n: usize) -> usize {
        if self.is_on() {
            n.min((self.max_energy / self.loss_per_byte) as usize)
        } else {
            n
        }
    }

    /// What `n` bytes use.
    fn losses(&self, n: usize) -> u128 {
        if self.is_on() {
            n as u128 * u128::from(self.loss_per_byte)
        } else {
            0
        }
    }

    fn gains(&self, microseconds: u64) -> u128 {
        u128::from(microseconds) * u128::from(self.gain_per_microsecond)
    }
}

/// A sender between two calls, but for its queue. It may be any, also one that no calls lead to.
#[derive(Clone, Copy, PartialEq, Eq, Debug, Default)]
pub struct Sender {
    pub settings: SenderSettings,
    pub energy: u32,
    pub queued: usize,
    pub sent: usize,
}

impl Sender {
    /// The energy that it has to wait for.
    fn missing(&self) -> u128 {
        self.settings.max_energy.saturating_sub(self.energy).into()
    }

    /// The same sender, but with so much missing.
    fn with_missing(self, missing: u128) -> Sender {
        let energy = u128::from(self.settings.max_energy) - missing;
        Sender {
            energy: energy as u32,
            ..self
        }
    }

    fn waits(&self) -> bool {
        self.missing() > 0
    }

    /// The bytes of the queue that are to be sent, as far as they stand in it.
    fn unsent<'q>(&self, queue: &'q [u8]) -> &'q [u8] {
        let end = self.queued.min(queue.len());
        queue.get(self.sent..end).unwrap_or(&[])
    }
}

#[derive(Clone, Copy, PartialEq, Eq, Debug, Default)]
pub struct Sent {
    pub number: u32,
    pub length: usize,
    pub sender: Sender,
}

/// The bytes handed out and the sender afterwards, or the number of the refusal.
type After = Result<(usize, Sender), u32>;

/// In a refusal the sender comes back as it was.
fn sent(before: Sender, after: After) -> Sent {
    let (number, (length, sender)) = match after {
        Ok(done) => (0, done),
        Err(number) => (number, (0, before)),
    };
    Sent {
        number,
        length,
        sender,
    }
}

/// A sender that is full and has nothing queued.
pub fn sender_start(settings: SenderSettings) -> Sent {
    let started = Sender {
        settings,
        energy: settings.max_energy,
        ..Sender::default()
    };
    // There is no sender yet that could come back from a refusal.
    sent(Sender::default(), settings.check().map(|()| (0, started)))
}

/// Puts bytes to the start of the queue, which has 772 bytes.
pub fn sender_enqueue(sender: Sender, queue: &mut [u8], bytes: &[u8]) -> Sent {
    sent(sender, enqueue(sender, queue, bytes))
}

fn enqueue(sender: Sender, queue: &mut [u8], bytes: &[u8]) -> After {
    sender.settings.check()?;
    if !sender_is_idle(sender) {
        return Err(NOT_IDLE);
    }
    let queued = bytes.len();
    let start = queue.get_mut(..queued).ok_or(TOO_MANY_TO_QUEUE)?;
    start.copy_from_slice(bytes);
    let after = Sender {
        queued,
        sent: 0,
        ..sender
    };
    Ok((0, after))
}

/// Hands out the next portion of the queue to the start of `out`, if the sender doesn't wait and has one.
pub fn sender_transmit(sender: Sender, queue: &[u8], out: &mut [u8]) -> Sent {
    sent(sender, transmit(sender, queue, out))
}

fn transmit(sender: Sender, queue: &[u8], out: &mut [u8]) -> After {
    sender.settings.check()?;
    let unsent = sender.unsent(queue);
    if sender.waits() || unsent.is_empty() {
        return Ok((0, sender));
    }
    let length = sender.settings.portion(unsent.len());
    let portion = out.get_mut(..length).ok_or(NO_ROOM)?;
    portion.copy_from_slice(&unsent[..length]);
    let after = Sender {
        sent: sender.sent + length,
        ..sender
    };
    Ok((length, after.with_missing(sender.settings.losses(length))))
}

/// Lets time pass, which counts only while the sender waits.
pub fn sender_wait(sender: Sender, microseconds: u64) -> Sent {
    sent(sender, wait(sender, microseconds))
}

fn wait(sender: Sender, microseconds: u64) -> After {
    sender.settings.check()?;
    if !sender.waits() {
        return Ok((0, sender));
    }
    let gains = sender.settings.gains(microseconds);
    let missing = sender.missing().saturating_sub(gains);
    Ok((0, sender.with_missing(missing)))
}

/// It doesn't wait and has nothing to send.
pub fn sender_is_idle(sender: Sender) -> bool {
    let all = sender.queued.min(MAX_STREAM);
    !sender.waits() && sender.sent >= all
}

/// The energy left, at most the largest.
pub fn sender_energy(sender: Sender) -> u32 {
    sender.with_missing(sender.missing()).energy
}
