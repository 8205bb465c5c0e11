//! Bytes sent in portions, so that the bus can carry energy in between.

use core::fmt;

use crate::{check, Error, MAX_STREAM};

/// What a [`Sender`] reckons with, in any unit of energy: only the ratios of the three numbers matter.
///
/// To choose them, let the gain be 1: energy is then counted in microseconds of waiting. The loss is
/// the microseconds that the bus needs to make good a byte: 1,042 if it regains energy as fast as it
/// loses it, since a byte takes that long (10 bits at 9,600 a second). The largest energy is that
/// times the bytes that may go at once: as many as the devices on the bus can go without energy for.
#[derive(Clone, Copy, PartialEq, Eq, Hash, Debug)]
pub struct SenderSettings {
    /// The most that may be used before the sender has to wait; 0 switches energy keeping off.
    pub max_energy: u32,
    /// What a byte sent uses of it.
    pub loss_per_byte: u32,
    /// What a microsecond of waiting gives back.
    pub gain_per_microsecond: u32,
}

impl SenderSettings {
    /// Energy keeping is switched off: all bytes are one portion, and nothing waits.
    ///
    /// ```
    /// let mut sender = vbus::Sender::new(vbus::SenderSettings::OFF)?;
    /// sender.enqueue(&[0x55; 772])?;
    /// assert_eq!(sender.transmit(), [0x55; 772]);
    /// assert!(sender.is_idle());
    /// # Ok::<(), vbus::Error>(())
    /// ```
    pub const OFF: SenderSettings = SenderSettings {
        max_energy: 0,
        loss_per_byte: 0,
        gain_per_microsecond: 0,
    };

    const fn to_sys(self) -> vbus_sys::SenderSettings {
        vbus_sys::SenderSettings {
            max_energy: self.max_energy,
            loss_per_byte: self.loss_per_byte,
            gain_per_microsecond: self.gain_per_microsecond,
        }
    }

    const fn from_sys(settings: vbus_sys::SenderSettings) -> SenderSettings {
        SenderSettings {
            max_energy: settings.max_energy,
            loss_per_byte: settings.loss_per_byte,
            gain_per_microsecond: settings.gain_per_microsecond,
        }
    }
}

/// Hands out bytes in portions and waits between them: the bus carries energy as well as bytes, and
/// sending bytes disrupts carrying energy.
///
/// A full sender, as it is at first, hands out as many of the bytes queued as its largest energy pays
/// for: that divided by the loss, rounded down, the last portion being the rest. Then it waits until it
/// is full again, after the last portion too, and goes on or is idle.
///
/// It has no clock: time is what [`Sender::wait`] tells it.
///
/// ```
/// use vbus::{Sender, SenderSettings};
///
/// let settings = SenderSettings { max_energy: 10, loss_per_byte: 3, gain_per_microsecond: 2 };
/// let mut sender = Sender::new(settings)?;
/// sender.enqueue(b"seventh")?;
/// let (mut portions, mut waited) = (Vec::new(), 0);
/// while !sender.is_idle() {
///     // Here a portion is written to the port; the time counts from its last bit on.
///     portions.push(sender.transmit().to_vec());
///     // Here one sleeps, and tells how long it was.
///     let microseconds = sender.microseconds_to_full();
///     sender.wait(microseconds);
///     waited += microseconds;
/// }
/// assert_eq!(portions, [&b"sev"[..], b"ent", b"h"]);
/// assert_eq!(waited, 5 + 5 + 2);
/// # Ok::<(), vbus::Error>(())
/// ```
///
/// It needs no heap: it owns its buffers, some 1,600 bytes.
#[derive(Clone)]
pub struct Sender {
    /// One that calls led to: its settings are accepted, and its bytes stand in the queue.
    state: vbus_sys::Sender,
    queue: [u8; MAX_STREAM],
    portion: [u8; MAX_STREAM],
}

impl Sender {
    /// A full sender with nothing queued.
    ///
    /// Refused as [`WrongSettings`](Error::WrongSettings) if the largest energy isn't 0, and the loss or
    /// the gain is 0 or the loss above the largest energy: it could never send a byte, never go on, or
    /// need never wait.
    ///
    /// ```
    /// use vbus::{Error, Sender, SenderSettings};
    ///
    /// let settings = SenderSettings { max_energy: 10, loss_per_byte: 10, gain_per_microsecond: 1 };
    /// assert!(Sender::new(settings).is_ok());
    /// let greedy = SenderSettings { loss_per_byte: 11, ..settings };
    /// assert_eq!(Sender::new(greedy).unwrap_err(), Error::WrongSettings);
    /// ```
    pub fn new(settings: SenderSettings) -> Result<Sender, Error> {
        // SAFETY: it takes no pointer.
        let answer = unsafe { vbus_sys::vbus_sender_start(settings.to_sys()) };
        check(answer.number)?;
        Ok(Sender {
            state: answer.sender,
            queue: [0; MAX_STREAM],
            portion: [0; MAX_STREAM],
        })
    }

    /// Queues bytes, such as those of a stream. With no bytes the sender stays idle.
    ///
    /// Refused, in this order, if it isn't idle ([`SenderBusy`](Error::SenderBusy)), and if there are
    /// more than [`MAX_STREAM`] bytes ([`QueueTooLong`](Error::QueueTooLong)). Nothing changes then.
    ///
    /// ```
    /// use vbus::{Error, Sender, SenderSettings};
    ///
    /// let settings = SenderSettings { max_energy: 2, loss_per_byte: 1, gain_per_microsecond: 1 };
    /// let mut sender = Sender::new(settings)?;
    /// assert_eq!(sender.enqueue(&[0; 773]), Err(Error::QueueTooLong));
    /// sender.enqueue(&[0xAA, 0x00])?;
    /// assert_eq!(sender.enqueue(&[0xAA]), Err(Error::SenderBusy));
    /// assert_eq!(sender.transmit(), [0xAA, 0x00]);
    /// // Nothing is left, but it waits.
    /// assert_eq!(sender.enqueue(&[0xAA]), Err(Error::SenderBusy));
    /// sender.wait(2);
    /// sender.enqueue(&[0xAA])?;
    /// # Ok::<(), vbus::Error>(())
    /// ```
    pub fn enqueue(&mut self, bytes: &[u8]) -> Result<(), Error> {
        let (from, n) = (bytes.as_ptr(), bytes.len());
        // SAFETY: pointer and count are those of a slice; the queue is an array that is borrowed
        // mutably, so that nothing overlaps it.
        let answer = unsafe { vbus_sys::vbus_sender_enqueue(self.state, &mut self.queue, from, n) };
        self.state = answer.sender;
        check(answer.number)
    }

    /// The next portion; no bytes while the sender waits, or if it has none to send.
    ///
    /// The bytes count as sent with this call, and the sender waits, unless energy keeping is off.
    ///
    /// ```
    /// use vbus::{Sender, SenderSettings};
    ///
    /// let settings = SenderSettings { max_energy: 2, loss_per_byte: 1, gain_per_microsecond: 1 };
    /// let mut sender = Sender::new(settings)?;
    /// assert!(sender.transmit().is_empty());
    /// sender.enqueue(&[1, 2, 3])?;
    /// assert_eq!(sender.transmit(), [1, 2]);
    /// sender.wait(1);
    /// assert!(sender.transmit().is_empty());
    /// sender.wait(1);
    /// assert_eq!(sender.transmit(), [3]);
    /// # Ok::<(), vbus::Error>(())
    /// ```
    #[must_use = "the portion counts as sent"]
    pub fn transmit(&mut self) -> &[u8] {
        let (to, room) = (self.portion.as_mut_ptr(), self.portion.len());
        // SAFETY: pointer and count are those of an array that is borrowed mutably, and the queue is
        // another one.
        let answer = unsafe { vbus_sys::vbus_sender_transmit(self.state, &self.queue, to, room) };
        // Never refused: the settings were accepted, and there is room for all that may be queued.
        self.state = answer.sender;
        &self.portion[..answer.length]
    }

    /// Tells how much time has passed since the portion's last bit was out, or since it was told last.
    ///
    /// While the sender waits, its energy grows by that times the gain, at most to the largest. While
    /// it doesn't wait, nothing changes: such time doesn't count. Any number may be told; rounded
    /// down, no byte goes early.
    ///
    /// ```
    /// use vbus::{Sender, SenderSettings};
    ///
    /// let settings = SenderSettings { max_energy: 10, loss_per_byte: 3, gain_per_microsecond: 2 };
    /// let mut sender = Sender::new(settings)?;
    /// sender.enqueue(&[1, 2, 3, 4])?;
    /// sender.wait(1_000_000); // It is full, so this doesn't count.
    /// assert_eq!(sender.transmit(), [1, 2, 3]);
    /// assert_eq!(sender.energy(), 1);
    /// sender.wait(4);
    /// assert_eq!(sender.energy(), 9);
    /// sender.wait(u64::MAX);
    /// assert_eq!(sender.energy(), 10);
    /// # Ok::<(), vbus::Error>(())
    /// ```
    pub fn wait(&mut self, microseconds: u64) {
        // SAFETY: it takes no pointer.
        let answer = unsafe { vbus_sys::vbus_sender_wait(self.state, microseconds) };
        // Never refused: the settings were accepted.
        self.state = answer.sender;
    }

    /// Whether it has nothing to send and doesn't wait: then bytes can be queued.
    pub fn is_idle(&self) -> bool {
        // SAFETY: it takes no pointer.
        unsafe { vbus_sys::vbus_sender_is_idle(self.state) }
    }

    /// The energy left: what the last portion has left of the largest, and what was regained since, at
    /// most the largest; 0 if that is 0.
    pub fn energy(&self) -> u32 {
        // SAFETY: it takes no pointer.
        unsafe { vbus_sys::vbus_sender_energy(self.state) }
    }

    /// What it was made with.
    pub const fn settings(&self) -> SenderSettings {
        SenderSettings::from_sys(self.state.settings)
    }

    /// The bytes queued that weren't handed out yet.
    pub fn unsent(&self) -> &[u8] {
        &self.queue[self.state.sent..self.state.queued]
    }

    /// How long it still has to wait: the energy missing, divided by the gain and rounded up. 0 if it
    /// doesn't wait.
    ///
    /// ```
    /// use vbus::{Sender, SenderSettings};
    ///
    /// let settings = SenderSettings { max_energy: 10, loss_per_byte: 3, gain_per_microsecond: 2 };
    /// let mut sender = Sender::new(settings)?;
    /// assert_eq!(sender.microseconds_to_full(), 0);
    /// sender.enqueue(&[1, 2, 3])?;
    /// assert_eq!(sender.transmit(), [1, 2, 3]);
    /// assert_eq!(sender.microseconds_to_full(), 5); // 9 are missing.
    /// sender.wait(4);
    /// assert_eq!(sender.microseconds_to_full(), 1);
    /// # Ok::<(), vbus::Error>(())
    /// ```
    pub fn microseconds_to_full(&self) -> u64 {
        let settings = self.settings();
        match settings.max_energy - self.energy() {
            // The gain may be 0 then.
            0 => 0,
            missing => missing.div_ceil(settings.gain_per_microsecond).into(),
        }
    }
}

/// Shows the settings, the energy left and the bytes unsent; the other bytes have no meaning.
impl fmt::Debug for Sender {
    fn fmt(&self, f: &mut fmt::Formatter<'_>) -> fmt::Result {
        f.debug_struct("Sender")
            .field("settings", &self.settings())
            .field("energy", &self.energy())
            .field("unsent", &self.unsent())
            .finish()
    }
}
