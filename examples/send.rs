//! Sends the records of a VBus recording, those that examples/list.rs lists, at the pace that a
//! sender's energy allows.
//!
//! In `rust`: `cargo run --example send -- 16672 1042 1 ../recordings/examples.vbus /dev/ttyUSB0`,
//! or without a device and standard output to a file, FIFO or pipe. The numbers are the sender's
//! settings, MAX LOSS GAIN: the largest energy, what a byte uses of it, what a microsecond of
//! waiting gives back. These send 16 bytes at once, then wait 16.7 ms. With MAX 0 each record goes
//! in one piece, and nothing waits.
//!
//! Each record's stream is written anew: neither what stands between the records nor unused septet
//! bits are sent. Waiting goes by the system's clock. It waits after the last portion too, so that
//! whoever sends next finds the bus full of energy.
//!
//! A serial port is written as it is set, since std can't set one: before,
//! `stty -F /dev/ttyUSB0 9600 raw cs8 -parenb -cstopb -crtscts -ixoff -echo clocal` sets it as the
//! bus needs it. Nor can std ask whether the last bit of a portion has gone: waiting begins when
//! the bus has had the time for all bits. (examples/send.c sets the port, and asks it too.) Nothing
//! is ever read from it. Any other device, a FIFO or a file, is written as it is, a file at its
//! end; none is made.
//!
//! Exit status: 0 sent, or there was no record; 1 the recording couldn't be read, nothing is sent
//! then; or the device couldn't be written, or is gone; 2 wrong use, or settings that no sender
//! has; 141 whoever read the bytes has gone. A write that turns out to have failed only as the
//! output is closed isn't noticed, since std can't tell of it; examples/send.c tells.

use std::ffi::{OsStr, OsString};
use std::fs::{self, File, OpenOptions};
use std::io::{self, ErrorKind, IsTerminal, Write};
use std::os::fd::AsFd;
use std::os::unix::fs::OpenOptionsExt;
use std::path::Path;
use std::process::ExitCode;
use std::time::{Duration, Instant};
use std::{env, fmt, process, thread};

use vbus::{Sender, SenderSettings};

const USAGE: &str = "\
usage: send MAX LOSS GAIN RECORDING DEVICE, or send MAX LOSS GAIN RECORDING > FILE
Sends the VBus records of a recording, at the pace that a sender's energy allows. A serial port must
be named, and is written as it is set.
  MAX   the largest energy; 0: never wait
  LOSS  what a byte uses of it
  GAIN  what a microsecond of waiting gives back
The numbers are decimal, 0 to 4294967295.
";

/// EIO, which a terminal device that is gone may answer with.
const INPUT_OUTPUT_ERROR: i32 = 5;

/// Linux's O_NOCTTY.
const NO_CONTROLLING_TERMINAL: i32 = 0o400;

/// What ended the program before all was sent: its exit status, and the message.
struct Failure(u8, String);

/// Where the bytes go.
struct Output {
    file: File,
    name: String,
    /// It is a terminal device, whose bits take time.
    port: bool,
}

fn main() -> ExitCode {
    let arguments: Vec<OsString> = env::args_os().skip(1).collect();
    let done = match &arguments[..] {
        [help] if help == "--help" || help == "-h" => write_usage(),
        [max, loss, gain, recording] => run([max, loss, gain], recording, None),
        [max, loss, gain, recording, device] => run([max, loss, gain], recording, Some(device)),
        _ => Err(wrong_use()),
    };
    match done {
        Ok(()) => ExitCode::SUCCESS,
        Err(Failure(status, message)) => {
            say(&message);
            ExitCode::from(status)
        }
    }
}

fn wrong_use() -> Failure {
    Failure(2, USAGE.into())
}

fn failure(what: impl fmt::Display, error: &io::Error) -> Failure {
    Failure(1, format!("send: {what}: {error}\n"))
}

fn run(
    numbers: [&OsString; 3],
    recording: &OsStr,
    device: Option<&OsString>,
) -> Result<(), Failure> {
    let [Some(max_energy), Some(loss_per_byte), Some(gain_per_microsecond)] = numbers.map(number)
    else {
        return Err(wrong_use());
    };
    if is_option(recording) || device.is_some_and(|device| is_option(device)) {
        return Err(wrong_use());
    }
    let settings = SenderSettings {
        max_energy,
        loss_per_byte,
        gain_per_microsecond,
    };
    let sender = Sender::new(settings).map_err(|_| wrong_settings(numbers))?;
    if device.is_none() && io::stdout().is_terminal() {
        let message = "send: standard output: is a terminal; a serial port must be named\n";
        return Err(Failure(2, message.into()));
    }
    let name = Path::new(recording);
    let recording = fs::read(name).map_err(|error| failure(name.display(), &error))?;
    let output = match device {
        Some(device) => open(Path::new(device))?,
        None => standard_output()?,
    };
    send(sender, &recording, output)
}

/// An option that there isn't.
fn is_option(word: &OsStr) -> bool {
    word.as_encoded_bytes().starts_with(b"-")
}

/// Decimal digits and nothing else, up to 4294967295.
fn number(word: &OsString) -> Option<u32> {
    let digits = word.to_str()?;
    let decimal = digits.bytes().all(|byte| byte.is_ascii_digit());
    digits.parse().ok().filter(|_| decimal)
}

fn wrong_settings(numbers: [&OsString; 3]) -> Failure {
    let [max, loss, gain] = numbers.map(|word| word.to_string_lossy());
    let settings = format!("MAX {max}, LOSS {loss}, GAIN {gain}");
    let reason = "unless MAX is 0, LOSS and GAIN must be above 0, and LOSS at most MAX";
    Failure(2, format!("send: {settings}: {reason}\n"))
}

/// Opens the device so that it doesn't become the terminal that this runs at.
fn open(name: &Path) -> Result<Output, Failure> {
    let opened = OpenOptions::new()
        .append(true)
        .custom_flags(NO_CONTROLLING_TERMINAL)
        .open(name);
    let file = opened.map_err(|error| failure(name.display(), &error))?;
    let port = file.is_terminal();
    let name = name.display().to_string();
    Ok(Output { file, name, port })
}

/// Standard output without a buffer: a portion goes when it is written.
///
/// One that was closed before the start can't be told: Rust opens /dev/null in its place before
/// `main`. So the bytes go nowhere.
fn standard_output() -> Result<Output, Failure> {
    let name = "standard output";
    let own = io::stdout().as_fd().try_clone_to_owned();
    Ok(Output {
        file: own.map_err(|error| failure(name, &error))?.into(),
        name: name.into(),
        port: false,
    })
}

fn send(mut sender: Sender, recording: &[u8], mut output: Output) -> Result<(), Failure> {
    let mut found = false;
    for entry in vbus::records(recording) {
        found = true;
        let stream = entry.record.to_stream().expect("it is a stream's record");
        sender
            .enqueue(&stream)
            .expect("it is idle, and any stream fits");
        send_queued(&mut sender, &mut output)?;
    }
    if !found && !recording.is_empty() {
        let n = recording.len();
        say(&format!("send: no record found, bytes looked at: {n}\n"));
    }
    Ok(())
}

/// Sends what is queued, and waits until the sender is full again.
fn send_queued(sender: &mut Sender, output: &mut Output) -> Result<(), Failure> {
    while !sender.is_idle() {
        output.send(sender.transmit())?;
        // The sender knows of the time up to then.
        let mut counted = Instant::now();
        while sender.microseconds_to_full() > 0 {
            let full = counted + Duration::from_micros(sender.microseconds_to_full());
            thread::sleep(full.saturating_duration_since(Instant::now()));
            // What is beyond whole microseconds counts with the next.
            let microseconds = counted.elapsed().as_micros() as u64;
            sender.wait(microseconds);
            counted += Duration::from_micros(microseconds);
        }
    }
    Ok(())
}

impl Output {
    /// Sends a portion; back when the bus has had the time for all its bits.
    fn send(&mut self, portion: &[u8]) -> Result<(), Failure> {
        self.write_all(portion)
            .map_err(|error| self.failure(&error))?;
        if self.port {
            // 10 bits a byte, 9600 bits a second, rounded up
            let nanoseconds = (portion.len() as u64 * 3_125_000).div_ceil(3);
            thread::sleep(Duration::from_nanos(nanoseconds));
        }
        Ok(())
    }

    /// Writes them all, and waits where they aren't taken yet: also by a standard output that someone
    /// has set not to wait.
    fn write_all(&mut self, mut bytes: &[u8]) -> io::Result<()> {
        while !bytes.is_empty() {
            match self.file.write(bytes) {
                // Trying again might go on for ever.
                Ok(0) => return Err(ErrorKind::WriteZero.into()),
                Ok(n) => bytes = &bytes[n..],
                Err(error) if error.kind() == ErrorKind::Interrupted => {}
                Err(error) if error.kind() == ErrorKind::WouldBlock => {
                    thread::sleep(Duration::from_millis(1));
                }
                Err(error) => return Err(error),
            }
        }
        Ok(())
    }

    fn failure(&self, error: &io::Error) -> Failure {
        if self.port && error.raw_os_error() == Some(INPUT_OUTPUT_ERROR) {
            return Failure(1, format!("send: {}: the device is gone\n", self.name));
        }
        // Rust ignores the signal that would end the program; this is the status that a shell sees
        // then.
        if error.kind() == ErrorKind::BrokenPipe {
            process::exit(141);
        }
        failure(&self.name, error)
    }
}

fn write_usage() -> Result<(), Failure> {
    standard_output()?.send(USAGE.as_bytes())
}

/// Writes to standard error. If that fails there is nowhere left to say so.
fn say(text: &str) {
    let _ = io::stderr().write_all(text.as_bytes());
}
