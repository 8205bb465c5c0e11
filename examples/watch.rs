//! Watches a VBus: prints a line for each record as it arrives: kind, destination, source, version,
//! command and payload in hex, as examples/list.rs does.
//!
//! In `rust`: `cargo run --example watch -- /dev/ttyUSB0`, or without a name and a file, FIFO or pipe
//! as standard input. `-p` or `--positions` before the name puts each record's position before it.
//!
//! A serial port is read as it is set, since std can't set one: before,
//! `stty -F /dev/ttyUSB0 9600 raw cs8 -parenb -cstopb -crtscts -ixoff -echo clocal` sets it as the bus
//! needs it. (examples/watch.c sets the port itself.)
//!
//! Exit status: 0 the input ended; 1 it couldn't be read, the device is gone, or a line couldn't be
//! written; 2 wrong use; 141 whoever read the lines has gone.

use std::ffi::OsString;
use std::fs::{File, OpenOptions};
use std::io::{self, ErrorKind, IsTerminal, Read, Write};
use std::os::unix::fs::OpenOptionsExt;
use std::path::{Path, PathBuf};
use std::process::ExitCode;
use std::{env, fmt, process};

use vbus::{Entry, RecordReader};

const USAGE: &str = "\
usage: watch [-p] DEVICE, or watch [-p] < FILE; a serial port must be named
Prints the VBus records that arrive, one line each: kind letter, destination, source, version,
command and payload in hex. A serial port is read as it is set.
  -p, --positions  before each record its position: how many bytes came before its 0xAA
";

/// EIO, which a terminal device that is gone may answer with.
const INPUT_OUTPUT_ERROR: i32 = 5;

/// Linux's O_NOCTTY.
const NO_CONTROLLING_TERMINAL: i32 = 0o400;

/// What there is to do.
enum Task {
    Help,
    /// The device, or standard input; and whether positions are printed.
    Watch(Option<PathBuf>, bool),
}

fn main() -> ExitCode {
    let arguments: Vec<OsString> = env::args_os().skip(1).collect();
    let Some(task) = task(&arguments) else {
        say(USAGE);
        return ExitCode::from(2);
    };
    match run(task) {
        Ok(()) => ExitCode::SUCCESS,
        Err(message) => {
            say(&message);
            ExitCode::FAILURE
        }
    }
}

/// What the arguments ask for, or `None` if that can't be done.
fn task(arguments: &[OsString]) -> Option<Task> {
    let (positions, words) = match arguments {
        [option, words @ ..] if option == "-p" || option == "--positions" => (true, words),
        words => (false, words),
    };
    match words {
        [help] if help == "--help" || help == "-h" => Some(Task::Help),
        [option] if option.as_encoded_bytes().starts_with(b"-") => None,
        [device] => Some(Task::Watch(Some(device.into()), positions)),
        [] if !io::stdin().is_terminal() => Some(Task::Watch(None, positions)),
        _ => None,
    }
}

/// Does the task, or gives the message of what went wrong.
fn run(task: Task) -> Result<(), String> {
    match task {
        Task::Help => write_out(USAGE),
        Task::Watch(Some(name), positions) => match open(&name) {
            Ok(device) => {
                let port = device.is_terminal();
                watch(device, name.display(), port, positions)
            }
            Err(error) => Err(failure(name.display(), &error)),
        },
        Task::Watch(None, positions) => {
            watch(io::stdin().lock(), "standard input", false, positions)
        }
    }
}

/// Opens the device so that it doesn't become the terminal that this runs at.
fn open(name: &Path) -> io::Result<File> {
    OpenOptions::new()
        .read(true)
        .custom_flags(NO_CONTROLLING_TERMINAL)
        .open(name)
}

fn failure(what: impl fmt::Display, error: &io::Error) -> String {
    format!("watch: {what}: {error}\n")
}

fn line(entry: &Entry, positions: bool) -> String {
    let Entry {
        position, record, ..
    } = entry;
    if positions {
        format!("{position} {record}\n")
    } else {
        format!("{record}\n")
    }
}

/// Prints each record of the input. `port`: it is a terminal device, which has no end but that it is
/// gone.
fn watch(
    reader: impl Read,
    name: impl fmt::Display,
    port: bool,
    positions: bool,
) -> Result<(), String> {
    let mut records = RecordReader::new(reader);
    let mut found = false;
    for entry in &mut records {
        match entry {
            Ok(entry) => write_out(&line(&entry, positions))?,
            Err(error) if port && error.raw_os_error() == Some(INPUT_OUTPUT_ERROR) => break,
            Err(error) => return Err(failure(name, &error)),
        }
        found = true;
    }
    if port {
        return Err(format!("watch: {name}: the device is gone\n"));
    }
    let held = records.receiver().held().len();
    if held > 0 {
        say(&format!(
            "watch: the input ended before a stream was complete, bytes held: {held}\n"
        ));
    }
    let n = records.receiver().position();
    if !found && n > 0 {
        say(&format!("watch: no record found, bytes looked at: {n}\n"));
    }
    Ok(())
}

/// Writes to standard output, at once and whole.
///
/// A standard input or output that was closed before the start can't be told: Rust opens /dev/null
/// in its place before `main`. So nothing arrives, or the lines go nowhere.
fn write_out(text: &str) -> Result<(), String> {
    let mut out = io::stdout().lock();
    let written = out.write_all(text.as_bytes()).and_then(|()| out.flush());
    written.map_err(|error| match error.kind() {
        // Whoever closed the pipe, such as `head`, has what it wanted. Rust ignores the signal that
        // would end the program; this is the status that a shell sees then.
        ErrorKind::BrokenPipe => process::exit(141),
        _ => failure("standard output", &error),
    })
}

/// Writes to standard error. If that fails there is nowhere left to say so.
fn say(text: &str) {
    let _ = io::stderr().write_all(text.as_bytes());
}
