//! Lists the records of a recording of any size, one line each: kind, destination, source, version,
//! command and payload in hex.
//!
//! In `rust`: `cargo run --example list -- ../recordings/plant.vbus`, or without a name and the
//! recording as standard input.
//!
//! Exit status: 0 listed; 1 the recording couldn't be read whole, or the listing couldn't be written;
//! 2 wrong use; 141 whoever read the listing has gone.

use std::ffi::OsString;
use std::fs::File;
use std::io::{self, BufWriter, ErrorKind, IsTerminal, Read, Write};
use std::path::PathBuf;
use std::process::ExitCode;
use std::{env, fmt, process};

const USAGE: &str = "\
usage: list FILE, or list < FILE
Lists the VBus records of a recording, one line each: kind letter, destination, source, version,
command and payload in hex.
";

/// What there is to do.
enum Task {
    Help,
    File(PathBuf),
    StandardInput,
}

fn main() -> ExitCode {
    let Some(task) = task(env::args_os().skip(1).collect()) else {
        say(USAGE);
        return ExitCode::from(2);
    };
    match run(task) {
        Ok(()) => ExitCode::SUCCESS,
        Err(message) => {
            say(&message);
            ExitCode::FAILURE
        }
    }
}

/// What the arguments ask for, or `None` if that can't be done.
fn task(mut arguments: Vec<OsString>) -> Option<Task> {
    match (arguments.pop(), arguments.is_empty()) {
        (Some(help), true) if help == "--help" || help == "-h" => Some(Task::Help),
        (Some(file), true) => Some(Task::File(file.into())),
        (None, _) if !io::stdin().is_terminal() => Some(Task::StandardInput),
        _ => None,
    }
}

/// Does the task, or gives the message of what went wrong.
fn run(task: Task) -> Result<(), String> {
    match task {
        Task::Help => write_out(|out| out.write_all(USAGE.as_bytes())),
        Task::File(file) => match File::open(&file) {
            Ok(recording) => list_from(recording, file.display()),
            Err(error) => Err(failure(file.display(), &error)),
        },
        Task::StandardInput => list_from(io::stdin().lock(), "standard input"),
    }
}

fn failure(what: impl fmt::Display, error: &io::Error) -> String {
    format!("list: {what}: {error}\n")
}

/// Lists what can be read: what came before a read that fails isn't lost.
fn list_from(mut input: impl Read, name: impl fmt::Display) -> Result<(), String> {
    let mut recording = Vec::new();
    let read = input.read_to_end(&mut recording);
    list(&recording)?;
    read.map(drop).map_err(|error| failure(name, &error))
}

fn list(recording: &[u8]) -> Result<(), String> {
    let mut records = vbus::records(recording).peekable();
    if records.peek().is_none() && !recording.is_empty() {
        let n = recording.len();
        say(&format!("list: no record found, bytes looked at: {n}\n"));
    }
    write_out(|out| records.try_for_each(|entry| writeln!(out, "{}", entry.record)))
}

/// Lets `write` write to standard output.
///
/// A standard input or output that was closed before the start can't be told: Rust opens /dev/null
/// in its place before `main`. So an empty recording is listed, or the listing goes nowhere.
fn write_out(write: impl FnOnce(&mut dyn Write) -> io::Result<()>) -> Result<(), String> {
    let mut out = BufWriter::new(io::stdout().lock());
    let written = write(&mut out).and_then(|()| out.flush());
    written.map_err(|error| match error.kind() {
        // Whoever closed the pipe, such as `head`, has what it wanted. Rust ignores the signal that
        // would end the program; this is the status that a shell sees then.
        ErrorKind::BrokenPipe => process::exit(141),
        _ => failure("standard output", &error),
    })
}

/// Writes to standard error. If that fails there is nowhere left to say so.
fn say(text: &str) {
    let _ = io::stderr().write_all(text.as_bytes());
}
