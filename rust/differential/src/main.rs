//! Compares every export of libvbus.a, and the `vbus` crate, with the reference.
//!
//! `differential SECONDS [SEED]` prints the seed first, then how many cases of each class ran. A
//! difference is printed with its input in hex and the seed, and the exit status is 1.
//!
//! The comparison runs in a second process of this program, so that a call that crashes or never
//! comes back is reported too: the run is repeated, noting every call before it is made.

mod cases;
mod check;
mod faults;
mod figures;
mod layouts;
mod library;
mod naive;
mod owners;
mod receiver;
mod recordings;
mod rng;
mod sender;
mod slave_ids;
mod slaves;

use cases::CLASSES;
use check::{Checked, Checker, Failure};
use std::fs::{self, File};
use std::path::Path;
use std::process::{Child, Command, ExitCode, ExitStatus};
use std::thread::sleep;
use std::time::{Duration, Instant, SystemTime, UNIX_EPOCH};
use std::{env, process};
use vbus::{Error, Verdict};

fn main() -> ExitCode {
    let args: Vec<String> = env::args().skip(1).collect();
    let (worker, args) = match args.first().map(String::as_str) {
        Some("--worker") => (true, &args[1..]),
        _ => (false, &args[..]),
    };
    let seconds = args.first().and_then(|text| text.parse().ok());
    let seed = match args.get(1) {
        Some(text) => text.parse().ok(),
        None => Some(fresh_seed()),
    };
    let (Some(seconds), Some(seed)) = (seconds, seed) else {
        eprintln!("usage: differential SECONDS [SEED]");
        return ExitCode::from(2);
    };
    if worker {
        run(seconds, seed, args.get(2).map(Path::new))
    } else {
        println!("seed {seed}");
        watch(seconds, seed)
    }
}

fn fresh_seed() -> u64 {
    let now = SystemTime::now().duration_since(UNIX_EPOCH);
    // Six digits are enough to be different and easy to type.
    now.map_or(1, |now| u64::from(now.subsec_nanos()) % 1_000_000)
}

/// No call takes as long as this, even on a busy machine.
const PATIENCE: Duration = Duration::from_secs(30);

/// Runs the comparison in another process and reports it if it dies or hangs.
fn watch(seconds: u64, seed: u64) -> ExitCode {
    let end = Instant::now() + Duration::from_secs(seconds) + PATIENCE;
    let mut child = start(seconds, seed, None);
    let ended = match finish(&mut child, || Instant::now() > end) {
        Some(status) => match status.code() {
            Some(0) => return ExitCode::SUCCESS,
            Some(1) => return ExitCode::FAILURE,
            // A signal, or a panic of the wrapper at an answer that the library never gives.
            _ => format!("ended with {status}"),
        },
        None => "did not come back".to_string(),
    };
    println!("FAILED seed {seed}: a call {ended}; repeating the run to find it");
    let trace = env::temp_dir().join(format!("vbus-differential-{}", process::id()));
    // Noting the calls makes the run slower; the cases are the same.
    let mut child = start(100 * seconds, seed, Some(&trace));
    finish(&mut child, || stalled(&trace));
    match fs::read_to_string(&trace) {
        Ok(call) => println!("{call}"),
        Err(error) => println!("no call was noted: {error}"),
    }
    // The file is only scratch; leaving it behind does no harm.
    let _ = fs::remove_file(&trace);
    ExitCode::FAILURE
}

/// The last call was noted long ago.
fn stalled(trace: &Path) -> bool {
    fs::metadata(trace)
        .and_then(|data| data.modified())
        .is_ok_and(|time| time.elapsed().is_ok_and(|age| age > PATIENCE))
}

fn start(seconds: u64, seed: u64, trace: Option<&Path>) -> Child {
    let program = env::current_exe().expect("the program knows its own path");
    Command::new(program)
        .arg("--worker")
        .arg(seconds.to_string())
        .arg(seed.to_string())
        .args(trace)
        .spawn()
        .expect("the program can be started again")
}

/// The child's status, or `None` if it was ended because `overdue` said so.
fn finish(child: &mut Child, overdue: impl Fn() -> bool) -> Option<ExitStatus> {
    loop {
        if let Some(status) = child.try_wait().expect("a child can be waited for") {
            return Some(status);
        }
        if overdue() {
            child.kill().expect("a child can be ended");
            child.wait().expect("a child can be waited for");
            return None;
        }
        sleep(Duration::from_millis(50));
    }
}

/// Makes the fixed cases, then random ones until the time is over.
fn run(seconds: u64, seed: u64, trace: Option<&Path>) -> ExitCode {
    let trace = trace.map(|path| File::create(path).expect("the trace file can be made"));
    let started = Instant::now();
    let mut checker = Checker::new(seed, trace);
    let result = compare(&mut checker, started, Duration::from_secs(seconds));
    report(&checker, started);
    match result {
        Ok(()) => {
            println!("no difference (seed {seed})");
            ExitCode::SUCCESS
        }
        Err((class, Failure(text))) => {
            println!("FAILED seed {seed}, class {class}\n{text}");
            ExitCode::FAILURE
        }
    }
}

fn compare(
    checker: &mut Checker,
    started: Instant,
    duration: Duration,
) -> Result<(), (&'static str, Failure)> {
    let fixed: [cases::Class; 3] = [
        ("layouts", Checker::layouts),
        ("fixed", Checker::fixed),
        ("long input", Checker::long),
    ];
    for (class, make) in fixed {
        make(checker).map_err(|failure| (class, failure))?;
    }
    checker.cases.insert("fixed (calls)", checker.calls);
    // Every class runs at least a hundred times, however short the run.
    let mut rounds = 0;
    while rounds < 100 || started.elapsed() < duration {
        for (class, make) in CLASSES {
            make(checker).map_err(|failure| (class, failure))?;
            checker.count(class);
        }
        rounds += 1;
    }
    complete(checker).map_err(|failure| ("counts", failure))
}

/// Every refusal and every verdict occurred, the naive reading and every class of receivers found
/// records, these had unused septet bits in none, one, some and all of their blocks, positions came to
/// the limit, there were faults of every class, tables of slaves started from each class and came to
/// each refusal, also where others applied behind it, two histories of an owner agreed, also with 16s in
/// them, and parted, an owner got its eighth entry beside a neighbour with 24, figures were false in each
/// way, and senders did all that they may be asked for and came to each refusal, also where others applied
/// behind it, or the run has shown less than it claims.
fn complete(checker: &mut Checker) -> Checked<()> {
    let errors = Error::ALL.iter().map(|error| error.number() as usize);
    for number in errors.chain([0]) {
        let count = checker.numbers[number];
        checker.holds(count > 0, || format!("the answer {number} occurs"))?;
    }
    let verdicts = Verdict::ALL.iter().map(|verdict| verdict.number() as usize);
    for number in verdicts.chain([0]) {
        let count = checker.verdicts[number];
        checker.holds(count > 0, || format!("the verdict V{number} occurs"))?;
    }
    let count = checker.verdicts[5];
    checker.holds(count == 0, || "the verdict V5 doesn't occur".into())?;
    let naive = ["naive recordings", "naive records"];
    let limits = receiver::LIMITS.into_iter().flatten();
    let receivers = receiver::RECORDS.into_iter().chain(limits);
    let classes = naive.into_iter().chain(receivers).chain(cases::UNUSED);
    let tables = slaves::counted().chain(owners::counted());
    let tables = tables.chain(figures::counted());
    let classes = classes.chain(faults::counted()).chain(tables);
    for class in classes.chain(sender::KINDS) {
        let some = checker.cases.get(class).is_some_and(|count| *count > 0);
        checker.holds(some, || format!("there are {class}"))?;
    }
    for (class, least) in [
        (slaves::CALLS, slaves::LEAST),
        (owners::CALLS, owners::LEAST),
        (figures::CALLS, figures::LEAST),
        (sender::CALLS, sender::LEAST),
    ] {
        let calls = checker.cases.get(class).copied().unwrap_or(0);
        checker.holds(calls >= least, || format!("{calls} are many {class}"))?;
    }
    let functions = slaves::ORDERS.into_iter().chain(sender::ORDERS);
    for (function, first, behind) in check::orders(functions) {
        let some = checker.orders.contains_key(&(function, first, behind));
        checker.holds(some, || {
            format!("{function} gives {first}, also where {behind} applies too")
        })?;
    }
    Ok(())
}

fn report(checker: &Checker, started: Instant) {
    for (class, count) in &checker.cases {
        println!("{class:20} {count:>12}");
    }
    for (number, count) in checker.numbers.iter().enumerate() {
        // Some numbers between the refusals' are those of none.
        if number == 0 || Error::from_number(number as u32).is_some() {
            println!("answer {number:<13} {count:>12}");
        }
    }
    for ((function, number, behind), count) in &checker.orders {
        if *behind == 0 {
            println!("{function:17} {number:<2} {count:>12}");
        }
    }
    for (verdict, count) in checker.verdicts.iter().enumerate() {
        println!("verdict V{verdict:<11} {count:>12}");
    }
    let seconds = started.elapsed().as_secs_f64();
    println!("calls {:>27} in {seconds:.1} s", checker.calls);
}
