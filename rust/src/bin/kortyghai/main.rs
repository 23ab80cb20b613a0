//! The command-line tool `kortyghai`. It adds no rules: each verdict is the proved core's.
//!
//! Results go to standard output, everything else to standard error. The exit status is 0 where nothing is refused, 1 where something is, and 2
//! where the tool was used wrongly or a file can't be read or written.

mod words;

use kortyghai::{Counts, KeyTable, PaperRun, Plan, Refusal, Symbol, MAX_BYTES, MAX_RECORD};
use std::ffi::OsString;
use std::io::{self, IsTerminal, Read, Write};
use std::process::ExitCode;
use std::sync::mpsc;
use std::time::{Duration, Instant};

const HELP: &str = "\
Usage: kortyghai COMMAND

  vet FILE        vets the plan record at the end of a file, and says in words what leaks
  make U V T q γ  makes a key table and writes its record to standard output: U clusters of V
                  users, coalitions of at most T, a prime q, powers of the symbol γ
  pairs U V T     prints how many pairs of coalition and observer the vet looks at
  show FILE       prints the plan and the key table of a record, without vetting it
  simulate FILE CAP ROUNDS
                  a pool on paper: vets the record and prints a line for each of ROUNDS rounds
                  with readings from 0 to CAP: the round's number, the index of the user who
                  sends last, relay 1's sum, the sum of the readings and the shown total
  --help          prints this
  --version       prints the version

FILE may be - for standard input. Nothing but results goes to standard output.
Exit status: 0 accepted, 1 refused, 2 wrong usage or a file that can't be read or written.
";

/// Why there is no result.
enum Failure {
    /// The core refuses; with V of the plan, where that is known.
    Refused(Refusal, Option<u32>),
    /// The tool was used wrongly, or a file can't be read or written.
    Usage(String),
}

impl From<Refusal> for Failure {
    fn from(refusal: Refusal) -> Failure {
        Failure::Refused(refusal, None)
    }
}

type Outcome = Result<ExitCode, Failure>;

const ACCEPTED: u8 = 0;
const REFUSED: u8 = 1;
const WRONG_USAGE: u8 = 2;

fn main() -> ExitCode {
    let arguments: Vec<OsString> = std::env::args_os().skip(1).collect();
    let texts: Vec<String> = arguments.iter().map(|word| word.to_string_lossy().into_owned()).collect();
    let words: Vec<&str> = texts.iter().map(String::as_str).collect();
    match run(&words, &arguments) {
        Ok(status) => status,
        Err(Failure::Refused(refusal, size)) => {
            tell(&format!("kortyghai: refused ({}): {}\n", refusal.number(), words::of(&refusal, size)));
            ExitCode::from(REFUSED)
        }
        Err(Failure::Usage(what)) => {
            tell(&format!("kortyghai: {what}\n"));
            ExitCode::from(WRONG_USAGE)
        }
    }
}

/// Words for people, to standard error. Where they can't be written the exit status still says what happened.
fn tell(words: &str) {
    let _ = io::stderr().write_all(words.as_bytes());
}

/// One arm for each command; `given` are the same words as they came, for names of files.
fn run(words: &[&str], given: &[OsString]) -> Outcome {
    match words {
        ["vet", _] => vet(&bytes_of(&given[1])?),
        ["make", u, v, t, q, generator] => make(counts(u, v, t)?, number("q", q)?, number("γ", generator)?),
        ["pairs", u, v, t] => pairs(counts(u, v, t)?),
        ["show", _] => show(&bytes_of(&given[1])?),
        ["simulate", _, cap, rounds] => {
            let (cap, rounds) = (number("CAP", cap)?, number("ROUNDS", rounds)?);
            simulate(&bytes_of(&given[1])?, cap, rounds)
        }
        ["--help" | "-h" | "help"] => print(HELP),
        ["--version" | "-V"] => print(concat!("kortyghai ", env!("CARGO_PKG_VERSION"), "\n")),
        [] => Err(Failure::Usage(format!("a command is wanted\n\n{HELP}"))),
        [command @ ("vet" | "make" | "pairs" | "show" | "simulate"), ..] => {
            Err(Failure::Usage(format!("wrong words after `{command}`\n\n{HELP}")))
        }
        [other, ..] => Err(Failure::Usage(format!("there is no command `{other}`\n\n{HELP}"))),
    }
}

/// A count or a symbol.
fn number(name: &str, word: &str) -> Result<Symbol, Failure> {
    word.parse().map_err(|_| Failure::Usage(format!("{name} is to be a whole number from 0 to {}, not `{word}`", Symbol::MAX)))
}

fn counts(u: &str, v: &str, t: &str) -> Result<Counts, Failure> {
    Ok(Counts { clusters: number("U", u)?, size: number("V", v)?, limit: number("T", t)? })
}

/// The bytes of a file, or of standard input. One byte beyond those that a record may have is enough to be refused by.
fn bytes_of(file: &OsString) -> Result<Vec<u8>, Failure> {
    let most = MAX_BYTES as u64 + 1;
    let mut bytes = Vec::new();
    let read = if file == "-" {
        io::stdin().lock().take(most).read_to_end(&mut bytes)
    } else {
        std::fs::File::open(file).and_then(|opened| opened.take(most).read_to_end(&mut bytes))
    };
    read.map_err(|error| Failure::Usage(format!("{} can't be read: {error}", file.to_string_lossy())))?;
    Ok(bytes)
}

/// A result, to standard output.
fn put(result: &[u8], status: u8) -> Outcome {
    let mut out = io::stdout().lock();
    let written = out.write_all(result).and_then(|()| out.flush());
    written.map_err(|error| Failure::Usage(format!("standard output can't be written: {error}")))?;
    Ok(ExitCode::from(status))
}

fn print(result: &str) -> Outcome {
    put(result.as_bytes(), ACCEPTED)
}

fn make(counts: Counts, q: Symbol, generator: Symbol) -> Outcome {
    let made = waited(counts, move || counts.make_table(q, generator));
    let table = made.map_err(|refusal| Failure::Refused(refusal, Some(counts.size)))?;
    let mut record = [0; MAX_RECORD];
    let record = &mut record[..table.plan().record_size()];
    table.write_record(record)?;
    put(record, ACCEPTED)
}

fn pairs(counts: Counts) -> Outcome {
    print(&format!("{}\n", counts.pairs()?))
}

fn show(bytes: &[u8]) -> Outcome {
    // of a longer file the end is missing here, and with it the record; the core refuses so many bytes, whatever they are
    if bytes.len() > MAX_BYTES {
        kortyghai::vet_record(bytes)?;
    }
    print(&words::shown(&KeyTable::read_record(bytes)?))
}

/// What the program `simulate` prints, where it is not refused.
fn simulate(record: &[u8], cap: u32, rounds: u32) -> Outcome {
    let (plan, counts) = plan_in(record);
    let bytes = [&cap.to_le_bytes(), &rounds.to_le_bytes(), record].concat();
    let opened = waited(counts, move || PaperRun::open(&bytes));
    let mut run = opened.map_err(|refusal| Failure::Refused(refusal, plan.map(|plan| plan.size)))?;
    let mut lines = Vec::new();
    while !run.is_over() {
        lines.extend_from_slice(run.next_line()?.as_bytes());
    }
    put(&lines, ACCEPTED)
}

/// The plan of a record, where it can be read, and its counts, which are 0 where it can't.
fn plan_in(bytes: &[u8]) -> (Option<Plan>, Counts) {
    let plan = KeyTable::read_record(bytes).ok().map(|table| *table.plan());
    (plan, plan.map_or(Counts { clusters: 0, size: 0, limit: 0 }, |plan| plan.counts()))
}

/// What the program `vet` decides, in words. Where the record can be read, its plan says who the users are.
fn vet(bytes: &[u8]) -> Outcome {
    let (plan, counts) = plan_in(bytes);
    let owned = bytes.to_vec();
    match waited(counts, move || kortyghai::vet_record(&owned)) {
        Ok(()) => put(words::accepted(plan.as_ref()).as_bytes(), ACCEPTED),
        Err(refusal) => {
            let said = format!("refused ({}): {}\n", refusal.number(), words::of(&refusal, plan.as_ref().map(|plan: &Plan| plan.size)));
            put(said.as_bytes(), REFUSED)
        }
    }
}

/// How long a call lasts before it is told of, and how often from then on.
const PATIENCE: Duration = Duration::from_millis(100);

/// Waits for a vet. Where it lasts and standard error is a terminal, a line there says for how long, and how many pairs it has to look at.
fn waited<T: Send + 'static>(counts: Counts, call: impl FnOnce() -> T + Send + 'static) -> T {
    let (told, heard) = mpsc::channel();
    let caller = std::thread::spawn(move || {
        let result = call();
        // nobody is left to hear it where the waiting has ended, which it hasn't
        let _ = told.send(());
        result
    });
    let (start, seen) = (Instant::now(), io::stderr().is_terminal());
    let mut lines = 0;
    while let Err(mpsc::RecvTimeoutError::Timeout) = heard.recv_timeout(PATIENCE) {
        if seen {
            let pairs = counts.pairs().unwrap_or(0);
            tell(&format!("\rvetting: {pairs} pairs of coalition and observer, {:.1} s", start.elapsed().as_secs_f64()));
            lines += 1;
        }
    }
    if lines > 0 {
        tell("\n");
    }
    caller.join().expect("the proved functions end and don't panic")
}
