//! A planner's work: a key table is made, vetted and written as a record, or it is said in words why not.
//!
//!     cargo run --release --example planner -- U V T q γ [FILE [RELAY RELAY]]
//!     cargo run --release --example planner -- 5 2 1 65521 2 ../target/new.plan 1 2
//!
//! U clusters (each with one relay) of V users, coalitions of at most T users, a table of powers of γ modulo the prime q. FILE gets the record; `-` stands
//! for none. The two relays stand under one lock: whoever opens it sees what both hear. Without arguments: 5 2 1 65521 2. The exit status is 0 where the
//! plan is accepted, 1 where it is refused, and 2 where the program is used wrongly or the file can't be written or read.

use kortyghai::{Counts, KeyTable, Refusal, Report};
use std::process::ExitCode;

pub const ACCEPTED: u8 = 0;
pub const REFUSED: u8 = 1;
pub const USAGE: u8 = 2;

/// How many γ are tried, one after the other, before the planner is told to choose a larger q.
const TRIES: u32 = 100;

/// From this q on a record is a wide one, with four bytes for each symbol; below it is an old one, with two.
const FIRST_WIDE: u32 = 65_536;

/// What the planner asks for.
struct Order {
    counts: Counts,
    q: u32,
    generator: u32,
    file: Option<String>,
    lock: Option<(usize, usize)>,
}

/// The arguments as an order, or None where they make none.
fn order(args: &[String]) -> Option<Order> {
    let numbers = |texts: &[String]| texts.iter().map(|text| text.parse().ok()).collect::<Option<Vec<u32>>>();
    let [clusters, size, limit, q, generator] = match args.len() {
        0 => [5, 2, 1, 65_521, 2],
        5 | 6 | 8 => numbers(&args[..5])?.try_into().ok()?,
        _ => return None,
    };
    let file = args.get(5).filter(|name| *name != "-").cloned();
    let lock = if args.len() == 8 { Some((args[6].parse().ok()?, args[7].parse().ok()?)) } else { None };
    Some(Order { counts: Counts { clusters, size, limit }, q, generator, file, lock })
}

/// The table of the first γ, from the one given on, whose table doesn't leak. The maker vets what it makes and refuses by 7 where γ is a bad choice, as 1
/// always is; every other refusal is of the plan itself, and no γ mends it.
fn make(order: &Order) -> Result<KeyTable, Refusal> {
    let mut generator = order.generator;
    loop {
        match order.counts.make_table(order.q, generator) {
            Err(Refusal::Leaks { .. }) if generator + 1 < order.q && generator - order.generator < TRIES => {
                println!("γ {generator}: the table leaks, so the next γ is tried");
                generator += 1;
            }
            answer => return answer,
        }
    }
}

/// The users of a coalition in words. A coalition is a number with one bit for each user's index, and user v of cluster u has index (u − 1) × V + v − 1.
fn members(coalition: u16, size: u32) -> String {
    let name = |index: u32| format!("user {} of cluster {}", index % size + 1, index / size + 1);
    let names: Vec<String> = (0..u16::BITS).filter(|index| coalition >> index & 1 == 1).map(name).collect();
    if names.is_empty() {
        "no user".into()
    } else {
        names.join(", ")
    }
}

/// Who would learn what. A relay may learn nothing of the readings of users outside its coalition, and the server their total alone.
fn in_words(refusal: Refusal, order: &Order) -> String {
    let size = order.counts.size;
    match (refusal, order.lock) {
        (Refusal::Leaks { coalition, observer: 0 }, _) => {
            format!("the server together with {} would learn more of the other users than their total", members(coalition, size))
        }
        (Refusal::Leaks { coalition, observer }, _) => {
            format!("relay {observer} together with {} would learn something of the readings of other users", members(coalition, size))
        }
        (Refusal::JointLeaks { coalition }, Some((one, other))) => format!(
            "whoever opens the lock of relays {one} and {other} would learn, together with {}, something of the readings of other users",
            members(coalition, size)
        ),
        (Refusal::UnknownNumber, Some((one, other))) => {
            format!("relays {one} and {other} are no pair: name two of the plan's, the lower first")
        }
        (refusal, _) => refusal.meaning().into(),
    }
}

/// Writes the table's record to a file, reads it back, and says whether what came back is the same table.
fn keep(table: &KeyTable, file: &str) -> std::io::Result<bool> {
    let plan = table.plan();
    let mut record = vec![0; plan.record_size()];
    // a buffer of exactly the record's size is never refused
    table.write_record(&mut record).map_err(std::io::Error::other)?;
    std::fs::write(file, &record)?;
    let kind = if plan.q < FIRST_WIDE { "an old record" } else { "a wide record" };
    println!("{file}: {kind} of {} bytes", record.len());
    Ok(KeyTable::read_record(&std::fs::read(file)?) == Ok(*table))
}

/// The table, where it can be made and the vet accepts it.
fn vetted(order: &Order) -> Result<KeyTable, Refusal> {
    println!("the vet of this plan looks at {} pairs of coalition and observer", order.counts.pairs()?);
    let table = make(order)?;
    println!("a table of {} rows of {} symbols is made", table.plan().users(), table.plan().rate);

    // the maker has vetted it; the vet with a report says at how many pairs it looked, and sees the lock too
    let Report { verdict, looked } = table.vet_joint(order.lock);
    verdict?;
    println!("the vet has looked at {looked} pairs, and none leaks");
    Ok(table)
}

/// All of it, from the arguments to the exit status.
pub fn run(args: &[String]) -> u8 {
    let Some(order) = order(args) else {
        eprintln!("usage: planner [U V T q γ [FILE [RELAY RELAY]]], with `-` for no FILE");
        return USAGE;
    };
    let table = match vetted(&order) {
        Ok(table) => table,
        Err(refusal) => {
            println!("refused by {}: {}", refusal.number(), in_words(refusal, &order));
            return REFUSED;
        }
    };
    match order.file.as_deref().map(|file| keep(&table, file)) {
        None => {}
        Some(Ok(true)) => println!("read back, it is the same table"),
        Some(Ok(false)) => {
            eprintln!("what was read back is another table");
            return USAGE;
        }
        Some(Err(error)) => {
            eprintln!("the record can't be kept: {error}");
            return USAGE;
        }
    }
    println!("accepted: no relay and not the server learns more than it may, whichever users join it, {} at most", order.counts.limit);
    ACCEPTED
}

pub fn main() -> ExitCode {
    ExitCode::from(run(&std::env::args().skip(1).collect::<Vec<_>>()))
}
