//! Throws seeded numbers at every entry of the archive but those of `hostile` and `hostile_frames`, and compares each answer and all lent memory
//! with models of its own: tables and keys, uploads and totals, streams and stocks, server rounds, windows, saves, cyclic networks, and pools on paper. Every
//! call is made through the safe crate too. `hostile_states [COUNT] [SEED]`; a million and 7 where nothing is said. The exit status is 1 where one differs.

mod blocks;
mod field;
mod networks;
mod paper;
#[allow(dead_code)]
#[path = "../hostile/reader.rs"]
mod reader;
mod saves;
#[path = "../hostile/seeded.rs"]
mod seeded;
mod servers;
mod streams;
mod tables;
mod tally;
mod windows;

use seeded::Seeded;
use std::time::Instant;
use tally::Tally;

/// A subject: makes about so many calls.
type Subject = fn(&mut Seeded, usize, &mut Tally);

/// Each with its share of a hundred.
const SUBJECTS: [(Subject, usize); 8] = [
    (tables::run, 8),
    (blocks::run, 18),
    (streams::run, 18),
    (servers::run, 15),
    (windows::run, 15),
    (saves::run, 16),
    (networks::run, 6),
    (paper::run, 4),
];

fn all(s: &mut Seeded, count: usize) -> Tally {
    let mut tally = Tally::default();
    for (subject, share) in SUBJECTS {
        subject(s, count / 100 * share, &mut tally);
    }
    tally
}

fn main() {
    let mut arguments = std::env::args().skip(1).map(|word| word.parse().expect("a whole number"));
    let count = arguments.next().unwrap_or(1_000_000);
    let seed = arguments.next().unwrap_or(7);
    let start = Instant::now();
    let tally = all(&mut Seeded(seed as u64), count);
    tally.print();
    println!("seed {seed}, {:.0} s: {} calls, {} differ", start.elapsed().as_secs_f64(), tally.tried(), tally.differ);
    if tally.differ > 0 {
        std::process::exit(1);
    }
}

#[cfg(test)]
mod tests {
    use super::*;

    /// Thousands of each entry; all numbers that an entry can answer are met.
    #[test]
    fn none_of_three_hundred_thousand_differs() {
        let tally = all(&mut Seeded(1), 300_000);
        tally.print();
        assert_eq!((tally.differ, tally.unmet()), (0, Vec::new()));
    }
}
