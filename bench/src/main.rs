//! Compares the proved functions with plain ones on seeded inputs, and times them. `compare` does the first, `speed` the second, and
//! `primes` times the test for primes; without a word all three are done. `every_number [FROM TO]` compares that test with a sieve, on
//! all numbers of 32 bits or on those from FROM up to TO, which is left out. `paper` compares and times the program `simulate`, and
//! `simulate` does what that program does. `examples FOLDER` writes the files of examples/.

mod every_number;
mod examples;
mod network_runs;
mod networks;
mod paper;
mod plain;
mod primes;
mod proved;
mod rounds;
mod speed;
mod tally;
mod windows;

/// A whole number below a plan's prime q, and q itself.
pub type Symbol = u32;

/// The primes at whose plans times are taken: the largest of a record's old form, and the largest of 32 bits.
pub const LARGE_PRIMES: [Symbol; 2] = [65_521, 4_294_967_291];

/// A number and two details, as the program prints them.
#[derive(Clone, Copy, PartialEq, Eq, Debug)]
pub struct Code(pub u16, pub u16, pub u16);

#[derive(Clone, Debug)]
pub struct Plan {
    pub clusters: usize,
    pub size: usize,
    pub limit: usize,
    pub rate: usize,
    pub q: Symbol,
    pub table: Vec<Symbol>,
}

impl Plan {
    /// The plan that the maker's formula gives, vetted or not.
    pub fn made(clusters: usize, size: usize, limit: usize, q: Symbol, gamma: Symbol) -> Plan {
        let rate = plain::rate_of(clusters, size, limit);
        let table = plain::made_table(clusters, size, limit, q, gamma);
        Plan { clusters, size, limit, rate, q, table }
    }
}

/// Whether every bar is met.
fn times() -> bool {
    let met = speed::measure() & rounds::measure() & windows::measure();
    network_runs::measure();
    met
}

fn main() {
    let words: Vec<String> = std::env::args().skip(1).collect();
    let words: Vec<&str> = words.iter().map(String::as_str).collect();
    let right = match words[..] {
        [] => (tally::compare() == 0) & times() & primes::measure(),
        ["compare"] => tally::compare() == 0,
        ["speed"] => times(),
        ["primes"] => primes::measure(),
        ["paper"] => (paper::compare(&mut tally::Seeded(17), 2_000) == 0) & paper::measure(),
        ["simulate"] => {
            paper::simulate();
            true
        }
        ["every_number"] => every_number::compare(0, 1 << 32) == 0,
        ["every_number", from, to] => every_number::compare(every_number::bound(from), every_number::bound(to)) == 0,
        ["examples", folder] => {
            examples::write(folder.as_ref());
            true
        }
        _ => panic!("compare, speed, primes, paper, simulate, every_number [FROM TO], examples FOLDER, or nothing"),
    };
    if !right {
        std::process::exit(1);
    }
}
