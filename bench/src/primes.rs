//! Tests for primes in plain Rust, and their times beside that of the proved one.
//!
//! The proved test is called by its entry, which answers 0 or 2; the plain side has a function of the same shape for each of its tests.

use crate::speed::processor_time;
use crate::tally::{Seeded, NO_PRIMES};
use crate::{proved, Code, Symbol};
use std::hint::black_box;

/// What the proved test may take: at the largest primes, of the time of odd divisors and of Miller–Rabin's; at 65,521 and at 5, of the
/// time before symbols had 32 bits.
const BAR_DIVISORS: f64 = 0.02;
const BAR_MILLER_RABIN: f64 = 1.0;
const BAR_BEFORE_65_521: f64 = 1.0;
const BAR_BEFORE_5: f64 = 1.3;

/// How often each test has its turn, and how many seconds that takes at least.
const TURNS: usize = 15;
const TURN: f64 = 0.002;

/// By 2, then by odd numbers up to the root.
pub fn by_odd_divisors(q: Symbol) -> bool {
    if q < 2 || q % 2 == 0 {
        return q == 2;
    }
    let mut d: Symbol = 3;
    while d as u64 * d as u64 <= q as u64 {
        if q % d == 0 {
            return false;
        }
        d += 2;
    }
    true
}

/// The proved test as it was for symbols of 16 bits, line by line.
fn before(q: u16) -> bool {
    if q < 2 {
        return false;
    }
    if q % 2 == 0 {
        return q == 2;
    }
    let n = q as u32;
    let mut d: u32 = 3;
    while d * d <= n {
        if n % d == 0 {
            return false;
        }
        d += 2;
    }
    true
}

fn power(q: u64, mut base: u64, mut exponent: u64) -> u64 {
    let mut result = 1;
    while exponent > 0 {
        if exponent & 1 == 1 {
            result = result * base % q;
        }
        base = base * base % q;
        exponent >>= 1;
    }
    result
}

/// Whether q, which is odd, passes Miller and Rabin's test with one base.
fn passes(q: u64, base: u64) -> bool {
    let twos = (q - 1).trailing_zeros();
    let mut x = power(q, base, (q - 1) >> twos);
    if x == 1 || x == q - 1 {
        return true;
    }
    for _ in 1..twos {
        x = x * x % q;
        if x == q - 1 {
            return true;
        }
    }
    false
}

/// By Miller and Rabin's test with the bases 2, 7 and 61, which no composite number of 32 bits passes.
pub fn by_miller_rabin(q: Symbol) -> bool {
    const BASES: [Symbol; 3] = [2, 7, 61];
    if q < 2 {
        return false;
    }
    for base in BASES {
        if q % base == 0 {
            return q == base;
        }
    }
    BASES.into_iter().all(|base| passes(q as u64, base as u64))
}

/// The test of the plain functions: for what 16 bits hold by odd divisors, as it was before, and else by Miller and Rabin's.
pub fn is_prime(q: Symbol) -> bool {
    if q < 65_536 {
        by_odd_divisors(q)
    } else {
        by_miller_rabin(q)
    }
}

/// What the entry answers, by a plain test.
fn code(prime: bool) -> Code {
    Code(if prime { 0 } else { 2 }, 0, 0)
}

#[inline(never)]
fn with_odd_divisors(q: Symbol) -> Code {
    code(by_odd_divisors(q))
}

#[inline(never)]
fn with_miller_rabin(q: Symbol) -> Code {
    code(by_miller_rabin(q))
}

#[inline(never)]
fn with_before(q: Symbol) -> Code {
    code(before(q as u16))
}

/// Whether the proved test calls q a prime; nothing where the answer is neither 0 nor 2.
pub fn proved_says(q: Symbol) -> Option<bool> {
    match proved::check_prime(q) {
        Code(0, 0, 0) => Some(true),
        Code(2, 0, 0) => Some(false),
        _ => None,
    }
}

/// The seconds of so many rounds of calls, one call for each number in turn.
fn timed(call: impl Fn(Symbol) -> Code, numbers: &[Symbol], rounds: usize) -> f64 {
    let start = processor_time();
    for _ in 0..rounds {
        for &q in numbers {
            black_box(call(black_box(q)));
        }
    }
    processor_time() - start
}

/// The least seconds of a round, of several turns; each turn takes some milliseconds.
fn least<const N: usize>(timed: [&dyn Fn(usize) -> f64; N]) -> [f64; N] {
    let rounds = timed.map(|timed| (0..).map(|n| 1 << n).find(|&rounds| timed(rounds) >= TURN).unwrap());
    let mut times = [f64::MAX; N];
    for _ in 0..TURNS {
        for ((time, timed), rounds) in times.iter_mut().zip(timed).zip(rounds) {
            *time = time.min(timed(rounds) / rounds as f64);
        }
    }
    times
}

/// The share of the proved test in the time of odd divisors, of Miller–Rabin and, where 16 bits hold the numbers, of before.
struct Row {
    divisors: f64,
    miller_rabin: f64,
    before: f64,
}

/// Prints nanoseconds a call and shares. Where 16 bits don't hold the numbers, what stands under before means nothing and is left out.
fn row(name: &str, numbers: &[Symbol]) -> Row {
    let [proved, divisors, miller_rabin, before] = least([
        &|rounds| timed(proved::check_prime, numbers, rounds),
        &|rounds| timed(with_odd_divisors, numbers, rounds),
        &|rounds| timed(with_miller_rabin, numbers, rounds),
        &|rounds| timed(with_before, numbers, rounds),
    ])
    .map(|time| time * 1e9 / numbers.len() as f64);
    let row = Row { divisors: proved / divisors, miller_rabin: proved / miller_rabin, before: proved / before };
    print!("{name:34}{proved:9.1}{divisors:11.1}{:8.4}{miller_rabin:9.1}{:8.2}", row.divisors, row.miller_rabin);
    if numbers.iter().all(|&q| q < 65_536) {
        print!("{before:9.1}{:8.2}", row.before);
    }
    println!();
    row
}

/// The `count` primes from `from` downwards.
fn primes_below(from: Symbol, count: usize) -> Vec<Symbol> {
    (0..=from).rev().filter(|&q| by_miller_rabin(q)).take(count).collect()
}

fn composites(s: &mut Seeded, count: usize) -> Vec<Symbol> {
    let mut found = Vec::new();
    while found.len() < count {
        let q = s.symbol(Symbol::MAX);
        if !by_miller_rabin(q) {
            found.push(q);
        }
    }
    found
}

/// How many numbers the tests judge otherwise: those of the rows, some that deceive a test, and some by chance.
fn compare(s: &mut Seeded, rows: &[&[Symbol]]) -> usize {
    let chance: Vec<Symbol> = (0..2_000).flat_map(|_| [s.symbol(Symbol::MAX), s.symbol(65_536)]).collect();
    let deceiving = [4_293_001_441, 3_215_031_751, 1_194_649, 2_047, 561, 1_627 * 1_627, 65_537, 4_294_967_279];
    let numbers: Vec<Symbol> = rows.concat().into_iter().chain(NO_PRIMES).chain(deceiving).chain(chance).collect();
    let differ = numbers.iter().filter(|&&q| {
        let prime = by_odd_divisors(q);
        proved_says(q) != Some(prime) || by_miller_rabin(q) != prime || q < 65_536 && before(q as u16) != prime
    });
    let differ = differ.count();
    println!("tests for primes: {} numbers, {differ} differ", numbers.len());
    differ
}

fn bar(name: &str, ratio: f64, most: f64) -> bool {
    let met = ratio <= most;
    println!("bar, {name}: {ratio:.3}, at most {most}: {}", if met { "met" } else { "NOT met" });
    met
}

/// Whether every bar is met, and no test differs.
pub fn measure() -> bool {
    let mut s = Seeded(13);
    let (largest, middle, others) = (primes_below(Symbol::MAX, 50), primes_below(1 << 20, 50), composites(&mut s, 1_000));
    let differ = compare(&mut s, &[&largest, &middle, &others]);
    println!("{:34}{:>9}{:>11}{:>8}{:>9}{:>8}{:>9}{:>8}", "test for primes, ns a call", "proved", "divisors", "ratio", "M-R", "ratio", "before", "ratio");
    let top = row("the 50 largest primes", &largest);
    row("the 50 largest primes to 2^20", &middle);
    let old = row("65521", &[65_521]);
    let small = row("5", &[5]);
    row("1000 composite numbers by chance", &others);
    (differ == 0)
        & bar("largest primes, of odd divisors", top.divisors, BAR_DIVISORS)
        & bar("largest primes, of Miller-Rabin with 2, 7, 61", top.miller_rabin, BAR_MILLER_RABIN)
        & bar("65521, of before", old.before, BAR_BEFORE_65_521)
        & bar("5, of before", small.before, BAR_BEFORE_5)
}
