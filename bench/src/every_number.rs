//! The proved test for primes against a sieve, on every number of 32 bits.

use crate::primes::proved_says;

/// How many numbers are sieved at once, and after how many such parts something is said.
const PART: u64 = 1 << 20;
const PARTS: u64 = 64;

/// A bound of the numbers to look at: a whole number up to 4,294,967,296.
pub fn bound(word: &str) -> u64 {
    let bound = word.parse().expect("a whole number");
    assert!(bound <= 1 << 32, "at most 4294967296");
    bound
}

/// The primes below 65,536: every composite number of 32 bits has one of them as a divisor.
fn small_primes() -> Vec<u64> {
    let mut crossed = vec![false; 65_536];
    for d in 2..256 {
        (d * d..65_536).step_by(d).for_each(|m| crossed[m] = true);
    }
    (2..65_536).filter(|&n| !crossed[n as usize]).collect()
}

/// Crosses out the composite numbers from `from` on, and 0 and 1.
fn sieve(primes: &[u64], from: u64, crossed: &mut [bool]) {
    let to = from + crossed.len() as u64;
    crossed.fill(false);
    (from..to.min(2)).for_each(|n| crossed[(n - from) as usize] = true);
    for &p in primes.iter().take_while(|&&p| p * p < to) {
        let first = (p * p).max(from.next_multiple_of(p));
        (first..to).step_by(p as usize).for_each(|m| crossed[(m - from) as usize] = true);
    }
}

/// How many numbers from `from` up to `to` the proved test and the sieve judge otherwise.
pub fn compare(from: u64, to: u64) -> usize {
    let primes = small_primes();
    let (mut found, mut differ) = (0_u64, 0);
    for (part, start) in (from..to).step_by(PART as usize).enumerate() {
        let mut crossed = vec![false; PART.min(to - start) as usize];
        sieve(&primes, start, &mut crossed);
        for (q, &crossed) in (start..).zip(&crossed) {
            found += !crossed as u64;
            if proved_says(q as u32) != Some(!crossed) {
                differ += 1;
                if differ <= 5 {
                    println!("differs at {q}");
                }
            }
        }
        if part as u64 % PARTS == PARTS - 1 {
            eprintln!("to {}: {found} primes, {differ} differ", start + PART);
        }
    }
    println!("{} numbers from {from} on: {found} primes, {differ} differ", to.saturating_sub(from));
    differ
}
