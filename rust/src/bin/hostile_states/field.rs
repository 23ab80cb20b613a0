//! Numbers modulo q, and what solving tells of spans.

use crate::seeded::Seeded;
use kortyghai::Symbol;
use std::collections::HashMap;
use std::sync::Mutex;

/// Small and large primes, and those around which a symbol stops fitting into 16 bits, or two into 32 when added.
pub const PRIMES: [Symbol; 14] =
    [2, 3, 5, 7, 11, 251, 257, 65_519, 65_521, 65_537, 2_147_483_647, 2_147_483_659, 4_294_967_279, 4_294_967_291];

/// Numbers that are none: squares, numbers that pass Fermat's test with 2, and one whose low 16 bits are 5.
pub const NO_PRIMES: [Symbol; 12] = [0, 1, 4, 9, 25, 65_535, 65_536, 65_541, 12_327_121, 3_215_031_751, 4_293_001_441, 4_294_967_295];

/// Has q no divisor from 2 to its root? Each q is looked at once, as the same few come often.
pub fn is_prime(q: Symbol) -> bool {
    static KNOWN: Mutex<Option<HashMap<Symbol, bool>>> = Mutex::new(None);
    *KNOWN.lock().unwrap().get_or_insert_default().entry(q).or_insert_with(|| q > 1 && (2..=q.isqrt()).all(|d| q % d != 0))
}

/// Below n, and mostly below a smaller bound.
pub fn often_below(s: &mut Seeded, few: usize, n: usize) -> usize {
    let bound = if s.below(4) > 0 { few } else { n };
    s.below(bound)
}

/// A symbol below q, often at an end; 0 where q is 0.
pub fn symbol(s: &mut Seeded, q: Symbol) -> Symbol {
    let q = q.max(1);
    if s.below(4) == 0 {
        s.one_of(&[0, q - 1, 1 % q])
    } else {
        s.below(q as usize) as Symbol
    }
}

pub fn symbols(s: &mut Seeded, q: Symbol, n: usize) -> Vec<Symbol> {
    (0..n).map(|_| symbol(s, q)).collect()
}

/// Some prime, and seldom another number.
pub fn some_q(s: &mut Seeded) -> Symbol {
    if s.below(24) == 0 {
        s.one_of(&NO_PRIMES)
    } else {
        s.one_of(&PRIMES)
    }
}

/// A length that is mostly the right one.
pub fn near(s: &mut Seeded, right: usize) -> usize {
    if s.below(16) > 0 {
        right
    } else {
        s.one_of(&[0, right.saturating_sub(1), right + 1, 1, 64, 65])
    }
}

/// At times one of the numbers becomes one that is not below q.
pub fn spoil(s: &mut Seeded, q: Symbol, numbers: &mut [Symbol]) {
    if !numbers.is_empty() && s.below(16) == 0 {
        let place = s.below(numbers.len());
        numbers[place] = s.one_of(&[q, q.saturating_add(1), Symbol::MAX]);
    }
}

/// A plan's or a round's count that is mostly the given one.
pub fn some_count(s: &mut Seeded, right: Symbol) -> Symbol {
    if s.below(40) > 0 {
        right
    } else {
        s.one_of(&[0, 9, 16, 17, 1 << 16, Symbol::MAX])
    }
}

/// U and V with at most `most` users.
pub fn some_clusters(s: &mut Seeded, most: usize) -> (Symbol, Symbol) {
    loop {
        let (u, v) = (1 + s.below(8), 1 + s.below(8));
        if u * v <= most {
            return (u as Symbol, v as Symbol);
        }
    }
}

/// "U and V from 1 to 8, U × V at most 16, T from 0 to U × V"
pub fn counts_fit(u: usize, v: usize, t: usize) -> bool {
    (1..=8).contains(&u) && (1..=8).contains(&v) && u * v <= 16 && t <= u * v
}

/// By Fermat: a to the power q − 2.
pub fn inverse(a: u64, q: u64) -> u64 {
    let (mut power, mut result, mut exponent) = (a, 1, q - 2);
    while exponent > 0 {
        if exponent % 2 == 1 {
            result = result * power % q;
        }
        power = power * power % q;
        exponent /= 2;
    }
    result
}

/// Vectors, each with 1 at its own place, where those after it have 0.
pub struct Span {
    q: u64,
    kept: Vec<(usize, Vec<u64>)>,
}

impl Span {
    pub fn new(q: Symbol) -> Span {
        Span { q: q as u64, kept: Vec::new() }
    }

    pub fn of(q: Symbol, vectors: impl IntoIterator<Item = Vec<u64>>) -> Span {
        let mut span = Span::new(q);
        vectors.into_iter().for_each(|vector| {
            span.keep(vector);
        });
        span
    }

    /// What is left of a vector once those kept are taken off.
    fn rest(&self, mut vector: Vec<u64>) -> Vec<u64> {
        vector.iter_mut().for_each(|x| *x %= self.q);
        for (place, above) in &self.kept {
            let by = vector[*place];
            vector.iter_mut().zip(above).for_each(|(x, a)| *x = (*x + self.q - by * a % self.q) % self.q);
        }
        vector
    }

    /// Keeps what is left of a vector; says whether anything was.
    pub fn keep(&mut self, vector: Vec<u64>) -> bool {
        let mut rest = self.rest(vector);
        let Some(place) = rest.iter().position(|&x| x != 0) else { return false };
        let by = inverse(rest[place], self.q);
        rest.iter_mut().for_each(|x| *x = *x * by % self.q);
        self.kept.push((place, rest));
        true
    }

    pub fn has(&self, vector: Vec<u64>) -> bool {
        self.rest(vector).iter().all(|&x| x == 0)
    }
}
