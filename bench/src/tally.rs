//! The proved functions against plain ones on seeded plans.

use crate::{plain, proved, Plan, Symbol};

pub struct Seeded(pub u64);

impl Seeded {
    pub fn next(&mut self) -> u64 {
        self.0 = self.0.wrapping_mul(6364136223846793005).wrapping_add(1442695040888963407);
        self.0 >> 33
    }

    pub fn below(&mut self, n: usize) -> usize {
        (self.next() % n as u64) as usize
    }

    /// A symbol, of 62 bits by chance.
    pub fn symbol(&mut self, q: Symbol) -> Symbol {
        ((self.next() << 31 | self.next()) % q as u64) as Symbol
    }

    pub fn one_of<T: Copy>(&mut self, from: &[T]) -> T {
        from[self.below(from.len())]
    }
}

pub const PRIMES: [Symbol; 7] = [2, 3, 5, 7, 65_521, 65_537, 4_294_967_291];

/// Numbers that are no primes: small ones, some near the bounds, one whose low 16 bits are 5, and a square that passes Fermat's test
/// with 2.
pub const NO_PRIMES: [Symbol; 12] = [0, 1, 4, 9, 49, 255, 65_535, 65_536, 65_541, 12_327_121, 4_294_967_293, 4_294_967_295];

/// A table whose rows sum to zero; some symbols are 0 more often than chance has it, and at times one row repeats another, so that many plans leak.
fn zero_sum(s: &mut Seeded, rows: usize, cols: usize, q: Symbol) -> Vec<Symbol> {
    let sparse = 1 + s.below(4);
    let mut table: Vec<Symbol> = (0..rows * cols).map(|_| if s.below(4) < sparse { s.symbol(q) } else { 0 }).collect();
    if rows > 2 && s.below(4) == 0 {
        let (from, to) = (s.below(rows - 1), s.below(rows - 1));
        for k in 0..cols {
            table[to * cols + k] = table[from * cols + k];
        }
    }
    for k in 0..cols {
        let sum: u64 = (0..rows - 1).map(|i| table[i * cols + k] as u64).sum();
        table[(rows - 1) * cols + k] = ((q as u64 - sum % q as u64) % q as u64) as Symbol;
    }
    table
}

/// Breaks one thing of a plan.
fn spoil(s: &mut Seeded, plan: &mut Plan) {
    let symbols = plan.table.len();
    match s.below(9) {
        0 => plan.clusters = [0, 9, 8, usize::MAX][s.below(4)],
        1 => plan.size = [0, 9, 8, usize::MAX][s.below(4)],
        2 => plan.limit = plan.clusters * plan.size + 1 + s.below(3),
        3 => plan.rate = [0, 17, usize::MAX][s.below(3)],
        4 => plan.q = s.one_of(&NO_PRIMES),
        5 => plan.table.push(0),
        6 => drop(plan.table.pop()),
        7 => plan.table[s.below(symbols)] = plan.q,
        _ => {
            let x = s.below(symbols);
            plan.table[x] = (plan.table[x] + 1) % plan.q.max(2);
        }
    }
}

fn seeded(s: &mut Seeded) -> Plan {
    let (clusters, size) = loop {
        let (u, v) = (1 + s.below(8), 1 + s.below(8));
        if u * v <= 16 {
            break (u, v);
        }
    };
    let users = clusters * size;
    let q = s.one_of(&PRIMES);
    let small = s.below(3);
    let limit = if s.below(8) == 0 { s.below(users + 1) } else { small.min(users) };
    if s.below(3) == 0 && clusters > 1 {
        let limit = limit.min((clusters - 1) * size - 1);
        if plain::rate_of(clusters, size, limit) <= 16 {
            return Plan::made(clusters, size, limit, q, s.symbol(q));
        }
    }
    let rate = 1 + s.below(16);
    let table = zero_sum(s, users, rate, q);
    Plan { clusters, size, limit, rate, q, table }
}

/// How many plans the two vets judge otherwise.
fn compare_vets(s: &mut Seeded, plans: usize) -> usize {
    let (mut differ, mut numbers, mut servers) = (0, [0usize; 15], 0);
    for t in 0..plans {
        let mut plan = seeded(s);
        if t % 5 == 0 {
            spoil(s, &mut plan);
        }
        let (a, b) = (proved::vet(&plan), plain::vet(&plan));
        numbers[b.0 as usize] += 1;
        servers += (b.0 == 7 && b.2 == 0) as usize;
        if a != b {
            differ += 1;
            println!("proved {a:?}, plain {b:?}: {plan:?}");
        }
    }
    println!("vet: {plans} plans, {servers} leak to the server first; {}; {differ} differ", counted(&numbers));
    differ
}

/// How often each number was answered.
pub fn counted(numbers: &[usize]) -> String {
    let all: Vec<String> = (0..numbers.len()).filter(|&n| numbers[n] > 0).map(|n| format!("{n}: {}", numbers[n])).collect();
    all.join(", ")
}

/// How many tables the two makers make otherwise. A refused call must leave the lent table as it was.
fn compare_makers(s: &mut Seeded, calls: usize) -> usize {
    let (mut differ, mut numbers) = (0, [0usize; 15]);
    for _ in 0..calls {
        let (u, v) = (s.below(10), s.below(10));
        let limit = s.below(4);
        let q = match s.below(8) {
            0 => s.symbol(65_536),
            1 => s.symbol(Symbol::MAX),
            _ => s.one_of(&PRIMES),
        };
        let gamma = if s.below(8) == 0 { q } else { s.symbol(q.max(1)) };
        let fits = u > 0 && v > 0 && u * v <= 16;
        let lent = if fits && s.below(8) > 0 { u * v * plain::rate_of(u, v, limit) } else { s.below(300) };
        let old = vec![7; lent];
        let mut table = old.clone();
        let a = proved::make(u, v, limit, q, gamma, &mut table);
        let (b, made) = plain::make(u, v, limit, q, gamma, lent);
        numbers[b.0 as usize] += 1;
        let wanted = if b.0 == 0 { &made } else { &old };
        if a != b || table != *wanted {
            differ += 1;
            println!("maker: proved {a:?}, plain {b:?}: {u} {v} {limit} {q} {gamma} {lent}");
        }
    }
    println!("maker: {calls} calls; {}; {differ} differ", counted(&numbers));
    differ
}

/// How many keys the two derive otherwise. A refused call must leave the lent keys as they were.
fn compare_keys(s: &mut Seeded, calls: usize) -> usize {
    let (mut differ, mut numbers) = (0, [0usize; 15]);
    for t in 0..calls {
        let mut plan = seeded(s);
        if t % 10 == 0 {
            spoil(s, &mut plan);
        }
        let length = [0, 1, 2, 5, 63, 64, 65][s.below(7)];
        let spare = |s: &mut Seeded| (s.below(12) == 0) as usize;
        let given = length * plan.rate.min(17) + spare(s);
        let lent = (plan.clusters.min(9) * plan.size.min(9)) * length + spare(s);
        let mut source: Vec<Symbol> = (0..given).map(|_| s.symbol(plan.q.max(1))).collect();
        if s.below(12) == 0 && given > 0 {
            source[s.below(given)] = plan.q;
        }
        let old = vec![7; lent];
        let mut keys = old.clone();
        let a = proved::derive(&plan, length, &source, &mut keys);
        let (b, derived) = plain::derive(&plan, length, &source, lent);
        numbers[b.0 as usize] += 1;
        let wanted = if b.0 == 0 { &derived } else { &old };
        if a != b || keys != *wanted {
            differ += 1;
            println!("keys: proved {a:?}, plain {b:?}: {length} {plan:?}");
        }
    }
    println!("keys: {calls} calls; {}; {differ} differ", counted(&numbers));
    differ
}

/// How many answers differ in all.
pub fn compare() -> usize {
    let mut s = Seeded(7);
    compare_vets(&mut s, 20_000)
        + compare_makers(&mut s, 10_000)
        + compare_keys(&mut s, 10_000)
        + crate::rounds::compare(&mut s, 20_000)
        + crate::windows::compare(&mut s, 20_000)
        + crate::network_runs::compare(&mut s, 2_000)
}
