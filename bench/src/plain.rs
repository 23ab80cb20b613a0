//! A second vet, in plain Rust, written from document 01 alone: every coalition is eliminated anew, and every observer's rows are pushed on top of it.

use crate::primes::is_prime;
use crate::{Code, Plan, Symbol};

fn power(q: u64, mut base: u64, mut exponent: u64) -> u64 {
    let mut result = 1 % q;
    while exponent > 0 {
        if exponent & 1 == 1 {
            result = result * base % q;
        }
        base = base * base % q;
        exponent >>= 1;
    }
    result
}

/// Rows reduced by each other, each with 1 in its pivot column.
struct Basis {
    q: u64,
    cols: usize,
    rows: [[u64; 16]; 32],
    pivots: [usize; 32],
    len: usize,
}

impl Basis {
    fn new(q: u64, cols: usize) -> Basis {
        Basis { q, cols, rows: [[0; 16]; 32], pivots: [0; 32], len: 0 }
    }

    /// Takes the row in, unless it depends on the rows before it; whether it was taken.
    fn push(&mut self, mut row: [u64; 16]) -> bool {
        let (q, cols) = (self.q, self.cols);
        for (above, &p) in self.rows[..self.len].iter().zip(&self.pivots) {
            let x = row[p];
            if x != 0 {
                let minus = q - x;
                for (r, a) in row[..cols].iter_mut().zip(&above[..cols]) {
                    *r = (*r + minus * a) % q;
                }
            }
        }
        let Some(p) = row[..cols].iter().position(|&x| x != 0) else { return false };
        let inverse = power(q, row[p], q - 2);
        for x in &mut row[..cols] {
            *x = *x * inverse % q;
        }
        self.rows[self.len] = row;
        self.pivots[self.len] = p;
        self.len += 1;
        true
    }
}

fn row(plan: &Plan, i: usize) -> [u64; 16] {
    let mut out = [0; 16];
    for k in 0..plan.rate {
        out[k] = plan.table[i * plan.rate + k] as u64;
    }
    out
}

fn cluster_sum(plan: &Plan, u: usize) -> [u64; 16] {
    let mut out = [0; 16];
    for v in 0..plan.size {
        for (x, y) in out.iter_mut().zip(row(plan, u * plan.size + v)) {
            *x = (*x + y) % plan.q as u64;
        }
    }
    out
}

/// Whether the uploads of relay u (from 1), or the sums that the server (0) gets, say anything beyond what they may.
fn leaks(plan: &Plan, coalition: usize, observer: usize, known: &Basis) -> bool {
    let mut basis = Basis { q: known.q, cols: known.cols, rows: known.rows, pivots: known.pivots, len: known.len };
    let inside = |i: usize| coalition >> i & 1 == 1;
    if observer > 0 {
        let first = (observer - 1) * plan.size;
        return (first..first + plan.size).filter(|&i| !inside(i)).any(|i| !basis.push(row(plan, i)));
    }
    let open: Vec<usize> = (0..plan.clusters).filter(|u| !(0..plan.size).all(|v| inside(u * plan.size + v))).collect();
    let tested = open.len().saturating_sub(1);
    open[..tested].iter().any(|&u| !basis.push(cluster_sum(plan, u)))
}

fn first_leak(plan: &Plan) -> Option<(usize, usize)> {
    let users = plan.clusters * plan.size;
    for coalition in 0..1usize << users {
        if coalition.count_ones() as usize > plan.limit {
            continue;
        }
        let mut known = Basis::new(plan.q as u64, plan.rate);
        for i in (0..users).filter(|i| coalition >> i & 1 == 1) {
            known.push(row(plan, i));
        }
        for observer in (1..=plan.clusters).chain([0]) {
            if leaks(plan, coalition, observer, &known) {
                return Some((coalition, observer));
            }
        }
    }
    None
}

/// Document 01: "The vet: 1, 4, 2, 3, 6, 7."
pub fn vet(plan: &Plan) -> Code {
    let (u, v) = (plan.clusters, plan.size);
    if !(1..=8).contains(&u) || !(1..=8).contains(&v) || u * v > 16 || plan.limit > u * v || !(1..=16).contains(&plan.rate) {
        return Code(1, 0, 0);
    }
    if plan.table.len() != u * v * plan.rate {
        return Code(4, 0, 0);
    }
    if !is_prime(plan.q) {
        return Code(2, 0, 0);
    }
    if plan.table.iter().any(|&x| x >= plan.q) {
        return Code(3, 0, 0);
    }
    for k in 0..plan.rate {
        let sum: u64 = (0..u * v).map(|i| plan.table[i * plan.rate + k] as u64).sum();
        if sum % plan.q as u64 != 0 {
            return Code(6, k as u16 + 1, 0);
        }
    }
    match first_leak(plan) {
        Some((coalition, observer)) => Code(7, coalition as u16, observer as u16),
        None => Code(0, 0, 0),
    }
}

/// The maker's rate.
pub fn rate_of(clusters: usize, size: usize, limit: usize) -> usize {
    (size + limit).max((clusters + limit - 1).min(clusters * size - 1))
}

/// The maker's table, by document 01's formula, for counts within their bounds and a prime q.
pub fn made_table(clusters: usize, size: usize, limit: usize, q: Symbol, gamma: Symbol) -> Vec<Symbol> {
    let (n, r, m) = (clusters * size, rate_of(clusters, size, limit), q as u64);
    let mut table = vec![0 as Symbol; n * r];
    for i in 0..n - 1 {
        let base = if i == 0 { 0 } else { power(m, gamma as u64, i as u64) };
        for k in 0..r {
            table[i * r + k] = if k == 0 { 1 % q } else { power(m, base, k as u64) as Symbol };
        }
    }
    for k in 0..r {
        let sum: u64 = (0..n - 1).map(|i| table[i * r + k] as u64).sum();
        table[(n - 1) * r + k] = ((m - sum % m) % m) as Symbol;
    }
    table
}

/// The maker: "1, 2, 3, 10, 4, 7". `out` is how many symbols are lent.
pub fn make(clusters: usize, size: usize, limit: usize, q: Symbol, gamma: Symbol, out: usize) -> (Code, Vec<Symbol>) {
    let none = Vec::new();
    if !(1..=8).contains(&clusters) || !(1..=8).contains(&size) || clusters * size > 16 || limit > clusters * size {
        return (Code(1, 0, 0), none);
    }
    if !is_prime(q) {
        return (Code(2, 0, 0), none);
    }
    if gamma >= q {
        return (Code(3, 0, 0), none);
    }
    if limit >= (clusters - 1) * size {
        return (Code(10, 0, 0), none);
    }
    let rate = rate_of(clusters, size, limit);
    if out != clusters * size * rate {
        return (Code(4, 0, 0), none);
    }
    let table = made_table(clusters, size, limit, q, gamma);
    match first_leak(&Plan { clusters, size, limit, rate, q, table: table.clone() }) {
        Some((coalition, observer)) => (Code(7, coalition as u16, observer as u16), none),
        None => (Code(0, 0, 0), table),
    }
}

/// Individual keys: "the vet's, then 9, 4 for any block, 3".
pub fn derive(plan: &Plan, length: usize, source: &[Symbol], out: usize) -> (Code, Vec<Symbol>) {
    let none = Vec::new();
    let code = vet(plan);
    if code != Code(0, 0, 0) {
        return (code, none);
    }
    if !(1..=64).contains(&length) {
        return (Code(9, 0, 0), none);
    }
    let users = plan.clusters * plan.size;
    if source.len() != length * plan.rate || out != users * length {
        return (Code(4, 0, 0), none);
    }
    if source.iter().any(|&x| x >= plan.q) {
        return (Code(3, 0, 0), none);
    }
    let mut keys = Vec::new();
    for i in 0..users {
        for position in source.chunks(plan.rate) {
            // sixteen products of 64 bits
            let sum: u128 = row(plan, i).iter().zip(position).map(|(&a, &b)| a as u128 * b as u128).sum();
            keys.push((sum % plan.q as u128) as Symbol);
        }
    }
    (Code(0, 0, 0), keys)
}
