//! Cyclic networks in plain Rust, written from document 02 alone, with the same checks in the same order.

use crate::primes::is_prime;
use crate::tally::Seeded;
use crate::{Code, Symbol};

/// The most columns of a row: 32 reading symbols and 16 source symbols; the value stands after them.
const COLUMNS: usize = 48;

type Row = [u64; COLUMNS + 1];

/// K users and relays, d links a user, n symbols a reading, R source symbols, a prime; a key table and coefficients.
#[derive(Clone, Debug)]
pub struct Network {
    pub size: usize,
    pub links: usize,
    pub parts: usize,
    pub rate: usize,
    pub q: Symbol,
    pub table: Vec<Symbol>,
    pub weights: Vec<Symbol>,
}

impl Network {
    /// Where the coefficients of link l of user k begin: n for the reading, then one for the key.
    fn place(&self, k: usize, l: usize) -> usize {
        (k * self.links + l) * (self.parts + 1)
    }

    fn columns(&self) -> usize {
        self.size * self.parts + self.rate
    }

    /// What user k sends on link l, added to a row. The columns of the readings come first.
    fn add_upload(&self, k: usize, l: usize, row: &mut Row) {
        let (at, readings, q) = (self.place(k, l), self.size * self.parts, self.q as u64);
        for s in 0..self.parts {
            row[k * self.parts + s] = self.weights[at + s] as u64;
        }
        let weight = self.weights[at + self.parts] as u64;
        for (x, &y) in row[readings..].iter_mut().zip(&self.table[k * self.rate..][..self.rate]) {
            *x = (*x + weight * y as u64 % q) % q;
        }
    }

    fn upload_row(&self, k: usize, l: usize) -> Row {
        let mut row = [0; COLUMNS + 1];
        self.add_upload(k, l, &mut row);
        row
    }

    /// Link l of user j + l leads to relay j.
    fn relay_row(&self, j: usize) -> Row {
        let mut row = [0; COLUMNS + 1];
        for l in 0..self.links {
            self.add_upload((j + l) % self.size, l, &mut row);
        }
        row
    }

    fn total_row(&self, s: usize) -> Row {
        let mut row = [0; COLUMNS + 1];
        for k in 0..self.size {
            row[k * self.parts + s] = 1;
        }
        row
    }
}

fn power(q: u64, mut base: u64, mut exponent: u64) -> u64 {
    let mut result = 1 % q;
    while exponent > 0 {
        if exponent & 1 == 1 {
            result = result * base % q;
        }
        base = base * base % q;
        exponent >>= 1;
    }
    result
}

/// Rows each with 1 in its pivot column, and what was made of their values beside them.
struct Basis {
    q: u64,
    from: usize,
    to: usize,
    rows: [Row; 12],
    pivots: [usize; 12],
    len: usize,
}

impl Basis {
    /// Over the columns from `from` up to `to`, which is left out.
    fn new(q: Symbol, from: usize, to: usize) -> Basis {
        Basis { q: q as u64, from, to, rows: [[0; COLUMNS + 1]; 12], pivots: [0; 12], len: 0 }
    }

    /// Takes away what depends on the rows that were pushed, and of the value the same.
    fn reduce(&self, row: &mut Row) {
        for (above, &p) in self.rows[..self.len].iter().zip(&self.pivots) {
            let x = row[p];
            if x != 0 {
                let minus = self.q - x;
                for (r, a) in row[self.from..self.to].iter_mut().zip(&above[self.from..self.to]) {
                    *r = (*r + minus * a) % self.q;
                }
                row[COLUMNS] = (row[COLUMNS] + minus * above[COLUMNS]) % self.q;
            }
        }
    }

    fn pivot(&self, row: &Row) -> Option<usize> {
        (self.from..self.to).find(|&c| row[c] != 0)
    }

    /// Takes the row in, unless it depends on the rows before it.
    fn push(&mut self, mut row: Row) {
        self.reduce(&mut row);
        let Some(p) = self.pivot(&row) else { return };
        let inverse = power(self.q, row[p], self.q - 2);
        for x in &mut row {
            *x = *x * inverse % self.q;
        }
        self.rows[self.len] = row;
        self.pivots[self.len] = p;
        self.len += 1;
    }
}

fn rank(net: &Network, from: usize, rows: impl Iterator<Item = Row>) -> usize {
    let mut basis = Basis::new(net.q, from, net.columns());
    rows.for_each(|row| basis.push(row));
    basis.len
}

fn relay_leaks(net: &Network, j: usize) -> bool {
    let uploads = || (0..net.links).map(|l| net.upload_row((j + l) % net.size, l));
    rank(net, 0, uploads()) != rank(net, net.size * net.parts, uploads())
}

fn server_leaks(net: &Network) -> bool {
    let sums = || (0..net.size).map(|j| net.relay_row(j));
    let totals = (0..net.parts).map(|s| net.total_row(s));
    rank(net, 0, totals.chain(sums())) != net.parts + rank(net, net.size * net.parts, sums())
}

fn all_below(q: Symbol, symbols: &[Symbol]) -> bool {
    symbols.iter().all(|&x| x < q)
}

/// "1, 22": K and R, then d and n.
fn count_code(net: &Network) -> u16 {
    if !(2..=8).contains(&net.size) || !(1..=16).contains(&net.rate) {
        return 1;
    }
    if !(1..=net.size).contains(&net.links) || !(1..=4).contains(&net.parts) {
        return 22;
    }
    0
}

fn lengths_fit(net: &Network) -> bool {
    net.table.len() == net.size * net.rate && net.weights.len() == net.size * net.links * (net.parts + 1)
}

fn both_below(net: &Network) -> bool {
    all_below(net.q, &net.table) && all_below(net.q, &net.weights)
}

/// "1, 22, 4, 2, 3, then 7 for the vet", relays 1 to K and then the server.
#[inline(never)]
pub fn vet(net: &Network) -> Code {
    let code = count_code(net);
    if code != 0 {
        return Code(code, 0, 0);
    }
    if !lengths_fit(net) {
        return Code(4, 0, 0);
    }
    if !is_prime(net.q) {
        return Code(2, 0, 0);
    }
    if !both_below(net) {
        return Code(3, 0, 0);
    }
    if let Some(j) = (0..net.size).find(|&j| relay_leaks(net, j)) {
        return Code(7, 0, j as u16 + 1);
    }
    Code(if server_leaks(net) { 7 } else { 0 }, 0, 0)
}

/// "1, 22, 4, 2, 3, .. 8 for .. a roll bit outside K".
fn arrival_code(net: &Network, reported: u16, sums: &[Symbol], out: &[Symbol]) -> u16 {
    let code = count_code(net);
    if code != 0 {
        return code;
    }
    if !lengths_fit(net) || sums.len() != net.size || out.len() != net.parts {
        return 4;
    }
    if !is_prime(net.q) {
        return 2;
    }
    if !both_below(net) || (0..net.size).any(|j| reported >> j & 1 == 1 && sums[j] >= net.q) {
        return 3;
    }
    if reported >> net.size != 0 {
        return 8;
    }
    0
}

/// "last 23"; a refused call writes nothing.
#[inline(never)]
pub fn decode(net: &Network, reported: u16, sums: &[Symbol], out: &mut [Symbol]) -> Code {
    let code = arrival_code(net, reported, sums, out);
    if code != 0 {
        return Code(code, 0, 0);
    }
    let mut basis = Basis::new(net.q, 0, net.columns());
    for j in (0..net.size).filter(|j| reported >> j & 1 == 1) {
        let mut row = net.relay_row(j);
        row[COLUMNS] = sums[j] as u64;
        basis.push(row);
    }
    let mut totals = [0; 4];
    for s in 0..net.parts {
        let mut row = net.total_row(s);
        basis.reduce(&mut row);
        if basis.pivot(&row).is_some() {
            return Code(23, 0, 0);
        }
        totals[s] = ((basis.q - row[COLUMNS]) % basis.q) as Symbol;
    }
    out.copy_from_slice(&totals[..net.parts]);
    Code(0, 0, 0)
}

/// The link by which a user speaks to a relay, both counted from 1, where there is one.
fn link(net: &Network, user: usize, relay: usize) -> Option<usize> {
    let there = 1..=net.size;
    let l = if there.contains(&user) && there.contains(&relay) { (user + net.size - relay) % net.size } else { net.size };
    (l < net.links).then_some(l)
}

/// "1, 22, 4, 2, 3, .. 8 for an unlinked upload"; a refused call writes nothing.
pub fn upload(net: &Network, user: usize, relay: usize, reading: &[Symbol], key: Symbol, out: &mut Symbol) -> Code {
    let code = count_code(net);
    if code != 0 {
        return Code(code, 0, 0);
    }
    if net.weights.len() != net.size * net.links * (net.parts + 1) || reading.len() != net.parts {
        return Code(4, 0, 0);
    }
    if !is_prime(net.q) {
        return Code(2, 0, 0);
    }
    if !all_below(net.q, &net.weights) || !all_below(net.q, reading) || key >= net.q {
        return Code(3, 0, 0);
    }
    let Some(l) = link(net, user, relay) else { return Code(8, 0, 0) };
    let weights = &net.weights[net.place(user - 1, l)..];
    let products = reading.iter().chain([&key]).zip(weights).map(|(&x, &w)| x as u128 * w as u128);
    *out = (products.sum::<u128>() % net.q as u128) as Symbol;
    Code(0, 0, 0)
}

/// "1, 22, 4, 2, 3"; a refused call writes nothing.
pub fn sum(net: &Network, uploads: &[Symbol], out: &mut Symbol) -> Code {
    let mut code = count_code(net);
    if code == 0 && uploads.len() != net.links {
        code = 4;
    }
    if code == 0 && !is_prime(net.q) {
        code = 2;
    }
    if code == 0 && !all_below(net.q, uploads) {
        code = 3;
    }
    if code == 0 {
        *out = (uploads.iter().map(|&x| x as u64).sum::<u64>() % net.q as u64) as Symbol;
    }
    Code(code, 0, 0)
}

/// The sum of relay j of readings and source symbols.
fn relay_sum(net: &Network, readings: &[Symbol], source: &[Symbol], j: usize) -> Symbol {
    let q = net.q as u64;
    let world = readings.iter().chain(source);
    net.relay_row(j).iter().zip(world).fold(0, |sum, (&a, &b)| (sum + a * b as u64) % q) as Symbol
}

/// An honest round: what the relays send, and the totals.
pub fn round(s: &mut Seeded, net: &Network) -> (Vec<Symbol>, Vec<Symbol>) {
    let readings: Vec<Symbol> = (0..net.size * net.parts).map(|_| s.symbol(net.q)).collect();
    let source: Vec<Symbol> = (0..net.rate).map(|_| s.symbol(net.q)).collect();
    let sums = (0..net.size).map(|j| relay_sum(net, &readings, &source, j)).collect();
    let total = |p: usize| readings.iter().skip(p).step_by(net.parts).map(|&x| x as u64).sum::<u64>() % net.q as u64;
    (sums, (0..net.parts).map(|p| total(p) as Symbol).collect())
}
