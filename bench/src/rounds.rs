//! Uploads, frames and keys in plain Rust, with the same checks and sums, and their times beside those of the proved ones.

use crate::primes::is_prime;
use crate::speed::processor_time;
use crate::tally::{Seeded, NO_PRIMES, PRIMES};
use crate::{proved, Code, Plan, Symbol, LARGE_PRIMES};
use std::hint::black_box;

/// What the proved functions may take, of the plain ones' time.
pub const BAR: f64 = 1.2;

/// The same of keys, of plain ones with one remainder a symbol.
const KEYS_BAR: f64 = 1.0;

/// A relay's round, with what it holds for the next one.
#[derive(Clone, PartialEq, Debug)]
pub struct Relay {
    pub clusters: usize,
    pub size: usize,
    pub q: Symbol,
    pub length: usize,
    pub cluster: usize,
    pub number: u32,
    pub reported: u16,
    pub sums: [Symbol; 64],
    pub ahead: u16,
    pub held: [Symbol; 64],
}

impl Relay {
    pub fn open(clusters: usize, size: usize, q: Symbol, length: usize) -> Relay {
        Relay { clusters, size, q, length, cluster: 1, number: 7, reported: 0, sums: [0; 64], ahead: 0, held: [0; 64] }
    }
}

fn all_below(q: Symbol, symbols: &[Symbol]) -> bool {
    symbols.iter().all(|&x| x < q)
}

fn add(q: Symbol, a: Symbol, b: Symbol) -> Symbol {
    let sum = a as u64 + b as u64;
    (if sum >= q as u64 { sum - q as u64 } else { sum }) as Symbol
}

/// "Upload, and taking a key off: 2, 9, 4, 3."
fn block_code(q: Symbol, length: usize, a: &[Symbol], b: &[Symbol], out: &[Symbol]) -> u16 {
    if !is_prime(q) {
        return 2;
    }
    if !(1..=64).contains(&length) {
        return 9;
    }
    if a.len() != length || b.len() != length || out.len() != length {
        return 4;
    }
    if !all_below(q, a) || !all_below(q, b) {
        return 3;
    }
    0
}

#[inline(never)]
pub fn upload(q: Symbol, length: usize, readings: &[Symbol], key: &[Symbol], out: &mut [Symbol]) -> Code {
    let code = block_code(q, length, readings, key, out);
    if code == 0 {
        for ((o, &a), &b) in out.iter_mut().zip(readings).zip(key) {
            *o = add(q, a, b);
        }
    }
    Code(code, 0, 0)
}

#[inline(never)]
pub fn unmask(q: Symbol, length: usize, upload: &[Symbol], key: &[Symbol], out: &mut [Symbol]) -> Code {
    let code = block_code(q, length, upload, key, out);
    if code == 0 {
        for ((o, &a), &b) in out.iter_mut().zip(upload).zip(key) {
            *o = add(q, a, q - b);
        }
    }
    Code(code, 0, 0)
}

fn row_fits(q: Symbol, length: usize, sums: &[Symbol; 64]) -> bool {
    all_below(q, &sums[..length]) && sums[length..].iter().all(|&x| x == 0)
}

/// "1, 2, 9, 8, 3", of both rolls and both rows of sums.
fn state_code(r: &Relay) -> u16 {
    let (u, v) = (r.clusters, r.size);
    if !(1..=8).contains(&u) || !(1..=8).contains(&v) || u * v > 16 {
        return 1;
    }
    if !is_prime(r.q) {
        return 2;
    }
    if !(1..=64).contains(&r.length) {
        return 9;
    }
    if !(1..=u).contains(&r.cluster) || r.reported >> v != 0 || r.ahead >> v != 0 {
        return 8;
    }
    if !row_fits(r.q, r.length, &r.sums) || !row_fits(r.q, r.length, &r.held) {
        return 3;
    }
    0
}

/// Whether a frame's number is that of the next round.
fn is_ahead(r: &Relay, said: u32) -> bool {
    r.number < u32::MAX && said == r.number + 1
}

/// A state, then a frame: "8, 14, 4, 3, 11."
fn frame_code(r: &Relay, sender: usize, said: u32, block: &[Symbol]) -> u16 {
    let code = state_code(r);
    if code != 0 {
        return code;
    }
    if !(1..=r.size).contains(&sender) {
        return 8;
    }
    if said != r.number && !is_ahead(r, said) {
        return 14;
    }
    if block.len() != r.length {
        return 4;
    }
    if !all_below(r.q, block) {
        return 3;
    }
    let roll = if said == r.number { r.reported } else { r.ahead };
    if roll >> (sender - 1) & 1 == 1 {
        return 11;
    }
    0
}

#[inline(never)]
pub fn count(r: &mut Relay, sender: usize, said: u32, block: &[Symbol]) -> Code {
    let code = frame_code(r, sender, said, block);
    if code == 0 {
        let (roll, sums) = if said == r.number { (&mut r.reported, &mut r.sums) } else { (&mut r.ahead, &mut r.held) };
        *roll |= 1 << (sender - 1);
        for (sum, &x) in sums.iter_mut().zip(block) {
            *sum = add(r.q, *sum, x);
        }
    }
    Code(code, 0, 0)
}

/// Moving on: a state's checks, then 14, 12.
#[inline(never)]
pub fn advance(r: &mut Relay) -> Code {
    let mut code = state_code(r);
    if code == 0 && r.number == u32::MAX {
        code = 14;
    }
    if code == 0 && r.reported != (1 << r.size) - 1 {
        code = 12;
    }
    if code == 0 {
        (r.number, r.reported, r.sums) = (r.number + 1, r.ahead, r.held);
        (r.ahead, r.held) = (0, [0; 64]);
    }
    Code(code, 0, 0)
}

/// Individual keys, the vet's part left out: "9, 4 for any block, 3."
fn key_code(plan: &Plan, length: usize, source: &[Symbol], out: &[Symbol]) -> u16 {
    if !(1..=64).contains(&length) {
        return 9;
    }
    if source.len() != length * plan.rate || out.len() != plan.clusters * plan.size * length {
        return 4;
    }
    if !all_below(plan.q, source) {
        return 3;
    }
    0
}

/// With a remainder after each product: the same sums on the way as the proved function's.
#[inline(never)]
fn keys_by_steps(plan: &Plan, length: usize, source: &[Symbol], out: &mut [Symbol]) {
    assert_eq!(key_code(plan, length, source, out), 0);
    let q = plan.q as u64;
    for (keys, row) in out.chunks_mut(length).zip(plan.table.chunks(plan.rate)) {
        for (key, symbols) in keys.iter_mut().zip(source.chunks(plan.rate)) {
            *key = row.iter().zip(symbols).fold(0, |sum, (&a, &b)| (sum + a as u64 * b as u64) % q) as Symbol;
        }
    }
}

/// The sum of up to 16 products modulo q, by one remainder: in 64 bits where it fits.
fn at_once(q: Symbol, row: &[Symbol], symbols: &[Symbol]) -> Symbol {
    let products = row.iter().zip(symbols).map(|(&a, &b)| a as u64 * b as u64);
    if q < 1 << 30 {
        (products.sum::<u64>() % q as u64) as Symbol
    } else {
        (products.map(u128::from).sum::<u128>() % q as u128) as Symbol
    }
}

/// With one remainder a symbol.
#[inline(never)]
fn keys_at_once(plan: &Plan, length: usize, source: &[Symbol], out: &mut [Symbol]) {
    assert_eq!(key_code(plan, length, source, out), 0);
    for (keys, row) in out.chunks_mut(length).zip(plan.table.chunks(plan.rate)) {
        for (key, symbols) in keys.iter_mut().zip(source.chunks(plan.rate)) {
            *key = at_once(plan.q, row, symbols);
        }
    }
}

/// The least time of one call, of several turns; each turn makes many calls.
pub fn least<const N: usize>(calls: usize, turns: usize, mut f: [&mut dyn FnMut(usize); N]) -> [f64; N] {
    let mut times = [f64::MAX; N];
    for _ in 0..turns {
        for (time, f) in times.iter_mut().zip(f.iter_mut()) {
            let start = processor_time();
            f(calls);
            *time = time.min((processor_time() - start) / calls as f64);
        }
    }
    times
}

/// Prints a row; whether the bar is met.
pub fn line(name: &str, unit: f64, proved: f64, plain: f64) -> bool {
    line_within(BAR, name, unit, proved, plain)
}

fn line_within(bar: f64, name: &str, unit: f64, proved: f64, plain: f64) -> bool {
    println!("{name:54}{:12.2}{:11.2}{:8.2}", proved * unit, plain * unit, proved / plain);
    proved <= bar * plain
}

fn drawn(s: &mut Seeded, q: Symbol, n: usize) -> Vec<Symbol> {
    (0..n).map(|_| s.symbol(q)).collect()
}

fn measure_blocks(s: &mut Seeded, q: Symbol) -> bool {
    let (readings, key) = (drawn(s, q, 64), drawn(s, q, 64));
    let (mut a, mut b) = (vec![0; 64], vec![0; 64]);
    let [x, y] = least(20_000, 15, [
        &mut |n| (0..n).for_each(|_| {
            black_box(proved::upload(black_box(q), 64, black_box(&readings), &key, black_box(&mut a)));
        }),
        &mut |n| (0..n).for_each(|_| {
            black_box(upload(black_box(q), 64, black_box(&readings), &key, black_box(&mut b)));
        }),
    ]);
    assert_eq!(a, b);
    let met = line(&format!("upload, q {q}, ns a symbol"), 1e9 / 64.0, x, y);
    let sent = a.clone();
    let [x, y] = least(20_000, 15, [
        &mut |n| (0..n).for_each(|_| {
            black_box(proved::unmask(black_box(q), 64, black_box(&sent), &key, black_box(&mut a)));
        }),
        &mut |n| (0..n).for_each(|_| {
            black_box(unmask(black_box(q), 64, black_box(&sent), &key, black_box(&mut b)));
        }),
    ]);
    assert_eq!((&a, &b), (&readings, &readings));
    line(&format!("unmask, q {q}, ns a symbol"), 1e9 / 64.0, x, y) && met
}

/// Eight frames of 64 symbols into a round, or, where `early`, ahead of it; then the round anew.
fn frames(n: usize, q: Symbol, block: &[Symbol], early: u32, count: impl Fn(&mut Relay, usize, u32, &[Symbol]) -> Code) {
    for _ in 0..n / 8 {
        let mut relay = Relay::open(2, 8, black_box(q), 64);
        for sender in 1..9 {
            assert_eq!(black_box(count(black_box(&mut relay), sender, 7 + early, black_box(block))), Code(0, 0, 0));
        }
    }
}

fn measure_frames(s: &mut Seeded, q: Symbol) -> bool {
    let block = drawn(s, q, 64);
    let mut met = true;
    for (early, name) in [(0, "frames"), (1, "early frames")] {
        let [x, y] = least(20_000, 15, [&mut |n| frames(n, q, &block, early, proved::count), &mut |n| frames(n, q, &block, early, count)]);
        println!("{:54}{:12.2}{:11.2}", format!("{name} of 64, q {q}, million a second"), 1e-6 / x, 1e-6 / y);
        met &= line(&format!("{name} of 64, q {q}, ns a frame"), 1e9, x, y);
    }
    met
}

/// Moving on from a round that is full, with a full one ahead.
fn measure_moves(s: &mut Seeded, q: Symbol) -> bool {
    let mut relay = Relay { reported: 255, ahead: 255, ..Relay::open(2, 8, q, 64) };
    relay.sums.copy_from_slice(&drawn(s, q, 64));
    relay.held.copy_from_slice(&drawn(s, q, 64));
    let moves = |n: usize, advance: fn(&mut Relay) -> Code| {
        for _ in 0..n {
            assert_eq!(advance(black_box(&mut relay.clone())), Code(0, 0, 0));
        }
    };
    let [x, y] = least(20_000, 15, [&mut |n| moves(n, proved::advance), &mut |n| moves(n, advance)]);
    line(&format!("moving on, q {q}, ns"), 1e9, x, y)
}

/// Derivation less the share of asking whether the plan is accepted, which the proved function does first: of it, of plain keys with a remainder after each
/// product, and of plain keys with one remainder a symbol, seconds a symbol.
fn key_times(s: &mut Seeded, plan: &Plan, length: usize) -> [f64; 3] {
    let source = drawn(s, plan.q, length * plan.rate);
    let symbols = plan.clusters * plan.size * length;
    let (mut a, mut b, mut c) = (vec![0; symbols], vec![0; symbols], vec![0; symbols]);
    let [both, asked, steps, once] = least(200, 25, [
        &mut |n| (0..n).for_each(|_| assert_eq!(proved::derive(black_box(plan), length, black_box(&source), black_box(&mut a)), Code(0, 0, 0))),
        &mut |n| (0..n).for_each(|_| assert_eq!(proved::ask(black_box(plan)), Code(0, 0, 0))),
        &mut |n| (0..n).for_each(|_| keys_by_steps(black_box(plan), length, black_box(&source), black_box(&mut b))),
        &mut |n| (0..n).for_each(|_| keys_at_once(black_box(plan), length, black_box(&source), black_box(&mut c))),
    ]);
    assert_eq!((&a, &a), (&b, &c));
    [both - asked, steps, once].map(|time| time / symbols as f64)
}

fn measure_keys(s: &mut Seeded, q: Symbol) -> bool {
    let [proved, steps, once] = key_times(s, &Plan::made(8, 2, 0, q, 2), 64);
    let met = line(&format!("keys, q {q}, remainder each product, ns a symbol"), 1e9, proved, steps);
    line_within(KEYS_BAR, &format!("keys, q {q}, one remainder a symbol, ns a symbol"), 1e9, proved, once) && met
}

/// Keys of other shapes against one remainder a symbol: of these there is no bar. A table that was made for a larger limit has more symbols a row.
fn show_keys(s: &mut Seeded, q: Symbol) {
    for (made_for, length) in [(0, 8), (0, 1), (13, 64), (13, 8), (13, 1)] {
        let plan = Plan { limit: 0, ..Plan::made(8, 2, made_for, q, 2) };
        let [proved, _, once] = key_times(s, &plan, length);
        line(&format!("keys, q {q}, R {}, L {length}, no bar, ns a symbol", plan.rate), 1e9, proved, once);
    }
}

/// Whether every bar is met. Small primes have no table of keys for so many users.
pub fn measure() -> bool {
    let mut s = Seeded(11);
    println!("{:54}{:>12}{:>11}{:>8}", "", "proved", "plain", "ratio");
    let mut met = true;
    for q in LARGE_PRIMES.into_iter().chain([5]) {
        met &= measure_blocks(&mut s, q);
        met &= measure_frames(&mut s, q);
        met &= measure_moves(&mut s, q);
    }
    for q in LARGE_PRIMES {
        met &= measure_keys(&mut s, q);
        show_keys(&mut s, q);
    }
    println!("bar (ratio at most {BAR}, and of keys against one remainder a symbol {KEYS_BAR}): {}", if met { "met" } else { "NOT met" });
    met
}

/// A call with some things wrong; how many answers or buffers differ.
pub fn compare(s: &mut Seeded, calls: usize) -> usize {
    let (mut differ, mut numbers) = (0, [0usize; 15]);
    for t in 0..calls {
        let (prime, other) = (s.one_of(&PRIMES), s.one_of(&NO_PRIMES));
        let q = s.one_of(&[prime, prime, prime, other]);
        let length = [1, 5, 63, 64, 64, 64, 0, 65][s.below(8)];
        let wrong = |s: &mut Seeded| (s.below(10) == 0) as usize;
        let (n, m) = (length + wrong(s), length + wrong(s));
        let (mut a, mut b) = (drawn(s, q.max(1), n), drawn(s, q.max(1), length));
        for x in [&mut a, &mut b] {
            if wrong(s) == 1 && !x.is_empty() {
                x[0] = q;
            }
        }
        let (mut x, mut y) = (vec![7; m], vec![7; m]);
        let (one, two) = match t % 2 {
            0 => (proved::upload(q, length, &a, &b, &mut x), upload(q, length, &a, &b, &mut y)),
            _ => (proved::unmask(q, length, &a, &b, &mut x), unmask(q, length, &a, &b, &mut y)),
        };
        numbers[two.0 as usize] += 1;
        differ += (one != two || x != y) as usize;
    }
    println!("uploads and unmasks: {calls} calls; {}; {differ} differ", crate::tally::counted(&numbers));
    differ + compare_frames(s, calls)
}

/// Frames for this round, the next and others, and at times moving on, into rounds that may be damaged.
fn compare_frames(s: &mut Seeded, calls: usize) -> usize {
    let (mut differ, mut numbers, mut differ_moved, mut moved) = (0, [0usize; 15], 0, [0usize; 15]);
    let mut relay = Relay::open(2, 8, 65_521, 64);
    for t in 0..calls {
        if t % 32 == 0 {
            let (clusters, size) = ([2, 1, 2, 2, 9][s.below(5)], [8, 8, 3, 2, 1, 9][s.below(6)]);
            let (prime, other) = (s.one_of(&PRIMES), s.one_of(&NO_PRIMES));
            relay = Relay::open(clusters, size, s.one_of(&[prime, prime, prime, prime, other]), [64, 64, 63, 1, 65, 0][s.below(6)]);
            relay.number = [7, u32::MAX - 2, u32::MAX - 1, u32::MAX][s.below(4)];
        }
        let given = spoiled(s, &relay);
        let wrong = (s.below(10) == 0) as usize;
        let mut block = drawn(s, relay.q.max(1), relay.length + wrong);
        if s.below(10) == 0 && !block.is_empty() {
            block[0] = relay.q;
        }
        let (sender, said) = (s.below(relay.size + 2), relay.number.wrapping_add([0, 0, 0, 0, 0, 1, 1, 2, u32::MAX][s.below(9)]));
        let (mut a, mut b) = (given.clone(), given.clone());
        let (one, two) = (proved::count(&mut a, sender, said, &block), count(&mut b, sender, said, &block));
        numbers[two.0 as usize] += 1;
        differ += (one != two || a != b) as usize;
        if two.0 == 0 {
            relay = b;
        }
        let given = spoiled(s, &relay);
        let (mut a, mut b) = (given.clone(), given);
        let (one, two) = (proved::advance(&mut a), advance(&mut b));
        moved[two.0 as usize] += 1;
        differ_moved += (one != two || a != b) as usize;
        if two.0 == 0 {
            relay = b;
        }
    }
    println!("frames: {calls} calls; {}; {differ} differ", crate::tally::counted(&numbers));
    println!("movings on: {calls} calls; {}; {differ_moved} differ", crate::tally::counted(&moved));
    differ + differ_moved
}

/// A round as it is, or with one thing wrong.
fn spoiled(s: &mut Seeded, relay: &Relay) -> Relay {
    let mut given = relay.clone();
    match s.below(24) {
        0 => given.reported |= 1 << s.below(16),
        1 => given.ahead |= 1 << s.below(16),
        2 => given.sums[s.below(64)] = s.one_of(&[1, 65_536, relay.q]),
        3 => given.held[s.below(64)] = s.one_of(&[1, 65_536, relay.q]),
        4 => given.cluster = [0, 1, 3][s.below(3)],
        _ => {}
    }
    given
}
