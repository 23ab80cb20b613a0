//! Processor times, taken turn by turn in one run, the least of several.

use crate::{plain, proved, Code, Plan, Symbol, LARGE_PRIMES};
use std::hint::black_box;

/// The share of the plain vet's time that the proved one may take in the large plans, by prime, and the time of the usual plan in seconds.
const BARS: [[f64; 4]; 2] = [[0.20, 0.18, 0.24, 0.24], [0.15, 0.14, 0.19, 0.17]];
const USUAL: f64 = 0.001;

/// The share of the time before that dealing may take where the limit is small, and the longest block.
const SMALL: f64 = 1.1;
const LONGEST: usize = 64;

#[repr(C)]
struct Timespec {
    seconds: i64,
    nanoseconds: i64,
}

extern "C" {
    fn clock_gettime(clock: i32, time: *mut Timespec) -> i32;
}

/// The processor time of this thread (Linux, x86-64): the turns of other programs on the machine don't count.
pub fn processor_time() -> f64 {
    let mut time = Timespec { seconds: 0, nanoseconds: 0 };
    assert_eq!(unsafe { clock_gettime(3, &mut time) }, 0);
    time.seconds as f64 + time.nanoseconds as f64 * 1e-9
}

fn timed(mut f: impl FnMut(&Plan) -> Code, plan: &Plan) -> f64 {
    let start = processor_time();
    assert_eq!(black_box(f(black_box(plan))), Code(0, 0, 0));
    processor_time() - start
}

/// The least times of the proved vet and of the plain one; a busy hour of the machine meets both.
fn least(plan: &Plan, runs: usize) -> (f64, f64) {
    let (mut a, mut b) = (f64::MAX, f64::MAX);
    for _ in 0..runs {
        a = a.min(timed(proved::vet, plan));
        b = b.min(timed(plain::vet, plan));
    }
    (a, b)
}

/// The plans of one prime; whether every bar is met.
fn measure_at(q: Symbol, bars: [f64; 4]) -> bool {
    let mut met = true;
    let large = [(8, 2, 13, 9), (4, 4, 11, 9), (2, 8, 7, 21), (4, 4, 6, 31)];
    let rows = large.into_iter().zip(bars.map(Some)).chain([((8, 2, 1, 200), None)]);
    for ((u, v, t, runs), bar) in rows {
        let plan = Plan::made(u, v, t, q, 2);
        let (a, b) = least(&plan, runs);
        let most = bar.map_or(format!("{} ms", USUAL * 1e3), |bar| bar.to_string());
        println!("{u:3}{v:3}{t:3}{:3}{q:12}{:12.3}{:11.3}{:8.3}{most:>7}", plan.rate, a * 1e3, b * 1e3, a / b);
        met &= bar.map_or(a < USUAL, |bar| a <= bar * b);
    }
    met
}

/// The least times of dealing one block: now, and as it was when the vet made its whole walk first. That is the vet's time, and what
/// dealing takes beside asking whether the plan is accepted.
fn dealing(plan: &Plan, runs: usize) -> (f64, f64) {
    let source = vec![plan.q - 1; LONGEST * plan.rate];
    let mut keys = vec![0; LONGEST * plan.clusters * plan.size];
    let (mut whole, mut asked, mut vet) = (f64::MAX, f64::MAX, f64::MAX);
    for _ in 0..runs {
        whole = whole.min(timed(|plan| proved::derive(plan, LONGEST, &source, &mut keys), plan));
        asked = asked.min(timed(proved::ask, plan));
        vet = vet.min(timed(proved::vet, plan));
    }
    (whole, vet + whole - asked)
}

/// The dealings of one prime; whether every bar is met.
fn deal_at(q: Symbol) -> bool {
    let large = [(8, 2, 13, 9, 0.1), (4, 4, 11, 9, 0.2), (2, 8, 7, 21, 0.6), (4, 4, 6, 31, 0.7)];
    let small = [(8, 2), (4, 4), (2, 8)].into_iter().flat_map(|(u, v)| (0..3).map(move |t| (u, v, t, 200, SMALL)));
    let mut met = true;
    for (u, v, t, runs, bar) in large.into_iter().chain(small) {
        let plan = Plan::made(u, v, t, q, 2);
        let (a, b) = dealing(&plan, runs);
        println!("{u:3}{v:3}{t:3}{:3}{q:12}{:12.3}{:11.3}{:8.2}{bar:6}", plan.rate, a * 1e3, b * 1e3, a / b);
        met &= a <= bar * b;
    }
    met
}

/// Whether every bar of dealing is met.
fn deal() -> bool {
    println!("  U  V  T  R           q    dealt ms  before ms   ratio   bar");
    let met = LARGE_PRIMES.map(deal_at).into_iter().all(|met| met);
    println!("bars of dealing: {}", if met { "met" } else { "NOT met" });
    met
}

/// Whether every bar is met.
pub fn measure() -> bool {
    println!("  U  V  T  R           q   proved ms   plain ms   ratio    bar");
    let met = LARGE_PRIMES.into_iter().zip(BARS).map(|(q, bars)| measure_at(q, bars)).fold(true, |all, met| all & met);
    println!("bars of the vet: {}", if met { "met" } else { "NOT met" });
    met & deal()
}
