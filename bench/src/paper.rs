//! A pool on paper in plain Rust, written from document 02 alone, and its output and time beside those of the proved program.

use crate::primes::is_prime;
use crate::rounds::{self, Relay};
use crate::tally::{Seeded, NO_PRIMES};
use crate::{plain, Code, Plan, Symbol, LARGE_PRIMES};
use std::fmt::Write as _;
use std::io::Write as _;
use std::process::{Command, Stdio};

/// What the proved program may take for its rounds, of the plain one's time.
const BAR: f64 = 1.2;

/// The most rounds, and the most bytes of an input.
const MOST_ROUNDS: u32 = 10_000;
const MOST_BYTES: usize = 65_535;

/// "s becomes (s × 1,103,515,245 + 12,345) modulo 4,294,967,296, and the value is s divided by 65,536, modulo 32,768."
struct Generator(u32);

impl Generator {
    fn value(&mut self) -> u32 {
        self.0 = self.0.wrapping_mul(1_103_515_245).wrapping_add(12_345);
        (self.0 >> 16) % 32_768
    }
}

fn number(bytes: &[u8]) -> u64 {
    bytes.iter().rev().fold(0, |n, &byte| n << 8 | byte as u64)
}

/// A record's 5, 1, 4, 2, 3.
fn read(bytes: &[u8]) -> Result<Plan, u16> {
    let [.., low, high, 0x4B, mark @ (0x50 | 0x51)] = *bytes else { return Err(5) };
    let width = if mark == 0x50 { 2 } else { 4 };
    let distance = number(&[low, high]) as usize;
    if distance < 8 + width || distance > bytes.len() {
        return Err(5);
    }
    let record = &bytes[bytes.len() - distance..bytes.len() - 4];
    let [clusters, size, limit, rate] = [0, 1, 2, 3].map(|i| record[i] as usize);
    if !(1..=8).contains(&clusters) || !(1..=8).contains(&size) || clusters * size > 16 || limit > clusters * size || !(1..=16).contains(&rate) {
        return Err(1);
    }
    if distance != 8 + width + width * clusters * size * rate {
        return Err(4);
    }
    let q = number(&record[4..4 + width]) as Symbol;
    if !is_prime(q) || (width == 4) != (q >= 65_536) {
        return Err(2);
    }
    let table: Vec<Symbol> = record[4 + width..].chunks(width).map(|symbol| number(symbol) as Symbol).collect();
    if table.iter().any(|&x| x >= q) {
        return Err(3);
    }
    Ok(Plan { clusters, size, limit, rate, q, table })
}

/// A plan's record, whatever its numbers are. Document 01: "A plan record"; and document 02: "A plan with q of 65,536 or more has a wide record".
pub fn written(plan: &Plan) -> Vec<u8> {
    let width = if plan.q < 65_536 { 2 } else { 4 };
    let mut bytes: Vec<u8> = [plan.clusters, plan.size, plan.limit, plan.rate].iter().map(|&n| n as u8).collect();
    for symbol in [plan.q].iter().chain(&plan.table) {
        bytes.extend(&symbol.to_le_bytes()[..width]);
    }
    bytes.extend((bytes.len() as u16 + 4).to_le_bytes());
    bytes.extend([0x4B, if width == 2 { 0x50 } else { 0x51 }]);
    bytes
}

/// "16 when m is 0 or 2 × U × V × m is not below q"
fn cap_fits(plan: &Plan, cap: u32) -> bool {
    cap > 0 && 2 * (plan.clusters * plan.size) as u64 * (cap as u64) < plan.q as u64
}

/// The checks that each entry makes of a plan with its table, and of a plan with a cap.
fn table_code(plan: &Plan) -> u16 {
    let users = plan.clusters * plan.size;
    if plan.table.len() != users * plan.rate {
        return 4;
    }
    if !is_prime(plan.q) {
        return 2;
    }
    if plan.table.iter().any(|&x| x >= plan.q) {
        return 3;
    }
    0
}

fn cap_code(plan: &Plan, cap: u32) -> u16 {
    if !is_prime(plan.q) {
        return 2;
    }
    if !cap_fits(plan, cap) {
        return 16;
    }
    0
}

/// Each user's key of one position, with a remainder after each product.
#[inline(never)]
fn keys(plan: &Plan, source: &[Symbol], out: &mut [Symbol]) -> u16 {
    let code = table_code(plan);
    if code != 0 {
        return code;
    }
    if source.iter().any(|&x| x >= plan.q) {
        return 3;
    }
    let q = plan.q as u64;
    for (key, row) in out.iter_mut().zip(plan.table.chunks(plan.rate)) {
        *key = row.iter().zip(source).fold(0, |sum, (&a, &b)| (sum + a as u64 * b as u64) % q) as Symbol;
    }
    0
}

#[inline(never)]
fn signed_upload(plan: &Plan, cap: u32, reading: i32, key: Symbol, out: &mut Symbol) -> u16 {
    let code = cap_code(plan, cap);
    if code != 0 {
        return code;
    }
    if reading.unsigned_abs() > cap {
        return 15;
    }
    if key >= plan.q {
        return 3;
    }
    *out = ((reading as i64).rem_euclid(plan.q as i64) as u64 + key as u64).rem_euclid(plan.q as u64) as Symbol;
    0
}

#[inline(never)]
fn show(plan: &Plan, cap: u32, total: Symbol, out: &mut i64) -> u16 {
    let code = cap_code(plan, cap);
    if code != 0 {
        return code;
    }
    if total >= plan.q {
        return 3;
    }
    *out = if 2 * (total as u64) < plan.q as u64 { total as i64 } else { total as i64 - plan.q as i64 };
    0
}

/// The first sum of a full round; the server's round is held as a relay's of one cluster, whose users are the relays.
fn first_sum(round: &Relay) -> Symbol {
    assert_eq!(round.reported, (1 << round.size) - 1);
    round.sums[0]
}

/// The line of one round.
fn play(plan: &Plan, cap: u32, number: u32, generator: &mut Generator, out: &mut String) {
    let users = plan.clusters * plan.size;
    let source: Vec<Symbol> = (0..plan.rate).map(|_| generator.value() % plan.q).collect();
    let readings: Vec<i32> = (0..users).map(|_| (generator.value() as u64 % (cap as u64 + 1)) as i32).collect();
    let mut masks = vec![0; users];
    assert_eq!(keys(plan, &source, &mut masks), 0);
    let opened = |size: usize, cluster: usize| Relay { cluster, number, ..Relay::open(plan.clusters, size, plan.q, 1) };
    let mut relays: Vec<Relay> = (1..=plan.clusters).map(|cluster| opened(plan.size, cluster)).collect();
    let mut owing: Vec<usize> = (0..users).collect();
    let mut last = 0;
    while !owing.is_empty() {
        last = owing.remove(generator.value() as usize % owing.len());
        let mut sent = 0;
        assert_eq!(signed_upload(plan, cap, readings[last], masks[last], &mut sent), 0);
        assert_eq!(rounds::count(&mut relays[last / plan.size], last % plan.size + 1, number, &[sent]), Code(0, 0, 0));
    }
    let mut server = Relay { clusters: 1, size: plan.clusters, ..opened(plan.clusters, 1) };
    for (u, relay) in relays.iter().enumerate() {
        assert_eq!(rounds::count(&mut server, u + 1, number, &[first_sum(relay)]), Code(0, 0, 0));
    }
    let mut shown = 0;
    assert_eq!(show(plan, cap, first_sum(&server), &mut shown), 0);
    let truth: i64 = readings.iter().map(|&reading| reading as i64).sum();
    writeln!(out, "{number} {last} {} {truth} {shown}", relays[0].sums[0]).unwrap();
}

/// The number of the refusal, or the plan, the cap and the rounds.
fn opened(input: &[u8]) -> Result<(Plan, u32, u32), u16> {
    if !(8..=MOST_BYTES).contains(&input.len()) {
        return Err(4);
    }
    let (cap, count) = (number(&input[..4]) as u32, number(&input[4..8]) as u32);
    if !(1..=MOST_ROUNDS).contains(&count) {
        return Err(18);
    }
    let plan = read(&input[8..])?;
    if !cap_fits(&plan, cap) {
        return Err(16);
    }
    match plain::vet(&plan).0 {
        0 => Ok((plan, cap, count)),
        code => Err(code),
    }
}

/// All that is printed.
pub fn printed(input: &[u8]) -> String {
    match opened(input) {
        Err(code) => format!("{code}\n"),
        Ok((plan, cap, count)) => {
            let (mut generator, mut out) = (Generator(1), String::new());
            (1..=count).for_each(|number| play(&plan, cap, number, &mut generator, &mut out));
            out
        }
    }
}

/// Eight bytes before a record.
pub fn input(cap: u32, count: u32, record: &[u8]) -> Vec<u8> {
    [&cap.to_le_bytes()[..], &count.to_le_bytes(), record].concat()
}

/// What a program writes when it is given the input, and the processor time of it, the system's share included.
fn run(command: &mut Command, input: &[u8]) -> (Vec<u8>, f64) {
    let before = children_time();
    let mut child = command.stdin(Stdio::piped()).stdout(Stdio::piped()).spawn().expect("`rt run` in crates/simulate makes the program");
    let mut stdin = child.stdin.take().unwrap();
    let given = input.to_vec();
    // A program that refuses an input may not read all of it.
    let writing = std::thread::spawn(move || drop(stdin.write_all(&given)));
    let output = child.wait_with_output().unwrap();
    writing.join().unwrap();
    (output.stdout, children_time() - before)
}

#[repr(C)]
struct Usage {
    user: [i64; 2],
    system: [i64; 2],
    rest: [i64; 14],
}

extern "C" {
    fn getrusage(who: i32, usage: *mut Usage) -> i32;
}

/// The processor time of the programs that have ended (Linux, x86-64).
fn children_time() -> f64 {
    let mut usage = Usage { user: [0; 2], system: [0; 2], rest: [0; 14] };
    assert_eq!(unsafe { getrusage(-1, &mut usage) }, 0);
    let seconds = |time: [i64; 2]| time[0] as f64 + time[1] as f64 * 1e-6;
    seconds(usage.user) + seconds(usage.system)
}

fn proved() -> Command {
    Command::new(concat!(env!("CARGO_MANIFEST_DIR"), "/../crates/simulate/out/simulate"))
}

/// This program with the word that makes it print what the proved one prints.
fn plainly() -> Command {
    let mut command = Command::new(std::env::current_exe().unwrap());
    command.arg("simulate");
    command
}

/// Seeded inputs: small pools and large ones, and spoiled ones; how many outputs differ.
pub fn compare(s: &mut Seeded, runs: usize) -> usize {
    let (mut differ, mut lines, mut numbers) = (0, 0, [0usize; 24]);
    for _ in 0..runs {
        let given = seeded(s);
        let text = printed(&given);
        match text.trim_end().parse::<usize>() {
            Ok(number) => numbers[number] += 1,
            Err(_) => lines += text.lines().count(),
        }
        differ += (run(&mut proved(), &given).0 != text.as_bytes()) as usize;
    }
    println!("pools on paper: {runs} runs, {lines} lines; {}; {differ} differ", crate::tally::counted(&numbers));
    differ
}

fn seeded(s: &mut Seeded) -> Vec<u8> {
    let (u, v, t) = s.one_of(&[(2, 2, 1), (3, 2, 1), (2, 3, 2), (4, 2, 2), (8, 2, 1), (2, 8, 1), (4, 4, 2)]);
    let q = s.one_of(&[31, 101, 65_521, 65_537, 4_294_967_291]);
    let gamma = s.symbol(q);
    let mut plan = Plan::made(u, v, t, q, gamma);
    let most = (q - 1) / (2 * (u * v) as u32);
    let mut cap = s.one_of(&[most, most, 1, most + 1, 0, most / 2]);
    let mut count = s.one_of(&[1, 2, 20, 50, 0, 10_001]);
    if s.below(3) == 0 {
        (cap, count) = (most, 5);
        let symbols = plan.table.len();
        match s.below(6) {
            0 => plan.q = s.one_of(&NO_PRIMES),
            1 => plan.table[s.below(symbols)] = plan.q,
            2 => plan.clusters = 9,
            3 => drop(plan.table.pop()),
            4 => plan.table[s.below(symbols)] ^= 1,
            _ => plan.limit += 1,
        }
    }
    let mut bytes = input(cap, count, &written(&plan));
    match s.below(20) {
        0 => bytes.truncate(s.below(12)),
        1 => {
            let i = s.below(bytes.len());
            bytes[i] ^= 1 << s.below(8);
        }
        2 => bytes.extend([0; 65_536]),
        _ => {}
    }
    bytes
}

/// Times of the largest plans: of 10,000 rounds less one, so that the vet and the start of a program are left out. Whether the bar is met.
pub fn measure() -> bool {
    const TURNS: usize = 5;
    let mut met = true;
    println!("{:54}{:>12}{:>11}{:>8}", "pools on paper, ms for 10,000 rounds beside the vet", "proved", "plain", "ratio");
    for q in LARGE_PRIMES {
        for (u, v, t) in [(8, 2, 13), (4, 4, 11), (2, 8, 7), (8, 2, 1)] {
            let record = written(&Plan::made(u, v, t, q, 2));
            let cap = (q - 1) / 32;
            let inputs = [input(cap, MOST_ROUNDS, &record), input(cap, 1, &record)];
            let mut times = [[f64::MAX; 2]; 2];
            for _ in 0..TURNS {
                for (times, program) in times.iter_mut().zip([proved, plainly]) {
                    for (time, input) in times.iter_mut().zip(&inputs) {
                        *time = time.min(run(&mut program(), input).1);
                    }
                }
            }
            let [proved, plain] = times.map(|[all, one]| all - one);
            println!("{:54}{:12.1}{:11.1}{:8.2}", format!("{u} x {v}, T {t}, q {q}"), proved * 1e3, plain * 1e3, proved / plain);
            met &= proved <= BAR * plain;
        }
    }
    println!("bar (ratio at most {BAR}): {}", if met { "met" } else { "NOT met" });
    met
}

/// What the proved program prints, from standard input to standard output.
pub fn simulate() {
    let mut given = Vec::new();
    std::io::Read::read_to_end(&mut std::io::stdin(), &mut given).unwrap();
    std::io::stdout().write_all(printed(&given).as_bytes()).unwrap();
}
