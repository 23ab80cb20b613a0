//! A pool on paper: bytes opened and lines drawn, held to a generator, a reader and a round of the model's own; damaged bytes, and runs that no bytes give.

use crate::field::{counts_fit, is_prime, symbol};
use crate::reader;
use crate::seeded::Seeded;
use crate::tables::{some_table, vetted};
use crate::tally::{first, safe, unpacked, Code, Tally, Verdict};
use kortyghai::{raw, Counts, KeyTable, PaperRun, Plan, Symbol};

const MARK: u32 = 0xABCD_ABCD;

fn numbers(plan: &Plan) -> [Symbol; 5] {
    [plan.clusters, plan.size, plan.limit, plan.rate, plan.q]
}

/// "16 … unless 2 × U × V × m is below q"
fn cap_fits(plan: &Plan, cap: u32) -> bool {
    cap > 0 && 2 * plan.users() as u128 * (cap as u128) < plan.q as u128
}

fn number_at(bytes: &[u8], place: usize) -> u32 {
    bytes[place..place + 4].iter().rev().fold(0, |sum, &byte| sum << 8 | byte as u32)
}

/// "Input under eight bytes is 4, before all else; 18 when the number of rounds is outside 1 to 10,000, next; 16 comes between the record's checks and the
/// vet's."
fn opened(bytes: &[u8]) -> Result<PaperRun, Code> {
    first(&[(4, bytes.len() > 65_535 || bytes.len() < 8)])?;
    let (cap, rounds) = (number_at(bytes, 0), number_at(bytes, 4));
    first(&[(18, rounds == 0 || rounds > 10_000)])?;
    let read = reader::read(&bytes[8..], 256).plan.map_err(|found| found.code())?;
    let [clusters, size, limit, rate] = [read.clusters, read.size, read.limit, read.rate].map(|n| n as u32);
    let plan = Plan { clusters, size, limit, rate, q: read.q };
    first(&[(16, !cap_fits(&plan, cap))])?;
    vetted(&plan, &read.table, None).0?;
    let mut table = [0; 256];
    table[..read.table.len()].copy_from_slice(&read.table);
    Ok(PaperRun { plan, table, cap, rounds, number: 1, state: 1 })
}

/// "s becomes (s × 1,103,515,245 + 12,345) modulo 4,294,967,296, and the value is s divided by 65,536, modulo 32,768"
fn value(state: &mut u32) -> u64 {
    *state = ((*state as u64 * 1_103_515_245 + 12_345) % (1 << 32)) as u32;
    *state as u64 / 65_536 % 32_768
}

/// "round number, last sender's index, gateway 1's sum, true sum (of the readings alone), shown total", and the state after it.
fn drawn(run: &PaperRun) -> (String, u32) {
    let (plan, q, mut state) = (&run.plan, run.plan.q as u64, run.state);
    let rate = plan.rate as usize;
    let source: Vec<u64> = (0..rate).map(|_| value(&mut state) % q).collect();
    let readings: Vec<u64> = (0..plan.users()).map(|_| value(&mut state) % (run.cap as u64 + 1)).collect();
    let mut owing: Vec<usize> = (0..plan.users()).collect();
    let mut last = 0;
    while !owing.is_empty() {
        last = owing.remove(value(&mut state) as usize % owing.len());
    }
    let upload = |i: usize| readings[i] as u128 + (0..rate).map(|k| run.table[i * rate + k] as u128 * source[k] as u128).sum::<u128>();
    let relay = |u: usize| ((u * plan.size as usize..(u + 1) * plan.size as usize).map(upload).sum::<u128>() % q as u128) as u64;
    let total = ((0..plan.clusters as usize).map(relay).sum::<u64>() % q) as i64;
    let shown = if 2 * total < q as i64 { total } else { total - q as i64 };
    (format!("{} {last} {} {} {shown}\n", run.number, relay(0), readings.iter().sum::<u64>()), state)
}

/// "18 where its number is none of its rounds", then 1, 2, 3 and 16.
fn judged(run: &PaperRun) -> Verdict {
    let plan = &run.plan;
    let fits = counts_fit(plan.clusters as usize, plan.size as usize, plan.limit as usize) && (1..=16).contains(&plan.rate);
    first(&[
        (18, run.rounds == 0 || run.rounds > 10_000 || run.number == 0 || run.number > run.rounds),
        (1, !fits),
        (2, !is_prime(plan.q)),
        (3, fits && run.table[..plan.symbols()].iter().any(|&x| x >= plan.q)),
        (16, !cap_fits(plan, run.cap)),
    ])
}

fn open(bytes: &[u8], tally: &mut Tally) -> Option<PaperRun> {
    let wanted = opened(bytes);
    let told = || format!("{} bytes: {:?}", bytes.len(), &bytes[..bytes.len().min(1_100)]);
    let verdict = wanted.as_ref().map(drop).map_err(|code| *code);
    let parts = wanted
        .as_ref()
        .map_or(([MARK; 5], [MARK; 256], [MARK; 4]), |run| (numbers(&run.plan), run.table, [run.cap, run.rounds, run.number, run.state]));
    let (mut plan, mut table, mut run) = ([MARK; 5], [MARK; 256], [MARK; 4]);
    let answer = unsafe { raw::kortyghai_paper_open(bytes.as_ptr(), bytes.len(), &mut plan, &mut table, &mut run) };
    tally.compare("paper_open", &(verdict, parts), &(unpacked(answer), (plan, table, run)), told);
    let own = PaperRun::open(bytes);
    tally.also("paper_open", &(verdict, wanted.ok()), &(safe(own.clone()), own.clone().ok()), told);
    own.ok()
}

/// The next line of a run that is handed in, and the run after it.
fn line(run: &PaperRun, tally: &mut Tally) -> PaperRun {
    let told = || format!("{run:?}");
    let verdict = judged(run);
    let (mut wanted, mut text, mut length) = (run.clone(), [0xCD; 56], usize::MAX);
    let mut said = String::new();
    if verdict.is_ok() {
        (said, wanted.state) = drawn(run);
        wanted.number += 1;
        text = [0; 56];
        text[..said.len()].copy_from_slice(said.as_bytes());
        length = said.len();
    }
    let (mut after, mut places, mut many) = ([run.cap, run.rounds, run.number, run.state], [0xCD; 56], usize::MAX);
    let answer = unsafe { raw::kortyghai_paper_line(&numbers(&run.plan), &run.table, &mut after, &mut places, &mut many) };
    let parts = ([wanted.cap, wanted.rounds, wanted.number, wanted.state], text, length);
    tally.compare("paper_line", &(verdict, parts), &(unpacked(answer), (after, places, many)), told);
    let mut own = run.clone();
    let given = own.next_line();
    let shown = given.map_or(String::new(), |line| line.to_string());
    tally.also("paper_line", &(verdict, (said, wanted)), &(safe(given), (shown, own.clone())), told);
    own
}

/// A plan that is accepted, or any with its table.
fn some_plan(s: &mut Seeded) -> (Plan, Vec<Symbol>) {
    if s.below(5) == 0 {
        return some_table(s);
    }
    loop {
        let (clusters, size, limit) = s.one_of(&[(2, 1, 0), (2, 2, 1), (3, 1, 1), (3, 2, 1), (2, 3, 2), (4, 1, 1), (5, 1, 0), (2, 2, 0)]);
        let q = s.one_of(&[11, 31, 251, 257, 65_521, 65_537, 2_147_483_659, 4_294_967_291]);
        let generator = 2 + symbol(s, q - 2);
        if let Ok(table) = (Counts { clusters, size, limit }).make_table(q, generator) {
            return (*table.plan(), table.symbols().to_vec());
        }
    }
}

fn largest_cap(plan: &Plan) -> u32 {
    (plan.q.saturating_sub(1) as usize / plan.users().saturating_mul(2).max(1)) as u32
}

fn some_cap(s: &mut Seeded, plan: &Plan) -> u32 {
    let most = largest_cap(plan);
    if s.below(8) > 0 {
        most.clamp(1, 1 + s.below(40_000) as u32)
    } else {
        s.one_of(&[0, most, most.saturating_add(1), 1, u32::MAX, 1 << 31])
    }
}

fn some_rounds(s: &mut Seeded) -> u32 {
    if s.below(10) > 0 {
        1 + s.below(6) as u32
    } else {
        s.one_of(&[0, 1, 9_999, 10_000, 10_001, 65_536 + 9, u32::MAX])
    }
}

/// The record of a plan in the form of its q, whatever its counts are.
fn record(plan: &Plan, table: &[Symbol]) -> Vec<u8> {
    let width = if plan.q < 65_536 { 2 } else { 4 };
    let counts = [plan.clusters, plan.size, plan.limit, plan.rate].map(|n| n as u8);
    let symbols = [plan.q].iter().chain(table).flat_map(|x| x.to_le_bytes()[..width].to_vec()).collect::<Vec<u8>>();
    let distance = (8 + symbols.len()) as u16;
    [&counts, &symbols[..], &distance.to_le_bytes(), &[0x4B, if width == 2 { 0x50 } else { 0x51 }]].concat()
}

fn damage(s: &mut Seeded, bytes: &mut Vec<u8>) {
    let place = s.below(bytes.len().max(1));
    match s.below(7) {
        0 => bytes.truncate(place),
        1 => bytes.truncate(s.below(14)),
        2 => bytes.iter_mut().skip(place).take(1).for_each(|byte| *byte ^= 1 << (place % 8)),
        3 => bytes.iter_mut().rev().skip(s.below(4)).take(1).for_each(|byte| *byte = byte.wrapping_add(1)),
        4 => bytes.push(0x50),
        5 => drop(bytes.splice(bytes.len().min(8)..bytes.len().min(8), vec![7; s.below(90)])),
        _ if s.below(9) == 0 => {
            // as many as a program takes, and one more
            let many = s.one_of(&[65_535, 65_536]) - bytes.len().min(65_000);
            drop(bytes.splice(bytes.len().min(8)..bytes.len().min(8), vec![0; many]));
        }
        _ => bytes.iter_mut().skip(8 + s.below(9)).take(1).for_each(|byte| *byte = 1 + s.below(20) as u8),
    }
}

fn damage_run(s: &mut Seeded, run: &mut PaperRun) {
    let wild = s.one_of(&[0, 1, 9, 16, 17, 1 << 16, u32::MAX]);
    match s.below(9) {
        0 => run.plan.clusters = wild,
        1 => run.plan.size = wild,
        2 => run.plan.limit = wild,
        3 => run.plan.rate = wild,
        4 => run.plan.q = s.one_of(&[0, 1, 4, 9, 65_541, 5, 2, u32::MAX]),
        5 => run.cap = s.one_of(&[0, largest_cap(&run.plan), largest_cap(&run.plan).saturating_add(1), u32::MAX]),
        6 => run.rounds = some_rounds(s),
        7 => run.number = s.one_of(&[0, run.rounds, run.rounds.wrapping_add(1), 10_001, u32::MAX]),
        _ => run.table[s.below(256)] = s.one_of(&[run.plan.q, run.plan.q.saturating_sub(1), u32::MAX]),
    }
}

/// From a key table, as from the bytes.
fn begin(plan: &Plan, table: &[Symbol], cap: u32, rounds: u32, bytes: &[u8], tally: &mut Tally) {
    let Ok(own) = KeyTable::new(*plan, table) else { return };
    let run = PaperRun::new(&own, cap, rounds);
    let wanted = opened(bytes);
    let verdict = wanted.as_ref().map(drop).map_err(|code| *code);
    tally.also("paper_open", &(verdict, wanted.ok()), &(safe(run.clone()), run.ok()), || format!("{own:?}, cap {cap}, {rounds} rounds"));
}

pub fn run(s: &mut Seeded, count: usize, tally: &mut Tally) {
    let mut left = count as i64;
    while left > 0 {
        let (plan, table) = some_plan(s);
        let (cap, rounds) = (some_cap(s, &plan), some_rounds(s));
        let mut bytes = [&cap.to_le_bytes()[..], &rounds.to_le_bytes(), &record(&plan, &table)].concat();
        begin(&plan, &table, cap, rounds, &bytes, tally);
        let opened = open(&bytes, tally);
        (0..1 + s.below(2)).for_each(|_| damage(s, &mut bytes));
        open(&bytes, tally);
        left -= 2;
        let Some(mut run) = opened else { continue };
        for _ in 0..(rounds + 1).min(7) {
            let mut damaged = run.clone();
            damaged.state = s.next() as u32;
            (0..s.below(3)).for_each(|_| damage_run(s, &mut damaged));
            line(&damaged, tally);
            run = line(&run, tally);
            left -= 2;
        }
    }
}
