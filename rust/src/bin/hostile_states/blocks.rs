//! Uploads, taking a key off, and totals shown.

use crate::field::{counts_fit, is_prime, near, some_clusters, some_count, some_q, spoil, symbol, symbols, PRIMES};
use crate::seeded::Seeded;
use crate::tally::{first, safe, unpacked, Lent, Tally, Verdict};
use kortyghai::{raw, Plan, Symbol};

/// What lent blocks hold before a call.
const MARK: Symbol = 0xABCD_ABCD;
const SIGNED_MARK: i32 = -0x1234_5678;

/// A block length that is mostly from 1 to 64.
fn some_length(s: &mut Seeded) -> usize {
    match s.below(16) {
        0 => s.one_of(&[0, 65, 66, 128, 1 << 20]),
        1..=3 => s.one_of(&[1, 2, 63, 64]),
        _ => 1 + s.below(64),
    }
}

/// A length for a slice: some are too large to be lent.
fn lent(s: &mut Seeded, length: usize) -> usize {
    near(s, length.min(200))
}

struct Case {
    q: Symbol,
    length: usize,
    a: Vec<Symbol>,
    key: Vec<Symbol>,
    out: usize,
}

fn case(s: &mut Seeded, q: Symbol) -> Case {
    let length = some_length(s);
    let (n, m, out) = (lent(s, length), lent(s, length), lent(s, length));
    let (mut a, mut key) = (symbols(s, q, n), symbols(s, q, m));
    spoil(s, q, &mut a);
    spoil(s, q, &mut key);
    Case { q, length, a, key, out }
}

/// "Upload, and taking a key off: 2, 9, 4, 3."
fn masked(case: &Case, sign: i64) -> (Verdict, Vec<Symbol>) {
    let &Case { q, length, ref a, ref key, out } = case;
    let verdict = first(&[
        (2, !is_prime(q)),
        (9, length == 0 || length > 64),
        (4, a.len() != length || key.len() != length || out != length),
        (3, a.iter().chain(key).any(|&x| x >= q)),
    ]);
    let sums = a.iter().zip(key).map(|(&x, &k)| (x as i64 + sign * k as i64).rem_euclid(q.max(1) as i64) as Symbol);
    (verdict, if verdict.is_ok() { sums.collect() } else { vec![MARK; out] })
}

fn plain_blocks(s: &mut Seeded, tally: &mut Tally) {
    let q = some_q(s);
    let case = case(s, q);
    let Case { length, a, key, .. } = &case;
    let told = || format!("q {q}, length {length}, {a:?} and {key:?}, {} lent", case.out);
    let entries = [("upload", 1), ("unmask", -1)];
    for (entry, sign) in entries {
        let wanted = masked(&case, sign);
        let mut out = Lent::new(MARK, case.out);
        let function = if sign == 1 { raw::kortyghai_upload } else { raw::kortyghai_unmask };
        let answer = unsafe { function(q, *length, a.as_ptr(), a.len(), key.as_ptr(), key.len(), out.ptr(), case.out) };
        tally.compare(entry, &wanted, &(unpacked(answer), out.left()), told);
        if a.len() == *length {
            let mut out = vec![MARK; case.out];
            let method = if sign == 1 { kortyghai::upload } else { kortyghai::unmask };
            let answer = safe(method(q, a, key, &mut out));
            tally.also(entry, &wanted, &(answer, out), told);
        }
    }
}

fn some_plan(s: &mut Seeded) -> Plan {
    let (u, v) = some_clusters(s, 16);
    let limit = s.below((u * v) as usize + 1) as Symbol;
    let rate = 1 + s.below(16) as Symbol;
    // a small q has no room for a cap
    let q = if s.below(6) > 0 { s.one_of(&PRIMES[5..]) } else { some_q(s) };
    Plan { clusters: some_count(s, u), size: some_count(s, v), limit: some_count(s, limit), rate: some_count(s, rate), q }
}

/// A cap at the bound, inside it, beyond it, or anything.
fn some_cap(s: &mut Seeded, plan: &Plan) -> u32 {
    let users = (plan.users() as u64).max(1);
    let most = ((plan.q as u64).saturating_sub(1) / (2 * users)) as u32;
    match s.below(16) {
        0 => 0,
        1 => most.saturating_add(1),
        2 => u32::MAX,
        3 => 1,
        4..=9 => most,
        _ => 1 + s.below(most as usize + 1) as u32,
    }
}

/// "16 when m is 0 or 2 × U × V × m is not below q, after 2, with 1 before 2 in every signed call."
fn cap_checks(plan: &Plan, cap: u32, length: usize) -> [(u16, bool); 4] {
    let [u, v, t, r] = [plan.clusters, plan.size, plan.limit, plan.rate].map(|n| n as usize);
    let wide = 2 * plan.users() as u128 * cap as u128 >= plan.q as u128;
    [(1, !counts_fit(u, v, t) || !(1..=16).contains(&r)), (2, !is_prime(plan.q)), (16, cap == 0 || wide), (9, length == 0 || length > 64)]
}

fn numbers(plan: &Plan) -> [Symbol; 5] {
    [plan.clusters, plan.size, plan.limit, plan.rate, plan.q]
}

fn shown(q: Symbol, t: i64) -> i32 {
    let q = q as i64;
    (if 2 * t < q { t } else { t - q }) as i32
}

/// A reading inside the cap, often at an end, and seldom one outside.
fn reading(s: &mut Seeded, cap: u32) -> i32 {
    let m = cap.min(i32::MAX as u32) as i64;
    let inside = s.below(2 * m as usize + 1) as i64 - m;
    match s.below(64) {
        0 => s.one_of(&[i32::MIN, i32::MAX, (m + 1).min(i32::MAX as i64) as i32, (-m - 1) as i32]),
        1..=16 => s.one_of(&[m, -m, 0, -1, 1]).clamp(-m, m) as i32,
        _ => inside as i32,
    }
}

fn signed_upload(s: &mut Seeded, tally: &mut Tally) {
    let plan = some_plan(s);
    let (cap, length) = (some_cap(s, &plan), some_length(s));
    let (n, m, room) = (lent(s, length), lent(s, length), lent(s, length));
    // in some blocks a reading is outside, and in most none is
    let tame = s.below(8) > 0;
    let readings: Vec<i32> = (0..n).map(|_| reading(s, cap)).map(|w| if tame && w.unsigned_abs() > cap { 0 } else { w }).collect();
    let mut key = symbols(s, plan.q, m);
    spoil(s, plan.q, &mut key);
    let mut conditions = cap_checks(&plan, cap, length).to_vec();
    conditions.extend([
        (4, n != length || m != length || room != length),
        (15, readings.iter().any(|w| w.unsigned_abs() > cap)),
        (3, key.iter().any(|&k| k >= plan.q)),
    ]);
    let verdict = first(&conditions);
    let q = plan.q.max(1) as i64;
    let sums = readings.iter().zip(&key).map(|(&w, &k)| (w as i64 + k as i64).rem_euclid(q) as Symbol);
    let wanted = (verdict, if verdict.is_ok() { sums.collect() } else { vec![MARK; room] });
    let told = || format!("{plan:?}, cap {cap}, length {length}, {readings:?} and {key:?}, {room} lent");
    let mut out = Lent::new(MARK, room);
    let answer =
        unsafe { raw::kortyghai_signed_upload(&numbers(&plan), cap, length, readings.as_ptr(), n, key.as_ptr(), m, out.ptr(), room) };
    tally.compare("signed_upload", &wanted, &(unpacked(answer), out.left()), told);
    if n == length {
        let mut out = vec![MARK; room];
        let answer = safe(plan.signed_upload(cap, &readings, &key, &mut out));
        tally.also("signed_upload", &wanted, &(answer, out.clone()), told);
        // and back
        if verdict.is_ok() {
            let mut back = vec![SIGNED_MARK; length];
            let answer = safe(plan.signed_unmask(cap, &out, &key, &mut back));
            tally.also("signed_unmask", &(Ok(()), readings.clone()), &(answer, back), told);
        }
    }
}

fn signed_unmask(s: &mut Seeded, tally: &mut Tally) {
    let plan = some_plan(s);
    let cap = some_cap(s, &plan);
    let Case { q, length, a, key, out: room } = case(s, plan.q);
    let mut conditions = cap_checks(&plan, cap, length).to_vec();
    conditions.extend([(4, a.len() != length || key.len() != length || room != length), (3, a.iter().chain(&key).any(|&x| x >= q))]);
    let verdict = first(&conditions);
    let left = a.iter().zip(&key).map(|(&x, &k)| shown(q, (x as i64 - k as i64).rem_euclid(q.max(1) as i64)));
    let wanted = (verdict, if verdict.is_ok() { left.collect() } else { vec![SIGNED_MARK; room] });
    let told = || format!("{plan:?}, cap {cap}, length {length}, {a:?} and {key:?}, {room} lent");
    let mut out = Lent::new(SIGNED_MARK, room);
    let answer = unsafe {
        raw::kortyghai_signed_unmask(&numbers(&plan), cap, length, a.as_ptr(), a.len(), key.as_ptr(), key.len(), out.ptr(), room)
    };
    tally.compare("signed_unmask", &wanted, &(unpacked(answer), out.left()), told);
    if a.len() == length {
        let mut out = vec![SIGNED_MARK; room];
        let answer = safe(plan.signed_unmask(cap, &a, &key, &mut out));
        tally.also("signed_unmask", &wanted, &(answer, out), told);
    }
}

fn show_totals(s: &mut Seeded, tally: &mut Tally) {
    let plan = some_plan(s);
    let (cap, length, q) = (some_cap(s, &plan), some_length(s), plan.q);
    let (n, room) = (lent(s, length), lent(s, length));
    // around the half of q, where the sign changes
    let half = [q / 2, q / 2 + 1, (q / 2).saturating_sub(1)].map(|t| t.min(q.max(1) - 1));
    let mut totals: Vec<Symbol> = (0..n).map(|_| if s.below(4) == 0 { s.one_of(&half) } else { symbol(s, q) }).collect();
    spoil(s, q, &mut totals);
    let mut conditions = cap_checks(&plan, cap, length).to_vec();
    conditions.extend([(4, n != length || room != length), (3, totals.iter().any(|&t| t >= q))]);
    let verdict = first(&conditions);
    let all = totals.iter().map(|&t| shown(q, t as i64));
    let wanted = (verdict, if verdict.is_ok() { all.collect() } else { vec![SIGNED_MARK; room] });
    let told = || format!("{plan:?}, cap {cap}, length {length}, {totals:?}, {room} lent");
    let mut out = Lent::new(SIGNED_MARK, room);
    let answer = unsafe { raw::kortyghai_show_totals(&numbers(&plan), cap, length, totals.as_ptr(), n, out.ptr(), room) };
    tally.compare("show_totals", &wanted, &(unpacked(answer), out.left()), told);
    if n == length {
        let mut out = vec![SIGNED_MARK; room];
        let answer = safe(plan.show_totals(cap, &totals, &mut out));
        tally.also("show_totals", &wanted, &(answer, out), told);
    }
}

pub fn run(s: &mut Seeded, count: usize, tally: &mut Tally) {
    for _ in 0..count / 5 {
        plain_blocks(s, tally);
        signed_upload(s, tally);
        signed_unmask(s, tally);
        show_totals(s, tally);
    }
}
