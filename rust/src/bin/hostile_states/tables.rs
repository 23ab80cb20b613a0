//! Plans and tables: the vet, alone and with two relays under one lock, its length, the maker and its rate, records written, and keys.
//!
//! The leak test takes no ranks: a view is A N + B x, for source symbols N and readings x, and leaks nothing exactly where A N = B d can be solved for each
//! difference d of readings that it must not tell apart.

use crate::field::{counts_fit, is_prime, near, often_below, some_count, some_q, spoil, symbols, Span};
use crate::seeded::Seeded;
use crate::tally::{first, plain, safe, unpacked, Code, Lent, Tally, Verdict};
use kortyghai::{raw, Counts, KeyTable, Plan, Symbol};

const MARK: Symbol = 0xABCD_ABCD;

fn numbers(plan: &Plan) -> [Symbol; 5] {
    [plan.clusters, plan.size, plan.limit, plan.rate, plan.q]
}

fn of_counts(plan: &Plan) -> bool {
    counts_fit(plan.clusters as usize, plan.size as usize, plan.limit as usize)
}

/// "1, 4, 2, 3"
fn of_table(plan: &Plan, table: &[Symbol]) -> Verdict {
    first(&[
        (1, !of_counts(plan) || !(1..=16).contains(&plan.rate)),
        (4, table.len() != plan.symbols()),
        (2, !is_prime(plan.q)),
        (3, table.iter().any(|&x| x >= plan.q)),
    ])
}

fn inside(coalition: u16, user: usize) -> bool {
    coalition >> user & 1 == 1
}

/// Who sees what: a relay, the server, or two relays together.
#[derive(Clone, Copy)]
enum Observer {
    Relay(usize),
    Server,
    Both(usize, usize),
}

/// Can A N = B d be solved for every d? The rows of A are those of the users that the observer hears, or the sums of clusters, and of the coalition.
fn leaks(plan: &Plan, table: &[Symbol], coalition: u16, observer: Observer) -> bool {
    let (size, rate, users) = (plan.size as usize, plan.rate as usize, plan.users());
    let row = |i: usize| -> Vec<u64> { table[i * rate..(i + 1) * rate].iter().map(|&x| x as u64).collect() };
    // each part of the view: the users whose uploads are added up in it
    let mut parts: Vec<Vec<usize>> = match observer {
        Observer::Relay(u) => (0..size).map(|v| vec![(u - 1) * size + v]).collect(),
        Observer::Both(a, b) => [a, b].iter().flat_map(|u| (0..size).map(move |v| vec![(u - 1) * size + v])).collect(),
        Observer::Server => (0..plan.clusters as usize).map(|u| (u * size..(u + 1) * size).collect()).collect(),
    };
    let heard = parts.len();
    // and the coalition's keys
    parts.extend((0..users).filter(|&i| inside(coalition, i)).map(|i| vec![i]));
    let column = |k: usize| parts.iter().map(|part| part.iter().map(|&i| row(i)[k]).sum::<u64>() % plan.q as u64).collect();
    let span = Span::of(plan.q, (0..rate).map(column));
    let outside: Vec<usize> = (0..users).filter(|&i| !inside(coalition, i)).collect();
    let of_user = |i: usize| -> Vec<u64> { (0..parts.len()).map(|p| (p < heard && parts[p].contains(&i)) as u64).collect() };
    outside.iter().any(|&i| {
        let mut difference = of_user(i);
        if let Observer::Server = observer {
            // one user up, another down
            let minus = plan.q as u64 - 1;
            difference.iter_mut().zip(of_user(outside[0])).for_each(|(x, y)| *x += minus * y);
        }
        !span.has(difference)
    })
}

fn coalitions(plan: &Plan) -> impl Iterator<Item = u16> {
    let (users, limit) = (plan.users(), plan.limit);
    (0..1u32 << users).map(|g| g as u16).filter(move |g| g.count_ones() <= limit)
}

fn not_zero_sum(plan: &Plan, table: &[Symbol]) -> Option<Code> {
    let sum = |k: usize| table.iter().skip(k).step_by(plan.rate as usize).map(|&x| x as u64).sum::<u64>();
    (0..plan.rate as usize).find(|&k| sum(k) % plan.q as u64 != 0).map(|k| (6, k as u16 + 1, 0))
}

/// The walk: the first pair that leaks, and how many were looked at.
fn walked(plan: &Plan, table: &[Symbol]) -> (Verdict, u32) {
    let mut looked = 0;
    for coalition in coalitions(plan) {
        for observer in (1..=plan.clusters as usize).chain([0]) {
            looked += 1;
            let seen = if observer == 0 { Observer::Server } else { Observer::Relay(observer) };
            if leaks(plan, table, coalition, seen) {
                return (Err((7, coalition, observer as u16)), looked);
            }
        }
    }
    (Ok(()), looked)
}

/// "A pair that is equal, reversed or outside the plan is 8, before 6. 19 when the pair leaks, after 7"
pub fn vetted(plan: &Plan, table: &[Symbol], pair: Option<(usize, usize)>) -> (Verdict, u32) {
    let before = of_table(plan, table)
        .and_then(|()| first(&[(8, pair.is_some_and(|(a, b)| a < 1 || a >= b || b > plan.clusters as usize))]))
        .and_then(|()| not_zero_sum(plan, table).map_or(Ok(()), Err));
    if before.is_err() {
        return (before, 0);
    }
    let (verdict, looked) = walked(plan, table);
    let joint = pair.filter(|_| verdict.is_ok()).and_then(|(a, b)| coalitions(plan).find(|&g| leaks(plan, table, g, Observer::Both(a, b))));
    joint.map_or((verdict, looked), |g| (Err((19, g, 0)), 0))
}

/// A plan of few users with a table, most with rows that sum to zero; many leak.
pub fn some_table(s: &mut Seeded) -> (Plan, Vec<Symbol>) {
    let few = s.one_of(&[(1, 1), (1, 2), (2, 1), (3, 1), (2, 2), (2, 2), (4, 1), (3, 2), (2, 3), (5, 1), (6, 1)]);
    // seldom as many users and columns as there can be
    let many = s.below(150) == 0;
    let (u, v) = if many { s.one_of(&[(8, 2), (4, 4), (2, 8), (8, 1), (5, 3)]) } else { few };
    let limit = s.below((u * v) as usize + 1).min(s.below(if many { 2 } else { 3 })) as Symbol;
    let most = if many { 16 } else { 8 };
    let rate = if s.below(3) > 0 { (2 * v + limit).clamp(1, most) } else { 1 + s.below(most as usize) as Symbol };
    let plan = Plan { clusters: u, size: v, limit, rate, q: some_q(s) };
    let q = plan.q.max(1) as u64;
    let given = near(s, plan.symbols());
    let mut table = symbols(s, plan.q, given);
    if given == plan.symbols() && s.below(8) > 0 {
        let last = given - rate as usize;
        for k in 0..rate as usize {
            let sum: u64 = table[..last].iter().skip(k).step_by(rate as usize).map(|&x| x as u64).sum();
            table[last + k] = ((q - sum % q) % q) as Symbol;
        }
    }
    spoil(s, plan.q, &mut table);
    let plan = Plan { clusters: some_count(s, u), size: some_count(s, v), limit: some_count(s, limit), rate: some_count(s, rate), ..plan };
    (plan, table)
}

fn vets(s: &mut Seeded, tally: &mut Tally, plan: &Plan, table: &[Symbol]) {
    let told = || format!("{plan:?} {table:?}");
    let wanted = (vetted(plan, table, None).0, ());
    let answer = unsafe { raw::kortyghai_vet(&numbers(plan), table.as_ptr(), table.len()) };
    tally.compare("vet", &wanted, &(unpacked(answer), ()), told);
    let own = KeyTable::new(*plan, table);
    tally.also("vet", &wanted, &(safe(own.and_then(|own| own.vet())), ()), told);

    let u = plan.clusters.min(9) as usize;
    let any = (s.below(u + 2), s.below(u + 2));
    let near = (1 + s.below(u.max(1)), 2 + s.below(u.max(1)));
    let pair = s.one_of(&[None, Some(any), Some(near), Some(near), Some((usize::MAX, 1)), Some((1, usize::MAX)), Some((0, 0))]);
    // the entry takes two zeros for none
    let asked = pair.filter(|&pair| pair != (0, 0));
    let wanted = vetted(plan, table, asked);
    let told = || format!("{plan:?} {table:?} with {pair:?}");
    let (first, second) = asked.unwrap_or((0, 0));
    let mut looked = MARK;
    let answer = unsafe { raw::kortyghai_vet_joint(&numbers(plan), table.as_ptr(), table.len(), first, second, &mut looked) };
    tally.compare("vet_joint", &wanted, &(unpacked(answer), looked), told);
    // and the safe crate for a pair of zeros, which is equal
    if let Ok(own) = own {
        let report = own.vet_joint(pair);
        tally.also("vet_joint", &vetted(plan, table, pair), &(safe(report.verdict), report.looked), told);
    }
}

fn binomial(n: u64, k: u64) -> u64 {
    (0..k).fold(1, |product, i| product * (n - i) / (i + 1))
}

fn rate_of(u: usize, v: usize, t: usize) -> usize {
    (v + t).max((u + t - 1).min(u * v - 1))
}

fn some_counts(s: &mut Seeded, most: usize) -> (usize, usize, usize) {
    let (u, v) = loop {
        let (u, v) = (1 + s.below(8), 1 + s.below(8));
        if u * v <= most {
            break (u, v);
        }
    };
    let t = s.below(u * v + 1);
    let mut wild = |n: usize| if s.below(12) > 0 { n } else { s.one_of(&[0, 9, 17, usize::MAX, 1 << 32, (1 << 32) + 1, 1 << 63]) };
    (wild(u), wild(v), wild(t))
}

/// A count as the safe crate takes it, where it fits into 32 bits.
fn safe_counts(u: usize, v: usize, t: usize) -> Option<Counts> {
    let narrow = |n: usize| u32::try_from(n).ok();
    Some(Counts { clusters: narrow(u)?, size: narrow(v)?, limit: narrow(t)? })
}

/// Whether q may be a plan's: 2.
fn primes(s: &mut Seeded, tally: &mut Tally) {
    let few = s.below(1 << 16) as Symbol;
    let chosen = some_q(s);
    let q = s.one_of(&[few, chosen]);
    let told = || format!("q {q}");
    let verdict = first(&[(2, !is_prime(q))]);
    let answer = unsafe { raw::kortyghai_check_prime(q) };
    tally.compare("check_prime", &(verdict, ()), &(unpacked(answer), ()), told);
    tally.also("check_prime", &(verdict, ()), &(safe(kortyghai::check_prime(q)), ()), told);
}

/// The length of the vet, and the maker's rate: 1, then 10, as the maker has them.
fn lengths(s: &mut Seeded, tally: &mut Tally) {
    let (u, v, t) = some_counts(s, 16);
    let told = || format!("U {u}, V {v}, T {t}");
    let fits = counts_fit(u, v, t);
    let verdict = first(&[(1, !fits)]);
    let pairs = if fits { (u as u64 + 1) * (0..=t as u64).map(|k| binomial((u * v) as u64, k)).sum::<u64>() } else { MARK as u64 };
    let mut out = MARK;
    let answer = unsafe { raw::kortyghai_count_pairs(u, v, t, &mut out) };
    tally.compare("count_pairs", &(verdict, pairs), &(unpacked(answer), out as u64), told);
    let asked = safe_counts(u, v, t);
    if let Some(counts) = asked {
        let given = counts.pairs();
        tally.also("count_pairs", &(verdict, pairs), &(safe(given), given.unwrap_or(MARK) as u64), told);
    }
    let mut out = MARK as usize;
    let answer = unsafe { raw::kortyghai_rate(u, v, t, &mut out) };
    let verdict = first(&[(1, !fits), (10, fits && t >= (u - 1) * v)]);
    let rate = if verdict.is_ok() { rate_of(u, v, t) } else { MARK as usize };
    tally.compare("rate", &(verdict, rate), &(unpacked(answer), out), told);
    if let Some(counts) = asked {
        let given = counts.rate();
        tally.also("rate", &(verdict, rate), &(safe(given), given.unwrap_or(MARK as usize)), told);
    }
}

fn power(base: u64, exponent: usize, q: u64) -> u64 {
    (0..exponent).fold(1 % q, |product, _| product * base % q)
}

/// "Row 1 is 1 followed by zeros. Row i, for i from 2 to U × V − 1, holds the powers 0 to R − 1 of γ to the power i − 1. The last row is minus the sum
/// of the others."
fn made(u: usize, v: usize, t: usize, q: Symbol, generator: Symbol) -> Vec<Symbol> {
    let (n, rate, q) = (u * v, rate_of(u, v, t), q as u64);
    let mut rows: Vec<Vec<u64>> = (0..n - 1)
        .map(|i| (0..rate).map(|k| if i == 0 { (k == 0) as u64 } else { power(power(generator as u64, i, q), k, q) }).collect())
        .collect();
    let last = (0..rate).map(|k| (q - rows.iter().map(|row| row[k]).sum::<u64>() % q) % q).collect();
    rows.push(last);
    rows.concat().into_iter().map(|x| x as Symbol).collect()
}

/// "Maker: 1, 2, 3, 10, 4, 7"
fn maker(s: &mut Seeded, tally: &mut Tally) {
    let many = s.below(150) == 0;
    let (u, v, t) = some_counts(s, if many { 16 } else { 6 });
    let t = if many { t % 2 } else { t };
    let [u, v, t] = [u, v, t].map(|n| n.min(Symbol::MAX as usize));
    let q = some_q(s);
    let generator = if s.below(16) > 0 { s.below(q.max(1) as usize) as Symbol } else { s.one_of(&[q, q.wrapping_add(1), Symbol::MAX]) };
    let fits = counts_fit(u, v, t);
    let right = if fits { u * v * rate_of(u, v, t) } else { 6 };
    let room = near(s, right.min(200));
    let too_large = fits && t >= (u - 1) * v;
    let before = first(&[(1, !fits), (2, !is_prime(q)), (3, generator >= q), (10, too_large), (4, room != right)]);
    let asked = [u as Symbol, v as Symbol, t as Symbol, s.next() as Symbol, q];
    let mut wanted = (before, (asked, vec![MARK; room]));
    if before.is_ok() {
        let rate = rate_of(u, v, t) as Symbol;
        let plan = Plan { clusters: asked[0], size: asked[1], limit: asked[2], rate, q };
        let table = made(u, v, t, q, generator);
        wanted.0 = walked(&plan, &table).0;
        if wanted.0.is_ok() {
            wanted.1 = (numbers(&plan), table);
        }
    }
    let told = || format!("{asked:?}, generator {generator}, {room} lent");
    let (mut plan, mut table) = (asked, Lent::new(MARK, room));
    let answer = unsafe { raw::kortyghai_make_table(&mut plan, generator, table.ptr(), room) };
    tally.compare("make_table", &wanted, &(unpacked(answer), (plan, table.left())), told);
    // the safe crate lends the right length
    if wanted.0 != Err(plain(4)) {
        let given = safe_counts(u, v, t).unwrap().make_table(q, generator);
        let left = given.map(|table| (numbers(table.plan()), table.symbols().to_vec())).ok();
        tally.also("make_table", &(wanted.0, wanted.0.ok().map(|()| wanted.1.clone())), &(safe(given), left), told);
    }
}

/// "Writing one: 1, 4 for the table, 2, 3, 4 for the buffer"
fn writer(s: &mut Seeded, tally: &mut Tally, plan: &Plan, table: &[Symbol]) {
    let width = if plan.q < 65_536 { 2 } else { 4 };
    let right = 8 + width + width * plan.symbols().min(300);
    let room = near(s, right);
    let verdict = of_table(plan, table).and_then(|()| first(&[(4, room != right)]));
    let mut bytes = vec![0xCD; room];
    if verdict.is_ok() {
        bytes = [plan.clusters, plan.size, plan.limit, plan.rate].map(|n| n as u8).to_vec();
        [&[plan.q], table].concat().iter().for_each(|x| bytes.extend(&x.to_le_bytes()[..width]));
        bytes.extend((right as u16).to_le_bytes());
        bytes.extend([0x4B, if width == 2 { 0x50 } else { 0x51 }]);
    }
    let told = || format!("{plan:?} {table:?}, {room} lent");
    let mut out = Lent::new(0xCD, room);
    let answer = unsafe { raw::kortyghai_write_record(&numbers(plan), table.as_ptr(), table.len(), out.ptr(), room) };
    tally.compare("write_record", &(verdict, bytes.clone()), &(unpacked(answer), out.left()), told);
    let own = KeyTable::new(*plan, table);
    tally.also("new", &(of_table(plan, table), ()), &(safe(own), ()), told);
    if let Ok(own) = own {
        let mut out = vec![0xCD; room];
        let answer = safe(own.write_record(&mut out));
        tally.also("write_record", &(verdict, bytes), &(answer, out.clone()), told);
        if verdict.is_ok() {
            tally.also("read_record", &(Ok(()), Some(own)), &(Ok(()), KeyTable::read_record(&out).ok()), told);
        }
    }
}

/// "Dealing: the vet's, then 9, 4 for any block, 3."
fn keys(s: &mut Seeded, tally: &mut Tally, plan: &Plan, table: &[Symbol]) {
    let length = if s.below(12) > 0 { 1 + often_below(s, 4, 64) } else { s.one_of(&[0, 65, usize::MAX, 1 << 32]) };
    let small = length.min(70);
    let (rate, users) = (plan.rate.min(20) as usize, plan.users().min(20));
    let (given, room) = (near(s, rate * small), near(s, users * small));
    let mut source = symbols(s, plan.q, given);
    spoil(s, plan.q, &mut source);
    let verdict = vetted(plan, table, None).0.and_then(|()| {
        let right = Some(given) == rate.checked_mul(length) && Some(room) == users.checked_mul(length);
        first(&[(9, length == 0 || length > 64), (4, !right), (3, source.iter().any(|&x| x >= plan.q))])
    });
    let mut dealt = vec![MARK; room];
    if verdict.is_ok() {
        let key = |i: usize, p: usize| {
            let products = (0..rate).map(|k| table[i * rate + k] as u128 * source[p * rate + k] as u128);
            (products.sum::<u128>() % plan.q as u128) as Symbol
        };
        dealt = (0..users).flat_map(|i| (0..length).map(move |p| (i, p))).map(|(i, p)| key(i, p)).collect();
    }
    let told = || format!("{plan:?} {table:?}, length {length}, {source:?}, {room} lent");
    let mut out = Lent::new(MARK, room);
    let answer =
        unsafe { raw::kortyghai_derive_keys(&numbers(plan), table.as_ptr(), table.len(), length, source.as_ptr(), given, out.ptr(), room) };
    tally.compare("derive_keys", &(verdict, dealt.clone()), &(unpacked(answer), out.left()), told);
    if let Ok(own) = KeyTable::new(*plan, table) {
        let mut out = vec![MARK; room];
        let answer = safe(own.derive_keys(length, &source, &mut out));
        tally.also("derive_keys", &(verdict, dealt), &(answer, out), told);
    }
}

pub fn run(s: &mut Seeded, count: usize, tally: &mut Tally) {
    for _ in 0..count / 5 {
        let (plan, table) = some_table(s);
        vets(s, tally, &plan, &table);
        writer(s, tally, &plan, &table);
        keys(s, tally, &plan, &table);
        primes(s, tally);
        lengths(s, tally);
        maker(s, tally);
    }
}
