//! Cyclic networks. The leak test solves for source symbols, and decoding solves for the combination of arrived sums that is a total.

use crate::field::{inverse, is_prime, near, often_below, some_q, spoil, symbol, symbols, Span};
use crate::seeded::Seeded;
use crate::tally::{first, safe, unpacked, Code, Lent, Tally, Verdict};
use kortyghai::{raw, Network, Ring, Symbol};

const MARK: Symbol = 0xABCD_ABCD;

fn numbers(ring: &Ring) -> [Symbol; 5] {
    [ring.size, ring.links, ring.parts, ring.rate, ring.q]
}

struct Case {
    ring: Ring,
    table: Vec<Symbol>,
    weights: Vec<Symbol>,
}

impl Case {
    fn safe(&self) -> Network<'_> {
        Network { ring: self.ring, table: &self.table, weights: &self.weights }
    }

    /// "1, 22"
    fn of_counts(&self) -> Verdict {
        let r = &self.ring;
        first(&[
            (1, !(2..=8).contains(&r.size) || !(1..=16).contains(&r.rate)),
            (22, !(1..=r.size).contains(&r.links) || !(1..=4).contains(&r.parts)),
        ])
    }

    fn sizes(&self) -> [usize; 4] {
        [self.ring.size, self.ring.links, self.ring.parts, self.ring.rate].map(|n| n as usize)
    }

    /// "4, 2, 3"
    fn of_symbols(&self, lengths: bool, symbols: &[&[Symbol]]) -> Verdict {
        self.of_counts()?;
        let q = self.ring.q;
        first(&[(4, !lengths), (2, !is_prime(q)), (3, symbols.iter().any(|run| run.iter().any(|&x| x >= q)))])
    }

    fn table_fits(&self) -> bool {
        let [k, _, _, r] = self.sizes();
        self.table.len() == k * r
    }

    fn weights_fit(&self) -> bool {
        let [k, d, n, _] = self.sizes();
        self.weights.len() == k * d * (n + 1)
    }

    /// The coefficient of user k (from 0) for its link l: of symbol s of the reading, or of the key where s is n.
    fn weight(&self, k: usize, l: usize, s: usize) -> u64 {
        let [_, d, n, _] = self.sizes();
        self.weights[(k * d + l) * (n + 1) + s] as u64
    }

    /// The relays of user k, in the order of its links: "k, k − 1 and so on, d of them, wrapping"
    fn relays_of(&self, k: usize) -> Vec<usize> {
        let [size, d, ..] = self.sizes();
        (0..d).map(|l| (k + size - l) % size).collect()
    }

    /// The users whose link leads to relay j, with that link.
    fn heard_by(&self, j: usize) -> Vec<(usize, usize)> {
        let size = self.sizes()[0];
        (0..size)
            .flat_map(|k| self.relays_of(k).into_iter().enumerate().map(move |(l, relay)| (k, l, relay)))
            .filter(|x| x.2 == j)
            .map(|x| (x.0, x.1))
            .collect()
    }

    /// An upload as a row: a coefficient for each reading symbol of each user, and then for each source symbol.
    fn row(&self, k: usize, l: usize) -> (Vec<u64>, Vec<u64>) {
        let [size, _, n, r] = self.sizes();
        let q = self.ring.q as u64;
        let mut readings = vec![0; size * n];
        (0..n).for_each(|s| readings[k * n + s] = self.weight(k, l, s) % q);
        let source = (0..r).map(|c| self.weight(k, l, n) * self.table[k * r + c] as u64 % q).collect();
        (readings, source)
    }

    fn sum_row(&self, j: usize) -> (Vec<u64>, Vec<u64>) {
        let q = self.ring.q as u64;
        let rows: Vec<_> = self.heard_by(j).into_iter().map(|(k, l)| self.row(k, l)).collect();
        let add = |mut a: Vec<u64>, b: &Vec<u64>| {
            a.iter_mut().zip(b).for_each(|(x, y)| *x = (*x + y) % q);
            a
        };
        let zero = (vec![0; rows[0].0.len()], vec![0; rows[0].1.len()]);
        rows.iter().fold(zero, |sum, row| (add(sum.0, &row.0), add(sum.1, &row.1)))
    }

    /// A view leaks nothing exactly where, for each difference of readings that it must not tell apart, some source symbols make up for it.
    fn leaks(&self, observer: usize) -> bool {
        let [size, _, n, r] = self.sizes();
        let rows: Vec<_> = match observer {
            0 => (0..size).map(|j| self.sum_row(j)).collect(),
            j => self.heard_by(j - 1).into_iter().map(|(k, l)| self.row(k, l)).collect(),
        };
        let span = Span::of(self.ring.q, (0..r).map(|c| rows.iter().map(|row| row.1[c]).collect()));
        let q = self.ring.q as u64;
        (0..size * n).any(|x| {
            // at the server one user's symbol up, and the first user's same symbol down
            let down = if observer == 0 { Some(x % n) } else { None };
            let difference = rows.iter().map(|row| (row.0[x] + down.map_or(0, |y| q - row.0[y])) % q).collect();
            !span.has(difference)
        })
    }

    fn vetted(&self) -> Verdict {
        self.of_symbols(self.table_fits() && self.weights_fit(), &[&self.table, &self.weights])?;
        let observers = (1..=self.sizes()[0]).chain([0]);
        observers.into_iter().find(|&w| self.leaks(w)).map_or(Ok(()), |w| Err((7, 0, w as u16)))
    }

    /// The totals from the arrived sums: each total as a combination of rows, and the same of the sums. Every combination gives the same,
    /// where the sums are those of some readings; of others, that of the rows that don't depend on lower ones counts.
    fn decoded(&self, reported: u16, sums: &[Symbol]) -> Result<Vec<Symbol>, Code> {
        let [size, _, n, r] = self.sizes();
        let q = self.ring.q as u64;
        let mut kept: Vec<(Vec<u64>, u64)> = Vec::new();
        let mut span = Span::new(self.ring.q);
        for j in (0..size).filter(|&j| has(reported, j)) {
            let (readings, source) = self.sum_row(j);
            let row = [readings, source].concat();
            if span.keep(row.clone()) {
                kept.push((row, sums[j] as u64));
            }
        }
        let total = |s: usize| [(0..size * n).map(|x| (x % n == s) as u64).collect::<Vec<_>>(), vec![0; r]].concat();
        (0..n).map(|s| combined(&kept, total(s), q).ok_or((23, 0, 0))).collect()
    }
}

/// The combination of rows that is the wanted one, taken of the values beside them.
fn combined(rows: &[(Vec<u64>, u64)], wanted: Vec<u64>, q: u64) -> Option<Symbol> {
    // clears a column at a time, in all rows and in what is wanted; the value goes along
    let mut rows: Vec<(Vec<u64>, u64)> = rows.to_vec();
    let (mut rest, mut value) = (wanted, 0);
    let minus = |x: u64, by: u64, y: u64| (x + q - by * y % q) % q;
    while let Some((row, given)) = rows.pop() {
        let Some(place) = row.iter().position(|&x| x != 0) else { continue };
        let inverse = inverse(row[place], q);
        let apply = |other: &mut Vec<u64>| {
            let by = other[place] * inverse % q;
            other.iter_mut().zip(&row).for_each(|(x, y)| *x = minus(*x, by, *y));
            by
        };
        let by = apply(&mut rest);
        value = (value + by * given) % q;
        for (other, held) in &mut rows {
            let by = apply(other);
            *held = minus(*held, by, given);
        }
    }
    rest.iter().all(|&x| x == 0).then_some(value as Symbol)
}

/// A network: by chance, or one that is likely to be decodable and to hide.
fn some_case(s: &mut Seeded) -> Case {
    let q = if s.below(2) == 0 { s.one_of(&[2, 3, 5, 7]) } else { some_q(s) };
    let size = 2 + often_below(s, 3, 7);
    let (links, parts, rate) = (1 + s.below(size), 1 + often_below(s, 2, 4), 1 + often_below(s, 4, 16));
    let wild = |s: &mut Seeded, n: usize| if s.below(40) > 0 { n as Symbol } else { s.one_of(&[0, 1, 9, 17, 5, Symbol::MAX, 1 << 16]) };
    let ring = Ring { size: wild(s, size), links: wild(s, links), parts: wild(s, parts), rate: wild(s, rate), q };
    let (n, m) = (near(s, size * rate), near(s, size * links * (parts + 1)));
    let mut table = symbols(s, q, n);
    let mut weights = symbols(s, q, m);
    if s.below(2) == 0 {
        simple(&mut table, &mut weights, [size, links, parts, rate], q);
    }
    spoil(s, q, &mut table);
    spoil(s, q, &mut weights);
    Case { ring, table, weights }
}

/// Each reading goes to the user's first relay alone, masked by a key; the keys sum to zero.
fn simple(table: &mut [Symbol], weights: &mut [Symbol], [size, links, parts, rate]: [usize; 4], q: Symbol) {
    if table.len() != size * rate || weights.len() != size * links * (parts + 1) || q == 0 {
        return;
    }
    for k in 0..size {
        for l in 0..links {
            let at = (k * links + l) * (parts + 1);
            weights[at..at + parts].fill(if l == 0 { 1 % q } else { 0 });
            weights[at + parts] = 1 % q;
        }
    }
    let last = table.len() - rate;
    for c in 0..rate {
        let sum: u64 = table[..last].iter().skip(c).step_by(rate).map(|&x| x as u64).sum();
        table[last + c] = ((q as u64 - sum % q as u64) % q as u64) as Symbol;
    }
}

fn vet(tally: &mut Tally, case: &Case) {
    let told = || format!("{:?} {:?} {:?}", case.ring, case.table, case.weights);
    let wanted = (case.vetted(), ());
    let answer = unsafe {
        raw::kortyghai_network_vet(&numbers(&case.ring), case.table.as_ptr(), case.table.len(), case.weights.as_ptr(), case.weights.len())
    };
    tally.compare("network_vet", &wanted, &(unpacked(answer), ()), told);
    tally.also("network_vet", &wanted, &(safe(case.safe().vet()), ()), told);
}

fn upload(s: &mut Seeded, tally: &mut Tally, case: &Case) {
    let [size, _, n, _] = case.sizes();
    let (user, relay) = (s.below(size.min(9) + 2), s.below(size.min(9) + 2));
    let wild = s.one_of(&[usize::MAX, 1 << 32, 0]);
    let (user, relay) = if s.below(30) > 0 { (user, relay) } else { s.one_of(&[(wild, 1), (1, wild), (wild, wild)]) };
    let given = near(s, n.min(10));
    let mut reading = symbols(s, case.ring.q, given);
    spoil(s, case.ring.q, &mut reading);
    let key = if s.below(20) > 0 { symbol(s, case.ring.q) } else { s.one_of(&[case.ring.q, Symbol::MAX]) };
    let before = case.of_symbols(case.weights_fit() && given == n, &[&case.weights, &reading, &[key]]);
    let linked = |()| {
        let inside = (1..=size).contains(&user) && (1..=size).contains(&relay);
        let link = inside.then(|| case.relays_of(user - 1).iter().position(|&j| j == relay - 1)).flatten();
        link.ok_or((8, 0, 0))
    };
    let result = before.and_then(linked).map(|l| {
        let readings: u64 = (0..n).map(|x| case.weight(user - 1, l, x) * reading[x] as u64 % case.ring.q as u64).sum();
        ((readings + case.weight(user - 1, l, n) * key as u64 % case.ring.q as u64) % case.ring.q as u64) as Symbol
    });
    let wanted = (result.map(drop), result.unwrap_or(MARK));
    let told = || format!("{:?} {:?}: {user} to {relay}, {reading:?} and {key}", case.ring, case.weights);
    let mut out = MARK;
    let answer = unsafe {
        raw::kortyghai_network_upload(
            &numbers(&case.ring),
            case.weights.as_ptr(),
            case.weights.len(),
            user,
            relay,
            reading.as_ptr(),
            given,
            key,
            &mut out,
        )
    };
    tally.compare("network_upload", &wanted, &(unpacked(answer), out), told);
    let sent = case.safe().upload(user, relay, &reading, key);
    tally.also("network_upload", &wanted, &(safe(sent), sent.unwrap_or(MARK)), told);
}

fn sum(s: &mut Seeded, tally: &mut Tally, case: &Case) {
    let given = near(s, case.sizes()[1].min(10));
    let mut uploads = symbols(s, case.ring.q, given);
    spoil(s, case.ring.q, &mut uploads);
    let verdict = case.of_symbols(given == case.sizes()[1], &[&uploads]);
    let total = verdict.map(|()| (uploads.iter().map(|&x| x as u64).sum::<u64>() % case.ring.q as u64) as Symbol);
    let wanted = (verdict, total.unwrap_or(MARK));
    let told = || format!("{:?}: {uploads:?}", case.ring);
    let mut out = MARK;
    let answer = unsafe { raw::kortyghai_network_sum(&numbers(&case.ring), uploads.as_ptr(), given, &mut out) };
    tally.compare("network_sum", &wanted, &(unpacked(answer), out), told);
    let summed = case.safe().sum(&uploads);
    tally.also("network_sum", &wanted, &(safe(summed), summed.unwrap_or(MARK)), told);
}

/// Sums of all relays; those that haven't arrived have anything.
fn some_sums(s: &mut Seeded, q: Symbol, reported: u16, given: usize) -> Vec<Symbol> {
    let mut sums = symbols(s, q, given);
    spoil(s, q, &mut sums);
    (0..given).filter(|&j| !has(reported, j)).for_each(|j| sums[j] = s.one_of(&[0, Symbol::MAX, sums[j]]));
    sums
}

/// Has relay j, from 0, arrived?
fn has(reported: u16, j: usize) -> bool {
    j < 16 && reported >> j & 1 == 1
}

fn decode(s: &mut Seeded, tally: &mut Tally, case: &Case) {
    let [size, _, n, _] = case.sizes();
    let all = ((1u32 << size.min(8)) - 1) as u16;
    let reported = match s.below(12) {
        0 => s.next() as u16,
        1..=4 => s.next() as u16 & all,
        _ => all,
    };
    let (given, room) = (near(s, size.min(10)), near(s, n.min(10)));
    let sums = some_sums(s, case.ring.q, reported, given);
    let arrived: Vec<Symbol> = (0..given.min(size)).filter(|&j| has(reported, j)).map(|j| sums[j]).collect();
    let lengths = case.table_fits() && case.weights_fit() && given == size && room == n;
    let result = case
        .of_symbols(lengths, &[&case.table, &case.weights, &arrived])
        .and_then(|()| first(&[(8, reported >> size != 0)]))
        .and_then(|()| case.decoded(reported, &sums));
    let wanted = (result.clone().map(drop), result.unwrap_or(vec![MARK; room]));
    let told = || format!("{:?} {:?} {:?}: {reported:b} {sums:?}, {room} lent", case.ring, case.table, case.weights);
    let mut out = Lent::new(MARK, room);
    let answer = unsafe {
        raw::kortyghai_network_decode(
            &numbers(&case.ring),
            case.table.as_ptr(),
            case.table.len(),
            case.weights.as_ptr(),
            case.weights.len(),
            reported,
            sums.as_ptr(),
            given,
            out.ptr(),
            room,
        )
    };
    tally.compare("network_decode", &wanted, &(unpacked(answer), out.left()), told);
    let mut out = vec![MARK; room];
    let answer = safe(case.safe().decode(reported, &sums, &mut out));
    tally.also("network_decode", &wanted, &(answer, out), told);
}

/// Readings through uploads and sums to the totals.
fn whole(s: &mut Seeded, tally: &mut Tally, case: &Case) {
    let all = if case.vetted().is_err() { 0 } else { ((1u32 << case.ring.size) - 1) as u16 };
    let [size, _, n, r] = case.sizes();
    if all == 0 || case.decoded(all, &vec![0; size]).is_err() {
        return;
    }
    let (network, q) = (case.safe(), case.ring.q);
    let (readings, source) = (symbols(s, q, size * n), symbols(s, q, r));
    let key = |k: usize| ((0..r).map(|c| case.table[k * r + c] as u64 * source[c] as u64 % q as u64).sum::<u64>() % q as u64) as Symbol;
    let sums: Vec<Symbol> = (0..size)
        .map(|j| {
            let sent: Vec<Symbol> = case
                .heard_by(j)
                .iter()
                .map(|&(k, _)| network.upload(k + 1, j + 1, &readings[k * n..(k + 1) * n], key(k)).unwrap())
                .collect();
            network.sum(&sent).unwrap()
        })
        .collect();
    let mut totals = vec![MARK; n];
    let answer = safe(network.decode(all, &sums, &mut totals));
    let wanted: Vec<Symbol> =
        (0..n).map(|x| (readings.iter().skip(x).step_by(n).map(|&w| w as u64).sum::<u64>() % q as u64) as Symbol).collect();
    tally.also("network_decode", &(Ok(()), wanted), &(answer, totals), || format!("{:?}: {readings:?} {source:?}", case.ring));
}

pub fn run(s: &mut Seeded, count: usize, tally: &mut Tally) {
    for _ in 0..count / 4 {
        let case = some_case(s);
        vet(tally, &case);
        upload(s, tally, &case);
        sum(s, tally, &case);
        decode(s, tally, &case);
        whole(s, tally, &case);
    }
}
