//! Networks to try: the proved functions against the plain ones, and the times of the vet and of a decoding.

use crate::networks::{decode, round, sum, upload, vet, Network};
use crate::rounds::{least, line};
use crate::tally::{counted, Seeded, NO_PRIMES, PRIMES};
use crate::{proved, Code, Symbol, LARGE_PRIMES};
use std::hint::black_box;

/// A network in which every user speaks to every relay: accepted, and decoding where n + `spare` relays have arrived, for a large prime and
/// enough source symbols and all but few seeds. The key coefficients, by relays, are combinations of `spare` rows G, and each user's reading
/// coefficients are the same n rows A and combinations of G: so what takes the keys away leaves A times the totals.
fn built(s: &mut Seeded, size: usize, parts: usize, spare: usize, rate: usize, q: Symbol) -> Network {
    let mut drawn = |n: usize| -> Vec<Symbol> { (0..n).map(|_| s.symbol(q)).collect() };
    let (g, a, table) = (drawn(spare * size), drawn(parts * size), drawn(size * rate));
    let mut weights = vec![0; size * size * (parts + 1)];
    for k in 0..size {
        for p in 0..=parts {
            let mix = drawn(spare);
            for l in 0..size {
                let j = (k + size - l) % size;
                let own = if p < parts { a[p * size + j] as u64 } else { 0 };
                let sum = (0..spare).fold(own, |sum, i| (sum + mix[i] as u64 * g[i * size + j] as u64) % q as u64);
                weights[(k * size + l) * (parts + 1) + p] = sum as Symbol;
            }
        }
    }
    Network { size, links: size, parts, rate, q, table, weights }
}

/// Document 004's example; `second`: the second symbol of user 2 at relay 1, 10 by its combinations and 3 as printed.
fn example(second: Symbol) -> Network {
    let table = vec![1, 0, 0, 0, 1, 0, 0, 0, 1, 1, 2, 4, 11, 10, 8];
    let weights = [
        [1, 10, 1, 3, 3, 3, 11, 0, 11],
        [2, 0, 2, 3, second, 3, 1, 3, 1],
        [1, 3, 1, 6, 12, 6, 6, 6, 6],
        [3, 3, 3, 11, 0, 11, 10, 3, 10],
        [6, 7, 6, 7, 12, 7, 1, 10, 1],
    ];
    Network { size: 5, links: 3, parts: 2, rate: 3, q: 13, table, weights: weights.concat() }
}

/// Built ones, the example, and ones by chance, in which many symbols are 0.
fn seeded(s: &mut Seeded) -> Network {
    let (size, rate, q) = (2 + s.below(7), 1 + s.below(16), s.one_of(&PRIMES));
    match s.below(4) {
        0 => return example(s.one_of(&[10, 10, 3])),
        1 | 2 => {
            let parts = 1 + s.below(size.min(4));
            let spare = s.below(size - parts + 1);
            return built(s, size, parts, spare, rate, q);
        }
        _ => {}
    }
    let (links, parts, dense) = (1 + s.below(size), 1 + s.below(4), 1 + s.below(4));
    let mut drawn = |n: usize| -> Vec<Symbol> { (0..n).map(|_| if s.below(4) < dense { s.symbol(q) } else { 0 }).collect() };
    let (table, weights) = (drawn(size * rate), drawn(size * links * (parts + 1)));
    Network { size, links, parts, rate, q, table, weights }
}

/// Breaks one thing of a network.
fn spoil(s: &mut Seeded, net: &mut Network) {
    let (x, y) = (s.below(net.table.len()), s.below(net.weights.len()));
    match s.below(12) {
        0 => net.size = s.one_of(&[0, 1, 9, Symbol::MAX as usize]),
        1 => net.links = s.one_of(&[0, net.size + 1, Symbol::MAX as usize]),
        2 => net.parts = s.one_of(&[0, 5, Symbol::MAX as usize]),
        3 => net.rate = s.one_of(&[0, 17, Symbol::MAX as usize]),
        4 => net.q = s.one_of(&NO_PRIMES),
        5 => net.table.push(0),
        6 => drop(net.table.pop()),
        7 => net.weights.push(0),
        8 => drop(net.weights.pop()),
        9 => net.table[x] = net.q,
        10 => net.weights[y] = net.q,
        _ => net.weights[y] = (net.weights[y] + 1) % net.q,
    }
}

/// A block as it is, or with one thing wrong: a symbol more or less, or one that is q.
fn spoiled(s: &mut Seeded, q: Symbol, mut block: Vec<Symbol>) -> Vec<Symbol> {
    match s.below(16) {
        0 => block.push(0),
        1 => drop(block.pop()),
        2 if !block.is_empty() => {
            let at = s.below(block.len());
            block[at] = q;
        }
        _ => {}
    }
    block
}

/// Answers counted by number, and how many calls differ.
struct Tally {
    numbers: [usize; 24],
    differ: usize,
}

impl Tally {
    fn new() -> Tally {
        Tally { numbers: [0; 24], differ: 0 }
    }

    fn note(&mut self, net: &Network, proved: Code, plain: Code, same: bool) {
        self.numbers[plain.0 as usize] += 1;
        if proved != plain || !same {
            self.differ += 1;
            println!("proved {proved:?}, plain {plain:?}: {net:?}");
        }
    }

    fn report(&self, name: &str) -> usize {
        println!("{name}: {} calls; {}; {} differ", self.numbers.iter().sum::<usize>(), counted(&self.numbers), self.differ);
        self.differ
    }
}

/// Uploads of users and relays that are there or not, and the sum of a relay's uploads.
fn compare_uploads(s: &mut Seeded, net: &Network, uploads: &mut Tally, sums: &mut Tally) {
    let q = net.q.max(1);
    let drawn = |s: &mut Seeded, n: usize| -> Vec<Symbol> { (0..n.min(9)).map(|_| s.symbol(q)).collect() };
    for _ in 0..8 {
        let (user, relay) = (s.below(net.size.min(9) + 2), s.below(net.size.min(9) + 2));
        let reading = drawn(s, net.parts);
        let (reading, key) = (spoiled(s, net.q, reading), if s.below(16) == 0 { net.q } else { s.symbol(q) });
        let (mut a, mut b) = (7, 7);
        let (one, two) = (proved::network_upload(net, user, relay, &reading, key, &mut a), upload(net, user, relay, &reading, key, &mut b));
        uploads.note(net, one, two, a == b);
        let got = drawn(s, net.links);
        let got = spoiled(s, net.q, got);
        let (mut a, mut b) = (7, 7);
        let (one, two) = (proved::network_sum(net, &got, &mut a), sum(net, &got, &mut b));
        sums.note(net, one, two, a == b);
    }
}

/// Every roll, and some with a bit that is no relay's. What has not arrived may be any number. Where an honest round is decoded, the
/// totals must be its own.
fn compare_rolls(s: &mut Seeded, net: &Network, sums: &[Symbol], totals: Option<&[Symbol]>, decodings: &mut Tally) {
    let bits = net.size.min(8);
    for t in 0..(1u32 << bits) + 4 {
        let roll = (t + if t >> bits == 0 { 0 } else { 1 << (bits + s.below(16 - bits)) }) as u16;
        let lost = s.one_of(&[0, 1, net.q, Symbol::MAX]);
        let arrived = |j: usize| roll >> j & 1 == 1;
        let heard: Vec<Symbol> = sums.iter().enumerate().map(|(j, &x)| if arrived(j) { x } else { lost }).collect();
        let heard = spoiled(s, net.q, heard);
        let honest = heard.len() == sums.len() && (0..sums.len()).all(|j| !arrived(j) || heard[j] == sums[j]);
        let mut a = vec![7; net.parts.min(5) + (s.below(32) == 0) as usize];
        let mut b = a.clone();
        let (one, two) = (proved::network_decode(net, roll, &heard, &mut a), decode(net, roll, &heard, &mut b));
        let own = two.0 != 0 || !honest || totals.is_none_or(|totals| a == totals);
        decodings.note(net, one, two, a == b && own);
    }
}

/// How many answers or lent symbols differ.
pub fn compare(s: &mut Seeded, networks: usize) -> usize {
    let [mut vets, mut uploads, mut sums, mut decodings] = [(); 4].map(|_| Tally::new());
    for t in 0..networks {
        let mut net = seeded(s);
        let (sent, totals) = round(s, &net);
        if t % 4 == 0 {
            spoil(s, &mut net);
        }
        let (a, b) = (proved::network_vet(&net), vet(&net));
        vets.note(&net, a, b, true);
        compare_uploads(s, &net, &mut uploads, &mut sums);
        compare_rolls(s, &net, &sent, (t % 4 != 0).then_some(&totals), &mut decodings);
    }
    vets.report("networks, vet") + uploads.report("networks, uploads") + sums.report("networks, sums") + decodings.report("networks, decodings")
}

/// So many decodings of one roll, all with this answer; what stands in the lent block then.
fn decodings(
    n: usize,
    net: &Network,
    roll: u16,
    sent: &[Symbol],
    number: u16,
    decode: impl Fn(&Network, u16, &[Symbol], &mut [Symbol]) -> Code,
) -> [Symbol; 4] {
    let mut out = [0; 4];
    for _ in 0..n {
        assert_eq!(decode(black_box(net), black_box(roll), black_box(sent), &mut out), Code(number, 0, 0));
    }
    out
}

/// The vet of an accepted network of K 8, n 4, d 8, R 16; a decoding of it from all relays, and one from seven, which is refused. No bar
/// is set.
pub fn measure() {
    let mut s = Seeded(19);
    println!("{:54}{:>12}{:>11}{:>8}", "networks of K 8, n 4, d 8, R 16", "proved", "plain", "ratio");
    for q in LARGE_PRIMES {
        let net = built(&mut s, 8, 4, 4, 16, q);
        let (sent, totals) = round(&mut s, &net);
        let vets = |n: usize, vet: fn(&Network) -> Code| (0..n).for_each(|_| assert_eq!(vet(black_box(&net)), Code(0, 0, 0)));
        let [x, y] = least(50, 31, [&mut |n| vets(n, proved::network_vet), &mut |n| vets(n, vet)]);
        line(&format!("the vet, q {q}, us"), 1e6, x, y);
        for (roll, number) in [(255u16, 0), (127, 23)] {
            let (mut a, mut b) = ([0; 4], [0; 4]);
            let [x, y] = least(50, 31, [
                &mut |n| a = decodings(n, &net, roll, &sent, number, proved::network_decode),
                &mut |n| b = decodings(n, &net, roll, &sent, number, decode),
            ]);
            assert!(a == b && (number != 0 || a[..] == totals));
            line(&format!("a decoding from {} relays, q {q}, us", roll.count_ones()), 1e6, x, y);
        }
    }
}
