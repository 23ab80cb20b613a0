//! Seeded rounds and frames, and what damage makes of them.

use crate::seeded::Seeded;
use kortyghai::Symbol;

/// A relay's round, its counts as wide as a frame's sender.
#[derive(Clone, PartialEq, Debug)]
pub struct RelayRound {
    pub clusters: usize,
    pub size: usize,
    pub q: Symbol,
    pub length: usize,
    pub cluster: usize,
    pub number: u32,
    pub reported: u16,
    pub sums: [Symbol; 64],
    pub ahead: u16,
    pub held: [Symbol; 64],
}

impl RelayRound {
    /// U, V, q, L and the cluster, as they are lent: the first 32 bits of each, and no round here has more.
    pub fn counts(&self) -> [Symbol; 5] {
        [self.clusters as Symbol, self.size as Symbol, self.q, self.length as Symbol, self.cluster as Symbol]
    }

    pub fn safe(&self) -> kortyghai::RelayRound {
        let [clusters, size, q, length, cluster] = self.counts();
        let (number, reported, sums, ahead, held) = (self.number, self.reported, self.sums, self.ahead, self.held);
        kortyghai::RelayRound { clusters, size, q, length, cluster, number, reported, sums, ahead, held }
    }

    pub fn of(round: &kortyghai::RelayRound) -> RelayRound {
        let [clusters, size, length, cluster] = [round.clusters, round.size, round.length, round.cluster].map(|n| n as usize);
        let (q, number, reported, sums, ahead, held) = (round.q, round.number, round.reported, round.sums, round.ahead, round.held);
        RelayRound { clusters, size, q, length, cluster, number, reported, sums, ahead, held }
    }
}

#[derive(Clone)]
pub struct Frame {
    pub sender: usize,
    pub said: u32,
    pub block: Vec<Symbol>,
}

pub type Case = (RelayRound, Frame);

/// The last round's number.
pub const LAST: u32 = u32::MAX;

/// Small and large primes, and those around which a symbol stops fitting into 16 bits, and two into 16 or 32 when added.
pub const PRIMES: [Symbol; 18] = [
    2,
    3,
    5,
    7,
    11,
    251,
    257,
    32_749,
    32_771,
    65_519,
    65_521,
    65_537,
    65_539,
    2_147_483_629,
    2_147_483_647,
    2_147_483_659,
    4_294_967_279,
    4_294_967_291,
];

/// A symbol below q, often at an end. Where q is 0, it is 0.
pub fn symbol(s: &mut Seeded, q: Symbol) -> Symbol {
    let q = q.max(1);
    match s.below(4) {
        0 => s.one_of(&[0, q - 1]),
        _ => s.below(q as usize) as Symbol,
    }
}

pub fn block(s: &mut Seeded, q: Symbol, length: usize) -> Vec<Symbol> {
    (0..length).map(|_| symbol(s, q)).collect()
}

/// A row of 64 sums, of which the first `length` are symbols.
pub fn row(s: &mut Seeded, q: Symbol, length: usize) -> [Symbol; 64] {
    let mut row = [0; 64];
    row[..length].copy_from_slice(&block(s, q, length));
    row
}

/// A new round.
pub fn opened(s: &mut Seeded) -> RelayRound {
    let (clusters, size) = loop {
        let (u, v) = (1 + s.below(8), 1 + s.below(8));
        if u * v <= 16 {
            break (u, v);
        }
    };
    let (q, cluster) = (s.one_of(&PRIMES), 1 + s.below(clusters));
    let length = if s.below(4) == 0 { s.one_of(&[1, 63, 64]) } else { 1 + s.below(64) };
    let number = if s.below(4) == 0 { s.one_of(&[0, 1, LAST - 2, LAST - 1, LAST]) } else { s.next() as u32 };
    RelayRound { clusters, size, q, length, cluster, number, reported: 0, sums: [0; 64], ahead: 0, held: [0; 64] }
}

/// Fills the round and the next with some who have reported and with their sums, which may be any: but not with `sender`, in the
/// frame's own round.
fn filled(s: &mut Seeded, round: &mut RelayRound, frame: &Frame) {
    let users = (1 << round.size) - 1;
    let others = users & !(1 << (frame.sender - 1));
    let own = frame.said == round.number;
    round.reported = s.next() as u16 & if own { others } else { users };
    round.ahead = s.next() as u16 & if own { users } else { others } & s.one_of(&[0, users]);
    if round.reported > 0 {
        round.sums = row(s, round.q, round.length);
    }
    if round.ahead > 0 {
        round.held = row(s, round.q, round.length);
    }
}

/// A good round in which some may have reported, here and ahead, and a good frame from one who hasn't: every third for the next
/// round, where there is one.
pub fn good(s: &mut Seeded) -> Case {
    let mut round = opened(s);
    let sender = 1 + s.below(round.size);
    let said = if s.below(3) == 0 { round.number.saturating_add(1) } else { round.number };
    let frame = Frame { sender, said, block: block(s, round.q, round.length) };
    filled(s, &mut round, &frame);
    if s.below(4) == 0 {
        // all others have, so that a frame for this round makes it full
        round.reported |= ((1 << round.size) - 1) & !(1 << (sender - 1));
    }
    (round, frame)
}

/// The same with at most 63 positions, so that a sum can stand past them.
pub fn good_short(s: &mut Seeded) -> Case {
    loop {
        let case = good(s);
        if case.0.length < 64 {
            return case;
        }
    }
}

/// Far above every bound, in 32 bits; some are `n` again once they are cut to fewer.
fn large(s: &mut Seeded, n: usize) -> usize {
    s.one_of(&[n + (1 << 8), n + (1 << 16), n + (1 << 31), 1 << 16, 1 << 31, MOST - 1, MOST])
}

/// The same in 64 bits.
fn huge(s: &mut Seeded, n: usize) -> usize {
    s.one_of(&[n + (1 << 8), n + (1 << 16), n + (1 << 32), n + (1 << 63), 1 << 32, 1 << 63, usize::MAX - 1, usize::MAX])
}

/// A number that is not below q; at times its low 16 bits are.
fn too_large(s: &mut Seeded, q: Symbol) -> Symbol {
    let more = s.below(Symbol::MAX as usize + 1 - q as usize) as Symbol;
    s.one_of(&[q, q.saturating_add(1), q + more, q.max(65_536), Symbol::MAX])
}

/// The largest number that a round's counts can have.
const MOST: usize = Symbol::MAX as usize;

fn counts(s: &mut Seeded, (round, _): &mut Case) {
    let (clusters, size) = (round.clusters, round.size);
    let wrong = [0, 9, 10, 16, 17, 255, large(s, clusters), large(s, size)];
    let crowd = s.one_of(&[(3, 6), (6, 3), (4, 5), (5, 4), (8, 3), (3, 8), (2, 9), (9, 1), (8, 8)]);
    let wraps = s.one_of(&[(1 << 16, 1 << 16), (1 << 31, 2), (2, 1 << 31), (MOST, MOST), (0, 0), (0, MOST)]);
    (round.clusters, round.size) = match s.below(6) {
        0 | 1 => (s.one_of(&wrong), size),
        2 | 3 => (clusters, s.one_of(&wrong)),
        4 => crowd,
        _ => wraps,
    };
}

fn no_prime(s: &mut Seeded, (round, _): &mut Case) {
    let (even, large) = (4 + 2 * s.below(32_766) as Symbol, 65_536 + 2 * s.below(2_147_450_880) as Symbol);
    let small = s.one_of(&[0, 1, 4, 6, 9, 15, 25, 49, 121, 255, 32_767, 63_001, 64_507, 65_025, 65_533, 65_535, even, even]);
    // one whose low 16 bits are 5, a square, others that pass Fermat's test with 2, and the largest
    let wide = s.one_of(&[65_541, 4_293_001_441, 12_327_121, 3_215_031_751, 4_294_967_293, 4_294_967_295, large, large]);
    round.q = s.one_of(&[small, small, wide]);
}

fn length(s: &mut Seeded, (round, _): &mut Case) {
    let far = large(s, round.length);
    round.length = s.one_of(&[0, 0, 65, 65, 66, 70, 128, 255, far, far]);
}

fn cluster(s: &mut Seeded, (round, _): &mut Case) {
    let far = large(s, round.cluster);
    round.cluster = s.one_of(&[0, 0, round.clusters + 1, round.clusters + 1, 9, 16, far, far]);
}

/// Bits of a roll that are no sender's.
fn no_senders(s: &mut Seeded, size: usize) -> u16 {
    let bits = s.next() as u16 | 1 << (size + s.below(16 - size));
    let one = 1 << s.one_of(&[size, 15]);
    s.one_of(&[one, bits & !((1 << size) - 1)])
}

fn no_senders_bit(s: &mut Seeded, (round, _): &mut Case) {
    round.reported |= no_senders(s, round.size);
}

fn no_senders_bit_ahead(s: &mut Seeded, (round, _): &mut Case) {
    round.ahead |= no_senders(s, round.size);
}

fn too_large_in(s: &mut Seeded, q: Symbol, symbols: &mut [Symbol]) {
    for _ in 0..s.one_of(&[1, 1, 3]) {
        let last = symbols.len() - 1;
        let any = s.below(symbols.len());
        symbols[s.one_of(&[0, any, any, last])] = too_large(s, q);
    }
}

fn sum_too_large(s: &mut Seeded, (round, _): &mut Case) {
    too_large_in(s, round.q, &mut round.sums[..round.length]);
}

fn held_too_large(s: &mut Seeded, (round, _): &mut Case) {
    too_large_in(s, round.q, &mut round.held[..round.length]);
}

/// Does nothing where no sum stands past the others.
fn past_in(s: &mut Seeded, q: Symbol, length: usize, row: &mut [Symbol; 64]) {
    if length < 64 {
        let any = length + s.below(64 - length);
        let large = too_large(s, q);
        row[s.one_of(&[length, any, any, 63])] = s.one_of(&[1, q - 1, large, 65_536]);
    }
}

fn sum_past(s: &mut Seeded, (round, _): &mut Case) {
    past_in(s, round.q, round.length, &mut round.sums);
}

fn held_past(s: &mut Seeded, (round, _): &mut Case) {
    past_in(s, round.q, round.length, &mut round.held);
}

fn no_sender(s: &mut Seeded, (round, frame): &mut Case) {
    let far = huge(s, frame.sender);
    frame.sender = s.one_of(&[0, 0, round.size + 1, round.size + 1, 9, 16, 17, 64, 65, far, far]);
}

/// From 0 to 70 symbols, and at times as many that 16 bits say it is right.
fn block_length(s: &mut Seeded, (round, frame): &mut Case) {
    let wanted = match s.below(1000) {
        0 => round.length + 65_536,
        1..=300 => s.one_of(&[0, round.length - 1, round.length + 1]),
        _ => (round.length + 1 + s.below(70)) % 71,
    };
    while frame.block.len() < wanted {
        frame.block.push(symbol(s, round.q));
    }
    frame.block.truncate(wanted);
}

fn symbol_too_large(s: &mut Seeded, (round, frame): &mut Case) {
    too_large_in(s, round.q, &mut frame.block);
}

/// Neither this round's number nor the next one's. After the last there is no next: 0 isn't it.
pub fn other_round(s: &mut Seeded, n: u32) -> u32 {
    loop {
        let other = s.next() as u32 | 1;
        let near = s.one_of(&[n.wrapping_sub(1), n.wrapping_add(2)]);
        let said = s.one_of(&[near, near, n.wrapping_add(1), n ^ 1 << 16, n ^ 1 << 31, n ^ other]);
        if said != n && said.checked_sub(1) != Some(n) {
            return said;
        }
    }
}

fn another_round(s: &mut Seeded, (round, frame): &mut Case) {
    frame.said = other_round(s, round.number);
}

/// In the frame's own round. Other damages come later: the frame's number is still this one's or the next one's.
fn repeated(_: &mut Seeded, (round, frame): &mut Case) {
    let roll = if frame.said == round.number { &mut round.reported } else { &mut round.ahead };
    *roll |= 1 << (frame.sender - 1);
}

/// A kind of damage: what it does, and the number by which that is refused.
pub type Damage = (&'static str, u16, fn(&mut Seeded, &mut Case));

/// How many of the kinds damage the round handed in.
pub const OF_ROUND: usize = 10;

/// All kinds, in the order of their refusals: those of the round handed in, then those of the frame.
pub const DAMAGES: [Damage; 15] = [
    ("U, V or U x V outside", 1, counts),
    ("q no prime", 2, no_prime),
    ("L outside", 9, length),
    ("cluster outside", 8, cluster),
    ("a bit that is no sender's", 8, no_senders_bit),
    ("the same, ahead", 8, no_senders_bit_ahead),
    ("a sum not below q", 3, sum_too_large),
    ("a held one not below q", 3, held_too_large),
    ("a sum past L", 3, sum_past),
    ("a held one past L", 3, held_past),
    ("sender outside", 8, no_sender),
    ("another round's number", 14, another_round),
    ("block of another length", 4, block_length),
    ("a symbol not below q", 3, symbol_too_large),
    ("sender has reported", 11, repeated),
];

/// A good round and frame with a set of damages (bit i stands for the i-th), and the number of the first of them, or 0.
/// What is refused first is done last, so that no other damage undoes it.
pub fn damaged(s: &mut Seeded, set: usize) -> (Case, u16) {
    let mut case = good_short(s);
    let chosen = || (0..DAMAGES.len()).filter(|i| set >> i & 1 == 1).map(|i| DAMAGES[i]);
    for (_, _, damage) in chosen().collect::<Vec<_>>().into_iter().rev() {
        damage(s, &mut case);
    }
    (case, chosen().next().map_or(0, |first| first.1))
}

/// Up to three small numbers in the first places of a row.
fn small_row(s: &mut Seeded) -> [Symbol; 64] {
    let mut row = [0; 64];
    for _ in 0..s.below(4) {
        row[s.below(4)] = s.below(7) as Symbol;
    }
    row
}

/// Small numbers by chance in all places, near the bounds or inside them. The rounds' numbers are at either end.
pub fn by_chance(s: &mut Seeded) -> Case {
    let q = s.one_of(&[0, 1, 2, 3, 3, 4, 5, 5, 7, 7, 9, 65_521, 65_537, 4_294_967_291]);
    let length = s.one_of(&[0, 1, 1, 2, 2, 3, 3, 63, 64, 65]);
    let (sums, held) = (small_row(s), if s.below(2) == 0 { [0; 64] } else { small_row(s) });
    let (reported, ahead) = (s.next() as u16 & s.one_of(&[0, 1, 3, 3, 7, 15, 255]), s.next() as u16 & s.one_of(&[0, 0, 1, 3, 15]));
    let (clusters, size, cluster) = (s.below(7), s.below(7), s.below(4));
    let numbers = s.one_of(&[[0, 1, 2], [LAST - 2, LAST - 1, LAST], [LAST - 1, LAST, 0]]);
    let number = s.one_of(&numbers);
    let round = RelayRound { clusters, size, q, length, cluster, number, reported, sums, ahead, held };
    let given = if s.below(4) > 0 { length } else { s.below(5) };
    let block = (0..given).map(|_| if s.below(8) > 0 { symbol(s, q) } else { s.below(8) as Symbol }).collect();
    (round, Frame { sender: s.below(6), said: s.one_of(&numbers), block })
}
