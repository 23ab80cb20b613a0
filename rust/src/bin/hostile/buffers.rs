//! Seeded buffers: records, and what damage makes of them.

use crate::reader::{Form, Plan, FORMS};
use crate::seeded::Seeded;
use kortyghai::Symbol;

impl Seeded {
    pub fn bytes(&mut self, n: usize) -> Vec<u8> {
        (0..n).map(|_| self.next() as u8).collect()
    }
}

pub const SMALL: [u8; 34] = [
    0x02, 0x02, 0x01, 0x03, 0x05, 0x00, 0x01, 0x00, 0x00, 0x00, 0x00, 0x00, 0x01, 0x00, 0x02, 0x00, 0x04, 0x00, 0x01, 0x00, 0x04, 0x00,
    0x01, 0x00, 0x02, 0x00, 0x04, 0x00, 0x00, 0x00, 0x22, 0x00, 0x4B, 0x50,
];

/// A plan with 65,536 squared, which is 5, among its symbols.
#[rustfmt::skip]
pub const WIDE: [u8; 60] = [
    0x02, 0x02, 0x01, 0x03, 0xFB, 0xFF, 0xFF, 0xFF,
    0x01, 0x00, 0x00, 0x00, 0x00, 0x00, 0x00, 0x00, 0x00, 0x00, 0x00, 0x00,
    0x01, 0x00, 0x00, 0x00, 0x00, 0x00, 0x01, 0x00, 0x05, 0x00, 0x00, 0x00,
    0x01, 0x00, 0x00, 0x00, 0x05, 0x00, 0x00, 0x00, 0x19, 0x00, 0x00, 0x00,
    0xF8, 0xFF, 0xFF, 0xFF, 0xF6, 0xFF, 0xFE, 0xFF, 0xDD, 0xFF, 0xFF, 0xFF,
    0x3C, 0x00, 0x4B, 0x51,
];

/// The primes of plans, those of old records first.
const PRIMES: [[Symbol; 10]; 2] = [
    [2, 3, 5, 7, 11, 251, 257, 65_519, 65_521, 65_521],
    [65_537, 65_537, 65_539, 1_048_583, 2_147_483_647, 2_147_483_659, 4_294_967_279, 4_294_967_291, 4_294_967_291, 4_294_967_291],
];

/// The form that a record's last byte says.
fn form_of(bytes: &[u8]) -> Form {
    FORMS[(bytes[bytes.len() - 1] == Form::Wide.mark()) as usize]
}

/// A trailer with such a distance.
pub fn trailer(distance: usize, form: Form) -> [u8; 4] {
    let [low, high] = (distance as u16).to_le_bytes();
    [low, high, 0x4B, form.mark()]
}

/// The low bytes of a number, as many as the form has for it.
fn low_bytes(n: Symbol, form: Form) -> Vec<u8> {
    n.to_le_bytes()[..form.width()].to_vec()
}

/// What a writer of one form makes of a plan, whether or not the plan has that form.
fn written(plan: &Plan, form: Form) -> Vec<u8> {
    let mut bytes = vec![plan.clusters as u8, plan.size as u8, plan.limit as u8, plan.rate as u8];
    bytes.extend(low_bytes(plan.q, form));
    plan.table.iter().for_each(|&x| bytes.extend(low_bytes(x, form)));
    bytes.extend(trailer(form.distance(plan.table.len()), form));
    bytes
}

/// The record of a plan.
pub fn record(plan: &Plan) -> Vec<u8> {
    written(plan, FORMS[(plan.q >= 65_536) as usize])
}

/// A plan written in the other form: wide with a small q, or with the high halves of all numbers left out.
pub fn other_form(s: &mut Seeded) -> Vec<u8> {
    let plan = plan(s);
    written(&plan, FORMS[(plan.q < 65_536) as usize])
}

/// Makes the last row minus the sum of the others.
fn close(plan: &mut Plan) {
    let q = plan.q as u64;
    let last = plan.table.len() - plan.rate;
    for k in 0..plan.rate {
        let sum: u64 = plan.table[..last].iter().skip(k).step_by(plan.rate).map(|&x| x as u64).sum();
        plan.table[last + k] = ((q - sum % q) % q) as Symbol;
    }
}

fn drawn(s: &mut Seeded, clusters: usize, size: usize, limit: usize, rate: usize, q: Symbol) -> Plan {
    let dense = 1 + s.below(4);
    let table = (0..clusters * size * rate).map(|_| if s.below(4) < dense { s.below(q as usize) as Symbol } else { 0 }).collect();
    let mut plan = Plan { clusters, size, limit, rate, q, table };
    if s.below(8) > 0 {
        close(&mut plan);
    }
    plan
}

/// A plan of few users, so that a vet takes no time; most have rows that sum to zero, and many leak.
pub fn plan(s: &mut Seeded) -> Plan {
    let (clusters, size) = s.one_of(&[(1, 1), (1, 2), (2, 1), (1, 3), (3, 1), (2, 2), (2, 2), (1, 4), (4, 1), (2, 3), (3, 2), (5, 1)]);
    let limit = s.below(clusters * size + 1).min(s.below(4));
    let rate = if s.below(2) == 0 { (size + limit).clamp(1, 16) } else { 1 + s.below(8) };
    let primes = s.one_of(&PRIMES);
    let q = s.one_of(&primes);
    drawn(s, clusters, size, limit, rate, q)
}

/// A plan with so few readings and source keys that they can be counted.
pub fn tiny(s: &mut Seeded) -> Plan {
    let q = s.one_of(&[2, 2, 2, 3, 3, 5]);
    let most = match q {
        2 => 4,
        3 => 3,
        _ => 2,
    };
    let (clusters, size) = loop {
        let (u, v) = (1 + s.below(most), 1 + s.below(most));
        if u * v <= most {
            break (u, v);
        }
    };
    let (limit, rate) = (s.below(clusters * size + 1), 1 + s.below(most));
    drawn(s, clusters, size, limit, rate, q)
}

/// A plan of up to 16 users and 16 columns; the limit is low, or the plan damaged before the walk.
pub fn large(s: &mut Seeded) -> Plan {
    let (clusters, size) = s.one_of(&[(8, 2), (2, 8), (4, 4), (8, 1), (1, 8), (3, 5), (5, 3), (7, 2)]);
    let limit = s.below(2);
    let rate = s.one_of(&[1, 8, 9, 15, 16, 16]);
    let q = s.one_of(&[2, 5, 65_521, 65_537, 4_294_967_291]);
    drawn(s, clusters, size, limit, rate, q)
}

/// One byte, or up to four, changed to anything.
pub fn changed(s: &mut Seeded, mut bytes: Vec<u8>) -> Vec<u8> {
    for _ in 0..s.one_of(&[1, 1, 1, 2, 4]) {
        let place = s.below(bytes.len());
        bytes[place] = if s.below(2) == 0 { s.next() as u8 } else { bytes[place] ^ 1 << s.below(8) };
    }
    bytes
}

pub fn truncated(s: &mut Seeded, mut bytes: Vec<u8>) -> Vec<u8> {
    let cut = if s.below(2) == 0 { 1 + s.below(4) } else { s.below(bytes.len() + 1) };
    if s.below(2) == 0 {
        bytes.truncate(bytes.len() - cut);
    } else {
        bytes.drain(..cut);
    }
    bytes
}

pub fn extended_in_front(s: &mut Seeded, bytes: Vec<u8>) -> Vec<u8> {
    let more = s.one_of(&[1, 2, 3, 10, 100]);
    let mut all = s.bytes(more);
    all.extend(bytes);
    all
}

pub fn extended_behind(s: &mut Seeded, mut bytes: Vec<u8>) -> Vec<u8> {
    match s.below(4) {
        0 => bytes.extend([0x4B, s.one_of(&FORMS).mark()]),
        1 => bytes.extend_from_within(bytes.len() - 4..),
        _ => {
            let more = s.one_of(&[1, 2, 4, 10]);
            bytes.extend(s.bytes(more));
        }
    }
    bytes
}

pub fn trailer_damaged(s: &mut Seeded, mut bytes: Vec<u8>) -> Vec<u8> {
    let end = bytes.len();
    match s.below(5) {
        0 => bytes[end - 1] = s.next() as u8,
        1 => bytes[end - 2] = s.next() as u8,
        2 => bytes.swap(end - 1, end - 2),
        // the other form's mark over the same bytes
        3 => bytes[end - 1] ^= Form::Old.mark() ^ Form::Wide.mark(),
        _ => {
            let four = s.bytes(4);
            bytes[end - 4..].copy_from_slice(&four);
        }
    }
    bytes
}

/// A distance that is near the right one, near the other form's, near its bounds, or anything. At times the buffer is long enough
/// for it.
pub fn distance_damaged(s: &mut Seeded, bytes: Vec<u8>) -> Vec<u8> {
    let mut bytes = if s.below(2) == 0 { extended_in_front(s, bytes) } else { bytes };
    let end = bytes.len();
    let old = u16::from_le_bytes([bytes[end - 4], bytes[end - 3]]);
    let others = s.one_of(&FORMS).distance(s.below(20)) as u16;
    let near = s.one_of(&[old, old, 10, 11, others, end as u16, end as u16, 0, u16::MAX]);
    let new = if s.below(5) == 0 { s.next() as u16 } else { near.wrapping_add(s.below(9) as u16).wrapping_sub(4) };
    bytes[end - 4..end - 2].copy_from_slice(&new.to_le_bytes());
    bytes
}

/// Primes and others near the bounds of both forms, a square, and numbers that pass Fermat's test with 2.
const NEAR: [Symbol; 22] = [
    0,
    1,
    2,
    3,
    4,
    9,
    25,
    255,
    256,
    32_767,
    65_521,
    65_522,
    65_535,
    65_536,
    65_537,
    65_541,
    12_327_121,
    3_215_031_751,
    4_293_001_441,
    4_294_967_291,
    4_294_967_293,
    4_294_967_295,
];

/// One of U, V, T, R and q becomes another that is near its bounds.
pub fn count_damaged(s: &mut Seeded, mut bytes: Vec<u8>) -> Vec<u8> {
    match s.below(5) {
        4 => {
            let q = low_bytes(s.one_of(&NEAR), form_of(&bytes));
            bytes[4..4 + q.len()].copy_from_slice(&q);
        }
        place => bytes[place] = s.one_of(&[0, 1, 2, 3, 4, 5, 7, 8, 9, 15, 16, 17, 128, 255]),
    }
    bytes
}

/// One symbol becomes another that is near q, or has the low half of one.
pub fn symbol_damaged(s: &mut Seeded, mut bytes: Vec<u8>) -> Vec<u8> {
    let form = form_of(&bytes);
    let width = form.width();
    let mut four = [0; 4];
    four[..width].copy_from_slice(&bytes[4..4 + width]);
    let q = Symbol::from_le_bytes(four);
    let place = 4 + width * (1 + s.below((bytes.len() - form.distance(0)) / width));
    let x = s.one_of(&[q - 1, q, q + 1, q / 2, Symbol::MAX, 0, q.wrapping_add(65_536), q & 0xFFFF]);
    bytes[place..place + width].copy_from_slice(&low_bytes(x, form));
    bytes
}

/// Two parts of records, one after the other.
pub fn joined(s: &mut Seeded, bytes: Vec<u8>) -> Vec<u8> {
    let mut first = record(&plan(s));
    let keep = s.below(first.len() + 1);
    first.truncate(keep);
    let skip = s.one_of(&[0, 0, 1, 4, 6]).min(bytes.len());
    first.extend(&bytes[skip..]);
    first
}

/// Bytes by chance; half of them end as a record does.
pub fn noise(s: &mut Seeded) -> Vec<u8> {
    let n = s.below(120);
    let mut bytes = s.bytes(n);
    let form = s.one_of(&FORMS);
    match s.below(4) {
        0 => bytes.extend([0x4B, form.mark()]),
        1 => bytes.extend(trailer(form.distance(0) + s.below(n + 1), form)),
        _ => {}
    }
    bytes
}

/// Small numbers alone, with a right trailer, so that the counts are often within their bounds.
pub fn small_noise(s: &mut Seeded) -> Vec<u8> {
    let form = s.one_of(&FORMS);
    let mut bytes: Vec<u8> = (0..4).map(|_| s.below(5) as u8).collect();
    let symbols = bytes[0] as usize * bytes[1] as usize * bytes[3] as usize;
    let q = if form == Form::Old { s.one_of(&[2, 3, 4, 5]) } else { s.one_of(&[2, 5, 65_536, 65_537, 65_537, 4_294_967_291]) };
    bytes.extend(low_bytes(q, form));
    (0..symbols).for_each(|_| bytes.extend(low_bytes(s.below(4) as Symbol, form)));
    bytes.extend(trailer(form.distance(symbols), form));
    bytes
}
