//! Opening a relay's round, saving it, and coming back. The model writes and reads a save field by field.

use crate::field::{counts_fit, is_prime, often_below, some_clusters, some_count, some_q, symbols};
use crate::seeded::Seeded;
use crate::tally::{first, safe, unpacked, Code, Lent, Tally, Verdict};
use kortyghai::{raw, Plan, RelayRound, Symbol};

const MARK: u8 = 0xCD;

fn counts(round: &RelayRound) -> [Symbol; 5] {
    [round.clusters, round.size, round.q, round.length, round.cluster]
}

fn known(round: &RelayRound) -> bool {
    (1..=round.clusters).contains(&round.cluster)
}

fn rolls_fit(round: &RelayRound) -> bool {
    [round.reported, round.ahead].iter().all(|&roll| (roll as u32) < 1 << round.size)
}

fn sums_fit(round: &RelayRound) -> bool {
    let fits = |row: &[Symbol; 64]| {
        let (sums, past) = row.split_at(round.length as usize);
        sums.iter().all(|&x| x < round.q) && past.iter().all(|&x| x == 0)
    };
    fits(&round.sums) && fits(&round.held)
}

/// "Opening a round: 1, 2, 9, 8."
fn of_counts(round: &RelayRound) -> Verdict {
    first(&[
        (1, !counts_fit(round.clusters as usize, round.size as usize, 0)),
        (2, !is_prime(round.q)),
        (9, round.length == 0 || round.length > 64),
        (8, !known(round)),
    ])
}

fn of_state(round: &RelayRound) -> Verdict {
    of_counts(round)?;
    first(&[(8, !rolls_fit(round)), (3, !sums_fit(round))])
}

/// "A saved round has U, V, cluster and L in one byte each; q in four; the round number in four; the two rolls of two bytes each; L sums and L held sums of
/// four bytes each; distance in two; bytes 4B 52; low byte first throughout. D = 20 + 8 × L."
fn save_of(round: &RelayRound) -> Vec<u8> {
    let mut bytes = vec![round.clusters as u8, round.size as u8, round.cluster as u8, round.length as u8];
    bytes.extend(round.q.to_le_bytes());
    bytes.extend(round.number.to_le_bytes());
    bytes.extend(round.reported.to_le_bytes());
    bytes.extend(round.ahead.to_le_bytes());
    let length = round.length as usize;
    round.sums[..length].iter().chain(&round.held[..length]).for_each(|sum| bytes.extend(sum.to_le_bytes()));
    bytes.extend((20 + 8 * length as u16).to_le_bytes());
    bytes.extend([0x4B, 0x52]);
    bytes
}

fn two(bytes: &[u8]) -> u16 {
    u16::from_le_bytes([bytes[0], bytes[1]])
}

fn four(bytes: &[u8]) -> u32 {
    u32::from_le_bytes([bytes[0], bytes[1], bytes[2], bytes[3]])
}

/// The bytes before the last save, and the save's own.
fn split(bytes: &[u8]) -> Result<(&[u8], &[u8]), Code> {
    let wrong = Err((5, 0, 0));
    let [.., low, high, 0x4B, 0x52] = *bytes else { return wrong };
    let distance = u16::from_le_bytes([low, high]) as usize;
    if distance < 20 || distance > bytes.len() {
        return wrong;
    }
    Ok(bytes.split_at(bytes.len() - distance))
}

/// "A save is read in the order 5, 1, 9, 4, 2, 8, 3."
fn read(bytes: &[u8], steps: usize) -> Result<RelayRound, Code> {
    let (mut before, mut save) = split(bytes)?;
    for _ in 0..steps {
        (before, save) = split(before)?;
    }
    let [clusters, size, cluster, length] = [save[0], save[1], save[2], save[3]].map(u32::from);
    first(&[
        (1, !counts_fit(clusters as usize, size as usize, 0)),
        (9, length == 0 || length > 64),
        (4, save.len() != 20 + 8 * length as usize),
    ])?;
    let row = |from: usize| {
        let mut row = [0; 64];
        row.iter_mut().take(length as usize).enumerate().for_each(|(i, x)| *x = four(&save[from + 4 * i..]));
        row
    };
    let round = RelayRound {
        clusters,
        size,
        q: four(&save[4..]),
        length,
        cluster,
        number: four(&save[8..]),
        reported: two(&save[12..]),
        sums: row(16),
        ahead: two(&save[14..]),
        held: row(16 + 4 * length as usize),
    };
    first(&[(2, !is_prime(round.q)), (8, !known(&round) || !rolls_fit(&round)), (3, !sums_fit(&round))])?;
    Ok(round)
}

fn open(s: &mut Seeded, tally: &mut Tally) -> Option<RelayRound> {
    let (u, v) = some_clusters(s, 16);
    let length = if s.below(16) > 0 { 1 + often_below(s, 4, 64) as Symbol } else { s.one_of(&[0, 65, 1 << 16, Symbol::MAX, 64]) };
    let (clusters, size, q) = (some_count(s, u), some_count(s, v), some_q(s));
    let number = if s.below(4) > 0 { s.next() as u32 } else { s.one_of(&[0, 1, u32::MAX - 1, u32::MAX]) };
    let cluster = if s.below(16) > 0 { 1 + s.below(u as usize) as Symbol } else { s.one_of(&[0, u + 1, 9, Symbol::MAX]) };
    let old = RelayRound { clusters, size, q, length, cluster, number, reported: 9, sums: [8; 64], ahead: 7, held: [6; 64] };
    let fresh = RelayRound { reported: 0, sums: [0; 64], ahead: 0, held: [0; 64], ..old.clone() };
    let verdict = of_counts(&old);
    let told = || format!("{:?}", counts(&fresh));
    let mut left = old.clone();
    let answer = unsafe { raw::kortyghai_relay_open(&counts(&old), &mut left.reported, &mut left.sums, &mut left.ahead, &mut left.held) };
    tally.compare("relay_open", &(verdict, if verdict.is_ok() { fresh.clone() } else { old.clone() }), &(unpacked(answer), left), told);
    let opened = RelayRound::open(&Plan { clusters, size, limit: 0, rate: 1, q }, length, cluster, number);
    tally.also("relay_open", &(verdict, verdict.ok().map(|()| fresh.clone())), &(safe(opened.clone()), opened.clone().ok()), told);
    opened.ok()
}

fn fill(s: &mut Seeded, round: &mut RelayRound) {
    let users = ((1u32 << round.size) - 1) as u16;
    let length = round.length as usize;
    (round.reported, round.ahead) = (s.next() as u16 & users, s.next() as u16 & users);
    round.sums[..length].copy_from_slice(&symbols(s, round.q, length));
    round.held[..length].copy_from_slice(&symbols(s, round.q, length));
}

fn damage(s: &mut Seeded, round: &mut RelayRound) {
    let place = s.below(64);
    match s.below(9) {
        0 => round.clusters = s.one_of(&[0, 9, Symbol::MAX, 257]),
        1 => round.size = s.one_of(&[0, 9, Symbol::MAX, 258]),
        2 => round.q = s.one_of(&[0, 1, 4, 65_535, 4_294_967_295]),
        3 => round.length = s.one_of(&[0, 65, Symbol::MAX, 257]),
        4 => round.cluster = s.one_of(&[0, round.clusters + 1, Symbol::MAX, 257]),
        5 => round.reported |= 1 << s.below(16),
        6 => round.ahead |= 1 << s.below(16),
        7 => round.sums[place] = s.one_of(&[round.q, Symbol::MAX, 1]),
        _ => round.held[place] = s.one_of(&[round.q, Symbol::MAX, 1]),
    }
}

/// A save of the round after `used` bytes of a buffer.
fn save(tally: &mut Tally, round: &RelayRound, buffer: &[u8], used: usize) -> (Vec<u8>, usize) {
    let size = 20 + 8 * round.length as u128;
    let verdict = of_state(round).and_then(|()| first(&[(4, used as u128 + size > buffer.len() as u128)]));
    let mut wanted = (verdict, (buffer.to_vec(), used));
    if verdict.is_ok() {
        let end = used + size as usize;
        wanted.1 .0[used..end].copy_from_slice(&save_of(round));
        wanted.1 .1 = end;
    }
    let told = || format!("{round:?} after {used} of {} bytes", buffer.len());
    let (mut bytes, mut now) = (Lent::of(MARK, buffer), used);
    let answer = unsafe {
        raw::kortyghai_relay_save(
            &counts(round),
            round.number,
            round.reported,
            &round.sums,
            round.ahead,
            &round.held,
            bytes.ptr(),
            buffer.len(),
            &mut now,
        )
    };
    tally.compare("relay_save", &wanted, &(unpacked(answer), (bytes.left(), now)), told);
    let (mut bytes, mut now) = (buffer.to_vec(), used);
    let answer = safe(round.save(&mut bytes, &mut now));
    tally.also("relay_save", &wanted, &(answer, (bytes, now)), told);
    wanted.1
}

fn restore(tally: &mut Tally, bytes: &[u8], steps: usize) {
    let old =
        RelayRound { clusters: 1, size: 2, q: 3, length: 4, cluster: 5, number: 6, reported: 7, sums: [8; 64], ahead: 9, held: [10; 64] };
    let found = read(bytes, steps);
    let verdict = found.clone().map(drop);
    let told = || format!("{steps} steps back in {bytes:?}");
    let mut left = old.clone();
    let mut numbers = counts(&old);
    let answer = unsafe {
        raw::kortyghai_relay_restore(
            bytes.as_ptr(),
            bytes.len(),
            steps,
            &mut numbers,
            &mut left.number,
            &mut left.reported,
            &mut left.sums,
            &mut left.ahead,
            &mut left.held,
        )
    };
    [left.clusters, left.size, left.q, left.length, left.cluster] = numbers;
    tally.compare("relay_restore", &(verdict, found.clone().unwrap_or(old)), &(unpacked(answer), left), told);
    let restored = RelayRound::restore(bytes, steps);
    tally.also("relay_restore", &(verdict, found.ok()), &(safe(restored.clone()), restored.ok()), told);
}

/// Bytes of saves with some damage.
fn spoiled(s: &mut Seeded, bytes: &[u8]) -> Vec<u8> {
    let mut bytes = bytes.to_vec();
    if bytes.is_empty() {
        return bytes;
    }
    let end = bytes.len();
    match s.below(10) {
        0 => bytes.truncate(s.below(end + 1)),
        1 => bytes.push(s.next() as u8),
        2 => {
            bytes.drain(..s.below(end + 1));
        }
        3 if end >= 4 => {
            let place = end - 1 - s.below(4);
            bytes[place] = s.next() as u8;
        }
        4 if end >= 4 => {
            let distance = s.one_of(&[0, 19, 20, 28, 36, end as u16, end as u16 + 1, u16::MAX]);
            bytes[end - 4..end - 2].copy_from_slice(&distance.to_le_bytes());
        }
        5 | 8 if end >= 28 => {
            // a field of the last save
            let start = end - (two(&bytes[end - 4..]) as usize).clamp(20, end);
            let place = start + s.below(16);
            bytes[place] = s.one_of(&[0, 1, 2, 3, 5, 8, 9, 64, 65, 128, 255]);
        }
        6 | 7 => {
            let place = s.below(end);
            bytes[place] ^= 1 << s.below(8);
        }
        _ => (0..3).for_each(|_| {
            let place = s.below(end);
            bytes[place] = s.next() as u8;
        }),
    }
    bytes
}

/// What a relay that comes back from a save does again ends where the one that never stopped is.
fn resumed(s: &mut Seeded, tally: &mut Tally, round: &RelayRound) {
    let mut here = round.clone();
    let (mut bytes, mut used) = (vec![0; here.save_size()], 0);
    here.save(&mut bytes, &mut used).unwrap();
    let mut events = Vec::new();
    for _ in 0..s.below(12) {
        let (sender, early) = (1 + s.below(here.size as usize), s.below(3) == 0);
        let block = symbols(s, here.q, here.length as usize);
        let said = here.number.wrapping_add(early as u32);
        if here.count(sender, said, &block).is_ok() {
            events.push(Some((sender, said, block)));
        }
        if here.advance().is_ok() {
            events.push(None);
        }
    }
    let mut back = RelayRound::restore(&bytes, 0).unwrap();
    for event in &events {
        match event {
            Some((sender, said, block)) => back.count(*sender, *said, block).unwrap(),
            None => back.advance().unwrap(),
        }
    }
    tally.also("relay_restore", &(Ok(()), here), &(Ok(()), back), || format!("{events:?} from {round:?}"));
}

pub fn run(s: &mut Seeded, count: usize, tally: &mut Tally) {
    let mut left = count as i64;
    while left > 0 {
        left -= 1;
        open(s, tally);
        let Some(mut round) = open(s, tally) else { continue };
        let mut buffer = vec![MARK; s.one_of(&[0, 27, 28, 100, 1600, 3000, 3000])];
        let mut used = 0;
        let saves = 1 + s.below(5);
        for _ in 0..saves {
            fill(s, &mut round);
            resumed(s, tally, &round);
            let mut damaged = round.clone();
            damage(s, &mut damaged);
            save(tally, &damaged, &buffer, used);
            save(
                tally,
                &round,
                &buffer,
                s.one_of(&[buffer.len(), buffer.len() + 1, usize::MAX, usize::MAX - 20, buffer.len().saturating_sub(20)]),
            );
            (buffer, used) = save(tally, &round, &buffer, used);
            round.number = round.number.wrapping_add(1);
            left -= 3;
        }
        for steps in (0..saves).chain([s.one_of(&[usize::MAX, 1 << 32, saves, saves + 1])]) {
            restore(tally, &buffer[..used], steps);
            let spoiled = spoiled(s, &buffer[..used]);
            restore(tally, &spoiled, steps);
            left -= 2;
        }
    }
}
