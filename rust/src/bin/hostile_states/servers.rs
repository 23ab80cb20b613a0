//! The server's round. The model keeps a list of what was counted, and adds up from it.

use crate::field::{counts_fit, is_prime, near, some_clusters, some_count, some_q, spoil, symbols};
use crate::seeded::Seeded;
use crate::tally::{first, safe, unpacked, Lent, Tally, Verdict};
use kortyghai::{raw, Plan, ServerRound, Symbol};

const MARK: Symbol = 0xABCD_ABCD;

fn counts(round: &ServerRound) -> [Symbol; 4] {
    [round.clusters, round.size, round.q, round.length]
}

/// An opening's 1, 2, 9: a server has no cluster.
fn of_counts(round: &ServerRound) -> Verdict {
    first(&[
        (1, !counts_fit(round.clusters as usize, round.size as usize, 0)),
        (2, !is_prime(round.q)),
        (9, round.length == 0 || round.length > 64),
    ])
}

/// "In the order 1, 2, 9, 8, 3; a roll bit that is no sender's is 8, a sum past position L other than 0 is 3"
fn of_state(round: &ServerRound) -> Verdict {
    of_counts(round)?;
    let (sums, past) = round.sums.split_at(round.length as usize);
    first(&[(8, round.reported as u32 >= 1 << round.clusters), (3, sums.iter().any(|&x| x >= round.q) || past.iter().any(|&x| x != 0))])
}

fn has(round: &ServerRound, relay: usize) -> bool {
    round.reported >> (relay - 1) & 1 == 1
}

/// "8, 14, 4, 3, 11"
fn of_frame(round: &ServerRound, sender: usize, said: u32, block: &[Symbol]) -> Verdict {
    of_state(round)?;
    let known = (1..=round.clusters as usize).contains(&sender);
    first(&[
        (8, !known),
        (14, said != round.number),
        (4, block.len() != round.length as usize),
        (3, block.iter().any(|&x| x >= round.q)),
        (11, known && has(round, sender)),
    ])
}

fn counted(round: &ServerRound, sender: usize, block: &[Symbol]) -> ServerRound {
    let mut after = round.clone();
    after.reported += 1 << (sender - 1);
    after.sums.iter_mut().zip(block).for_each(|(sum, &x)| *sum = ((*sum as u64 + x as u64) % round.q as u64) as Symbol);
    after
}

fn count(tally: &mut Tally, round: &ServerRound, sender: usize, said: u32, block: &[Symbol]) -> ServerRound {
    let verdict = of_frame(round, sender, said, block);
    let wanted = (verdict, if verdict.is_ok() { counted(round, sender, block) } else { round.clone() });
    let told = || format!("relay {sender} in round {said}, {block:?}, into {round:?}");
    let mut left = round.clone();
    let answer = unsafe {
        raw::kortyghai_server_count(
            &counts(round),
            round.number,
            &mut left.reported,
            &mut left.sums,
            sender,
            said,
            block.as_ptr(),
            block.len(),
        )
    };
    tally.compare("server_count", &wanted, &(unpacked(answer), left), told);
    let mut left = round.clone();
    let answer = safe(left.count(sender, said, block));
    tally.also("server_count", &wanted, &(answer, left.clone()), told);
    left
}

fn give(tally: &mut Tally, round: &ServerRound, room: usize) {
    let full = || (1..=round.clusters as usize).all(|relay| has(round, relay));
    let verdict = of_state(round).and_then(|()| first(&[(12, !full()), (4, room != round.length as usize)]));
    let wanted = (verdict, if verdict.is_ok() { round.sums[..room].to_vec() } else { vec![MARK; room] });
    let told = || format!("{room} sums of {round:?}");
    let mut out = Lent::new(MARK, room);
    let answer = unsafe { raw::kortyghai_server_give(&counts(round), round.number, round.reported, &round.sums, out.ptr(), room) };
    tally.compare("server_give", &wanted, &(unpacked(answer), out.left()), told);
    let mut out = vec![MARK; room];
    let answer = safe(round.give(&mut out));
    tally.also("server_give", &wanted, &(answer, out), told);
}

fn open(s: &mut Seeded, tally: &mut Tally) -> Option<ServerRound> {
    let (u, v) = some_clusters(s, 16);
    let length = if s.below(16) > 0 { 1 + s.below(64) as Symbol } else { s.one_of(&[0, 65, 1 << 16, Symbol::MAX, 64]) };
    let (clusters, size, q, number) = (some_count(s, u), some_count(s, v), some_q(s), s.next() as u32);
    let old = ServerRound { clusters, size, q, length, number, reported: 0x5A5A, sums: [MARK; 64] };
    let verdict = of_counts(&old);
    let fresh = ServerRound { reported: 0, sums: [0; 64], ..old.clone() };
    let told = || format!("{:?}", counts(&fresh));
    let mut left = old.clone();
    let answer = unsafe { raw::kortyghai_server_open(&counts(&old), &mut left.reported, &mut left.sums) };
    tally.compare("server_open", &(verdict, if verdict.is_ok() { fresh.clone() } else { old.clone() }), &(unpacked(answer), left), told);
    let opened = ServerRound::open(&Plan { clusters, size, limit: 0, rate: 1, q }, length, number);
    tally.also("server_open", &(verdict, verdict.ok().map(|()| fresh.clone())), &(safe(opened.clone()), opened.clone().ok()), told);
    opened.ok()
}

fn damage(s: &mut Seeded, round: &mut ServerRound) {
    let place = s.below(64);
    match s.below(7) {
        0 => round.clusters = s.one_of(&[0, 9, Symbol::MAX, 1 << 16, round.clusters + 1]),
        1 => round.size = s.one_of(&[0, 9, Symbol::MAX, 17]),
        2 => round.q = s.one_of(&[0, 1, 4, 65_535, 4_294_967_295, round.q.wrapping_add(1)]),
        3 => round.length = s.one_of(&[0, 65, Symbol::MAX, round.length - 1]),
        4 => round.reported ^= 1 << s.below(16),
        5 => round.sums[place] = s.one_of(&[round.q, Symbol::MAX, 1, round.q - 1]),
        _ => {
            *round = ServerRound {
                clusters: s.below(4) as u32,
                size: s.below(3) as u32,
                q: s.below(6) as u32,
                length: s.below(3) as u32,
                number: 1,
                reported: s.below(4) as u16,
                sums: round.sums,
            }
        }
    }
}

pub fn run(s: &mut Seeded, count_of: usize, tally: &mut Tally) {
    let mut left = count_of as i64;
    while left > 0 {
        left -= 1;
        open(s, tally);
        let Some(mut round) = open(s, tally) else { continue };
        let mut blocks = Vec::new();
        for _ in 0..s.below(24) {
            left -= 4;
            let sender = if s.below(10) > 0 {
                1 + s.below(round.clusters as usize)
            } else {
                s.one_of(&[0, round.clusters as usize + 1, 17, usize::MAX, 65])
            };
            let said = if s.below(10) > 0 {
                round.number
            } else {
                s.one_of(&[round.number.wrapping_add(1), round.number.wrapping_sub(1), 0, u32::MAX])
            };
            let given = near(s, round.length as usize);
            let mut block = symbols(s, round.q, given);
            spoil(s, round.q, &mut block);
            let mut damaged = round.clone();
            damage(s, &mut damaged);
            count(tally, &damaged, sender, said, &block);
            give(tally, &damaged, given);
            let before = round.reported;
            round = count(tally, &round, sender, said, &block);
            if round.reported != before {
                blocks.push(block);
            }
            give(tally, &round, near(s, round.length as usize));
        }
        // the sums are those of all that was counted, whole and then reduced
        let total = |p: usize| blocks.iter().map(|block| block[p] as u128).sum::<u128>() % round.q as u128;
        let sums: Vec<u128> = (0..round.length as usize).map(total).collect();
        let held: Vec<u128> = round.sums[..round.length as usize].iter().map(|&x| x as u128).collect();
        tally.also("server_count", &(Ok(()), sums), &(Ok(()), held), || format!("{round:?}"));
    }
}
