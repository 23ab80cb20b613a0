//! Throws seeded frames and rounds at the archive's calls on a relay's round, and compares every answer and every lent place with
//! a model of its own. A round that is handed in gets a frame, then its sums are asked for, into a buffer as long as the frame's
//! block, then it is told to move on, and its sums are asked for again. Days of several rounds mix the calls in any order.
//! `hostile_frames [COUNT] [SEED]`; a million and 7 where nothing is said. The exit status is 1 where one differs.

mod calls;
mod days;
mod model;
#[path = "../hostile/seeded.rs"]
mod seeded;
mod states;
mod tally;

use days::Days;
use kortyghai::Symbol;
use seeded::Seeded;
use states::{Case, Frame, RelayRound, DAMAGES, LAST, OF_ROUND};
use std::time::Instant;
use tally::{Call, Kind, CALLS, NUMBERS};

/// Every q that 16 bits hold, and many next to them and at the end of 32.
fn every_q(s: &mut Seeded) -> Kind {
    let mut kind = Kind::named("every q to 67,583 and near 2^32");
    for q in (0..67_584).chain(Symbol::MAX - 2_047..=Symbol::MAX) {
        let (mut round, mut frame) = states::good(s);
        (round.sums, round.held) = (states::row(s, q, round.length), states::row(s, q, round.length));
        round.q = q;
        frame.block = states::block(s, q, round.length);
        kind.attempt(&round, &frame, None, None);
    }
    kind
}

/// Every U and V from 0 to 17, and every cluster to 9.
fn every_count(s: &mut Seeded) -> Kind {
    let mut kind = Kind::named("every U, V and cluster near 1 to 8");
    for (clusters, size) in (0..18).flat_map(|u| (0..18).map(move |v| (u, v))) {
        for cluster in 0..10 {
            let (round, frame) = states::good(s);
            let round = RelayRound { clusters, size, cluster, reported: 0, ahead: 0, ..round };
            kind.attempt(&round, &Frame { sender: 1, ..frame }, None, None);
        }
    }
    kind
}

/// Every set of the first nine bits of either roll, with every sender from 0 to 9, for every V; the frame is of that roll's round.
fn every_sender(s: &mut Seeded) -> Kind {
    let mut kind = Kind::named("every sender, who has reported");
    for (size, early) in (1..=8).flat_map(|size| [(size, false), (size, true)]) {
        let (round, frame) = states::good(s);
        let round = RelayRound { clusters: 2, size, cluster: 2, number: round.number.min(LAST - 1), reported: 0, ahead: 0, ..round };
        for (roll, sender) in (0..512).flat_map(|roll| (0..10).map(move |sender| (roll, sender))) {
            let mut round = round.clone();
            *if early { &mut round.ahead } else { &mut round.reported } = roll;
            let said = round.number + early as u32;
            kind.attempt(&round, &Frame { sender, said, ..frame.clone() }, None, None);
        }
    }
    kind
}

/// Every two sets of the first four bits, with every sender from 0 to 4 and every round from r - 1 to r + 2, for V from 1 to 3.
fn every_two_rolls(s: &mut Seeded) -> Kind {
    let mut kind = Kind::named("every two rolls, frames near r");
    for (size, number) in (1..=3).flat_map(|size| [(size, 7), (size, LAST - 1), (size, LAST)]) {
        let (round, frame) = states::good(s);
        for (reported, ahead) in (0..16).flat_map(|one| (0..16).map(move |two| (one, two))) {
            let round = RelayRound { clusters: 2, size, cluster: 2, number, reported, ahead, ..round.clone() };
            for (sender, step) in (0..5).flat_map(|sender| (0..4).map(move |step| (sender, step))) {
                let said = number.wrapping_add(step).wrapping_sub(1);
                kind.attempt(&round, &Frame { sender, said, ..frame.clone() }, None, None);
            }
        }
    }
    kind
}

/// Every round number near either end with every number of a frame near them: nobody has reported, so that a frame of this round
/// or the next is counted, and every other is told 14.
fn every_number(s: &mut Seeded) -> Kind {
    let mut kind = Kind::named("every number near 0 and the last");
    let near: Vec<u32> = (0..6).flat_map(|n| [n, LAST - n]).collect();
    for (&number, &said) in near.iter().flat_map(|number| near.iter().map(move |said| (number, said))) {
        for _ in 0..8 {
            let (round, frame) = states::good(s);
            let expected = if said == number || said.checked_sub(1) == Some(number) { 0 } else { 14 };
            kind.attempt(&RelayRound { number, reported: 0, ahead: 0, ..round }, &Frame { said, ..frame }, Some(expected), None);
        }
    }
    kind
}

/// Every L from 0 to 70 with every block of 0 to 70 symbols.
fn every_length(s: &mut Seeded) -> Kind {
    let mut kind = Kind::named("every L, every length of a block");
    for length in 0..=70 {
        for given in 0..=70 {
            let (mut round, mut frame) = states::good(s);
            (round.sums, round.held) = (states::row(s, round.q, length.min(64)), states::row(s, round.q, length.min(64)));
            round.length = length;
            frame.block = states::block(s, round.q, given);
            kind.attempt(&round, &frame, None, None);
        }
    }
    kind
}

/// At every position, a sum, or a held one, and a symbol of the block near 0, q and the end of 32 bits.
fn every_position(s: &mut Seeded) -> Kind {
    let mut kind = Kind::named("every position, symbols near q");
    for (position, early) in (0..64).flat_map(|position| [(position, false), (position, true)]) {
        for (a, b) in (0..6).flat_map(|a| (0..6).map(move |b| (a, b))) {
            let (mut round, mut frame) = states::good(s);
            let q = round.q;
            let ends = [0, 1, q - 1, q, q + 1, Symbol::MAX];
            *if early { &mut round.held[position] } else { &mut round.sums[position] } = ends[a];
            frame.block[position % round.length] = ends[b];
            kind.attempt(&round, &frame, None, None);
        }
    }
    kind
}

/// Every set of the damages, four times each: the first number of the set decides.
fn every_set(s: &mut Seeded) -> Kind {
    let mut kind = Kind::named("every set of the damages below");
    for set in 0..1 << DAMAGES.len() {
        for _ in 0..4 {
            attempt_set(&mut kind, s, set);
        }
    }
    kind
}

/// A damaged round gets the first number of its damages by every call, whatever the frame.
fn attempt_set(kind: &mut Kind, s: &mut Seeded, set: usize) {
    let ((round, frame), number) = states::damaged(s, set);
    let of_round = Some(number).filter(|_| set % (1 << OF_ROUND) != 0);
    kind.attempt(&round, &frame, Some(number), of_round);
}

/// `count` times a set of damages.
fn sets(s: &mut Seeded, name: &str, count: usize, make: impl Fn(&mut Seeded) -> usize) -> Kind {
    let mut kind = Kind::named(name);
    for _ in 0..count {
        let set = make(s);
        attempt_set(&mut kind, s, set);
    }
    kind
}

/// `count` rounds with a frame, and the number that it has to get, where that is known.
fn seeded(s: &mut Seeded, name: &str, count: usize, expected: Option<u16>, make: impl Fn(&mut Seeded) -> Case) -> Kind {
    let mut kind = Kind::named(name);
    for _ in 0..count {
        let (round, frame) = make(s);
        kind.attempt(&round, &frame, expected, None);
    }
    kind
}

/// So many frames: every case of some kinds, then by chance, a third of these in days.
fn all_kinds(s: &mut Seeded, count: usize) -> (Vec<Kind>, Days) {
    let mut kinds = vec![every_q(s), every_count(s), every_sender(s), every_two_rolls(s), every_number(s)];
    kinds.extend([every_length(s), every_position(s), every_set(s)]);
    let tried = |kinds: &[Kind]| kinds.iter().map(|kind| kind.tried(Call::Count)).sum::<usize>();
    let left = count.saturating_sub(tried(&kinds));
    let days = days::days(s, left / 3);
    let each = (left - left / 3) / (DAMAGES.len() + 6);
    for (i, (name, _, _)) in DAMAGES.iter().enumerate() {
        kinds.push(sets(s, name, each, |_| 1 << i));
    }
    let (all, of_round) = (DAMAGES.len(), OF_ROUND);
    kinds.push(seeded(s, "good round, good frame", each, Some(0), states::good));
    kinds.push(sets(s, "two damages", each, |s| 1 << s.below(all) | 1 << s.below(all)));
    kinds.push(sets(s, "several damages of the round", each, |s| s.below(1 << of_round)));
    kinds.push(sets(s, "several damages of the frame", each, |s| s.below(1 << (all - of_round)) << of_round));
    kinds.push(sets(s, "several damages of both", each, |s| s.below(1 << all) & s.below(1 << all)));
    let left = count.saturating_sub(tried(&kinds) + days.tried());
    kinds.push(seeded(s, "small numbers by chance", left, None, states::by_chance));
    (kinds, days)
}

/// Prints what was tried, kind by kind and call by call, and gives back the sum of all kinds.
fn tell(kinds: &[Kind], days: &Days) -> Kind {
    let head = |title: &str| {
        let numbers: String = NUMBERS.iter().map(|n| format!("{n:8}")).collect();
        println!("{title:34}{:>8}{numbers}{:>8}", "tried", "differ");
    };
    head("relay_count, kind of frame");
    kinds.iter().for_each(|kind| println!("{}", kind.line(Call::Count)));
    let mut all = Kind::named("all");
    kinds.iter().chain(&days.kinds).for_each(|kind| all.add(kind));
    println!("\n{} days: {} movings on, {} frames counted ahead", days.days, days.moved, days.early);
    head("in days, at");
    days.kinds.iter().filter(|kind| kind.tried(kind.about) > 0).for_each(|kind| println!("{}", kind.line(kind.about)));
    println!();
    head("all calls");
    for (call, name) in CALLS {
        all.name = name.to_string();
        println!("{}", all.line(call));
    }
    println!("{} of these calls were on a round with q of 65,536 or more", all.wide);
    println!("each round of a day that was moved on from had the sums of the frames counted, sorted by round");
    all
}

fn main() {
    let mut arguments = std::env::args().skip(1).map(|word| word.parse().expect("a whole number"));
    let count = arguments.next().unwrap_or(1_000_000);
    let seed = arguments.next().unwrap_or(7);
    let start = Instant::now();
    let (kinds, days) = all_kinds(&mut Seeded(seed as u64), count);
    let all = tell(&kinds, &days);
    let [frames, sums, moves] = CALLS.map(|(call, _)| all.tried(call));
    let seconds = start.elapsed().as_secs_f64();
    println!("seed {seed}, {seconds:.0} s: {frames} frames, {sums} times sums, {moves} movings on, {} differ", all.differ);
    if all.differ > 0 {
        std::process::exit(1);
    }
}

#[cfg(test)]
mod tests {
    use super::*;

    #[test]
    fn none_of_four_hundred_thousand_differs() {
        let (kinds, days) = all_kinds(&mut Seeded(1), 400_000);
        assert_eq!(tell(&kinds, &days).differ, 0);
    }
}
