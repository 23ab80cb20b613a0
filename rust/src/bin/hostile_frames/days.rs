//! Days of several rounds: frames of this round and of the next, repeated, late and much too early ones, damaged ones, movings on
//! before and after everyone has reported, and sums asked for at any time.

use crate::model::{total, Book};
use crate::seeded::Seeded;
use crate::states::{self, Frame, RelayRound, DAMAGES, LAST, OF_ROUND};
use crate::tally::{Call, Kind};
use kortyghai::Symbol;

/// What happens in a day, with the call that it is about and its share.
#[derive(Clone, Copy)]
enum Event {
    Own,
    Early,
    Repeated,
    RepeatedEarly,
    Late,
    LateAndDamaged,
    TooEarly,
    Damaged,
    DamagedRound,
    Moving,
    Asking,
}

const EVENTS: [(Event, Call, usize, &str); 11] = [
    (Event::Own, Call::Count, 8, "a frame for r"),
    (Event::Early, Call::Count, 4, "a frame for r + 1"),
    (Event::Repeated, Call::Count, 2, "repeated for r"),
    (Event::RepeatedEarly, Call::Count, 2, "repeated for r + 1"),
    (Event::Late, Call::Count, 2, "late, as it was sent"),
    (Event::LateAndDamaged, Call::Count, 1, "late, and damaged"),
    (Event::TooEarly, Call::Count, 2, "for r + 2 or later"),
    (Event::Damaged, Call::Count, 2, "a damaged frame"),
    (Event::DamagedRound, Call::Count, 1, "a damaged round"),
    (Event::Moving, Call::Advance, 4, "moving on"),
    (Event::Asking, Call::Give, 2, "sums asked for"),
];

/// Where the day is: the last two rounds are told apart from all others.
const PLACES: [&str; 3] = ["r", "r 4294967294", "r 4294967295"];

fn place(number: u32) -> usize {
    match LAST - number {
        0 => 2,
        1 => 1,
        _ => 0,
    }
}

/// Days of one sort.
pub struct Days {
    /// For each place, a kind for each event.
    pub kinds: Vec<Kind>,
    pub days: usize,
    /// Rounds that were moved on from.
    pub moved: usize,
    /// Frames that were counted ahead.
    pub early: usize,
}

/// What was handed in at first, what the archive left last, the model's book, and the frames counted, of whatever round.
struct Day {
    first: RelayRound,
    round: RelayRound,
    book: Book,
    counted: Vec<Frame>,
}

/// Who is not on a roll.
fn owing(size: usize, roll: u16) -> Vec<usize> {
    (1..=size).filter(|v| roll >> (v - 1) & 1 == 0).collect()
}

impl Day {
    fn of(first: RelayRound) -> Day {
        Day { round: first.clone(), book: Book::of(&first), first, counted: Vec::new() }
    }

    /// The number of the next round, where there is one.
    fn next(&self) -> Option<u32> {
        self.round.number.checked_add(1)
    }

    fn block(&self, s: &mut Seeded) -> Vec<Symbol> {
        states::block(s, self.round.q, self.round.length)
    }

    /// A frame from one who isn't on the roll of round `said`; None where all are.
    fn owed(&self, s: &mut Seeded, roll: u16, said: u32) -> Option<Frame> {
        let owing = owing(self.round.size, roll);
        let sender = *owing.get(s.below(owing.len().max(1)))?;
        Some(Frame { sender, said, block: self.block(s) })
    }

    /// One of the frames counted whose number is such, as it was.
    fn again(&self, s: &mut Seeded, is_such: impl Fn(u32) -> bool) -> Option<Frame> {
        let such: Vec<&Frame> = self.counted.iter().filter(|frame| is_such(frame.said)).collect();
        such.get(s.below(such.len().max(1))).map(|frame| (*frame).clone())
    }

    /// The same from the same sender, at times with another block.
    fn repeated(&self, s: &mut Seeded, said: u32) -> Option<Frame> {
        let frame = self.again(s, |number| number == said)?;
        Some(if s.below(2) == 0 { frame } else { Frame { block: self.block(s), ..frame } })
    }

    /// A frame of any sender and number, with some of the damages of a frame; and the number of the first of them.
    fn damaged(&self, s: &mut Seeded, said: u32, kinds: &[usize]) -> (Frame, u16) {
        let sender = 1 + s.below(self.round.size);
        let mut case = (self.round.clone(), Frame { sender, said, block: self.block(s) });
        let first = s.one_of(kinds);
        let set = s.next();
        let chosen: Vec<usize> = kinds.iter().copied().filter(|&i| i == first || set >> i & 1 == 1).collect();
        for &i in chosen.iter().rev() {
            DAMAGES[i].2(s, &mut case);
        }
        (case.1, DAMAGES[chosen[0]].1)
    }

    /// A frame for an event, and the number that it has to get; None where the day has no such frame.
    fn frame(&self, s: &mut Seeded, event: Event) -> Option<(Frame, u16)> {
        let (number, far) = (self.round.number, s.next() as u32);
        // the damages of a frame but another round's number and the sender's having reported: of its sender, length and symbols
        const BROKEN: [usize; 3] = [OF_ROUND, OF_ROUND + 2, OF_ROUND + 3];
        Some(match event {
            Event::Own => (self.owed(s, self.round.reported, number)?, 0),
            Event::Early => (self.owed(s, self.round.ahead, self.next()?)?, 0),
            Event::Repeated => (self.repeated(s, number)?, 11),
            Event::RepeatedEarly => (self.repeated(s, self.next()?)?, 11),
            Event::Late => (self.again(s, |said| said < number)?, 14),
            // a sender that is no user comes first
            Event::LateAndDamaged => (self.damaged(s, number.checked_sub(1)?, &BROKEN[1..]).0, 14),
            Event::TooEarly => {
                let said = s.one_of(&[number.wrapping_add(2), number.wrapping_add(2), number.wrapping_add(3 + far % 1000)]);
                // after the last round, where there is no next, the next number is another one too
                let said = if number == LAST && s.below(2) == 0 { 0 } else { said };
                (Frame { sender: 1 + s.below(self.round.size), said, block: self.block(s) }, 14)
            }
            _ => {
                let said = self.next().filter(|_| s.below(2) == 0).unwrap_or(number);
                self.damaged(s, said, &BROKEN)
            }
        })
    }

    /// The sums of round `number`: of what was handed in for it, and of the frames counted that have its number.
    fn sorted(&self, number: u32) -> [Symbol; 64] {
        let counted = self.counted.iter().filter(|frame| frame.said == number).map(|frame| &frame.block[..]);
        let own = Some(&self.first.sums[..]).filter(|_| number == self.first.number);
        let ahead = Some(&self.first.held[..]).filter(|_| self.first.number.checked_add(1) == Some(number));
        total(self.round.q, &counted.chain(own).chain(ahead).collect::<Vec<_>>())
    }

    /// This round with some damage, in the archive's hands for three calls and then forgotten.
    fn damaged_round(&self, s: &mut Seeded, kind: &mut Kind) {
        let frame = Frame { sender: 1 + s.below(self.round.size), said: self.round.number, block: self.block(s) };
        let mut case = (self.round.clone(), frame);
        let (one, two) = (s.below(OF_ROUND), s.below(OF_ROUND));
        for i in if one == two { vec![one] } else { vec![one.max(two), one.min(two)] } {
            DAMAGES[i].2(s, &mut case);
        }
        kind.attempt(&case.0, &case.1, None, None);
    }
}

impl Days {
    pub fn none() -> Days {
        let named = |place: &str| EVENTS.map(|(_, about, _, name)| Kind::about(about, &format!("{place}: {name}")));
        Days { kinds: PLACES.iter().flat_map(|place| named(place)).collect(), days: 0, moved: 0, early: 0 }
    }

    pub fn tried(&self) -> usize {
        self.kinds.iter().map(|kind| kind.tried(Call::Count)).sum()
    }

    /// One event, where the day has it.
    fn happens(&mut self, s: &mut Seeded, day: &mut Day, which: usize) {
        let kind = &mut self.kinds[place(day.round.number) * EVENTS.len() + which];
        let is_full = owing(day.round.size, day.round.reported).is_empty();
        let asked = if is_full { 0 } else { 12 };
        match EVENTS[which].0 {
            Event::Moving => {
                let expected = if day.next().is_none() { 14 } else { asked };
                let before = day.round.clone();
                day.round = kind.move_on(&mut day.book, &before, Some(expected));
                if expected == 0 {
                    let rows = [before.sums, before.held, day.round.sums, day.round.held];
                    let (own, next) = (day.sorted(before.number), day.sorted(before.number + 1));
                    if rows != [own, next, next, [0; 64]] {
                        kind.complain(&format!("not the sums of the frames counted, sorted by round: {before:?}, {:?}", day.round));
                    }
                    self.moved += 1;
                }
            }
            Event::Asking => {
                let other = s.one_of(&[0, day.round.length - 1, day.round.length + 1, 64, 65]);
                let room = s.one_of(&[day.round.length, day.round.length, other]);
                let expected = if is_full && room != day.round.length { 4 } else { asked };
                kind.ask(&day.book, &day.round, room, Some(expected));
            }
            Event::DamagedRound => day.damaged_round(s, kind),
            event => {
                if let Some((frame, expected)) = day.frame(s, event) {
                    let early = frame.said != day.round.number;
                    day.round = kind.hear(&mut day.book, &day.round, &frame, Some(expected));
                    kind.ask(&day.book, &day.round, day.round.length, None);
                    if expected == 0 {
                        self.early += early as usize;
                        day.counted.push(frame);
                    }
                }
            }
        }
    }

    /// A day from a round that is handed in: to the `rounds`-th moving on, or, where there is no next round, until everyone has
    /// reported and some time after.
    fn play(&mut self, s: &mut Seeded, first: RelayRound, rounds: usize) {
        let shares: Vec<usize> = (0..EVENTS.len()).flat_map(|i| vec![i; EVENTS[i].2]).collect();
        let mut day = Day::of(first);
        let end = self.moved + rounds;
        while self.moved < end && self.kinds.iter().all(|kind| kind.differ == 0) {
            let which = s.one_of(&shares);
            self.happens(s, &mut day, which);
            if day.next().is_none() && owing(day.round.size, day.round.reported).is_empty() && s.below(16) == 0 {
                break;
            }
        }
        self.days += 1;
    }
}

/// Days with so many frames: from an opening, from an opening near the last round, and from a round that is handed in with some
/// frames counted.
pub fn days(s: &mut Seeded, count: usize) -> Days {
    let mut all = Days::none();
    while all.tried() < count && all.kinds.iter().all(|kind| kind.differ == 0) {
        let opened = states::opened(s);
        let first = match s.below(4) {
            0 => states::good(s).0,
            1 => RelayRound { number: LAST - s.below(5) as u32, ..opened },
            _ => opened,
        };
        let rounds = 1 + s.below(6);
        all.play(s, first, rounds);
    }
    all
}
