//! Calls, by the archive and by the model, and how often each number was answered.

use crate::calls::{self, Left};
use crate::model::Book;
use crate::states::{Frame, RelayRound};

/// The three calls on a round.
#[derive(Clone, Copy, PartialEq)]
pub enum Call {
    Count,
    Give,
    Advance,
}

pub const CALLS: [(Call, &str); 3] = [(Call::Count, "relay_count"), (Call::Give, "relay_give"), (Call::Advance, "relay_advance")];

/// The numbers that a call on a round can get.
pub const NUMBERS: [usize; 10] = [0, 1, 2, 3, 4, 8, 9, 11, 12, 14];

/// How often the model answered each number to each call, and how often the archive's function answered or left another thing.
pub struct Kind {
    pub name: String,
    /// The call that the kind is about.
    pub about: Call,
    pub numbers: [[usize; 15]; 3],
    /// Of all calls, those on a round with a q that 16 bits don't hold.
    pub wide: usize,
    pub differ: usize,
}

impl Kind {
    pub fn named(name: &str) -> Kind {
        Kind::about(Call::Count, name)
    }

    pub fn about(about: Call, name: &str) -> Kind {
        Kind { name: name.to_string(), about, numbers: [[0; 15]; 3], wide: 0, differ: 0 }
    }

    pub fn tried(&self, call: Call) -> usize {
        self.numbers[call as usize].iter().sum()
    }

    /// Adds up what the archive left, and what the safe crate left, against what the model wants. `expected` is the number where
    /// it is known beforehand.
    fn compare(&mut self, call: Call, left: [&Left; 2], wanted: &Left, expected: Option<u16>, what: impl Fn() -> String) {
        self.numbers[call as usize][wanted.answer as usize] += 1;
        self.wide += (wanted.round.q >= 65_536) as usize;
        let known = expected.is_none_or(|number| number as u64 == wanted.answer);
        if left != [wanted; 2] || !known {
            let same = left.iter().all(|left| left.round == wanted.round && left.out == wanted.out && left.clean);
            let rounds = if same { "the same round and places" } else { "another round or other places" };
            let [archive, safe] = left.map(|left| left.answer);
            self.complain(&format!(
                "{}: the archive says {archive:#x}, the safe crate {safe}, the model {}, known was {expected:?}; {rounds} after {}",
                CALLS[call as usize].1,
                wanted.answer,
                what()
            ));
        }
    }

    pub fn complain(&mut self, what: &str) {
        self.differ += 1;
        if self.differ <= 3 {
            println!("{}: {what}", self.name);
        }
    }

    /// A frame. Gives back the round that the archive left.
    pub fn hear(&mut self, book: &mut Book, round: &RelayRound, frame: &Frame, expected: Option<u16>) -> RelayRound {
        let answer = number(book.hear(frame));
        let wanted = Left { answer, round: book.state(), out: Vec::new(), clean: true };
        let left = calls::count(round, frame);
        self.compare(Call::Count, [&left, &calls::safe_count(round, frame)], &wanted, expected, || {
            let first = &frame.block[..frame.block.len().min(8)];
            format!("sender {} in round {}, {} symbols {first:?}, into {round:?}", frame.sender, frame.said, frame.block.len())
        });
        left.round
    }

    /// The sums, into a buffer of `room` symbols. A refused call must leave the buffer as it was.
    pub fn ask(&mut self, book: &Book, round: &RelayRound, room: usize, expected: Option<u16>) {
        let mut out = calls::marked(room);
        let given = book.give(room);
        if let Ok(sums) = &given {
            out[1..=room].copy_from_slice(sums);
        }
        let wanted = Left { answer: number(given.map(drop)), round: book.state(), out, clean: true };
        let left = [calls::give(round, room), calls::safe_give(round, room)];
        self.compare(Call::Give, [&left[0], &left[1]], &wanted, expected, || format!("{room} sums asked of {round:?}"));
    }

    /// Moving on. Gives back the round that the archive left.
    pub fn move_on(&mut self, book: &mut Book, round: &RelayRound, expected: Option<u16>) -> RelayRound {
        let answer = number(book.move_on());
        let wanted = Left { answer, round: book.state(), out: Vec::new(), clean: true };
        let left = calls::advance(round);
        self.compare(Call::Advance, [&left, &calls::safe_advance(round)], &wanted, expected, || format!("moving on from {round:?}"));
        left.round
    }

    /// All three calls on a round that is handed in: a frame, then the sums, into a buffer as long as the frame's block, then
    /// moving on, and the sums again. `expected` is the number that the frame gets, `of_round` the one that every call gets, where
    /// they are known.
    pub fn attempt(&mut self, round: &RelayRound, frame: &Frame, expected: Option<u16>, of_round: Option<u16>) {
        let mut book = Book::of(round);
        let left = self.hear(&mut book, round, frame, expected);
        self.ask(&book, &left, frame.block.len(), of_round);
        let left = self.move_on(&mut book, &left, of_round);
        self.ask(&book, &left, frame.block.len(), of_round);
    }

    /// The line of one of the calls.
    pub fn line(&self, call: Call) -> String {
        let numbers: String = NUMBERS.iter().map(|&n| format!("{:8}", self.numbers[call as usize][n])).collect();
        format!("{:34}{:8}{numbers}{:8}", self.name, self.tried(call), self.differ)
    }

    pub fn add(&mut self, other: &Kind) {
        for (ours, theirs) in self.numbers.iter_mut().flatten().zip(other.numbers.iter().flatten()) {
            *ours += theirs;
        }
        self.wide += other.wide;
        self.differ += other.differ;
    }
}

fn number(answer: Result<(), u16>) -> u64 {
    answer.map_or_else(u64::from, |()| 0)
}
