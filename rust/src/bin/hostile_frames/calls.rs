//! The archive's three calls on a round, and the same by the safe crate. Every lent place stands between marks.

use crate::states::{Frame, RelayRound};
use kortyghai::{raw, Refusal, Symbol};

/// What stands around the lent places.
const MARK: u16 = 0xABCD;
const MARKS: [u16; 8] = [MARK; 8];

/// What a buffer for sums holds before a call.
const UNWRITTEN: Symbol = 0xABCD_ABCD;

/// What a call answered and left.
#[derive(PartialEq)]
pub struct Left {
    /// The packed answer.
    pub answer: u64,
    pub round: RelayRound,
    /// The buffer that was lent for sums, with a mark before and behind it.
    pub out: Vec<Symbol>,
    /// Whether only the lent places were written.
    pub clean: bool,
}

/// A buffer for so many sums, with a mark before and behind it.
pub fn marked(room: usize) -> Vec<Symbol> {
    vec![UNWRITTEN; room + 2]
}

/// The lent places of a round, and others around them that are not lent. Beside a roll stand nine marks, so that no place is
/// without one.
#[repr(C)]
struct Lent {
    front: [u16; 8],
    number: u32,
    marks: [[u16; 8]; 2],
    reported: u16,
    more: [u16; 9],
    sums: [Symbol; 64],
    between: [u16; 8],
    ahead: u16,
    others: [u16; 9],
    held: [Symbol; 64],
    behind: [u16; 8],
}

/// The places and marks one by one: nothing stands between them.
const _: () = assert!(size_of::<Lent>() == size_of::<(u32, [Symbol; 128])>() + 2 * 2 + 2 * (5 * 8 + 2 * 9));

impl Lent {
    fn of(round: &RelayRound) -> Lent {
        Lent {
            front: MARKS,
            number: round.number,
            marks: [MARKS; 2],
            reported: round.reported,
            more: [MARK; 9],
            sums: round.sums,
            between: MARKS,
            ahead: round.ahead,
            others: [MARK; 9],
            held: round.held,
            behind: MARKS,
        }
    }

    fn left(&self, round: &RelayRound, answer: u64) -> Left {
        let clean = [self.front, self.marks[0], self.marks[1], self.between, self.behind] == [MARKS; 5]
            && [self.more, self.others] == [[MARK; 9]; 2];
        let (number, reported, sums, ahead, held) = (self.number, self.reported, self.sums, self.ahead, self.held);
        Left { answer, round: RelayRound { number, reported, sums, ahead, held, ..round.clone() }, out: Vec::new(), clean }
    }
}

/// A frame.
pub fn count(round: &RelayRound, frame: &Frame) -> Left {
    let mut lent = Lent::of(round);
    let given = frame.block.clone();
    let answer = unsafe {
        raw::kortyghai_relay_count(
            &round.counts(),
            round.number,
            &mut lent.reported,
            &mut lent.sums,
            &mut lent.ahead,
            &mut lent.held,
            frame.sender,
            frame.said,
            given.as_ptr(),
            given.len(),
        )
    };
    let left = lent.left(round, answer);
    Left { clean: left.clean && given == frame.block, ..left }
}

/// Moving on.
pub fn advance(round: &RelayRound) -> Left {
    let mut lent = Lent::of(round);
    let answer = unsafe {
        raw::kortyghai_relay_advance(&round.counts(), &mut lent.number, &mut lent.reported, &mut lent.sums, &mut lent.ahead, &mut lent.held)
    };
    lent.left(round, answer)
}

/// The sums asked for, into a buffer of `room` symbols.
pub fn give(round: &RelayRound, room: usize) -> Left {
    let lent = Lent::of(round);
    let mut out = marked(room);
    let answer = unsafe {
        raw::kortyghai_relay_give(
            &round.counts(),
            lent.number,
            lent.reported,
            &lent.sums,
            lent.ahead,
            &lent.held,
            out[1..].as_mut_ptr(),
            room,
        )
    };
    Left { out, ..lent.left(round, answer) }
}

/// The safe crate's answer as a number.
fn number(answer: Result<(), Refusal>) -> u64 {
    answer.map_or_else(|refusal| refusal.number() as u64, |()| 0)
}

pub fn safe_count(round: &RelayRound, frame: &Frame) -> Left {
    let mut round = round.safe();
    let answer = number(round.count(frame.sender, frame.said, &frame.block));
    Left { answer, round: RelayRound::of(&round), out: Vec::new(), clean: true }
}

pub fn safe_advance(round: &RelayRound) -> Left {
    let mut round = round.safe();
    let answer = number(round.advance());
    Left { answer, round: RelayRound::of(&round), out: Vec::new(), clean: true }
}

pub fn safe_give(round: &RelayRound, room: usize) -> Left {
    let mut out = marked(room);
    let answer = number(round.safe().give(&mut out[1..=room]));
    Left { answer, round: round.clone(), out, clean: true }
}
