//! A second relay, written from documents 01 and 02 alone. It is a book: a list of what was counted, each entry with the number of
//! its round; rolls and sums are added up afresh from the entries of a round whenever they are wanted. Nothing is ever taken from
//! the list, and moving on turns a page. Round numbers are wider than a frame's, so that r + 1 is always a number. It adds whole
//! numbers and then reduces them, and knows a prime by its having no divisor but 1 up to its root.

use crate::states::{Frame, RelayRound};
use kortyghai::Symbol;
use std::collections::HashMap;
use std::sync::Mutex;

/// "After round 4,294,967,295 there is no next."
const LAST: u64 = 4_294_967_295;

/// Who was counted in a round, and what: a frame with its one sender, or a roll that was handed in with its row of sums.
struct Entry {
    round: u64,
    names: Vec<usize>,
    block: Vec<Symbol>,
}

/// A relay whose state was handed in, and what was counted since.
pub struct Book {
    given: RelayRound,
    /// The number by which the state that was handed in is refused, and so every call. Nothing is ever counted then.
    wrong: Result<(), u16>,
    round: u64,
    entries: Vec<Entry>,
}

/// Has q, of all numbers up to its root, the divisor 1 alone? Each q is looked at once, as the same few come often.
fn is_prime(q: Symbol) -> bool {
    static KNOWN: Mutex<Option<HashMap<Symbol, bool>>> = Mutex::new(None);
    let divisors = || (1..=q.isqrt()).filter(|&d| q % d == 0).take(2).count();
    *KNOWN.lock().unwrap().get_or_insert_default().entry(q).or_insert_with(|| q != 1 && divisors() == 1)
}

/// Who has reported. Of a sender, "its bit in the roll is that number less 1".
fn names(reported: u16) -> Vec<usize> {
    let bits = format!("{reported:016b}");
    bits.chars().rev().zip(1..).filter(|(bit, _)| *bit == '1').map(|(_, name)| name).collect()
}

/// The number of the first condition that holds.
fn refused(conditions: &[(u16, bool)]) -> Result<(), u16> {
    conditions.iter().find(|(_, holds)| *holds).map_or(Ok(()), |(number, _)| Err(*number))
}

/// "In the order 1, 2, 9, 8, 3": both rolls are under 8, both rows of sums under 3.
fn of_state(round: &RelayRound) -> Result<(), u16> {
    let users = round.clusters as u128 * round.size as u128;
    let counts = (1..=8).contains(&round.clusters) && (1..=8).contains(&round.size) && users <= 16;
    let senders = [round.reported, round.ahead].map(names).concat().iter().all(|name| (1..=round.size).contains(name));
    let fits = |(i, &x): (usize, &Symbol)| if i < round.length { x < round.q } else { x == 0 };
    let sums = [&round.sums, &round.held].iter().all(|row| row.iter().enumerate().all(fits));
    refused(&[
        (1, !counts),
        (2, !is_prime(round.q)),
        (9, round.length == 0 || round.length > 64),
        (8, !(1..=round.clusters).contains(&round.cluster) || !senders),
        (3, !sums),
    ])
}

impl Book {
    /// A state that is handed in: its two rolls with their sums are the first two entries.
    pub fn of(given: &RelayRound) -> Book {
        let round = given.number as u64;
        let own = Entry { round, names: names(given.reported), block: given.sums.to_vec() };
        let next = Entry { round: round + 1, names: names(given.ahead), block: given.held.to_vec() };
        Book { given: given.clone(), wrong: of_state(given), round, entries: vec![own, next] }
    }

    /// The entries of a round.
    fn page(&self, round: u64) -> impl Iterator<Item = &Entry> {
        self.entries.iter().filter(move |entry| entry.round == round)
    }

    fn on_page(&self, round: u64, name: usize) -> bool {
        self.page(round).any(|entry| entry.names.contains(&name))
    }

    fn is_full(&self) -> bool {
        (1..=self.given.size).all(|name| self.on_page(self.round, name))
    }

    /// The roll and the sums of a round, from its entries alone.
    fn added_up(&self, round: u64) -> (u16, [Symbol; 64]) {
        let roll = self.page(round).flat_map(|entry| &entry.names).map(|name| 2_u16.pow(*name as u32 - 1)).sum();
        let blocks: Vec<&[Symbol]> = self.page(round).map(|entry| &entry.block[..]).collect();
        (roll, total(self.given.q, &blocks))
    }

    /// The state that has to stand now.
    pub fn state(&self) -> RelayRound {
        if self.wrong.is_err() {
            return self.given.clone();
        }
        let ((reported, sums), (ahead, held)) = (self.added_up(self.round), self.added_up(self.round + 1));
        RelayRound { number: self.round as u32, reported, sums, ahead, held, ..self.given.clone() }
    }

    /// "A frame into a round: 8, 14, 4, 3, 11." It may be of this round or of the next.
    pub fn hear(&mut self, frame: &Frame) -> Result<(), u16> {
        self.wrong?;
        let said = frame.said as u64;
        refused(&[
            (8, frame.sender == 0 || frame.sender > self.given.size),
            (14, ![self.round, self.round + 1].contains(&said)),
            (4, frame.block.len() != self.given.length),
            (3, frame.block.iter().any(|&x| x >= self.given.q)),
            (11, self.on_page(said, frame.sender)),
        ])?;
        self.entries.push(Entry { round: said, names: vec![frame.sender], block: frame.block.clone() });
        Ok(())
    }

    /// "Refused with 12 while r is not full"; after the last round "refused with 14, before 12".
    pub fn move_on(&mut self) -> Result<(), u16> {
        self.wrong?;
        refused(&[(14, self.round == LAST), (12, !self.is_full())])?;
        self.round += 1;
        Ok(())
    }

    /// The sums that are given into a buffer with room for so many. "Giving sums: 12, 4."
    pub fn give(&self, room: usize) -> Result<Vec<Symbol>, u16> {
        self.wrong?;
        refused(&[(12, !self.is_full()), (4, room != self.given.length)])?;
        Ok(self.added_up(self.round).1[..room].to_vec())
    }
}

/// Blocks added up, position by position: first whole, then modulo q.
pub fn total(q: Symbol, blocks: &[&[Symbol]]) -> [Symbol; 64] {
    let mut whole = [0_u64; 64];
    for block in blocks {
        block.iter().zip(&mut whole).for_each(|(&x, sum)| *sum += x as u64);
    }
    whole.map(|sum| (sum % q as u64) as Symbol)
}

#[cfg(test)]
mod tests {
    use super::*;

    fn round() -> RelayRound {
        let sums = total(5, &[&[4]]);
        RelayRound { clusters: 2, size: 2, q: 5, length: 1, cluster: 1, number: 9, reported: 1, sums, ahead: 0, held: [0; 64] }
    }

    fn hear(book: &mut Book, sender: usize, said: u32, block: &[Symbol]) -> Result<(), u16> {
        book.hear(&Frame { sender, said, block: block.to_vec() })
    }

    #[test]
    fn the_book_counts_and_refuses() {
        let mut book = Book::of(&round());
        assert_eq!(hear(&mut book, 3, 8, &[]), Err(8));
        assert_eq!([hear(&mut book, 1, 8, &[]), hear(&mut book, 1, 11, &[5])], [Err(14), Err(14)]);
        assert_eq!([hear(&mut book, 1, 9, &[]), hear(&mut book, 1, 9, &[5]), hear(&mut book, 1, 9, &[3])], [Err(4), Err(3), Err(11)]);
        assert_eq!([hear(&mut book, 1, 10, &[3]), hear(&mut book, 1, 10, &[3])], [Ok(()), Err(11)]);
        assert_eq!((book.give(2), book.move_on()), (Err(12), Err(12)));
        assert_eq!(hear(&mut book, 2, 9, &[3]), Ok(()));
        assert_eq!((book.give(2), book.give(1)), (Err(4), Ok(vec![2])));
        assert_eq!(book.move_on(), Ok(()));
        let state = RelayRound { number: 10, sums: total(5, &[&[3]]), ..round() };
        assert_eq!(book.state(), state);
        assert_eq!([hear(&mut book, 2, 9, &[3]), hear(&mut book, 2, 11, &[3])], [Err(14), Ok(())]);
    }

    #[test]
    fn the_book_has_no_page_after_the_last() {
        let mut book = Book::of(&RelayRound { number: u32::MAX - 1, reported: 3, ..round() });
        assert_eq!([hear(&mut book, 2, u32::MAX, &[1]), book.move_on()], [Ok(()), Ok(())]);
        assert_eq!([hear(&mut book, 1, 0, &[1]), book.move_on()], [Err(14), Err(14)]);
        assert_eq!([hear(&mut book, 1, u32::MAX, &[1]), book.move_on()], [Ok(()), Err(14)]);
        assert_eq!(book.give(1), Ok(vec![2]));
    }

    #[test]
    fn the_book_knows_primes() {
        assert!([2, 3, 5, 65_521, 65_537, 4_294_967_291].into_iter().all(is_prime));
        assert!(![0, 1, 4, 9, 65_536, 65_541, 12_327_121, 4_293_001_441, 4_294_967_295].into_iter().any(is_prime));
    }

    #[test]
    fn rolls_are_refused_before_sums() {
        let wrong = |round: RelayRound| Book::of(&round).give(1).unwrap_err();
        let (bad, past) = ([5; 64], {
            let mut row = [0; 64];
            row[1] = 1;
            row
        });
        assert_eq!([wrong(RelayRound { sums: bad, ahead: 4, ..round() }), wrong(RelayRound { held: bad, reported: 4, ..round() })], [8, 8]);
        assert_eq!([wrong(RelayRound { held: bad, ..round() }), wrong(RelayRound { held: past, ..round() })], [3, 3]);
        assert_eq!(wrong(RelayRound { sums: past, cluster: 3, length: 65, ..round() }), 9);
    }
}
