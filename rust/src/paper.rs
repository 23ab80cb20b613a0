//! A pool on paper.

use crate::{raw, KeyTable, Plan, Refusal, Symbol, MAX_LINE, MAX_RECORD, MAX_TABLE};
use core::fmt;

/// The bytes before a record: the cap and the number of rounds, four each, low byte first.
const HEAD: usize = 8;

/// Rounds of a plan on paper, with keys and readings from a small generator: to see the numbers before the first user is there. Each round gives a [`PaperLine`].
///
/// The generator starts from state 1; the state becomes state × 1,103,515,245 + 12,345 modulo 2³², and the value drawn is state / 65,536 modulo 32,768. A
/// round draws R source symbols, a value modulo q each; then the users' readings in index order, a value modulo cap + 1 each; then who sends next, a value
/// modulo the number of users still owing, counted from 0 in index order. **Such keys hide nothing.**
///
/// The fields are open, and any numbers can stand in them: [`next_line`](PaperRun::next_line) refuses what is no run.
///
/// ```
/// use kortyghai::{Counts, PaperRun, Refusal};
///
/// let table = Counts { clusters: 2, size: 2, limit: 1 }.make_table(31, 3)?;
/// let mut run = PaperRun::new(&table, 3, 2)?;
/// assert_eq!(run.next_line()?.as_str(), "1 2 24 11 11\n");
/// assert_eq!(run.next_line()?.as_str(), "2 3 6 8 8\n");
/// assert!(run.is_over());
/// assert_eq!(run.next_line(), Err(Refusal::BadRounds));
/// # Ok::<(), Refusal>(())
/// ```
#[derive(Clone, PartialEq, Eq, Debug)]
pub struct PaperRun {
    /// The plan's numbers.
    pub plan: Plan,
    /// Its key table, and 0 past it.
    pub table: [Symbol; MAX_TABLE],
    /// The most that a reading is.
    pub cap: u32,
    /// How many rounds there are, from 1 to 10,000.
    pub rounds: u32,
    /// The next round's number, from 1; one more than `rounds` where the run is over.
    pub number: u32,
    /// The generator's state before that round.
    pub state: u32,
}

impl PaperRun {
    /// A run before its first round, from the bytes that the program `simulate` reads: the cap and the number of rounds, four bytes each, low byte first, and
    /// then a plan record, before which other bytes may stand. The plan is vetted, once.
    ///
    /// # Errors
    ///
    /// The first that holds: [`WrongLength`](Refusal::WrongLength) (more than 65,535 bytes, or under eight), [`BadRounds`](Refusal::BadRounds), those of
    /// [`KeyTable::read_record`], [`BadCap`](Refusal::BadCap), those of [`KeyTable::vet`].
    pub fn open(bytes: &[u8]) -> Result<PaperRun, Refusal> {
        let (mut plan, mut table, mut run) = ([0; 5], [0; MAX_TABLE], [0; 4]);
        Refusal::unpack(unsafe { raw::kortyghai_paper_open(bytes.as_ptr(), bytes.len(), &mut plan, &mut table, &mut run) })?;
        let [cap, rounds, number, state] = run;
        Ok(PaperRun { plan: Plan::of(plan), table, cap, rounds, number, state })
    }

    /// The same from a key table: its record is put behind the cap and the number of rounds.
    ///
    /// # Errors
    ///
    /// The first that holds: [`BadRounds`](Refusal::BadRounds), [`BadCap`](Refusal::BadCap), those of [`KeyTable::vet`].
    pub fn new(table: &KeyTable, cap: u32, rounds: u32) -> Result<PaperRun, Refusal> {
        let mut bytes = [0; HEAD + MAX_RECORD];
        let end = HEAD + table.plan().record_size();
        bytes[..HEAD / 2].copy_from_slice(&cap.to_le_bytes());
        bytes[HEAD / 2..HEAD].copy_from_slice(&rounds.to_le_bytes());
        table.write_record(&mut bytes[HEAD..end])?;
        PaperRun::open(&bytes[..end])
    }

    /// Whether all rounds have been.
    pub fn is_over(&self) -> bool {
        self.number > self.rounds
    }

    /// The next round, and its line. The table is not vetted again.
    ///
    /// # Errors
    ///
    /// The first that holds: [`BadRounds`](Refusal::BadRounds) (the rounds are outside 1 to 10,000, or the number is none of them, as where the run is over),
    /// [`OutOfBounds`](Refusal::OutOfBounds), [`NotPrime`](Refusal::NotPrime), [`NotASymbol`](Refusal::NotASymbol), [`BadCap`](Refusal::BadCap). The last
    /// four are never met in a run that was opened.
    pub fn next_line(&mut self) -> Result<PaperLine, Refusal> {
        let mut run = [self.cap, self.rounds, self.number, self.state];
        let mut line = PaperLine { text: [0; MAX_LINE], length: 0 };
        Refusal::unpack(unsafe {
            raw::kortyghai_paper_line(&self.plan.numbers(), &self.table, &mut run, &mut line.text, &mut line.length)
        })?;
        [self.cap, self.rounds, self.number, self.state] = run;
        Ok(line)
    }
}

/// A round's line of text: the round's number, the index of the user who sends last, relay 1's sum, the sum of the readings alone, and the total that the
/// server shows, with single spaces and a line end.
#[derive(Clone, Copy, PartialEq, Eq, Debug)]
pub struct PaperLine {
    text: [u8; MAX_LINE],
    length: usize,
}

impl PaperLine {
    /// The text with its line end.
    pub fn as_bytes(&self) -> &[u8] {
        &self.text[..self.length]
    }

    /// The same as text.
    pub fn as_str(&self) -> &str {
        core::str::from_utf8(self.as_bytes()).expect("digits, spaces, a sign and a line end")
    }
}

impl fmt::Display for PaperLine {
    fn fmt(&self, f: &mut fmt::Formatter) -> fmt::Result {
        f.write_str(self.as_str())
    }
}
