//! The server's round.

use crate::{raw, Plan, Refusal, Symbol, MAX_LENGTH};

/// The server's round: with a bit for each relay that has reported (relay u has bit u − 1) and the sums, of which the first L = `length` count.
///
/// The fields are open, and any numbers can stand in them: every call refuses a round that breaks a bound, before all else, by the first of
/// [`OutOfBounds`](Refusal::OutOfBounds), [`NotPrime`](Refusal::NotPrime), [`BadBlockLength`](Refusal::BadBlockLength),
/// [`UnknownNumber`](Refusal::UnknownNumber) (a bit that is no relay's), [`NotASymbol`](Refusal::NotASymbol) (a sum that is not below q, or one past the
/// first L that is not 0). A server opens a new round where its last is done; it hears no next round, so that a relay keeps its sums until they are counted.
///
/// ```
/// use kortyghai::{Plan, ServerRound};
///
/// let plan = Plan { clusters: 2, size: 2, limit: 1, rate: 3, q: 5 };
/// let mut round = ServerRound::open(&plan, 1, 9)?;
/// round.count(1, 9, &[0])?;
/// round.count(2, 9, &[4])?;
/// let mut total = [0];
/// round.give(&mut total)?;
/// assert_eq!(total, [4]);
/// # Ok::<(), kortyghai::Refusal>(())
/// ```
#[derive(Clone, PartialEq, Eq, Debug)]
pub struct ServerRound {
    /// U, the clusters of the plan, and so its relays.
    pub clusters: u32,
    /// V, the users of a cluster.
    pub size: u32,
    /// The plan's prime.
    pub q: Symbol,
    /// L, the positions of a block.
    pub length: u32,
    /// The round's number.
    pub number: u32,
    /// Which relays have reported.
    pub reported: u16,
    /// The sums.
    pub sums: [Symbol; MAX_LENGTH],
}

impl ServerRound {
    /// U, V, q and L in one run, as the archive is lent them.
    fn counts(&self) -> raw::ServerNumbers {
        [self.clusters, self.size, self.q, self.length]
    }

    /// A round in which no relay has reported, with blocks of `length` positions. Of the plan, U, V and q are looked at.
    ///
    /// # Errors
    ///
    /// The first that holds: [`OutOfBounds`](Refusal::OutOfBounds), [`NotPrime`](Refusal::NotPrime), [`BadBlockLength`](Refusal::BadBlockLength).
    pub fn open(plan: &Plan, length: u32, number: u32) -> Result<ServerRound, Refusal> {
        let &Plan { clusters, size, q, .. } = plan;
        let mut round = ServerRound { clusters, size, q, length, number, reported: 0, sums: [0; MAX_LENGTH] };
        let counts = round.counts();
        Refusal::unpack(unsafe { raw::kortyghai_server_open(&counts, &mut round.reported, &mut round.sums) })?;
        Ok(round)
    }

    /// Counts a relay's sums: its number, from 1 to U, the round number `said` with them, and a block of exactly L symbols.
    ///
    /// # Errors
    ///
    /// The first that holds, after those of the round: [`UnknownNumber`](Refusal::UnknownNumber), [`OtherRound`](Refusal::OtherRound),
    /// [`WrongLength`](Refusal::WrongLength), [`NotASymbol`](Refusal::NotASymbol), [`AlreadyReported`](Refusal::AlreadyReported).
    pub fn count(&mut self, relay: usize, said: u32, block: &[Symbol]) -> Result<(), Refusal> {
        let counts = self.counts();
        Refusal::unpack(unsafe {
            raw::kortyghai_server_count(&counts, self.number, &mut self.reported, &mut self.sums, relay, said, block.as_ptr(), block.len())
        })
    }

    /// The total, into a lent block of exactly L symbols, once every relay has reported: the sum of all readings modulo q.
    /// [`Plan::show_totals`] shows it with its sign.
    ///
    /// # Errors
    ///
    /// The first that holds, after those of the round: [`NotFull`](Refusal::NotFull), [`WrongLength`](Refusal::WrongLength).
    pub fn give(&self, out: &mut [Symbol]) -> Result<(), Refusal> {
        Refusal::unpack(unsafe {
            raw::kortyghai_server_give(&self.counts(), self.number, self.reported, &self.sums, out.as_mut_ptr(), out.len())
        })
    }
}
