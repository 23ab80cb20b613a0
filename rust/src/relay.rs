//! A relay's round, the next round's frames, and saves.

use crate::{raw, Plan, Refusal, Symbol, MAX_LENGTH};

/// A relay's round r: of cluster `cluster`, with a bit for each user who has reported (user v of the cluster has bit v − 1) and the sums, of which the
/// first L = `length` count. `ahead` and `held` are the same for the next round r + 1, whose frames may come early.
///
/// The fields are open, so that a relay can keep its round as it likes. Any numbers can stand in them: every call refuses a round that breaks a bound,
/// before all else, and always by the first of [`OutOfBounds`](Refusal::OutOfBounds), [`NotPrime`](Refusal::NotPrime),
/// [`BadBlockLength`](Refusal::BadBlockLength), [`UnknownNumber`](Refusal::UnknownNumber) (the cluster, or a bit that is no user's),
/// [`NotASymbol`](Refusal::NotASymbol) (a sum that is not below q, or one past the first L that is not 0). A round from [`open`](RelayRound::open) that
/// only calls have moved is never refused so.
///
/// ```
/// use kortyghai::{Plan, Refusal, RelayRound};
///
/// let plan = Plan { clusters: 2, size: 2, limit: 1, rate: 3, q: 5 };
/// // the relay of cluster 1 in round 9, with blocks of one symbol
/// let mut round = RelayRound::open(&plan, 1, 1, 9)?;
/// round.count(1, 9, &[4])?;
/// // user 1 is fast, and user 2 still owes round 9
/// round.count(1, 10, &[3])?;
/// assert_eq!(round.advance(), Err(Refusal::NotFull));
/// round.count(2, 9, &[2])?;
/// let mut sums = [0];
/// round.give(&mut sums)?;
/// assert_eq!(sums, [1]);
///
/// // on to round 10, with the frame that came early
/// round.advance()?;
/// assert_eq!((round.number, round.reported, round.sums[0]), (10, 1, 3));
/// # Ok::<(), Refusal>(())
/// ```
#[derive(Clone, PartialEq, Eq, Debug)]
pub struct RelayRound {
    /// U, the clusters of the plan.
    pub clusters: u32,
    /// V, the users of a cluster.
    pub size: u32,
    /// The plan's prime.
    pub q: Symbol,
    /// L, the positions of a block.
    pub length: u32,
    /// The relay's own cluster, from 1.
    pub cluster: u32,
    /// r, the round's number.
    pub number: u32,
    /// Who has reported in round r.
    pub reported: u16,
    /// The sums of round r.
    pub sums: [Symbol; MAX_LENGTH],
    /// Who has reported in round r + 1.
    pub ahead: u16,
    /// The sums of round r + 1.
    pub held: [Symbol; MAX_LENGTH],
}

impl RelayRound {
    /// U, V, q, L and the cluster in one run, as the archive is lent them.
    fn counts(&self) -> raw::RelayNumbers {
        [self.clusters, self.size, self.q, self.length, self.cluster]
    }

    /// A round in which nobody has reported: of the relay `cluster`, from 1, with blocks of `length` positions. Of the plan, U, V and q are looked at.
    ///
    /// A round that a user stays away from has no sums, since only all keys together sum to zero: to give it up, open the next, for which users send again
    /// what was held.
    ///
    /// # Errors
    ///
    /// The first that holds: [`OutOfBounds`](Refusal::OutOfBounds), [`NotPrime`](Refusal::NotPrime), [`BadBlockLength`](Refusal::BadBlockLength),
    /// [`UnknownNumber`](Refusal::UnknownNumber).
    pub fn open(plan: &Plan, length: u32, cluster: u32, number: u32) -> Result<RelayRound, Refusal> {
        let &Plan { clusters, size, q, .. } = plan;
        let (sums, held) = ([0; MAX_LENGTH], [0; MAX_LENGTH]);
        let mut round = RelayRound { clusters, size, q, length, cluster, number, reported: 0, sums, ahead: 0, held };
        let counts = round.counts();
        Refusal::unpack(unsafe {
            raw::kortyghai_relay_open(&counts, &mut round.reported, &mut round.sums, &mut round.ahead, &mut round.held)
        })?;
        Ok(round)
    }

    /// Counts a frame: its sender, from 1 to V, the round number `said` in it, r or r + 1, and a block of exactly L symbols, which are added to the
    /// sums, or to the held ones. After round 4,294,967,295 there is no next.
    ///
    /// A frame that is late ([`OtherRound`](Refusal::OtherRound), `said` is below r) need not be sent again where the relay has come to r by
    /// [`advance`](RelayRound::advance): it moves on only after every user has reported.
    ///
    /// # Errors
    ///
    /// The first that holds, after those of the round: [`UnknownNumber`](Refusal::UnknownNumber), [`OtherRound`](Refusal::OtherRound),
    /// [`WrongLength`](Refusal::WrongLength), [`NotASymbol`](Refusal::NotASymbol), [`AlreadyReported`](Refusal::AlreadyReported).
    pub fn count(&mut self, sender: usize, said: u32, block: &[Symbol]) -> Result<(), Refusal> {
        let counts = self.counts();
        Refusal::unpack(unsafe {
            raw::kortyghai_relay_count(
                &counts,
                self.number,
                &mut self.reported,
                &mut self.sums,
                &mut self.ahead,
                &mut self.held,
                sender,
                said,
                block.as_ptr(),
                block.len(),
            )
        })
    }

    /// Moves on to round r + 1, once every user of the cluster has reported: what is held becomes the round's own, and nothing is held further. Ask for
    /// the sums before; they are gone afterwards. Keep them until the server has counted them: it hears no round but its own, and refuses those of a relay
    /// that is ahead.
    ///
    /// # Errors
    ///
    /// The first that holds, after those of the round: [`OtherRound`](Refusal::OtherRound) (there is no next), [`NotFull`](Refusal::NotFull).
    pub fn advance(&mut self) -> Result<(), Refusal> {
        let counts = self.counts();
        Refusal::unpack(unsafe {
            raw::kortyghai_relay_advance(&counts, &mut self.number, &mut self.reported, &mut self.sums, &mut self.ahead, &mut self.held)
        })
    }

    /// The sums of round r, into a lent block of exactly L symbols, once every user of the cluster has reported. They are what the relay sends to the
    /// server.
    ///
    /// # Errors
    ///
    /// The first that holds, after those of the round: [`NotFull`](Refusal::NotFull), [`WrongLength`](Refusal::WrongLength).
    pub fn give(&self, out: &mut [Symbol]) -> Result<(), Refusal> {
        Refusal::unpack(unsafe {
            raw::kortyghai_relay_give(
                &self.counts(),
                self.number,
                self.reported,
                &self.sums,
                self.ahead,
                &self.held,
                out.as_mut_ptr(),
                out.len(),
            )
        })
    }

    /// The bytes of a save: 20 + 8 × L.
    pub fn save_size(&self) -> usize {
        20 + 8 * self.length as usize
    }

    /// Saves the round in a buffer, right after its first `used` bytes, and moves `used` past the save. What stands elsewhere in the buffer stays.
    ///
    /// A save has U, V, the cluster and L in one byte each, q and the round's number in four, both rolls in two, L sums and L held ones in four each, the
    /// distance back to its first byte in two, and the marks 4B 52; low bytes come first.
    ///
    /// # Errors
    ///
    /// The first that holds, after those of the round: [`WrongLength`](Refusal::WrongLength) (fewer than [`save_size`](RelayRound::save_size) bytes are
    /// free).
    pub fn save(&self, out: &mut [u8], used: &mut usize) -> Result<(), Refusal> {
        Refusal::unpack(unsafe {
            raw::kortyghai_relay_save(
                &self.counts(),
                self.number,
                self.reported,
                &self.sums,
                self.ahead,
                &self.held,
                out.as_mut_ptr(),
                out.len(),
                used,
            )
        })
    }

    /// The round of a save: the one that lies `steps` back from the end of the bytes, 0 for the last. Hand over the used bytes alone.
    ///
    /// A relay that restores a round and then counts again, in the same order, every frame since the save, and moves on as often, ends in the
    /// state of one that never stopped. Users send again what they sent, the same symbols under the same key. A round that was full is full again: its
    /// sums are given a second time, and the server refuses them.
    ///
    /// A save that was broken off has no marks at its end, and is refused whatever the steps: hand over the bytes up to the end of the save before it. There
    /// is no checksum: bytes that were damaged but break no bound come back as they are. U, V, q, L and the cluster are the save's own: compare them with the
    /// plan in use.
    ///
    /// # Errors
    ///
    /// The first that holds: [`BadTrailer`](Refusal::BadTrailer) (of this save or one on the way: a step beyond the first save, wrong marks, a distance
    /// under 20 or beyond the bytes), [`OutOfBounds`](Refusal::OutOfBounds), [`BadBlockLength`](Refusal::BadBlockLength),
    /// [`WrongLength`](Refusal::WrongLength) (the distance is not that of L), [`NotPrime`](Refusal::NotPrime),
    /// [`UnknownNumber`](Refusal::UnknownNumber), [`NotASymbol`](Refusal::NotASymbol).
    pub fn restore(saved: &[u8], steps: usize) -> Result<RelayRound, Refusal> {
        let (mut counts, mut number, mut reported, mut ahead) = ([0; 5], 0, 0, 0);
        let (mut sums, mut held) = ([0; MAX_LENGTH], [0; MAX_LENGTH]);
        Refusal::unpack(unsafe {
            raw::kortyghai_relay_restore(
                saved.as_ptr(),
                saved.len(),
                steps,
                &mut counts,
                &mut number,
                &mut reported,
                &mut sums,
                &mut ahead,
                &mut held,
            )
        })?;
        let [clusters, size, q, length, cluster] = counts;
        Ok(RelayRound { clusters, size, q, length, cluster, number, reported, sums, ahead, held })
    }
}
