//! Cyclic networks: each user on several relays.

use crate::{raw, Refusal, Symbol};

/// The numbers of a cyclic network: K users and K relays, d relays of each user, n symbols of a reading, R source symbols, and a prime. User k speaks to
/// the relays k, k − 1 and so on, d of them, wrapping from 1 to K.
///
/// Any numbers can stand here; a call refuses those that are outside their bounds: K from 2 to 8 and R from 1 to 16 (1), d from 1 to K and n from 1 to 4
/// (22).
#[derive(Clone, Copy, PartialEq, Eq, Hash, Debug)]
pub struct Ring {
    /// K, the users, and the relays.
    pub size: u32,
    /// d, the relays of each user.
    pub links: u32,
    /// n, the symbols of a reading.
    pub parts: u32,
    /// R, the source symbols.
    pub rate: u32,
    /// The prime.
    pub q: Symbol,
}

impl Ring {
    /// K, d, n, R and q in one run, as the archive is lent them.
    fn numbers(&self) -> raw::RingNumbers {
        [self.size, self.links, self.parts, self.rate, self.q]
    }
}

/// A cyclic network: its numbers, a key table of K rows of R symbols, and the coefficients: user by user, and for each of its relays in the order k, k −
/// 1 and so on, n for the reading and one for the key, K × d × (n + 1) symbols together.
///
/// A user's key is its row times the source symbols, which are **drawn evenly, fresh, and used once**. The rows need not sum to zero.
///
/// ```
/// use kortyghai::{Network, Ring};
///
/// // two users on one relay each; the second's key is minus the first's
/// let ring = Ring { size: 2, links: 1, parts: 1, rate: 1, q: 5 };
/// let network = Network { ring, table: &[1, 4], weights: &[1, 1, 1, 1] };
/// network.vet()?;
/// let sums = [network.upload(1, 1, &[3], 2)?, network.upload(2, 2, &[4], 3)?];
/// let mut totals = [0];
/// network.decode(0b11, &sums, &mut totals)?;
/// assert_eq!(totals, [2]);
/// # Ok::<(), kortyghai::Refusal>(())
/// ```
#[derive(Clone, Copy, PartialEq, Eq, Debug)]
pub struct Network<'a> {
    /// The numbers.
    pub ring: Ring,
    /// The key table.
    pub table: &'a [Symbol],
    /// The coefficients.
    pub weights: &'a [Symbol],
}

impl Network<'_> {
    /// The vet: does no relay learn anything of the readings, and the server nothing but the totals? There is no coalition here.
    ///
    /// # Errors
    ///
    /// The first that holds: [`OutOfBounds`](Refusal::OutOfBounds), [`BadPattern`](Refusal::BadPattern), [`WrongLength`](Refusal::WrongLength),
    /// [`NotPrime`](Refusal::NotPrime), [`NotASymbol`](Refusal::NotASymbol), [`Leaks`](Refusal::Leaks) (coalition 0; relays before the server).
    pub fn vet(&self) -> Result<(), Refusal> {
        let (table, weights) = (self.table, self.weights);
        Refusal::unpack(unsafe {
            raw::kortyghai_network_vet(&self.ring.numbers(), table.as_ptr(), table.len(), weights.as_ptr(), weights.len())
        })
    }

    /// What a user, from 1, sends to one of its relays, from 1: the reading's n symbols and the key, each times its coefficient. The table isn't looked
    /// at.
    ///
    /// # Errors
    ///
    /// The first that holds: [`OutOfBounds`](Refusal::OutOfBounds), [`BadPattern`](Refusal::BadPattern), [`WrongLength`](Refusal::WrongLength),
    /// [`NotPrime`](Refusal::NotPrime), [`NotASymbol`](Refusal::NotASymbol), [`UnknownNumber`](Refusal::UnknownNumber) (or the two are not linked).
    pub fn upload(&self, user: usize, relay: usize, reading: &[Symbol], key: Symbol) -> Result<Symbol, Refusal> {
        let mut out = 0;
        Refusal::unpack(unsafe {
            raw::kortyghai_network_upload(
                &self.ring.numbers(),
                self.weights.as_ptr(),
                self.weights.len(),
                user,
                relay,
                reading.as_ptr(),
                reading.len(),
                key,
                &mut out,
            )
        })?;
        Ok(out)
    }

    /// A relay's sum of its d uploads, which are what it sends to the server.
    ///
    /// # Errors
    ///
    /// The first that holds: [`OutOfBounds`](Refusal::OutOfBounds), [`BadPattern`](Refusal::BadPattern), [`WrongLength`](Refusal::WrongLength) (not d
    /// uploads), [`NotPrime`](Refusal::NotPrime), [`NotASymbol`](Refusal::NotASymbol).
    pub fn sum(&self, uploads: &[Symbol]) -> Result<Symbol, Refusal> {
        let mut out = 0;
        Refusal::unpack(unsafe { raw::kortyghai_network_sum(&self.ring.numbers(), uploads.as_ptr(), uploads.len(), &mut out) })?;
        Ok(out)
    }

    /// The n totals, into a lent buffer, from the sums of the relays that arrived: relay j has bit j − 1 in `reported` and the j-th of the K sums. The
    /// sums of the others are not looked at.
    ///
    /// # Errors
    ///
    /// The first that holds: [`OutOfBounds`](Refusal::OutOfBounds), [`BadPattern`](Refusal::BadPattern), [`WrongLength`](Refusal::WrongLength) (also not K
    /// sums, or not n symbols lent), [`NotPrime`](Refusal::NotPrime), [`NotASymbol`](Refusal::NotASymbol), [`UnknownNumber`](Refusal::UnknownNumber) (a bit
    /// that is no relay's), [`NotDecodable`](Refusal::NotDecodable) (these relays don't give all totals).
    pub fn decode(&self, reported: u16, sums: &[Symbol], out: &mut [Symbol]) -> Result<(), Refusal> {
        let (table, weights) = (self.table, self.weights);
        Refusal::unpack(unsafe {
            raw::kortyghai_network_decode(
                &self.ring.numbers(),
                table.as_ptr(),
                table.len(),
                weights.as_ptr(),
                weights.len(),
                reported,
                sums.as_ptr(),
                sums.len(),
                out.as_mut_ptr(),
                out.len(),
            )
        })
    }
}
