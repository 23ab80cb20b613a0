//! What a call refuses.

use core::fmt;

/// Why a call was refused: one variant for each number, in the order of the numbers. A refused call has changed nothing.
///
/// [`number`](Refusal::number) and [`details`](Refusal::details) are what the program `vet` prints and what a caller in C gets.
#[derive(Clone, Copy, PartialEq, Eq, Hash, Debug)]
#[non_exhaustive]
pub enum Refusal {
    /// 1: a count is outside its bounds.
    OutOfBounds,
    /// 2: q is no prime, or below 65,536 in a wide record.
    NotPrime,
    /// 3: a symbol is not below q, or a sum past a round's positions is not 0.
    NotASymbol,
    /// 4: a buffer, table, block or record has the wrong length.
    WrongLength,
    /// 5: the bytes don't end with a trailer whose record, or save, lies in them.
    BadTrailer,
    /// 6: the key table's rows don't sum to zero.
    NotZeroSum {
        /// The first such column, from 1.
        column: u16,
    },
    /// 7: the plan, or the network, leaks.
    Leaks {
        /// The coalition of least number that leaks; the user of index i has bit i. 0 in a network.
        coalition: u16,
        /// The first observer that it leaks to: a relay's number, or 0 for the server.
        observer: u16,
    },
    /// 8: a user, relay or pool number that there isn't, a round that says such a one has reported, a pair of relays that are equal or reversed, or, in a
    /// network, a user and a relay that are not linked.
    UnknownNumber,
    /// 9: the block length is not from 1 to 64.
    BadBlockLength,
    /// 10: the table maker is given a limit that no table can meet, (U − 1) × V or more.
    LimitTooLarge,
    /// 11: this sender has already reported in the frame's round.
    AlreadyReported,
    /// 12: sums or the next round are wanted before everyone has reported, or the largest of a window without a total.
    NotFull,
    /// 13: the key stream has too few symbols left.
    StreamTooShort,
    /// 14: the frame is of another round, or there is no next round.
    OtherRound,
    /// 15: a signed reading is outside the cap.
    OutsideCap,
    /// 16: the cap is 0, or too large for the plan's prime.
    BadCap,
    /// 17: a window's span is not from 1 to 96, or no run of totals leaves such a window.
    BadWindow,
    /// 18: the number of rounds on paper is not from 1 to 10,000, or the run is over.
    BadRounds,
    /// 19: two relays under one lock leak together.
    JointLeaks {
        /// The coalition of least number that leaks to both.
        coalition: u16,
    },
    /// 20: a draw would pass its pool's limit.
    PastLimit,
    /// 21: a reserve above its limit, reserves above the stream, or a stock that no draws on this stream leave.
    BadStock,
    /// 22: of a network, relays of a user outside 1 to K, or symbols of a reading outside 1 to 4.
    BadPattern,
    /// 23: the sums that arrived don't give all totals.
    NotDecodable,
    /// A number that this crate doesn't know: of an archive that is newer than the crate.
    Other {
        /// The number.
        number: u16,
        /// Its first detail.
        first: u16,
        /// Its second detail.
        second: u16,
    },
}

impl Refusal {
    /// A packed answer of the archive: 16 bits each, the number lowest, then the details. The number 0 refuses nothing.
    ///
    /// ```
    /// use kortyghai::Refusal;
    ///
    /// assert_eq!(Refusal::unpack(0), Ok(()));
    /// assert_eq!(Refusal::unpack(0x0002_0003_0007), Err(Refusal::Leaks { coalition: 3, observer: 2 }));
    /// ```
    pub const fn unpack(answer: u64) -> Result<(), Refusal> {
        let (number, first, second) = (answer as u16, (answer >> 16) as u16, (answer >> 32) as u16);
        Err(match (number, first, second) {
            (0, 0, 0) => return Ok(()),
            (1, 0, 0) => Refusal::OutOfBounds,
            (2, 0, 0) => Refusal::NotPrime,
            (3, 0, 0) => Refusal::NotASymbol,
            (4, 0, 0) => Refusal::WrongLength,
            (5, 0, 0) => Refusal::BadTrailer,
            (6, column, 0) => Refusal::NotZeroSum { column },
            (7, coalition, observer) => Refusal::Leaks { coalition, observer },
            (8, 0, 0) => Refusal::UnknownNumber,
            (9, 0, 0) => Refusal::BadBlockLength,
            (10, 0, 0) => Refusal::LimitTooLarge,
            (11, 0, 0) => Refusal::AlreadyReported,
            (12, 0, 0) => Refusal::NotFull,
            (13, 0, 0) => Refusal::StreamTooShort,
            (14, 0, 0) => Refusal::OtherRound,
            (15, 0, 0) => Refusal::OutsideCap,
            (16, 0, 0) => Refusal::BadCap,
            (17, 0, 0) => Refusal::BadWindow,
            (18, 0, 0) => Refusal::BadRounds,
            (19, coalition, 0) => Refusal::JointLeaks { coalition },
            (20, 0, 0) => Refusal::PastLimit,
            (21, 0, 0) => Refusal::BadStock,
            (22, 0, 0) => Refusal::BadPattern,
            (23, 0, 0) => Refusal::NotDecodable,
            (number, first, second) => Refusal::Other { number, first, second },
        })
    }

    /// The number, from 1 to 23.
    pub const fn number(&self) -> u16 {
        match self {
            Refusal::OutOfBounds => 1,
            Refusal::NotPrime => 2,
            Refusal::NotASymbol => 3,
            Refusal::WrongLength => 4,
            Refusal::BadTrailer => 5,
            Refusal::NotZeroSum { .. } => 6,
            Refusal::Leaks { .. } => 7,
            Refusal::UnknownNumber => 8,
            Refusal::BadBlockLength => 9,
            Refusal::LimitTooLarge => 10,
            Refusal::AlreadyReported => 11,
            Refusal::NotFull => 12,
            Refusal::StreamTooShort => 13,
            Refusal::OtherRound => 14,
            Refusal::OutsideCap => 15,
            Refusal::BadCap => 16,
            Refusal::BadWindow => 17,
            Refusal::BadRounds => 18,
            Refusal::JointLeaks { .. } => 19,
            Refusal::PastLimit => 20,
            Refusal::BadStock => 21,
            Refusal::BadPattern => 22,
            Refusal::NotDecodable => 23,
            Refusal::Other { number, .. } => *number,
        }
    }

    /// The two details: column and 0 for 6, coalition and observer for 7, coalition and 0 for 19, else 0 and 0.
    pub const fn details(&self) -> (u16, u16) {
        match *self {
            Refusal::NotZeroSum { column } => (column, 0),
            Refusal::Leaks { coalition, observer } => (coalition, observer),
            Refusal::JointLeaks { coalition } => (coalition, 0),
            Refusal::Other { first, second, .. } => (first, second),
            _ => (0, 0),
        }
    }

    /// What has happened, in words, without the details.
    pub const fn meaning(&self) -> &'static str {
        match self {
            Refusal::OutOfBounds => "a count is outside its bounds",
            Refusal::NotPrime => "q is not a prime number, or is below 65,536 in a wide record",
            Refusal::NotASymbol => "a symbol is not below q",
            Refusal::WrongLength => "a table, block, buffer or record has the wrong length",
            Refusal::BadTrailer => "the bytes don't end with a trailer that leads back to a record or save",
            Refusal::NotZeroSum { .. } => "the key table's rows don't sum to zero",
            Refusal::Leaks { .. } => "the plan leaks",
            Refusal::UnknownNumber => "there is no such user, relay, pool or pair of relays",
            Refusal::BadBlockLength => "the block length is not from 1 to 64",
            Refusal::LimitTooLarge => "no table can meet this coalition limit",
            Refusal::AlreadyReported => "this sender has already reported in the frame's round",
            Refusal::NotFull => "not everyone has reported yet, or a window has no total yet",
            Refusal::StreamTooShort => "the key stream has too few symbols left",
            Refusal::OtherRound => "the frame belongs to another round, or there is no next round",
            Refusal::OutsideCap => "a signed reading is outside the cap",
            Refusal::BadCap => "the cap is 0, or too large for q",
            Refusal::BadWindow => "the window's span is not from 1 to 96, or the window is damaged",
            Refusal::BadRounds => "the number of rounds is not from 1 to 10,000, or the run is over",
            Refusal::JointLeaks { .. } => "two relays under one lock leak",
            Refusal::PastLimit => "the draw would pass the pool's limit",
            Refusal::BadStock => "a reserve is above its limit, the reserves are above the stream, or the stock is damaged",
            Refusal::BadPattern => "the relays of a user are not 1 to K, or the symbols of a reading not 1 to 4",
            Refusal::NotDecodable => "the sums that have arrived don't give all totals",
            Refusal::Other { .. } => "a refusal that this version doesn't know",
        }
    }
}

/// The users of a coalition, by their indices.
struct Members(u16);

impl fmt::Display for Members {
    fn fmt(&self, f: &mut fmt::Formatter) -> fmt::Result {
        if self.0 == 0 {
            return f.write_str("no users");
        }
        f.write_str("the users of index")?;
        for index in (0..16).filter(|index| self.0 >> index & 1 == 1) {
            write!(f, " {index}")?;
        }
        Ok(())
    }
}

/// The number, what has happened, and the details in words.
///
/// ```
/// let leaks = kortyghai::Refusal::Leaks { coalition: 3, observer: 2 };
/// assert_eq!(leaks.to_string(), "7: the plan leaks (coalition 3, the users of index 0 1, to relay 2)");
/// ```
impl fmt::Display for Refusal {
    fn fmt(&self, f: &mut fmt::Formatter) -> fmt::Result {
        write!(f, "{}: {}", self.number(), self.meaning())?;
        match *self {
            Refusal::NotZeroSum { column } => write!(f, " (column {column})"),
            Refusal::Leaks { coalition, observer: 0 } => write!(f, " (coalition {coalition}, {}, to the server)", Members(coalition)),
            Refusal::Leaks { coalition, observer } => write!(f, " (coalition {coalition}, {}, to relay {observer})", Members(coalition)),
            Refusal::JointLeaks { coalition } => write!(f, " (coalition {coalition}, {}, to both)", Members(coalition)),
            Refusal::Other { first, second, .. } => write!(f, " (details {first} and {second})"),
            _ => Ok(()),
        }
    }
}

impl core::error::Error for Refusal {}
