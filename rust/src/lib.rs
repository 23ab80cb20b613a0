//! Kortyghai, the secure-aggregation core of a power pool, for callers in Rust.
//!
//! **Users** (meters) mask their readings with keys from a zero-sum key table, **relays** (gateways) add the masked uploads of their cluster, and
//! the **server** (the desk) adds the relays' sums, and learns the total and nothing else. The work is done by functions in the archive
//! `libkortyghai.a`, each proved to meet its contract for every input; this crate lends them slices and turns their answers into [`Result`]. It adds
//! no rules: what is refused, and in which order, is decided there. **A refused call changes nothing**: buffers, rounds and positions stay as
//! they were. The crate needs neither `std` nor an allocator.
//!
//! | who | types |
//! |---|---|
//! | a planner | [`Counts`], [`Plan`], [`KeyTable`]: make a table, read and write records, vet |
//! | whoever deals keys | [`KeyTable::derive_keys`], [`KeyStream`], [`Stock`] |
//! | a user | [`upload`], [`unmask`], [`Plan::signed_upload`], [`Plan::signed_unmask`] |
//! | a relay | [`RelayRound`]: frames, moving on, sums, saves |
//! | the server | [`ServerRound`], [`Plan::show_totals`], [`Window`] |
//! | users on several relays | [`Network`] |
//! | whoever tries a plan out | [`PaperRun`]: a pool on paper, a line a round |
//!
//! ```
//! use kortyghai::{Counts, Refusal};
//!
//! // two clusters of two users, coalitions of at most one, q 5, made of powers of 2
//! let table = Counts { clusters: 2, size: 2, limit: 1 }.make_table(5, 2)?;
//! assert_eq!(table.vet(), Ok(()));
//! let mut keys = [0; 4];
//! table.derive_keys(1, &[1, 2, 3], &mut keys)?;
//! assert_eq!(keys, [1, 2, 2, 0]);
//!
//! // with coalitions of two the same table leaks: users 1 and 2 (coalition 3) to relay 2
//! let wider = kortyghai::KeyTable::new(kortyghai::Plan { limit: 2, ..*table.plan() }, table.symbols())?;
//! assert_eq!(wider.vet(), Err(Refusal::Leaks { coalition: 3, observer: 2 }));
//! # Ok::<(), Refusal>(())
//! ```
//!
//! # What you have to see to
//!
//! - **Source keys must be drawn evenly, be fresh, and be used once.** Secrecy is proved for source symbols of which each from 0 to q − 1 is as
//!   likely as any other, independently of all others. A source key that is used for two rounds shows the difference of their readings. This crate
//!   draws no random numbers; [`KeyStream`] and [`Stock`] see to it that no symbol of a stream is drawn twice.
//! - **Totals wrap modulo q.** A total is the sum of the readings modulo q, so that it is the sum itself where no sum can reach q. With signed readings
//!   the cap sees to that: [`Plan::signed_upload`] refuses a cap m (16) unless 2 × U × V × m is below q, and a reading outside it (15); the shown total is
//!   then the true sum.
//! - **[`KeyTable::derive_keys`] judges the table as the vet does at each call**, so that no key is ever dealt from a table that leaks. It walks only where
//!   it refuses: of accepted tables with 16 users that takes 0.01 to 0.3 ms for T up to 2 and 1 to 20 ms for a larger T, where the vet itself takes up to
//!   150 ms. Deal many positions in one call.
//!
//! # Time that depends on secrets
//!
//! Proofs say nothing of time. The machine code was looked at (docs/MACHINE-CODE.md): the loops of [`upload`], [`unmask`],
//! [`Plan::signed_upload`], [`Plan::signed_unmask`], [`Plan::show_totals`], [`KeyTable::derive_keys`] and of a frame's sums have no jump and no division that
//! depends on a reading, a key, a source symbol or a sum. The check of signed readings before them leaves at the first that is refused (15), so that a refused
//! call's time tells where that stands. The vet, records, windows and networks jump as their numbers say: call these where nobody can take the time of secrets.
//! (A key table is no secret; a source key is.)

#![no_std]
#![deny(missing_docs)]

#[cfg(test)]
extern crate std;

mod blocks;
mod network;
mod paper;
mod plan;
// open to the programs that compare whole answers
#[doc(hidden)]
pub mod raw;
mod refusal;
mod relay;
mod server;
mod stream;
mod window;

pub use blocks::{unmask, upload};
pub use network::{Network, Ring};
pub use paper::{PaperLine, PaperRun};
pub use plan::{check_prime, vet_record, Counts, KeyTable, Plan, Report};
pub use refusal::Refusal;
pub use relay::RelayRound;
pub use server::ServerRound;
pub use stream::{KeyStream, Stock};
pub use window::Window;

/// A whole number below a plan's prime q, and q itself: from 2 to 4,294,967,291.
pub type Symbol = u32;

/// The most clusters, each with its relay.
pub const MAX_CLUSTERS: usize = 8;

/// The most users of a cluster.
pub const MAX_SIZE: usize = 8;

/// The most users of all clusters together.
pub const MAX_USERS: usize = 16;

/// The most source symbols a position.
pub const MAX_RATE: usize = 16;

/// The largest prime of 32 bits, and so the largest q.
pub const MAX_Q: Symbol = 4_294_967_291;

/// The most positions of a block.
pub const MAX_LENGTH: usize = 64;

/// The most symbols of a key table.
pub const MAX_TABLE: usize = MAX_USERS * MAX_RATE;

/// The most pools of a [`Stock`].
pub const MAX_POOLS: usize = 8;

/// The most totals of a [`Window`].
pub const MAX_SPAN: usize = 96;

/// The most users, and relays, of a [`Network`].
pub const MAX_RING: usize = 8;

/// The most symbols of a reading in a [`Network`].
pub const MAX_PARTS: usize = 4;

/// The most bytes that [`vet_record`] and [`PaperRun::open`] take.
pub const MAX_BYTES: usize = 65_535;

/// The most bytes of a plan's record.
pub const MAX_RECORD: usize = 12 + 4 * MAX_TABLE;

/// The most bytes of a [`PaperLine`].
pub const MAX_LINE: usize = 56;

/// The most bytes of a save.
pub const MAX_SAVE: usize = 20 + 8 * MAX_LENGTH;

#[cfg(test)]
mod tests;
