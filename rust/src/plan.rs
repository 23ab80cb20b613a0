//! Plans, key tables and their records, the vet, the table maker, and keys.

use crate::{raw, Refusal, Symbol, MAX_RECORD, MAX_TABLE};

/// Whether `q` may be a plan's prime.
///
/// # Errors
///
/// [`NotPrime`](Refusal::NotPrime).
pub fn check_prime(q: Symbol) -> Result<(), Refusal> {
    Refusal::unpack(unsafe { raw::kortyghai_check_prime(q) })
}

/// U clusters of V users and coalitions of at most T: what is known of a pool before it has a table.
///
/// Any numbers can stand here; a call refuses those that are outside their bounds: U and V from 1 to 8, U × V at most 16, T from 0 to U × V.
#[derive(Clone, Copy, PartialEq, Eq, Hash, Debug)]
pub struct Counts {
    /// U, the clusters, each with its relay.
    pub clusters: u32,
    /// V, the users of a cluster.
    pub size: u32,
    /// T, the most users of a coalition.
    pub limit: u32,
}

impl Counts {
    /// How many pairs of coalition and observer the vet looks at before it accepts: (U + 1) times the number of sets of at most T out of U × V users.
    ///
    /// # Errors
    ///
    /// [`OutOfBounds`](Refusal::OutOfBounds).
    pub fn pairs(&self) -> Result<u32, Refusal> {
        let mut out = 0;
        Refusal::unpack(unsafe { raw::kortyghai_count_pairs(self.clusters as usize, self.size as usize, self.limit as usize, &mut out) })?;
        Ok(out)
    }

    /// The rate that the table maker will need: R = max(V + T, min(U + T − 1, U × V − 1)).
    ///
    /// # Errors
    ///
    /// The first that holds: [`OutOfBounds`](Refusal::OutOfBounds), [`LimitTooLarge`](Refusal::LimitTooLarge).
    pub fn rate(&self) -> Result<usize, Refusal> {
        let mut out = 0;
        Refusal::unpack(unsafe { raw::kortyghai_rate(self.clusters as usize, self.size as usize, self.limit as usize, &mut out) })?;
        Ok(out)
    }

    /// The table maker: a plan and its key table, made of powers of the symbol `generator` (γ) modulo the prime `q`, and vetted.
    ///
    /// A generator whose powers repeat too soon gives a table that leaks, and is refused; try another, or a larger q.
    ///
    /// # Errors
    ///
    /// The first that holds: [`OutOfBounds`](Refusal::OutOfBounds), [`NotPrime`](Refusal::NotPrime), [`NotASymbol`](Refusal::NotASymbol) (`generator`
    /// is not below q), [`LimitTooLarge`](Refusal::LimitTooLarge) (T is not below (U − 1) × V), [`Leaks`](Refusal::Leaks).
    pub fn make_table(&self, q: Symbol, generator: Symbol) -> Result<KeyTable, Refusal> {
        let mut numbers = [self.clusters, self.size, self.limit, 0, q];
        let mut table = [0; MAX_TABLE];
        // where the rate is refused the maker refuses too, by its own order, before the table's length counts
        let symbols = self.rate().map_or(0, |rate| (self.clusters as usize * self.size as usize * rate).min(MAX_TABLE));
        Refusal::unpack(unsafe { raw::kortyghai_make_table(&mut numbers, generator, table.as_mut_ptr(), symbols) })?;
        Ok(KeyTable { plan: Plan::of(numbers), table })
    }
}

/// The numbers of a plan: [`Counts`], the rate and the prime. A [`KeyTable`] has one beside its symbols.
///
/// Any numbers can stand here; a call refuses those that are outside their bounds: U and V from 1 to 8, U × V at most 16, T from 0 to U × V, R from 1
/// to 16, q a prime from 2 to 4,294,967,291.
#[derive(Clone, Copy, PartialEq, Eq, Hash, Debug)]
pub struct Plan {
    /// U, the clusters, each with its relay.
    pub clusters: u32,
    /// V, the users of a cluster.
    pub size: u32,
    /// T, the most users of a coalition.
    pub limit: u32,
    /// R, source symbols a position.
    pub rate: u32,
    /// The prime.
    pub q: Symbol,
}

impl Plan {
    /// U, V, T, R and q in one run, as the archive is lent them.
    pub(crate) fn numbers(&self) -> raw::PlanNumbers {
        [self.clusters, self.size, self.limit, self.rate, self.q]
    }

    pub(crate) fn of([clusters, size, limit, rate, q]: raw::PlanNumbers) -> Plan {
        Plan { clusters, size, limit, rate, q }
    }

    /// U, V and T.
    pub fn counts(&self) -> Counts {
        Counts { clusters: self.clusters, size: self.size, limit: self.limit }
    }

    /// U × V, the users of all clusters.
    pub fn users(&self) -> usize {
        (self.clusters as usize).saturating_mul(self.size as usize)
    }

    /// U × V × R, the symbols of the key table.
    pub fn symbols(&self) -> usize {
        self.users().saturating_mul(self.rate as usize)
    }

    /// The bytes of the plan's record: 10 + 2 × U × V × R, or 12 + 4 × U × V × R where q is 65,536 or more.
    pub fn record_size(&self) -> usize {
        let width = if self.q < 65_536 { 2 } else { 4 };
        self.symbols().saturating_mul(width).saturating_add(8 + width)
    }
}

/// What a vet found, and how many pairs of coalition and observer it looked at.
#[derive(Clone, Copy, PartialEq, Eq, Hash, Debug)]
pub struct Report {
    /// The vet's verdict.
    pub verdict: Result<(), Refusal>,
    /// All pairs where it accepts, the place of the first that leaks, from 1, where it says 7, and else 0 (where it says 19 too). The coalitions that are
    /// tried with two relays under one lock are not among them.
    pub looked: u32,
}

/// A plan with its key table: a row of R symbols for each user, cluster by cluster. User v of cluster u, both from 1, has index (u − 1) × V + v − 1.
///
/// The plan is inside its bounds, q is a prime and the symbols are below it; [`vet`](KeyTable::vet) says whether the table is good.
#[derive(Clone, Copy)]
pub struct KeyTable {
    plan: Plan,
    table: [Symbol; MAX_TABLE],
}

impl KeyTable {
    /// A key table of given symbols, not vetted.
    ///
    /// # Errors
    ///
    /// The first that holds: [`OutOfBounds`](Refusal::OutOfBounds), [`WrongLength`](Refusal::WrongLength) (not exactly U × V × R symbols),
    /// [`NotPrime`](Refusal::NotPrime), [`NotASymbol`](Refusal::NotASymbol).
    pub fn new(plan: Plan, symbols: &[Symbol]) -> Result<KeyTable, Refusal> {
        // whoever writes a record of it refuses just this
        let mut record = [0; MAX_RECORD];
        let lent = plan.record_size().min(MAX_RECORD);
        write(&plan, symbols, &mut record[..lent])?;
        let mut table = [0; MAX_TABLE];
        table[..symbols.len()].copy_from_slice(symbols);
        Ok(KeyTable { plan, table })
    }

    /// The plan's numbers.
    pub fn plan(&self) -> &Plan {
        &self.plan
    }

    /// The table's U × V × R symbols, row after row.
    pub fn symbols(&self) -> &[Symbol] {
        &self.table[..self.plan.symbols()]
    }

    /// The row of a user, by its index.
    ///
    /// # Panics
    ///
    /// Where the plan has no user of that index.
    pub fn row(&self, index: usize) -> &[Symbol] {
        let rate = self.plan.rate as usize;
        &self.symbols()[index * rate..(index + 1) * rate]
    }

    /// The plan and the key table of the record at the end of the bytes, not vetted. What stands before the record doesn't matter.
    ///
    /// A record has U, V, T and R in one byte each, then q, the symbols of the key table, the distance D back to its first byte in two bytes, and two
    /// marks; low bytes come first. An old record, of q below 65,536, has two bytes for q and for each symbol, D = 10 + 2 × U × V × R and the marks 4B
    /// 50; a wide one, of q from 65,536 on, four bytes, D = 12 + 4 × U × V × R and 4B 51.
    ///
    /// # Errors
    ///
    /// The first that holds: [`BadTrailer`](Refusal::BadTrailer) (under four bytes, neither kind's marks, D under 10 of an old record or under 12 of a
    /// wide one, or beyond the bytes), [`OutOfBounds`](Refusal::OutOfBounds), [`WrongLength`](Refusal::WrongLength) (D is not that of the record's
    /// plan), [`NotPrime`](Refusal::NotPrime) (or below 65,536 in a wide record), [`NotASymbol`](Refusal::NotASymbol).
    pub fn read_record(bytes: &[u8]) -> Result<KeyTable, Refusal> {
        let (mut numbers, mut table) = ([0; 5], [0; MAX_TABLE]);
        Refusal::unpack(unsafe { raw::kortyghai_read_record(bytes.as_ptr(), bytes.len(), &mut numbers, table.as_mut_ptr(), table.len()) })?;
        Ok(KeyTable { plan: Plan::of(numbers), table })
    }

    /// The table's record, into lent bytes of exactly [`Plan::record_size`]. Each table has one record, and reading it gives the table back.
    ///
    /// # Errors
    ///
    /// [`WrongLength`](Refusal::WrongLength).
    pub fn write_record(&self, out: &mut [u8]) -> Result<(), Refusal> {
        write(&self.plan, self.symbols(), out)
    }

    /// The vet: do the rows sum to zero, and does the table hide from each relay and from the server, with every coalition of at most T users, all that
    /// it has to hide? It is proved to refuse with 7 exactly where some coalition and observer can learn more than they may, and to name the first.
    /// Together with a coalition, a relay may learn nothing of the readings of all other users, and the server nothing but their total.
    ///
    /// [`Counts::pairs`] says how long it lasts.
    ///
    /// # Errors
    ///
    /// The first that holds: [`NotZeroSum`](Refusal::NotZeroSum), [`Leaks`](Refusal::Leaks).
    pub fn vet(&self) -> Result<(), Refusal> {
        let symbols = self.symbols();
        Refusal::unpack(unsafe { raw::kortyghai_vet(&self.plan.numbers(), symbols.as_ptr(), symbols.len()) })
    }

    /// The vet with a report, and with two relays under one lock, if there are such: whoever opens it sees the uploads of both clusters. The lower number
    /// comes first. With two clusters every pair leaks.
    ///
    /// [`Counts::make_table`] takes the rate that single relays need. Its tables withstood a pair just where R is at least 2 × V + T: so it was seen, and
    /// is not proved, at q 65,521 for every U, V and T that it takes, with one to four generators each. So after 19 a table with more columns is wanted, and
    /// not another generator.
    ///
    /// The verdict's refusal is the first that holds: [`UnknownNumber`](Refusal::UnknownNumber) (the pair is equal, reversed or outside the plan),
    /// [`NotZeroSum`](Refusal::NotZeroSum), [`Leaks`](Refusal::Leaks), [`JointLeaks`](Refusal::JointLeaks).
    pub fn vet_joint(&self, relays: Option<(usize, usize)>) -> Report {
        // two zeros stand for no pair there; here they are a pair that is equal, as two ones are
        let (first, second) = match relays {
            None => (0, 0),
            Some((0, 0)) => (1, 1),
            Some(pair) => pair,
        };
        let (symbols, mut looked) = (self.symbols(), 0);
        let answer = unsafe { raw::kortyghai_vet_joint(&self.plan.numbers(), symbols.as_ptr(), symbols.len(), first, second, &mut looked) };
        Report { verdict: Refusal::unpack(answer), looked }
    }

    /// Each user's keys for `length` positions, into a lent buffer of exactly U × V × L symbols: user by user in index order, L symbols each.
    ///
    /// `source` is the source key, exactly R × L symbols, position by position: **drawn evenly, fresh, and used once**. The key of a user in a position
    /// is the sum of its row times the position's source symbols, modulo q. **The table is judged at each call** (the crate's page says what that
    /// costs). A copy of the source key stays behind in stack memory below the caller's, and nothing clears it.
    ///
    /// # Errors
    ///
    /// The first that holds: the vet's [`NotZeroSum`](Refusal::NotZeroSum), [`Leaks`](Refusal::Leaks); then [`BadBlockLength`](Refusal::BadBlockLength),
    /// [`WrongLength`](Refusal::WrongLength) (`source` or `keys`), [`NotASymbol`](Refusal::NotASymbol) (in `source`).
    pub fn derive_keys(&self, length: usize, source: &[Symbol], keys: &mut [Symbol]) -> Result<(), Refusal> {
        let symbols = self.symbols();
        Refusal::unpack(unsafe {
            raw::kortyghai_derive_keys(
                &self.plan.numbers(),
                symbols.as_ptr(),
                symbols.len(),
                length,
                source.as_ptr(),
                source.len(),
                keys.as_mut_ptr(),
                keys.len(),
            )
        })
    }
}

impl PartialEq for KeyTable {
    fn eq(&self, other: &KeyTable) -> bool {
        self.plan == other.plan && self.symbols() == other.symbols()
    }
}

impl Eq for KeyTable {}

impl core::fmt::Debug for KeyTable {
    fn fmt(&self, f: &mut core::fmt::Formatter) -> core::fmt::Result {
        f.debug_struct("KeyTable").field("plan", &self.plan).field("symbols", &self.symbols()).finish()
    }
}

fn write(plan: &Plan, symbols: &[Symbol], out: &mut [u8]) -> Result<(), Refusal> {
    Refusal::unpack(unsafe { raw::kortyghai_write_record(&plan.numbers(), symbols.as_ptr(), symbols.len(), out.as_mut_ptr(), out.len()) })
}

/// What the program `vet` says of the record at the end of the bytes, old or wide: [`KeyTable::read_record`], then [`KeyTable::vet`].
///
/// # Errors
///
/// The first that holds: [`WrongLength`](Refusal::WrongLength) (more than 65,535 bytes), then the reader's, then the vet's.
pub fn vet_record(bytes: &[u8]) -> Result<(), Refusal> {
    Refusal::unpack(unsafe { raw::kortyghai_vet_record(bytes.as_ptr(), bytes.len()) })
}
