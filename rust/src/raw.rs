//! The functions of the archive as they are. A slice is its address and its length in elements, an array or a number that a call may change
//! an address alone; the answer is packed as [`Refusal::unpack`](crate::Refusal::unpack) says.
//!
//! Every function takes every number: what is asked of a caller is that an address has as many elements behind it as the length says, and that
//! nothing that a call writes overlaps anything else that is passed to it.

use crate::{Symbol, MAX_LENGTH, MAX_LINE, MAX_POOLS, MAX_SPAN, MAX_TABLE};

/// U, V, T, R and q of a plan.
pub type PlanNumbers = [Symbol; 5];

/// U, V, q, L and the cluster of a relay's round.
pub type RelayNumbers = [Symbol; 5];

/// U, V, q and L of the server's round.
pub type ServerNumbers = [Symbol; 4];

/// K, d, n, R and q of a cyclic network.
pub type RingNumbers = [Symbol; 5];

/// A row of sums.
pub type Sums = [Symbol; MAX_LENGTH];

/// A number for each pool of a stock.
pub type Pools = [usize; MAX_POOLS];

/// The places of a window.
pub type Totals = [i32; MAX_SPAN];

/// The cap, the rounds, the next one's number and the generator's state of a run on paper.
pub type RunNumbers = [u32; 4];

/// The key table of such a run, with 0 past it.
pub type Table = [Symbol; MAX_TABLE];

/// The places of its line.
pub type Places = [u8; MAX_LINE];

// for a planner
#[allow(missing_docs)]
extern "C" {
    pub fn kortyghai_vet(plan: *const PlanNumbers, table: *const Symbol, symbols: usize) -> u64;
    pub fn kortyghai_vet_joint(
        plan: *const PlanNumbers,
        table: *const Symbol,
        symbols: usize,
        first: usize,
        second: usize,
        looked: *mut u32,
    ) -> u64;
    pub fn kortyghai_check_prime(q: Symbol) -> u64;
    pub fn kortyghai_count_pairs(clusters: usize, size: usize, limit: usize, out: *mut u32) -> u64;
    pub fn kortyghai_rate(clusters: usize, size: usize, limit: usize, out: *mut usize) -> u64;
    pub fn kortyghai_make_table(plan: *mut PlanNumbers, generator: Symbol, table: *mut Symbol, symbols: usize) -> u64;
    pub fn kortyghai_vet_record(bytes: *const u8, given: usize) -> u64;
    pub fn kortyghai_read_record(bytes: *const u8, given: usize, plan: *mut PlanNumbers, table: *mut Symbol, symbols: usize) -> u64;
    pub fn kortyghai_write_record(plan: *const PlanNumbers, table: *const Symbol, symbols: usize, out: *mut u8, lent: usize) -> u64;
}

// for whoever deals keys
#[allow(missing_docs)]
extern "C" {
    pub fn kortyghai_derive_keys(
        plan: *const PlanNumbers,
        table: *const Symbol,
        symbols: usize,
        length: usize,
        source: *const Symbol,
        given: usize,
        keys: *mut Symbol,
        lent: usize,
    ) -> u64;
    pub fn kortyghai_draw(stream: *const Symbol, symbols: usize, position: *mut usize, length: usize, out: *mut Symbol, lent: usize)
        -> u64;
    pub fn kortyghai_stock_open(
        pools: usize,
        shares: *const usize,
        sure: usize,
        most: *const usize,
        bounded: usize,
        stream: *const Symbol,
        symbols: usize,
        reserves: *mut Pools,
        limits: *mut Pools,
        drawn: *mut Pools,
    ) -> u64;
    pub fn kortyghai_stock_draw(
        pools: usize,
        reserves: *const Pools,
        limits: *const Pools,
        drawn: *mut Pools,
        stream: *const Symbol,
        symbols: usize,
        pool: usize,
        length: usize,
        out: *mut Symbol,
        lent: usize,
    ) -> u64;
}

// for a user
#[allow(missing_docs)]
extern "C" {
    pub fn kortyghai_upload(
        q: Symbol,
        length: usize,
        readings: *const Symbol,
        read: usize,
        key: *const Symbol,
        given: usize,
        out: *mut Symbol,
        lent: usize,
    ) -> u64;
    pub fn kortyghai_unmask(
        q: Symbol,
        length: usize,
        upload: *const Symbol,
        sent: usize,
        key: *const Symbol,
        given: usize,
        out: *mut Symbol,
        lent: usize,
    ) -> u64;
    pub fn kortyghai_signed_upload(
        plan: *const PlanNumbers,
        cap: u32,
        length: usize,
        readings: *const i32,
        read: usize,
        key: *const Symbol,
        given: usize,
        out: *mut Symbol,
        lent: usize,
    ) -> u64;
    pub fn kortyghai_signed_unmask(
        plan: *const PlanNumbers,
        cap: u32,
        length: usize,
        upload: *const Symbol,
        sent: usize,
        key: *const Symbol,
        given: usize,
        out: *mut i32,
        lent: usize,
    ) -> u64;
}

// for a relay
#[allow(missing_docs)]
extern "C" {
    pub fn kortyghai_relay_open(counts: *const RelayNumbers, reported: *mut u16, sums: *mut Sums, ahead: *mut u16, held: *mut Sums) -> u64;
    pub fn kortyghai_relay_count(
        counts: *const RelayNumbers,
        number: u32,
        reported: *mut u16,
        sums: *mut Sums,
        ahead: *mut u16,
        held: *mut Sums,
        sender: usize,
        said: u32,
        block: *const Symbol,
        symbols: usize,
    ) -> u64;
    pub fn kortyghai_relay_advance(
        counts: *const RelayNumbers,
        number: *mut u32,
        reported: *mut u16,
        sums: *mut Sums,
        ahead: *mut u16,
        held: *mut Sums,
    ) -> u64;
    pub fn kortyghai_relay_give(
        counts: *const RelayNumbers,
        number: u32,
        reported: u16,
        sums: *const Sums,
        ahead: u16,
        held: *const Sums,
        out: *mut Symbol,
        lent: usize,
    ) -> u64;
    pub fn kortyghai_relay_save(
        counts: *const RelayNumbers,
        number: u32,
        reported: u16,
        sums: *const Sums,
        ahead: u16,
        held: *const Sums,
        out: *mut u8,
        lent: usize,
        used: *mut usize,
    ) -> u64;
    pub fn kortyghai_relay_restore(
        saved: *const u8,
        given: usize,
        steps: usize,
        counts: *mut RelayNumbers,
        number: *mut u32,
        reported: *mut u16,
        sums: *mut Sums,
        ahead: *mut u16,
        held: *mut Sums,
    ) -> u64;
}

// for the server
#[allow(missing_docs)]
extern "C" {
    pub fn kortyghai_server_open(counts: *const ServerNumbers, reported: *mut u16, sums: *mut Sums) -> u64;
    pub fn kortyghai_server_count(
        counts: *const ServerNumbers,
        number: u32,
        reported: *mut u16,
        sums: *mut Sums,
        sender: usize,
        said: u32,
        block: *const Symbol,
        symbols: usize,
    ) -> u64;
    pub fn kortyghai_server_give(
        counts: *const ServerNumbers,
        number: u32,
        reported: u16,
        sums: *const Sums,
        out: *mut Symbol,
        lent: usize,
    ) -> u64;
    pub fn kortyghai_show_totals(
        plan: *const PlanNumbers,
        cap: u32,
        length: usize,
        totals: *const Symbol,
        given: usize,
        out: *mut i32,
        lent: usize,
    ) -> u64;
    pub fn kortyghai_window_open(span: usize, held: *mut usize, sum: *mut i64, totals: *mut Totals) -> u64;
    pub fn kortyghai_window_push(span: usize, held: *mut usize, sum: *mut i64, totals: *mut Totals, total: i32) -> u64;
    pub fn kortyghai_window_sum(span: usize, held: usize, sum: i64, totals: *const Totals, out: *mut i64) -> u64;
    pub fn kortyghai_window_largest(span: usize, held: usize, sum: i64, totals: *const Totals, out: *mut i32) -> u64;
}

// for cyclic networks
#[allow(missing_docs)]
extern "C" {
    pub fn kortyghai_network_vet(
        counts: *const RingNumbers,
        table: *const Symbol,
        symbols: usize,
        weights: *const Symbol,
        weighed: usize,
    ) -> u64;
    pub fn kortyghai_network_upload(
        counts: *const RingNumbers,
        weights: *const Symbol,
        weighed: usize,
        user: usize,
        relay: usize,
        reading: *const Symbol,
        read: usize,
        key: Symbol,
        out: *mut Symbol,
    ) -> u64;
    pub fn kortyghai_network_sum(counts: *const RingNumbers, uploads: *const Symbol, given: usize, out: *mut Symbol) -> u64;
    pub fn kortyghai_network_decode(
        counts: *const RingNumbers,
        table: *const Symbol,
        symbols: usize,
        weights: *const Symbol,
        weighed: usize,
        reported: u16,
        sums: *const Symbol,
        arrived: usize,
        out: *mut Symbol,
        lent: usize,
    ) -> u64;
}

// for a pool on paper
#[allow(missing_docs)]
extern "C" {
    pub fn kortyghai_paper_open(bytes: *const u8, given: usize, plan: *mut PlanNumbers, table: *mut Table, run: *mut RunNumbers) -> u64;
    pub fn kortyghai_paper_line(
        plan: *const PlanNumbers,
        table: *const Table,
        run: *mut RunNumbers,
        line: *mut Places,
        length: *mut usize,
    ) -> u64;
}
