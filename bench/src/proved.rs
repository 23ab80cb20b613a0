//! The proved functions, as a caller outside the language sees them: a slice is its address and its length, an array its address alone.

use crate::networks::Network;
use crate::rounds::Relay;
use crate::windows::{Window, PLACES};
use crate::{Code, Plan, Symbol};

extern "C" {
    fn kortyghai_check_prime(q: Symbol) -> u64;
    fn kortyghai_vet(plan: *const [Symbol; 5], table: *const Symbol, symbols: usize) -> u64;
    fn kortyghai_make_table(plan: *mut [Symbol; 5], generator: Symbol, table: *mut Symbol, symbols: usize) -> u64;
    fn kortyghai_derive_keys(
        plan: *const [Symbol; 5],
        table: *const Symbol,
        symbols: usize,
        length: usize,
        source: *const Symbol,
        given: usize,
        keys: *mut Symbol,
        lent: usize,
    ) -> u64;
    fn kortyghai_upload(q: Symbol, length: usize, a: *const Symbol, n: usize, key: *const Symbol, m: usize, out: *mut Symbol, lent: usize) -> u64;
    fn kortyghai_unmask(q: Symbol, length: usize, a: *const Symbol, n: usize, key: *const Symbol, m: usize, out: *mut Symbol, lent: usize) -> u64;
    fn kortyghai_relay_count(
        counts: *const [Symbol; 5],
        number: u32,
        reported: *mut u16,
        sums: *mut [Symbol; 64],
        ahead: *mut u16,
        held: *mut [Symbol; 64],
        sender: usize,
        said: u32,
        block: *const Symbol,
        symbols: usize,
    ) -> u64;
    fn kortyghai_relay_advance(
        counts: *const [Symbol; 5],
        number: *mut u32,
        reported: *mut u16,
        sums: *mut [Symbol; 64],
        ahead: *mut u16,
        held: *mut [Symbol; 64],
    ) -> u64;
    fn kortyghai_window_open(span: usize, held: *mut usize, sum: *mut i64, totals: *mut [i32; PLACES]) -> u64;
    fn kortyghai_window_push(span: usize, held: *mut usize, sum: *mut i64, totals: *mut [i32; PLACES], total: i32) -> u64;
    fn kortyghai_window_sum(span: usize, held: usize, sum: i64, totals: *const [i32; PLACES], out: *mut i64) -> u64;
    fn kortyghai_window_largest(span: usize, held: usize, sum: i64, totals: *const [i32; PLACES], out: *mut i32) -> u64;
    fn kortyghai_network_vet(counts: *const [Symbol; 5], table: *const Symbol, symbols: usize, weights: *const Symbol, given: usize) -> u64;
    fn kortyghai_network_upload(
        counts: *const [Symbol; 5],
        weights: *const Symbol,
        given: usize,
        user: usize,
        relay: usize,
        reading: *const Symbol,
        symbols: usize,
        key: Symbol,
        out: *mut Symbol,
    ) -> u64;
    fn kortyghai_network_sum(counts: *const [Symbol; 5], uploads: *const Symbol, symbols: usize, out: *mut Symbol) -> u64;
    fn kortyghai_network_decode(
        counts: *const [Symbol; 5],
        table: *const Symbol,
        symbols: usize,
        weights: *const Symbol,
        given: usize,
        reported: u16,
        sums: *const Symbol,
        heard: usize,
        out: *mut Symbol,
        lent: usize,
    ) -> u64;
}

fn unpack(packed: u64) -> Code {
    Code(packed as u16, (packed >> 16) as u16, (packed >> 32) as u16)
}

/// Numbers as they are lent. One that is too large for that is outside its bounds, and so is what stands for it.
fn run(numbers: [usize; 5]) -> [Symbol; 5] {
    numbers.map(|n| Symbol::try_from(n).unwrap_or(Symbol::MAX))
}

fn plan_run(plan: &Plan) -> [Symbol; 5] {
    run([plan.clusters, plan.size, plan.limit, plan.rate, plan.q as usize])
}

fn relay_run(r: &Relay) -> [Symbol; 5] {
    run([r.clusters, r.size, r.q as usize, r.length, r.cluster])
}

pub fn check_prime(q: Symbol) -> Code {
    unpack(unsafe { kortyghai_check_prime(q) })
}

pub fn vet(plan: &Plan) -> Code {
    unpack(unsafe { kortyghai_vet(&plan_run(plan), plan.table.as_ptr(), plan.table.len()) })
}

pub fn make(clusters: usize, size: usize, limit: usize, q: Symbol, generator: Symbol, table: &mut [Symbol]) -> Code {
    let mut plan = run([clusters, size, limit, 0, q as usize]);
    unpack(unsafe { kortyghai_make_table(&mut plan, generator, table.as_mut_ptr(), table.len()) })
}

pub fn derive(plan: &Plan, length: usize, source: &[Symbol], keys: &mut [Symbol]) -> Code {
    unpack(unsafe {
        kortyghai_derive_keys(
            &plan_run(plan),
            plan.table.as_ptr(),
            plan.table.len(),
            length,
            source.as_ptr(),
            source.len(),
            keys.as_mut_ptr(),
            keys.len(),
        )
    })
}

/// Derivation as far as the plan is accepted: the length 0 is refused right after that.
pub fn ask(plan: &Plan) -> Code {
    match derive(plan, 0, &[], &mut []) {
        Code(9, 0, 0) => Code(0, 0, 0),
        refused => refused,
    }
}

pub fn upload(q: Symbol, length: usize, a: &[Symbol], key: &[Symbol], out: &mut [Symbol]) -> Code {
    unpack(unsafe { kortyghai_upload(q, length, a.as_ptr(), a.len(), key.as_ptr(), key.len(), out.as_mut_ptr(), out.len()) })
}

pub fn unmask(q: Symbol, length: usize, a: &[Symbol], key: &[Symbol], out: &mut [Symbol]) -> Code {
    unpack(unsafe { kortyghai_unmask(q, length, a.as_ptr(), a.len(), key.as_ptr(), key.len(), out.as_mut_ptr(), out.len()) })
}

pub fn count(r: &mut Relay, sender: usize, said: u32, block: &[Symbol]) -> Code {
    unpack(unsafe {
        kortyghai_relay_count(
            &relay_run(r),
            r.number,
            &mut r.reported,
            &mut r.sums,
            &mut r.ahead,
            &mut r.held,
            sender,
            said,
            block.as_ptr(),
            block.len(),
        )
    })
}

pub fn advance(r: &mut Relay) -> Code {
    unpack(unsafe {
        kortyghai_relay_advance(
            &relay_run(r),
            &mut r.number,
            &mut r.reported,
            &mut r.sums,
            &mut r.ahead,
            &mut r.held,
        )
    })
}

pub fn window_open(w: &mut Window) -> Code {
    unpack(unsafe { kortyghai_window_open(w.span, &mut w.held, &mut w.sum, &mut w.totals) })
}

pub fn window_push(w: &mut Window, total: i32) -> Code {
    unpack(unsafe { kortyghai_window_push(w.span, &mut w.held, &mut w.sum, &mut w.totals, total) })
}

pub fn window_sum(w: &Window, out: &mut i64) -> Code {
    unpack(unsafe { kortyghai_window_sum(w.span, w.held, w.sum, &w.totals, out) })
}

pub fn window_largest(w: &Window, out: &mut i32) -> Code {
    unpack(unsafe { kortyghai_window_largest(w.span, w.held, w.sum, &w.totals, out) })
}

/// K, d, n, R and q.
fn counts(net: &Network) -> [Symbol; 5] {
    [net.size as Symbol, net.links as Symbol, net.parts as Symbol, net.rate as Symbol, net.q]
}

pub fn network_vet(net: &Network) -> Code {
    unpack(unsafe { kortyghai_network_vet(&counts(net), net.table.as_ptr(), net.table.len(), net.weights.as_ptr(), net.weights.len()) })
}

pub fn network_upload(net: &Network, user: usize, relay: usize, reading: &[Symbol], key: Symbol, out: &mut Symbol) -> Code {
    let (weights, given) = (net.weights.as_ptr(), net.weights.len());
    unpack(unsafe { kortyghai_network_upload(&counts(net), weights, given, user, relay, reading.as_ptr(), reading.len(), key, out) })
}

pub fn network_sum(net: &Network, uploads: &[Symbol], out: &mut Symbol) -> Code {
    unpack(unsafe { kortyghai_network_sum(&counts(net), uploads.as_ptr(), uploads.len(), out) })
}

pub fn network_decode(net: &Network, reported: u16, sums: &[Symbol], out: &mut [Symbol]) -> Code {
    unpack(unsafe {
        kortyghai_network_decode(
            &counts(net),
            net.table.as_ptr(),
            net.table.len(),
            net.weights.as_ptr(),
            net.weights.len(),
            reported,
            sums.as_ptr(),
            sums.len(),
            out.as_mut_ptr(),
            out.len(),
        )
    })
}
