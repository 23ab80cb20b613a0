//! Key streams and stocks. The model of a stock keeps the list of answered draws, and adds up from it.

use crate::field::{near, often_below, symbols};
use crate::seeded::Seeded;
use crate::tally::{first, safe, unpacked, Lent, Tally, Verdict};
use kortyghai::{raw, KeyStream, Stock, Symbol};

const MARK: Symbol = 0xABCD_ABCD;

fn some_length(s: &mut Seeded) -> usize {
    if s.below(12) == 0 {
        s.one_of(&[0, 65, 66, 1 << 32, usize::MAX, 64])
    } else {
        1 + often_below(s, 6, 64)
    }
}

fn draw(s: &mut Seeded, tally: &mut Tally) {
    let n = s.one_of(&[0, 1, 5, 63, 64, 65, 130]);
    let stream = symbols(s, 4_294_967_291, n);
    let mut at = if s.below(4) > 0 { 0 } else { s.one_of(&[n, n.saturating_sub(1), n + 1, usize::MAX, n / 2, 1 << 62]) };
    // a run of draws, each from where the one before has come
    for _ in 0..1 + s.below(4) {
        let length = some_length(s);
        let room = near(s, length.min(70));
        let verdict = first(&[(9, length == 0 || length > 64), (4, room != length), (13, at > n || length > n - at)]);
        let (mut position, mut out) = (at, Lent::new(MARK, room));
        let wanted = match verdict {
            Ok(()) => (verdict, (at + length, stream[at..at + length].to_vec())),
            Err(_) => (verdict, (at, vec![MARK; room])),
        };
        let told = || format!("{length} of {n} symbols from {at} on, {room} lent");
        let answer = unsafe { raw::kortyghai_draw(stream.as_ptr(), n, &mut position, length, out.ptr(), room) };
        tally.compare("draw", &wanted, &(unpacked(answer), (position, out.left())), told);
        if room == length {
            let (mut safe_stream, mut out) = (KeyStream::at(&stream, at), vec![MARK; room]);
            let answer = safe(safe_stream.draw(&mut out));
            tally.also("draw", &wanted, &(answer, (safe_stream.position(), out)), told);
        }
        at = position;
    }
}

/// The larger of what a pool is sure of and what it has drawn: what the stream has to have for it.
fn needed(stock: &Stock, i: usize) -> u128 {
    stock.reserves[i].max(stock.drawn[i]) as u128
}

/// Do some draws on a stream of n symbols leave it?
fn is_left(stock: &Stock, n: usize) -> bool {
    let entries = (0..8).all(|i| {
        let (reserve, limit, drawn) = (stock.reserves[i], stock.limits[i], stock.drawn[i]);
        reserve <= limit && drawn <= limit && (i < stock.pools || (reserve, limit, drawn) == (0, 0, 0))
    });
    entries && (0..stock.pools.min(8)).map(|i| needed(stock, i)).sum::<u128>() <= n as u128
}

/// The symbols that a pool has drawn, from the list of answered draws.
fn drawn_by(draws: &[(usize, usize)], pool: usize) -> usize {
    draws.iter().filter(|draw| draw.0 == pool).map(|draw| draw.1).sum()
}

fn damage(s: &mut Seeded, stock: &mut Stock) {
    let i = s.below(8);
    match s.below(6) {
        0 => stock.pools = s.one_of(&[0, 9, 8, 1, usize::MAX, 1 << 32]),
        1 => stock.reserves[i] = s.one_of(&[stock.limits[i] + 1, usize::MAX, stock.reserves[i] + 1]),
        2 => stock.drawn[i] = s.one_of(&[stock.limits[i] + 1, usize::MAX, stock.drawn[i] + 1, 0]),
        3 => stock.limits[i] = s.one_of(&[stock.limits[i] + 1, usize::MAX, 0]),
        4 => stock.reserves = [usize::MAX; 8],
        // sums that wrap around to small ones
        _ => (stock.reserves[i], stock.limits[i], stock.drawn[i]) = (1 << 63, usize::MAX, 1 << 63),
    }
}

/// Where the stock is on its stream.
fn position(stock: &Stock) -> u128 {
    (0..stock.pools.min(8)).map(|i| stock.drawn[i] as u128).sum()
}

/// "A draw is checked in the order 1, 21, 8 (no such pool, counted from 1), 9, 4, 20, 13 (tape too short as said)."
fn of_draw(stock: &Stock, n: usize, pool: usize, length: usize, room: usize) -> Verdict {
    let known = (1..=8).contains(&stock.pools) && (1..=stock.pools).contains(&pool);
    let others = (0..stock.pools.min(8)).filter(|i| i + 1 != pool);
    let owed: u128 = others.map(|i| needed(stock, i) - stock.drawn[i] as u128).sum();
    first(&[
        (1, stock.pools == 0 || stock.pools > 8),
        (21, !is_left(stock, n)),
        (8, !known),
        (9, length == 0 || length > 64),
        (4, room != length),
        (20, known && stock.drawn[pool - 1] as u128 + length as u128 > stock.limits[pool - 1] as u128),
        (13, position(stock) + length as u128 + owed > n as u128),
    ])
}

/// A draw on a stock that is handed in.
fn draw_from(s: &mut Seeded, tally: &mut Tally, stream: &[Symbol], stock: &Stock) -> Option<(Stock, usize, usize)> {
    let n = stream.len();
    let pool =
        if s.below(12) > 0 { 1 + s.below(stock.pools.clamp(1, 8)) } else { s.one_of(&[0, stock.pools.wrapping_add(1), 9, usize::MAX]) };
    let length = some_length(s);
    let room = near(s, length.min(70));
    let verdict = of_draw(stock, n, pool, length, room);
    let (mut after, mut given) = (stock.clone(), vec![MARK; room]);
    if verdict.is_ok() {
        after.drawn[pool - 1] += length;
        given = stream[position(stock) as usize..][..length].to_vec();
    }
    let wanted = (verdict, (after, given));
    let told = || format!("{length} symbols for pool {pool} of {stock:?} on {n} symbols, {room} lent");
    let (mut left, mut out) = (stock.clone(), Lent::new(MARK, room));
    let answer = unsafe {
        raw::kortyghai_stock_draw(
            stock.pools,
            &stock.reserves,
            &stock.limits,
            &mut left.drawn,
            stream.as_ptr(),
            n,
            pool,
            length,
            out.ptr(),
            room,
        )
    };
    tally.compare("stock_draw", &wanted, &(unpacked(answer), (left, out.left())), told);
    if room == length {
        let (mut left, mut out) = (stock.clone(), vec![MARK; room]);
        let answer = safe(left.draw(stream, pool, &mut out));
        tally.also("stock_draw", &wanted, &(answer, (left, out)), told);
    }
    verdict.ok().map(|()| (wanted.1 .0.clone(), pool, length))
}

/// 1, 4, and then "21 when a share exceeds its limit, the shares exceed the tape"
fn of_opening(pools: usize, reserves: &[usize], limits: &[usize], n: usize) -> Verdict {
    let too_much = reserves.iter().map(|&r| r as u128).sum::<u128>() > n as u128;
    first(&[
        (1, pools == 0 || pools > 8),
        (4, reserves.len() != pools || limits.len() != pools),
        (21, reserves.iter().zip(limits).any(|(r, l)| r > l) || too_much),
    ])
}

/// An opening, and the stock where it is not refused.
fn open(s: &mut Seeded, tally: &mut Tally, stream: &[Symbol]) -> Option<Stock> {
    let pools = if s.below(10) > 0 { 1 + s.below(8) } else { s.one_of(&[0, 9, 10, usize::MAX, 1 << 32]) };
    let (a, b) = (near(s, pools.min(12)), near(s, pools.min(12)));
    let share = stream.len() / pools.clamp(1, 8) + 1;
    let mut reserves: Vec<usize> = (0..a).map(|_| s.below(share)).collect();
    let limits: Vec<usize> = (0..b).map(|i| reserves.get(i).copied().unwrap_or(0) + s.below(40)).collect();
    if a > 0 && s.below(10) == 0 {
        let i = s.below(a);
        reserves[i] = s.one_of(&[usize::MAX, 1 << 63, reserves[i] + 41, stream.len() + 1]);
    }
    let verdict = of_opening(pools, &reserves, &limits, stream.len());
    let mut stock = Stock { pools, reserves: [7; 8], limits: [7; 8], drawn: [7; 8] };
    let mut wanted = stock.clone();
    if verdict.is_ok() {
        (wanted.reserves, wanted.limits, wanted.drawn) = ([0; 8], [0; 8], [0; 8]);
        wanted.reserves[..pools].copy_from_slice(&reserves);
        wanted.limits[..pools].copy_from_slice(&limits);
    }
    let told = || format!("{pools} pools, {reserves:?} and {limits:?}, on {} symbols", stream.len());
    let answer = unsafe {
        raw::kortyghai_stock_open(
            pools,
            reserves.as_ptr(),
            a,
            limits.as_ptr(),
            b,
            stream.as_ptr(),
            stream.len(),
            &mut stock.reserves,
            &mut stock.limits,
            &mut stock.drawn,
        )
    };
    tally.compare("stock_open", &(verdict, wanted.clone()), &(unpacked(answer), stock), told);
    if pools == a {
        let opened = Stock::open(&reserves, &limits, stream);
        let left = (safe(opened.clone()), opened.ok());
        tally.also("stock_open", &(verdict, verdict.ok().map(|()| wanted.clone())), &left, told);
    }
    verdict.ok().map(|()| wanted)
}

/// A stock's life: draws for any pools, and at times on a damaged stock, or on another stream.
fn stocks(s: &mut Seeded, tally: &mut Tally) -> usize {
    let n = s.one_of(&[0, 3, 20, 64, 100, 300]);
    let stream = symbols(s, 65_521, n);
    let Some(mut stock) = open(s, tally, &stream) else { return 1 };
    let mut draws = Vec::new();
    for _ in 0..s.below(24) {
        let mut damaged = stock.clone();
        damage(s, &mut damaged);
        draw_from(s, tally, &stream, &damaged);
        let shorter = s.below(n + 1);
        draw_from(s, tally, &stream[..shorter], &stock);
        if let Some((after, pool, length)) = draw_from(s, tally, &stream, &stock) {
            stock = after;
            draws.push((pool, length));
        }
    }
    let added: Vec<usize> = (1..=8).map(|pool| drawn_by(&draws, pool)).collect();
    let position = draws.iter().map(|draw| draw.1).sum();
    tally.also("stock_draw", &(Ok(()), (added, position)), &(Ok(()), (stock.drawn.to_vec(), stock.position())), || format!("{draws:?}"));
    sure(tally, &stream, &stock);
    3 * draws.len() + 1
}

/// Each pool still gets what it is sure of, symbol by symbol, in whatever order.
fn sure(tally: &mut Tally, stream: &[Symbol], stock: &Stock) {
    let mut stock = stock.clone();
    for pool in (1..=stock.pools).rev() {
        while stock.drawn[pool - 1] < stock.reserves[pool - 1] {
            let answer = safe(stock.draw(stream, pool, &mut [0]));
            tally.also("stock_draw", &(Ok(()), pool), &(answer, pool), || format!("what pool {pool} is sure of, from {stock:?}"));
            if answer.is_err() {
                return;
            }
        }
    }
}

pub fn run(s: &mut Seeded, count: usize, tally: &mut Tally) {
    for _ in 0..count / 6 {
        draw(s, tally);
    }
    let mut left = (count / 2) as i64;
    while left > 0 {
        left -= stocks(s, tally) as i64;
    }
}
