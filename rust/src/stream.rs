//! Key streams, and one stream for several pools.

use crate::{raw, Refusal, Symbol, MAX_POOLS};

/// A key stream: symbols, drawn evenly and known to nobody else, with a position that only goes forward. No symbol is drawn twice.
///
/// ```
/// use kortyghai::{KeyStream, Refusal};
///
/// let mut stream = KeyStream::new(&[3, 1, 4, 1, 0]);
/// let mut source = [0; 3];
/// stream.draw(&mut source)?;
/// assert_eq!((source, stream.position()), ([3, 1, 4], 3));
/// assert_eq!(stream.draw(&mut source), Err(Refusal::StreamTooShort));
/// # Ok::<(), Refusal>(())
/// ```
#[derive(Clone, PartialEq, Eq, Debug)]
pub struct KeyStream<'a> {
    symbols: &'a [Symbol],
    position: usize,
}

impl<'a> KeyStream<'a> {
    /// A stream of which nothing is drawn.
    pub const fn new(symbols: &'a [Symbol]) -> KeyStream<'a> {
        KeyStream { symbols, position: 0 }
    }

    /// A stream of which the symbols before a position are drawn. **A position that is lower than where draws have come gives symbols a second time.**
    pub const fn at(symbols: &'a [Symbol], position: usize) -> KeyStream<'a> {
        KeyStream { symbols, position }
    }

    /// How many symbols are drawn. Keep it, and never less, where the stream is to be gone on with later.
    pub const fn position(&self) -> usize {
        self.position
    }

    /// How many symbols are left.
    pub const fn left(&self) -> usize {
        self.symbols.len().saturating_sub(self.position)
    }

    /// The next symbols, as many as the lent block has, from 1 to 64. A longer source key is drawn block by block.
    ///
    /// # Errors
    ///
    /// The first that holds: [`BadBlockLength`](Refusal::BadBlockLength), [`StreamTooShort`](Refusal::StreamTooShort).
    pub fn draw(&mut self, out: &mut [Symbol]) -> Result<(), Refusal> {
        let length = out.len();
        Refusal::unpack(unsafe {
            raw::kortyghai_draw(self.symbols.as_ptr(), self.symbols.len(), &mut self.position, length, out.as_mut_ptr(), length)
        })
    }
}

/// One key stream for one to eight pools, each with a reserve that is sure and a limit that it can't pass. No draws of others can keep a pool from its
/// reserve.
///
/// The fields are open, and any numbers can stand in them. Lend the same stream to every call: a stock that no draws on the lent stream leave is refused
/// with [`BadStock`](Refusal::BadStock). What all pools have drawn is the position on the stream.
///
/// ```
/// use kortyghai::{Refusal, Stock};
///
/// let stream = [3, 1, 4, 1, 0, 2];
/// // pool 1 is sure of two symbols, pool 2 of three; each may come to have five
/// let mut stock = Stock::open(&[2, 3], &[5, 5], &stream)?;
/// let mut block = [0; 3];
/// stock.draw(&stream, 1, &mut block)?;
/// assert_eq!((block, stock.position()), ([3, 1, 4], 3));
/// assert_eq!(stock.draw(&stream, 1, &mut [0]), Err(Refusal::StreamTooShort));
/// stock.draw(&stream, 2, &mut block)?;
/// assert_eq!(block, [1, 0, 2]);
/// # Ok::<(), Refusal>(())
/// ```
#[derive(Clone, PartialEq, Eq, Debug)]
pub struct Stock {
    /// How many pools there are.
    pub pools: usize,
    /// What each pool is sure of, in symbols; 0 past the pools.
    pub reserves: [usize; MAX_POOLS],
    /// What each pool can't pass; 0 past the pools.
    pub limits: [usize; MAX_POOLS],
    /// What each pool has drawn; 0 past the pools.
    pub drawn: [usize; MAX_POOLS],
}

impl Stock {
    /// A stock of which nothing is drawn: a reserve and a limit for each pool.
    ///
    /// # Errors
    ///
    /// The first that holds: [`OutOfBounds`](Refusal::OutOfBounds) (not one to eight reserves), [`WrongLength`](Refusal::WrongLength) (not as many limits),
    /// [`BadStock`](Refusal::BadStock) (a reserve above its limit, or all reserves above the stream).
    pub fn open(reserves: &[usize], limits: &[usize], stream: &[Symbol]) -> Result<Stock, Refusal> {
        let mut stock = Stock { pools: reserves.len(), reserves: [0; MAX_POOLS], limits: [0; MAX_POOLS], drawn: [0; MAX_POOLS] };
        Refusal::unpack(unsafe {
            raw::kortyghai_stock_open(
                stock.pools,
                reserves.as_ptr(),
                reserves.len(),
                limits.as_ptr(),
                limits.len(),
                stream.as_ptr(),
                stream.len(),
                &mut stock.reserves,
                &mut stock.limits,
                &mut stock.drawn,
            )
        })?;
        Ok(stock)
    }

    /// The next symbols of the stream for a pool, counted from 1: as many as the lent block has, from 1 to 64.
    ///
    /// # Errors
    ///
    /// The first that holds: [`OutOfBounds`](Refusal::OutOfBounds) (of the stock's pools), [`BadStock`](Refusal::BadStock),
    /// [`UnknownNumber`](Refusal::UnknownNumber), [`BadBlockLength`](Refusal::BadBlockLength), [`PastLimit`](Refusal::PastLimit),
    /// [`StreamTooShort`](Refusal::StreamTooShort) (for it and what the other pools are still sure of).
    pub fn draw(&mut self, stream: &[Symbol], pool: usize, out: &mut [Symbol]) -> Result<(), Refusal> {
        let length = out.len();
        Refusal::unpack(unsafe {
            raw::kortyghai_stock_draw(
                self.pools,
                &self.reserves,
                &self.limits,
                &mut self.drawn,
                stream.as_ptr(),
                stream.len(),
                pool,
                length,
                out.as_mut_ptr(),
                length,
            )
        })
    }

    /// What all pools have drawn, which is the position on the stream.
    pub fn position(&self) -> usize {
        self.drawn.iter().fold(0, |sum: usize, &drawn| sum.saturating_add(drawn))
    }
}
