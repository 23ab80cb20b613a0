//! The rolling hour.

use crate::{raw, Refusal, MAX_SPAN};

/// The last totals shown, `span` of them, from 1 to 96, with their sum and the largest. Until so many are in, both cover those there are. Blocks of L
/// positions need L windows.
///
/// The fields are open, and any numbers can stand in them: every call refuses, before all else and with [`BadWindow`](Refusal::BadWindow), a window that
/// no run of totals leaves.
///
/// ```
/// use kortyghai::{Refusal, Window};
///
/// let mut window = Window::open(2)?;
/// assert_eq!((window.sum(), window.largest()), (Ok(0), Err(Refusal::NotFull)));
/// for total in [7, -3, 5] {
///     window.push(total)?;
/// }
/// // 7 is no longer in it
/// assert_eq!((window.sum(), window.largest()), (Ok(2), Ok(5)));
/// # Ok::<(), Refusal>(())
/// ```
#[derive(Clone, PartialEq, Eq, Debug)]
pub struct Window {
    /// How many totals it can hold.
    pub span: usize,
    /// How many it holds.
    pub held: usize,
    /// Their sum.
    pub sum: i64,
    /// The totals, the oldest first, and 0 past them.
    pub totals: [i32; MAX_SPAN],
}

impl Window {
    /// A window that holds no total yet.
    ///
    /// # Errors
    ///
    /// [`BadWindow`](Refusal::BadWindow).
    pub fn open(span: usize) -> Result<Window, Refusal> {
        let mut window = Window { span, held: 0, sum: 0, totals: [0; MAX_SPAN] };
        Refusal::unpack(unsafe { raw::kortyghai_window_open(span, &mut window.held, &mut window.sum, &mut window.totals) })?;
        Ok(window)
    }

    /// One total more; where the window is full, the oldest leaves it.
    ///
    /// # Errors
    ///
    /// [`BadWindow`](Refusal::BadWindow).
    pub fn push(&mut self, total: i32) -> Result<(), Refusal> {
        Refusal::unpack(unsafe { raw::kortyghai_window_push(self.span, &mut self.held, &mut self.sum, &mut self.totals, total) })
    }

    /// The sum of the totals that are held, 0 where there is none.
    ///
    /// # Errors
    ///
    /// [`BadWindow`](Refusal::BadWindow).
    pub fn sum(&self) -> Result<i64, Refusal> {
        let mut out = 0;
        Refusal::unpack(unsafe { raw::kortyghai_window_sum(self.span, self.held, self.sum, &self.totals, &mut out) })?;
        Ok(out)
    }

    /// The largest of the totals that are held.
    ///
    /// # Errors
    ///
    /// The first that holds: [`BadWindow`](Refusal::BadWindow), [`NotFull`](Refusal::NotFull) (there is none).
    pub fn largest(&self) -> Result<i32, Refusal> {
        let mut out = 0;
        Refusal::unpack(unsafe { raw::kortyghai_window_largest(self.span, self.held, self.sum, &self.totals, &mut out) })?;
        Ok(out)
    }
}
