//! What a user sends, and taking a key off; totals shown. One block is a row of up to 64 positions.

use crate::{raw, Plan, Refusal, Symbol};

/// A user's upload, into a lent block: reading plus key, position by position, modulo q. The three blocks have the same length, from 1 to 64.
///
/// Readings here are symbols; [`Plan::signed_upload`] takes signed ones.
///
/// ```
/// let mut out = [0; 4];
/// kortyghai::upload(5, &[3, 4, 0, 2], &[1, 2, 2, 0], &mut out)?;
/// assert_eq!(out, [4, 1, 2, 2]);
/// # Ok::<(), kortyghai::Refusal>(())
/// ```
///
/// # Errors
///
/// The first that holds: [`NotPrime`](Refusal::NotPrime), [`BadBlockLength`](Refusal::BadBlockLength) (of `readings`),
/// [`WrongLength`](Refusal::WrongLength) (`key` or `out` has another length), [`NotASymbol`](Refusal::NotASymbol).
pub fn upload(q: Symbol, readings: &[Symbol], key: &[Symbol], out: &mut [Symbol]) -> Result<(), Refusal> {
    let length = readings.len();
    Refusal::unpack(unsafe {
        raw::kortyghai_upload(q, length, readings.as_ptr(), length, key.as_ptr(), key.len(), out.as_mut_ptr(), out.len())
    })
}

/// Takes a key off its upload, into a lent block: upload minus key, position by position, modulo q, which gives the readings back.
///
/// # Errors
///
/// As [`upload`].
pub fn unmask(q: Symbol, upload: &[Symbol], key: &[Symbol], out: &mut [Symbol]) -> Result<(), Refusal> {
    let length = upload.len();
    Refusal::unpack(unsafe {
        raw::kortyghai_unmask(q, length, upload.as_ptr(), length, key.as_ptr(), key.len(), out.as_mut_ptr(), out.len())
    })
}

/// Signed readings from −cap to cap. The cap stands in no record: hand over the same one wherever readings or totals are signed.
impl Plan {
    /// A user's upload of signed readings, into a lent block: a negative reading w travels as q + w. The three blocks have the same length, from 1
    /// to 64.
    ///
    /// With 2 × U × V × cap below q, which is checked, the shown total of all users is the true sum of their readings.
    ///
    /// ```
    /// # use kortyghai::Plan;
    /// let plan = Plan { clusters: 2, size: 2, limit: 1, rate: 3, q: 65_521 };
    /// let (key, mut sent, mut back) = ([7, 65_000], [0; 2], [0; 2]);
    /// plan.signed_upload(2_000, &[-2_000, 1_999], &key, &mut sent)?;
    /// plan.signed_unmask(2_000, &sent, &key, &mut back)?;
    /// assert_eq!(back, [-2_000, 1_999]);
    /// # Ok::<(), kortyghai::Refusal>(())
    /// ```
    ///
    /// # Errors
    ///
    /// The first that holds: [`OutOfBounds`](Refusal::OutOfBounds), [`NotPrime`](Refusal::NotPrime), [`BadCap`](Refusal::BadCap),
    /// [`BadBlockLength`](Refusal::BadBlockLength) (of `readings`), [`WrongLength`](Refusal::WrongLength) (`key` or `out` has another length),
    /// [`OutsideCap`](Refusal::OutsideCap), [`NotASymbol`](Refusal::NotASymbol).
    pub fn signed_upload(&self, cap: u32, readings: &[i32], key: &[Symbol], out: &mut [Symbol]) -> Result<(), Refusal> {
        let length = readings.len();
        Refusal::unpack(unsafe {
            raw::kortyghai_signed_upload(
                &self.numbers(),
                cap,
                length,
                readings.as_ptr(),
                length,
                key.as_ptr(),
                key.len(),
                out.as_mut_ptr(),
                out.len(),
            )
        })
    }

    /// Takes a key off its upload, into a lent block of signed readings. Never refused with 15.
    ///
    /// # Errors
    ///
    /// The first that holds: [`OutOfBounds`](Refusal::OutOfBounds), [`NotPrime`](Refusal::NotPrime), [`BadCap`](Refusal::BadCap),
    /// [`BadBlockLength`](Refusal::BadBlockLength) (of `upload`), [`WrongLength`](Refusal::WrongLength) (`key` or `out` has another length),
    /// [`NotASymbol`](Refusal::NotASymbol).
    pub fn signed_unmask(&self, cap: u32, upload: &[Symbol], key: &[Symbol], out: &mut [i32]) -> Result<(), Refusal> {
        let length = upload.len();
        Refusal::unpack(unsafe {
            raw::kortyghai_signed_unmask(
                &self.numbers(),
                cap,
                length,
                upload.as_ptr(),
                length,
                key.as_ptr(),
                key.len(),
                out.as_mut_ptr(),
                out.len(),
            )
        })
    }

    /// A block of totals as signed numbers, into a lent block: t where 2 × t is below q, and t − q otherwise. Where all readings were inside the cap,
    /// these are their true sums.
    ///
    /// # Errors
    ///
    /// The first that holds: [`OutOfBounds`](Refusal::OutOfBounds), [`NotPrime`](Refusal::NotPrime), [`BadCap`](Refusal::BadCap),
    /// [`BadBlockLength`](Refusal::BadBlockLength) (of `totals`), [`WrongLength`](Refusal::WrongLength) (`out` has another length),
    /// [`NotASymbol`](Refusal::NotASymbol).
    pub fn show_totals(&self, cap: u32, totals: &[Symbol], out: &mut [i32]) -> Result<(), Refusal> {
        let length = totals.len();
        Refusal::unpack(unsafe {
            raw::kortyghai_show_totals(&self.numbers(), cap, length, totals.as_ptr(), length, out.as_mut_ptr(), out.len())
        })
    }
}
