//! Batches: the sum of the equality tables of many points.

use crate::error::{Error, answer};
use crate::sys::mlu_eval_eq_batch;
use crate::{Ext, Table};

/// Writes to `out[x]` the sum over the points of scalar times weight of `x`, or adds it there where
/// `INITIALIZED`. Each column of `evals` is a point and each row a variable: `evals[j * points + i]`
/// is coordinate `j` of point `i`, and coordinate 0 reads the highest bit of `x`.
///
/// ```
/// use mlu::{Table, eval_eq_batch, ext};
///
/// # fn main() -> Result<(), mlu::Error> {
/// let mut out = Table::new(vec![ext(7); 2])?;
/// // two points of one coordinate each
/// eval_eq_batch::<true>(&[ext(0), ext(1)], &mut out, &[ext(10), ext(20)])?;
/// assert_eq!(out.as_slice(), [ext(17), ext(27)]);
/// # Ok(())
/// # }
/// ```
///
/// # Errors
/// [`Error::Arity`] where the values are no rows of as many as there are scalars, or the table has
/// another number of variables than there are rows (with no points any table will do);
/// [`Error::Residue`] and [`Error::Memory`]. The table is then as before.
pub fn eval_eq_batch<const INITIALIZED: bool>(
    evals: &[Ext],
    out: &mut Table<Ext>,
    scalars: &[Ext],
) -> Result<(), Error> {
    let (values, scalars, words) = (evals.as_flattened(), scalars.as_flattened(), out.words_mut());
    // Slices have their words, and the table is borrowed alone.
    answer(unsafe {
        mlu_eval_eq_batch(
            INITIALIZED,
            values.as_ptr(),
            values.len(),
            scalars.as_ptr(),
            scalars.len(),
            words.as_mut_ptr(),
            words.len(),
        )
    })
}
