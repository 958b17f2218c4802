//! Tables of values: evaluation, folds and compressions.

use crate::error::{Error, answer};
use crate::sys::{call, mlu_fix_prefix_var_mut, mlu_fix_suffix_var_mut};
use crate::{Base, Ext, Point};

/// What a table may hold: [`Base`] or [`Ext`].
pub trait Element: sealed::Words {}

impl Element for Base {}
impl Element for Ext {}

mod sealed {
    pub trait Words: Copy {
        fn words(elements: &[Self]) -> &[u32];
    }

    impl Words for u32 {
        fn words(elements: &[u32]) -> &[u32] {
            elements
        }
    }

    impl Words for [u32; 4] {
        fn words(elements: &[[u32; 4]]) -> &[u32] {
            elements.as_flattened()
        }
    }
}

/// A multilinear polynomial in `n` variables: its `2^n` values, where variable 0 reads the highest
/// bit of an index. A value that is no residue is found by the calls that read it.
#[derive(Clone, Debug, PartialEq, Eq, Hash)]
pub struct Table<E> {
    evals: Vec<E>,
}

impl<E: Element> Table<E> {
    /// The polynomial with these values.
    ///
    /// # Errors
    /// [`Error::Length`] where their number is no power of two.
    pub fn new(evals: Vec<E>) -> Result<Self, Error> {
        if evals.len().is_power_of_two() {
            Ok(Table { evals })
        } else {
            Err(Error::Length)
        }
    }

    /// The number of values, a power of two.
    pub fn num_evals(&self) -> usize {
        self.evals.len()
    }

    /// The number of variables.
    pub fn num_variables(&self) -> usize {
        self.evals.len().trailing_zeros() as usize
    }

    /// The values.
    pub fn as_slice(&self) -> &[E] {
        &self.evals
    }

    /// The values.
    pub fn into_evals(self) -> Vec<E> {
        self.evals
    }

    pub(crate) fn words(&self) -> &[u32] {
        E::words(&self.evals)
    }
}

/// So many copies of a value, as room for an answer.
pub(crate) fn filled<T: Copy>(value: T, count: usize) -> Result<Vec<T>, Error> {
    let mut values = Vec::new();
    values.try_reserve_exact(count).map_err(|_| Error::Memory)?;
    values.resize(count, value);
    Ok(values)
}

impl Table<Base> {
    /// The value at a point of the extension with as many coordinates as there are variables.
    ///
    /// ```
    /// use mlu::{Point, Table, ext};
    ///
    /// # fn main() -> Result<(), mlu::Error> {
    /// let table = Table::new(vec![1, 2, 3, 4])?;
    /// let x = [0, 1, 0, 0];
    /// assert_eq!(table.eval_base(&Point::new(vec![x, ext(0)]))?, [1, 2, 0, 0]);
    /// # Ok(())
    /// # }
    /// ```
    ///
    /// # Errors
    /// [`Error::Arity`] with another number of coordinates, [`Error::Residue`] and
    /// [`Error::Memory`].
    pub fn eval_base(&self, point: &Point) -> Result<Ext, Error> {
        let mut out = [0; 4];
        answer(call!(mlu_eval_base(self.words(), point.words() => out)))?;
        Ok(out)
    }

    /// The sum of the weight of each vertex at the point times the value at the next vertex: the weight
    /// of `x` times value `x + 1`, and the last weight times the last value.
    ///
    /// # Errors
    /// As [`Table::eval_base`].
    pub fn eval_next_base(&self, point: &Point) -> Result<Ext, Error> {
        let mut out = [0; 4];
        answer(call!(mlu_eval_next_base(self.words(), point.words() => out)))?;
        Ok(out)
    }

    /// The polynomial with its first variables at the point, times `scale`. Its value at any `rest`
    /// is `scale` times that of this one at the point and then `rest`.
    ///
    /// ```
    /// use mlu::{Point, Table, ext};
    ///
    /// # fn main() -> Result<(), mlu::Error> {
    /// let table = Table::new(vec![1, 2, 3, 4])?;
    /// let left = table.compress_prefix(&Point::new(vec![ext(2)]), ext(1))?;
    /// assert_eq!(left.as_slice(), [ext(5), ext(6)]);
    /// # Ok(())
    /// # }
    /// ```
    ///
    /// # Errors
    /// [`Error::Arity`] with more coordinates than variables, [`Error::Residue`] and
    /// [`Error::Memory`].
    pub fn compress_prefix(&self, point: &Point, scale: Ext) -> Result<Table<Ext>, Error> {
        let mut out = self.room(point)?;
        let words = out.as_flattened_mut();
        answer(call!(mlu_compress_prefix(self.words(), point.words(), scale => words)))?;
        Table::new(out)
    }

    /// The polynomial with its last variables at the point, times `scale`. Its value at any `first`
    /// is `scale` times that of this one at `first` and then the point.
    ///
    /// # Errors
    /// As [`Table::compress_prefix`].
    pub fn compress_suffix(&self, point: &Point, scale: Ext) -> Result<Table<Ext>, Error> {
        let mut out = self.room(point)?;
        let words = out.as_flattened_mut();
        answer(call!(mlu_compress_suffix(self.words(), point.words(), scale => words)))?;
        Table::new(out)
    }

    /// Room for the values that are left where the first or the last variables stand at the point.
    fn room(&self, point: &Point) -> Result<Vec<Ext>, Error> {
        let left = self
            .num_variables()
            .checked_sub(point.num_variables())
            .ok_or(Error::Arity)?;
        filled([0; 4], 1 << left)
    }
}

impl Table<Ext> {
    /// The value at a point with as many coordinates as there are variables.
    ///
    /// # Errors
    /// As [`Table::eval_base`].
    pub fn eval_ext(&self, point: &Point) -> Result<Ext, Error> {
        let mut out = [0; 4];
        answer(call!(mlu_eval_ext(self.words(), point.words() => out)))?;
        Ok(out)
    }

    /// Puts the first variable at `r`: value `i` becomes `low[i] + r * (high[i] - low[i])`, where
    /// `low` and `high` are the two halves.
    ///
    /// ```
    /// use mlu::{Table, ext};
    ///
    /// # fn main() -> Result<(), mlu::Error> {
    /// let mut table = Table::new([1, 2, 3, 4].map(ext).to_vec())?;
    /// table.fix_prefix_var_mut(ext(2))?;
    /// assert_eq!(table.as_slice(), [ext(5), ext(6)]);
    /// # Ok(())
    /// # }
    /// ```
    ///
    /// # Errors
    /// [`Error::Arity`] without a variable, [`Error::Residue`] and [`Error::Memory`]; the table is
    /// then as before.
    pub fn fix_prefix_var_mut(&mut self, r: Ext) -> Result<(), Error> {
        self.fold(mlu_fix_prefix_var_mut, r)
    }

    /// Puts the last variable at `r`: value `i` becomes `e[2i] + r * (e[2i + 1] - e[2i])`.
    ///
    /// # Errors
    /// As [`Table::fix_prefix_var_mut`].
    pub fn fix_suffix_var_mut(&mut self, r: Ext) -> Result<(), Error> {
        self.fold(mlu_fix_suffix_var_mut, r)
    }

    /// A fold in place, which leaves its answer in the first half.
    fn fold(
        &mut self,
        fold: unsafe extern "C" fn(*mut u32, usize, *const u32, usize) -> u32,
        r: Ext,
    ) -> Result<(), Error> {
        let words = self.evals.as_flattened_mut();
        // Slices have their words, and the table is borrowed alone.
        answer(unsafe { fold(words.as_mut_ptr(), words.len(), r.as_ptr(), r.len()) })?;
        self.evals.truncate(self.evals.len() / 2);
        Ok(())
    }

    pub(crate) fn words_mut(&mut self) -> &mut [u32] {
        self.evals.as_flattened_mut()
    }
}
