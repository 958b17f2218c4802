//! Points, and their equality tables.

use crate::Ext;
use crate::error::{Error, answer};
use crate::sys::call;
use crate::table::{Table, filled};

/// A point: a coordinate in the extension for each variable.
#[derive(Clone, Debug, PartialEq, Eq, Hash)]
pub struct Point {
    coordinates: Vec<Ext>,
}

impl Point {
    /// The point with these coordinates.
    pub fn new(coordinates: Vec<Ext>) -> Self {
        Point { coordinates }
    }

    /// The number of coordinates.
    pub fn num_variables(&self) -> usize {
        self.coordinates.len()
    }

    /// The coordinates.
    pub fn as_slice(&self) -> &[Ext] {
        &self.coordinates
    }

    /// The weights of all vertices, each times `scale`: the table of the equality polynomial, where
    /// coordinate 0 reads the highest bit of an index.
    ///
    /// ```
    /// use mlu::{Point, ext};
    ///
    /// # fn main() -> Result<(), mlu::Error> {
    /// let weights = Point::new(vec![ext(0), ext(1)]).equality_weights_msb(ext(5))?;
    /// assert_eq!(weights.as_slice(), [ext(0), ext(5), ext(0), ext(0)]);
    /// # Ok(())
    /// # }
    /// ```
    ///
    /// # Errors
    /// [`Error::Length`] with 64 coordinates and more, [`Error::Residue`], and [`Error::Memory`], as
    /// where the weights are more than memory can hold.
    pub fn equality_weights_msb(&self, scale: Ext) -> Result<Table<Ext>, Error> {
        let mut out = self.room()?;
        let words = out.as_flattened_mut();
        answer(call!(mlu_equality_weights_msb(self.words(), scale => words)))?;
        Table::new(out)
    }

    /// The same, where coordinate 0 reads the lowest bit of an index.
    ///
    /// # Errors
    /// As [`Point::equality_weights_msb`].
    pub fn equality_weights_lsb(&self, scale: Ext) -> Result<Table<Ext>, Error> {
        let mut out = self.room()?;
        let words = out.as_flattened_mut();
        answer(call!(mlu_equality_weights_lsb(self.words(), scale => words)))?;
        Table::new(out)
    }

    /// Room for a weight of each vertex.
    fn room(&self) -> Result<Vec<Ext>, Error> {
        let variables = u32::try_from(self.coordinates.len()).map_err(|_| Error::Length)?;
        filled([0; 4], 1_usize.checked_shl(variables).ok_or(Error::Length)?)
    }

    pub(crate) fn words(&self) -> &[u32] {
        self.coordinates.as_flattened()
    }
}
