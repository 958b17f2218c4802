//! Multilinear polynomials over the integers modulo 2013265921 (BabyBear) and their extension of
//! degree four, by calls whose answers are proved, for operands of any size and any words.
//!
//! A polynomial is its [`Table`]: its `2^n` values at the vertices of the cube, where variable 0
//! reads the highest bit of an index. An element of the base field is a [`Base`], its least residue,
//! one of the extension an [`Ext`], the coefficients of 1, X, X^2 and X^3, where X^4 is 11.
//!
//! ```
//! use mlu::{Point, Table, ext};
//!
//! # fn main() -> Result<(), mlu::Error> {
//! let table = Table::new(vec![1, 2, 3, 4])?;
//! let point = Point::new(vec![ext(2), ext(3)]);
//! assert_eq!(table.eval_base(&point)?, ext(8));
//! # Ok(())
//! # }
//! ```
//!
//! Each call copies its operands into the library and its answer out, and answers an [`Error`] where
//! sizes do not fit, a value is no residue, or memory is refused; what it was to change is then as
//! before.
//!
//! The calls stand in `crates/mlu_c` of this repository, with their contracts; that this package
//! hands over the pointers and lengths of its slices is not proved but written in [`sys`].

mod batch;
mod error;
mod point;
pub mod sumcheck;
pub mod sys;
mod table;

pub use batch::eval_eq_batch;
pub use error::Error;
pub use point::Point;
pub use table::{Element, Table};

/// The modulus: residues are below it.
pub const MODULUS: u32 = 2013265921;

/// An element of the base field, as its least residue.
pub type Base = u32;

/// An element of the extension: the least residues of its coefficients of 1, X, X^2 and X^3, where
/// X^4 is 11.
pub type Ext = [u32; 4];

/// The constant polynomial: the image of an element of the base field.
pub const fn ext(constant: Base) -> Ext {
    [constant, 0, 0, 0]
}
