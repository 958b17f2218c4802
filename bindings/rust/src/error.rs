//! Why a call gives no answer.

use std::fmt;

/// Why a call has no answer.
#[derive(Clone, Copy, Debug, PartialEq, Eq, Hash)]
#[non_exhaustive]
pub enum Error {
    /// An operand has a size that it cannot have: a table's is a power of two.
    Length,
    /// The sizes of the operands do not fit one another, or there is no variable to fold.
    Arity,
    /// A value is the modulus or more.
    Residue,
    /// Memory was refused.
    Memory,
}

impl fmt::Display for Error {
    fn fmt(&self, f: &mut fmt::Formatter<'_>) -> fmt::Result {
        f.write_str(match self {
            Error::Length => "an operand has a size that it cannot have",
            Error::Arity => "the sizes of the operands do not fit one another",
            Error::Residue => "a value is no residue modulo 2013265921",
            Error::Memory => "memory was refused",
        })
    }
}

impl std::error::Error for Error {}

/// What a status of the library says.
pub(crate) fn answer(status: u32) -> Result<(), Error> {
    match status {
        crate::sys::DONE => Ok(()),
        crate::sys::LENGTH => Err(Error::Length),
        crate::sys::ARITY => Err(Error::Arity),
        crate::sys::RESIDUE => Err(Error::Residue),
        crate::sys::MEMORY => Err(Error::Memory),
        other => unreachable!("the library answers no status {other} here"),
    }
}
