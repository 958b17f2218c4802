//! Sumcheck over a table and the weights of a point.
//!
//! ```
//! use mlu::{Point, Table, ext, sumcheck};
//!
//! # fn main() -> Result<(), mlu::Error> {
//! let table = Table::new([1, 2, 3, 4].map(ext).to_vec())?;
//! let point = Point::new(vec![ext(2), ext(3)]);
//! let challenges = [ext(5), ext(7)];
//! let proof = sumcheck::run(&table, &point, &challenges)?;
//! assert_eq!(proof.claims[0], table.eval_ext(&point)?);
//! assert_eq!(sumcheck::verify(proof.claims[0], &proof.rounds, &challenges)?, Some(proof.claims[2]));
//! assert_eq!(sumcheck::verify(ext(9), &proof.rounds, &challenges)?, None);
//! # Ok(())
//! # }
//! ```

use crate::error::{Error, answer};
use crate::sys::{self, call};
use crate::table::filled;
use crate::{Ext, Point, Table};

/// The rounds of a proof, and the claims between them: one more than rounds.
#[derive(Clone, Debug, PartialEq, Eq, Hash)]
pub struct Transcript {
    /// The coefficients of 1, X and X^2 of each round.
    pub rounds: Vec<[Ext; 3]>,
    /// The claim before each round, and the last one.
    pub claims: Vec<Ext>,
}

/// The whole proof at given challenges. The first claim is the value of the table at the point: the
/// sum of its values, each times its weight. The last is the product of two values at the
/// challenges, of the weights and of the table.
///
/// # Errors
/// [`Error::Arity`] with another number of coordinates or challenges than variables,
/// [`Error::Residue`] and [`Error::Memory`].
pub fn run(table: &Table<Ext>, point: &Point, challenges: &[Ext]) -> Result<Transcript, Error> {
    let mut rounds = filled([[0; 4]; 3], challenges.len())?;
    let mut claims = filled([0; 4], challenges.len() + 1)?;
    let round_words = rounds.as_flattened_mut().as_flattened_mut();
    let claim_words = claims.as_flattened_mut();
    answer(call!(mlu_sumcheck_run(
        table.words(), point.words(), challenges.as_flattened() => round_words, claim_words
    )))?;
    Ok(Transcript { rounds, claims })
}

/// The last claim, where the rounds fit the first one at the challenges: each round's values at 0
/// and 1 add up to the claim before it, and its value at its challenge is the next. `None` where they
/// do not.
///
/// This alone accepts no proof: the caller tests that the last claim is the product of the values of
/// the weights and of the table at the challenges, and draws each challenge after its round.
///
/// # Errors
/// [`Error::Arity`] with another number of challenges than rounds, [`Error::Residue`] and
/// [`Error::Memory`].
pub fn verify(claim: Ext, rounds: &[[Ext; 3]], challenges: &[Ext]) -> Result<Option<Ext>, Error> {
    let mut out = [0; 4];
    match call!(mlu_sumcheck_verify(claim, rounds.as_flattened().as_flattened(), challenges.as_flattened() => out)) {
        sys::REFUSED => Ok(None),
        status => answer(status).map(|()| Some(out)),
    }
}
