//! A prover and a verifier over a table of 2^20 drawn entries, and a false claim that is caught.
//!
//! The challenges are drawn before the proof, as in a test: a protocol draws each one after its round.

use mlu::sumcheck::{self, Transcript};
use mlu::{Ext, MODULUS, Point, Table};
use std::error::Error;
use std::time::Instant;

const VARIABLES: usize = 20;

/// Drawn words, by the generator SplitMix64: good for a test, and for no secret.
struct Draws(u64);

impl Draws {
    fn word(&mut self) -> u64 {
        self.0 = self.0.wrapping_add(0x9e37_79b9_7f4a_7c15);
        let mut z = self.0;
        z = (z ^ (z >> 30)).wrapping_mul(0xbf58_476d_1ce4_e5b9);
        z = (z ^ (z >> 27)).wrapping_mul(0x94d0_49bb_1331_11eb);
        z ^ (z >> 31)
    }

    fn element(&mut self) -> Ext {
        [(); 4].map(|()| (self.word() % u64::from(MODULUS)) as u32)
    }

    fn elements(&mut self, count: usize) -> Vec<Ext> {
        (0..count).map(|_| self.element()).collect()
    }
}

/// Prints what is done, does it, and prints how long it took.
fn timed<T>(what: &str, work: impl FnOnce() -> T) -> T {
    print!("{what:<52}");
    let start = Instant::now();
    let done = work();
    println!("{:>10.1} ms", start.elapsed().as_secs_f64() * 1e3);
    done
}

fn main() -> Result<(), Box<dyn Error>> {
    let mut draws = Draws(20);
    let table = timed("a table of 2^20 drawn entries", || {
        Table::new(draws.elements(1 << VARIABLES))
    })?;
    let point = Point::new(draws.elements(VARIABLES));
    let challenges = draws.elements(VARIABLES);

    println!("\nthe prover");
    let proof = timed("20 rounds over the table and the point's weights", || {
        sumcheck::run(&table, &point, &challenges)
    })?;
    let claim = proof.claims[0];
    println!("claims the value of the table at the point: {claim:?}");

    println!("\nthe verifier");
    let last = timed("the rounds fit the claim", || {
        sumcheck::verify(claim, &proof.rounds, &challenges)
    })?;
    let last = last.ok_or("the rounds were refused")?;
    // In a protocol the prover opens the table's value at the challenges; here it is computed.
    let product = timed("the last claim is the product of both values", || {
        product_at(&table, &point, &challenges)
    })?;
    if last != product {
        return Err("the last claim is not the product of both values".into());
    }
    if claim != timed("(and the value, added up by itself)", || table.eval_ext(&point))? {
        return Err("the claim is not the value".into());
    }

    println!("\na false claim");
    let mut false_claim = claim;
    false_claim[0] = (false_claim[0] + 1) % MODULUS;
    let caught = sumcheck::verify(false_claim, &proof.rounds, &challenges)?.is_none();
    println!("the value plus one, with the true rounds: {}", verdict(caught));
    let bent = bent(&proof, false_claim, &challenges)?;
    let last = sumcheck::verify(false_claim, &bent, &challenges)?;
    println!(
        "the value plus one, each round bent to fit: {}",
        verdict(last.is_some_and(|last| last != product))
    );
    Ok(())
}

/// Rounds of which each fits the claim before it, from a false one on: they lead to a last claim
/// that is not the product.
fn bent(proof: &Transcript, mut claim: Ext, challenges: &[Ext]) -> Result<Vec<[Ext; 3]>, mlu::Error> {
    let mut rounds = proof.rounds.clone();
    for (i, round) in rounds.iter_mut().enumerate() {
        for (k, coefficient) in round[1].iter_mut().enumerate() {
            let difference = (claim[k] + (MODULUS - proof.claims[i][k])) % MODULUS;
            *coefficient = (*coefficient + difference) % MODULUS;
        }
        claim = sumcheck::verify(claim, &[*round], &challenges[i..=i])?.expect("the round fits");
    }
    Ok(rounds)
}

fn verdict(caught: bool) -> &'static str {
    if caught { "caught" } else { "NOT CAUGHT" }
}

/// The product of the values at the challenges, of the weights of the point and of the table.
fn product_at(table: &Table<Ext>, point: &Point, challenges: &[Ext]) -> Result<Ext, mlu::Error> {
    let at = Point::new(challenges.to_vec());
    // weights that are scaled by the value have the product as theirs
    let weights = point.equality_weights_msb(table.eval_ext(&at)?)?;
    weights.eval_ext(&at)
}
