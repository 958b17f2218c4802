//! Operands that a call does not accept: each by its status, and nothing written. The library's own
//! calls get them, as a C program would.

use mlu::MODULUS;
use mlu::sys::*;
use std::ptr;

/// The words of an operand: null where there are none.
fn at(words: &[u32]) -> (*const u32, usize) {
    let start = if words.is_empty() { ptr::null() } else { words.as_ptr() };
    (start, words.len())
}

fn at_mut(words: &mut [u32]) -> (*mut u32, usize) {
    let start = if words.is_empty() {
        ptr::null_mut()
    } else {
        words.as_mut_ptr()
    };
    (start, words.len())
}

type OneOperand = unsafe extern "C" fn(*mut u32, usize, *const u32, usize) -> u32;
type TwoOperands = unsafe extern "C" fn(*const u32, usize, *const u32, usize, *mut u32, usize) -> u32;
type ThreeOperands =
    unsafe extern "C" fn(*const u32, usize, *const u32, usize, *const u32, usize, *mut u32, usize) -> u32;

const MARK: u32 = 0xdead_beef;

/// The status of a call that writes to `room` words, none of which it has changed where it is not done.
fn two(call: TwoOperands, a: &[u32], b: &[u32], room: usize) -> u32 {
    let mut out = vec![MARK; room];
    let ((a, a_len), (b, b_len), (o, o_len)) = (at(a), at(b), at_mut(&mut out));
    let status = unsafe { call(a, a_len, b, b_len, o, o_len) };
    assert_eq!(status != DONE || room == 0, out.iter().all(|word| *word == MARK));
    status
}

fn three(call: ThreeOperands, a: &[u32], b: &[u32], c: &[u32], room: usize) -> u32 {
    let mut out = vec![MARK; room];
    let ((a, a_len), (b, b_len), (c, c_len), (o, o_len)) = (at(a), at(b), at(c), at_mut(&mut out));
    let status = unsafe { call(a, a_len, b, b_len, c, c_len, o, o_len) };
    assert_eq!(status != DONE || room == 0, out.iter().all(|word| *word == MARK));
    status
}

fn fold(call: OneOperand, table: &[u32], r: &[u32]) -> u32 {
    let mut words = table.to_vec();
    let ((t, t_len), (r, r_len)) = (at_mut(&mut words), at(r));
    let status = unsafe { call(t, t_len, r, r_len) };
    let half = if status == DONE { table.len() / 2 } else { 0 };
    assert_eq!(words[half..], table[half..]);
    status
}

fn batch(adds: bool, values: &[u32], scalars: &[u32], out: &[u32]) -> u32 {
    let mut words = out.to_vec();
    let ((v, v_len), (s, s_len), (o, o_len)) = (at(values), at(scalars), at_mut(&mut words));
    let status = unsafe { mlu_eval_eq_batch(adds, v, v_len, s, s_len, o, o_len) };
    assert!(status == DONE || words == out);
    status
}

/// A table of `entries` elements of `width` words, all ones.
fn ones(entries: usize, width: usize) -> Vec<u32> {
    vec![1; entries * width]
}

fn with(mut words: Vec<u32>, last: u32) -> Vec<u32> {
    *words.last_mut().unwrap() = last;
    words
}

#[test]
fn values() {
    for (call, width) in [
        (mlu_eval_base as TwoOperands, 1),
        (mlu_eval_next_base, 1),
        (mlu_eval_ext, 4),
    ] {
        assert_eq!(two(call, &ones(4, width), &ones(2, 4), 4), DONE);
        assert_eq!(two(call, &ones(1, width), &[], 4), DONE);
        for entries in [0, 3, 5, 6, 7, 9, 1025] {
            assert_eq!(two(call, &ones(entries, width), &ones(2, 4), 4), LENGTH);
        }
        assert_eq!(two(call, &ones(4, width), &ones(2, 4)[..7], 4), LENGTH);
        for room in [0, 1, 3, 5, 8] {
            assert_eq!(two(call, &ones(4, width), &ones(2, 4), room), LENGTH);
        }
        for coordinates in [0, 1, 3, 30, 63, 64, 65, 128, 1000] {
            assert_eq!(two(call, &ones(4, width), &ones(coordinates, 4), 4), ARITY);
        }
        for word in [MODULUS, MODULUS + 1, u32::MAX] {
            assert_eq!(two(call, &with(ones(4, width), word), &ones(2, 4), 4), RESIDUE);
            assert_eq!(two(call, &ones(4, width), &with(ones(2, 4), word), 4), RESIDUE);
        }
        assert_eq!(two(call, &with(ones(4, width), MODULUS - 1), &ones(2, 4), 4), DONE);
        // the first test that fails is the one that is told
        assert_eq!(two(call, &with(ones(3, width), MODULUS), &ones(1, 4), 4), LENGTH);
        assert_eq!(two(call, &with(ones(4, width), MODULUS), &ones(1, 4), 4), ARITY);
    }
}

#[test]
fn equality_weights() {
    for call in [mlu_equality_weights_msb as TwoOperands, mlu_equality_weights_lsb] {
        assert_eq!(two(call, &ones(2, 4), &ones(1, 4), 16), DONE);
        assert_eq!(two(call, &[], &ones(1, 4), 4), DONE);
        for room in [0, 3, 12, 15, 17, 20] {
            assert_eq!(two(call, &ones(2, 4), &ones(1, 4), room), LENGTH);
        }
        for room in [4, 8, 32] {
            assert_eq!(two(call, &ones(2, 4), &ones(1, 4), room), ARITY);
        }
        for coordinates in [61, 62, 63, 64, 65, 1000] {
            assert_eq!(two(call, &ones(coordinates, 4), &ones(1, 4), 16), ARITY);
        }
        assert_eq!(two(call, &ones(2, 4), &[], 16), LENGTH);
        assert_eq!(two(call, &ones(2, 4), &ones(2, 4), 16), LENGTH);
        assert_eq!(two(call, &with(ones(2, 4), MODULUS), &ones(1, 4), 16), RESIDUE);
        assert_eq!(two(call, &ones(2, 4), &with(ones(1, 4), u32::MAX), 16), RESIDUE);
    }
}

#[test]
fn folds() {
    for call in [mlu_fix_prefix_var_mut as OneOperand, mlu_fix_suffix_var_mut] {
        assert_eq!(fold(call, &ones(8, 4), &ones(1, 4)), DONE);
        for entries in [0, 3, 5, 9] {
            assert_eq!(fold(call, &ones(entries, 4), &ones(1, 4)), LENGTH);
        }
        assert_eq!(fold(call, &ones(1, 7), &ones(1, 4)), LENGTH);
        assert_eq!(fold(call, &ones(4, 4), &[]), LENGTH);
        assert_eq!(fold(call, &ones(4, 4), &[1, 2, 3]), LENGTH);
        assert_eq!(fold(call, &ones(1, 4), &ones(1, 4)), ARITY);
        assert_eq!(fold(call, &with(ones(4, 4), MODULUS), &ones(1, 4)), RESIDUE);
        assert_eq!(fold(call, &ones(4, 4), &[0, 0, 0, MODULUS]), RESIDUE);
    }
}

#[test]
fn compressions() {
    for call in [mlu_compress_prefix as ThreeOperands, mlu_compress_suffix] {
        assert_eq!(three(call, &ones(8, 1), &ones(1, 4), &ones(1, 4), 16), DONE);
        assert_eq!(three(call, &ones(8, 1), &[], &ones(1, 4), 32), DONE);
        assert_eq!(three(call, &ones(8, 1), &ones(3, 4), &ones(1, 4), 4), DONE);
        for entries in [0, 3, 9] {
            assert_eq!(three(call, &ones(entries, 1), &ones(1, 4), &ones(1, 4), 16), LENGTH);
        }
        for room in [0, 3, 12, 15, 17] {
            assert_eq!(three(call, &ones(8, 1), &ones(1, 4), &ones(1, 4), room), LENGTH);
        }
        assert_eq!(three(call, &ones(8, 1), &ones(1, 4)[..3], &ones(1, 4), 16), LENGTH);
        assert_eq!(three(call, &ones(8, 1), &ones(1, 4), &[], 16), LENGTH);
        for coordinates in [0, 2, 3, 4, 64, 65, 1000] {
            assert_eq!(three(call, &ones(8, 1), &ones(coordinates, 4), &ones(1, 4), 16), ARITY);
        }
        assert_eq!(
            three(call, &with(ones(8, 1), MODULUS), &ones(1, 4), &ones(1, 4), 16),
            RESIDUE
        );
        assert_eq!(
            three(call, &ones(8, 1), &with(ones(1, 4), MODULUS), &ones(1, 4), 16),
            RESIDUE
        );
        assert_eq!(
            three(call, &ones(8, 1), &ones(1, 4), &with(ones(1, 4), MODULUS), 16),
            RESIDUE
        );
    }
}

#[test]
fn batches() {
    let (values, scalars, out) = (ones(6, 4), ones(3, 4), ones(4, 4));
    for adds in [false, true] {
        assert_eq!(batch(adds, &values, &scalars, &out), DONE);
        assert_eq!(batch(adds, &[], &[], &out), DONE);
        assert_eq!(batch(adds, &[], &scalars, &ones(1, 4)), DONE);
        assert_eq!(batch(adds, &values, &[], &out), ARITY);
        assert_eq!(batch(adds, &ones(5, 4), &scalars, &out), ARITY);
        assert_eq!(batch(adds, &values, &scalars, &ones(8, 4)), ARITY);
        assert_eq!(batch(adds, &ones(64, 4), &ones(1, 4), &out), ARITY);
        assert_eq!(batch(adds, &values, &scalars, &[]), LENGTH);
        assert_eq!(batch(adds, &values, &scalars, &ones(3, 4)), LENGTH);
        assert_eq!(batch(adds, &values[..5], &scalars, &out), LENGTH);
        assert_eq!(batch(adds, &values, &scalars[..5], &out), LENGTH);
        assert_eq!(batch(adds, &with(values.clone(), MODULUS), &scalars, &out), RESIDUE);
        assert_eq!(batch(adds, &values, &with(scalars.clone(), MODULUS), &out), RESIDUE);
    }
    // what the output holds is read only where it is added to
    assert_eq!(batch(true, &values, &scalars, &[MODULUS; 16]), RESIDUE);
    assert_eq!(batch(false, &values, &scalars, &[MODULUS; 16]), DONE);
}

fn run(table: &[u32], point: &[u32], challenges: &[u32], rounds: usize, claims: usize) -> u32 {
    let (mut rounds, mut claims) = (vec![MARK; rounds], vec![MARK; claims]);
    let ((t, t_len), (p, p_len), (c, c_len)) = (at(table), at(point), at(challenges));
    let ((r, r_len), (s, s_len)) = (at_mut(&mut rounds), at_mut(&mut claims));
    let status = unsafe { mlu_sumcheck_run(t, t_len, p, p_len, c, c_len, r, r_len, s, s_len) };
    assert!(status == DONE || rounds.iter().chain(&claims).all(|word| *word == MARK));
    status
}

#[test]
fn proofs() {
    let (table, point) = (ones(4, 4), ones(2, 4));
    assert_eq!(run(&table, &point, &point, 24, 12), DONE);
    assert_eq!(run(&ones(1, 4), &[], &[], 0, 4), DONE);
    assert_eq!(run(&ones(3, 4), &point, &point, 24, 12), LENGTH);
    assert_eq!(run(&[], &point, &point, 24, 12), LENGTH);
    assert_eq!(run(&table, &point[..7], &point, 24, 12), LENGTH);
    assert_eq!(run(&table, &point, &point[..7], 24, 12), LENGTH);
    assert_eq!(run(&table, &point, &point, 23, 12), LENGTH);
    assert_eq!(run(&table, &point, &point, 24, 11), LENGTH);
    assert_eq!(run(&table, &point, &point, 20, 12), ARITY);
    assert_eq!(run(&table, &point, &point, 0, 12), ARITY);
    assert_eq!(run(&table, &point, &point, 24, 8), ARITY);
    assert_eq!(run(&table, &point, &point, 24, 0), ARITY);
    assert_eq!(run(&table, &ones(64, 4), &ones(64, 4), 24, 12), ARITY);
    assert_eq!(run(&table, &point, &ones(1, 4), 24, 12), ARITY);
    assert_eq!(run(&with(table.clone(), MODULUS), &point, &point, 24, 12), RESIDUE);
    assert_eq!(run(&table, &with(point.clone(), MODULUS), &point, 24, 12), RESIDUE);
    assert_eq!(run(&table, &point, &with(point.clone(), MODULUS), 24, 12), RESIDUE);
}

#[test]
fn verdicts() {
    let (claim, zeros) = (ones(1, 4), [0; 24]);
    let (rounds, challenges) = (&zeros[..], ones(2, 4));
    let verify = mlu_sumcheck_verify as ThreeOperands;
    assert_eq!(three(verify, &[0; 4], rounds, &challenges, 4), DONE);
    assert_eq!(three(verify, &[0; 4], &[], &[], 4), DONE);
    assert_eq!(three(verify, &claim, rounds, &challenges, 4), REFUSED);
    assert_eq!(three(verify, &[], rounds, &challenges, 4), LENGTH);
    assert_eq!(three(verify, &claim, &rounds[..23], &challenges, 4), LENGTH);
    assert_eq!(three(verify, &claim, rounds, &challenges[..7], 4), LENGTH);
    for room in [0, 3, 5, 8] {
        assert_eq!(three(verify, &claim, rounds, &challenges, room), LENGTH);
    }
    assert_eq!(three(verify, &claim, &rounds[..20], &challenges, 4), ARITY);
    assert_eq!(three(verify, &claim, &rounds[..12], &challenges, 4), ARITY);
    assert_eq!(three(verify, &claim, rounds, &ones(64, 4), 4), ARITY);
    assert_eq!(
        three(verify, &with(claim.clone(), MODULUS), rounds, &challenges, 4),
        RESIDUE
    );
    assert_eq!(
        three(verify, &claim, &with(rounds.to_vec(), MODULUS), &challenges, 4),
        RESIDUE
    );
    assert_eq!(
        three(verify, &claim, rounds, &with(challenges.clone(), MODULUS), 4),
        RESIDUE
    );
}
