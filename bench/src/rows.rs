//! The library alone, in the rows that the benchmark of the Rust crate prints, under their names.
//!
//! `--n 10,16,20 --only TEXT --time SECONDS`: the numbers of variables, the rows whose name holds the text,
//! and how long each is timed. The two numbers of a row are the least and the median processor time of an
//! entry of the biggest table that is read or written; a batch counts its outputs once, and folds in
//! sequence their first table. Each is of a longer run less a shorter one, and the copies that a call in place
//! needs are taken off by such runs of their own. Freed blocks of memory are kept for later calls.

use crate::library::{Operands, Repeated};
use crate::timing::{nanoseconds, now, runs, seconds};
use crate::words;

/// The lane width of the library's rings.
const WIDTH: usize = 8;

/// Each call by its name, with its kind and its number as `mlu_bench` has them.
const CALLS: [(&str, (u32, u32)); 42] = [
    ("equality_weights_msb F", (0, 0)),
    ("equality_weights_lsb F", (0, 1)),
    ("new_from_point F", (0, 2)),
    ("equality_weights_msb EF", (3, 0)),
    ("new_from_point EF", (3, 2)),
    ("new_packed_from_point EF", (6, 3)),
    ("eval_base F at F", (9, 0)),
    ("eval_base F at EF", (9, 1)),
    ("SplitEq::eval_base F at EF (packed)", (9, 2)),
    ("SplitEq::eval_base F at EF (unpacked)", (9, 3)),
    ("eval_next_base F at EF", (9, 4)),
    ("fix_prefix_var F at F", (1, 0)),
    ("fix_prefix_var F at EF", (8, 0)),
    ("fix_prefix_var_to_packed F at EF", (6, 4)),
    ("fix_suffix_var F at F", (1, 1)),
    ("fix_suffix_var F at EF", (8, 1)),
    ("fix_prefix_var_mut F at F", (2, 0)),
    ("fix_suffix_var_mut F at F", (2, 1)),
    ("compress_prefix F at EF (n/2)", (10, 0)),
    ("compress_prefix_to_packed F at EF (n/2)", (10, 1)),
    ("compress_suffix F at EF (n/2)", (10, 2)),
    ("compress_prefix_shifted F at EF (n/2)", (10, 3)),
    ("compress_suffix_shifted F at EF (n/2)", (10, 4)),
    ("sumcheck folds F, then EF in place", (11, 0)),
    ("sumcheck folds F to packed EF in place", (11, 1)),
    ("eval_ext EF", (9, 5)),
    ("fix_prefix_var EF at EF", (4, 0)),
    ("fix_suffix_var EF at EF", (4, 1)),
    ("fix_prefix_var_mut EF at EF", (5, 0)),
    ("fix_suffix_var_mut EF at EF", (5, 1)),
    ("fix_prefix_var_mut_monomial EF at EF", (5, 2)),
    ("sumcheck folds EF in place", (5, 3)),
    ("pack EF", (6, 0)),
    ("unpack EF", (6, 1)),
    ("eval_packed EF", (6, 2)),
    ("fix_prefix_var_mut packed EF at EF", (7, 0)),
    ("sumcheck folds packed EF in place", (7, 3)),
    ("SplitEq::accumulate_into EF", (12, 0)),
    ("SplitEq::materialize EF", (12, 1)),
    ("SplitEq::accumulate_into_packed EF", (12, 2)),
    ("eval_eq_batch EF", (13, 0)),
    ("eval_eq_base_batch F to EF", (13, 1)),
];

/// The kind and the number of the call with this name.
pub fn call(name: &str) -> (u32, u32) {
    CALLS.into_iter().find(|(known, _)| *known == name).expect("a call").1
}

/// What the command line asks.
pub struct Asked {
    variables: Vec<usize>,
    only: String,
    time: f64,
}

impl Asked {
    /// What is asked by flags, or nothing where there are none.
    pub fn read() -> Option<Self> {
        let words: Vec<String> = std::env::args().skip(1).collect();
        let value = |flag: &str| words.iter().position(|word| word == flag).map(|at| words[at + 1].clone());
        let (variables, only, time) = (value("--n"), value("--only"), value("--time"));
        if variables.is_none() && only.is_none() && time.is_none() {
            return None;
        }
        let number = |word: &str| word.parse().expect("a number of variables");
        Some(Asked {
            variables: variables.map_or(vec![10, 16, 20], |list| list.split(',').map(number).collect()),
            only: only.unwrap_or_default(),
            time: time.map_or(0.1, |word| word.parse().expect("seconds")),
        })
    }
}

unsafe extern "C" {
    /// Sets a parameter of the C library's allocator.
    fn mallopt(parameter: i32, value: i32) -> i32;
}

/// Lets the allocator keep freed blocks, so that the page faults of new ones do not count.
fn keep_blocks() {
    const TRIM_THRESHOLD: i32 = -1;
    const MMAP_MAX: i32 = -4;
    let set = unsafe { [mallopt(TRIM_THRESHOLD, -1), mallopt(MMAP_MAX, 0)] };
    assert_eq!(set, [1, 1]);
}

/// The copies alone, of a call on copies of a table.
fn copies_of((kind, _): (u32, u32)) -> Option<(u32, u32)> {
    const COPIES: u32 = 4;
    matches!(kind, 2 | 5 | 7).then_some((kind, COPIES))
}

/// The nanoseconds of one call, least and median, without its copies. A fifth of the time is for the calls of
/// the shorter run; the runs of the call and of the copies are made in turns, three times each at least.
fn once(call: &Repeated, copies: Option<&Repeated>, time: f64) -> [f64; 2] {
    let rounds = runs(call, time / 5.0);
    let alone = |[call, copies]: [[f64; 2]; 2]| nanoseconds(call, rounds) - nanoseconds(copies, rounds);
    let (mut least, mut all, start) = ([[f64::MAX; 2]; 2], Vec::new(), now());
    while all.len() < 3 || now() - start < time {
        let times = [Some(call), copies].map(|side| rounds.map(|rounds| side.map_or(0.0, |side| seconds(side, rounds))));
        for (least, time) in least.iter_mut().flatten().zip(times.iter().flatten()) {
            *least = least.min(*time);
        }
        all.push(alone(times));
    }
    all.sort_by(f64::total_cmp);
    [alone(least), all[all.len() / 2]]
}

/// Prints the row of a call, where it is asked for.
fn row(asked: &Asked, name: &str, operands: &Operands, call: (u32, u32)) {
    if !name.contains(&asked.only) {
        return;
    }
    let variables = operands.variables();
    let copies = copies_of(call).map(|call| operands.repeated(call));
    let times = once(&operands.repeated(call), copies.as_ref(), asked.time);
    let [best, median] = times.map(|time| time / (1u64 << variables) as f64);
    println!("{name:<42} w={WIDTH}  n={variables:<2} {best:9.4} {median:9.4} ns/elem");
}

/// Prints the rows of tables of so many variables.
fn calls(asked: &Asked, variables: usize) {
    let mut operands = Operands {
        entries: words(4 << variables, 1),
        point: words(4 * variables, 2),
        columns: Vec::new(),
        scalars: words(4, 3),
    };
    for (name, call) in CALLS {
        if !name.contains("batch") {
            row(asked, name, &operands, call);
        }
    }
    for name in ["eval_eq_batch EF", "eval_eq_base_batch F to EF"] {
        for points in [1, 4, 16] {
            operands.columns = words(4 * variables * points, 4);
            operands.scalars = words(4 * points, 5);
            row(asked, &format!("{name}, {points} points"), &operands, call(name));
        }
    }
}

/// Prints all rows that are asked for.
pub fn print(asked: &Asked) {
    keep_blocks();
    for variables in &asked.variables {
        calls(asked, *variables);
    }
}
