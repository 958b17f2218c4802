//! The library beside plain Rust, in one run: element operations, then calls on tables and points, and
//! sumcheck.
//!
//! Rows are interleaved and the least of many rounds counts, by the processor time of the thread: trust the
//! ratios, not the times.
//!
//! With `--n`, `--only` or `--time`, the library alone, in rows as the benchmark of the Rust crate prints
//! them ([`rows`]). With other words, only the calls whose name has each word, or whose number of variables it is:
//! `cargo run --release -- eval_base 16`.

mod library;
mod plain;
mod rows;
mod timing;

use library::{Operands, Repeated, mlu_bench_lanes, mlu_bench_scalar};
use plain::{Ext, ONE, P, ZERO, add, reduce_once, reduce_product};
use std::hint::black_box;
use timing::{now, runs, seconds};

/// The same operations as a Rust program would write them, over words.
#[inline(never)]
fn plain_operation(out: &mut [u32], b: &[u32], operation: u32, rounds: usize) {
    for _ in 0..rounds {
        match operation {
            0 => out.iter_mut().zip(b).for_each(|(x, y)| *x = reduce_once(*x + y)),
            1 => out.iter_mut().zip(b).for_each(|(x, y)| *x = reduce_once(*x + (P - y))),
            2 => out.iter_mut().zip(b).for_each(|(x, y)| *x = (u64::from(*x) * u64::from(*y) % u64::from(P)) as u32),
            _ => out.iter_mut().zip(b).for_each(|(x, y)| *x = reduce_product(u64::from(*x) * u64::from(*y))),
        }
    }
}

fn nanoseconds(elements: usize, rounds: usize, run: impl FnOnce(usize)) -> f64 {
    let start = now();
    run(rounds);
    (now() - start) * 1e9 / (elements * rounds) as f64
}

fn operations() {
    const ELEMENTS: usize = 1 << 12;
    const ROUNDS: usize = 200;
    let a: Vec<u32> = (0..ELEMENTS as u64).map(|i| (i * 2654435761 % u64::from(P)) as u32).collect();
    let b: Vec<u32> = (0..ELEMENTS as u64).map(|i| (i * 40503 % u64::from(P)) as u32).collect();
    println!("| operation | plain Rust (ns an element) | elements | lanes | elements to Rust | lanes to Rust |");
    println!("|---|---|---|---|---|---|");
    for (operation, name) in [(0, "add"), (1, "subtract"), (2, "multiply, Rust by `%`"), (3, "multiply, Rust by the same estimate")] {
        let mut least = [f64::MAX; 3];
        let mut kept = [a.clone(), a.clone(), a.clone()];
        for _ in 0..30 {
            kept = [a.clone(), a.clone(), a.clone()];
            let [x, y, z] = &mut kept;
            least[0] = least[0].min(nanoseconds(ELEMENTS, ROUNDS, |n| plain_operation(x, &b, operation, n)));
            least[1] = least[1].min(nanoseconds(ELEMENTS, ROUNDS, |n| unsafe {
                assert!(mlu_bench_scalar(y.as_mut_ptr(), y.len(), b.as_ptr(), b.len(), operation, n));
            }));
            least[2] = least[2].min(nanoseconds(ELEMENTS, ROUNDS, |n| unsafe {
                assert!(mlu_bench_lanes(z.as_mut_ptr(), z.len(), b.as_ptr(), b.len(), operation, n));
            }));
        }
        assert_eq!(kept[0], kept[1], "{name}");
        assert_eq!(kept[0][0], kept[2][0], "{name}");
        println!(
            "| {name} | {:.2} | {:.2} | {:.2} | {:.2} | {:.2} |",
            least[0], least[1], least[2], least[1] / least[0], least[2] / least[0]
        );
    }
}

/// Words below the modulus that look random.
fn words(count: usize, seed: u64) -> Vec<u32> {
    let mut state = seed;
    let mut next = || {
        state = state.wrapping_mul(6364136223846793005).wrapping_add(1442695040888963407);
        ((state >> 33) % u64::from(P)) as u32
    };
    (0..count).map(|_| next()).collect()
}

fn extensions(words: &[u32]) -> Vec<Ext> {
    words.chunks_exact(4).map(|c| [c[0], c[1], c[2], c[3]]).collect()
}

/// Sums what a call answers, as the library's side does.
fn repeated<'a>(call: impl Fn() -> Ext + 'a) -> Repeated<'a> {
    Box::new(move |rounds| (0..rounds).fold(ZERO, |sum, _| add(sum, black_box(call()))))
}

/// As [`repeated`], on a copy of the table whose first entry then is the next, as the library's side does.
fn repeated_values<'a, T: Copy>(table: &'a [T], next: fn(T) -> T, value: impl Fn(&[T]) -> Ext + 'a) -> Repeated<'a> {
    Box::new(move |rounds| {
        let (mut table, mut sum) = (table.to_vec(), ZERO);
        for _ in 0..rounds {
            sum = add(sum, black_box(value(&table)));
            table[0] = next(table[0]);
        }
        sum
    })
}

/// Folds of copies of the table, which are made in runs as the library's side makes them.
fn repeated_folds<'a>(table: &'a [Ext], fold: impl Fn(&mut Vec<Ext>) + 'a) -> Repeated<'a> {
    let run = 1 << 14_u32.saturating_sub(table.len().ilog2());
    Box::new(move |rounds| {
        let mut sum = ZERO;
        for made in (0..rounds).step_by(run) {
            for mut copy in black_box(vec![table.to_vec(); run.min(rounds - made)]) {
                fold(&mut copy);
                sum = add(sum, black_box(copy[0]));
            }
        }
        sum
    })
}

/// Whether the row is asked for: each word of the command line stands in its name or is its size.
fn is_wanted(name: &str, variables: usize) -> bool {
    std::env::args().skip(1).all(|word| name.contains(&word) || word == variables.to_string())
}

/// The nanoseconds an entry of one call of each side.
fn times(variables: usize, sides: &[Repeated]) -> Vec<f64> {
    let mut sides: Vec<_> = sides.iter().map(|side| (side, runs(side, 0.005), [f64::MAX; 2])).collect();
    for _ in 0..12 {
        for (side, rounds, least) in &mut sides {
            for (least, rounds) in least.iter_mut().zip(*rounds) {
                *least = least.min(seconds(side, rounds));
            }
        }
    }
    let entries = (1u64 << variables) as f64;
    sides.iter().map(|(_, rounds, least)| timing::nanoseconds(*least, *rounds) / entries).collect()
}

fn print_row(name: &str, variables: usize, rust: f64, library: f64) {
    println!("| {name} | {variables} | {rust:.2} | {library:.2} | {:.2} |", library / rust);
}

fn row(name: &str, variables: usize, sides: [Repeated; 2]) {
    if !is_wanted(name, variables) {
        return;
    }
    let times = times(variables, &sides);
    assert_eq!(sides[0](3), sides[1](3), "{name}");
    print_row(name, variables, times[0], times[1]);
}

fn calls(variables: usize) {
    let operands = Operands {
        entries: words(4 << variables, 1),
        point: words(4 * variables, 2),
        columns: Vec::new(),
        scalars: ONE.to_vec(),
    };
    let library = |name| operands.repeated(rows::call(name));
    let base = &operands.entries[..1 << variables];
    let next: fn(u32) -> u32 = |x| reduce_once(x + 1);
    let (ext, z) = (extensions(&operands.entries), extensions(&operands.point));
    let r = ONE;
    let halves = z.split_at(z.len() / 2);
    let (left, right) = (plain::table(halves.0, ONE), plain::table(halves.1, ONE));
    row("equality table", variables, [repeated(|| plain::table(&z, ONE)[0]), library("new_from_point EF")]);
    row("`eval_base`", variables, [repeated_values(base, next, |table| plain::eval_base(table, &z)), library("eval_base F at EF")]);
    row("`eval_ext`", variables, [repeated_values(&ext, |x| add(x, ONE), |table| plain::eval_ext(table, &z)), library("eval_ext EF")]);
    let [prefix, suffix] = ["fix_prefix_var_mut EF at EF", "fix_suffix_var_mut EF at EF"].map(library);
    row("`fix_prefix_var_mut`, and a copy", variables, [repeated_folds(&ext, |table| plain::fold(table, r)), prefix]);
    row("`fix_suffix_var_mut`, and a copy", variables, [repeated_folds(&ext, |table| plain::fold_suffix(table, r)), suffix]);
    let [prefix, suffix] = ["compress_prefix F at EF (n/2)", "compress_suffix F at EF (n/2)"].map(library);
    row("`compress_prefix`, half of the variables", variables, [repeated(|| plain::compress_prefix(base, halves.0, ONE)[0]), prefix]);
    row("`compress_suffix`, half of the variables", variables, [repeated(|| plain::compress_suffix(base, halves.1, ONE)[0]), suffix]);
    let split = library("SplitEq::eval_base F at EF (packed)");
    row("`SplitEq::eval_base`", variables, [repeated_values(base, next, |table| plain::split_value(table, &left, &right)), split]);
}

fn batches(variables: usize, points: usize) {
    let operands = Operands {
        entries: words(4 << variables, 1),
        point: words(4 * variables, 2),
        columns: words(4 * variables * points, 4),
        scalars: words(4 * points, 5),
    };
    let coordinates = extensions(&operands.columns);
    let columns: Vec<Vec<Ext>> = (0..points).map(|j| (0..variables).map(|i| coordinates[i * points + j]).collect()).collect();
    let factors = extensions(&operands.scalars);
    let rust = repeated(|| plain::batch(&columns, &factors)[0]);
    let library = operands.repeated(rows::call("eval_eq_batch EF"));
    row(&format!("`eval_eq_batch`, points: {points}"), variables, [rust, library]);
}

/// The whole proof of sumcheck, by kind and number.
const PROOF: (u32, u32) = (14, 0);

/// The kind of the parts of sumcheck.
const ROUNDS: u32 = 15;

fn sumcheck(variables: usize) {
    let operands = Operands {
        entries: words(4 << variables, 6),
        point: words(4 * variables, 7),
        columns: words(4 * variables, 8),
        scalars: ONE.to_vec(),
    };
    let (poly, z, values) = (extensions(&operands.entries), extensions(&operands.point), extensions(&operands.columns));
    let halves = z.split_at(z.len() / 2);
    let (left, right) = (plain::table(halves.0, ONE), plain::table(halves.1, ONE));
    let whole = || plain::sumcheck(&poly, &left, &right, &values).1.into_iter().fold(ZERO, add);
    row("sumcheck run", variables, [repeated(whole), operands.repeated(PROOF)]);
    let weights = plain::table(&z, ONE);
    one_round(variables, &poly, &weights, values[0], |number| operands.repeated((ROUNDS, number)));
}

const ONE_ROUND: [&str; 5] = [
    "sumcheck round of a claim and fold, and copies",
    "sumcheck round and fold, and copies",
    "sumcheck fold, and copies",
    "sumcheck copies",
    "sumcheck one pass",
];

/// A round and its fold, with its claim known and without, beside the fold alone and one pass over both
/// tables, interleaved.
fn one_round<'a>(variables: usize, poly: &'a [Ext], weights: &'a [Ext], r: Ext, library: impl Fn(u32) -> Repeated<'a>) {
    if !ONE_ROUND.iter().any(|name| is_wanted(name, variables)) {
        return;
    }
    let copies = || black_box([poly.to_vec(), weights.to_vec()]);
    let folded = |[mut poly, mut weights]: [Vec<Ext>; 2]| {
        plain::fold(&mut poly, r);
        plain::fold(&mut weights, r);
        add(poly[0], weights[0])
    };
    let round_of_claim_and_fold = move || {
        let tables = copies();
        let value = plain::value_at(plain::round_of_claim(&tables[0], &tables[1], r), r);
        add(value, folded(tables))
    };
    let round_and_fold = move || {
        let tables = copies();
        let value = plain::value_at(plain::round(&tables[0], &tables[1]), r);
        add(value, folded(tables))
    };
    let copied = move || {
        let [poly, weights] = copies();
        add(poly[0], weights[0])
    };
    let sides = [
        repeated(round_of_claim_and_fold), library(5),
        repeated(round_and_fold), library(4),
        repeated(move || folded(copies())), library(3),
        repeated(copied), library(2),
        repeated(|| plain::products(poly, weights)), library(1),
    ];
    let times = times(variables, &sides);
    for (i, name) in ONE_ROUND.iter().enumerate() {
        assert_eq!(sides[2 * i](3), sides[2 * i + 1](3), "{name}");
        print_row(name, variables, times[2 * i], times[2 * i + 1]);
    }
    print_ratios(variables, &times);
}

/// A round and its fold, to the fold and one pass, each less its copies.
fn print_ratios(variables: usize, times: &[f64]) {
    let to_both = |first: usize, side: usize| {
        let [both, fold, copies, pass] = [first, 4, 6, 8].map(|i| times[i + side]);
        (both - copies) / (fold - copies + pass)
    };
    for (name, first) in [("round of a claim", 0), ("round", 2)] {
        let [rust, library] = [0, 1].map(|side| to_both(first, side));
        println!("| sumcheck {name} and fold, to fold and one pass | {variables} | {rust:.2} | {library:.2} | |");
    }
}

fn main() {
    if let Some(asked) = rows::Asked::read() {
        return rows::print(&asked);
    }
    if std::env::args().len() == 1 {
        operations();
    }
    println!("\n| call | variables | plain Rust (ns an entry) | library | ratio |");
    println!("|---|---|---|---|---|");
    for variables in [10, 16, 20] {
        calls(variables);
        for points in [1, 4, 16] {
            batches(variables, points);
        }
        sumcheck(variables);
    }
}
