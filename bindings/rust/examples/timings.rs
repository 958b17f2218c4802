//! Nanoseconds an entry of the table that a call is made on, or that it makes, copies in and out
//! included: the least of some rounds, at 10, 16 and 20 variables.

use mlu::{Ext, MODULUS, Point, Table, eval_eq_batch, ext, sumcheck};
use std::hint::black_box;
use std::time::Instant;

fn words(count: usize) -> Vec<u32> {
    (0..count as u64)
        .map(|i| (i * 2654435761 % u64::from(MODULUS)) as u32)
        .collect()
}

fn elements(count: usize) -> Vec<Ext> {
    words(4 * count).as_chunks().0.to_vec()
}

fn least(entries: usize, mut run: impl FnMut()) -> f64 {
    let rounds = ((1 << 21) / entries).max(3);
    let mut least = f64::MAX;
    for _ in 0..rounds.min(200) {
        let start = Instant::now();
        run();
        least = least.min(start.elapsed().as_secs_f64());
    }
    least * 1e9 / entries as f64
}

fn main() -> Result<(), mlu::Error> {
    println!("| Call | n = 10 | n = 16 | n = 20 |\n|---|---|---|---|");
    let mut rows: Vec<(&str, Vec<f64>)> = Vec::new();
    for n in [10, 16, 20] {
        let entries = 1 << n;
        let base = Table::new(words(entries))?;
        let table = Table::new(elements(entries))?;
        let coordinates = elements(n);
        let point = Point::new(coordinates.clone());
        let part = Point::new(coordinates[..n / 2].to_vec());
        let one = ext(1);
        let mut row = |name, run: &mut dyn FnMut()| {
            let time = least(entries, run);
            match rows.iter_mut().find(|(other, _)| *other == name) {
                Some((_, times)) => times.push(time),
                None => rows.push((name, vec![time])),
            }
        };
        row("`equality_weights_msb`", &mut || {
            drop(black_box(point.equality_weights_msb(one).unwrap()))
        });
        row("`eval_base`", &mut || {
            assert_ne!(black_box(base.eval_base(&point).unwrap()), ext(0))
        });
        row("`eval_ext`", &mut || {
            assert_ne!(black_box(table.eval_ext(&point).unwrap()), ext(0))
        });
        row("a copy of a table", &mut || drop(black_box(table.clone())));
        row("`fix_prefix_var_mut`, with that copy", &mut || {
            table.clone().fix_prefix_var_mut(point.as_slice()[0]).unwrap()
        });
        row("`fix_suffix_var_mut`, with that copy", &mut || {
            table.clone().fix_suffix_var_mut(point.as_slice()[0]).unwrap()
        });
        row("`compress_prefix`", &mut || {
            drop(black_box(base.compress_prefix(&part, one).unwrap()))
        });
        row("`compress_suffix`", &mut || {
            drop(black_box(base.compress_suffix(&part, one).unwrap()))
        });
        let mut out = table.clone();
        row("`eval_eq_batch`, 1 point", &mut || {
            eval_eq_batch::<false>(&coordinates, &mut out, &[one]).unwrap()
        });
        row("`sumcheck::run`", &mut || {
            drop(black_box(sumcheck::run(&table, &point, &coordinates).unwrap()))
        });
    }
    for (name, times) in rows {
        let times: Vec<String> = times.iter().map(|time| format!("{time:.1}")).collect();
        println!("| {name} | {} |", times.join(" | "));
    }
    Ok(())
}
