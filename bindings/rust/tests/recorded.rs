//! The answers of another implementation, as `crates/mlu_replay/stdin` has them: each case whose call
//! this package has, over the base field, over the extension, and over both.

use mlu::{Error, Ext, Point, Table, eval_eq_batch, ext};

fn element(word: &str) -> Ext {
    let coefficients: Vec<u32> = word.split(':').map(|word| word.parse().unwrap()).collect();
    match coefficients[..] {
        [constant] => ext(constant),
        [c0, c1, c2, c3] => [c0, c1, c2, c3],
        _ => panic!("no element: {word}"),
    }
}

fn list(word: &str) -> Vec<Ext> {
    match word {
        "-" => vec![],
        _ => word.split(',').map(element).collect(),
    }
}

fn base(word: &str) -> Result<Table<u32>, Error> {
    Table::new(list(word).iter().map(|x| x[0]).collect())
}

fn table(word: &str) -> Result<Table<Ext>, Error> {
    Table::new(list(word))
}

fn point(word: &str) -> Point {
    Point::new(list(word))
}

/// The points as columns of a matrix.
fn columns(word: &str) -> Vec<Ext> {
    if word == "." {
        return vec![];
    }
    let points: Vec<Vec<Ext>> = word.split(';').map(list).collect();
    (0..points[0].len())
        .flat_map(|row| points.iter().map(move |point| point[row]))
        .collect()
}

fn batch(adds: &str, points: &str, scalars: &str, out: &str) -> Result<Vec<Ext>, Error> {
    let (values, scalars) = (columns(points), list(scalars));
    let mut out = table(out)?;
    match adds {
        "true" => eval_eq_batch::<true>(&values, &mut out, &scalars)?,
        _ => eval_eq_batch::<false>(&values, &mut out, &scalars)?,
    }
    Ok(out.into_evals())
}

fn fold(word: &str, r: &str, fold: fn(&mut Table<Ext>, Ext) -> Result<(), Error>) -> Result<Vec<Ext>, Error> {
    let mut table = table(word)?;
    fold(&mut table, element(r))?;
    Ok(table.into_evals())
}

/// What this package answers, and nothing where it has no such call.
fn answer(op: &str, operands: &[&str]) -> Option<Result<Vec<Ext>, Error>> {
    let one = |answer: Result<Ext, Error>| answer.map(|x| vec![x]);
    let all = |answer: Result<Table<Ext>, Error>| answer.map(Table::into_evals);
    Some(match (op, operands) {
        ("eval_base", [e, p]) => one(base(e).and_then(|e| e.eval_base(&point(p)))),
        ("eval_next_base", [e, p]) => one(base(e).and_then(|e| e.eval_next_base(&point(p)))),
        ("eval_ext", [e, p]) => one(table(e).and_then(|e| e.eval_ext(&point(p)))),
        ("compress_prefix", [e, p, s]) => all(base(e).and_then(|e| e.compress_prefix(&point(p), element(s)))),
        ("compress_suffix", [e, p, s]) => all(base(e).and_then(|e| e.compress_suffix(&point(p), element(s)))),
        ("fix_prefix_var_mut" | "fix_prefix_var_mut.base", [e, r]) => fold(e, r, Table::fix_prefix_var_mut),
        ("fix_suffix_var_mut", [e, r]) => fold(e, r, Table::fix_suffix_var_mut),
        ("new_from_point", [p, s]) => all(point(p).equality_weights_msb(element(s))),
        ("msb", [p]) => all(point(p).equality_weights_msb(ext(1))),
        ("lsb", [p]) => all(point(p).equality_weights_lsb(ext(1))),
        ("eq_batch" | "eq_base_batch", [adds, points, scalars, out]) => batch(adds, points, scalars, out),
        _ => return None,
    })
}

#[test]
fn recorded_answers() {
    let path = concat!(env!("CARGO_MANIFEST_DIR"), "/../../crates/mlu_replay/stdin");
    let cases = std::fs::read_to_string(path).unwrap();
    let (mut compared, mut no_tables) = (0, 0);
    for case in cases.lines() {
        let Some((asked, given)) = case.split_once(" = ") else {
            continue;
        };
        // The last lines are no cases.
        if given == "unknown" {
            continue;
        }
        let words: Vec<&str> = asked.split(' ').collect();
        let [op, _width, "b" | "m" | "e", operands @ ..] = &words[..] else {
            continue;
        };
        match answer(op, operands) {
            Some(Ok(answer)) => {
                assert_eq!(answer, list(given), "{case}");
                compared += 1;
            }
            // With no points the library takes an output of any length, and this package a table.
            Some(Err(Error::Length)) if op.ends_with("batch") && operands[1] == "." => no_tables += 1,
            Some(Err(error)) => panic!("{error}: {case}"),
            None => {}
        }
    }
    println!("{compared} answers compared, {no_tables} outputs that are no tables");
    assert!(compared >= 250, "{compared}");
}
