//! The calls as a Rust program would write them over words, with the library's reductions.

pub const P: u32 = 2013265921;

/// Coefficients of an element modulo X^4 - 11.
pub type Ext = [u32; 4];

pub const ZERO: Ext = [0; 4];
pub const ONE: Ext = [1, 0, 0, 0];

#[inline(always)]
pub fn reduce_once(x: u32) -> u32 {
    x.min(x.wrapping_sub(P))
}

/// The remainder of a product: a quotient estimate in place of a division.
#[inline(always)]
pub fn reduce_product(x: u64) -> u32 {
    let quotient = ((x >> 30) % (1 << 32)) * 2290649223 >> 32;
    reduce_once((x - quotient * u64::from(P)) as u32)
}

/// The remainder of a sum of four products.
#[inline(always)]
fn reduce(x: u64) -> u32 {
    let high = x >> 32;
    let y = ((high << 28) - (high << 1)) + x % (1 << 32);
    let quotient = ((y >> 28) % (1 << 32)) * 2290649223 >> 34;
    reduce_once((y - quotient * u64::from(P)) as u32)
}

#[inline(always)]
fn product(a: u32, b: u32) -> u32 {
    reduce_product(u64::from(a) * u64::from(b))
}

#[inline(always)]
fn dot(a: Ext, b: Ext) -> u32 {
    reduce((0..4).map(|k| u64::from(a[k]) * u64::from(b[k])).sum())
}

#[inline(always)]
pub fn add(a: Ext, b: Ext) -> Ext {
    std::array::from_fn(|k| reduce_once(a[k] + b[k]))
}

#[inline(always)]
fn sub(a: Ext, b: Ext) -> Ext {
    std::array::from_fn(|k| reduce_once(a[k] + (P - b[k])))
}

#[inline(always)]
fn scale(a: Ext, b: u32) -> Ext {
    a.map(|c| product(c, b))
}

#[inline(always)]
fn mul(a: Ext, b: Ext) -> Ext {
    let [b1, b2, b3] = [b[1], b[2], b[3]].map(|c| product(c, 11));
    [
        dot(a, [b[0], b3, b2, b1]),
        dot(a, [b[1], b[0], b3, b2]),
        dot(a, [b[2], b[1], b[0], b3]),
        dot(a, [b[3], b[2], b[1], b[0]]),
    ]
}

/// The weights of all vertices, coordinate 0 at the highest bit, times a scale.
pub fn table(point: &[Ext], first: Ext) -> Vec<Ext> {
    let mut table = vec![ZERO; 1 << point.len()];
    table[0] = first;
    for (k, z) in point.iter().rev().enumerate() {
        let (low, high) = table[..2 << k].split_at_mut(1 << k);
        for (x, y) in low.iter_mut().zip(high) {
            *y = mul(*x, *z);
            *x = sub(*x, *y);
        }
    }
    table
}

/// Sets the first variable.
pub fn fold(table: &mut Vec<Ext>, r: Ext) {
    let half = table.len() / 2;
    let (low, high) = table.split_at_mut(half);
    for (x, y) in low.iter_mut().zip(high) {
        *x = add(*x, mul(r, sub(*y, *x)));
    }
    table.truncate(half);
}

fn value(mut table: Vec<Ext>, point: &[Ext]) -> Ext {
    for r in point {
        fold(&mut table, *r);
    }
    table[0]
}

/// The value of a table over the base: the first fold goes to the extension.
pub fn eval_base(base: &[u32], point: &[Ext]) -> Ext {
    let (low, high) = base.split_at(base.len() / 2);
    let folded = low.iter().zip(high).map(|(x, y)| {
        let mut image = scale(point[0], reduce_once(y + (P - x)));
        image[0] = reduce_once(image[0] + x);
        image
    });
    value(folded.collect(), &point[1..])
}

pub fn eval_ext(ext: &[Ext], point: &[Ext]) -> Ext {
    let (low, high) = ext.split_at(ext.len() / 2);
    let folded = low.iter().zip(high).map(|(x, y)| add(*x, mul(point[0], sub(*y, *x))));
    value(folded.collect(), &point[1..])
}

/// Sets the last variable.
pub fn fold_suffix(table: &mut Vec<Ext>, r: Ext) {
    let half = table.len() / 2;
    for i in 0..half {
        table[i] = add(table[2 * i], mul(r, sub(table[2 * i + 1], table[2 * i])));
    }
    table.truncate(half);
}

pub fn compress_prefix(base: &[u32], part: &[Ext], first: Ext) -> Vec<Ext> {
    let weights = table(part, first);
    let mut out = vec![ZERO; base.len() / weights.len()];
    for (row, weight) in base.chunks_exact(out.len()).zip(weights) {
        for (x, b) in out.iter_mut().zip(row) {
            *x = add(*x, scale(weight, *b));
        }
    }
    out
}

fn dot_base(weights: &[Ext], row: &[u32]) -> Ext {
    weights.iter().zip(row).fold(ZERO, |sum, (w, b)| add(sum, scale(*w, *b)))
}

pub fn compress_suffix(base: &[u32], part: &[Ext], first: Ext) -> Vec<Ext> {
    let weights = table(part, first);
    base.chunks_exact(weights.len()).map(|row| dot_base(&weights, row)).collect()
}

/// The value by the tables of the two halves of a point.
pub fn split_value(base: &[u32], left: &[Ext], right: &[Ext]) -> Ext {
    let rows = base.chunks_exact(right.len()).zip(left);
    rows.fold(ZERO, |sum, (row, weight)| add(sum, mul(*weight, dot_base(right, row))))
}

/// The tables of all points, each with its scalar, added up.
pub fn batch(points: &[Vec<Ext>], scalars: &[Ext]) -> Vec<Ext> {
    let mut out = vec![ZERO; 1 << points[0].len()];
    for (point, scalar) in points.iter().zip(scalars) {
        for (x, weight) in out.iter_mut().zip(table(point, *scalar)) {
            *x = add(*x, weight);
        }
    }
    out
}

/// The sum of the products of both tables.
pub fn products(poly: &[Ext], weights: &[Ext]) -> Ext {
    poly.iter().zip(weights).fold(ZERO, |sum, (value, weight)| add(sum, mul(*weight, *value)))
}

/// The coefficients of 1, X and X^2 of that sum with the first variable of both tables at X.
pub fn round(poly: &[Ext], weights: &[Ext]) -> [Ext; 3] {
    let (low, high) = poly.split_at(poly.len() / 2);
    let (low_weights, high_weights) = weights.split_at(weights.len() / 2);
    let [mut at_zero, mut at_one, mut quadratic] = [ZERO; 3];
    for ((x, y), (v, w)) in low.iter().zip(high).zip(low_weights.iter().zip(high_weights)) {
        at_zero = add(at_zero, mul(*v, *x));
        at_one = add(at_one, mul(*w, *y));
        quadratic = add(quadratic, mul(sub(*w, *v), sub(*y, *x)));
    }
    [at_zero, sub(sub(at_one, at_zero), quadratic), quadratic]
}

/// The round that adds up to the claim.
pub fn round_of_claim(poly: &[Ext], weights: &[Ext], claim: Ext) -> [Ext; 3] {
    let (low, high) = poly.split_at(poly.len() / 2);
    let (low_weights, high_weights) = weights.split_at(weights.len() / 2);
    let [mut at_zero, mut quadratic] = [ZERO; 2];
    for ((x, y), (v, w)) in low.iter().zip(high).zip(low_weights.iter().zip(high_weights)) {
        at_zero = add(at_zero, mul(*v, *x));
        quadratic = add(quadratic, mul(sub(*w, *v), sub(*y, *x)));
    }
    [at_zero, sub(sub(sub(claim, at_zero), at_zero), quadratic), quadratic]
}

/// The value of a round at `r`.
pub fn value_at([constant, linear, quadratic]: [Ext; 3], r: Ext) -> Ext {
    add(constant, mul(r, add(linear, mul(r, quadratic))))
}

/// The rounds of sumcheck and the claims between them; the weights are those of two halves of a
/// point.
pub fn sumcheck(poly: &[Ext], left: &[Ext], right: &[Ext], challenges: &[Ext]) -> (Vec<[Ext; 3]>, Vec<Ext>) {
    let mut poly = poly.to_vec();
    let mut weights: Vec<Ext> = left.iter().flat_map(|x| right.iter().map(|y| mul(*x, *y))).collect();
    let mut rounds = Vec::with_capacity(challenges.len());
    let mut claim = products(&poly, &weights);
    let mut claims = vec![claim];
    for r in challenges {
        let round = round_of_claim(&poly, &weights, claim);
        fold(&mut poly, *r);
        fold(&mut weights, *r);
        rounds.push(round);
        claim = value_at(round, *r);
        claims.push(claim);
    }
    (rounds, claims)
}
