//! The operations of a fold with a fresh witness: one vector for t equal columns. The digits of the vector are the last k of
//! kt + k columns, and the t rows of the challenge that meet one of them are summed up first.

use crate::*;

/// Columns of S~, T~ and D~.
fn fresh_columns(z: &Shape) -> usize {
    z.k * z.t + z.k
}

/// Commit: 0, or the refusal.
#[inline(never)]
pub fn commit_fresh(p: [u64; 5], a: &[u64], vector: &[i64], t: &mut [u64], d: &mut [i64], leaves: &mut u32) -> u8 {
    let z = match shape(p) {
        Ok(z) => z,
        Err(number) => return number,
    };
    if a.len() != z.n * z.m || vector.len() != z.m || t.len() != z.n || d.len() != 1 {
        return 7;
    }
    if !columns_within(vector, 1, z.bound) {
        return 8;
    }
    for (row, o) in a.chunks_exact(z.m).zip(t) {
        *o = row.iter().zip(vector).fold(0u64, |sum, (x, y)| sum.wrapping_add(x.wrapping_mul(*y as u64)));
    }
    d[0] = vector.iter().map(|x| x * x).sum();
    *leaves = 1;
    0
}

/// Message: 0, or the refusal.
#[inline(never)]
pub fn message_fresh(
    p: [u64; 5], a: &[u64], s1: &[i64], vector: &[i64], v: &mut [i64], tt: &mut [u64], dd: &mut [i64], ss: &mut [i64],
) -> u8 {
    let z = match shape(p) {
        Ok(z) => z,
        Err(number) => return number,
    };
    let columns = fresh_columns(&z);
    let inputs = a.len() == z.n * z.m && s1.len() == z.m * z.t && vector.len() == z.m;
    let outputs = v.len() == z.t && tt.len() == z.n * columns && dd.len() == triangle(columns);
    if !inputs || !outputs || ss.len() != z.m * columns {
        return 7;
    }
    if !columns_within(s1, z.t, z.bound) || !columns_within(vector, 1, z.bound) {
        return 8;
    }
    v.fill(0);
    for (row, x) in s1.chunks_exact(z.t).zip(vector) {
        for (o, y) in v.iter_mut().zip(row) {
            *o += x * y;
        }
    }
    digit_witness(&z, s1, vector, 1, ss);
    commitment(a, ss, z.m, columns, tt);
    lower_products(ss, columns, dd);
    0
}

/// The challenge's first kt rows, then, for each digit, the sum of the t rows that meet it.
fn summed(z: &Shape, c: &[u8]) -> Vec<i64> {
    let (left, right) = c.split_at(z.k * z.t * z.t);
    let mut rows: Vec<i64> = left.iter().map(|v| ternary(*v)).collect();
    let mut sums = vec![0; z.k * z.t];
    for copy in right.chunks_exact(z.k * z.t) {
        for (sum, v) in sums.iter_mut().zip(copy) {
            *sum += ternary(*v);
        }
    }
    rows.extend(sums);
    rows
}

/// Folded witness: 0, or the refusal.
#[inline(never)]
pub fn fold_witness_fresh(p: [u64; 5], ss: &[i64], c: &[u8], s: &mut [i64]) -> u8 {
    let z = match shape(p) {
        Ok(z) => z,
        Err(number) => return number,
    };
    let columns = fresh_columns(&z);
    if ss.len() != z.m * columns || c.len() != z.columns * z.t || s.len() != z.m * z.t {
        return 7;
    }
    if c.iter().any(|v| *v > 2) {
        return 9;
    }
    if ss.iter().any(|x| x.unsigned_abs() > z.h) {
        return 11;
    }
    fold_exactly(ss, &summed(&z, c), |v| *v, columns, z.t, s);
    0
}

/// Recomposition: 0, or the refusal.
#[inline(never)]
pub fn recompose_fresh(p: [u64; 5], ss: &[i64], s1: &mut [i64], vector: &mut [i64]) -> u8 {
    let z = match shape(p) {
        Ok(z) => z,
        Err(number) => return number,
    };
    if ss.len() != z.m * fresh_columns(&z) || s1.len() != z.m * z.t || vector.len() != z.m {
        return 7;
    }
    write_recomposed(&z, ss, 1, s1, vector)
}

/// Join: 0, or the refusal.
#[inline(never)]
pub fn join_fresh(
    p: [u64; 5], t1: &[u64], d1: &[i64], leaves1: u32, t2: &[u64], d2: &[i64], leaves2: u32, v: &[i64],
    t: &mut [u64], d: &mut [i64], leaves: &mut u32,
) -> u8 {
    let z = match shape(p) {
        Ok(z) => z,
        Err(number) => return number,
    };
    let first = t1.len() == z.n * z.t && d1.len() == z.t * z.t;
    let second = t2.len() == z.n && d2.len() == 1 && v.len() == z.t;
    if !first || !second || t.len() != 2 * z.n * z.t || d.len() != 4 * z.t * z.t {
        return 7;
    }
    let Some(sum) = leaves_under(leaves1, leaves2) else { return 15 };
    for ((left, x), row) in t1.chunks_exact(z.t).zip(t2).zip(t.chunks_exact_mut(2 * z.t)) {
        row[..z.t].copy_from_slice(left);
        row[z.t..].fill(*x);
    }
    let (upper, lower) = d.split_at_mut(2 * z.t * z.t);
    for ((left, x), row) in d1.chunks_exact(z.t).zip(v).zip(upper.chunks_exact_mut(2 * z.t)) {
        row[..z.t].copy_from_slice(left);
        row[z.t..].fill(*x);
    }
    for row in lower.chunks_exact_mut(2 * z.t) {
        row[..z.t].copy_from_slice(v);
        row[z.t..].fill(d2[0]);
    }
    *leaves = sum;
    0
}

/// Verdict: its answer, or the refusal.
#[inline(never)]
pub fn verify_fresh(
    p: [u64; 5], t1: &[u64], d1: &[i64], leaves1: u32, t2: &[u64], d2: &[i64], leaves2: u32, v: &[i64],
    tt: &[u64], dd: &[i64], c: &[u8], t: &mut [u64], d: &mut [i64], leaves: &mut u32,
) -> u8 {
    let z = match shape(p) {
        Ok(z) => z,
        Err(number) => return number,
    };
    let columns = fresh_columns(&z);
    let instance = |t: &[u64], d: &[i64]| t.len() == z.n * z.t && d.len() == z.t * z.t;
    let sent = v.len() == z.t && tt.len() == z.n * columns && dd.len() == triangle(columns);
    let second = t2.len() == z.n && d2.len() == 1;
    if !instance(t1, d1) || !second || !sent || c.len() != z.columns * z.t || !instance(t, d) {
        return 7;
    }
    let Some(sum) = leaves_under(leaves1, leaves2) else { return 15 };
    if c.iter().any(|v| *v > 2) {
        return 9;
    }
    if dd.iter().any(|x| x.unsigned_abs() > z.limit) {
        return 10;
    }
    let answer = judged(&z, t1, d1, t2, d2, v, 1, tt, dd);
    *leaves = if answer == 0 { sum } else { 0 };
    if answer == 0 {
        let rows = summed(&z, c);
        fold_wrapping(tt, &rows, |v| *v, columns, z.t, t);
        let mut right = vec![0; columns * z.t];
        fold_symmetric(dd, &rows, |v| *v, z.t, &mut right);
        fold_transposed(&rows, &right, |v| *v, z.t, d);
    }
    answer
}
