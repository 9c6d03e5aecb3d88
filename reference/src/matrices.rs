//! Matrices stored by rows.

use std::ops::Range;

/// The words as whole numbers.
pub fn whole(words: &[i64]) -> Vec<i128> {
    words.iter().map(|x| *x as i128).collect()
}

/// The words modulo 2^64, so that a negative x becomes 2^64 + x.
pub fn wrapped(words: &[i64]) -> Vec<u64> {
    words.iter().map(|x| *x as u64).collect()
}

/// The whole numbers as signed words; growth and width make every kept result fit.
pub fn words(numbers: &[i128]) -> Vec<i64> {
    let fit = |x: &i128| i64::try_from(*x).expect("a result within B or the width fits a word");
    numbers.iter().map(fit).collect()
}

/// The transposed matrix.
pub fn transposed<T: Copy>(a: &[T], rows: usize, columns: usize) -> Vec<T> {
    let mut out = Vec::new();
    for j in 0..columns {
        for i in 0..rows {
            out.push(a[i * columns + j]);
        }
    }
    out
}

/// [left right], two matrices of the same shape side by side.
pub fn beside<T: Copy>(left: &[T], right: &[T], rows: usize, columns: usize) -> Vec<T> {
    let mut out = Vec::new();
    for i in 0..rows {
        out.extend_from_slice(&left[i * columns..(i + 1) * columns]);
        out.extend_from_slice(&right[i * columns..(i + 1) * columns]);
    }
    out
}

/// The matrix in which the columns from `first` on stand so many times, all of them after all of them.
pub fn repeated<T: Copy>(a: &[T], columns: usize, first: usize, times: usize) -> Vec<T> {
    let mut out = Vec::new();
    for row in a.chunks_exact(columns) {
        out.extend_from_slice(&row[..first]);
        for _ in 0..times {
            out.extend_from_slice(&row[first..]);
        }
    }
    out
}

/// A square matrix with its columns from `first` on repeated, and its rows from `first` on as well.
pub fn repeated_square<T: Copy>(a: &[T], columns: usize, first: usize, times: usize) -> Vec<T> {
    let wide = repeated(a, columns, first, times);
    let row = wide.len() / columns;
    // All rows are one row here, so that whole rows are repeated.
    repeated(&wide, wide.len(), first * row, times)
}

/// The columns of a matrix from one number to another.
pub fn columns_of<T: Copy>(a: &[T], columns: usize, kept: Range<usize>) -> Vec<T> {
    a.chunks_exact(columns).flat_map(|row| row[kept.clone()].to_vec()).collect()
}

/// The first columns of a matrix.
pub fn cut<T: Copy>(a: &[T], columns: usize, kept: usize) -> Vec<T> {
    columns_of(a, columns, 0..kept)
}

/// The first rows and columns of a square matrix.
pub fn cut_square<T: Copy>(a: &[T], columns: usize, kept: usize) -> Vec<T> {
    cut(&a[..kept * columns], columns, kept)
}

/// How many entries the lower triangle of a square matrix with so many rows has, the diagonal included.
pub fn triangle_length(rows: usize) -> usize {
    rows * (rows + 1) / 2
}

/// The lower triangle of a square matrix by rows: entry (i, j), j at most i, stands at i(i + 1)/2 + j.
pub fn lower<T: Copy>(a: &[T], rows: usize) -> Vec<T> {
    (0..rows).flat_map(|i| a[i * rows..i * rows + i + 1].to_vec()).collect()
}

/// The symmetric matrix of which this is the lower triangle by rows.
pub fn mirrored<T: Copy>(triangle: &[T], rows: usize) -> Vec<T> {
    let entry = |i: usize, j: usize| triangle[triangle_length(i.max(j)) + i.min(j)];
    (0..rows).flat_map(|i| (0..rows).map(move |j| entry(i, j))).collect()
}

/// The product of a rows by inner and an inner by columns matrix in whole numbers.
pub fn product(a: &[i128], b: &[i128], rows: usize, inner: usize, columns: usize) -> Vec<i128> {
    let mut out = vec![0; rows * columns];
    for i in 0..rows {
        for j in 0..columns {
            for l in 0..inner {
                out[i * columns + j] += a[i * inner + l] * b[l * columns + j];
            }
        }
    }
    out
}

/// The same product modulo 2^64.
pub fn wrapping_product(a: &[u64], b: &[u64], rows: usize, inner: usize, columns: usize) -> Vec<u64> {
    let mut out = vec![0u64; rows * columns];
    for i in 0..rows {
        for j in 0..columns {
            for l in 0..inner {
                let term = a[i * inner + l].wrapping_mul(b[l * columns + j]);
                out[i * columns + j] = out[i * columns + j].wrapping_add(term);
            }
        }
    }
    out
}

/// Left transposed times right in whole numbers, both rows by columns.
pub fn inner_products(left: &[i64], right: &[i64], rows: usize, columns: usize) -> Vec<i128> {
    let flat = transposed(&whole(left), rows, columns);
    product(&flat, &whole(right), columns, rows, columns)
}

/// The exact squared length of column j, also for entries such as −2^63; nothing from 2^128 on.
pub fn squared_length(s: &[i64], rows: usize, columns: usize, j: usize) -> Option<u128> {
    let mut sum = 0u128;
    for i in 0..rows {
        let size = s[i * columns + j].unsigned_abs() as u128;
        sum = sum.checked_add(size * size)?;
    }
    Some(sum)
}
