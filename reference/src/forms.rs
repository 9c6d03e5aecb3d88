//! What a cheating prover can count on: at how many ternary vectors a quadratic form is 0, by request 12's sentences.

use crate::matrices::{mirrored, triangle_length};
use crate::operations::Answer;

/// The most rows of E.
pub const GREATEST_ROWS: u64 = 12;

/// The greatest entry of E; the least is its negative.
pub const GREATEST_ENTRY: i64 = 1 << 52;

/// The vector of so many entries with this number: the number's digits in base 3, each less 1.
fn vector(entries: usize, mut number: u64) -> Vec<i64> {
    let mut c = Vec::with_capacity(entries);
    for _ in 0..entries {
        c.push((number % 3) as i64 - 1);
        number /= 3;
    }
    c
}

/// A sum of products.
fn dot(x: &[i64], y: &[i64]) -> i64 {
    x.iter().zip(y).map(|(a, b)| a * b).sum()
}

/// c-transposed E c, for E as a square: at most 144 terms, none above 2^52 in size, so that every sum fits.
fn form(e: &[i64], c: &[i64]) -> i64 {
    let products: Vec<i64> = e.chunks_exact(c.len()).map(|row| dot(row, c)).collect();
    dot(c, &products)
}

/// How many vectors of −1, 0 and 1 there are with c-transposed E c = 0, for E as a square: all are listed.
fn zeros(e: &[i64], rows: usize) -> u64 {
    let all = 3u64.pow(rows as u32);
    (0..all).filter(|number| form(e, &vector(rows, *number)) == 0).count() as u64
}

/// Count the ternary vectors c with c-transposed E c = 0. E has n rows and is symmetric, and its lower triangle is
/// lent; the count has one place. 24 for n, then 7 for other lengths, then 25 for an entry.
pub fn count_zeros(n: u64, e: &[i64], count: &mut [u64]) -> Answer {
    if n == 0 || n > GREATEST_ROWS {
        return Answer::Refused(24);
    }
    let rows = n as usize;
    if e.len() != triangle_length(rows) || count.len() != 1 {
        return Answer::Refused(7);
    }
    if e.iter().any(|entry| *entry > GREATEST_ENTRY || *entry < -GREATEST_ENTRY) {
        return Answer::Refused(25);
    }
    count[0] = zeros(&mirrored(e, rows), rows);
    Answer::Done
}
