//! What a cheating prover can count on: the ternary vectors at which a quadratic form is 0, listed one after the other.

use crate::triangle;

/// The most rows of a matrix.
const ROWS: usize = 12;

/// c-transposed e c, for the lower triangle e of a symmetric matrix.
fn form(e: &[i64], c: &[i64]) -> i64 {
    let (mut sum, mut rest) = (0, e);
    for (i, x) in c.iter().enumerate() {
        let (row, below) = rest.split_at(i + 1);
        let beside: i64 = row[..i].iter().zip(c).map(|(entry, y)| entry * y).sum();
        sum += x * (2 * beside + row[i] * x);
        rest = below;
    }
    sum
}

/// Go on to the next vector; false after the last.
fn next(c: &mut [i64]) -> bool {
    for x in c {
        if *x < 1 {
            *x += 1;
            return true;
        }
        *x = -1;
    }
    false
}

/// How many vectors take the form to 0: 0 with the count, or the refusal.
#[inline(never)]
pub fn count_zeros(n: u64, e: &[i64], count: &mut [u64]) -> u8 {
    if !(1..=ROWS as u64).contains(&n) {
        return 24;
    }
    let n = n as usize;
    if e.len() != triangle(n) || count.len() != 1 {
        return 7;
    }
    if e.iter().any(|entry| entry.unsigned_abs() > 1 << 52) {
        return 25;
    }
    let mut vector = [-1; ROWS];
    let c = &mut vector[..n];
    count[0] = u64::from(form(e, c) == 0);
    while next(c) {
        count[0] += u64::from(form(e, c) == 0);
    }
    0
}
