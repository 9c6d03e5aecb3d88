//! The digit rule.

mod common;
use common::random_setting;
use reference::digits::{digit_matrix, digits};
use reference::rng::Rng;

/// The sum of digit p times b^p.
fn recomposed(row: &[i64], b: u64) -> i128 {
    row.iter().rev().fold(0, |sum, digit| sum * b as i128 + *digit as i128)
}

#[test]
fn points() {
    assert_eq!(digits(7, 2, 5), [1, 1, 1, 0, 0]);
    assert_eq!(digits(-5, 2, 5), [-1, 0, -1, 0, 0]);
    assert_eq!(digits(5, 3, 3), [-1, -1, 1]);
    assert_eq!(digits(6, 4, 3), [2, 1, 0]);
    assert_eq!(digits(7, 4, 3), [-1, 2, 0]);
    assert_eq!(digits(-1, 2, 3), [-1, 0, 0]);
}

#[test]
fn carry_by_arithmetic() {
    // Document 02, request 4. What is left of d is 0 or the 1 that the rule adds, which is its own digit.
    for b in (2..=2000).chain([65534, 65535, 1 << 20]) {
        let h = b / 2;
        for d in 0..b {
            let carry = (d + b - 1 - h) / b;
            assert_eq!(digits(d as i64, b, 2), [d as i64 - (b * carry) as i64, carry as i64], "{d} to the base {b}");
        }
    }
}

#[test]
fn even_base_takes_size_first() {
    assert_eq!(digits(2, 4, 2), [2, 0]);
    assert_eq!(digits(-2, 4, 2), [-2, 0]);
    assert_eq!(digits(-6, 4, 3), [-2, -1, 0]);
    assert_eq!(digits(-7, 4, 3), [1, -2, 0]);
}

#[test]
fn least_word() {
    let mut row = vec![0; 65];
    row[63] = -1;
    assert_eq!(digits(i64::MIN, 2, 65), row);
    for b in [2, 3, 4, 5, 10, 1625, 65535] {
        assert_eq!(recomposed(&digits(i64::MIN, b, 65), b), i64::MIN as i128);
        assert_eq!(recomposed(&digits(i64::MAX, b, 65), b), i64::MAX as i128);
    }
    assert_eq!(digits(i64::MIN, 2, 5), [0; 5]);
    assert_eq!(digits(i64::MIN + 1, 2, 3), [-1, -1, -1]);
}

#[test]
fn rest_is_dropped_after_k_digits() {
    assert_eq!(digits(7, 2, 2), [1, 1]);
    assert_eq!(digits(5, 3, 2), [-1, -1]);
    assert_eq!(digits(9, 2, 0), [0i64; 0]);
}

#[test]
fn senseless_base_has_no_digits() {
    assert_eq!(digits(9, 0, 4), [0i64; 0]);
    assert_eq!(digits(9, 1, 4), [0i64; 0]);
}

#[test]
fn in_range_and_recomposed() {
    let mut rng = Rng::new(21);
    for _ in 0..200000 {
        let b = if rng.word() % 2 == 0 { rng.between(2, 12) } else { rng.between(2, 65535) } as u64;
        let entry = (rng.word() as i64) >> rng.between(0, 63);
        let row = digits(entry, b, 66);
        assert_eq!(recomposed(&row, b), entry as i128);
        // A positive entry's digits lie above −b/2 and up to b/2, which makes them unique.
        for digit in &row {
            let signed = if entry < 0 { -digit } else { *digit } as i128;
            assert!(2 * signed <= b as i128 && 2 * signed > -(b as i128), "{entry} {b} {row:?}");
        }
        if entry != i64::MIN {
            let negated: Vec<i64> = digits(-entry, b, 66).iter().map(|x| -x).collect();
            assert_eq!(row, negated);
        }
        let k = rng.between(0, 40) as usize;
        assert_eq!(digits(entry, b, k), row[..k], "the first k digits do not depend on k");
    }
}

#[test]
fn k_digits_are_enough_within_the_bound() {
    let mut rng = Rng::new(22);
    for round in 0..60 {
        let p = if round < 4 { reference::settings::LIST[round] } else { random_setting(&mut rng, 512) };
        let r = p.bound.isqrt() as i64;
        let mut entries: Vec<i64> = (0..2000).map(|_| rng.between(-r as i128, r as i128) as i64).collect();
        entries.extend(r - r.min(500)..=r);
        entries.extend(-r..=-r + r.min(500));
        for entry in entries {
            let row = digits(entry, p.b, p.k() as usize);
            assert_eq!(recomposed(&row, p.b), entry as i128, "{p:?} {entry}");
            assert!(row.iter().all(|digit| digit.unsigned_abs() <= p.h()));
        }
    }
}

#[test]
fn placement() {
    // Two rows, two columns, b = 3, k = 3: column j, digit p in column 3j + p.
    let out = digit_matrix(&[5, 1, -5, 4], 2, 2, 3, 3);
    assert_eq!(out, [-1, -1, 1, 1, 0, 0, 1, 1, -1, 1, 1, 0]);
}
