//! The static library's functions, on slices. `products_c` has the digits and the four costly products alone.

// The house list and the setting check are not timed.
#[allow(dead_code)]
#[path = "../../bindings/src/raw.rs"]
mod raw;

use raw::*;

extern "C" {
    fn digits_ss(s: *const i64, s_len: usize, b: u64, k: usize, out: *mut i64, out_len: usize);
    fn product_dd(s: *const i64, s_len: usize, m: usize, columns: usize, out: *mut i64, out_len: usize);
    fn product_tt(
        a: *const u64, a_len: usize, s: *const i64, s_len: usize, n: usize, m: usize, columns: usize,
        out: *mut u64, out_len: usize,
    );
    fn product_d(d: *const i64, d_len: usize, c: *const u8, c_len: usize, n: usize, t: usize, out: *mut i64, out_len: usize);
    fn product_s(
        s: *const i64, s_len: usize, c: *const u8, c_len: usize, m: usize, n: usize, t: usize,
        out: *mut i64, out_len: usize,
    );
}

/// The k digits of each entry of s: a part of S~.
pub fn ss(s: &[i64], b: u64, k: usize, out: &mut [i64]) {
    unsafe { digits_ss(s.as_ptr(), s.len(), b, k, out.as_mut_ptr(), out.len()) }
}

/// D~ of the digit witness s, as its lower triangle.
pub fn dd(s: &[i64], m: usize, columns: usize, out: &mut [i64]) {
    unsafe { product_dd(s.as_ptr(), s.len(), m, columns, out.as_mut_ptr(), out.len()) }
}

/// T~ = a s.
pub fn tt(a: &[u64], s: &[i64], n: usize, m: usize, columns: usize, out: &mut [u64]) {
    unsafe {
        product_tt(a.as_ptr(), a.len(), s.as_ptr(), s.len(), n, m, columns, out.as_mut_ptr(), out.len())
    }
}

/// D' of the digit products d, a lower triangle, and the challenge c.
pub fn d(d: &[i64], c: &[u8], columns: usize, t: usize, out: &mut [i64]) {
    unsafe { product_d(d.as_ptr(), d.len(), c.as_ptr(), c.len(), columns, t, out.as_mut_ptr(), out.len()) }
}

/// S' of the digit witness s and the challenge c.
pub fn s(s: &[i64], c: &[u8], m: usize, columns: usize, t: usize, out: &mut [i64]) {
    unsafe { product_s(s.as_ptr(), s.len(), c.as_ptr(), c.len(), m, columns, t, out.as_mut_ptr(), out.len()) }
}

pub fn commit(p: [u64; 5], a: &[u64], s: &[i64], t: &mut [u64], d: &mut [i64], leaves: &mut u32) -> u8 {
    call!(lova_commit, p, [a, s] => [t, d] leaves)
}

pub fn commit_fresh(p: [u64; 5], a: &[u64], vector: &[i64], t: &mut [u64], d: &mut [i64], leaves: &mut u32) -> u8 {
    call!(lova_commit_fresh, p, [a, vector] => [t, d] leaves)
}

pub fn message(
    p: [u64; 5], a: &[u64], s1: &[i64], s2: &[i64], v: &mut [i64], tt: &mut [u64], dd: &mut [i64], ss: &mut [i64],
) -> u8 {
    call!(lova_message, p, [a, s1, s2] => [v, tt, dd, ss])
}

pub fn message_fresh(
    p: [u64; 5], a: &[u64], s1: &[i64], vector: &[i64], v: &mut [i64], tt: &mut [u64], dd: &mut [i64], ss: &mut [i64],
) -> u8 {
    call!(lova_message_fresh, p, [a, s1, vector] => [v, tt, dd, ss])
}

pub fn fold_witness(p: [u64; 5], ss: &[i64], c: &[u8], s: &mut [i64]) -> u8 {
    call!(lova_fold_witness, p, [ss, c] => [s])
}

pub fn fold_witness_fresh(p: [u64; 5], ss: &[i64], c: &[u8], s: &mut [i64]) -> u8 {
    call!(lova_fold_witness_fresh, p, [ss, c] => [s])
}

pub fn recompose(p: [u64; 5], ss: &[i64], s1: &mut [i64], s2: &mut [i64]) -> u8 {
    call!(lova_recompose, p, [ss] => [s1, s2])
}

pub fn recompose_fresh(p: [u64; 5], ss: &[i64], s1: &mut [i64], vector: &mut [i64]) -> u8 {
    call!(lova_recompose_fresh, p, [ss] => [s1, vector])
}

pub fn join(
    p: [u64; 5], t1: &[u64], d1: &[i64], leaves1: u32, t2: &[u64], d2: &[i64], leaves2: u32, v: &[i64],
    t: &mut [u64], d: &mut [i64], leaves: &mut u32,
) -> u8 {
    call!(lova_join, p, [t1, d1] leaves1, [t2, d2] leaves2, [v] => [t, d] leaves)
}

pub fn join_fresh(
    p: [u64; 5], t1: &[u64], d1: &[i64], leaves1: u32, t2: &[u64], d2: &[i64], leaves2: u32, v: &[i64],
    t: &mut [u64], d: &mut [i64], leaves: &mut u32,
) -> u8 {
    call!(lova_join_fresh, p, [t1, d1] leaves1, [t2, d2] leaves2, [v] => [t, d] leaves)
}

pub fn verify(
    p: [u64; 5], t1: &[u64], d1: &[i64], leaves1: u32, t2: &[u64], d2: &[i64], leaves2: u32, v: &[i64],
    tt: &[u64], dd: &[i64], c: &[u8], t: &mut [u64], d: &mut [i64], leaves: &mut u32,
) -> u8 {
    call!(lova_verify, p, [t1, d1] leaves1, [t2, d2] leaves2, [v, tt, dd, c] => [t, d] leaves)
}

pub fn verify_fresh(
    p: [u64; 5], t1: &[u64], d1: &[i64], leaves1: u32, t2: &[u64], d2: &[i64], leaves2: u32, v: &[i64],
    tt: &[u64], dd: &[i64], c: &[u8], t: &mut [u64], d: &mut [i64], leaves: &mut u32,
) -> u8 {
    call!(lova_verify_fresh, p, [t1, d1] leaves1, [t2, d2] leaves2, [v, tt, dd, c] => [t, d] leaves)
}

pub fn test_relation(p: [u64; 5], a: &[u64], t: &[u64], d: &[i64], s: &[i64]) -> u8 {
    call!(lova_test_relation, p, [a, t, d, s] => [])
}

pub fn next_fold(weights: &[u64], waiting: &mut [u32], turn: &mut [u64]) -> u8 {
    call!(lova_next_fold, [weights] => [waiting, turn])
}

pub fn count_zeros(n: u64, e: &[i64], count: &mut [u64]) -> u8 {
    call!(lova_count_zeros; n, [e] => [count])
}
