//! The C functions of the static library on slices, in both profiles; each gives its code.
//!
//! They are called as C calls them, since the bindings do not show what a call leaves in the place of a leaf count.

// The bindings bring the archive.
extern crate lova as _;

#[allow(dead_code)]
#[path = "../../bindings/src/raw.rs"]
mod raw;

use raw::*;
use reference::operations::{Instance, Profile};
use reference::settings::Parameters;

/// n, m, t, b and B.
fn five(p: &Parameters) -> [u64; 5] {
    [p.n, p.m, p.t, p.b, p.bound]
}

/// Commit.
pub fn commit(
    p: &Parameters, profile: Profile, a: &[u64], s: &[i64], t: &mut [u64], d: &mut [i64], leaves: &mut u32,
) -> u8 {
    let function = match profile {
        Profile::General => lova_commit,
        Profile::Fresh => lova_commit_fresh,
    };
    call!(function, five(p), [a, s] => [t, d] leaves)
}

/// Message.
pub fn message(
    p: &Parameters, profile: Profile, a: &[u64], s1: &[i64], s2: &[i64],
    v: &mut [i64], tt: &mut [u64], dd: &mut [i64], ss: &mut [i64],
) -> u8 {
    let function = match profile {
        Profile::General => lova_message,
        Profile::Fresh => lova_message_fresh,
    };
    call!(function, five(p), [a, s1, s2] => [v, tt, dd, ss])
}

/// Folded witness.
pub fn fold_witness(p: &Parameters, profile: Profile, ss: &[i64], c: &[u8], s: &mut [i64]) -> u8 {
    let function = match profile {
        Profile::General => lova_fold_witness,
        Profile::Fresh => lova_fold_witness_fresh,
    };
    call!(function, five(p), [ss, c] => [s])
}

/// Recomposition.
pub fn recompose(p: &Parameters, profile: Profile, ss: &[i64], s1: &mut [i64], s2: &mut [i64]) -> u8 {
    let function = match profile {
        Profile::General => lova_recompose,
        Profile::Fresh => lova_recompose_fresh,
    };
    call!(function, five(p), [ss] => [s1, s2])
}

/// Join.
pub fn join(
    p: &Parameters, profile: Profile, one: Instance, two: Instance, v: &[i64],
    t: &mut [u64], d: &mut [i64], leaves: &mut u32,
) -> u8 {
    let function = match profile {
        Profile::General => lova_join,
        Profile::Fresh => lova_join_fresh,
    };
    call!(function, five(p), [one.t, one.d] one.leaves, [two.t, two.d] two.leaves, [v] => [t, d] leaves)
}

/// Verdict.
pub fn verify(
    p: &Parameters, profile: Profile, one: Instance, two: Instance, v: &[i64], tt: &[u64], dd: &[i64], c: &[u8],
    t: &mut [u64], d: &mut [i64], leaves: &mut u32,
) -> u8 {
    let function = match profile {
        Profile::General => lova_verify,
        Profile::Fresh => lova_verify_fresh,
    };
    call!(function, five(p), [one.t, one.d] one.leaves, [two.t, two.d] two.leaves, [v, tt, dd, c] => [t, d] leaves)
}

/// Relation test.
pub fn test_relation(p: &Parameters, a: &[u64], t: &[u64], d: &[i64], s: &[i64]) -> u8 {
    call!(lova_test_relation, five(p), [a, t, d, s] => [])
}
