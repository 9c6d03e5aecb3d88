//! Lova folding at q = 2^64: safe functions over the proved static library `liblova.a`.
//!
//! Matrices are lent as slices, by rows, and nothing is allocated. A refused call, and a verdict
//! other than yes, leaves every output as it was. An [`Instance`] is its T and D and the number of leaves under it; a call
//! that writes one hands it back. The lengths are those of the specification:
//! A is n by m, T n by t, S m by t, D and V t by t, S~ m by N, T~ n by N, C N by t. D~, N by N, is symmetric, and its
//! lower triangle alone is lent, N (N + 1) / 2 entries as [`triangle`] counts them: entry (i, j), j ≤ i, stands at
//! i (i + 1) / 2 + j.
//!
//! A fold's second witness may be fresh: one vector that stands for t equal columns. The functions for it have
//! `_fresh` in their names and answer as the general ones do when all that is fresh is repeated t times. The vector
//! has m entries, its T n and its D one; V has t, S~ m (kt + k), T~ n (kt + k), and D~ is the triangle of kt + k rows.
//! All other lengths are as above. At t = 1 both forms are the same.
//!
//! Eight groups take turns on the machine, and [`next_fold`] names the one whose fold is next. What a cheating prover
//! can count on is how many ternary vectors c have c-transposed E c = 0, and [`count_zeros`] counts them. Neither needs
//! a setting.
//!
//! Build the archive with `bindings/archive`; `LOVA_STATICLIB` names another folder for it. The enums may
//! get cases later, so a `match` outside this crate needs an arm `_`.
//!
//! ```
//! let setting = lova::Setting::listed(1)?;
//! let (mut t, mut d) = ([0], [0]);
//! let instance = lova::commit(setting, &[3], &[-5], &mut t, &mut d)?;
//! assert_eq!(instance, lova::Instance { t: &[15u64.wrapping_neg()], d: &[25], leaves: 1 });
//! assert_eq!(lova::commit(setting, &[3], &[11], &mut t, &mut d), Err(lova::Refusal::LongColumn));
//! # Ok::<(), lova::Refusal>(())
//! ```
#![allow(clippy::too_many_arguments)]
#![deny(unsafe_op_in_unsafe_fn, missing_docs)]

mod answers;
mod forms;
mod instance;
mod raw;
mod setting;
mod turns;

pub use answers::{Answer, Membership, Refusal, Verdict};
pub use forms::{count_zeros, write_count_zeros};
pub use instance::Instance;
pub use setting::{write_listed, write_record, Record, Setting, POWERS, RECORD};
pub use turns::{next_fold, write_next_fold, Turn, GROUPS};

use answers::{answer, membership, verdict};
use raw::call;

/// The number of entries of a lower triangle with so many rows, the diagonal included: the length of D~, and where a
/// row with this number, counted from 0, begins in it.
///
/// ```
/// assert_eq!(lova::triangle(10), 55);
/// ```
pub const fn triangle(rows: usize) -> usize {
    rows * (rows + 1) / 2
}

/// Commit to a witness: A, S to T = A S modulo 2^64 and D = S-transposed S, with one leaf.
///
/// Refusals: 1 to 6, 7, 8.
pub fn commit<'a>(
    setting: Setting, a: &[u64], s: &[i64], t_out: &'a mut [u64], d_out: &'a mut [i64],
) -> Result<Instance<'a>, Refusal> {
    let mut leaves = 0;
    answer(call!(raw::lova_commit, setting.five(), [a, s] => [t_out, d_out] &mut leaves))?;
    Ok(Instance { t: t_out, d: d_out, leaves })
}

/// [`commit`] to a fresh witness: A and the vector to T, n words, and D, one number.
///
/// Refusals: 1 to 6, 7, 8.
pub fn commit_fresh<'a>(
    setting: Setting, a: &[u64], vector: &[i64], t_out: &'a mut [u64], d_out: &'a mut [i64],
) -> Result<Instance<'a>, Refusal> {
    let mut leaves = 0;
    answer(call!(raw::lova_commit_fresh, setting.five(), [a, vector] => [t_out, d_out] &mut leaves))?;
    Ok(Instance { t: t_out, d: d_out, leaves })
}

/// The prover's message: A, S1, S2 to V = S1-transposed S2, T~ = A S~ modulo 2^64,
/// D~ = S~-transposed S~, as its lower triangle, and the digit witness S~, which the prover keeps.
///
/// Refusals: 1 to 6, 7, 8.
pub fn message(
    setting: Setting, a: &[u64], s1: &[i64], s2: &[i64],
    v_out: &mut [i64], tt_out: &mut [u64], dd_out: &mut [i64], ss_out: &mut [i64],
) -> Answer {
    answer(call!(raw::lova_message, setting.five(), [a, s1, s2] => [v_out, tt_out, dd_out, ss_out]))
}

/// The [`message`] of S1 and a fresh witness. The digits of the vector are the last k columns of S~.
///
/// Refusals: 1 to 6, 7, 8, for S1 or the vector.
pub fn message_fresh(
    setting: Setting, a: &[u64], s1: &[i64], vector: &[i64],
    v_out: &mut [i64], tt_out: &mut [u64], dd_out: &mut [i64], ss_out: &mut [i64],
) -> Answer {
    answer(call!(raw::lova_message_fresh, setting.five(), [a, s1, vector] => [v_out, tt_out, dd_out, ss_out]))
}

/// The folded witness: S~, C to S' = S~ C. A byte of C is 0 for 0, 1 for 1 and 2 for −1.
///
/// Refusals: 1 to 6, 7, 9, 11.
pub fn fold_witness(setting: Setting, ss: &[i64], c: &[u8], s_out: &mut [i64]) -> Answer {
    answer(call!(raw::lova_fold_witness, setting.five(), [ss, c] => [s_out]))
}

/// [`fold_witness`] with the S~ of [`message_fresh`]; C and S' are those of the general fold.
///
/// Refusals: 1 to 6, 7, 9, 11.
pub fn fold_witness_fresh(setting: Setting, ss: &[i64], c: &[u8], s_out: &mut [i64]) -> Answer {
    answer(call!(raw::lova_fold_witness_fresh, setting.five(), [ss, c] => [s_out]))
}

/// Recomposition, from a digit witness back to the witnesses: S~ alone to S1 and S2. Done exactly where [`message`]
/// writes this S~ for some S1 and S2, which are then written. Other digits may have the same sum, as −1 1 0 0 0 and
/// 1 0 0 0 0 at b = 2, and are refused.
///
/// ```
/// let (setting, mut s1, mut s2) = (lova::Setting::listed(1)?, [0], [0]);
/// lova::recompose(setting, &[1, 1, 1, 0, 0, -1, 0, -1, 0, 0], &mut s1, &mut s2)?;
/// assert_eq!((s1, s2), ([7], [-5]));
/// let answer = lova::recompose(setting, &[-1, 1, 0, 0, 0, 0, 0, 0, 0, 0], &mut s1, &mut s2);
/// assert_eq!(answer, Err(lova::Refusal::OtherDigits));
/// # Ok::<(), lova::Refusal>(())
/// ```
///
/// Refusals: 1 to 6, 7, 11, 8 for a column that S~ stands for, 16.
pub fn recompose(setting: Setting, ss: &[i64], s1_out: &mut [i64], s2_out: &mut [i64]) -> Answer {
    answer(call!(raw::lova_recompose, setting.five(), [ss] => [s1_out, s2_out]))
}

/// [`recompose`] with the S~ of [`message_fresh`], to S1 and the vector.
///
/// Refusals: 1 to 6, 7, 11, 8, 16.
pub fn recompose_fresh(setting: Setting, ss: &[i64], s1_out: &mut [i64], vector_out: &mut [i64]) -> Answer {
    answer(call!(raw::lova_recompose_fresh, setting.five(), [ss] => [s1_out, vector_out]))
}

/// Join two instances: T1, D1, T2, D2, V to T = [T1 T2], n by 2t, and D = [D1 V; V-transposed D2], 2t by 2t, with the
/// leaves of both.
///
/// Refusals: 1 to 6, 7, 15.
pub fn join<'a>(
    setting: Setting, one: Instance, two: Instance, v: &[i64], t_out: &'a mut [u64], d_out: &'a mut [i64],
) -> Result<Instance<'a>, Refusal> {
    let mut leaves = 0;
    answer(call!(
        raw::lova_join, setting.five(),
        [one.t, one.d] one.leaves, [two.t, two.d] two.leaves, [v] => [t_out, d_out] &mut leaves
    ))?;
    Ok(Instance { t: t_out, d: d_out, leaves })
}

/// [`join`] with a fresh second instance; the joined one is that of the general fold.
///
/// Refusals: 1 to 6, 7, 15.
pub fn join_fresh<'a>(
    setting: Setting, one: Instance, two: Instance, v: &[i64], t_out: &'a mut [u64], d_out: &'a mut [i64],
) -> Result<Instance<'a>, Refusal> {
    let mut leaves = 0;
    answer(call!(
        raw::lova_join_fresh, setting.five(),
        [one.t, one.d] one.leaves, [two.t, two.d] two.leaves, [v] => [t_out, d_out] &mut leaves
    ))?;
    Ok(Instance { t: t_out, d: d_out, leaves })
}

/// The verdict on a message: both instances, V, T~, D~ and C to T' = T~ C modulo 2^64 and
/// D' = C-transposed D~ C, with the leaves of both, on [`Verdict::Yes`] alone. A diagonal entry of D1 or D2 above B
/// is [`Verdict::Long`], whatever the equations say. D~ is symmetric, so that a D1 or D2 which is not fails the first
/// equation: [`Verdict::Norm`] where nothing is long.
///
/// Refusals: 1 to 6, 7, 15, 9, 10.
pub fn verify<'a>(
    setting: Setting, one: Instance, two: Instance, v: &[i64], tt: &[u64], dd: &[i64], c: &[u8],
    t_out: &'a mut [u64], d_out: &'a mut [i64],
) -> Result<Verdict<'a>, Refusal> {
    let mut leaves = 0;
    let code = call!(
        raw::lova_verify, setting.five(),
        [one.t, one.d] one.leaves, [two.t, two.d] two.leaves, [v, tt, dd, c] => [t_out, d_out] &mut leaves
    );
    verdict(code, Instance { t: t_out, d: d_out, leaves })
}

/// The verdict, as [`verify`] gives it, on a message of [`message_fresh`]; C, T' and D' are those of the general fold.
///
/// Refusals: 1 to 6, 7, 15, 9, 10.
pub fn verify_fresh<'a>(
    setting: Setting, one: Instance, two: Instance, v: &[i64], tt: &[u64], dd: &[i64], c: &[u8],
    t_out: &'a mut [u64], d_out: &'a mut [i64],
) -> Result<Verdict<'a>, Refusal> {
    let mut leaves = 0;
    let code = call!(
        raw::lova_verify_fresh, setting.five(),
        [one.t, one.d] one.leaves, [two.t, two.d] two.leaves, [v, tt, dd, c] => [t_out, d_out] &mut leaves
    );
    verdict(code, Instance { t: t_out, d: d_out, leaves })
}

/// The relation test: does the witness S belong to the instance T, D?
///
/// Refusals: 1 to 6, 7.
pub fn test_relation(
    setting: Setting, a: &[u64], t_in: &[u64], d_in: &[i64], s: &[i64],
) -> Result<Membership, Refusal> {
    membership(call!(raw::lova_test_relation, setting.five(), [a, t_in, d_in, s] => []))
}
