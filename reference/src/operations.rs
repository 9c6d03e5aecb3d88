//! The operations of one fold, on lent slices.
//!
//! A fresh second witness is one vector that stands for t equal columns. The operations of a fold take a profile, and
//! go by request 2's own sentence: all that is fresh is repeated t times, the general fold is made, and what is
//! written is cut down to the fresh form. Recomposition, which is no part of a fold, does the same.
//!
//! D~ is stored as its lower triangle by rows. The verdict goes by request 3's own sentence: that on a triangle is that
//! on its mirrored square.
//!
//! An instance has the number of leaves under it beside T and D. A call that writes T and D writes this number as well; a
//! verdict other than yes sets it to 0.

use crate::digits::digit_matrix;
use crate::matrices::*;
use crate::settings::{above, refusal, shape, Parameters, Shape};

/// The most leaves of a tree.
pub const GREATEST_LEAVES: u64 = (1 << 32) - 1;

/// A lent instance: T, D and the number of leaves under it.
#[derive(Clone, Copy, Debug)]
pub struct Instance<'a> {
    pub t: &'a [u64],
    pub d: &'a [i64],
    pub leaves: u32,
}

/// What the second witness of a fold is: a matrix of t columns, or one vector.
#[derive(Clone, Copy, Debug, PartialEq, Eq)]
pub enum Profile {
    General,
    Fresh,
}

impl Profile {
    /// Columns of the second witness.
    pub fn right(self, z: &Shape) -> usize {
        match self {
            Profile::General => z.t,
            Profile::Fresh => 1,
        }
    }

    /// How often the second witness is repeated to have t columns.
    pub fn times(self, z: &Shape) -> usize {
        z.t / self.right(z)
    }

    /// Columns of S~, T~ and D~: N, or kt + k.
    pub fn columns(self, z: &Shape) -> usize {
        z.k * z.t + z.k * self.right(z)
    }
}

/// What an operation answers; matrices are written on `Done` and `Yes` alone.
#[derive(Clone, Copy, Debug, PartialEq, Eq)]
pub enum Answer {
    Refused(u32),
    Done,
    Yes,
    Norm,
    Commitment,
    Long,
    Products,
    Member,
}

impl Answer {
    /// The word that stands for the answer in text.
    pub fn word(self) -> String {
        format!("{self:?}").to_lowercase()
    }
}

/// The whole numbers that the bytes of C stand for; nothing where a byte is above 2.
pub fn challenge_values(c: &[u8]) -> Option<Vec<i64>> {
    let value = |byte: &u8| [0, 1, -1].get(*byte as usize).copied();
    c.iter().map(value).collect()
}

/// G, N by 2t: b^p in row j×k + p of column j, 0 elsewhere.
pub fn gadget(z: &Shape) -> Vec<u64> {
    let mut g = vec![0; z.columns * 2 * z.t];
    for j in 0..2 * z.t {
        for p in 0..z.k {
            g[(j * z.k + p) * 2 * z.t + j] = z.powers[p];
        }
    }
    g
}

/// Whether some slice has another length than its matrix.
fn misfit(lengths: &[(usize, usize)]) -> bool {
    lengths.iter().any(|(length, expected)| length != expected)
}

/// The lengths of two instances, each with the one that it must have.
fn instance_lengths(z: &Shape, profile: Profile, one: Instance, two: Instance) -> [(usize, usize); 4] {
    let (n, t, right) = (z.n, z.t, profile.right(z));
    [(one.t.len(), n * t), (one.d.len(), t * t), (two.t.len(), n * right), (two.d.len(), right * right)]
}

/// The leaves under both instances, summed in whole numbers; nothing where a count is 0 or the sum is above the bound.
fn leaves_under(one: Instance, two: Instance) -> Option<u32> {
    let sum = u64::from(one.leaves) + u64::from(two.leaves);
    (one.leaves > 0 && two.leaves > 0 && sum <= GREATEST_LEAVES).then_some(sum as u32)
}

/// Whether a column of S is above B.
fn has_long_column(z: &Shape, s: &[i64]) -> bool {
    (0..z.t).any(|j| above(squared_length(s, z.m, z.t, j), z.bound as u128))
}

/// Joined T = [T1 T2] and D = [D1 V; V-transposed D2], with T2, D2 and V in the general form.
fn joined(z: &Shape, profile: Profile, one: Instance, two: Instance, v: &[i64]) -> (Vec<u64>, Vec<i64>) {
    let (right, times) = (profile.right(z), profile.times(z));
    let (t2, d2) = (repeated(two.t, right, 0, times), repeated_square(two.d, right, 0, times));
    let v = repeated(v, right, 0, times);
    let mut d = beside(one.d, &v, z.t, z.t);
    d.extend(beside(&transposed(&v, z.t, z.t), &d2, z.t, z.t));
    (beside(one.t, &t2, z.n, z.t), d)
}

/// Commit: A, S to T = AS modulo 2^64, D = S-transposed S and one leaf.
pub fn commit(
    p: &Parameters, profile: Profile, a: &[u64], s: &[i64],
    t_out: &mut [u64], d_out: &mut [i64], leaves_out: &mut u32,
) -> Answer {
    let Ok(z) = shape(p) else { return Answer::Refused(refusal(p)) };
    let (n, m, t, right) = (z.n, z.m, z.t, profile.right(&z));
    if misfit(&[(a.len(), n * m), (s.len(), m * right), (t_out.len(), n * right), (d_out.len(), right * right)]) {
        return Answer::Refused(7);
    }
    let s = repeated(s, right, 0, profile.times(&z));
    if has_long_column(&z, &s) {
        return Answer::Refused(8);
    }
    t_out.copy_from_slice(&cut(&wrapping_product(a, &wrapped(&s), n, m, t), t, right));
    d_out.copy_from_slice(&cut_square(&words(&inner_products(&s, &s, m, t)), t, right));
    *leaves_out = 1;
    Answer::Done
}

/// Relation test: does the witness S belong to the instance T, D?
pub fn relation(p: &Parameters, a: &[u64], t_in: &[u64], d_in: &[i64], s: &[i64]) -> Answer {
    let Ok(z) = shape(p) else { return Answer::Refused(refusal(p)) };
    let (n, m, t) = (z.n, z.m, z.t);
    if misfit(&[(a.len(), n * m), (s.len(), m * t), (t_in.len(), n * t), (d_in.len(), t * t)]) {
        return Answer::Refused(7);
    }
    if has_long_column(&z, s) {
        Answer::Long
    } else if inner_products(s, s, m, t) != whole(d_in) {
        Answer::Products
    } else if wrapping_product(a, &wrapped(s), n, m, t) != t_in {
        Answer::Commitment
    } else {
        Answer::Member
    }
}

/// Join: two instances and V to the joined T, n by 2t, and D, 2t by 2t, and the sum of the leaves.
pub fn join(
    p: &Parameters, profile: Profile, one: Instance, two: Instance, v: &[i64],
    t_out: &mut [u64], d_out: &mut [i64], leaves_out: &mut u32,
) -> Answer {
    let Ok(z) = shape(p) else { return Answer::Refused(refusal(p)) };
    let (n, t, right) = (z.n, z.t, profile.right(&z));
    let others = [(v.len(), t * right), (t_out.len(), 2 * n * t), (d_out.len(), 4 * t * t)];
    if misfit(&instance_lengths(&z, profile, one, two)) || misfit(&others) {
        return Answer::Refused(7);
    }
    let Some(leaves) = leaves_under(one, two) else { return Answer::Refused(15) };
    let (joined_t, joined_d) = joined(&z, profile, one, two, v);
    t_out.copy_from_slice(&joined_t);
    d_out.copy_from_slice(&joined_d);
    *leaves_out = leaves;
    Answer::Done
}

/// Message: A, S1, S2 to V = S1-transposed S2, T~ = A S~, D~ = S~-transposed S~ and the digits S~.
pub fn message(
    p: &Parameters, profile: Profile, a: &[u64], s1: &[i64], s2: &[i64],
    v_out: &mut [i64], tt_out: &mut [u64], dd_out: &mut [i64], ss_out: &mut [i64],
) -> Answer {
    let Ok(z) = shape(p) else { return Answer::Refused(refusal(p)) };
    let (n, m, t, right, columns) = (z.n, z.m, z.t, profile.right(&z), profile.columns(&z));
    let inputs = [(a.len(), n * m), (s1.len(), m * t), (s2.len(), m * right), (v_out.len(), t * right)];
    let digits = [(tt_out.len(), n * columns), (dd_out.len(), triangle_length(columns)), (ss_out.len(), m * columns)];
    if misfit(&inputs) || misfit(&digits) {
        return Answer::Refused(7);
    }
    let s2 = repeated(s2, right, 0, profile.times(&z));
    if has_long_column(&z, s1) || has_long_column(&z, &s2) {
        return Answer::Refused(8);
    }
    let ss = digit_matrix(&beside(s1, &s2, m, t), m, 2 * t, z.b, z.k);
    let tt = wrapping_product(a, &wrapped(&ss), n, m, z.columns);
    let dd = words(&inner_products(&ss, &ss, m, z.columns));
    v_out.copy_from_slice(&cut(&words(&inner_products(s1, &s2, m, t)), t, right));
    tt_out.copy_from_slice(&cut(&tt, z.columns, columns));
    dd_out.copy_from_slice(&lower(&cut_square(&dd, z.columns, columns), columns));
    ss_out.copy_from_slice(&cut(&ss, z.columns, columns));
    Answer::Done
}

/// The answer to a joined instance and a message: long where a diagonal entry of D exceeds B, then the equations.
fn judged(z: &Shape, joined_t: &[u64], joined_d: &[i64], tt: &[u64], dd: &[i64]) -> Answer {
    let (columns, wide) = (z.columns, 2 * z.t);
    if (0..wide).any(|i| i128::from(joined_d[i * wide + i]) > i128::from(z.bound)) {
        return Answer::Long;
    }
    let g = gadget(z);
    let whole_g: Vec<i128> = g.iter().map(|x| *x as i128).collect();
    let right = product(&whole(dd), &whole_g, columns, columns, wide);
    if product(&transposed(&whole_g, columns, wide), &right, wide, columns, wide) != whole(joined_d) {
        return Answer::Norm;
    }
    if wrapping_product(tt, &g, z.n, columns, wide) != joined_t {
        return Answer::Commitment;
    }
    Answer::Yes
}

/// Verdict: both instances, V, T~, D~, C to an answer and, on yes, T' = T~ C, D' = C-transposed D~ C and the sum of the
/// leaves.
pub fn verdict(
    p: &Parameters, profile: Profile, one: Instance, two: Instance, v: &[i64], tt: &[u64], dd: &[i64], c: &[u8],
    t_out: &mut [u64], d_out: &mut [i64], leaves_out: &mut u32,
) -> Answer {
    let Ok(z) = shape(p) else { return Answer::Refused(refusal(p)) };
    let columns = profile.columns(&z);
    if dd.len() != triangle_length(columns) {
        return Answer::Refused(7);
    }
    square_verdict(p, profile, one, two, v, tt, &mirrored(dd, columns), c, t_out, d_out, leaves_out)
}

/// The verdict in the square form, in which all of D~ is lent; it need not be symmetric.
pub fn square_verdict(
    p: &Parameters, profile: Profile, one: Instance, two: Instance, v: &[i64], tt: &[u64], dd: &[i64], c: &[u8],
    t_out: &mut [u64], d_out: &mut [i64], leaves_out: &mut u32,
) -> Answer {
    let Ok(z) = shape(p) else { return Answer::Refused(refusal(p)) };
    let (n, t, right, columns) = (z.n, z.t, profile.right(&z), profile.columns(&z));
    let message = [(v.len(), t * right), (tt.len(), n * columns), (dd.len(), columns * columns)];
    let others = [(c.len(), z.columns * t), (t_out.len(), n * t), (d_out.len(), t * t)];
    if misfit(&instance_lengths(&z, profile, one, two)) || misfit(&message) || misfit(&others) {
        return Answer::Refused(7);
    }
    let Some(leaves) = leaves_under(one, two) else { return Answer::Refused(15) };
    let Some(c) = challenge_values(c) else { return Answer::Refused(9) };
    if dd.iter().any(|x| x.unsigned_abs() > z.product_limit) {
        return Answer::Refused(10);
    }
    let (joined_t, joined_d) = joined(&z, profile, one, two, v);
    // The digits of the second witness stand from column kt on.
    let tt = repeated(tt, columns, z.k * t, profile.times(&z));
    let dd = repeated_square(dd, columns, z.k * t, profile.times(&z));
    let answer = judged(&z, &joined_t, &joined_d, &tt, &dd);
    *leaves_out = if answer == Answer::Yes { leaves } else { 0 };
    if answer == Answer::Yes {
        t_out.copy_from_slice(&wrapping_product(&tt, &wrapped(&c), n, z.columns, t));
        let right = product(&whole(&dd), &whole(&c), z.columns, z.columns, t);
        d_out.copy_from_slice(&words(&product(&transposed(&whole(&c), z.columns, t), &right, t, z.columns, t)));
    }
    answer
}

/// Folded witness: S~, C to S' = S~ C.
pub fn folded_witness(p: &Parameters, profile: Profile, ss: &[i64], c: &[u8], s_out: &mut [i64]) -> Answer {
    let Ok(z) = shape(p) else { return Answer::Refused(refusal(p)) };
    let (m, t, columns) = (z.m, z.t, profile.columns(&z));
    if misfit(&[(ss.len(), m * columns), (c.len(), z.columns * t), (s_out.len(), m * t)]) {
        return Answer::Refused(7);
    }
    let Some(c) = challenge_values(c) else { return Answer::Refused(9) };
    if ss.iter().any(|x| x.unsigned_abs() > z.h) {
        return Answer::Refused(11);
    }
    let ss = repeated(ss, columns, z.k * t, profile.times(&z));
    s_out.copy_from_slice(&words(&product(&whole(&ss), &whole(&c), m, z.columns, t)));
    Answer::Done
}

/// Recomposition: S~ alone to the witnesses that it stands for, [S1 S2] = S~ G. Done where S~ has the digits that the
/// digit rule gives them.
pub fn recompose(p: &Parameters, profile: Profile, ss: &[i64], s1_out: &mut [i64], s2_out: &mut [i64]) -> Answer {
    let Ok(z) = shape(p) else { return Answer::Refused(refusal(p)) };
    let (m, t, right, columns) = (z.m, z.t, profile.right(&z), profile.columns(&z));
    if misfit(&[(ss.len(), m * columns), (s1_out.len(), m * t), (s2_out.len(), m * right)]) {
        return Answer::Refused(7);
    }
    if ss.iter().any(|x| x.unsigned_abs() > z.h) {
        return Answer::Refused(11);
    }
    let ss = repeated(ss, columns, z.k * t, profile.times(&z));
    let g: Vec<i128> = gadget(&z).iter().map(|x| *x as i128).collect();
    let both = words(&product(&whole(&ss), &g, m, z.columns, 2 * t));
    let (s1, s2) = (columns_of(&both, 2 * t, 0..t), columns_of(&both, 2 * t, t..2 * t));
    if has_long_column(&z, &s1) || has_long_column(&z, &s2) {
        return Answer::Refused(8);
    }
    if digit_matrix(&both, m, 2 * t, z.b, z.k) != ss {
        return Answer::Refused(16);
    }
    s1_out.copy_from_slice(&s1);
    s2_out.copy_from_slice(&cut(&s2, t, right));
    Answer::Done
}
