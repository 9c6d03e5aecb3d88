//! What a cheating prover can count on: at how many ternary vectors a quadratic form is 0.

use crate::answers::{answer, Answer, Refusal};
use crate::raw::{self, call};

/// How many vectors c of n entries −1, 0 and 1 have c-transposed E c = 0, for a symmetric matrix E with n rows, from 1
/// to 12. E is lent as its lower triangle, as many entries as [`triangle`](crate::triangle) counts, each from −2^52 to
/// 2^52, so that one beside the diagonal counts twice.
///
/// c and −c both count, and so does c = 0: the count is odd. For E = 0 it is 3^n, all vectors that there are, and for
/// every other E at most two thirds of that.
///
/// ```
/// // 2 c0 c1 is 0 where one of the two is.
/// assert_eq!(lova::count_zeros(2, &[0, 1, 0]), Ok(5));
/// assert_eq!(lova::count_zeros(2, &[0, 0, 0]), Ok(9));
/// assert_eq!(lova::count_zeros(2, &[0, 1, 1 << 53]), Err(lova::Refusal::Entry));
/// ```
///
/// Refusals: 24, 7, 25.
pub fn count_zeros(n: usize, e: &[i64]) -> Result<u64, Refusal> {
    let mut count = [0];
    write_count_zeros(n as u64, e, &mut count)?;
    Ok(count[0])
}

/// Write the count of [`count_zeros`] to a slice of one place: 24, then 7, then 25.
pub fn write_count_zeros(n: u64, e: &[i64], count: &mut [u64]) -> Answer {
    answer(call!(raw::lova_count_zeros; n, [e] => [count]))
}
