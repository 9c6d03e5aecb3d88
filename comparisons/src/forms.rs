//! Calls that count the zeros of a quadratic form, made by the static library and by the reference, which lists all
//! vectors; and matrices for them, good and bad ones.

use crate::calls::{guarded, lent};
use crate::seed::{below, once_in, pick, seed};
use reference::forms::{count_zeros, GREATEST_ENTRY};
use reference::matrices::triangle_length;
use reference::operations::Answer;
use reference::rng::Rng;

/// Entries past the ends of the range; the low parts of some are within it.
pub const FAR: [i64; 8] = [
    GREATEST_ENTRY + 1, -GREATEST_ENTRY - 1, 2 * GREATEST_ENTRY, -2 * GREATEST_ENTRY, i64::MIN, i64::MIN + 1,
    i64::MIN + 7, i64::MAX,
];

/// A call: what is lent to it.
#[derive(Clone, Debug)]
pub struct Call {
    pub n: u64,
    pub e: Vec<i64>,
    pub count: Vec<u64>,
}

impl Call {
    /// The call with so many rows, this triangle and one place for the count.
    pub fn of(n: usize, e: Vec<i64>) -> Call {
        Call { n: n as u64, e, count: vec![77] }
    }

    /// The count by the static library, or the refusal; both functions must say the same, and a refusal must leave the
    /// count as it was. What lies around the count must stay in any case.
    pub fn by_library(&self) -> Result<u64, u32> {
        let mut count = guarded(&self.count, 5);
        let answer = lova::write_count_zeros(self.n, &self.e, lent(&mut count));
        let answer = answer.map(|()| lent(&mut count)[0]).map_err(|refusal| refusal.number().into());
        let left = answer.map_or_else(|_| self.count.clone(), |zeros| vec![zeros]);
        assert_eq!(count, guarded(&left, 5), "seed {}: what {self:?} leaves after {answer:?}", seed());
        if self.count.len() == 1 {
            let handed_back = lova::count_zeros(self.n as usize, &self.e).map_err(|refusal| refusal.number().into());
            assert_eq!(handed_back, answer, "seed {}: {self:?}", seed());
        }
        answer
    }

    /// The count by the reference, or the refusal.
    fn by_reference(&self) -> Result<u64, u32> {
        let mut count = self.count.clone();
        match count_zeros(self.n, &self.e, &mut count) {
            Answer::Refused(number) => Err(number),
            _ => Ok(count[0]),
        }
    }

    /// Make the call both ways: the answers must be equal. A count is odd, since c and −c both count, and it is all
    /// vectors, or at most two thirds of them.
    pub fn take(&self) -> Result<u64, u32> {
        let answer = self.by_library();
        assert_eq!(answer, self.by_reference(), "seed {}: {self:?}", seed());
        if let Ok(zeros) = answer {
            let (all, is_zero) = (3u64.pow(self.n as u32), self.e.iter().all(|entry| *entry == 0));
            let within = if is_zero { zeros == all } else { 3 * zeros <= 2 * all };
            assert!(within && zeros % 2 == 1, "seed {}: {zeros} zeros of {self:?}", seed());
        }
        answer
    }
}

/// The triangle of so many rows with these entries, from a function of row and column.
fn triangle(n: usize, mut entry: impl FnMut(usize, usize) -> i64) -> Vec<i64> {
    let places = (0..n).flat_map(|i| (0..=i).map(move |j| (i, j)));
    places.map(|(i, j)| entry(i, j)).collect()
}

/// An entry up to this size.
fn up_to(rng: &mut Rng, size: i64) -> i64 {
    rng.between(-i128::from(size), size.into()) as i64
}

/// Small entries, so that zeros are frequent.
pub fn small(rng: &mut Rng, n: usize) -> Vec<i64> {
    let size = pick(rng, &[1, 1, 2, 3, 8]);
    triangle(n, |_, _| up_to(rng, size))
}

/// Few entries other than 0, of any size.
pub fn sparse(rng: &mut Rng, n: usize) -> Vec<i64> {
    let size = pick(rng, &[1, 3, GREATEST_ENTRY]);
    triangle(n, |_, _| if once_in(rng, 6) { up_to(rng, size) } else { 0 })
}

/// Entries of any size; the greatest, the least and those next to them are frequent.
pub fn large(rng: &mut Rng, n: usize) -> Vec<i64> {
    let entry = |_, _| {
        let any = up_to(rng, GREATEST_ENTRY);
        let next = GREATEST_ENTRY - 1;
        pick(rng, &[GREATEST_ENTRY, -GREATEST_ENTRY, next, -next, any, any])
    };
    triangle(n, entry)
}

/// A sum of one or two squares of linear forms with small coefficients, with signs: its rank is at most two.
pub fn low_rank(rng: &mut Rng, n: usize) -> Vec<i64> {
    let size = pick(rng, &[1, 2, 3]);
    let (one, two): (Vec<i64>, Vec<i64>) = (0..n).map(|_| (up_to(rng, size), up_to(rng, size))).unzip();
    let sign = pick(rng, &[-1, 0, 1]);
    triangle(n, |i, j| one[i] * one[j] + sign * two[i] * two[j])
}

/// A small matrix, or one of low rank, as many times as the range of the entries allows, so that the terms are large
/// where the form is 0.
pub fn scaled(rng: &mut Rng, n: usize) -> Vec<i64> {
    let e = if once_in(rng, 2) { small(rng, n) } else { low_rank(rng, n) };
    let greatest = e.iter().map(|entry| entry.abs()).max().unwrap_or(0);
    let times = pick(rng, &[GREATEST_ENTRY / greatest.max(1), 1 << (51 - greatest.max(1).ilog2())]);
    e.into_iter().map(|entry| entry * times).collect()
}

/// The same, with an entry that is one off: many sums of large terms are then next to 0, and not 0.
pub fn next_to_scaled(rng: &mut Rng, n: usize) -> Vec<i64> {
    let mut e = scaled(rng, n);
    let at = below(rng, e.len());
    e[at] += if e[at] > 0 { -1 } else { 1 };
    e
}

/// The triangle of zeros but for one entry.
pub fn alone(n: usize, at: usize, entry: i64) -> Vec<i64> {
    let mut e = vec![0; triangle_length(n)];
    e[at] = entry;
    e
}
