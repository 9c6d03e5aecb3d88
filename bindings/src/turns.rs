//! Taking turns on the machine: whose fold is next.

use crate::answers::{named, Refusal};
use crate::raw::{self, call};

/// The groups that take turns; they have the numbers 1 to 8.
pub const GROUPS: usize = 8;

/// A turn. Any one that is not refused may be the first.
#[derive(Clone, Copy, Debug, PartialEq, Eq, Hash)]
pub struct Turn {
    /// The group that has it, from 1 to 8.
    pub group: u64,
    /// The folds used in it, at most the weight of its group: 0 where it has not begun, the weight where it is over.
    pub used: u64,
}

/// The group of the next fold, or nothing where nobody waits. The weights, each from 1 to 16, and the number of folds
/// that each group has waiting stand in the order of the groups. The group that is named has one fold less waiting, and
/// the new turn is its own, with this fold counted; where nobody waits the counts and the turn stay as they are.
///
/// A turn ends at its weight or when its group has none waiting, which is judged by the counts of the next call. It
/// passes to the next waiting group: upwards, after 8 from 1 on, its own group last. While the weights stay and each
/// call gets the turn that the last one left, a group that keeps waiting sees at most the sum of the others' weights
/// served before it, whatever arrives between the calls.
///
/// ```
/// let (weights, mut waiting) = ([2, 1, 1, 1, 1, 1, 1, 1], [3, 0, 0, 0, 0, 0, 0, 1]);
/// let mut turn = lova::Turn { group: 1, used: 0 };
/// for group in [1, 1, 8, 1] {
///     assert_eq!(lova::next_fold(&weights, &mut waiting, &mut turn), Ok(Some(group)));
/// }
/// assert_eq!((waiting, turn), ([0; lova::GROUPS], lova::Turn { group: 1, used: 1 }));
/// assert_eq!(lova::next_fold(&weights, &mut waiting, &mut turn), Ok(None));
/// ```
///
/// Refusal: 20.
pub fn next_fold(
    weights: &[u64; GROUPS], waiting: &mut [u32; GROUPS], turn: &mut Turn,
) -> Result<Option<u64>, Refusal> {
    let mut places = [turn.group, turn.used];
    let group = write_next_fold(weights, waiting, &mut places)?;
    [turn.group, turn.used] = places;
    Ok(group)
}

/// [`next_fold`] on slices of [`GROUPS`] weights and counts and of 2 places for the turn, its group and the folds used:
/// 7, then 20.
pub fn write_next_fold(weights: &[u64], waiting: &mut [u32], turn: &mut [u64]) -> Result<Option<u64>, Refusal> {
    let named = named(call!(raw::lova_next_fold, [weights] => [waiting, turn]))?;
    Ok(named.then(|| turn[0]))
}
