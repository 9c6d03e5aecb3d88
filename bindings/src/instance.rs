//! Instances, which carry the number of leaves under them.

/// An instance: T and D as lent slices, and the number of leaves under it.
///
/// A call that writes T and D hands the instance back, over the slices that were lent for it. One that comes from
/// elsewhere is put together from its parts; its count must be from 1 to 2^32 − 1.
#[derive(Clone, Copy, Debug, PartialEq, Eq, Hash)]
pub struct Instance<'a> {
    /// T.
    pub t: &'a [u64],
    /// D.
    pub d: &'a [i64],
    /// The number of leaves: 1 from a commitment, the sum of both from a join and from a yes.
    pub leaves: u32,
}
