//! A fresh call against the general one, both made by the static library: the outcomes are equal once all that is fresh
//! is repeated t times.

use crate::calls::{assert_equal, Call, Matrix, Operation, Outputs, Slice, GUARD};
use reference::matrices::{lower, mirrored, repeated, repeated_square};
use reference::operations::Profile::{Fresh, General};
use reference::settings::{shape, Shape};

impl Operation {
    /// The general operation of a fresh one.
    fn general(self) -> Option<Operation> {
        match self {
            Operation::Commit(Fresh) => Some(Operation::Commit(General)),
            Operation::Message(Fresh) => Some(Operation::Message(General)),
            Operation::FoldWitness(Fresh) => Some(Operation::FoldWitness(General)),
            Operation::Recompose(Fresh) => Some(Operation::Recompose(General)),
            Operation::Join(Fresh) => Some(Operation::Join(General)),
            Operation::Verify(Fresh) => Some(Operation::Verify(General)),
            _ => None,
        }
    }
}

impl Matrix {
    /// The general form of this matrix in a fresh call; what stands around it, so many entries on each side, stays.
    fn repeated<E: Copy>(self, z: &Shape, around: usize, entries: &[E]) -> Vec<E> {
        let (before, rest) = entries.split_at(around);
        let (inner, after) = rest.split_at(rest.len() - around);
        let (left, columns) = (z.k * z.t, Fresh.columns(z));
        let inner = match self {
            Matrix::RightS | Matrix::RightT | Matrix::V => repeated(inner, 1, 0, z.t),
            Matrix::RightD => repeated_square(inner, 1, 0, z.t),
            Matrix::DigitT | Matrix::DigitS => repeated(inner, columns, left, z.t),
            Matrix::DigitD => lower(&repeated_square(&mirrored(inner, columns), columns, left, z.t), z.columns),
            _ => inner.to_vec(),
        };
        [before, &inner, after].concat()
    }
}

/// The general form of the slices that stand for these matrices in a fresh call.
fn all_repeated(z: &Shape, around: usize, matrices: &[Matrix], slices: &[Slice]) -> Vec<Slice> {
    let one = |(matrix, slice): (&Matrix, &Slice)| match slice {
        Slice::Words(entries) => Slice::Words(matrix.repeated(z, around, entries)),
        Slice::Numbers(entries) => Slice::Numbers(matrix.repeated(z, around, entries)),
        Slice::Bytes(entries) => Slice::Bytes(matrix.repeated(z, around, entries)),
    };
    matrices.iter().zip(slices).map(one).collect()
}

impl Call {
    /// Whether every slice has the length of its matrix.
    fn fits(&self) -> bool {
        let fit = |matrices: &[Matrix], slices: &[Slice], around: usize| {
            let lengths = matrices.iter().map(|matrix| matrix.length(&self.p, self.operation.profile()));
            lengths.zip(slices).all(|(length, slice)| length == (slice.length() - around) as u128)
        };
        fit(self.operation.reads(), &self.read, 0) && fit(self.operation.writes(), &self.written.slices, 2 * GUARD)
    }

    /// Make a fresh call and the general one, with what the outputs hold repeated as well. The answers must be equal, and
    /// so must what the outputs hold afterwards. False for a call that has no general one: it is one itself, or a length
    /// is wrong. At a refused setting nothing is repeated, since no length is looked at.
    pub fn compare_repeated(&self, case: u64) -> bool {
        let Some(operation) = self.operation.general() else { return false };
        let z = shape(&self.p).ok();
        if z.is_some() && !self.fits() {
            return false;
        }
        let general = |matrices: &[Matrix], around: usize, slices: &[Slice]| match &z {
            Some(z) => all_repeated(z, around, matrices, slices),
            None => slices.to_vec(),
        };
        let outputs = |fresh: &Outputs| Outputs {
            slices: general(self.operation.writes(), GUARD, &fresh.slices),
            leaves: fresh.leaves,
        };
        let mut fresh = self.written.clone();
        let answer = self.by_library(&mut fresh);
        let read = general(self.operation.reads(), 0, &self.read);
        let other = Call { operation, p: self.p, read, leaves: self.leaves, written: outputs(&self.written) };
        let mut expected = other.written.clone();
        assert_eq!(answer, other.by_library(&mut expected), "{}: the general call", self.place(case));
        assert_equal(&outputs(&fresh), &expected, || format!("{}: the general call", self.place(case)));
        true
    }
}
