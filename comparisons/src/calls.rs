//! Calls of the operations, made by the static library and by the reference.

use crate::library;
use crate::seed::seed;
use reference::operations::{self, Answer, Instance, Profile};
use reference::settings::Parameters;
use std::fmt::Display;
use Matrix::*;
use Profile::{Fresh, General};
use Slice::*;

/// Places before and after each output that no call may touch.
pub const GUARD: usize = 5;

/// The operations, those of a fold in a profile.
#[derive(Clone, Copy, Debug, PartialEq, Eq)]
pub enum Operation {
    Commit(Profile),
    Message(Profile),
    FoldWitness(Profile),
    Recompose(Profile),
    Join(Profile),
    Verify(Profile),
    TestRelation,
}

/// What a slice stands for; those that begin with `Right` are of the second witness, which may be fresh.
#[derive(Clone, Copy, Debug, PartialEq, Eq)]
pub enum Matrix {
    A,
    S,
    T,
    D,
    RightS,
    RightT,
    RightD,
    V,
    DigitT,
    DigitD,
    DigitS,
    C,
    JoinedT,
    JoinedD,
}

/// The entries of a slice.
#[derive(Clone, Debug, PartialEq, Eq)]
pub enum Slice {
    Words(Vec<u64>),
    Numbers(Vec<i64>),
    Bytes(Vec<u8>),
}

impl Operation {
    /// All operations in all profiles.
    pub const ALL: [Operation; 13] = [
        Operation::Commit(General),
        Operation::Message(General),
        Operation::FoldWitness(General),
        Operation::Recompose(General),
        Operation::Join(General),
        Operation::Verify(General),
        Operation::TestRelation,
        Operation::Commit(Fresh),
        Operation::Message(Fresh),
        Operation::FoldWitness(Fresh),
        Operation::Recompose(Fresh),
        Operation::Join(Fresh),
        Operation::Verify(Fresh),
    ];

    /// The name, which ends in `Fresh` for that profile.
    pub fn name(self) -> String {
        format!("{self:?}").replace("(General)", "").replace("(Fresh)", "Fresh")
    }

    /// The profile.
    pub fn profile(self) -> Profile {
        match self {
            Operation::Commit(profile)
            | Operation::Message(profile)
            | Operation::FoldWitness(profile)
            | Operation::Recompose(profile)
            | Operation::Join(profile)
            | Operation::Verify(profile) => profile,
            Operation::TestRelation => General,
        }
    }

    /// The answer that code 0 stands for.
    fn taken(self) -> Answer {
        match self {
            Operation::Verify(_) => Answer::Yes,
            Operation::TestRelation => Answer::Member,
            _ => Answer::Done,
        }
    }

    /// The work at an accepted setting, in products of two entries; that of making the inputs is in it. The reference
    /// works in the general form.
    pub fn work(self, p: &Parameters) -> u128 {
        let (n, m, t, columns) = (p.n as u128, p.m as u128, p.t as u128, p.columns());
        match self {
            Operation::Commit(_) | Operation::TestRelation => (n + t) * m * t,
            Operation::Join(_) => (n + t) * t,
            Operation::FoldWitness(_) => m * columns * t,
            Operation::Recompose(_) => m * columns * 2 * t,
            Operation::Message(_) => (n + columns) * m * columns,
            Operation::Verify(_) => (n + columns) * (m + 3 * t) * columns,
        }
    }

    /// The matrices that are read, in order.
    pub fn reads(self) -> &'static [Matrix] {
        match self {
            Operation::Commit(_) => &[A, RightS],
            Operation::Message(_) => &[A, S, RightS],
            Operation::FoldWitness(_) => &[DigitS, C],
            Operation::Recompose(_) => &[DigitS],
            Operation::Join(_) => &[T, D, RightT, RightD, V],
            Operation::Verify(_) => &[T, D, RightT, RightD, V, DigitT, DigitD, C],
            Operation::TestRelation => &[A, T, D, S],
        }
    }

    /// The matrices that are written, in order.
    pub fn writes(self) -> &'static [Matrix] {
        match self {
            Operation::Commit(_) => &[RightT, RightD],
            Operation::Verify(_) => &[T, D],
            Operation::Message(_) => &[V, DigitT, DigitD, DigitS],
            Operation::FoldWitness(_) => &[S],
            Operation::Recompose(_) => &[S, RightS],
            Operation::Join(_) => &[JoinedT, JoinedD],
            Operation::TestRelation => &[],
        }
    }
}

impl Matrix {
    /// The number of entries at a setting, accepted or not.
    pub fn length(self, p: &Parameters, profile: Profile) -> u128 {
        let (n, m, t, k) = (p.n as u128, p.m as u128, p.t as u128, p.k() as u128);
        let right = if profile == Fresh { 1 } else { t };
        let columns = k * t + k * right;
        let (rows, width) = match self {
            A => (n, m),
            S => (m, t),
            T => (n, t),
            D => (t, t),
            RightS => (m, right),
            RightT => (n, right),
            RightD => (right, right),
            V => (t, right),
            DigitT => (n, columns),
            // A lower triangle.
            DigitD => return columns.saturating_mul(columns + 1) / 2,
            DigitS => (m, columns),
            C => (2 * k * t, t),
            JoinedT => (n, 2 * t),
            JoinedD => (2 * t, 2 * t),
        };
        rows.saturating_mul(width)
    }
}

impl Slice {
    /// The number of entries.
    pub fn length(&self) -> usize {
        match self {
            Words(entries) => entries.len(),
            Numbers(entries) => entries.len(),
            Bytes(entries) => entries.len(),
        }
    }

    /// How an output differs from another one of its kind.
    fn difference(&self, other: &Slice) -> String {
        match (self, other) {
            (Words(one), Words(two)) => first_difference(one, two),
            (Numbers(one), Numbers(two)) => first_difference(one, two),
            (Bytes(one), Bytes(two)) => first_difference(one, two),
            _ => "another kind of entries".to_string(),
        }
    }

    /// Cut or lengthen to this number of entries.
    pub fn resize(&mut self, length: usize) {
        match self {
            Words(entries) => entries.resize(length, 1),
            Numbers(entries) => entries.resize(length, 1),
            Bytes(entries) => entries.resize(length, 1),
        }
    }
}

/// The first entry of an output that differs, counted from the start of the lent part.
fn first_difference<E: PartialEq + Display>(own: &[E], other: &[E]) -> String {
    match own.iter().zip(other).position(|(one, two)| one != two) {
        Some(at) => format!("entry {} is {} instead of {}", at as isize - GUARD as isize, own[at], other[at]),
        None => "no entry differs".to_string(),
    }
}

/// The place of a leaf count, with guards around it.
pub type Count = [u32; 2 * GUARD + 1];

/// What a call may write.
#[derive(Clone)]
pub struct Outputs {
    pub slices: Vec<Slice>,
    pub leaves: Count,
}

/// A call: what is lent to it; the outputs hold noise and have guards around them. Join and verdict alone read leaf
/// counts.
#[derive(Clone)]
pub struct Call {
    pub operation: Operation,
    pub p: Parameters,
    pub read: Vec<Slice>,
    pub leaves: [u32; 2],
    pub written: Outputs,
}

/// The entries with guards around them, which no call may touch.
pub fn guarded<E: Copy>(entries: &[E], guard: E) -> Vec<E> {
    [&[guard; GUARD], entries, &[guard; GUARD]].concat()
}

/// The part of an output that is lent.
pub fn lent<E>(guarded: &mut [E]) -> &mut [E] {
    let end = guarded.len() - GUARD;
    &mut guarded[GUARD..end]
}

/// The answer with this code; 0 is the one given.
fn answer(code: u8, taken: Answer) -> Answer {
    match code {
        0 => taken,
        100 => Answer::Norm,
        101 => Answer::Commitment,
        102 => Answer::Long,
        103 => Answer::Products,
        _ => Answer::Refused(code.into()),
    }
}

impl Call {
    /// Both instances that a join or a verdict reads.
    fn instances(&self) -> [Instance<'_>; 2] {
        let [Words(t1), Numbers(d1), Words(t2), Numbers(d2), ..] = &self.read[..] else {
            panic!("the slices are not those of {:?}", self.operation)
        };
        let [one, two] = self.leaves;
        [Instance { t: t1, d: d1, leaves: one }, Instance { t: t2, d: d2, leaves: two }]
    }

    /// The answer of the static library, with what it writes in these outputs.
    pub fn by_library(&self, written: &mut Outputs) -> Answer {
        let (p, leaves) = (&self.p, &mut written.leaves[GUARD]);
        let code = match (self.operation, &self.read[..], &mut written.slices[..]) {
            (Operation::Commit(profile), [Words(a), Numbers(s)], [Words(t), Numbers(d)]) => {
                library::commit(p, profile, a, s, lent(t), lent(d), leaves)
            }
            (
                Operation::Message(profile),
                [Words(a), Numbers(s1), Numbers(s2)],
                [Numbers(v), Words(tt), Numbers(dd), Numbers(ss)],
            ) => library::message(p, profile, a, s1, s2, lent(v), lent(tt), lent(dd), lent(ss)),
            (Operation::FoldWitness(profile), [Numbers(ss), Bytes(c)], [Numbers(s)]) => {
                library::fold_witness(p, profile, ss, c, lent(s))
            }
            (Operation::Recompose(profile), [Numbers(ss)], [Numbers(s1), Numbers(s2)]) => {
                library::recompose(p, profile, ss, lent(s1), lent(s2))
            }
            (Operation::Join(profile), [_, _, _, _, Numbers(v)], [Words(t), Numbers(d)]) => {
                let [one, two] = self.instances();
                library::join(p, profile, one, two, v, lent(t), lent(d), leaves)
            }
            (
                Operation::Verify(profile),
                [_, _, _, _, Numbers(v), Words(tt), Numbers(dd), Bytes(c)],
                [Words(t), Numbers(d)],
            ) => {
                let [one, two] = self.instances();
                library::verify(p, profile, one, two, v, tt, dd, c, lent(t), lent(d), leaves)
            }
            (Operation::TestRelation, [Words(a), Words(t), Numbers(d), Numbers(s)], []) => {
                library::test_relation(p, a, t, d, s)
            }
            _ => panic!("the slices are not those of {:?}", self.operation),
        };
        answer(code, self.operation.taken())
    }

    /// The answer of the reference, with what it writes in these outputs.
    pub fn by_reference(&self, written: &mut Outputs) -> Answer {
        let (p, leaves) = (&self.p, &mut written.leaves[GUARD]);
        match (self.operation, &self.read[..], &mut written.slices[..]) {
            (Operation::Commit(profile), [Words(a), Numbers(s)], [Words(t), Numbers(d)]) => {
                operations::commit(p, profile, a, s, lent(t), lent(d), leaves)
            }
            (
                Operation::Message(profile),
                [Words(a), Numbers(s1), Numbers(s2)],
                [Numbers(v), Words(tt), Numbers(dd), Numbers(ss)],
            ) => operations::message(p, profile, a, s1, s2, lent(v), lent(tt), lent(dd), lent(ss)),
            (Operation::FoldWitness(profile), [Numbers(ss), Bytes(c)], [Numbers(s)]) => {
                operations::folded_witness(p, profile, ss, c, lent(s))
            }
            (Operation::Recompose(profile), [Numbers(ss)], [Numbers(s1), Numbers(s2)]) => {
                operations::recompose(p, profile, ss, lent(s1), lent(s2))
            }
            (Operation::Join(profile), [_, _, _, _, Numbers(v)], [Words(t), Numbers(d)]) => {
                let [one, two] = self.instances();
                operations::join(p, profile, one, two, v, lent(t), lent(d), leaves)
            }
            (
                Operation::Verify(profile),
                [_, _, _, _, Numbers(v), Words(tt), Numbers(dd), Bytes(c)],
                [Words(t), Numbers(d)],
            ) => {
                let [one, two] = self.instances();
                operations::verdict(p, profile, one, two, v, tt, dd, c, lent(t), lent(d), leaves)
            }
            (Operation::TestRelation, [Words(a), Words(t), Numbers(d), Numbers(s)], []) => {
                operations::relation(p, a, t, d, s)
            }
            _ => panic!("the slices are not those of {:?}", self.operation),
        }
    }

    /// The place of a comparison, for a message.
    pub fn place(&self, case: u64) -> String {
        let lengths: Vec<usize> = self.read.iter().map(Slice::length).collect();
        let (seed, operation, p, leaves) = (seed(), self.operation, self.p, self.leaves);
        format!("seed {seed}, case {case}: {operation:?} at {p:?}, lengths {lengths:?}, leaves {leaves:?}")
    }

    /// What the place of a leaf count, with its guards, must hold after this answer.
    fn counted(&self, answer: Answer) -> Count {
        let [one, two] = self.leaves;
        let held = self.written.leaves[GUARD];
        let leaves = match (self.operation, answer) {
            (_, Answer::Refused(_)) => held,
            (Operation::Commit(_), _) => 1,
            (Operation::Join(_), _) | (_, Answer::Yes) => one + two,
            (Operation::Verify(_), _) => 0,
            _ => held,
        };
        let mut place = self.written.leaves;
        place[GUARD] = leaves;
        place
    }

    /// Make the call both ways. The answers must be equal, and so must all that the outputs and
    /// their guards hold afterwards; without done or yes that is what they held before, but for a leaf count.
    pub fn compare(&self, case: u64) -> Answer {
        let (mut ours, mut theirs) = (self.written.clone(), self.written.clone());
        let answer = self.by_library(&mut ours);
        let expected = self.by_reference(&mut theirs);
        assert_eq!(answer, expected, "{}", self.place(case));
        if !matches!(expected, Answer::Done | Answer::Yes) {
            let kept = ours.slices == self.written.slices;
            assert!(kept, "{}: {expected:?}, and yet an output was written", self.place(case));
        }
        assert_equal(&ours, &theirs, || self.place(case));
        assert_eq!(ours.leaves, self.counted(expected), "{}: {expected:?}, the leaf count", self.place(case));
        expected
    }
}

/// Ask that what outputs hold after two calls is equal.
pub fn assert_equal(ours: &Outputs, theirs: &Outputs, place: impl Fn() -> String) {
    for (number, (own, other)) in ours.slices.iter().zip(&theirs.slices).enumerate() {
        assert!(own == other, "{}: output {number}: {}", place(), own.difference(other));
    }
    assert_eq!(ours.leaves, theirs.leaves, "{}: the leaf count", place());
}
