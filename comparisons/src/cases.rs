//! Random calls: proper ones, damaged ones, ones with wrong lengths, ones at refused settings.

use crate::calls::{Call, Matrix, Operation, Outputs, Slice, GUARD};
use crate::inputs::*;
use crate::recompositions::any_digit_witness;
use crate::seed::{below, once_in, pick};
use crate::settings::{accepted_where, bordering_evenly, FULL};
use crate::verdicts::judged;
use reference::matrices::{inner_products, wrapped, wrapping_product};
use reference::operations::Profile;
use reference::rng::Rng;
use reference::settings::{refusal, Parameters};

/// Noise of the type that a matrix has.
fn noise(rng: &mut Rng, matrix: Matrix, length: usize) -> Slice {
    match matrix {
        Matrix::A | Matrix::T | Matrix::RightT | Matrix::DigitT | Matrix::JoinedT => Slice::Words(words(rng, length)),
        Matrix::C => Slice::Bytes(bytes(rng, length)),
        _ => Slice::Numbers(numbers(rng, length)),
    }
}

/// The call of an operation that reads and writes these slices.
fn call(rng: &mut Rng, operation: Operation, p: Parameters, read: Vec<Slice>, slices: Vec<Slice>) -> Call {
    let written = Outputs { slices, leaves: std::array::from_fn(|_| rng.word() as u32) };
    Call { operation, p, read, leaves: leaf_counts(rng), written }
}

/// What the folded witness reads; a byte or a digit is out of bounds now and then, or both are.
fn folding(rng: &mut Rng, p: &Parameters, profile: Profile) -> Vec<Slice> {
    let (mut ss, mut c) = (digits(rng, p, profile), challenge(rng, Matrix::C.length(p, profile) as usize));
    if once_in(rng, 4) {
        let place = below(rng, ss.len());
        let at = pick(rng, &[0, ss.len() - 1, place]);
        ss[at] = beyond(rng, p.h() as i64);
    }
    if once_in(rng, 6) {
        spoil_challenge(rng, &mut c);
    }
    vec![Slice::Numbers(ss), Slice::Bytes(c)]
}

/// What the relation test reads: an instance and its witness, each part changed now and then.
fn relation(rng: &mut Rng, p: &Parameters) -> Vec<Slice> {
    let z = shaped(p);
    let (a, mut s) = (words(rng, z.n * z.m), any_witness(rng, p));
    let mut t = wrapping_product(&a, &wrapped(&s), z.n, z.m, z.t);
    // Of a witness that is too long these may be the products modulo 2^64 alone.
    let products = s.iter().all(|x| x.unsigned_abs() < 1 << 32).then(|| inner_products(&s, &s, z.m, z.t));
    let mut d: Vec<i64> = products.map_or(vec![0; z.t * z.t], |d| d.iter().map(|x| *x as i64).collect());
    if once_in(rng, 4) {
        let at = below(rng, t.len());
        t[at] ^= 1 << below(rng, 64);
    }
    if once_in(rng, 6) {
        let at = below(rng, d.len());
        d[at] ^= 1 << below(rng, 64);
    }
    if once_in(rng, 8) {
        let at = below(rng, s.len());
        s[at] = s[at].wrapping_neg();
    }
    vec![Slice::Words(a), Slice::Words(t), Slice::Numbers(d), Slice::Numbers(s)]
}

/// A call at an accepted setting with the right lengths; what it reads may be damaged.
pub fn fitting(rng: &mut Rng, operation: Operation, p: Parameters) -> Call {
    let length = |matrix: &Matrix| matrix.length(&p, operation.profile()) as usize;
    let a = |rng: &mut Rng| Slice::Words(words(rng, length(&Matrix::A)));
    let s = |rng: &mut Rng, p: &Parameters| Slice::Numbers(any_witness(rng, p));
    let read = match operation {
        Operation::Commit(profile) => vec![a(rng), s(rng, &second(&p, profile))],
        Operation::Message(profile) => vec![a(rng), s(rng, &p), s(rng, &second(&p, profile))],
        Operation::FoldWitness(profile) => folding(rng, &p, profile),
        Operation::Recompose(profile) => vec![Slice::Numbers(any_digit_witness(rng, &p, profile))],
        Operation::Join(_) => operation.reads().iter().map(|x| noise(rng, *x, length(x))).collect(),
        Operation::Verify(profile) => judged(rng, &p, profile).slices(),
        Operation::TestRelation => relation(rng, &p),
    };
    let written = operation.writes().iter().map(|x| noise(rng, *x, length(x) + 2 * GUARD)).collect();
    call(rng, operation, p, read, written)
}

/// A call at a refused setting: slices of the matrices' lengths, as far as that goes, or of a few entries.
fn refused(rng: &mut Rng, operation: Operation, p: Parameters) -> Call {
    let few = once_in(rng, 2);
    let mut slice = |matrix: &Matrix, around: usize| {
        let whole = matrix.length(&p, operation.profile()).min(300) as usize;
        let length = if few { rng.word() as usize % 4 } else { whole };
        noise(rng, *matrix, length + around)
    };
    let read = operation.reads().iter().map(|matrix| slice(matrix, 0)).collect();
    let written = operation.writes().iter().map(|matrix| slice(matrix, 2 * GUARD)).collect();
    call(rng, operation, p, read, written)
}

/// Lengths that differ from this one: by one, and by much.
pub fn other_lengths(length: usize) -> [usize; 5] {
    [length - 1, length + 1, if length == 1 { 3 } else { 0 }, 2 * length, length + 1000]
}

/// The slices lent to a call, those read first, with the entries around each.
pub fn lent_slices(call: &mut Call) -> Vec<(&mut Slice, usize)> {
    let read = call.read.iter_mut().map(|slice| (slice, 0));
    read.chain(call.written.slices.iter_mut().map(|slice| (slice, 2 * GUARD))).collect()
}

/// Give one or two slices another length.
pub fn misfit(rng: &mut Rng, call: &mut Call) {
    for _ in 0..1 + below(rng, 2) {
        let mut slices = lent_slices(call);
        let place = below(rng, slices.len());
        let (slice, around) = &mut slices[place];
        let length = slice.length() - *around;
        if length > 0 {
            let other = pick(rng, &other_lengths(length));
            slice.resize(other + *around);
        }
    }
}

/// Any call of an operation with at most this work: once in three at a setting at some border.
pub fn any(rng: &mut Rng, operation: Operation, greatest_work: u128) -> Call {
    let fits = |p: &Parameters| operation.work(p) <= greatest_work;
    let drawn = once_in(rng, 3).then(|| bordering_evenly(rng));
    let p = match drawn {
        Some(p) if refusal(&p) != 0 => return refused(rng, operation, p),
        Some(p) if fits(&p) => p,
        _ => accepted_where(rng, FULL, fits),
    };
    let mut call = fitting(rng, operation, p);
    if once_in(rng, 10) {
        misfit(rng, &mut call);
    }
    call
}
