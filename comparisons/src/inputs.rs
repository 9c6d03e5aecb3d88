//! Random matrices, within the rules and past them.

use crate::seed::{below, once_in, pick};
use reference::digits::digit_matrix;
use reference::matrices::{beside, cut};
use reference::operations::Profile;
use reference::rng::Rng;
use reference::settings::{shape, Parameters, Shape};

/// Numbers at the ends of the word, and ones whose squares or low halves are small.
const FAR: [i64; 12] = [
    i64::MIN, i64::MIN + 1, i64::MAX, 1 << 31, -(1 << 31), 1 << 32, -(1 << 32), (1 << 32) + 1,
    1 << 62, 1 << 16, (1 << 16) + 1, -(1 << 16),
];

/// The shape of a setting that is known to be accepted.
pub fn shaped(p: &Parameters) -> Shape {
    shape(p).expect("an accepted setting")
}

/// The setting in whose form the second witness of a fold is a witness: t is 1 for a vector.
pub fn second(p: &Parameters, profile: Profile) -> Parameters {
    match profile {
        Profile::General => *p,
        Profile::Fresh => Parameters { t: 1, ..*p },
    }
}

/// Unsigned words, often near the ends.
pub fn words(rng: &mut Rng, length: usize) -> Vec<u64> {
    let mut entry = || match rng.word() % 4 {
        0 => rng.word() % 16,
        1 => u64::MAX - rng.word() % 16,
        _ => rng.word(),
    };
    (0..length).map(|_| entry()).collect()
}

/// Signed words, often near the ends.
pub fn numbers(rng: &mut Rng, length: usize) -> Vec<i64> {
    let number = |word: u64| if word.is_multiple_of(5) { FAR[word as usize % FAR.len()] } else { word as i64 };
    words(rng, length).into_iter().map(number).collect()
}

/// Bytes, most of them at most 2.
pub fn bytes(rng: &mut Rng, length: usize) -> Vec<u8> {
    (0..length).map(|_| if once_in(rng, 30) { rng.word() as u8 } else { (rng.word() % 3) as u8 }).collect()
}

/// The number or its negation.
fn signed(rng: &mut Rng, number: i64) -> i64 {
    pick(rng, &[number, -number])
}

/// Fill a column with as much of B as it can hold, row after row from a random one; the last row's place.
fn fill_column(rng: &mut Rng, z: &Shape, s: &mut [i64], j: usize) -> usize {
    let first = below(rng, z.m);
    let mut left = z.bound;
    for i in (0..z.m).map(|i| (first + i) % z.m) {
        let size = left.isqrt();
        left -= size * size;
        s[i * z.t + j] = signed(rng, size as i64);
    }
    (first + z.m - 1) % z.m * z.t + j
}

/// A witness within B.
pub fn witness(rng: &mut Rng, p: &Parameters) -> Vec<i64> {
    let z = shaped(p);
    let mut s = vec![0; z.m * z.t];
    match rng.word() % 8 {
        0 => {}
        // Columns of at most m in squared length, and growth makes B no less.
        1 => s.iter_mut().for_each(|entry| *entry = rng.between(-1, 1) as i64),
        2 | 3 => {
            for j in 0..z.t {
                fill_column(rng, &z, &mut s, j);
            }
        }
        _ => s = rng.witness(z.m, z.t, p.bound),
    }
    s
}

/// A witness with one column filled up to B, its number, and the place of the row that was filled last.
fn filled_witness(rng: &mut Rng, p: &Parameters) -> (Vec<i64>, usize, usize) {
    let z = shaped(p);
    let mut s = witness(rng, p);
    let j = below(rng, z.t);
    let last = fill_column(rng, &z, &mut s, j);
    (s, j, last)
}

/// A witness with one column above B by as little as it can be.
pub fn barely_long_witness(rng: &mut Rng, p: &Parameters) -> Vec<i64> {
    let (mut s, _, last) = filled_witness(rng, p);
    s[last] += if s[last] < 0 { -1 } else { 1 };
    s
}

/// A witness with one column above B: by as little as it can be, or far.
pub fn long_witness(rng: &mut Rng, p: &Parameters) -> Vec<i64> {
    if once_in(rng, 2) {
        return barely_long_witness(rng, p);
    }
    let (mut s, j, last) = filled_witness(rng, p);
    let far = pick(rng, &FAR[..9]);
    match once_in(rng, 2) {
        true => s[last] = far,
        false => s.iter_mut().skip(j).step_by(p.t as usize).for_each(|entry| *entry = far),
    }
    s
}

/// A witness, above B once in six.
pub fn any_witness(rng: &mut Rng, p: &Parameters) -> Vec<i64> {
    if once_in(rng, 6) {
        long_witness(rng, p)
    } else {
        witness(rng, p)
    }
}

/// A challenge: mixed, sparse, or all of one byte.
pub fn challenge(rng: &mut Rng, length: usize) -> Vec<u8> {
    match rng.word() % 6 {
        0 => vec![(rng.word() % 3) as u8; length],
        1 => (0..length).map(|_| if once_in(rng, 8) { pick(rng, &[1, 2]) } else { 0 }).collect(),
        _ => rng.challenge(length),
    }
}

/// A byte above 2 at some place, the ends included.
pub fn spoil_challenge(rng: &mut Rng, c: &mut [u8]) {
    let place = below(rng, c.len());
    let at = pick(rng, &[0, c.len() - 1, place]);
    c[at] = pick(rng, &[3, 4, 127, 128, 254, 255]);
}

/// Leaf counts of two instances. Once in ten they are refused, since one is 0 or the sum is above 2^32 − 1, often by one;
/// else that sum is frequent.
pub fn leaf_counts(rng: &mut Rng) -> [u32; 2] {
    let mut drawn = |low: u32, high: u32| rng.between(low.into(), high.into()) as u32;
    let any = drawn(1, u32::MAX - 1);
    let ends = [1, 1, 2, 1 << 31, u32::MAX - 1, any, any, any];
    let one = ends[drawn(0, 7) as usize];
    let room = u32::MAX - one;
    let (within, past) = (drawn(1, room), drawn(room + 1, u32::MAX));
    let counts = match once_in(rng, 10) {
        false => [one, pick(rng, &[1, room, within, within])],
        true => pick(rng, &[[0, one], [0, 0], [0, u32::MAX], [one, room + 1], [one, past], [u32::MAX, one]]),
    };
    pick(rng, &[counts, [counts[1], counts[0]]])
}

/// A digit witness: of two witnesses, random within h, or all at h.
pub fn digits(rng: &mut Rng, p: &Parameters, profile: Profile) -> Vec<i64> {
    let z = shaped(p);
    let (length, h) = (z.m * z.columns, z.h as i64);
    let general = match rng.word() % 4 {
        0 => within(rng, length, h),
        1 => vec![signed(rng, h); length],
        _ => digit_matrix(&beside(&witness(rng, p), &witness(rng, p), z.m, z.t), z.m, 2 * z.t, z.b, z.k),
    };
    cut(&general, z.columns, profile.columns(&z))
}

/// Random numbers of at most this size; the limit itself is frequent.
pub fn within(rng: &mut Rng, length: usize, limit: i64) -> Vec<i64> {
    let mut entry = || match rng.word() % 3 {
        0 => signed(rng, limit),
        _ => rng.between(-limit as i128, limit as i128) as i64,
    };
    (0..length).map(|_| entry()).collect()
}

/// A number above a limit in size, by one or far; now and then one at the limit.
pub fn beyond(rng: &mut Rng, limit: i64) -> i64 {
    match rng.word() % 6 {
        0 => signed(rng, limit),
        1 => pick(rng, &FAR),
        2 => pick(rng, &[1 << 32, 1 << 16, -(1 << 16), 1 << 48]) + signed(rng, limit),
        _ => signed(rng, limit + 1),
    }
}
