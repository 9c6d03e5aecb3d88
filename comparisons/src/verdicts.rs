//! Random inputs of the verdict: honest ones, made ones, noise, and damage to them.

use crate::calls::Slice;
use crate::inputs::*;
use crate::seed::{below, once_in, pick};
use reference::matrices::{
    cut, mirrored, product, transposed, triangle_length, whole, words as fitted, wrapping_product,
};
use reference::operations::{gadget, Profile};
use reference::rng::Rng;
use reference::settings::{Parameters, Shape};
use reference::tree::{honest_message, leaf, Message, Node};
use std::ops::Range;

/// What the verdict reads.
pub struct Judged {
    left: Node,
    right: Node,
    sent: Message,
    c: Vec<u8>,
}

impl Judged {
    /// The slices in the order of the call.
    pub fn slices(self) -> Vec<Slice> {
        let instance = |node: Node| [Slice::Words(node.t), Slice::Numbers(node.d)];
        let message = [Slice::Numbers(self.sent.v), Slice::Words(self.sent.tt), Slice::Numbers(self.sent.dd)];
        let mut slices = Vec::from(instance(self.left));
        slices.extend(instance(self.right));
        slices.extend(message);
        slices.push(Slice::Bytes(self.c));
        slices
    }
}

/// An honest fold of two witnesses within B.
fn honest(rng: &mut Rng, p: &Parameters, profile: Profile, c: Vec<u8>) -> Judged {
    let a = words(rng, (p.n * p.m) as usize);
    let left = leaf(p, Profile::General, &a, &witness(rng, p)).expect("a witness within B");
    let right = leaf(p, profile, &a, &witness(rng, &second(p, profile))).expect("a witness within B");
    let sent = honest_message(p, profile, &a, &left.s, &right.s).expect("witnesses within B");
    Judged { left, right, sent, c }
}

/// A D~ within H, all at H in size or random.
fn any_products(rng: &mut Rng, z: &Shape, columns: usize) -> Vec<i64> {
    let (length, limit) = (triangle_length(columns), z.product_limit as i64);
    if once_in(rng, 3) { vec![pick(rng, &[limit, -limit]); length] } else { within(rng, length, limit) }
}

/// Where entry (i, j), j at most i, stands in a lower triangle by rows.
fn place(i: usize, j: usize) -> usize {
    triangle_length(i) + j
}

/// Change the block of D~ on the diagonal that begins in this row so that its recomposition is this number, or one that
/// is close where H is too small for it: digits on the diagonal and right below it, from the highest down.
fn set_block(z: &Shape, start: usize, number: i64, dd: &mut [i64]) {
    for i in start..start + z.k {
        dd[place(i, start)..=place(i, i)].fill(0);
    }
    let (mut rest, limit) = (i128::from(number), i128::from(z.product_limit));
    for p in (0..2 * z.k - 1).rev() {
        let (row, column) = (p - p / 2, p / 2);
        // An entry below the diagonal is mirrored, so that it counts twice.
        let times = if row == column { 1 } else { 2 };
        let weight = times * i128::from(z.powers[row]) * i128::from(z.powers[column]);
        let nearest = (2 * rest + rest.signum() * weight) / (2 * weight);
        let digit = nearest.clamp(-limit, limit);
        rest -= digit * weight;
        dd[place(start + row, start + column)] = digit as i64;
    }
}

/// Change the blocks of D~ on the diagonal so that the diagonal entries of the joined D are at most B; now and then
/// one is above it.
fn set_diagonal(rng: &mut Rng, z: &Shape, columns: usize, dd: &mut [i64]) {
    let (bound, blocks) = (z.bound as i64, columns / z.k);
    let long = once_in(rng, 4).then(|| below(rng, blocks));
    for j in 0..blocks {
        let random = (rng.word() % z.bound) as i64;
        let entry = if long == Some(j) { bound + 1 } else { pick(rng, &[bound, random, random, -random]) };
        set_block(z, j * z.k, entry, dd);
    }
}

/// The block of a matrix with these rows and columns.
fn block<E: Copy>(matrix: &[E], width: usize, rows: Range<usize>, columns: Range<usize>) -> Vec<E> {
    rows.flat_map(|i| matrix[i * width + columns.start..i * width + columns.end].to_vec()).collect()
}

/// Instances made to fit a message of any T~ and D~, so that both equations hold with no witness at all.
fn made(rng: &mut Rng, z: &Shape, profile: Profile, c: Vec<u8>) -> Judged {
    let (t, columns, wide) = (z.t, profile.columns(z), z.t + profile.right(z));
    let (mut dd, tt) = (any_products(rng, z, columns), words(rng, z.n * columns));
    if !once_in(rng, 4) {
        set_diagonal(rng, z, columns, &mut dd);
    }
    // G for as many columns as [S1 S2] has.
    let g = cut(&gadget(z)[..columns * 2 * t], 2 * t, wide);
    let powers: Vec<i128> = g.iter().map(|power| *power as i128).collect();
    let right = product(&whole(&mirrored(&dd, columns)), &powers, columns, columns, wide);
    let d = fitted(&product(&transposed(&powers, columns, wide), &right, wide, columns, wide));
    let joined = wrapping_product(&tt, &g, z.n, columns, wide);
    let node = |part: Range<usize>| Node {
        t: block(&joined, wide, 0..z.n, part.clone()),
        d: block(&d, wide, part.clone(), part),
        ..Node::default()
    };
    let sent = Message { v: block(&d, wide, 0..t, t..wide), tt, dd, ss: Vec::new() };
    Judged { left: node(0..t), right: node(t..wide), sent, c }
}

/// Inputs that have nothing to do with each other, D~ within H.
fn unrelated(rng: &mut Rng, z: &Shape, profile: Profile, c: Vec<u8>) -> Judged {
    let (right, columns) = (profile.right(z), profile.columns(z));
    let mut node = |width: usize| {
        Node { t: words(rng, z.n * width), d: numbers(rng, width * width), ..Node::default() }
    };
    let (left, right_node) = (node(z.t), node(right));
    let dd = within(rng, triangle_length(columns), z.product_limit as i64);
    let sent = Message { v: numbers(rng, z.t * right), tt: words(rng, z.n * columns), dd, ss: Vec::new() };
    Judged { left, right: right_node, sent, c }
}

/// Change D~: one stored entry by one, past H, or in ways that the first equation cannot see.
fn damage_products(rng: &mut Rng, z: &Shape, columns: usize, dd: &mut [i64]) {
    let (at, sign) = (below(rng, dd.len()), pick(rng, &[1, -1]));
    let mut add = |at: usize, number: i64| dd[at] = dd[at].wrapping_add(number);
    match rng.word() % 5 {
        0 | 1 => add(at, sign),
        2 => dd[at] = beyond(rng, z.product_limit as i64),
        // Left of the blocks on the diagonal: a digit of weight b^p up by b, the next down by one.
        3 => {
            let row = z.k + below(rng, columns - z.k);
            let start = place(row, below(rng, row / z.k) * z.k);
            add(start, sign * z.b as i64);
            add(start + 1, -sign);
        }
        // In a block on the diagonal: an entry beside it, which counts twice, and one on it, both of weight b².
        _ => {
            let row = below(rng, columns / z.k) * z.k;
            add(place(row + 2, row), sign);
            add(place(row + 1, row + 1), -2 * sign);
        }
    }
}

/// Change T~: one entry, or in ways that the second equation cannot see.
fn damage_commitments(rng: &mut Rng, z: &Shape, tt: &mut [u64]) {
    let at = below(rng, tt.len());
    let start = at / z.k * z.k;
    match rng.word() % 3 {
        0 => tt[at] = tt[at].wrapping_add(pick(rng, &[1, u64::MAX])),
        // For an even b a high bit may leave the word with its power.
        1 => tt[at] ^= 1 << (63 - below(rng, 8)),
        _ => {
            tt[start] = tt[start].wrapping_add(z.b);
            tt[start + 1] = tt[start + 1].wrapping_sub(1);
        }
    }
}

/// Exchange the entries of two slices, as far as both go.
fn exchange<E>(one: &mut [E], two: &mut [E]) {
    one.iter_mut().zip(two).for_each(|(one, two)| std::mem::swap(one, two));
}

/// Change an entry beside the diagonal of D1 or D2 by one and leave its mirror image; nothing where both are one entry.
fn damage_symmetry(rng: &mut Rng, left: &mut [i64], right: &mut [i64]) {
    let d = if right.len() == 1 || once_in(rng, 2) { left } else { right };
    let side = d.len().isqrt();
    if side > 1 {
        let row = below(rng, side);
        let column = (row + 1 + below(rng, side - 1)) % side;
        d[row * side + column] = d[row * side + column].wrapping_add(pick(rng, &[1, -1]));
    }
}

/// Change an instance or V: an entry by a power of two, a diagonal entry to B, one above or below −B, one side of D1
/// or D2, V to its transposed, or the sides exchanged.
fn damage_instances(rng: &mut Rng, z: &Shape, input: &mut Judged) {
    let bit = pick(rng, &[0, 1, 31, 32, 62, 63]);
    let (left, right) = (&mut input.left, &mut input.right);
    match rng.word() % 12 {
        0 | 1 => {
            let t = if once_in(rng, 2) { &mut left.t } else { &mut right.t };
            let at = below(rng, t.len());
            t[at] ^= 1 << bit;
        }
        2 | 3 => {
            let d = pick(rng, &[0, 1, 2]);
            let d = [&mut left.d, &mut right.d, &mut input.sent.v].into_iter().nth(d).expect("three");
            let at = below(rng, d.len());
            d[at] ^= 1 << bit;
        }
        4 | 5 => {
            let d = if once_in(rng, 2) { &mut left.d } else { &mut right.d };
            let (bound, side) = (z.bound as i64, d.len().isqrt());
            d[below(rng, side) * (side + 1)] = pick(rng, &[bound, bound + 1, -bound - 1]);
        }
        6..=8 => damage_symmetry(rng, &mut left.d, &mut right.d),
        9 => input.sent.v = transposed(&input.sent.v, z.t, input.sent.v.len() / z.t),
        10 => {
            exchange(&mut left.t, &mut right.t);
            exchange(&mut left.d, &mut right.d);
        }
        _ => exchange(&mut left.t, &mut right.t),
    }
}

/// Any inputs of the verdict with the right lengths: half of them damaged, once or twice.
pub fn judged(rng: &mut Rng, p: &Parameters, profile: Profile) -> Judged {
    let z = shaped(p);
    let c = challenge(rng, z.columns * z.t);
    let mut input = match rng.word() % 8 {
        0 => unrelated(rng, &z, profile, c),
        1..=3 => made(rng, &z, profile, c),
        _ => honest(rng, p, profile, c),
    };
    for _ in 0..pick(rng, &[0, 0, 1, 2]) {
        match rng.word() % 8 {
            0 => spoil_challenge(rng, &mut input.c),
            1..=3 => damage_products(rng, &z, profile.columns(&z), &mut input.sent.dd),
            4 | 5 => damage_commitments(rng, &z, &mut input.sent.tt),
            _ => damage_instances(rng, &z, &mut input),
        }
    }
    input
}
