//! D~ as a lower triangle: the verdict on it is that on its mirrored square, honest messages correspond entry by entry,
//! and an instance that is not symmetric does not pass.

mod common;
use common::*;
use reference::matrices::{lower, mirrored, transposed, triangle_length};
use reference::operations::Answer::*;
use reference::operations::Profile::{Fresh, General};
use reference::operations::*;
use reference::rng::Rng;
use reference::settings::{shape, Parameters, Shape, LIST};
use reference::tree::{honest_message, leaf, Message, Node};
use std::collections::BTreeMap;

/// n = m = 1, t = 2, b = 5: k = 3 and N = 12, so that a fresh S~ has 9 columns.
const SMALL: Parameters = Parameters { n: 1, m: 1, t: 2, b: 5, bound: 576 };

/// A verdict, in the form with a triangle or in that with a square.
type Verdict = fn(
    &Parameters, Profile, Instance, Instance, &[i64], &[u64], &[i64], &[u8], &mut [u64], &mut [i64], &mut u32,
) -> Answer;

/// What a verdict reads beside the setting.
#[derive(Clone)]
struct Inputs {
    profile: Profile,
    left: Node,
    right: Node,
    sent: Message,
    c: Vec<u8>,
}

impl Inputs {
    /// A verdict's answer with what T', D' and the count hold afterwards; all held 99.
    fn judged(&self, p: &Parameters, verdict: Verdict) -> (Answer, Vec<u64>, Vec<i64>, u32) {
        let Inputs { profile, left, right, sent, c } = self;
        let (mut t, mut d, mut leaves) = (vec![99; left.t.len()], vec![99; left.d.len()], 99);
        let (one, two, v) = (left.instance(), right.instance(), &sent.v);
        let answer = verdict(p, *profile, one, two, v, &sent.tt, &sent.dd, c, &mut t, &mut d, &mut leaves);
        (answer, t, d, leaves)
    }

    /// The same with another D~.
    fn with(&self, dd: Vec<i64>) -> Inputs {
        let mut other = self.clone();
        other.sent.dd = dd;
        other
    }

    /// The same with D~ as its mirrored square, read entry by entry.
    fn in_square(&self, z: &Shape) -> Inputs {
        let columns = self.profile.columns(z);
        let square = (0..columns * columns).map(|at| self.sent.dd[place(at / columns, at % columns)]);
        self.with(square.collect())
    }
}

/// An honest fold.
fn inputs(rng: &mut Rng, p: &Parameters, profile: Profile) -> Inputs {
    let z = shape(p).unwrap();
    let a = random_matrix(rng, p);
    let left = leaf(p, General, &a, &rng.witness(z.m, z.t, p.bound)).unwrap();
    let right = leaf(p, profile, &a, &rng.witness(z.m, profile.right(&z), p.bound)).unwrap();
    let sent = honest_message(p, profile, &a, &left.s, &right.s).unwrap();
    Inputs { profile, left, right, sent, c: random_challenge(rng, p) }
}

/// An entry of a slice, drawn.
fn any<'a, T>(rng: &mut Rng, entries: &'a mut [T]) -> &'a mut T {
    let at = rng.word() as usize % entries.len();
    &mut entries[at]
}

/// Change one entry of what a verdict reads, or a count.
fn damage(rng: &mut Rng, p: &Parameters, input: &mut Inputs) {
    let (bit, limit) = (rng.word() % 64, p.product_limit().unwrap() as i64);
    let bound = p.bound as i64;
    match rng.word() % 11 {
        0..=2 => *any(rng, &mut input.sent.dd) += 1,
        3 => *any(rng, &mut input.sent.dd) = -limit - 1,
        4 => *any(rng, &mut input.sent.tt) ^= 1 << bit,
        5 => *any(rng, &mut input.sent.v) += 1,
        6 => *any(rng, &mut input.left.d) += 1,
        7 => *any(rng, &mut input.right.t) ^= 1 << bit,
        8 => input.left.d[0] = bound + 1,
        9 => input.right.leaves = *any(rng, &mut [0, u32::MAX - 1, u32::MAX]),
        _ => *any(rng, &mut input.c) = 3,
    }
}

#[test]
fn entries_by_rows() {
    let square = [1, 2, 3, 4, 5, 6, 7, 8, 9];
    assert_eq!(lower(&square, 3), [1, 4, 5, 7, 8, 9]);
    assert_eq!(mirrored(&[1, 4, 5, 7, 8, 9], 3), [1, 4, 7, 4, 5, 8, 7, 8, 9]);
    assert_eq!([0, 1, 2, 3, 10, 512].map(triangle_length), [0, 1, 3, 6, 55, 131328]);
    for rows in 0..12 {
        let triangle: Vec<usize> = (0..triangle_length(rows)).collect();
        let square = mirrored(&triangle, rows);
        assert_eq!(square, transposed(&square, rows, rows));
        assert_eq!(lower(&square, rows), triangle);
        for i in 0..rows {
            for j in 0..rows {
                assert_eq!(square[i * rows + j], place(i, j));
            }
        }
    }
}

#[test]
fn honest_messages_correspond() {
    let mut rng = Rng::new(61);
    let drawn: Vec<Parameters> = (0..76).map(|_| random_setting(&mut rng, 48)).collect();
    for p in LIST.into_iter().chain(drawn) {
        let z = shape(&p).unwrap();
        for profile in [General, Fresh] {
            let (sent, columns) = (inputs(&mut rng, &p, profile).sent, profile.columns(&z));
            assert_eq!(sent.dd.len(), columns * (columns + 1) / 2);
            let square = mirrored(&sent.dd, columns);
            for (at, entry) in square.iter().enumerate() {
                let (i, j) = (at / columns, at % columns);
                let product = |row: &[i64]| row[i] as i128 * row[j] as i128;
                assert_eq!(*entry as i128, sent.ss.chunks_exact(columns).map(product).sum::<i128>());
            }
        }
    }
}

#[test]
fn the_verdict_is_that_on_the_mirrored_square() {
    let mut rng = Rng::new(62);
    let mut counts = BTreeMap::new();
    for round in 0..1600 {
        let p = if round % 4 == 0 { LIST[round / 4 % 2] } else { random_setting(&mut rng, 40) };
        let (z, profile) = (shape(&p).unwrap(), if round % 2 == 0 { General } else { Fresh });
        let mut input = inputs(&mut rng, &p, profile);
        for _ in 0..rng.word() % 3 {
            damage(&mut rng, &p, &mut input);
        }
        let outcome = input.judged(&p, verdict);
        assert_eq!(outcome, input.in_square(&z).judged(&p, square_verdict));
        *counts.entry(format!("{profile:?} {}", outcome.0.word())).or_insert(0) += 1;
    }
    for word in ["yes", "long", "norm", "commitment", "refused(15)", "refused(9)", "refused(10)"] {
        for profile in ["General", "Fresh"] {
            let count = counts.get(&format!("{profile} {word}")).copied().unwrap_or(0);
            assert!(count > 20, "{profile} {word}: {counts:?}");
        }
    }
}

#[test]
fn other_lengths_are_7() {
    let mut rng = Rng::new(63);
    for profile in [General, Fresh] {
        let (z, input) = (shape(&SMALL).unwrap(), inputs(&mut rng, &SMALL, profile));
        let columns = profile.columns(&z);
        let triangle = columns * (columns + 1) / 2;
        for length in [0, columns, triangle - columns, triangle - 1, triangle + 1, columns * columns] {
            let mut other = input.with(vec![0; length]);
            assert_eq!(other.judged(&SMALL, verdict), (Refused(7), vec![99; 2], vec![99; 4], 99));
            // A wrong length comes before a bad byte, a bad setting before both.
            other.c[0] = 3;
            assert_eq!(other.judged(&SMALL, verdict).0, Refused(7));
            assert_eq!(other.judged(&setting(1, 1, 2, 5, 575), verdict).0, Refused(5));
            let (mut v, mut tt, mut ss) = (input.sent.v.clone(), input.sent.tt.clone(), input.sent.ss.clone());
            let (s1, s2, mut dd) = (&input.left.s, &input.right.s, vec![99; length]);
            let answer = message(&SMALL, profile, &[3], s1, s2, &mut v, &mut tt, &mut dd, &mut ss);
            assert_eq!((answer, dd), (Refused(7), vec![99; length]));
        }
        assert_eq!(input.with(vec![0; triangle]).judged(&SMALL, square_verdict).0, Refused(7));
    }
}

/// The fold with entry (i, j) of D1 or of D2 up by one, and its mirror image as it is.
fn unsymmetric(input: &Inputs, second: bool, t: usize, i: usize, j: usize) -> Inputs {
    let mut other = input.clone();
    let d = if second { &mut other.right.d } else { &mut other.left.d };
    d[i * t + j] += 1;
    other
}

#[test]
fn an_unsymmetric_instance_is_norm() {
    let mut rng = Rng::new(64);
    let mut folds = [0, 0, 0];
    for round in 0..200 {
        let p = if round < 3 { LIST[1] } else { random_setting(&mut rng, 40) };
        let (z, profile) = (shape(&p).unwrap(), if round % 2 == 0 { General } else { Fresh });
        let input = inputs(&mut rng, &p, profile);
        assert_eq!(input.judged(&p, verdict).0, Yes);
        for (second, i, j) in [(false, 0, 1), (false, 1, 0), (true, 0, 1), (true, 1, 0)] {
            if z.t == 1 || (second && profile == Fresh) {
                continue;
            }
            let mut other = unsymmetric(&input, second, z.t, i, j);
            assert_eq!(other.judged(&p, verdict).0, Norm);
            folds[if second { 2 } else { (profile == Fresh) as usize }] += 1;
            // Nor does it help to change D~: an entry of it stands on both sides.
            let row = (if second { z.t } else { 0 }) * z.k;
            other.sent.dd[place(row + z.k, row)] += 1;
            let answer = other.judged(&p, verdict).0;
            assert!([Norm, Refused(10)].contains(&answer), "{answer:?}");
            // A diagonal entry above B comes first.
            other.sent.dd[place(row + z.k, row)] -= 1;
            other.right.d[0] = p.bound as i64 + 1;
            assert_eq!(other.judged(&p, verdict).0, Long);
        }
    }
    assert!(folds.iter().all(|count| *count > 60), "{folds:?}");
}

#[test]
fn the_square_form_lets_unsymmetric_ones_pass() {
    // The witnesses (1, 1) twice, and entry (0, 1) of D1 as 2: a square that has one more there as well gets yes.
    let one = leaf(&SMALL, General, &[3], &[1, 1]).unwrap();
    let sent = honest_message(&SMALL, General, &[3], &one.s, &one.s).unwrap();
    let honest = Inputs { profile: General, left: one.clone(), right: one, sent, c: vec![1; 24] };
    let z = shape(&SMALL).unwrap();
    let input = unsymmetric(&honest, false, 2, 0, 1);
    let mut square = honest.in_square(&z).sent.dd;
    square[3] += 1;
    assert_eq!(input.with(square.clone()).judged(&SMALL, square_verdict).0, Yes);
    // No triangle does it: neither half of that square.
    for half in [square.clone(), transposed(&square, 12, 12)] {
        assert_eq!(input.with(lower(&half, 12)).judged(&SMALL, verdict).0, Norm);
    }
    // A skew change inside a block is seen by neither equation, and has no triangle.
    let mut skew = honest.in_square(&z).sent.dd;
    skew[1] += 1;
    skew[12] -= 1;
    assert_eq!(honest.with(skew.clone()).judged(&SMALL, square_verdict).0, Yes);
    assert_eq!(honest.with(lower(&skew, 12)).judged(&SMALL, verdict).0, Norm);
}
