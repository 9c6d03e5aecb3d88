//! Fresh witnesses: every outcome is the general fold's with all that is fresh repeated.

mod common;
use common::*;
use reference::matrices::{columns_of, cut, cut_square, lower, mirrored, repeated, repeated_square};
use reference::operations::Answer::*;
use reference::operations::Profile::{Fresh, General};
use reference::operations::*;
use reference::rng::Rng;
use reference::settings::{shape, Parameters, Shape, LIST};
use reference::tree::{fold, honest_message, leaf, Message, Node};
use std::collections::BTreeSet;

/// n = m = 1, t = 2, b = 5: k = 3 and N = 12, so that a fresh S~ has 9 columns.
const SMALL: Parameters = Parameters { n: 1, m: 1, t: 2, b: 5, bound: 576 };

/// A challenge for `SMALL`, in which no two rows that meet digits of the vector can be taken for each other.
const C: [u8; 24] = [1, 0, 0, 1, 0, 0, 0, 0, 2, 1, 0, 2, 1, 0, 0, 1, 1, 1, 1, 2, 0, 1, 2, 0];

/// Where the columns of the general S~ stand in the fresh one: digits of the vector stand there t times.
fn places(z: &Shape) -> Vec<usize> {
    let left = z.k * z.t;
    (0..z.columns).map(|column| if column < left { column } else { left + (column - left) % z.k }).collect()
}

/// The matrix with these rows and columns of another one.
fn taken<T: Copy>(x: &[T], width: usize, rows: &[usize], columns: &[usize]) -> Vec<T> {
    rows.iter().flat_map(|i| columns.iter().map(move |j| x[i * width + j])).collect()
}

/// A fresh leaf in the general form.
fn general_leaf(z: &Shape, node: &Node) -> Node {
    let column = |rows: usize| (0..rows).flat_map(|i| vec![i; z.t]).collect::<Vec<usize>>();
    let t = column(z.n).into_iter().map(|i| node.t[i]).collect();
    let s = column(z.m).into_iter().map(|i| node.s[i]).collect();
    Node { t, d: vec![node.d[0]; z.t * z.t], leaves: node.leaves, s }
}

/// A fresh message in the general form.
fn general_message(z: &Shape, sent: &Message) -> Message {
    let (wide, places) = (z.k * (z.t + 1), places(z));
    let rows = |count: usize| (0..count).collect::<Vec<usize>>();
    Message {
        v: taken(&sent.v, 1, &rows(z.t), &vec![0; z.t]),
        tt: taken(&sent.tt, wide, &rows(z.n), &places),
        dd: lower(&taken(&mirrored(&sent.dd, wide), wide, &places, &places), z.columns),
        ss: taken(&sent.ss, wide, &rows(z.m), &places),
    }
}

/// The verdict's answer with what T', D' and the count hold afterwards; all held 99.
fn judge(
    p: &Parameters, profile: Profile, left: &Node, right: &Node, sent: &Message, c: &[u8],
) -> (Answer, Vec<u64>, Vec<i64>, u32) {
    let (mut t, mut d, mut leaves) = (vec![99; left.t.len()], vec![99; left.d.len()], 99);
    let (one, two) = (left.instance(), right.instance());
    let answer = verdict(p, profile, one, two, &sent.v, &sent.tt, &sent.dd, c, &mut t, &mut d, &mut leaves);
    (answer, t, d, leaves)
}

/// Join's answer with what the joined T, D and count hold afterwards.
fn joined(p: &Parameters, profile: Profile, left: &Node, right: &Node, v: &[i64]) -> (Answer, Vec<u64>, Vec<i64>, u32) {
    let (mut t, mut d, mut leaves) = (vec![99; 2 * left.t.len()], vec![99; 4 * left.d.len()], 99);
    let answer = join(p, profile, left.instance(), right.instance(), v, &mut t, &mut d, &mut leaves);
    (answer, t, d, leaves)
}

/// The folded witness's answer with what S' holds afterwards.
fn folded(p: &Parameters, profile: Profile, ss: &[i64], c: &[u8]) -> (Answer, Vec<i64>) {
    let mut s = vec![99; (p.m * p.t) as usize];
    (folded_witness(p, profile, ss, c, &mut s), s)
}

/// The left node, the fresh leaf and the message of A = 3, S1 = (7, −5) and the vector 4.
fn small() -> (Node, Node, Message) {
    let left = leaf(&SMALL, General, &[3], &[7, -5]).unwrap();
    let right = leaf(&SMALL, Fresh, &[3], &[4]).unwrap();
    let sent = honest_message(&SMALL, Fresh, &[3], &left.s, &right.s).unwrap();
    (left, right, sent)
}

/// Settings of every kind: the house list, then random ones.
fn settings(rng: &mut Rng, count: usize, greatest_columns: u128) -> Vec<Parameters> {
    let mut all = LIST.to_vec();
    all.extend((0..count).map(|_| random_setting(rng, greatest_columns)));
    all
}

/// A random A, left node, vector and challenge.
fn drawn(rng: &mut Rng, p: &Parameters) -> (Vec<u64>, Node, Vec<i64>, Vec<u8>) {
    let a = random_matrix(rng, p);
    let left = leaf(p, General, &a, &rng.witness(p.m as usize, p.t as usize, p.bound)).unwrap();
    (a, left, rng.witness(p.m as usize, 1, p.bound), random_challenge(rng, p))
}

#[test]
fn matrices_repeated_and_cut() {
    // Columns a, b, c with b, c repeated, and the same of a square.
    assert_eq!(repeated(&[1, 2, 3, 4, 5, 6], 3, 1, 2), [1, 2, 3, 2, 3, 4, 5, 6, 5, 6]);
    assert_eq!(repeated(&[1, 2], 1, 0, 3), [1, 1, 1, 2, 2, 2]);
    assert_eq!(repeated_square(&[7], 1, 0, 2), [7; 4]);
    assert_eq!(repeated_square(&[1, 2, 3, 4], 2, 1, 2), [1, 2, 2, 3, 4, 4, 3, 4, 4]);
    assert_eq!(cut(&[1, 2, 3, 4, 5, 6], 3, 2), [1, 2, 4, 5]);
    assert_eq!(columns_of(&[1, 2, 3, 4, 5, 6], 3, 1..3), [2, 3, 5, 6]);
    assert_eq!(cut_square(&[1, 2, 3, 4, 5, 6, 7, 8, 9], 3, 2), [1, 2, 4, 5]);
}

#[test]
fn a_fold_by_hand() {
    let (left, right, sent) = small();
    assert_eq!((right.t.clone(), right.d.clone()), (vec![12], vec![16]));
    assert_eq!(sent.v, [28, -20]);
    assert_eq!(sent.ss, [2, 1, 0, 0, -1, 0, -1, 1, 0]);
    assert_eq!(sent.tt, sent.ss.iter().map(|x| (3 * x) as u64).collect::<Vec<u64>>());
    let dd = (0..9).flat_map(|i| (0..=i).map(move |j| (i, j))).map(|(i, j)| sent.ss[i] * sent.ss[j]);
    assert_eq!(sent.dd, dd.collect::<Vec<i64>>());
    let t = vec![21, 15u64.wrapping_neg(), 12, 12];
    let d = vec![49, -35, 28, 28, -35, 25, -20, -20, 28, -20, 16, 16, 28, -20, 16, 16];
    assert_eq!(joined(&SMALL, Fresh, &left, &right, &sent.v), (Done, t, d, 2));
    assert_eq!(judge(&SMALL, Fresh, &left, &right, &sent, &C), (Yes, vec![3, 9], vec![1, 3, 3, 9], 2));
    assert_eq!(folded(&SMALL, Fresh, &sent.ss, &C), (Done, vec![1, 3]));
}

/// The rows of C that meet a column of the fresh form, summed in whole numbers.
fn met(z: &Shape, c: &[u8], column: usize, j: usize) -> i128 {
    let places = places(z);
    (0..z.columns).filter(|row| places[*row] == column).map(|row| value(c[row * z.t + j])).sum()
}

#[test]
fn outcomes_by_their_sums() {
    let mut rng = Rng::new(51);
    for p in settings(&mut rng, 60, 48) {
        let (z, (a, left, v, c)) = (shape(&p).unwrap(), drawn(&mut rng, &p));
        let (n, m, t, k, wide) = (z.n, z.m, z.t, z.k, z.k * (z.t + 1));
        let right = leaf(&p, Fresh, &a, &v).unwrap();
        let sent = honest_message(&p, Fresh, &a, &left.s, &v).unwrap();
        let (answer, node) = fold(&p, Fresh, &a, &left, &right, &c).unwrap();
        assert_eq!(answer, Yes);
        let squares: i128 = v.iter().map(|x| *x as i128 * *x as i128).sum();
        assert_eq!((right.t.len(), right.d.len(), right.d[0] as i128), (n, 1, squares));
        for i in 0..t {
            let sum: i128 = (0..m).map(|l| left.s[l * t + i] as i128 * v[l] as i128).sum();
            assert_eq!(sent.v[i] as i128, sum);
        }
        for (x, row) in v.iter().zip(sent.ss.chunks_exact(wide)) {
            let back: i128 = (0..k).map(|e| row[k * t + e] as i128 * (p.b as i128).pow(e as u32)).sum();
            assert_eq!(back, *x as i128);
        }
        for j in 0..t {
            let met: Vec<i128> = (0..wide).map(|column| met(&z, &c, column, j)).collect();
            for i in 0..n {
                let sum: i128 = (0..wide).map(|l| sent.tt[i * wide + l] as i128 * met[l]).sum();
                assert_eq!(node.t[i * t + j] as i128, sum.rem_euclid(1 << 64));
            }
            for i in 0..m {
                let sum: i128 = (0..wide).map(|l| sent.ss[i * wide + l] as i128 * met[l]).sum();
                assert_eq!(node.s[i * t + j] as i128, sum);
            }
        }
    }
}

#[test]
fn both_profiles_coincide_at_one_column() {
    let mut rng = Rng::new(52);
    for p in settings(&mut rng, 150, 48).into_iter().filter(|p| p.t == 1) {
        let (a, left, v, c) = drawn(&mut rng, &p);
        let right = leaf(&p, Fresh, &a, &v).unwrap();
        assert_eq!(Ok(&right), leaf(&p, General, &a, &v).as_ref());
        let sent = honest_message(&p, Fresh, &a, &left.s, &v).unwrap();
        assert_eq!(Ok(&sent), honest_message(&p, General, &a, &left.s, &v).as_ref());
        for profile in [Fresh, General] {
            assert_eq!(judge(&p, profile, &left, &right, &sent, &c), judge(&p, Fresh, &left, &right, &sent, &c));
            assert_eq!(joined(&p, profile, &left, &right, &sent.v), joined(&p, Fresh, &left, &right, &sent.v));
            assert_eq!(folded(&p, profile, &sent.ss, &c), folded(&p, Fresh, &sent.ss, &c));
        }
    }
}

/// An entry of a slice, drawn.
fn any<'a, T>(rng: &mut Rng, entries: &'a mut [T]) -> &'a mut T {
    let at = rng.word() as usize % entries.len();
    &mut entries[at]
}

/// Change one entry of what a fresh verdict and folded witness read, or a count.
fn damage(rng: &mut Rng, p: &Parameters, left: &mut Node, right: &mut Node, sent: &mut Message, c: &mut [u8]) {
    let bound = p.bound as i64;
    let (diagonal, bit) = (*any(rng, &mut [bound, bound + 1, i64::MIN]), rng.word() % 64);
    match rng.word() % 10 {
        0 => *any(rng, &mut sent.dd) += 1,
        1 => *any(rng, &mut sent.dd) = p.product_limit().unwrap() as i64 + 1,
        2 => *any(rng, &mut sent.tt) ^= 1 << bit,
        3 => *any(rng, &mut sent.v) += 1,
        4 => right.d[0] = diagonal,
        5 => left.d[0] = diagonal,
        6 => *any(rng, &mut right.t) ^= 1 << bit,
        7 => *any(rng, c) = 3,
        8 => left.leaves = *any(rng, &mut [0, u32::MAX - 1, u32::MAX]),
        _ => *any(rng, &mut sent.ss) = -(p.h() as i64) - 1,
    }
}

/// A fold with a fresh leaf, damaged or not, and the general one: the words of the verdict and of the folded witness.
fn in_both_profiles(rng: &mut Rng, p: &Parameters, damaged: bool) -> [String; 2] {
    let (z, (a, mut left, v, mut c)) = (shape(p).unwrap(), drawn(rng, p));
    let mut right = leaf(p, Fresh, &a, &v).unwrap();
    let repeated: Vec<i64> = v.iter().flat_map(|x| vec![*x; z.t]).collect();
    assert_eq!(Ok(general_leaf(&z, &right)), leaf(p, General, &a, &repeated));
    let mut sent = honest_message(p, Fresh, &a, &left.s, &v).unwrap();
    assert_eq!(Ok(general_message(&z, &sent)), honest_message(p, General, &a, &left.s, &repeated));
    if damaged {
        damage(rng, p, &mut left, &mut right, &mut sent, &mut c);
    }
    let (other, message) = (general_leaf(&z, &right), general_message(&z, &sent));
    assert_eq!(joined(p, Fresh, &left, &right, &sent.v), joined(p, General, &left, &other, &message.v));
    let witness = folded(p, Fresh, &sent.ss, &c);
    assert_eq!(witness, folded(p, General, &message.ss, &c));
    let outcome = judge(p, Fresh, &left, &right, &sent, &c);
    assert_eq!(outcome, judge(p, General, &left, &other, &message, &c));
    if !matches!(outcome.0, Refused(_)) {
        assert_eq!(outcome.0.word(), by_entries(p, &left, &other, &message.v, &message.tt, &message.dd));
    }
    [outcome.0.word(), witness.0.word()]
}

#[test]
fn every_outcome_is_the_general_one() {
    let mut rng = Rng::new(53);
    // The two larger settings of the list take a while each.
    let (small, large) = settings(&mut rng, 40, 40).into_iter().partition::<Vec<_>, _>(|p| p.m * p.t < 200);
    let mut seen = BTreeSet::new();
    for (round, p) in large.iter().chain(small.iter().cycle().take(600)).enumerate() {
        let columns = if p.t == 1 { "t = 1" } else { "t > 1" };
        let base = if p.b.is_multiple_of(2) { "b even" } else { "b odd" };
        seen.extend(in_both_profiles(&mut rng, p, round % 4 != 0).map(|word| format!("{word}, {columns}, {base}")));
    }
    for word in ["yes", "long", "norm", "commitment", "refused(15)", "refused(9)", "refused(10)", "done", "refused(11)"] {
        for kind in ["t = 1, b even", "t = 1, b odd", "t > 1, b even", "t > 1, b odd"] {
            assert!(seen.contains(&format!("{word}, {kind}")), "no {word}, {kind}: {seen:?}");
        }
    }
}

#[test]
fn too_long_is_8() {
    assert_eq!(leaf(&SMALL, Fresh, &[3], &[24]).unwrap().d, [576]);
    for v in [25, -25, i64::MIN, 1 << 32] {
        assert_eq!(leaf(&SMALL, Fresh, &[3], &[v]), Err(8));
        assert_eq!(honest_message(&SMALL, Fresh, &[3], &[0, 0], &[v]), Err(8));
    }
    assert_eq!(honest_message(&SMALL, Fresh, &[3], &[0, 25], &[0]), Err(8));
}

#[test]
fn refusals_in_order() {
    let (left, right, mut sent) = small();
    let mut c = C;
    // The last entries are the vector's: H and h are 4 and 2, as in the general form.
    sent.dd[44] = 5;
    sent.ss[8] = -3;
    assert_eq!(judge(&SMALL, Fresh, &left, &right, &sent, &c).0, Refused(10));
    assert_eq!(folded(&SMALL, Fresh, &sent.ss, &c), (Refused(11), vec![99; 2]));
    c[23] = 3;
    assert_eq!(judge(&SMALL, Fresh, &left, &right, &sent, &c).0, Refused(9));
    assert_eq!(folded(&SMALL, Fresh, &sent.ss, &c).0, Refused(9));
    // C stays N by t.
    assert_eq!(judge(&SMALL, Fresh, &left, &right, &sent, &c[..18]).0, Refused(7));
    assert_eq!(folded(&SMALL, Fresh, &sent.ss, &c[..18]).0, Refused(7));
}

#[test]
fn the_general_lengths_are_7() {
    let (left, right, sent) = small();
    let z = shape(&SMALL).unwrap();
    let (other, message) = (general_leaf(&z, &right), general_message(&z, &sent));
    let (mut t, mut d, mut leaves) = (vec![99; 2], vec![99; 4], 99);
    assert_eq!(commit(&SMALL, Fresh, &[3], &other.s, &mut t, &mut d, &mut leaves), Refused(7));
    assert_eq!(commit(&SMALL, Fresh, &[3], &right.s, &mut t, &mut d, &mut leaves), Refused(7));
    assert_eq!(commit(&SMALL, Fresh, &[3], &right.s, &mut t[..1], &mut d, &mut leaves), Refused(7));
    assert_eq!((t, d, leaves), (vec![99; 2], vec![99; 4], 99));
    assert_eq!(honest_message(&SMALL, Fresh, &[3], &left.s, &other.s), Err(7));
    for right in [&Node { t: other.t.clone(), ..right.clone() }, &Node { d: other.d.clone(), ..right.clone() }] {
        assert_eq!(joined(&SMALL, Fresh, &left, right, &sent.v).0, Refused(7));
        assert_eq!(judge(&SMALL, Fresh, &left, right, &sent, &C).0, Refused(7));
    }
    assert_eq!(joined(&SMALL, Fresh, &left, &right, &message.v).0, Refused(7));
    let parts = [
        Message { v: message.v.clone(), ..sent.clone() },
        Message { tt: message.tt.clone(), ..sent.clone() },
        Message { dd: message.dd.clone(), ..sent.clone() },
    ];
    for sent in parts {
        assert_eq!(judge(&SMALL, Fresh, &left, &right, &sent, &C).0, Refused(7));
    }
    assert_eq!(folded(&SMALL, Fresh, &message.ss, &C).0, Refused(7));
}
