//! The operations: points, refusals in order, outputs left alone, damaged messages.

mod common;
use common::*;
use reference::matrices::triangle_length;
use reference::operations::Answer::*;
use reference::operations::Profile::{Fresh, General};
use reference::operations::*;
use reference::rng::Rng;
use reference::settings::{Parameters, LIST};
use reference::tree::{fold, honest_message, leaf, Message, Node};

const ONE: Parameters = LIST[0];
const C: [u8; 10] = [1, 1, 1, 0, 0, 2, 0, 2, 0, 0];

/// The fold of the worked example: instances of 7 and −5 and their message.
fn example() -> (Node, Node, Message) {
    let left = leaf(&ONE, General, &[3], &[7]).unwrap();
    let right = leaf(&ONE, General, &[3], &[-5]).unwrap();
    let sent = honest_message(&ONE, General, &[3], &left.s, &right.s).unwrap();
    (left, right, sent)
}

/// The verdict's answer with what T' and D' hold afterwards.
fn judge(p: &Parameters, left: &Node, right: &Node, sent: &Message, c: &[u8]) -> (Answer, Vec<u64>, Vec<i64>) {
    let mut t = vec![123; left.t.len()];
    let mut d = vec![-123; left.d.len()];
    let (one, two) = (left.instance(), right.instance());
    let answer = verdict(p, General, one, two, &sent.v, &sent.tt, &sent.dd, c, &mut t, &mut d, &mut 0);
    if answer != Yes {
        assert!(t.iter().all(|x| *x == 123) && d.iter().all(|x| *x == -123), "outputs keep what they held");
    }
    (answer, t, d)
}

#[test]
fn commit_points() {
    assert_eq!(leaf(&ONE, General, &[3], &[10]).unwrap().d, [100]);
    for s in [11, -11, i64::MIN, i64::MAX, 1 << 32, -(1 << 32)] {
        let (mut t, mut d) = ([5], [6]);
        assert_eq!(commit(&ONE, General, &[3], &[s], &mut t, &mut d, &mut 0), Refused(8));
        assert_eq!((t, d), ([5], [6]));
    }
    let node = leaf(&ONE, General, &[1 << 63], &[2]).unwrap();
    assert_eq!((node.t, node.d), (vec![0], vec![4]));
}

#[test]
fn column_lengths_do_not_wrap() {
    // Squared lengths that are 0 modulo 2^64 or 2^128.
    let four = setting(1, 4, 1, 2, 4u64.pow(6));
    assert_eq!(leaf(&four, General, &[1; 4], &[1 << 31; 4]), Err(8));
    assert_eq!(leaf(&four, General, &[1; 4], &[i64::MIN; 4]), Err(8));
    let wide = setting(1, 4096, 1, 2, 4u64.pow(12));
    assert_eq!(leaf(&wide, General, &[1; 4096], &[i64::MIN; 4096]), Err(8));
    assert_eq!(relation(&wide, &[1; 4096], &[0], &[0], &[i64::MIN; 4096]), Long);
    assert_eq!(relation(&four, &[1; 4], &[0], &[0], &[1 << 31; 4]), Long);
    assert_eq!(honest_message(&four, General, &[1; 4], &[0; 4], &[1 << 31; 4]), Err(8));
    assert_eq!(honest_message(&four, General, &[1; 4], &[i64::MIN; 4], &[0; 4]), Err(8));
}

#[test]
fn example_fold_in_full() {
    let (left, right, sent) = example();
    assert_eq!((left.t.clone(), left.d.clone()), (vec![21], vec![49]));
    assert_eq!((right.t.clone(), right.d.clone()), (vec![15u64.wrapping_neg()], vec![25]));
    assert_eq!(sent.v, [-35]);
    assert_eq!(sent.ss, [1, 1, 1, 0, 0, -1, 0, -1, 0, 0]);
    let three = 3u64.wrapping_neg();
    assert_eq!(sent.tt, [3, 3, 3, 0, 0, three, 0, three, 0, 0]);
    assert_eq!(sent.dd.len(), 55);
    for i in 0..10 {
        for j in 0..=i {
            assert_eq!(sent.dd[i * (i + 1) / 2 + j], sent.ss[i] * sent.ss[j]);
        }
    }
    let (mut t, mut d) = ([0; 2], [0; 4]);
    assert_eq!(join(&ONE, General, left.instance(), right.instance(), &sent.v, &mut t, &mut d, &mut 0), Done);
    assert_eq!((t, d), ([21, 15u64.wrapping_neg()], [49, -35, -35, 25]));
    assert_eq!(judge(&ONE, &left, &right, &sent, &C), (Yes, vec![15], vec![25]));
    let mut s = [0];
    assert_eq!(folded_witness(&ONE, General, &sent.ss, &C, &mut s), Done);
    assert_eq!(s, [5]);
    assert_eq!(relation(&ONE, &[3], &[15], &[25], &s), Member);
}

#[test]
fn zero_challenge() {
    let (left, right, sent) = example();
    assert_eq!(judge(&ONE, &left, &right, &sent, &[0; 10]), (Yes, vec![0], vec![0]));
}

#[test]
fn verdict_refusals_in_order() {
    let (left, right, sent) = example();
    let mut bad = sent.clone();
    bad.dd[17] = 2;
    assert_eq!(judge(&ONE, &left, &right, &bad, &C).0, Refused(10));
    bad.dd[17] = -2;
    assert_eq!(judge(&ONE, &left, &right, &bad, &C).0, Refused(10));
    bad.dd[17] = i64::MIN;
    assert_eq!(judge(&ONE, &left, &right, &bad, &C).0, Refused(10));
    let mut c = C;
    c[9] = 3;
    assert_eq!(judge(&ONE, &left, &right, &bad, &c).0, Refused(9));
    assert_eq!(judge(&ONE, &left, &right, &sent, &c).0, Refused(9));
    c[9] = 255;
    assert_eq!(judge(&ONE, &left, &right, &sent, &c).0, Refused(9));
    // A wrong length comes before 9, a bad setting before a wrong length.
    assert_eq!(judge(&ONE, &left, &right, &bad, &c[1..]).0, Refused(7));
    assert_eq!(judge(&setting(1, 1, 1, 2, 99), &left, &right, &bad, &c[1..]).0, Refused(5));
}

#[test]
fn entries_of_d_reach_h_squared_times_m() {
    // Honest entries above h² alone, which 10 must let pass.
    let p = setting(1, 2, 1, 3, 72);
    let left = leaf(&p, General, &[1, 1], &[4, 4]).unwrap();
    let right = leaf(&p, General, &[1, 1], &[-4, -4]).unwrap();
    let sent = honest_message(&p, General, &[1, 1], &left.s, &right.s).unwrap();
    assert!(sent.dd.contains(&2) && sent.dd.contains(&-2));
    assert_eq!(judge(&p, &left, &right, &sent, &[1; 6]).0, Yes);
}

#[test]
fn folded_witness_refusals_in_order() {
    let mut s = [44];
    let mut ss = [1, 1, 1, 0, 0, -1, 0, -1, 0, 2];
    let mut c = C;
    assert_eq!(folded_witness(&ONE, General, &ss, &c, &mut s), Refused(11));
    ss[9] = i64::MIN;
    assert_eq!(folded_witness(&ONE, General, &ss, &c, &mut s), Refused(11));
    c[0] = 3;
    assert_eq!(folded_witness(&ONE, General, &ss, &c, &mut s), Refused(9));
    assert_eq!(folded_witness(&ONE, General, &ss[1..], &c, &mut s), Refused(7));
    assert_eq!(folded_witness(&ONE, General, &ss, &c[1..], &mut s), Refused(7));
    assert_eq!(folded_witness(&ONE, General, &ss, &c, &mut []), Refused(7));
    assert_eq!(folded_witness(&setting(0, 1, 1, 2, 100), General, &ss[1..], &c, &mut s), Refused(1));
    assert_eq!(s, [44]);
    ss[9] = -1;
    assert_eq!(folded_witness(&ONE, General, &ss, &C, &mut s), Done);
}

#[test]
fn relation_answers_in_order() {
    let a = [3];
    assert_eq!(relation(&ONE, &a, &[21], &[49], &[7]), Member);
    assert_eq!(relation(&ONE, &a, &[22], &[49], &[7]), Commitment);
    assert_eq!(relation(&ONE, &a, &[21], &[50], &[7]), Products);
    assert_eq!(relation(&ONE, &a, &[22], &[50], &[7]), Products);
    assert_eq!(relation(&ONE, &a, &[22], &[50], &[11]), Long);
    assert_eq!(relation(&ONE, &a, &[33], &[121], &[11]), Long);
    assert_eq!(relation(&ONE, &a, &[21], &[i64::MAX], &[7]), Products);
    assert_eq!(relation(&ONE, &a, &[0], &[0], &[i64::MIN]), Long);
    assert_eq!(relation(&ONE, &a, &[21, 0], &[49], &[11]), Refused(7));
    assert_eq!(relation(&setting(1, 1, 1, 2, 99), &a, &[21, 0], &[49], &[11]), Refused(5));
    // The commitment is modulo 2^64, the products are not.
    assert_eq!(relation(&ONE, &[1 << 63], &[0], &[4], &[2]), Member);
}

/// Lengths for the setting n=2, m=3, t=2, b=32: k = 4 or so, all different sizes.
fn sizes(p: &Parameters) -> (usize, usize, usize, usize) {
    (p.n as usize, p.m as usize, p.t as usize, p.columns() as usize)
}

#[test]
fn every_wrong_length_is_7_and_writes_nothing() {
    let p = setting(2, 3, 2, 32, 1 << 20);
    let (n, m, t, columns) = sizes(&p);
    let all = |changed: usize, position: usize, length: usize, by: isize| {
        if changed == position { (length as isize + by) as usize } else { length }
    };
    // Each position in turn one too short, one too long; position usize::MAX changes nothing.
    for (by, profile) in [(-1, General), (1, General), (-1, Fresh), (1, Fresh)] {
        let (right, wide) = if profile == General { (t, columns) } else { (1, columns / 2 + p.k() as usize) };
        for position in (0..11).chain([usize::MAX]) {
            let l = |at: usize, length: usize| all(at, position, length, by);
            let words = |at: usize, length: usize| vec![9u64; l(at, length)];
            let signed = |at: usize, length: usize| vec![9i64; l(at, length)];

            let (mut t_out, mut d_out) = (words(2, n * right), signed(3, right * right));
            let answer = commit(&p, profile, &words(0, n * m), &signed(1, m * right), &mut t_out, &mut d_out, &mut 0);
            if position < 4 {
                assert_eq!(answer, Refused(7));
                assert!(t_out.iter().all(|x| *x == 9) && d_out.iter().all(|x| *x == 9));
            } else {
                assert_eq!(answer, Done);
            }

            let answer = relation(&p, &words(0, n * m), &words(1, n * t), &signed(2, t * t), &signed(3, m * t));
            assert_eq!(answer == Refused(7), position < 4);

            let (mut t_out, mut d_out) = (words(5, 2 * n * t), vec![8i64; l(6, 4 * t * t)]);
            let (t1, d1, t2, d2) = (words(0, n * t), signed(1, t * t), words(2, n * right), signed(3, right * right));
            let (one, two) = (instance(&t1, &d1), instance(&t2, &d2));
            let answer = join(&p, profile, one, two, &signed(4, t * right), &mut t_out, &mut d_out, &mut 0);
            if position < 7 {
                assert_eq!(answer, Refused(7));
                assert!(t_out.iter().all(|x| *x == 9) && d_out.iter().all(|x| *x == 8));
            } else {
                assert_eq!(answer, Done);
            }

            let (mut v, mut tt) = (signed(3, t * right), words(4, n * wide));
            let (mut dd, mut ss) = (signed(5, wide * (wide + 1) / 2), signed(6, m * wide));
            let (a, s1, s2) = (words(0, n * m), signed(1, m * t), signed(2, m * right));
            let answer = message(&p, profile, &a, &s1, &s2, &mut v, &mut tt, &mut dd, &mut ss);
            if position < 7 {
                assert_eq!(answer, Refused(7));
                assert!(tt.iter().all(|x| *x == 9));
                assert!([v, dd, ss].concat().iter().all(|x| *x == 9));
            } else {
                assert_eq!(answer, Done);
            }

            let (mut t_out, mut d_out) = (words(8, n * t), signed(9, t * t));
            let (t1, d1, t2, d2) = (words(0, n * t), signed(1, t * t), words(2, n * right), signed(3, right * right));
            let (v, tt, dd) = (signed(4, t * right), words(5, n * wide), signed(6, wide * (wide + 1) / 2));
            let c = vec![1u8; l(7, columns * t)];
            let (one, two) = (instance(&t1, &d1), instance(&t2, &d2));
            let answer = verdict(&p, profile, one, two, &v, &tt, &dd, &c, &mut t_out, &mut d_out, &mut 0);
            assert_eq!(answer, if position < 10 { Refused(7) } else { Norm });
            assert!(t_out.iter().all(|x| *x == 9) && d_out.iter().all(|x| *x == 9));

            let (ss, c, mut s) = (signed(0, m * wide), vec![1u8; l(1, columns * t)], signed(2, m * t));
            let answer = folded_witness(&p, profile, &ss, &c, &mut s);
            if position < 3 {
                assert_eq!(answer, Refused(7));
                assert!(s.iter().all(|x| *x == 9));
            } else {
                assert_eq!(answer, Done);
            }
        }
    }
}

#[test]
fn bad_settings_come_first_in_every_operation() {
    let bad = [
        (1, setting(0, 1, 1, 2, 100)), (1, setting(1, 4097, 1, 2, 100)), (1, setting(1, 1, u64::MAX, 2, 100)),
        (2, setting(1, 1, 1, 1, 100)), (2, setting(1, 1, 1, 0, 0)), (3, setting(1, 1, 1, 2, 0)),
        (4, setting(1, 1, 16, 2, 4u64.pow(15))), (5, setting(1, 1, 1, 2, 99)),
        (6, setting(1, 4096, 1, 2, 4u64.pow(24))), (6, setting(16, 256, 2, 128, 268435456)),
    ];
    for ((number, p), profile) in bad.iter().flat_map(|bad| [(*bad, General), (*bad, Fresh)]) {
        let (mut t, mut d, mut v, mut s) = ([7u64; 3], [7i64; 3], [7i64; 3], [7i64; 3]);
        assert_eq!(commit(&p, profile, &[1], &[11], &mut t, &mut d, &mut 0), Refused(number));
        assert_eq!(relation(&p, &[1], &[1], &[1], &[11]), Refused(number));
        let none = Instance { t: &[], d: &[], leaves: 0 };
        assert_eq!(join(&p, profile, none, none, &[], &mut t, &mut d, &mut 0), Refused(number));
        assert_eq!(message(&p, profile, &[], &[11], &[], &mut v, &mut t, &mut d, &mut s), Refused(number));
        let answer = verdict(&p, profile, none, none, &[], &[], &[9], &[3], &mut t, &mut d, &mut 0);
        assert_eq!(answer, Refused(number));
        assert_eq!(folded_witness(&p, profile, &[9], &[3], &mut s), Refused(number));
        assert_eq!(recompose(&p, profile, &[9], &mut v, &mut s), Refused(number));
        assert_eq!((t, d, v, s), ([7; 3], [7; 3], [7; 3], [7; 3]));
    }
}

#[test]
fn message_8_for_either_witness_writes_nothing() {
    for (s1, s2) in [([11], [0]), ([0], [11]), ([i64::MIN], [0]), ([0], [i64::MIN])] {
        let (mut v, mut tt, mut dd, mut ss) = ([5i64; 1], [5u64; 10], [5i64; 55], [5i64; 10]);
        assert_eq!(message(&ONE, General, &[3], &s1, &s2, &mut v, &mut tt, &mut dd, &mut ss), Refused(8));
        assert_eq!((v, tt, dd, ss), ([5; 1], [5; 10], [5; 55], [5; 10]));
    }
    // Only the last column of the second witness is too long.
    let p = setting(1, 2, 2, 9, 4608);
    assert_eq!(honest_message(&p, General, &[1, 1], &[0, 0, 0, 0], &[0, 48, 0, 48]).err(), None);
    assert_eq!(honest_message(&p, General, &[1, 1], &[0, 0, 0, 0], &[0, 48, 0, 49]).err(), Some(8));
    assert_eq!(honest_message(&p, General, &[1, 1], &[0, 48, 0, 49], &[0, 0, 0, 0]).err(), Some(8));
}

#[test]
fn outcomes_by_their_sums() {
    // Commit, message and fold against sums written out entry by entry.
    let mut rng = Rng::new(31);
    for _ in 0..60 {
        let p = random_setting(&mut rng, 48);
        let (n, m, t, columns) = sizes(&p);
        let k = p.k() as usize;
        let a = random_matrix(&mut rng, &p);
        let left = leaf(&p, General, &a, &rng.witness(m, t, p.bound)).unwrap();
        let right = leaf(&p, General, &a, &rng.witness(m, t, p.bound)).unwrap();
        let sent = honest_message(&p, General, &a, &left.s, &right.s).unwrap();
        let c = random_challenge(&mut rng, &p);
        let (answer, folded) = fold(&p, General, &a, &left, &right, &c).unwrap();
        assert_eq!(answer, Yes);
        for j in 0..t {
            for i in 0..n {
                let mut sum = 0i128;
                for l in 0..m {
                    sum += a[i * m + l] as i128 * left.s[l * t + j] as i128 % (1 << 64);
                }
                assert_eq!(left.t[i * t + j] as i128, sum.rem_euclid(1 << 64));
            }
            for i in 0..t {
                let sum = |x: &[i64], y: &[i64]| (0..m).map(|l| x[l * t + i] as i128 * y[l * t + j] as i128).sum::<i128>();
                assert_eq!(left.d[i * t + j] as i128, sum(&left.s, &left.s));
                assert_eq!(sent.v[i * t + j] as i128, sum(&left.s, &right.s));
            }
        }
        for i in 0..m {
            for j in 0..2 * t {
                let entry = if j < t { left.s[i * t + j] } else { right.s[i * t + j - t] };
                let back: i128 = (0..k).map(|e| sent.ss[i * columns + j * k + e] as i128 * (p.b as i128).pow(e as u32)).sum();
                assert_eq!(back, entry as i128);
            }
        }
        for i in 0..columns {
            for j in 0..columns {
                let sum: i128 = (0..m).map(|l| sent.ss[l * columns + i] as i128 * sent.ss[l * columns + j] as i128).sum();
                assert_eq!(sent.dd[place(i, j)] as i128, sum);
                assert!(sum.unsigned_abs() <= p.product_limit().unwrap());
            }
        }
        for j in 0..t {
            for i in 0..n {
                let sum: i128 = (0..columns).map(|l| sent.tt[i * columns + l] as i128 * value(c[l * t + j])).sum();
                assert_eq!(folded.t[i * t + j] as i128, sum.rem_euclid(1 << 64));
            }
            for i in 0..m {
                let sum: i128 = (0..columns).map(|l| sent.ss[i * columns + l] as i128 * value(c[l * t + j])).sum();
                assert_eq!(folded.s[i * t + j] as i128, sum);
            }
            for i in 0..t {
                let mut sum = 0;
                for e in 0..columns {
                    for f in 0..columns {
                        sum += value(c[e * t + i]) * sent.dd[place(e, f)] as i128 * value(c[f * t + j]);
                    }
                }
                assert_eq!(folded.d[i * t + j] as i128, sum);
            }
        }
    }
}

#[test]
fn join_puts_v_in_the_upper_right() {
    let p = setting(1, 1, 2, 5, 576);
    let (mut t, mut d) = ([0; 4], [0; 16]);
    let (one, two) = (instance(&[1, 2], &[1, 2, 3, 4]), instance(&[3, 4], &[5, 6, 7, 8]));
    assert_eq!(join(&p, General, one, two, &[11, 12, 13, 14], &mut t, &mut d, &mut 0), Done);
    assert_eq!(t, [1, 2, 3, 4]);
    assert_eq!(d, [1, 2, 11, 12, 3, 4, 13, 14, 11, 13, 5, 6, 12, 14, 7, 8]);
}

#[test]
fn damaged_messages() {
    let mut rng = Rng::new(32);
    let (mut yes, mut long, mut norm, mut commitment, mut refused) = (0, 0, 0, 0, 0);
    for round in 0..1500 {
        let p = match round % 3 {
            0 => ONE,
            1 => LIST[1],
            _ => random_setting(&mut rng, 40),
        };
        let (_, m, t, columns) = sizes(&p);
        let k = p.k() as usize;
        let a = random_matrix(&mut rng, &p);
        let mut left = leaf(&p, General, &a, &rng.witness(m, t, p.bound)).unwrap();
        let mut right = leaf(&p, General, &a, &rng.witness(m, t, p.bound)).unwrap();
        let mut sent = honest_message(&p, General, &a, &left.s, &right.s).unwrap();
        let c = random_challenge(&mut rng, &p);
        let pick = |rng: &mut Rng, length: usize| rng.word() as usize % length;
        let step = [-1, 1][pick(&mut rng, 2)];
        for _ in 0..1 + pick(&mut rng, 2) {
            match rng.word() % 10 {
                0 => {
                    let at = pick(&mut rng, sent.dd.len());
                    sent.dd[at] += step;
                }
                1 => {
                    let at = pick(&mut rng, sent.tt.len());
                    sent.tt[at] = sent.tt[at].wrapping_add(step as u64);
                }
                2 => {
                    let at = pick(&mut rng, sent.v.len());
                    sent.v[at] = sent.v[at].wrapping_add(if step > 0 { 1 } else { i64::MIN });
                }
                3 => {
                    let at = pick(&mut rng, left.d.len());
                    left.d[at] = left.d[at].wrapping_add(if step > 0 { 1 } else { i64::MIN });
                }
                4 => {
                    let at = pick(&mut rng, right.t.len());
                    right.t[at] = right.t[at].wrapping_add(1 << pick(&mut rng, 64));
                }
                // One part of T~ up by b, the next power down by one: the second equation cannot see it.
                5 => {
                    let at = pick(&mut rng, sent.tt.len() / k) * k;
                    sent.tt[at] = sent.tt[at].wrapping_add(p.b);
                    sent.tt[at + 1] = sent.tt[at + 1].wrapping_sub(1);
                }
                // The same in D~, left of the diagonal's blocks, which the first equation cannot see; it may be 10.
                6 => {
                    let row = k + pick(&mut rng, columns - k);
                    let at = place(row, pick(&mut rng, row / k) * k);
                    sent.dd[at] += p.b as i64 * step;
                    sent.dd[at + 1] -= step;
                }
                // In a block on the diagonal, where an entry beside it counts twice: seen by neither equation.
                7 => {
                    let row = pick(&mut rng, 2 * t) * k;
                    sent.dd[place(row + 2, row)] += step;
                    sent.dd[place(row + 1, row + 1)] -= 2 * step;
                }
                // A diagonal entry at B, or past it.
                8 => {
                    let d = if pick(&mut rng, 2) == 0 { &mut left.d } else { &mut right.d };
                    let (bound, at) = (p.bound as i64, pick(&mut rng, t) * (t + 1));
                    d[at] = [bound, bound + 1, i64::MAX][pick(&mut rng, 3)];
                }
                // A power of b up in T~ by 2^64 / b where b is a power of 2: unseen.
                _ => {
                    let at = pick(&mut rng, sent.tt.len());
                    sent.tt[at] = sent.tt[at].wrapping_add(1 << (63 - pick(&mut rng, 8)));
                }
            }
        }
        let limit = p.product_limit().unwrap();
        let (answer, t_out, _) = judge(&p, &left, &right, &sent, &c);
        if sent.dd.iter().any(|x| x.unsigned_abs() as u128 > limit) {
            assert_eq!(answer, Refused(10));
            refused += 1;
            continue;
        }
        assert_eq!(answer.word(), by_entries(&p, &left, &right, &sent.v, &sent.tt, &sent.dd));
        match answer {
            Yes => yes += 1,
            Long => long += 1,
            Norm => norm += 1,
            Commitment => commitment += 1,
            other => panic!("{other:?}"),
        }
        if answer == Yes {
            let first: i128 = (0..columns).map(|l| sent.tt[l] as i128 * value(c[l * t])).sum();
            assert_eq!(t_out[0] as i128, first.rem_euclid(1 << 64));
        }
    }
    let counts = [yes, long, norm, commitment, refused];
    assert!(counts.iter().all(|count| *count > 50), "{counts:?}");
}

/// The message in Setting 1 with A = 3 of these digits, worked out by hand: message refuses a witness that is too long.
fn by_hand(v: i64, ss: [i64; 10]) -> Message {
    let tt = ss.iter().map(|x| (3 * x) as u64).collect();
    let dd = (0..10).flat_map(|i| (0..=i).map(move |j| ss[i] * ss[j])).collect();
    Message { v: vec![v], tt, dd, ss: ss.to_vec() }
}

#[test]
fn a_long_start_does_not_pass() {
    let node = |s: i64| Node { t: vec![(3 * s) as u64], d: vec![s * s], leaves: 1, s: vec![s] };
    let first = by_hand(-55, [1, 1, 0, 1, 0, -1, 0, -1, 0, 0]);
    let second = by_hand(77, [1, 1, 1, 0, 0, 1, 1, 0, 1, 0]);
    // Both equations hold, as the verdict shows where B takes 121.
    for (bound, answer) in [(100, Long), (120, Long), (121, Yes)] {
        let p = setting(1, 1, 1, 2, bound);
        assert_eq!(judge(&p, &node(11), &node(-5), &first, &C).0, answer);
        assert_eq!(judge(&p, &node(7), &node(11), &second, &C).0, answer);
    }
    let border = honest_message(&ONE, General, &[3], &[10], &[-10]).unwrap();
    assert_eq!(judge(&ONE, &node(10), &node(-10), &border, &C).0, Yes);
}

#[test]
fn long_comes_after_refusals_and_before_norm() {
    let (left, right, mut sent) = example();
    for (entry, answer) in [(100, Norm), (101, Long), (i64::MAX, Long), (-101, Norm), (i64::MIN, Norm)] {
        let other = Node { d: vec![entry], ..left.clone() };
        assert_eq!(judge(&ONE, &other, &right, &sent, &C).0, answer);
        assert_eq!(judge(&ONE, &right, &other, &sent, &C).0, answer);
    }
    let long = Node { d: vec![101], ..left };
    sent.dd[17] = 2;
    assert_eq!(judge(&ONE, &long, &right, &sent, &C).0, Refused(10));
    assert_eq!(judge(&ONE, &long, &right, &sent, &[3; 10]).0, Refused(9));
    assert_eq!(judge(&ONE, &long, &right, &sent, &[3; 9]).0, Refused(7));
}

#[test]
fn only_the_diagonal_is_long() {
    let p = setting(1, 1, 2, 5, 576);
    let columns = p.columns() as usize;
    let sent = Message { v: vec![577; 4], tt: vec![0; columns], dd: vec![0; triangle_length(columns)], ss: vec![] };
    let node = |d: [i64; 4]| Node { t: vec![0; 2], d: d.to_vec(), leaves: 1, s: vec![] };
    let short = node([576, 577, 577, 576]);
    let c = vec![1; 2 * columns];
    assert_eq!(judge(&p, &short, &short, &sent, &c).0, Norm);
    for long in [node([577, 0, 0, 0]), node([0, 0, 0, 577])] {
        assert_eq!(judge(&p, &long, &short, &sent, &c).0, Long);
        assert_eq!(judge(&p, &short, &long, &sent, &c).0, Long);
    }
}

#[test]
fn both_equations_broken_is_norm() {
    let (left, right, mut sent) = example();
    sent.tt[0] += 1;
    assert_eq!(judge(&ONE, &left, &right, &sent, &C).0, Commitment);
    sent.dd[place(3, 0)] = 1;
    assert_eq!(judge(&ONE, &left, &right, &sent, &C).0, Norm);
    sent.tt[0] -= 1;
    assert_eq!(judge(&ONE, &left, &right, &sent, &C).0, Norm);
}

#[test]
fn a_negative_diagonal_may_pass() {
    // Within −H it gets yes when the equations hold.
    let mut zero = Message { v: vec![0], tt: vec![0; 10], dd: vec![0; 55], ss: vec![0; 10] };
    zero.dd[0] = -1;
    let below = Node { t: vec![0], d: vec![-1], leaves: 1, s: vec![] };
    let nothing = Node { t: vec![0], d: vec![0], leaves: 1, s: vec![] };
    assert_eq!(judge(&ONE, &below, &nothing, &zero, &[1; 10]), (Yes, vec![0], vec![-1]));
}

#[test]
fn zero_and_lazy_messages_fail() {
    let (left, right, mut sent) = example();
    sent.dd = vec![0; 55];
    sent.tt = vec![0; 10];
    sent.v = vec![0];
    assert_eq!(judge(&ONE, &left, &right, &sent, &C).0, Norm);
}
