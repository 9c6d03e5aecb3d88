//! The number of leaves under an instance: what it is after each call, and when it is refused.

mod common;
use common::*;
use reference::operations::Answer::*;
use reference::operations::Profile::{Fresh, General};
use reference::operations::*;
use reference::rng::Rng;
use reference::settings::{Parameters, LIST};
use reference::tree::{fold, honest_message, leaf, Message, Node};

/// n = m = 1, t = 2, b = 5: k = 3, N = 12, H = 4.
const SMALL: Parameters = Parameters { n: 1, m: 1, t: 2, b: 5, bound: 576 };

/// What the place of a count holds before a call.
const HELD: u32 = 99;

/// Two counts with their sum, or nothing where they are refused.
const COUNTS: [(u32, u32, Option<u32>); 14] = [
    (1, 1, Some(2)),
    (5, 7, Some(12)),
    (1, u32::MAX - 1, Some(u32::MAX)),
    (u32::MAX - 1, 1, Some(u32::MAX)),
    (1 << 31, (1 << 31) - 1, Some(u32::MAX)),
    (0, 0, None),
    (0, 1, None),
    (1, 0, None),
    (0, u32::MAX, None),
    (u32::MAX, 0, None),
    (1, u32::MAX, None),
    (u32::MAX, 1, None),
    (1 << 31, 1 << 31, None),
    (u32::MAX, u32::MAX, None),
];

/// An honest fold: both nodes, the message and a challenge.
struct Inputs {
    p: Parameters,
    profile: Profile,
    left: Node,
    right: Node,
    sent: Message,
    c: Vec<u8>,
}

/// The fold of A = 3, S1 = (7, −5) and S2 = (4, 4), or the vector 4.
fn inputs(profile: Profile) -> Inputs {
    let second: &[i64] = if profile == Fresh { &[4] } else { &[4, 4] };
    let left = leaf(&SMALL, General, &[3], &[7, -5]).unwrap();
    let right = leaf(&SMALL, profile, &[3], second).unwrap();
    let sent = honest_message(&SMALL, profile, &[3], &left.s, &right.s).unwrap();
    Inputs { p: SMALL, profile, left, right, sent, c: vec![1; 24] }
}

impl Inputs {
    /// Join's answer, and what the place of the count holds afterwards.
    fn joined(&self) -> (Answer, u32) {
        let (mut t, mut d, mut leaves) = (vec![8; 4], vec![8; 16], HELD);
        let (one, two) = (self.left.instance(), self.right.instance());
        let answer = join(&self.p, self.profile, one, two, &self.sent.v, &mut t, &mut d, &mut leaves);
        assert_eq!((t == [8; 4], d == [8; 16]), (answer != Done, answer != Done));
        (answer, leaves)
    }

    /// The verdict, and what the place of the count holds afterwards.
    fn judged(&self) -> (Answer, u32) {
        let (mut t, mut d, mut leaves) = (vec![8; 2], vec![8; 4], HELD);
        let (one, two, Message { v, tt, dd, .. }) = (self.left.instance(), self.right.instance(), &self.sent);
        let answer = verdict(&self.p, self.profile, one, two, v, tt, dd, &self.c, &mut t, &mut d, &mut leaves);
        assert_eq!((t == [8; 2], d == [8; 4]), (answer != Yes, answer != Yes));
        (answer, leaves)
    }
}

#[test]
fn a_leaf_has_one() {
    assert_eq!(leaf(&SMALL, General, &[3], &[7, -5]).unwrap().leaves, 1);
    assert_eq!(leaf(&SMALL, Fresh, &[3], &[4]).unwrap().leaves, 1);
    let mut leaves = HELD;
    assert_eq!(commit(&SMALL, Fresh, &[3], &[25], &mut [0], &mut [0], &mut leaves), Refused(8));
    assert_eq!(commit(&SMALL, General, &[3], &[25, 0], &mut [0; 2], &mut [0; 4], &mut leaves), Refused(8));
    assert_eq!(leaves, HELD);
}

#[test]
fn counts_are_summed_or_refused() {
    for profile in [General, Fresh] {
        let mut input = inputs(profile);
        for (one, two, sum) in COUNTS {
            (input.left.leaves, input.right.leaves) = (one, two);
            assert_eq!(input.joined(), sum.map_or((Refused(15), HELD), |sum| (Done, sum)), "{one} and {two}");
            assert_eq!(input.judged(), sum.map_or((Refused(15), HELD), |sum| (Yes, sum)), "{one} and {two}");
        }
    }
}

/// A change of the inputs.
type Damage = fn(&mut Inputs);

/// Faults of the inputs, each with what a verdict then answers; one that stands before another is seen first.
const FAULTS: [(Damage, Answer); 8] = [
    (|input| input.p.bound = 575, Refused(5)),
    (|input| input.c.truncate(23), Refused(7)),
    (|input| input.left.leaves = 0, Refused(15)),
    (|input| input.c[0] = 3, Refused(9)),
    (|input| input.sent.dd[0] = 5, Refused(10)),
    (|input| input.left.d[3] = 577, Long),
    (|input| input.sent.v[0] += 1, Norm),
    (|input| input.left.t[0] += 1, Commitment),
];

#[test]
fn fifteen_stands_between_seven_and_nine() {
    for profile in [General, Fresh] {
        for (first, (_, answer)) in FAULTS.iter().enumerate() {
            let mut input = inputs(profile);
            FAULTS[first..].iter().for_each(|(damage, _)| damage(&mut input));
            let held = if matches!(answer, Refused(_)) { HELD } else { 0 };
            assert_eq!(input.judged(), (*answer, held));
        }
        assert_eq!(inputs(profile).judged(), (Yes, 2));
    }
}

#[test]
fn join_refuses_seven_and_then_fifteen() {
    for profile in [General, Fresh] {
        let mut input = inputs(profile);
        input.right.leaves = u32::MAX;
        input.sent.v.push(0);
        assert_eq!(input.joined(), (Refused(7), HELD));
        input.sent.v.pop();
        assert_eq!(input.joined(), (Refused(15), HELD));
        input.p.bound = 575;
        assert_eq!(input.joined(), (Refused(5), HELD));
    }
}

#[test]
fn counts_change_nothing_else() {
    let mut rng = Rng::new(71);
    for round in 0..100 {
        let p = if round < 20 { LIST[round % 2] } else { random_setting(&mut rng, 40) };
        let (a, profile) = (random_matrix(&mut rng, &p), if round % 2 == 0 { General } else { Fresh });
        let (m, t) = (p.m as usize, p.t as usize);
        let columns = if profile == Fresh { 1 } else { t };
        let mut left = leaf(&p, General, &a, &rng.witness(m, t, p.bound)).unwrap();
        let mut right = leaf(&p, profile, &a, &rng.witness(m, columns, p.bound)).unwrap();
        let c = random_challenge(&mut rng, &p);
        let (answer, folded) = fold(&p, profile, &a, &left, &right, &c).unwrap();
        left.leaves = rng.between(1, (1 << 32) - 2) as u32;
        right.leaves = rng.between(1, i128::from(u32::MAX - left.leaves)) as u32;
        let counted = Node { leaves: left.leaves + right.leaves, ..folded };
        assert_eq!(fold(&p, profile, &a, &left, &right, &c), Ok((answer, counted)));
    }
}
