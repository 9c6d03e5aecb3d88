//! The specification's points, through the bindings.

use lova::{triangle, Instance, Membership, Record, Refusal, Setting, Turn, Verdict, GROUPS, RECORD};

const ONE: Setting = Setting::unchecked(1, 1, 1, 2, 100);
const C: [u8; 10] = [1, 1, 1, 0, 0, 2, 0, 2, 0, 0];

/// An instance with one leaf.
fn leaf<'a>(t: &'a [u64], d: &'a [i64]) -> Instance<'a> {
    Instance { t, d, leaves: 1 }
}

/// The yes to a fold of two leaves.
fn yes<'a>(t: &'a [u64], d: &'a [i64]) -> Result<Verdict<'a>, Refusal> {
    Ok(Verdict::Yes(Instance { t, d, leaves: 2 }))
}

/// V, T~, D~ and S~ of the printed fold: 7 and −5 with A = 3.
fn printed_message() -> ([i64; 1], [u64; 10], [i64; triangle(10)], [i64; 10]) {
    let (mut v, mut tt, mut dd, mut ss) = ([0], [0; 10], [0; triangle(10)], [0; 10]);
    lova::message(ONE, &[3], &[7], &[-5], &mut v, &mut tt, &mut dd, &mut ss).unwrap();
    (v, tt, dd, ss)
}

/// Ask for a verdict on the printed fold with these counts and another T~, D~ and C. T' and D' hold 8 before, and without
/// a yes afterwards too.
#[track_caller]
fn assert_counted(leaves: [u32; 2], tt: &[u64], dd: &[i64], c: &[u8], expected: Result<Verdict, Refusal>) {
    let (mut t, mut d) = ([8], [8]);
    let one = Instance { t: &[21], d: &[49], leaves: leaves[0] };
    let two = Instance { t: &[15u64.wrapping_neg()], d: &[25], leaves: leaves[1] };
    assert_eq!(lova::verify(ONE, one, two, &[-35], tt, dd, c, &mut t, &mut d), expected);
    assert!(matches!(expected, Ok(Verdict::Yes(_))) || (t, d) == ([8], [8]));
}

/// The same, with one leaf under each instance.
#[track_caller]
fn assert_judged(tt: &[u64], dd: &[i64], c: &[u8], expected: Result<Verdict, Refusal>) {
    assert_counted([1, 1], tt, dd, c, expected);
}

#[test]
fn settings_and_the_list() {
    let Record { k, columns, powers } = ONE.record().unwrap();
    assert_eq!((k, columns, &powers[..6]), (5, 10, &[1, 2, 4, 8, 16, 0][..]));
    assert_eq!(Setting::new(1, 1, 1, 2, 100), Ok(ONE));
    assert_eq!(Setting::new(1, 1, 1, 2, 99), Err(Refusal::Growth));
    assert_eq!(Setting::unchecked(1, 1, 1, 2, 99).record(), Err(Refusal::Growth));
    assert_eq!(Setting::listed(1), Ok(ONE));
    assert_eq!(Setting::listed(4), Setting::new(16, 256, 1, 64, 16777216));
    assert_eq!(Setting::listed(5), Err(Refusal::Unlisted));
    let mut short = [9; RECORD - 1];
    assert_eq!(lova::write_record(ONE, &mut short), Err(Refusal::Length));
    assert_eq!(short, [9; RECORD - 1]);
}

#[test]
fn commitments() {
    let (mut t, mut d) = ([8], [8]);
    for s in [11, -11, i64::MIN] {
        assert_eq!(lova::commit(ONE, &[3], &[s], &mut t, &mut d), Err(Refusal::LongColumn));
        assert_eq!((t, d), ([8], [8]));
    }
    assert_eq!(lova::commit(ONE, &[1 << 63], &[2], &mut t, &mut d), Ok(leaf(&[0], &[4])));
    assert_eq!(lova::commit(ONE, &[], &[2], &mut t, &mut d), Err(Refusal::Length));
}

#[test]
fn the_printed_fold() {
    let (v, tt, dd, ss) = printed_message();
    assert_eq!((v, ss), ([-35], [1, 1, 1, 0, 0, -1, 0, -1, 0, 0]));
    for i in 0..10 {
        for j in 0..=i {
            assert_eq!(dd[triangle(i) + j], ss[i] * ss[j]);
        }
    }
    assert_judged(&tt, &dd, &C, yes(&[15], &[25]));
    assert_judged(&tt, &dd, &[0; 10], yes(&[0], &[0]));
    let mut s = [8];
    assert_eq!(lova::fold_witness(ONE, &ss, &C, &mut s), Ok(()));
    assert_eq!(s, [5]);
    assert_eq!(lova::test_relation(ONE, &[3], &[15], &[25], &s), Ok(Membership::Member));
    assert_eq!(lova::fold_witness(ONE, &[2; 10], &C, &mut s), Err(Refusal::Digit));
}

#[test]
fn other_verdicts_write_nothing() {
    let (_, tt, dd, _) = printed_message();
    let (mut products, mut commitments, mut c) = (dd, tt, C);
    products[54] = 1;
    commitments[9] = 1;
    assert_judged(&commitments, &products, &C, Ok(Verdict::Norm));
    assert_judged(&commitments, &dd, &C, Ok(Verdict::Commitment));
    products[54] = 2;
    assert_judged(&tt, &products, &C, Err(Refusal::DigitProduct));
    c[9] = 3;
    assert_judged(&tt, &products, &c, Err(Refusal::Challenge));
    // A refused count comes before these, a wrong length before it.
    assert_counted([0, 1], &tt, &products, &c, Err(Refusal::Leaves));
    assert_counted([0, 1], &tt, &products, &c[1..], Err(Refusal::Length));
}

/// Two counts with their sum, or nothing where they are refused.
const COUNTS: [([u32; 2], Option<u32>); 9] = [
    ([3, 4], Some(7)),
    ([1, u32::MAX - 1], Some(u32::MAX)),
    ([1 << 31, (1 << 31) - 1], Some(u32::MAX)),
    ([0, 1], None),
    ([1, 0], None),
    ([1, u32::MAX], None),
    ([u32::MAX, 1], None),
    ([1 << 31, 1 << 31], None),
    ([u32::MAX, u32::MAX], None),
];

#[test]
fn leaves_are_summed_or_refused() {
    let (_, tt, dd, _) = printed_message();
    let mut commitments = tt;
    commitments[9] = 1;
    for (counts, sum) in COUNTS {
        let [one, two] = counts.map(|leaves| Instance { t: &[1], d: &[2], leaves });
        let (mut t, mut d) = ([8; 2], [8; 4]);
        let joined = sum.ok_or(Refusal::Leaves).map(|leaves| Instance { t: &[1, 1], d: &[2, 5, 5, 2], leaves });
        assert_eq!(lova::join(ONE, one, two, &[5], &mut t, &mut d), joined);
        assert_eq!((t, d) == ([8; 2], [8; 4]), sum.is_none());
        let folded = sum.ok_or(Refusal::Leaves).map(|leaves| Verdict::Yes(Instance { t: &[15], d: &[25], leaves }));
        assert_counted(counts, &tt, &dd, &C, folded);
        assert_counted(counts, &commitments, &dd, &C, sum.ok_or(Refusal::Leaves).map(|_| Verdict::Commitment));
    }
}

#[test]
fn other_lengths_of_a_triangle_are_refused() {
    let (_, tt, dd, _) = printed_message();
    let entry = |i: usize, j: usize| dd[triangle(i.max(j)) + i.min(j)];
    let square: Vec<i64> = (0..100).map(|at| entry(at / 10, at % 10)).collect();
    assert_judged(&tt, &square, &C, Err(Refusal::Length));
    assert_judged(&tt, &dd[..54], &C, Err(Refusal::Length));
    for length in [54, 56, 100] {
        let (mut v, mut tt, mut long, mut ss) = ([8], [8; 10], vec![8; length], [8; 10]);
        let answer = lova::message(ONE, &[3], &[7], &[-5], &mut v, &mut tt, &mut long, &mut ss);
        assert_eq!((answer, v, tt, ss), (Err(Refusal::Length), [8], [8; 10], [8; 10]));
        assert_eq!(long, vec![8; length]);
    }
}

/// Ask for a verdict under a bound on a fold with A = 3 in which 11 is one witness. Its message is made with B = 121,
/// which takes 11 and has the k and N of Setting 1.
#[track_caller]
fn assert_with_eleven(s1: i64, s2: i64, bound: u64, expected: Result<Verdict, Refusal>) {
    let maker = Setting::new(1, 1, 1, 2, 121).unwrap();
    let (mut v, mut tt, mut dd, mut ss) = ([0], [0; 10], [0; triangle(10)], [0; 10]);
    lova::message(maker, &[3], &[s1], &[s2], &mut v, &mut tt, &mut dd, &mut ss).unwrap();
    let instance = |s: i64| ([(3 * s) as u64], [s * s]);
    let ((t1, d1), (t2, d2)) = (instance(s1), instance(s2));
    let (setting, mut t, mut d) = (Setting::new(1, 1, 1, 2, bound).unwrap(), [8], [8]);
    assert_eq!(lova::verify(setting, leaf(&t1, &d1), leaf(&t2, &d2), &v, &tt, &dd, &C, &mut t, &mut d), expected);
    assert!(expected != Ok(Verdict::Long) || (t, d) == ([8], [8]));
}

#[test]
fn a_long_start_does_not_pass() {
    for (s1, s2, t, d) in [(11, -5, 12, 16), (7, 11, 6, 4)] {
        assert_with_eleven(s1, s2, 100, Ok(Verdict::Long));
        assert_with_eleven(s1, s2, 120, Ok(Verdict::Long));
        assert_with_eleven(s1, s2, 121, yes(&[t], &[d]));
    }
}

#[test]
fn joined_and_related() {
    let (mut t, mut d) = ([8; 2], [8; 4]);
    let joined = lova::join(ONE, leaf(&[1], &[2]), leaf(&[3], &[4]), &[5], &mut t, &mut d);
    assert_eq!(joined, Ok(Instance { t: &[1, 3], d: &[2, 5, 5, 4], leaves: 2 }));
    let related = |t: u64, d: i64, s: i64| lova::test_relation(ONE, &[3], &[t], &[d], &[s]);
    assert_eq!(related(22, 49, 7), Ok(Membership::Commitment));
    assert_eq!(related(22, 50, 7), Ok(Membership::Products));
    assert_eq!(related(22, 50, 11), Ok(Membership::Long));
}

/// Recompose in setting 1 by both functions, the same at t = 1. S1 and S2 hold 8 before, and after a refusal too.
#[track_caller]
fn assert_recomposed(ss: &[i64], expected: Result<[i64; 2], Refusal>) {
    for recompose in [lova::recompose, lova::recompose_fresh] {
        let (mut s1, mut s2) = ([8], [8]);
        assert_eq!(recompose(ONE, ss, &mut s1, &mut s2), expected.map(|_| ()));
        assert_eq!([s1[0], s2[0]], expected.unwrap_or([8, 8]));
    }
}

#[test]
fn digits_are_recomposed() {
    assert_recomposed(&printed_message().3, Ok([7, -5]));
    assert_recomposed(&[0, 1, 0, 1, 0, 0, -1, 0, -1, 0], Ok([10, -10]));
    // 1 with other digits, 29 with other digits, and both with a digit past h.
    assert_recomposed(&[-1, 1, 0, 0, 0, 0, 0, 0, 0, 0], Err(Refusal::OtherDigits));
    assert_recomposed(&[0, 0, 0, 0, 0, -1, 1, 0, 0, 0], Err(Refusal::OtherDigits));
    assert_recomposed(&[-1, 1, 1, 1, 1, 0, 0, 0, 0, 0], Err(Refusal::LongColumn));
    assert_recomposed(&[-1, 1, 0, 0, 0, -1, 1, 1, 1, 1], Err(Refusal::LongColumn));
    assert_recomposed(&[-1, 1, 0, 0, 0, -1, 1, 1, 1, 2], Err(Refusal::Digit));
    assert_recomposed(&[i64::MIN, 0, 0, 0, 0, 0, 0, 0, 0, 0], Err(Refusal::Digit));
    assert_recomposed(&[2; 9], Err(Refusal::Length));
    let (mut s1, mut s2) = ([8], [8]);
    assert_eq!(lova::recompose(ONE, &[0; 10], &mut [], &mut s2), Err(Refusal::Length));
    assert_eq!(lova::recompose(ONE, &[0; 10], &mut s1, &mut [8; 2]), Err(Refusal::Length));
    assert_eq!(lova::recompose(Setting { bound: 99, ..ONE }, &[2; 9], &mut s1, &mut s2), Err(Refusal::Growth));
    assert_eq!((s1, s2), ([8], [8]));
}

#[test]
fn ties_have_the_sign_of_the_entry() {
    // n = m = t = 1, b = 4: k = 4.
    let four = Setting::new(1, 1, 1, 4, 256).unwrap();
    for (low, next, expected) in [(2, 0, Ok(2)), (-2, 0, Ok(-2)), (2, -1, Err(16)), (-2, 1, Err(16))] {
        let (mut s1, mut s2) = ([8], [8]);
        let answer = lova::recompose(four, &[0, 0, 0, 0, low, next, 0, 0], &mut s1, &mut s2);
        assert_eq!(answer.map(|()| s2[0]).map_err(Refusal::number), expected);
    }
}

/// n = m = 1, t = 2, b = 5: k = 3 and N = 12, so that a fresh S~ has 9 columns.
const TWO: Setting = Setting::unchecked(1, 1, 2, 5, 576);

/// The challenge of the fresh fold: 12 rows of two.
const FRESH_C: [u8; 24] = [1, 0, 0, 1, 0, 0, 0, 0, 2, 1, 0, 2, 1, 0, 0, 1, 1, 1, 1, 2, 0, 1, 2, 0];

/// The outputs of a fresh message, all at this number.
fn fresh_message(held: i64) -> ([i64; 2], [u64; 9], [i64; triangle(9)], [i64; 9]) {
    ([held; 2], [held as u64; 9], [held; triangle(9)], [held; 9])
}

#[test]
fn a_fresh_fold() {
    let (mut t1, mut d1, mut t2, mut d2) = ([8; 2], [8; 4], [8], [8]);
    let one = lova::commit(TWO, &[3], &[7, -5], &mut t1, &mut d1).unwrap();
    let two = lova::commit_fresh(TWO, &[3], &[4], &mut t2, &mut d2).unwrap();
    assert_eq!(two, leaf(&[12], &[16]));
    let (mut v, mut tt, mut dd, mut ss) = fresh_message(8);
    assert_eq!(lova::message_fresh(TWO, &[3], &[7, -5], &[4], &mut v, &mut tt, &mut dd, &mut ss), Ok(()));
    assert_eq!((v, ss), ([28, -20], [2, 1, 0, 0, -1, 0, -1, 1, 0]));
    let (mut s1, mut vector) = ([8; 2], [8]);
    assert_eq!(lova::recompose_fresh(TWO, &ss, &mut s1, &mut vector), Ok(()));
    assert_eq!((s1, vector), ([7, -5], [4]));
    let (mut t, mut d) = ([8; 4], [8; 16]);
    assert_eq!(lova::join_fresh(TWO, one, two, &v, &mut t, &mut d).map(|joined| joined.leaves), Ok(2));
    assert_eq!(t, [21, 15u64.wrapping_neg(), 12, 12]);
    assert_eq!(d, [49, -35, 28, 28, -35, 25, -20, -20, 28, -20, 16, 16, 28, -20, 16, 16]);
    let (mut t, mut d, mut s) = ([8; 2], [8; 4], [8; 2]);
    let verdict = lova::verify_fresh(TWO, one, two, &v, &tt, &dd, &FRESH_C, &mut t, &mut d);
    assert_eq!(verdict, yes(&[3, 9], &[1, 3, 3, 9]));
    assert_eq!(lova::fold_witness_fresh(TWO, &ss, &FRESH_C, &mut s), Ok(()));
    assert_eq!(s, [1, 3]);
    assert_eq!(lova::test_relation(TWO, &[3], &t, &d, &s), Ok(Membership::Member));
}

#[test]
fn fresh_calls_are_refused() {
    let (mut t, mut d) = ([8], [8]);
    assert_eq!(lova::commit_fresh(TWO, &[3], &[25], &mut t, &mut d), Err(Refusal::LongColumn));
    assert_eq!(lova::commit_fresh(TWO, &[3], &[4, 4], &mut t, &mut d), Err(Refusal::Length));
    assert_eq!((t, d), ([8], [8]));
    let (mut v, mut tt, mut dd, mut ss) = fresh_message(8);
    let answer = lova::message_fresh(TWO, &[3], &[0, 0], &[25], &mut v, &mut tt, &mut dd, &mut ss);
    assert_eq!((answer, (v, tt, dd, ss)), (Err(Refusal::LongColumn), fresh_message(8)));
    let (mut t, mut d) = ([8; 4], [8; 16]);
    let (none, two) = (Instance { t: &[1; 2], d: &[2; 4], leaves: 0 }, leaf(&[3], &[4]));
    assert_eq!(lova::join_fresh(TWO, none, leaf(&[3; 2], &[4]), &[5; 2], &mut t, &mut d), Err(Refusal::Length));
    assert_eq!(lova::join_fresh(TWO, none, two, &[5; 2], &mut t, &mut d), Err(Refusal::Leaves));
    assert_eq!((t, d), ([8; 4], [8; 16]));
    let mut s = [8; 2];
    assert_eq!(lova::fold_witness_fresh(TWO, &[3; 9], &FRESH_C, &mut s), Err(Refusal::Digit));
    assert_eq!(lova::fold_witness_fresh(TWO, &[3; 9], &[3; 24], &mut s), Err(Refusal::Challenge));
    assert_eq!(lova::fold_witness_fresh(TWO, &[3; 12], &FRESH_C, &mut s), Err(Refusal::Length));
    let mut vector = [8];
    assert_eq!(lova::recompose_fresh(TWO, &[0, 0, 0, 0, 0, 0, 0, 0, 1], &mut s, &mut vector), Err(Refusal::LongColumn));
    assert_eq!(lova::recompose_fresh(TWO, &[3; 9], &mut s, &mut vector), Err(Refusal::Digit));
    assert_eq!(lova::recompose_fresh(TWO, &[3; 12], &mut s, &mut vector), Err(Refusal::Length));
    assert_eq!((s, vector), ([8; 2], [8]));
}

/// Ask for a verdict on a fresh fold of zeros with another count, D2, D~ and C. T' and D' hold 8 before, and without a yes
/// afterwards too.
#[track_caller]
fn assert_judged_fresh(leaves: u32, d2: i64, dd: i64, c: u8, expected: Result<Verdict, Refusal>) {
    let (mut t, mut d) = ([8; 2], [8; 4]);
    let (one, two) = (leaf(&[0; 2], &[0; 4]), Instance { t: &[0], d: &[d2], leaves });
    let (zeros, dd, c) = ([0; 9], [dd; triangle(9)], [c; 24]);
    assert_eq!(lova::verify_fresh(TWO, one, two, &[0; 2], &zeros, &dd, &c, &mut t, &mut d), expected);
    assert!(matches!(expected, Ok(Verdict::Yes(_))) || (t, d) == ([8; 2], [8; 4]));
}

#[test]
fn fresh_verdicts_in_order() {
    assert_judged_fresh(1, 0, 0, 1, yes(&[0; 2], &[0; 4]));
    assert_judged_fresh(1, 576, 0, 1, Ok(Verdict::Norm));
    assert_judged_fresh(1, 577, 0, 1, Ok(Verdict::Long));
    assert_judged_fresh(1, 577, 5, 1, Err(Refusal::DigitProduct));
    assert_judged_fresh(1, 577, -5, 3, Err(Refusal::Challenge));
    assert_judged_fresh(0, 577, -5, 3, Err(Refusal::Leaves));
    assert_judged_fresh(u32::MAX, 0, 0, 1, Err(Refusal::Leaves));
}

/// Ask for a verdict on a general fold at t = 2 with another D1 and D2; both witnesses are 1 1.
#[track_caller]
fn assert_with_products(d1: [i64; 4], d2: [i64; 4], expected: Result<Verdict, Refusal>) {
    let (mut v, mut tt, mut dd, mut ss) = ([0; 4], [0; 12], [0; triangle(12)], [0; 12]);
    lova::message(TWO, &[3], &[1, 1], &[1, 1], &mut v, &mut tt, &mut dd, &mut ss).unwrap();
    let (mut t, mut d) = ([8; 2], [8; 4]);
    let (one, two) = (leaf(&[3, 3], &d1), leaf(&[3, 3], &d2));
    assert_eq!(lova::verify(TWO, one, two, &v, &tt, &dd, &FRESH_C, &mut t, &mut d), expected);
    assert!(matches!(expected, Ok(Verdict::Yes(_))) || (t, d) == ([8; 2], [8; 4]));
}

#[test]
fn an_unsymmetric_instance_is_norm() {
    assert_with_products([1; 4], [1; 4], yes(&[9, 3u64.wrapping_neg()], &[9, -3, -3, 1]));
    for d in [[1, 2, 1, 1], [1, 1, 2, 1], [1, 0, 1, 1], [1, 1, 0, 1]] {
        assert_with_products(d, [1; 4], Ok(Verdict::Norm));
        assert_with_products([1; 4], d, Ok(Verdict::Norm));
        assert_with_products(d, [577, 1, 1, 1], Ok(Verdict::Long));
    }
}

/// Weights of the groups, with the least and the greatest among them.
const WEIGHTS: [u64; GROUPS] = [3, 1, 4, 1, 5, 9, 2, 16];

/// Ask for the next fold by both functions: it has this group and new turn, and its count is one less; or nothing, or a
/// refusal, changes nothing.
#[track_caller]
fn assert_next(
    weights: [u64; GROUPS], waiting: [u32; GROUPS], turn: [u64; 2], expected: Result<Option<[u64; 2]>, Refusal>,
) {
    let (mut left, new) = (waiting, expected.ok().flatten().unwrap_or(turn));
    if let Ok(Some([group, _])) = expected {
        left[group as usize - 1] -= 1;
    }
    let answer = expected.map(|new| new.map(|[group, _]| group));
    let (mut counts, mut places) = (waiting, turn);
    assert_eq!(lova::write_next_fold(&weights, &mut counts, &mut places), answer);
    assert_eq!((counts, places), (left, new));
    let (mut counts, mut record) = (waiting, Turn { group: turn[0], used: turn[1] });
    assert_eq!(lova::next_fold(&weights, &mut counts, &mut record), answer);
    assert_eq!((counts, [record.group, record.used]), (left, new));
}

#[test]
fn turns_go_on_and_pass_on() {
    // A turn that has not begun, one that goes on, and one that is over.
    assert_next(WEIGHTS, [1; GROUPS], [3, 0], Ok(Some([3, 1])));
    assert_next(WEIGHTS, [u32::MAX; GROUPS], [3, 3], Ok(Some([3, 4])));
    assert_next(WEIGHTS, [u32::MAX; GROUPS], [3, 4], Ok(Some([4, 1])));
    // The group has none waiting; the next that waits stands further up, or past 8.
    assert_next(WEIGHTS, [1, 0, 0, 0, 0, 0, 1, 1], [3, 2], Ok(Some([7, 1])));
    assert_next(WEIGHTS, [0, 1, 0, 0, 0, 0, 0, 0], [3, 0], Ok(Some([2, 1])));
    assert_next(WEIGHTS, [u32::MAX; GROUPS], [8, 16], Ok(Some([1, 1])));
    assert_next(WEIGHTS, [1, 1, 1, 1, 1, 1, 1, 0], [8, 3], Ok(Some([1, 1])));
}

#[test]
fn a_group_alone_and_nobody() {
    for (at, weight) in WEIGHTS.into_iter().enumerate() {
        let (mut alone, group) = ([0; GROUPS], at as u64 + 1);
        assert_next(WEIGHTS, alone, [group, 0], Ok(None));
        assert_next(WEIGHTS, alone, [group, weight], Ok(None));
        for count in [1, u32::MAX] {
            alone[at] = count;
            assert_next(WEIGHTS, alone, [group, weight], Ok(Some([group, 1])));
            assert_next(WEIGHTS, alone, [group, weight - 1], Ok(Some([group, weight])));
        }
    }
}

#[test]
fn turns_are_refused() {
    for waiting in [[0; GROUPS], [1; GROUPS], [u32::MAX; GROUPS]] {
        let refused = |weights, turn| assert_next(weights, waiting, turn, Err(Refusal::Turn));
        for at in 0..GROUPS {
            for weight in [0, 17, (1 << 32) + 1, u64::MAX] {
                let mut weights = WEIGHTS;
                weights[at] = weight;
                refused(weights, [1, 0]);
            }
            for used in [WEIGHTS[at] + 1, 17, 1 << 32, u64::MAX] {
                refused(WEIGHTS, [at as u64 + 1, used]);
            }
        }
        for group in [0, 9, (1 << 32) + 1, u64::MAX] {
            refused(WEIGHTS, [group, 0]);
        }
    }
}

#[test]
fn other_lengths_of_a_turn_are_refused() {
    // 7 comes before 20 and before nothing at all.
    for (weight, count) in [(1, 1), (1, 0), (17, 1), (17, 0)] {
        for (weights, waiting, turn) in [(7, 8, 2), (9, 8, 2), (8, 7, 2), (8, 9, 2), (8, 8, 1), (8, 8, 3), (0, 0, 0)] {
            let (mut counts, mut places) = (vec![count; waiting], vec![1; turn]);
            let answer = lova::write_next_fold(&vec![weight; weights], &mut counts, &mut places);
            assert_eq!((answer, counts, places), (Err(Refusal::Length), vec![count; waiting], vec![1; turn]));
        }
    }
}

/// Ask for the count of this E by both functions. The one place holds 99 before, and after a refusal too.
#[track_caller]
fn assert_zeros(n: usize, e: &[i64], expected: Result<u64, Refusal>) {
    let mut count = [99];
    assert_eq!(lova::write_count_zeros(n as u64, e, &mut count), expected.map(|_| ()));
    assert_eq!(count, [expected.unwrap_or(99)]);
    assert_eq!(lova::count_zeros(n, e), expected);
}

/// The greatest entry of E.
const GREATEST: i64 = 1 << 52;

#[test]
fn zeros_of_small_matrices() {
    assert_zeros(1, &[5], Ok(1));
    assert_zeros(1, &[0], Ok(3));
    // 2 c0 c1, c0^2 - c1^2, and (c0 + c1)^2, where the entry beside the diagonal counts twice.
    assert_zeros(2, &[0, 1, 0], Ok(5));
    assert_zeros(2, &[1, 0, -1], Ok(5));
    assert_zeros(2, &[1, 1, 1], Ok(3));
    // As the rows of an upper triangle these would have five.
    assert_zeros(3, &[1, 0, 0, 1, 1, -1], Ok(7));
}

#[test]
fn zeros_for_every_number_of_rows() {
    for n in 1..=12 {
        let (mut e, all) = (vec![0; triangle(n)], 3u64.pow(n as u32));
        assert_zeros(n, &e, Ok(all));
        // One entry alone, on the diagonal and beside it.
        e[triangle(n) - 1] = -GREATEST;
        assert_zeros(n, &e, Ok(all / 3));
        if n > 1 {
            (e[triangle(n) - 1], e[triangle(n) - 2]) = (0, GREATEST);
            assert_zeros(n, &e, Ok(all / 9 * 5));
        }
    }
    // A square of the sum: the vectors with as many entries 1 as -1.
    assert_zeros(12, &[GREATEST; triangle(12)], Ok(73789));
    assert_zeros(12, &[-GREATEST; triangle(12)], Ok(73789));
}

#[test]
fn zeros_are_refused() {
    for n in [0, 13, 1 << 32, (1 << 32) + 1, usize::MAX] {
        for length in [0, 1, triangle(12), triangle(13)] {
            assert_zeros(n, &vec![i64::MIN; length], Err(Refusal::Rows));
        }
    }
    for n in 1..=12 {
        for length in [0, triangle(n) - 1, triangle(n) + 1, 2 * triangle(n)] {
            assert_zeros(n, &vec![i64::MIN; length], Err(Refusal::Length));
        }
        for at in 0..triangle(n) {
            for entry in [GREATEST + 1, -GREATEST - 1, i64::MIN, i64::MAX] {
                let mut e = vec![GREATEST; triangle(n)];
                e[at] = entry;
                assert_zeros(n, &e, Err(Refusal::Entry));
            }
        }
    }
}

#[test]
fn other_lengths_of_a_count_are_refused() {
    // 24 comes before 7, and 7 before 25.
    for (n, entry, refusal) in [(13, 1, Refusal::Rows), (1, 1, Refusal::Length), (1, i64::MIN, Refusal::Length)] {
        for places in [0, 2, 3] {
            let mut count = vec![99; places];
            assert_eq!(lova::write_count_zeros(n, &[entry], &mut count), Err(refusal));
            assert_eq!(count, vec![99; places]);
        }
    }
}
