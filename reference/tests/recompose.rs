//! Recomposition: what the digits of a message stand for comes back, and no other digits are taken.

mod common;
use common::*;
use reference::operations::Answer::*;
use reference::operations::Profile::{self, Fresh, General};
use reference::operations::*;
use reference::rng::Rng;
use reference::settings::{Parameters, LIST};
use reference::tree::honest_message;
use std::collections::{BTreeMap, BTreeSet};

const ONE: Parameters = LIST[0];

/// n = m = 1, t = 2, b = 5: k = 3 and N = 12, so that a fresh S~ has 9 columns.
const SMALL: Parameters = Parameters { n: 1, m: 1, t: 2, b: 5, bound: 576 };

/// n = m = t = 1, b = 4: k = 4, and the digits 2 and −2 are ties.
const FOUR: Parameters = Parameters { n: 1, m: 1, t: 1, b: 4, bound: 256 };

/// S1 and S2, or the vector in its place.
type Witnesses = (Vec<i64>, Vec<i64>);

/// Columns of the second witness.
fn right(p: &Parameters, profile: Profile) -> usize {
    if profile == Fresh { 1 } else { p.t as usize }
}

/// The witnesses, or the refusal, after which the outputs hold what they held.
fn back(p: &Parameters, profile: Profile, ss: &[i64]) -> Result<Witnesses, u32> {
    let (m, t) = (p.m as usize, p.t as usize);
    let (mut s1, mut s2) = (vec![99; m * t], vec![-99; m * right(p, profile)]);
    let held = (s1.clone(), s2.clone());
    match recompose(p, profile, ss, &mut s1, &mut s2) {
        Done => Ok((s1, s2)),
        Refused(number) => {
            assert_eq!((s1, s2), held, "outputs keep what they held");
            Err(number)
        }
        other => panic!("{other:?}"),
    }
}

/// Five digits of each of two entries.
fn ten(left: [i64; 5], right: [i64; 5]) -> Vec<i64> {
    [left, right].concat()
}

#[test]
fn digits_of_a_message_come_back() {
    let sent = honest_message(&ONE, General, &[3], &[7], &[-5]).unwrap();
    assert_eq!(sent.ss, ten([1, 1, 1, 0, 0], [-1, 0, -1, 0, 0]));
    assert_eq!(back(&ONE, General, &sent.ss), Ok((vec![7], vec![-5])));
    assert_eq!(back(&ONE, Fresh, &sent.ss), Ok((vec![7], vec![-5])));
    let sent = honest_message(&SMALL, Fresh, &[3], &[7, -5], &[4]).unwrap();
    assert_eq!(back(&SMALL, Fresh, &sent.ss), Ok((vec![7, -5], vec![4])));
    let sent = honest_message(&SMALL, General, &[3], &[7, -5], &[4, 24]).unwrap();
    assert_eq!(back(&SMALL, General, &sent.ss), Ok((vec![7, -5], vec![4, 24])));
}

#[test]
fn other_digits_of_an_entry_are_16() {
    // 1 is 1 0 0 0 0, and no other digits are.
    assert_eq!(back(&ONE, General, &ten([1, 0, 0, 0, 0], [0; 5])), Ok((vec![1], vec![0])));
    for other in [[-1, 1, 0, 0, 0], [-1, -1, 1, 0, 0], [-1, -1, -1, 1, 0], [-1, -1, -1, -1, 1]] {
        for profile in [General, Fresh] {
            assert_eq!(back(&ONE, profile, &ten(other, [0; 5])), Err(16));
            assert_eq!(back(&ONE, profile, &ten([0; 5], other)), Err(16));
            assert_eq!(back(&ONE, profile, &ten([0; 5], other.map(|x| -x))), Err(16));
        }
    }
}

#[test]
fn ties_take_the_sign_of_the_entry() {
    let zero = [0; 4];
    for (digits, outcome) in [
        ([2, 0, 0, 0], Ok((vec![2], vec![0]))),
        ([-2, 0, 0, 0], Ok((vec![-2], vec![0]))),
        ([2, -1, 0, 0], Err(16)),
        ([-2, 1, 0, 0], Err(16)),
        ([1, -2, 0, 0], Ok((vec![-7], vec![0]))),
        ([-1, 2, 0, 0], Ok((vec![7], vec![0]))),
        ([1, 2, -1, 0], Err(16)),
    ] {
        assert_eq!(back(&FOUR, General, &[digits, zero].concat()), outcome, "{digits:?}");
        let swapped = outcome.map(|(left, right)| (right, left));
        assert_eq!(back(&FOUR, Fresh, &[zero, digits].concat()), swapped, "{digits:?}");
    }
}

#[test]
fn eleven_then_eight_then_sixteen() {
    for (left, right, number) in [
        // A digit past h, wherever it stands, and although both columns are too long and not the rule's.
        ([-1, 1, 1, 1, 1], [-1, 1, 1, 1, 2], 11),
        ([-2, 1, 1, 1, 1], [-1, 1, 1, 1, 1], 11),
        ([0; 5], [i64::MIN, 0, 0, 0, 0], 11),
        ([0, 0, 0, 0, i64::MAX], [0; 5], 11),
        // 29, and 31 by the rule's digits.
        ([-1, 1, 1, 1, 1], [0; 5], 8),
        ([0; 5], [-1, 1, 1, 1, 1], 8),
        ([1, 1, 1, 1, 1], [0; 5], 8),
        // Too long on the right, not the rule's on the left.
        ([-1, 1, 0, 0, 0], [1, 1, 0, 1, 0], 8),
        ([-1, 1, 0, 0, 0], [0, 1, 0, 1, 0], 16),
    ] {
        assert_eq!(back(&ONE, General, &ten(left, right)), Err(number), "{left:?} {right:?}");
        assert_eq!(back(&ONE, Fresh, &ten(left, right)), Err(number), "{left:?} {right:?}");
    }
    assert_eq!(back(&ONE, General, &[2; 9]), Err(7));
    assert_eq!(back(&setting(1, 1, 1, 2, 99), General, &[2; 9]), Err(5));
}

#[test]
fn lengths_are_of_columns() {
    // Two rows, B = 36 + 36 = 72: each entry is short alone.
    let p = setting(1, 2, 1, 3, 72);
    let digits = |s2: [i64; 2]| honest_message(&setting(1, 2, 1, 3, 80), General, &[1, 1], &[0, 0], &s2).unwrap().ss;
    assert_eq!(back(&p, General, &digits([6, -6])), Ok((vec![0, 0], vec![6, -6])));
    assert_eq!(back(&p, General, &digits([8, 3])), Err(8));
    assert_eq!(back(&p, General, &digits([8, -2])), Ok((vec![0, 0], vec![8, -2])));
}

#[test]
fn wrong_lengths_are_7() {
    let p = setting(2, 3, 2, 32, 1 << 20);
    let k = p.k() as usize;
    for profile in [General, Fresh] {
        let right = right(&p, profile);
        let lengths = [3 * (2 + right) * k, 3 * 2, 3 * right];
        for (place, by) in [(0, -1), (0, 1), (1, -1), (1, 1), (2, -1), (2, 1)] {
            let length = |at: usize| if at == place { lengths[at].wrapping_add_signed(by) } else { lengths[at] };
            let (mut s1, mut s2) = (vec![99; length(1)], vec![99; length(2)]);
            // A digit past h comes after a wrong length.
            assert_eq!(recompose(&p, profile, &vec![17; length(0)], &mut s1, &mut s2), Refused(7));
            assert!([s1, s2].concat().iter().all(|x| *x == 99));
        }
        assert_eq!(back(&p, profile, &vec![17; lengths[0]]), Err(11));
        assert_eq!(back(&p, profile, &vec![1; lengths[0]]).err(), Some(8));
    }
    // The length of the other profile.
    assert_eq!(back(&p, Fresh, &vec![0; 3 * 4 * k]), Err(7));
    assert_eq!(back(&p, General, &vec![0; 3 * 3 * k]), Err(7));
}

/// All rows of so many digits from −h to h.
fn rows(length: u32, h: i64) -> impl Iterator<Item = Vec<i64>> {
    let values = 2 * h + 1;
    (0..values.pow(length)).map(move |number| (0..length).map(|at| number / values.pow(at) % values - h).collect())
}

/// Ask that of all rows of digits exactly those are taken that a message writes, with its witnesses, which are at most
/// this number in size; how many are done, too long and not the rule's.
fn against_messages(p: &Parameters, profile: Profile, greatest: i64) -> [usize; 3] {
    let mut sent = BTreeMap::new();
    for (s1, s2) in (-greatest..=greatest).flat_map(|s1| (-greatest..=greatest).map(move |s2| (s1, s2))) {
        let message = honest_message(p, profile, &[3], &[s1], &[s2]).unwrap();
        assert_eq!(sent.insert(message.ss, (vec![s1], vec![s2])), None);
    }
    assert_eq!(honest_message(p, profile, &[3], &[greatest + 1], &[0]), Err(8));
    let mut counts = [0; 3];
    for digits in rows(p.columns() as u32, p.h() as i64) {
        let outcome = back(p, profile, &digits);
        assert_eq!(outcome.as_ref().ok(), sent.get(&digits), "{digits:?}");
        let at = [Ok(()), Err(8), Err(16)].iter().position(|kind| *kind == outcome.clone().map(|_| ()));
        counts[at.unwrap_or_else(|| panic!("{outcome:?}"))] += 1;
    }
    counts
}

#[test]
fn exactly_the_digits_of_messages() {
    for profile in [General, Fresh] {
        // 21 witnesses; 107 of the 243 rows of five digits stand for them.
        assert_eq!(against_messages(&ONE, profile, 10), [441, 59049 - 107 * 107, 107 * 107 - 441]);
        // No two rows within h stand for one entry where b is odd, so that 16 is not given.
        assert_eq!(against_messages(&setting(1, 1, 1, 3, 36), profile, 6), [169, 729 - 169, 0]);
    }
}

/// The outcome by the request's words, entry by entry. The digits of a size lie above −b/2 and are at most b/2, and no
/// others like that have the same sum.
fn by_entries(p: &Parameters, profile: Profile, ss: &[i64]) -> Result<Witnesses, u32> {
    let (t, b) = (p.t as usize, p.b as i128);
    if ss.iter().any(|x| (*x as i128).abs() > p.h() as i128) {
        return Err(11);
    }
    let sum = |block: &[i64]| block.iter().rev().fold(0, |sum, digit| sum * b + *digit as i128);
    let blocks: Vec<&[i64]> = ss.chunks_exact(p.k() as usize).collect();
    let rows: Vec<&[&[i64]]> = blocks.chunks_exact(t + right(p, profile)).collect();
    for j in 0..t + right(p, profile) {
        if rows.iter().map(|row| sum(row[j]).pow(2)).sum::<i128>() > p.bound as i128 {
            return Err(8);
        }
    }
    let by_rule = |block: &[i64]| block.iter().all(|digit| 2 * sum(block).signum() * *digit as i128 > -b);
    if !blocks.iter().all(|block| by_rule(block)) {
        return Err(16);
    }
    let columns = |row: &[&[i64]]| row.iter().map(|block| sum(block) as i64).collect::<Vec<i64>>();
    let s1 = rows.iter().flat_map(|row| columns(&row[..t]));
    Ok((s1.collect(), rows.iter().flat_map(|row| columns(&row[t..])).collect()))
}

/// Change digits: one past h, one by one, all of a part, or two neighbours so that a carry moves and their sum stays.
fn damage(rng: &mut Rng, p: &Parameters, ss: &mut [i64]) {
    let (h, k, sign) = (p.h() as i64, p.k() as usize, [-1, 1][rng.word() as usize % 2]);
    let at = rng.word() as usize % ss.len();
    let start = at / k * k;
    match rng.word() % 6 {
        0 => ss[at] = [h + 1, -h - 1, i64::MIN, i64::MAX][rng.word() as usize % 4],
        1 => ss[at] = ss[at].wrapping_add(sign),
        2 => ss[start..start + k].iter_mut().for_each(|x| *x = rng.between(-h as i128, h as i128) as i64),
        3 => ss[start..start + 2].iter_mut().for_each(|x| *x = rng.between(-h as i128, h as i128) as i64),
        // A tie alone, to be moved.
        4 => {
            ss[start..start + k].fill(0);
            ss[start] = -sign * h;
            ss[start + 1] = sign;
        }
        _ => {
            let at = start + rng.word() as usize % (k - 1);
            ss[at] = ss[at].wrapping_add(sign * p.b as i64);
            ss[at + 1] = ss[at + 1].wrapping_sub(sign);
        }
    }
}

#[test]
fn outcomes_by_entries() {
    let mut rng = Rng::new(61);
    let mut seen = BTreeSet::new();
    for round in 0..6000 {
        let p = if round % 8 == 0 { LIST[round / 8 % 4] } else { random_setting(&mut rng, 48) };
        let profile = [General, Fresh][round % 2];
        let (m, t) = (p.m as usize, p.t as usize);
        let (s1, s2) = (rng.witness(m, t, p.bound), rng.witness(m, right(&p, profile), p.bound));
        let mut ss = honest_message(&p, profile, &random_matrix(&mut rng, &p), &s1, &s2).unwrap().ss;
        assert_eq!(back(&p, profile, &ss), Ok((s1, s2)));
        for _ in 0..1 + rng.word() % 2 {
            damage(&mut rng, &p, &mut ss);
        }
        let outcome = back(&p, profile, &ss);
        assert_eq!(outcome, by_entries(&p, profile, &ss), "{p:?} {ss:?}");
        seen.insert((outcome.err().unwrap_or(0), profile == Fresh, p.b % 2));
    }
    // 16 is for even bases alone.
    let numbers = [(0, 0), (0, 1), (8, 0), (8, 1), (11, 0), (11, 1), (16, 0)];
    assert_eq!(seen, numbers.iter().flat_map(|(number, b)| [(*number, false, *b), (*number, true, *b)]).collect());
}
