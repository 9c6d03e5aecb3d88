//! Random digit witnesses for recomposition: the rule's, others near them, noise, and damage; and the borders at which
//! they stand.

use crate::inputs::*;
use crate::seed::{below, pick};
use reference::digits::digit_matrix;
use reference::operations::{Answer, Profile};
use reference::rng::Rng;
use reference::settings::{Parameters, Shape};

/// The digits of [S1 S2] by the rule, where S2 may be a vector.
pub fn digits_of(z: &Shape, profile: Profile, s1: &[i64], s2: &[i64]) -> Vec<i64> {
    let right = profile.right(z);
    let (left, right_digits) = (digit_matrix(s1, z.m, z.t, z.b, z.k), digit_matrix(s2, z.m, right, z.b, z.k));
    let rows = left.chunks_exact(z.k * z.t).zip(right_digits.chunks_exact(z.k * right));
    rows.flat_map(|(one, two)| [one, two].concat()).collect()
}

/// The greatest number of low places whose digits, all at h in so many rows, keep a column within B; growth makes it at
/// least 1.
fn short_places(z: &Shape, rows: usize) -> usize {
    let within = |places: &usize| {
        let sum: u128 = z.powers[..*places].iter().map(|power| u128::from(*power)).sum();
        (u128::from(z.h) * sum).pow(2) * rows as u128 <= u128::from(z.bound)
    };
    (1..=z.k).take_while(within).last().unwrap_or(1)
}

/// Random digits in some rows, and there in the low places alone, so that no column is long.
fn short_digits(rng: &mut Rng, z: &Shape, columns: usize) -> Vec<i64> {
    let rows = pick(rng, &[1, 1 + z.m / 8, z.m]);
    let (first, places) = (below(rng, z.m), short_places(z, rows));
    let mut ss = vec![0; z.m * columns];
    for i in (0..rows).map(|i| (first + i) % z.m) {
        for block in ss[i * columns..(i + 1) * columns].chunks_exact_mut(z.k) {
            block[..places].copy_from_slice(&within(rng, places, z.h as i64));
        }
    }
    ss
}

/// Digits within h, most of them 0.
fn sparse_digits(rng: &mut Rng, z: &Shape, length: usize) -> Vec<i64> {
    let mut ss = vec![0; length];
    for _ in 0..1 + below(rng, 4) {
        let at = below(rng, length);
        ss[at] = pick(rng, &[z.h as i64, -(z.h as i64), 1, -1]);
    }
    ss
}

/// Bring the digit at this place to the other side of 0 by b, and make up for it in the next one: the entry stays. The
/// digit itself is then within h where b is even and it was a tie, h or −h, and there alone.
fn move_carry(z: &Shape, ss: &mut [i64], at: usize) {
    let sign = if ss[at] < 0 { -1 } else { 1 };
    ss[at] = ss[at].wrapping_sub(sign * z.b as i64);
    ss[at + 1] = ss[at + 1].wrapping_add(sign);
}

/// Move the carry of a tie in some entry; one that has no tie becomes a tie alone first.
fn move_tie(rng: &mut Rng, z: &Shape, ss: &mut [i64]) {
    let block = below(rng, ss.len() / z.k) * z.k;
    let places = block..block + z.k - 1;
    let ties: Vec<usize> = places.filter(|at| ss[*at].unsigned_abs() == z.h && ss[*at + 1] != ss[*at]).collect();
    let at = if ties.is_empty() { block + below(rng, short_places(z, 1).min(z.k - 1)) } else { pick(rng, &ties) };
    if ties.is_empty() {
        ss[block..block + z.k].fill(0);
        ss[at] = pick(rng, &[z.h as i64, -(z.h as i64)]);
    }
    move_carry(z, ss, at);
}

/// Change a digit witness: a tie, a carry, one digit, an entry's digits, or one beyond h.
fn damage(rng: &mut Rng, z: &Shape, ss: &mut [i64]) {
    let (drawn, block) = (below(rng, ss.len()), below(rng, ss.len() / z.k) * z.k);
    let at = pick(rng, &[0, ss.len() - 1, drawn, drawn]);
    match rng.word() % 12 {
        0..=4 => move_tie(rng, z, ss),
        5 => {
            let place = block + below(rng, z.k - 1);
            move_carry(z, ss, place);
        }
        6 => ss[at] = within(rng, 1, z.h as i64)[0],
        7 => ss[at] = ss[at].wrapping_add(pick(rng, &[1, -1])),
        8 => ss[block..block + z.k].reverse(),
        9 => ss[at] = ss[at].wrapping_neg(),
        10 => ss[at] = beyond(rng, z.h as i64),
        _ => ss[at] = pick(rng, &[i64::MIN, i64::MAX]),
    }
}

/// Any digit witness of the right length: by the rule, of columns at B and just above it, random, or damaged.
pub fn any_digit_witness(rng: &mut Rng, p: &Parameters, profile: Profile) -> Vec<i64> {
    let (z, other) = (shaped(p), second(p, profile));
    let (columns, h) = (profile.columns(&z), z.h as i64);
    let mut ss = match rng.word() % 16 {
        0 => within(rng, z.m * columns, h),
        1 => vec![pick(rng, &[h, -h]); z.m * columns],
        2 | 3 => sparse_digits(rng, &z, z.m * columns),
        4 | 5 => short_digits(rng, &z, columns),
        6 => digits_of(&z, profile, &barely_long_witness(rng, p), &witness(rng, &other)),
        7 => digits_of(&z, profile, &witness(rng, p), &barely_long_witness(rng, &other)),
        _ => digits_of(&z, profile, &witness(rng, p), &witness(rng, &other)),
    };
    for _ in 0..pick(rng, &[0, 0, 0, 1, 1, 2]) {
        damage(rng, &z, &mut ss);
    }
    ss
}

/// An entry of [S1 S2] as a digit witness has it: its digits, their sum by powers of b, and the digits that the rule
/// gives to that sum, where it is a word.
struct Entry {
    digits: Vec<i64>,
    sum: i128,
    rule: Option<Vec<i64>>,
}

impl Entry {
    /// The entry with these digits, whatever they are.
    fn of(z: &Shape, digits: &[i64]) -> Entry {
        let sum = digits.iter().zip(z.powers).map(|(digit, power)| i128::from(*digit) * i128::from(power)).sum();
        let rule = i64::try_from(sum).ok().map(|word| reference::digits::digits(word, z.b, z.k));
        Entry { digits: digits.to_vec(), sum, rule }
    }

    /// Whether the digits are the rule's.
    fn follows_rule(&self) -> bool {
        self.rule.as_ref() == Some(&self.digits)
    }

    /// Whether the digits differ from the rule's in a tie and the digit after it alone.
    fn differs_by_a_tie(&self, z: &Shape) -> bool {
        let Some(rule) = &self.rule else { return false };
        let apart: Vec<usize> = (0..z.k).filter(|at| self.digits[*at] != rule[*at]).collect();
        matches!(apart[..], [at, next] if next == at + 1 && self.digits[at].abs_diff(rule[at]) == z.b)
    }

    /// Whether the entry has this sign and a digit of b/2 with the same.
    fn has_tie(&self, z: &Shape, sign: i64) -> bool {
        self.sum.signum() == i128::from(sign) && self.digits.iter().any(|digit| 2 * sign * digit == z.b as i64)
    }
}

/// The squared length of a column of entries; nothing from 2^128 on.
fn column_length<'a>(column: impl Iterator<Item = &'a Entry>) -> Option<u128> {
    let mut squares = column.map(|entry| entry.sum.unsigned_abs().checked_mul(entry.sum.unsigned_abs()));
    squares.try_fold(0u128, |sum, square| sum.checked_add(square?))
}

/// The places at which something holds.
fn places<E>(entries: &[E], holds: impl Fn(&E) -> bool) -> Vec<usize> {
    (0..entries.len()).filter(|at| holds(&entries[*at])).collect()
}

/// The borders at which a digit witness of the right length stands, and what its answer comes before.
pub fn borders(z: &Shape, profile: Profile, ss: &[i64], answer: Answer) -> Vec<&'static str> {
    let (wide, bound) = (z.t + profile.right(z), u128::from(z.bound));
    let entries: Vec<Entry> = ss.chunks_exact(z.k).map(|digits| Entry::of(z, digits)).collect();
    let lengths: Vec<_> = (0..wide).map(|j| column_length(entries.iter().skip(j).step_by(wide))).collect();
    let beyond = places(ss, |digit| digit.unsigned_abs() > z.h);
    let long = places(&lengths, |length| length.is_none_or(|length| length > bound));
    let other = places(&entries, |entry| !entry.follows_rule());
    let notes: &[(bool, &str)] = match answer {
        Answer::Done => &[
            (lengths.contains(&Some(bound)), "done with a column at B"),
            (entries.iter().any(|entry| entry.has_tie(z, 1)), "done with a tie above 0"),
            (entries.iter().any(|entry| entry.has_tie(z, -1)), "done with a tie below 0"),
        ],
        Answer::Refused(11) => &[
            (!long.is_empty(), "11 before 8"),
            (long.is_empty() && !other.is_empty(), "11 before 16"),
            (beyond.len() == 1 && ss[beyond[0]].unsigned_abs() == z.h + 1, "11 by one"),
            (beyond.iter().all(|at| at / z.k % wide >= z.t), "11 in S2 alone"),
            (beyond == [ss.len() - 1], "11 in the last digit alone"),
            (ss.contains(&i64::MIN), "11 with the least word"),
            (ss.contains(&i64::MAX), "11 with the greatest word"),
        ],
        Answer::Refused(8) => &[
            (!other.is_empty(), "8 before 16"),
            (other.is_empty(), "8 with the rule's digits"),
            (long.iter().all(|j| lengths[*j] == Some(bound + 1)), "8 with B + 1 at most"),
            (long.iter().all(|j| *j >= z.t), "8 in S2 alone"),
        ],
        Answer::Refused(16) => &[
            (other.len() == 1 && entries[other[0]].differs_by_a_tie(z), "16 by one tie"),
            (other.iter().all(|at| at % wide >= z.t), "16 in S2 alone"),
            (other == [entries.len() - 1], "16 in the last entry alone"),
        ],
        _ => &[],
    };
    notes.iter().filter(|(holds, _)| *holds).map(|(_, note)| *note).collect()
}

/// All borders.
pub const BORDERS: [&str; 17] = [
    "done with a column at B", "done with a tie above 0", "done with a tie below 0", "11 before 8", "11 before 16",
    "11 by one", "11 in S2 alone", "11 in the last digit alone", "11 with the least word", "11 with the greatest word",
    "8 before 16", "8 with the rule's digits", "8 with B + 1 at most", "8 in S2 alone", "16 by one tie",
    "16 in S2 alone", "16 in the last entry alone",
];
