//! Recomposition against the library's own message: what that writes comes back, and at small settings nothing else is
//! taken.

use comparisons::calls::Operation;
use comparisons::inputs::{second, shaped, witness, words};
use comparisons::recompositions::{any_digit_witness, digits_of};
use comparisons::seed::{generator, seed};
use comparisons::settings::{accepted_where, setting, FULL, LARGE};
use comparisons::tally::Tally;
use lova::{Refusal, Setting};
use reference::matrices::{squared_length, triangle_length};
use reference::operations::Profile::{self, Fresh, General};
use reference::rng::Rng;
use reference::settings::{Parameters, LIST};
use std::collections::HashMap;

/// S1 and S2, or the vector in its place.
type Witnesses = (Vec<i64>, Vec<i64>);

/// The setting of the bindings.
fn setting_of(p: &Parameters) -> Setting {
    Setting::unchecked(p.n, p.m, p.t, p.b, p.bound)
}

/// The digit witness that a message writes.
fn sent(p: &Parameters, profile: Profile, a: &[u64], (s1, s2): &Witnesses) -> Result<Vec<i64>, Refusal> {
    let (z, columns) = (shaped(p), profile.columns(&shaped(p)));
    let (mut v, mut tt) = (vec![9; z.t * profile.right(&z)], vec![9; z.n * columns]);
    let (mut dd, mut ss) = (vec![9; triangle_length(columns)], vec![9; z.m * columns]);
    let message = if profile == Fresh { lova::message_fresh } else { lova::message };
    message(setting_of(p), a, s1, s2, &mut v, &mut tt, &mut dd, &mut ss).map(|()| ss)
}

/// The witnesses of a digit witness; a refusal leaves the outputs as they were.
fn recomposed(p: &Parameters, profile: Profile, ss: &[i64]) -> Result<Witnesses, Refusal> {
    let z = shaped(p);
    let (mut s1, mut s2) = (vec![9; z.m * z.t], vec![9; z.m * profile.right(&z)]);
    let recompose = if profile == Fresh { lova::recompose_fresh } else { lova::recompose };
    let answer = recompose(setting_of(p), ss, &mut s1, &mut s2);
    let kept = s1.iter().chain(&s2).all(|entry| *entry == 9);
    assert!(answer.is_ok() || kept, "seed {}: {profile:?} at {p:?}: {answer:?}, and yet an output was written", seed());
    answer.map(|()| (s1, s2))
}

/// Count what is special about a call.
fn note(tally: &mut Tally, p: &Parameters, profile: Profile, (s1, s2): &Witnesses, ss: &[i64]) {
    let (z, h) = (shaped(p), p.h() as i64);
    let at_bound = |s: &[i64], columns: usize| {
        (0..columns).any(|j| squared_length(s, z.m, columns, j) == Some(p.bound.into()))
    };
    let even = p.b.is_multiple_of(2);
    let notes = [
        (true, if p.t == 1 { "t is 1" } else { "t is above 1" }),
        (true, if even { "b is even" } else { "b is odd" }),
        (even && ss.contains(&h) && ss.contains(&-h), "ties of both signs"),
        (at_bound(s1, z.t) || at_bound(s2, profile.right(&z)), "a column at B"),
    ];
    notes.iter().filter(|(holds, _)| *holds).for_each(|(_, note)| tally.note(note));
}

/// What `note` counts.
const NOTES: [&str; 6] = ["t is 1", "t is above 1", "b is even", "b is odd", "ties of both signs", "a column at B"];

/// A message of random witnesses, recomposed.
fn check_back(rng: &mut Rng, tally: &mut Tally, p: &Parameters, profile: Profile) {
    let (a, witnesses) = (words(rng, (p.n * p.m) as usize), (witness(rng, p), witness(rng, &second(p, profile))));
    let ss = sent(p, profile, &a, &witnesses).expect("witnesses within B");
    let back = recomposed(p, profile, &ss);
    assert!(back.as_ref() == Ok(&witnesses), "seed {}: {profile:?} at {p:?}: {:?}", seed(), back.map(|_| "others"));
    tally.case(&format!("{profile:?}"));
    note(tally, p, profile, &witnesses, &ss);
}

#[test]
fn message_and_back() {
    let (mut rng, mut tally) = (generator("message_and_back"), Tally::new("message_and_back"));
    let small = |p: &Parameters| Operation::Message(General).work(p) <= 1_000_000;
    for case in 0..1500 {
        let p = if case < 40 { LIST[case % 4] } else { accepted_where(&mut rng, FULL, small) };
        [General, Fresh].iter().for_each(|profile| check_back(&mut rng, &mut tally, &p, *profile));
    }
    tally.finish(&[&["General", "Fresh"], &NOTES[..]].concat());
}

#[test]
fn message_and_back_at_large_settings() {
    let name = "message_and_back_at_large_settings";
    let (mut rng, mut tally) = (generator(name), Tally::new(name));
    for p in LARGE.iter().flat_map(|p| [p; 3]) {
        [General, Fresh].iter().for_each(|profile| check_back(&mut rng, &mut tally, p, *profile));
    }
    tally.finish(&[&["General", "Fresh"], &NOTES[..]].concat());
}

/// The largest settings: N = 512 with the largest n and t, for an odd base and an even one.
const LARGEST: [Parameters; 2] = [setting(64, 4096, 16, 3, 22876792454961), setting(64, 1024, 16, 2, (1 << 30) - 1)];

/// The rule's digits of a witness and of zeros, with other last digits of the last entry.
fn check_last_digits(rng: &mut Rng, tally: &mut Tally, p: &Parameters, profile: Profile) {
    let (z, h, s1) = (shaped(p), p.h() as i64, witness(rng, p));
    let zeros = vec![0; z.m * profile.right(&z)];
    let ss = digits_of(&z, profile, &s1, &zeros);
    // −h and 1 are the rule's where b is odd. A last digit that is not 0 makes the entry too long.
    let carried = if p.b.is_multiple_of(2) { Some(Refusal::OtherDigits) } else { None };
    for (last, refusal) in [
        ([0, 0, 0], None),
        ([-h, 1, 0], carried),
        ([-h, 1, 1], Some(Refusal::LongColumn)),
        ([0, 0, -1], Some(Refusal::LongColumn)),
        ([-h, 1, -h - 1], Some(Refusal::Digit)),
        ([0, 0, i64::MAX], Some(Refusal::Digit)),
    ] {
        let mut ss = ss.clone();
        let (start, mut s2) = (ss.len() - 3, zeros.clone());
        ss[start..].copy_from_slice(&last);
        s2[zeros.len() - 1] = (last[0] + p.b as i64 * last[1]) * z.powers[z.k - 3] as i64;
        let expected = refusal.map_or_else(|| Ok((s1.clone(), s2)), Err);
        let back = recomposed(p, profile, &ss);
        assert!(back == expected, "seed {}: {profile:?} at {p:?}, {last:?}: {:?}", seed(), back.map(|_| "done"));
        tally.case(&refusal.map_or("done".to_string(), |refusal| format!("{refusal:?}")));
    }
}

#[test]
fn last_digits_at_large_settings() {
    let name = "last_digits_at_large_settings";
    let (mut rng, mut tally) = (generator(name), Tally::new(name));
    for p in LARGE.iter().chain(&LARGEST) {
        [General, Fresh].iter().for_each(|profile| check_last_digits(&mut rng, &mut tally, p, *profile));
    }
    tally.finish(&["done", "Digit", "LongColumn", "OtherDigits"]);
}

#[test]
fn digits_and_back() {
    // Whatever is taken is what a message writes.
    let (mut rng, mut tally) = (generator("digits_and_back"), Tally::new("digits_and_back"));
    let small = |p: &Parameters| Operation::Message(General).work(p) <= 100_000;
    for case in 0..6000 {
        let (p, profile) = (accepted_where(&mut rng, FULL, small), [General, Fresh][case % 2]);
        let ss = any_digit_witness(&mut rng, &p, profile);
        let outcome = recomposed(&p, profile, &ss);
        if let Ok(witnesses) = &outcome {
            let again = sent(&p, profile, &words(&mut rng, (p.n * p.m) as usize), witnesses);
            assert!(again.as_ref() == Ok(&ss), "seed {}, case {case}: {profile:?} at {p:?}: other digits", seed());
            note(&mut tally, &p, profile, witnesses, &ss);
        }
        tally.case(&outcome.map_or_else(|refusal| format!("{refusal:?}"), |_| "done".to_string()));
    }
    tally.finish(&[&["done", "Digit", "LongColumn", "OtherDigits"], &NOTES[..]].concat());
}

/// All rows of so many numbers from −limit to limit.
fn rows(length: u32, limit: i64) -> impl Iterator<Item = Vec<i64>> {
    let values = 2 * limit + 1;
    (0..values.pow(length)).map(move |number| (0..length).map(|at| number / values.pow(at) % values - limit).collect())
}

/// Whether an entry that k digits stand for is too long alone.
fn is_long(p: &Parameters, block: &[i64]) -> bool {
    let entry = block.iter().rev().fold(0, |sum, digit| sum * p.b as i64 + digit);
    entry.unsigned_abs().pow(2) > p.bound
}

/// Ask of all rows of digits within h, at a setting with m = 1, that those which messages of all witnesses write are
/// taken, with these witnesses, and no others.
fn check_rows(tally: &mut Tally, p: &Parameters, profile: Profile) {
    let (t, wide) = (p.t as usize, p.t as usize + profile.right(&shaped(p)));
    let mut written = HashMap::new();
    for entries in rows(wide as u32, p.bound.isqrt() as i64) {
        let witnesses = (entries[..t].to_vec(), entries[t..].to_vec());
        let ss = sent(p, profile, &vec![3; p.n as usize], &witnesses).expect("witnesses within B");
        assert_eq!(written.insert(ss, witnesses), None, "two witnesses have one message: {p:?}");
    }
    let k = p.k() as usize;
    for ss in rows((wide * k) as u32, p.h() as i64) {
        let long = ss.chunks_exact(k).any(|block| is_long(p, block));
        let refusal = if long { Refusal::LongColumn } else { Refusal::OtherDigits };
        let expected = written.get(&ss).cloned().ok_or(refusal);
        assert_eq!(recomposed(p, profile, &ss), expected, "{profile:?} at {p:?}: {ss:?}");
        tally.case(&expected.map_or_else(|refusal| format!("{refusal:?}"), |_| "done".to_string()));
    }
}

/// All rows at these settings, of which so many are taken.
fn check_settings(name: &str, settings: &[(Parameters, Profile)], done: u64, refusals: &[&str]) {
    let mut tally = Tally::new(name);
    settings.iter().for_each(|(p, profile)| check_rows(&mut tally, p, *profile));
    assert_eq!(tally.count("done"), done);
    tally.finish(&[&["done"], refusals].concat());
}

#[test]
fn every_row_of_digits() {
    // 21 witnesses.
    let settings = [(LIST[0], General), (LIST[0], Fresh)];
    check_settings("every_row_of_digits", &settings, 2 * 21 * 21, &["LongColumn", "OtherDigits"]);
}

#[test]
fn every_row_of_digits_with_ties() {
    // b = 4, k = 4, 33 witnesses: the digits 2 and −2 are ties.
    let settings = [(setting(1, 1, 1, 4, 256), General)];
    check_settings("every_row_of_digits_with_ties", &settings, 33 * 33, &["LongColumn", "OtherDigits"]);
}

#[test]
fn every_row_of_digits_at_an_odd_base() {
    // No two rows within h stand for one entry. b = 3: k = 3 with 13 witnesses; t = 2 and k = 4 with 33.
    let settings = [(setting(1, 1, 1, 3, 36), General), (setting(1, 1, 2, 3, 256), Fresh)];
    check_settings("every_row_of_digits_at_an_odd_base", &settings, 13 * 13 + 33 * 33 * 33, &["LongColumn"]);
}
