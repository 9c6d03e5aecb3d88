//! Every operation of the static library against the reference, on random and damaged inputs, and each fresh call also
//! against the library's general one.

use comparisons::calls::{Call, Matrix, Operation, Slice};
use comparisons::cases::{any, fitting};
use comparisons::inputs::shaped;
use comparisons::recompositions::{borders, BORDERS};
use comparisons::seed::generator;
use comparisons::settings::{accepted_where, FULL, LARGE};
use comparisons::tally::Tally;
use reference::matrices::squared_length;
use reference::operations::Profile::{self, Fresh, General};
use reference::operations::{Answer, GREATEST_LEAVES};
use reference::settings::{refusal, Parameters};

/// The work of a case, in products of two entries.
const WORK: u128 = 80_000;

/// The work of a large case.
const LARGE_WORK: u128 = 40_000_000;

/// The refusals that every operation has.
const COMMON: [&str; 7] =
    ["refused(1)", "refused(2)", "refused(3)", "refused(4)", "refused(5)", "refused(6)", "refused(7)"];

/// What is counted of fresh calls alone.
fn counted(profile: Profile) -> &'static [&'static str] {
    match profile {
        General => &[],
        Fresh => &["as the general call", "t is 1", "t is above 1", "b is even", "b is odd"],
    }
}

/// Compare this many random calls of an operation, and count what they answer and the borders that they reach.
fn compared(operation: Operation, cases: u64) -> Tally {
    let name = operation.name();
    let (mut rng, mut tally) = (generator(&name), Tally::new(&name));
    for case in 0..cases {
        let call = any(&mut rng, operation, WORK);
        let answer = call.compare(case);
        tally.case(&answer.word());
        if call.compare_repeated(case) {
            tally.note("as the general call");
        }
        if refusal(&call.p) == 0 {
            note_setting(&mut tally, &call);
            note_columns(&mut tally, &call);
            note_diagonals(&mut tally, &call, answer);
            note_symmetry(&mut tally, &call, answer, case);
            note_leaves(&mut tally, &call, answer);
            note_digits(&mut tally, &call, answer);
        }
    }
    tally
}

/// The same; the words are the operation's answers beside the common refusals, and the borders.
fn compare(operation: Operation, cases: u64, words: &[&str]) {
    compared(operation, cases).finish(&[&COMMON, words, counted(operation.profile())].concat());
}

/// Count settings with N = 512, and of fresh calls those with one column and more, and with either kind of base.
fn note_setting(tally: &mut Tally, call: &Call) {
    if call.p.columns() == 512 {
        tally.note("N is 512");
    }
    if call.operation.profile() == Fresh {
        tally.note(if call.p.t == 1 { "t is 1" } else { "t is above 1" });
        tally.note(if call.p.b.is_multiple_of(2) { "b is even" } else { "b is odd" });
    }
}

/// Count commitments to witnesses with a column at B exactly, or one above.
fn note_columns(tally: &mut Tally, call: &Call) {
    let (Operation::Commit(profile), [_, Slice::Numbers(s)]) = (call.operation, &call.read[..]) else { return };
    if s.len() as u128 != Matrix::RightS.length(&call.p, profile) {
        return;
    }
    let (m, columns) = (call.p.m as usize, s.len() / call.p.m as usize);
    let lengths: Vec<Option<u128>> = (0..columns).map(|j| squared_length(s, m, columns, j)).collect();
    for (over, border) in [(0, "a column at B"), (1, "a column at B + 1")] {
        if lengths.contains(&Some(call.p.bound as u128 + over)) {
            tally.note(border);
        }
    }
}

/// Count verdicts on instances whose diagonals lie at B, one above it or below 0, or where D2 alone is long.
fn note_diagonals(tally: &mut Tally, call: &Call, answer: Answer) {
    if !matches!(call.operation, Operation::Verify(_)) || ![Answer::Yes, Answer::Long].contains(&answer) {
        return;
    }
    let [_, Slice::Numbers(d1), _, Slice::Numbers(d2), ..] = &call.read[..] else { return };
    let diagonal = |d: &[i64]| d.iter().step_by(d.len().isqrt() + 1).map(|x| i128::from(*x)).collect::<Vec<_>>();
    let (first, all) = (diagonal(d1), [diagonal(d1), diagonal(d2)].concat());
    let (bound, greatest) = (i128::from(call.p.bound), *all.iter().max().expect("t is not 0"));
    let notes = [
        (answer == Answer::Yes && greatest == bound, "yes with a diagonal entry at B"),
        (answer == Answer::Yes && all.iter().any(|x| *x < 0), "yes with a diagonal entry below 0"),
        (greatest == bound + 1, "long by one"),
        (greatest > bound && first.iter().all(|x| *x <= bound), "long in D2 alone"),
    ];
    notes.iter().filter(|(holds, _)| *holds).for_each(|(_, note)| tally.note(note));
}

/// By how much the entries of a square matrix differ from their mirror images, those that do.
fn skew(d: &[i64]) -> Vec<u64> {
    let side = d.len().isqrt();
    let pairs = (0..side).flat_map(|i| (0..i).map(move |j| (i * side + j, j * side + i)));
    pairs.map(|(one, two)| d[one].abs_diff(d[two])).filter(|by| *by != 0).collect()
}

/// Ask that an instance which is not symmetric is long or norm, and count norms where one entry alone is off, by one.
fn note_symmetry(tally: &mut Tally, call: &Call, answer: Answer, case: u64) {
    if !matches!(call.operation, Operation::Verify(_)) || matches!(answer, Answer::Refused(_)) {
        return;
    }
    let [_, Slice::Numbers(d1), _, Slice::Numbers(d2), ..] = &call.read[..] else { return };
    for (skew, note) in [(skew(d1), "unsymmetric D1"), (skew(d2), "unsymmetric D2")] {
        assert!(skew.is_empty() || [Answer::Long, Answer::Norm].contains(&answer), "{}: {note}", call.place(case));
        if skew == [1] && answer == Answer::Norm {
            tally.note(note);
        }
    }
}

/// Count leaf counts at the borders, and what 15 comes before and after.
fn note_leaves(tally: &mut Tally, call: &Call, answer: Answer) {
    let (Operation::Join(_) | Operation::Verify(_), [one, two]) = (call.operation, call.leaves) else { return };
    let sum = u64::from(one) + u64::from(two);
    let refused = one == 0 || two == 0 || sum > GREATEST_LEAVES;
    let notes = [
        (answer == Answer::Refused(7) && refused, "7 before 15"),
        (answer == Answer::Refused(15) && one == 0 && two > 0, "no leaves in the first"),
        (answer == Answer::Refused(15) && one > 0 && two == 0, "no leaves in the second"),
        (answer == Answer::Refused(15) && sum == GREATEST_LEAVES + 1, "one leaf too many"),
        ([Answer::Done, Answer::Yes].contains(&answer) && sum == GREATEST_LEAVES, "the most leaves"),
    ];
    notes.iter().filter(|(holds, _)| *holds).for_each(|(_, note)| tally.note(note));
    if answer == Answer::Refused(15) {
        let other = Call { leaves: [1, 1], ..call.clone() };
        let otherwise = other.by_reference(&mut other.written.clone());
        tally.note(&format!("15 before {}", otherwise.word()));
    }
}

/// Count recompositions at the borders.
fn note_digits(tally: &mut Tally, call: &Call, answer: Answer) {
    let (Operation::Recompose(profile), [Slice::Numbers(ss)]) = (call.operation, &call.read[..]) else { return };
    if answer != Answer::Refused(7) {
        borders(&shaped(&call.p), profile, ss, answer).iter().for_each(|border| tally.note(border));
    }
}

/// The borders of leaf counts.
const LEAVES: [&str; 6] = [
    "refused(15)", "7 before 15", "no leaves in the first", "no leaves in the second", "one leaf too many",
    "the most leaves",
];

/// Ask that each word occurs more than once in so many cases.
fn assert_frequent<'a>(tally: &Tally, cases: u64, words: impl IntoIterator<Item = (&'a str, u64)>) {
    for (word, share) in words {
        assert!(tally.count(word) > cases / share, "{word}: {} of {cases}", tally.count(word));
    }
}

/// The borders of a commitment.
const COMMITTED: [&str; 5] = ["done", "refused(8)", "N is 512", "a column at B", "a column at B + 1"];

#[test]
fn commit() {
    compare(Operation::Commit(General), 40000, &COMMITTED);
}

#[test]
fn commit_fresh() {
    compare(Operation::Commit(Fresh), 12000, &COMMITTED);
}

#[test]
fn message() {
    compare(Operation::Message(General), 30000, &["done", "refused(8)"]);
}

#[test]
fn message_fresh() {
    compare(Operation::Message(Fresh), 10000, &["done", "refused(8)"]);
}

#[test]
fn fold_witness() {
    compare(Operation::FoldWitness(General), 40000, &["done", "N is 512", "refused(9)", "refused(11)"]);
}

#[test]
fn fold_witness_fresh() {
    compare(Operation::FoldWitness(Fresh), 12000, &["done", "N is 512", "refused(9)", "refused(11)"]);
}

/// Compare recompositions; each answer is to be frequent.
fn compare_recompositions(profile: Profile, cases: u64) {
    let tally = compared(Operation::Recompose(profile), cases);
    let answers = [("done", 8), ("refused(8)", 20), ("refused(11)", 20), ("refused(16)", 40)];
    assert_frequent(&tally, cases, answers);
    tally.finish(&[&COMMON[..], &answers.map(|(word, _)| word), &["N is 512"], &BORDERS, counted(profile)].concat());
}

#[test]
fn recompose() {
    compare_recompositions(General, 16000);
}

#[test]
fn recompose_fresh() {
    compare_recompositions(Fresh, 10000);
}

/// Compare joins; both answers are to be frequent.
fn compare_joins(profile: Profile, cases: u64) {
    let tally = compared(Operation::Join(profile), cases);
    assert_frequent(&tally, cases, [("done", 3), ("refused(15)", 30)]);
    let words = ["done", "N is 512", "15 before done"];
    tally.finish(&[&COMMON[..], &words, &LEAVES, counted(profile)].concat());
}

#[test]
fn join() {
    compare_joins(General, 40000);
}

#[test]
fn join_fresh() {
    compare_joins(Fresh, 12000);
}

/// The instances that can be unsymmetric: a fresh D2 is one entry.
fn unsymmetric(profile: Profile) -> &'static [&'static str] {
    match profile {
        General => &["unsymmetric D1", "unsymmetric D2"],
        Fresh => &["unsymmetric D1"],
    }
}

/// Compare verdicts; each answer is to be frequent, and unsymmetric instances are to occur.
fn compare_verdicts(profile: Profile, cases: u64) {
    let tally = compared(Operation::Verify(profile), cases);
    let answers = [("yes", 5), ("long", 50), ("norm", 50), ("commitment", 50), ("refused(15)", 30)];
    let rare = unsymmetric(profile).iter().map(|word| (*word, 1000));
    assert_frequent(&tally, cases, answers.into_iter().chain(rare));
    let words = ["yes", "long", "norm", "commitment", "refused(9)", "refused(10)"];
    let later = words.map(|word| format!("15 before {word}"));
    let later = later.each_ref().map(String::as_str);
    let borders = [
        "yes with a diagonal entry at B", "yes with a diagonal entry below 0", "long by one", "long in D2 alone",
    ];
    tally.finish(&[&COMMON[..], &words, &LEAVES, &later, &borders, unsymmetric(profile), counted(profile)].concat());
}

#[test]
fn verify() {
    compare_verdicts(General, 50000);
}

#[test]
fn verify_fresh() {
    compare_verdicts(Fresh, 15000);
}

#[test]
fn test_relation() {
    compare(Operation::TestRelation, 40000, &["member", "long", "products", "commitment", "N is 512"]);
}

/// Compare calls of the operations of a profile at large settings, of which so many are drawn.
fn compare_large(name: &str, profile: Profile, drawn: usize) {
    let (mut rng, mut tally) = (generator(name), Tally::new(name));
    let mut settings = LARGE.to_vec();
    let large = |p: &Parameters| (LARGE_WORK / 10..=LARGE_WORK).contains(&Operation::Verify(profile).work(p));
    settings.extend((0..drawn).map(|_| accepted_where(&mut rng, FULL, large)));
    let operations = Operation::ALL.into_iter().filter(|operation| operation.profile() == profile);
    let calls = operations.flat_map(|operation| [operation; 2]).collect::<Vec<Operation>>();
    for (case, p) in settings.into_iter().enumerate() {
        assert_eq!(refusal(&p), 0, "{p:?}");
        for operation in &calls {
            let call = fitting(&mut rng, *operation, p);
            let answer = call.compare(case as u64);
            let taken = matches!(answer, Answer::Done | Answer::Yes | Answer::Member);
            tally.case(if taken { "taken" } else { "other" });
            assert_eq!(call.compare_repeated(case as u64), profile == Fresh);
        }
    }
    tally.finish(&["taken", "other"]);
}

#[test]
fn large_settings() {
    compare_large("large_settings", General, 30);
}

#[test]
fn large_settings_fresh() {
    compare_large("large_settings_fresh", Fresh, 15);
}
