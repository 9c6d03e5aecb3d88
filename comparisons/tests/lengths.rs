//! Every slice of every operation with wrong lengths, by one and by much: always 7, and nothing is written.

use comparisons::calls::{Call, Matrix, Operation};
use comparisons::cases::{fitting, lent_slices, other_lengths};
use comparisons::inputs::shaped;
use comparisons::seed::{below, generator};
use comparisons::settings::{accepted_where, FULL};
use comparisons::tally::Tally;
use reference::operations::Answer;
use reference::operations::Profile::{Fresh, General};
use reference::settings::{Parameters, LIST};

/// The work of a case, in products of two entries.
const WORK: u128 = 4_000;

/// Whether a setting is small enough for many cases.
fn small(p: &Parameters) -> bool {
    Operation::Verify(General).work(p) <= WORK
}

/// Ask that the names of all operations occurred, and these words.
fn finish(tally: Tally, words: &[&str]) {
    let names = Operation::ALL.map(Operation::name);
    let names: Vec<&str> = names.iter().map(String::as_str).collect();
    tally.finish(&[&names, words].concat());
}

/// Give the slice at this place another length.
fn change(call: &mut Call, place: usize, other: impl Fn(usize) -> usize) {
    let (slice, around) = &mut lent_slices(call)[place];
    let length = slice.length() - *around;
    slice.resize(other(length) + *around);
}

/// The call with each slice in turn at each wrong length, that of the other profile and that of a square D~ included.
fn each_slice(call: &Call, tally: &mut Tally, case: u64) {
    let profile = call.operation.profile();
    let other = if profile == General { Fresh } else { General };
    for (place, matrix) in [call.operation.reads(), call.operation.writes()].concat().iter().enumerate() {
        let [length, other] = [profile, other].map(|profile| matrix.length(&call.p, profile) as usize);
        let mut lengths = other_lengths(length).to_vec();
        if other != length {
            lengths.push(other);
            tally.note("a length of the other profile");
        }
        if *matrix == Matrix::DigitD {
            lengths.push(profile.columns(&shaped(&call.p)).pow(2));
            tally.note("the length of a square");
        }
        for length in lengths {
            let mut wrong = call.clone();
            change(&mut wrong, place, |_| length);
            assert_eq!(wrong.compare(case), Answer::Refused(7));
            tally.case(&call.operation.name());
        }
    }
}

#[test]
fn wrong_lengths() {
    let (mut rng, mut tally) = (generator("wrong_lengths"), Tally::new("wrong_lengths"));
    for case in 0..300 {
        let p = if case == 0 { LIST[0] } else { accepted_where(&mut rng, FULL, small) };
        for operation in Operation::ALL {
            let call = fitting(&mut rng, operation, p);
            let answer = call.compare(case);
            assert_ne!(answer, Answer::Refused(7));
            if let Answer::Refused(number) = answer {
                tally.note(&format!("7 before {number}"));
            }
            each_slice(&call, &mut tally, case);
        }
    }
    let later = ["7 before 8", "7 before 9", "7 before 10", "7 before 11", "7 before 15", "7 before 16"];
    finish(tally, &[&["a length of the other profile", "the length of a square"], &later[..]].concat());
}

#[test]
fn one_entry_moved() {
    // One slice longer by one, another shorter by one, so that the sum of the lengths is right.
    let (mut rng, mut tally) = (generator("one_entry_moved"), Tally::new("one_entry_moved"));
    for case in 0..9000 {
        let p = accepted_where(&mut rng, FULL, small);
        let operation = Operation::ALL[case as usize % Operation::ALL.len()];
        let mut call = fitting(&mut rng, operation, p);
        let slices = call.read.len() + call.written.slices.len();
        let longer = below(&mut rng, slices);
        let shorter = (longer + 1 + below(&mut rng, slices - 1)) % slices;
        change(&mut call, longer, |length| length + 1);
        change(&mut call, shorter, |length| length - 1);
        assert_eq!(call.compare(case), Answer::Refused(7));
        tally.case(&operation.name());
    }
    finish(tally, &[]);
}
