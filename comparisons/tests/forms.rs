//! The zeros of quadratic forms, counted by the library and listed by the reference: all small matrices, random ones of
//! up to twelve rows, entries at the ends of their range and past them, and every length with every number of rows.

use comparisons::forms::{alone, large, low_rank, next_to_scaled, scaled, small, sparse, Call, FAR};
use comparisons::seed::{below, generator, pick, seed};
use comparisons::tally::Tally;
use reference::forms::{GREATEST_ENTRY, GREATEST_ROWS};
use reference::matrices::triangle_length;
use reference::rng::Rng;

/// Every number of rows.
const ROWS: std::ops::RangeInclusive<usize> = 1..=GREATEST_ROWS as usize;

/// What a call comes to.
fn outcome(answer: Result<u64, u32>) -> String {
    match answer {
        Ok(1) => "none but 0".to_string(),
        Ok(_) => "others than 0".to_string(),
        Err(number) => format!("refused({number})"),
    }
}

/// The outcomes of calls that are not turned away.
const TAKEN: [&str; 2] = ["none but 0", "others than 0"];

#[test]
fn every_small_matrix() {
    let mut tally = Tally::new("every_small_matrix");
    for n in 1..=3 {
        let places = triangle_length(n) as u32;
        for number in 0..7i64.pow(places) {
            let e = (0..places).map(|at| number / 7i64.pow(at) % 7 - 3).collect();
            tally.case(&outcome(Call::of(n, e).take()));
        }
    }
    tally.finish(&TAKEN);
}

#[test]
fn every_vector_for_zero() {
    let mut tally = Tally::new("every_vector_for_zero");
    for n in ROWS {
        let answer = Call::of(n, vec![0; triangle_length(n)]).take();
        assert_eq!(answer, Ok(3u64.pow(n as u32)));
        tally.case(&outcome(answer));
    }
    tally.finish(&["others than 0"]);
}

/// The kinds of matrices, each with its name.
type Kind = (&'static str, fn(&mut Rng, usize) -> Vec<i64>);
const KINDS: [Kind; 6] = [
    ("small", small), ("sparse", sparse), ("large", large), ("low rank", low_rank), ("scaled", scaled),
    ("next to scaled", next_to_scaled),
];

#[test]
fn random_matrices() {
    // As many of each kind as there is time for: a list has three times the vectors for one row more.
    let (mut rng, mut tally) = (generator("random_matrices"), Tally::new("random_matrices"));
    for n in ROWS {
        let matrices = (1_600_000 / 3usize.pow(n as u32)).clamp(6, 400);
        for (name, kind) in (0..matrices).flat_map(|_| KINDS) {
            let call = Call::of(n, kind(&mut rng, n));
            tally.case(&outcome(call.take()));
            tally.note(name);
        }
    }
    tally.finish(&[&TAKEN[..], &KINDS.map(|(name, _)| name)].concat());
}

/// How many vectors there are where one entry of E is not 0: those with c_i = 0, or with c_i = 0 or c_j = 0.
fn zeros_of_one(n: usize, at: usize) -> u64 {
    let is_diagonal = (0..n).any(|i| at == triangle_length(i) + i);
    if is_diagonal { 3u64.pow(n as u32 - 1) } else { 5 * 3u64.pow(n as u32 - 2) }
}

#[test]
fn one_entry_alone() {
    // The ends of the range and next to 0, in every place. From ten rows on the vectors are not listed.
    let mut tally = Tally::new("one_entry_alone");
    for n in ROWS {
        for at in 0..triangle_length(n) {
            for entry in [GREATEST_ENTRY, -GREATEST_ENTRY, 1, -1] {
                let call = Call::of(n, alone(n, at, entry));
                let answer = if n < 10 { call.take() } else { call.by_library() };
                assert_eq!(answer, Ok(zeros_of_one(n, at)), "{entry} at {at} of {n} rows");
                tally.case(&outcome(answer));
            }
        }
    }
    tally.finish(&TAKEN);
}

#[test]
fn one_entry_out_of_range() {
    let (mut rng, mut tally) = (generator("one_entry_out_of_range"), Tally::new("one_entry_out_of_range"));
    for n in ROWS {
        for number in 0..triangle_length(n) * FAR.len() {
            let (at, entry) = (number / FAR.len(), FAR[number % FAR.len()]);
            for (_, kind) in KINDS {
                let mut e = kind(&mut rng, n);
                e[at] = entry;
                let answer = Call::of(n, e).take();
                assert_eq!(answer, Err(25), "seed {}: {entry} at {at} of {n} rows", seed());
                tally.case(&outcome(answer));
            }
        }
    }
    tally.finish(&["refused(25)"]);
}

/// Numbers of rows: up to two above the greatest, and far ones, of which the low parts of some are within the range.
const AROUND: [u64; 25] = [
    0, 1, 2, 3, 4, 5, 6, 7, 8, 9, 10, 11, 12, 13, 14, 255, 256, 257, 268, 1 << 32, (1 << 32) + 1, (1 << 32) + 12,
    (1 << 63) + 2, u64::MAX - 1, u64::MAX,
];

/// Which of 24, 7 for E, 7 for the count, and 25 apply to a call; without rows no length of E is wrong.
fn reasons(call: &Call) -> String {
    let is_in_range = (1..=GREATEST_ROWS).contains(&call.n);
    let is_other_length = is_in_range && triangle_length(call.n as usize) != call.e.len();
    let is_far = call.e.iter().any(|entry| FAR.contains(entry));
    let holds = [!is_in_range, is_other_length, call.count.len() != 1, is_far];
    let reasons = ["24", "7 for E", "7 for the count", "25"].into_iter().zip(holds);
    reasons.filter(|(_, holds)| *holds).map(|(reason, _)| reason).collect::<Vec<_>>().join(", ")
}

/// What `reasons` says of calls that are turned away.
const REASONS: [&str; 11] = [
    "24", "24, 25", "24, 7 for the count", "24, 7 for the count, 25", "7 for E", "7 for E, 25",
    "7 for E, 7 for the count", "7 for E, 7 for the count, 25", "7 for the count", "7 for the count, 25", "25",
];

/// A call with so many entries and places; one of the entries may be out of range.
fn with_lengths(rng: &mut Rng, n: u64, entries: usize, places: usize, is_far: bool) -> Call {
    let good = [0, 0, 1, -1, GREATEST_ENTRY, -GREATEST_ENTRY];
    let mut e: Vec<i64> = (0..entries).map(|_| pick(rng, &good)).collect();
    if is_far && entries > 0 {
        e[below(rng, entries)] = pick(rng, &FAR);
    }
    Call { n, e, count: (0..places).map(|_| rng.word()).collect() }
}

#[test]
fn rows_and_lengths() {
    let (mut rng, mut tally) = (generator("rows_and_lengths"), Tally::new("rows_and_lengths"));
    for number in 0..AROUND.len() * 101 * 4 * 2 {
        let (n, rest) = (AROUND[number % AROUND.len()], number / AROUND.len());
        let call = with_lengths(&mut rng, n, rest % 101, rest / 101 % 4, rest / 404 == 1);
        match call.take() {
            Ok(_) => tally.case("fits"),
            refused => {
                tally.case(&outcome(refused));
                tally.note(&reasons(&call));
            }
        }
    }
    tally.finish(&[&["fits", "refused(24)", "refused(7)", "refused(25)"], &REASONS[..]].concat());
}
