//! The chain program against the reference's, on random and damaged chain files.

use comparisons::chains::{any, chain, setting};
use comparisons::programs::{self, program};
use comparisons::seed::generator;
use comparisons::tally::Tally;
use reference::chain::run;
use reference::chain_files::all;
use reference::rng::Rng;
use reference::settings::LIST;

/// What occurs beside the endings.
const ALSO: [&str; 3] = ["by pieces", "by pipe", "fold yes"];

/// How a run can end; 15 takes 2^32 leaves.
const ENDS: [&str; 10] = [
    "end member", "refused 1", "refused 2", "refused 3", "refused 4", "refused 5", "refused 6", "refused 8",
    "refused 13", "refused 14",
];

/// The first and last field of the last line: the word, and the refusal or the relation test.
fn ending(output: &str) -> String {
    let line = output.lines().last().unwrap_or_default();
    let fields: Vec<&str> = line.split('\t').collect();
    format!("{} {}", fields[0], fields[fields.len() - 1])
}

/// Compare the program with the reference on an input.
fn compare(input: &[u8], rng: &mut Rng, tally: &mut Tally, place: &str) {
    let expected = String::from_utf8(run(input)).expect("the reference prints text");
    tally.note(programs::compare(&program("foldchain"), input, &expected, rng, place));
    tally.case(&ending(&expected));
    expected.lines().filter(|line| line.starts_with("fold\t")).for_each(|line| {
        tally.note(&format!("fold {}", line.split('\t').nth(2).unwrap_or_default()));
    });
}

/// Half of the random chains. Two tests of one half each run side by side.
fn random(name: &str) {
    let (mut rng, mut tally) = (generator(name), Tally::new(name));
    for case in 0..5000 {
        let input = any(&mut rng);
        compare(&input, &mut rng, &mut tally, &format!("case {case}"));
    }
    tally.finish(&[&ENDS[..], &ALSO].concat());
}

#[test]
fn random_chains() {
    random("random_chains");
}

#[test]
fn more_random_chains() {
    random("more_random_chains");
}

#[test]
fn long_chains() {
    let (mut rng, mut tally) = (generator("long_chains"), Tally::new("long_chains"));
    for (number, folds) in [3000, 500].into_iter().chain([200; 14]).enumerate() {
        let p = if number < 2 { LIST[number] } else { setting(&mut rng) };
        let input = chain(&mut rng, &p, folds).concat();
        compare(&input, &mut rng, &mut tally, &format!("{folds} folds at {p:?}"));
    }
    tally.finish(&[&["end member"], &ALSO[..]].concat());
}

#[test]
fn stored_chains() {
    let (mut rng, mut tally) = (generator("stored_chains"), Tally::new("stored_chains"));
    for file in all() {
        compare(&file.input, &mut rng, &mut tally, &file.name);
    }
    tally.finish(&[&ENDS[..], &ALSO].concat());
}
