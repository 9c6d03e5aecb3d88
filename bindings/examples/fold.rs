//! One fold at setting 1 with A = 3: the witnesses 7 and −5 and the specification's challenge.
//! Prints T', D', the number of leaves under them and S'.

use lova::{triangle, Refusal, Setting, Verdict};

/// The challenge 1 1 1 0 0 −1 0 −1 0 0, as bytes.
const C: [u8; 10] = [1, 1, 1, 0, 0, 2, 0, 2, 0, 0];

/// Commit to both witnesses, fold and print.
fn main() -> Result<(), Refusal> {
    let setting = Setting::listed(1)?;
    let (a, s1, s2) = ([3], [7], [-5]);
    let (mut t1, mut d1, mut t2, mut d2) = ([0], [0], [0], [0]);
    let one = lova::commit(setting, &a, &s1, &mut t1, &mut d1)?;
    let two = lova::commit(setting, &a, &s2, &mut t2, &mut d2)?;

    // The prover: N is 10.
    let (mut v, mut tt, mut dd, mut ss) = ([0], [0; 10], [0; triangle(10)], [0; 10]);
    lova::message(setting, &a, &s1, &s2, &mut v, &mut tt, &mut dd, &mut ss)?;
    let mut s = [0];
    lova::fold_witness(setting, &ss, &C, &mut s)?;

    // The verifier.
    let (mut t, mut d) = ([0], [0]);
    let verdict = lova::verify(setting, one, two, &v, &tt, &dd, &C, &mut t, &mut d)?;
    let Verdict::Yes(folded) = verdict else { panic!("the verdict is {verdict:?}") };
    println!("{} {} {} {}", folded.t[0], folded.d[0], folded.leaves, s[0]);
    Ok(())
}
