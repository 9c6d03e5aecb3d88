//! The setting record and the house list.

use comparisons::seed::{generator, once_in, pick, seed};
use comparisons::settings::bordering;
use comparisons::tally::Tally;
use lova::{write_listed, write_record, Setting, RECORD};
use reference::rng::Rng;
use reference::settings::{listed, refusal, Parameters, LIST};

/// Lengths that a record, or a row of the list, has not.
const LENGTHS: [usize; 9] = [0, 1, 4, 6, 33, 34, 36, 70, 1000];

/// The name of an outcome, 0 for done.
fn outcome(number: u32) -> String {
    if number == 0 { "done".to_string() } else { format!("refused({number})") }
}

/// What the record of a setting must be: the refusal, or k, N and the powers.
fn expected_record(p: &Parameters, length: usize) -> Result<Vec<u64>, u32> {
    match refusal(p) {
        0 if length != RECORD => Err(7),
        0 => Ok([&[p.k(), p.columns() as u64], &p.powers()[..]].concat()),
        number => Err(number),
    }
}

/// Compare what was written over noise, or the refusal that left the noise alone.
fn compare(got: (lova::Answer, Vec<u64>), noise: Vec<u64>, expected: Result<Vec<u64>, u32>, place: &str) -> u32 {
    let number = got.0.map_or_else(|refusal| refusal.number().into(), |()| 0);
    assert_eq!(number, expected.as_ref().err().copied().unwrap_or(0), "seed {}: {place}", seed());
    assert_eq!(got.1, expected.unwrap_or(noise), "seed {}: {place}", seed());
    number
}

/// A length that is right in most draws.
fn length(rng: &mut Rng, right: usize) -> usize {
    if once_in(rng, 8) { pick(rng, &LENGTHS) } else { right }
}

/// Noise of some length.
fn noise(rng: &mut Rng, length: usize) -> Vec<u64> {
    (0..length).map(|_| rng.word()).collect()
}

#[test]
fn records() {
    let mut rng = generator("records");
    let mut tally = Tally::new("records");
    for _ in 0..60000 {
        let p = bordering(&mut rng);
        let length = length(&mut rng, RECORD);
        let noise = noise(&mut rng, length);
        let mut record = noise.clone();
        let setting = Setting::unchecked(p.n, p.m, p.t, p.b, p.bound);
        let answer = write_record(setting, &mut record);
        let number = compare((answer, record), noise, expected_record(&p, length), &format!("{p:?}"));
        let checked = Setting::new(p.n, p.m, p.t, p.b, p.bound).map_err(|refused| refused.number().into());
        assert_eq!(checked, if refusal(&p) == 0 { Ok(setting) } else { Err(refusal(&p)) }, "seed {}: {p:?}", seed());
        tally.case(&outcome(number));
        if refusal(&p) == 0 {
            note_borders(&mut tally, &p);
        }
    }
    tally.finish(&[
        "done", "refused(1)", "refused(2)", "refused(3)", "refused(4)", "refused(5)", "refused(6)", "refused(7)",
        "N is 512", "B is the growth", "m is the greatest for the width", "B is an even power of b",
    ]);
}

/// Count the borders at which an accepted setting stands.
fn note_borders(tally: &mut Tally, p: &Parameters) {
    let holds = [
        ("N is 512", p.columns() == 512),
        ("B is the growth", p.growth() == Some(p.bound as u128)),
        ("m is the greatest for the width", refusal(&Parameters { m: p.m + 1, ..*p }) == 6),
        ("B is an even power of b", p.bound == p.b.pow(p.k() as u32 - 2).pow(2)),
    ];
    holds.iter().filter(|(_, at)| *at).for_each(|(border, _)| tally.note(border));
}

#[test]
fn house_list() {
    let mut rng = generator("house_list");
    let mut tally = Tally::new("house_list");
    for case in 0..2000 {
        let drawn = pick(&mut rng, &[0, 1, 2, 3, 4, 5, 255, 256, 257, 1 << 32, (1 << 32) + 1, 1 << 63, u64::MAX]);
        let number = if case < 10 { case } else { drawn };
        let length = if case < 10 { 5 } else { length(&mut rng, 5) };
        let noise = noise(&mut rng, length);
        let mut five = noise.clone();
        let answer = write_listed(number, &mut five);
        let expected = match listed(number) {
            Ok(_) if length != 5 => Err(7),
            Ok(p) => Ok(vec![p.n, p.m, p.t, p.b, p.bound]),
            Err(number) => Err(number),
        };
        tally.case(&outcome(compare((answer, five), noise, expected, &format!("row {number}"))));
    }
    for (row, p) in LIST.iter().enumerate() {
        let setting = Setting::listed(row as u64 + 1).expect("a row of the list");
        assert_eq!(Ok(setting), Setting::new(p.n, p.m, p.t, p.b, p.bound));
        let record = setting.record().expect("an accepted setting");
        assert_eq!((record.k, record.columns as u128, record.powers), (p.k(), p.columns(), p.powers()));
    }
    tally.finish(&["done", "refused(7)", "refused(12)"]);
}
