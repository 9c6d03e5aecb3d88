//! Random and damaged chain files.

use crate::inputs::{challenge, long_witness, witness, words};
use crate::seed::{below, once_in, pick};
use crate::settings::{accepted, accepted_where, bordering_evenly, CHAIN, FULL};
use reference::rng::Rng;
use reference::settings::{refusal, Parameters};

/// Numerals that are bad in every record or in some, and good ones at the ends of the types.
const NUMERALS: [&str; 20] = [
    "", "-", "+1", "01", "-0", "00", "-01", " 1", "1 ", "1e1", "0x1", "1\r", "2", "-2",
    "18446744073709551615", "18446744073709551616", "9223372036854775807", "9223372036854775808",
    "-9223372036854775808", "-9223372036854775809",
];

/// A random setting that the programs take.
pub fn setting(rng: &mut Rng) -> Parameters {
    accepted_where(rng, CHAIN, |p| p.k() <= 8)
}

/// An accepted setting that is past one limit of the programs alone, by one.
fn just_too_large(rng: &mut Rng) -> Parameters {
    loop {
        let mut p = setting(rng);
        match rng.word() % 4 {
            0 => p.n = 9,
            1 => p.m = 17,
            2 => p.t = 3,
            // The least B with nine digits.
            _ => p.bound = p.b.saturating_pow(14),
        }
        if refusal(&p) == 0 {
            return p;
        }
    }
}

/// A line of a word and numbers, with its line feed.
pub(crate) fn line<T: ToString>(word: &str, numbers: &[T]) -> Vec<u8> {
    let fields: Vec<String> = numbers.iter().map(T::to_string).collect();
    format!("{word}\t{}\n", fields.join("\t")).into_bytes()
}

/// The line of a setting.
pub(crate) fn param(p: &Parameters) -> Vec<u8> {
    line("param", &[p.n, p.m, p.t, p.b, p.bound])
}

/// The lines of a good chain.
pub fn chain(rng: &mut Rng, p: &Parameters, folds: usize) -> Vec<Vec<u8>> {
    let mut lines = vec![param(p), line("a", &words(rng, (p.n * p.m) as usize))];
    for number in 0..=folds {
        lines.push(line("leaf", &witness(rng, p)));
        if number > 0 {
            let c = challenge(rng, (p.columns() * p.t as u128) as usize);
            let entries: Vec<i64> = c.iter().map(|byte| [0, 1, -1][*byte as usize]).collect();
            lines.push(line("c", &entries));
        }
    }
    lines
}

/// Replace, take out or put in a byte.
pub(crate) fn damage_byte(rng: &mut Rng, line: &mut Vec<u8>) {
    let at = below(rng, line.len());
    let byte = if once_in(rng, 3) { rng.word() as u8 } else { pick(rng, b"\t\n-019 alc\r\0") };
    match rng.word() % 3 {
        0 => drop(line.remove(at)),
        1 => line.insert(at, byte),
        _ => line[at] = byte,
    }
}

/// Replace a digit by any digit; the line often stays good and says something else.
pub(crate) fn damage_digit(rng: &mut Rng, line: &mut [u8]) {
    let digits: Vec<&mut u8> = line.iter_mut().filter(|byte| byte.is_ascii_digit()).collect();
    let place = below(rng, digits.len().max(1));
    if let Some(digit) = digits.into_iter().nth(place) {
        *digit = b'0' + below(rng, 10) as u8;
    }
}

/// Replace a field, the word included, take one out or put one in.
pub(crate) fn damage_field(rng: &mut Rng, line: &mut Vec<u8>) {
    let text = String::from_utf8_lossy(line).trim_end_matches('\n').to_string();
    let mut fields: Vec<&str> = text.split('\t').collect();
    let at = below(rng, fields.len());
    match rng.word() % 6 {
        0 => drop(fields.remove(at)),
        1 => fields.insert(at, pick(rng, &NUMERALS)),
        2 => fields[0] = pick(rng, &["param", "a", "leaf", "c", "load", "Leaf", "leafs", ""]),
        _ => fields[at] = pick(rng, &NUMERALS),
    }
    *line = format!("{}\n", fields.join("\t")).into_bytes();
}

/// Bring a line to a length at the limit of 4096 bytes, or past it, with zeros or further fields.
pub(crate) fn stretch(rng: &mut Rng, line: &mut Vec<u8>) {
    let length = pick(rng, &[4095, 4096, 4097, 5000, 10000, 70000]);
    let filler = pick(rng, &[&b"0"[..], b"\t1", b"x"]);
    line.pop();
    while line.len() + 1 < length {
        line.extend_from_slice(filler);
    }
    line.truncate(length - 1);
    line.push(b'\n');
}

/// Lines that are good nowhere.
const STRAY: [&[u8]; 7] = [b"\n", b"\t\n", b" \n", b"\r\n", b"leaf\n", b"end\n", b"# c\n"];

/// Take out a line, double one, put in a stray one at any place or swap two.
pub(crate) fn disorder(rng: &mut Rng, lines: &mut Vec<Vec<u8>>) {
    let (one, two) = (below(rng, lines.len()), below(rng, lines.len()));
    match rng.word() % 4 {
        0 => drop(lines.remove(one)),
        1 => lines.insert(one, lines[one].clone()),
        2 => lines.insert(pick(rng, &[one, lines.len()]), pick(rng, &STRAY).to_vec()),
        _ => lines.swap(one, two),
    }
}

/// Replace the first line by a setting at some border, or by an accepted one of any size.
pub(crate) fn damage_setting(rng: &mut Rng, lines: &mut [Vec<u8>]) {
    lines[0] = match rng.word() % 4 {
        0 => param(&accepted(rng, FULL)),
        1 => param(&just_too_large(rng)),
        _ => param(&bordering_evenly(rng)),
    };
}

/// Put a witness that is too long in the place of a leaf.
fn lengthen(rng: &mut Rng, p: &Parameters, lines: &mut [Vec<u8>]) {
    let leaves: Vec<usize> = (0..lines.len()).filter(|at| lines[*at].starts_with(b"leaf")).collect();
    lines[pick(rng, &leaves)] = line("leaf", &long_witness(rng, p));
}

/// Any input of the chain program: a third of them good, the others damaged.
pub fn any(rng: &mut Rng) -> Vec<u8> {
    let p = setting(rng);
    let folds = pick(rng, &[0, 1, 2, 3, 8]);
    let mut lines = chain(rng, &p, folds);
    let at = below(rng, lines.len());
    match rng.word() % 16 {
        0 | 1 => damage_byte(rng, &mut lines[at]),
        2 => damage_digit(rng, &mut lines[at]),
        3 | 4 => damage_field(rng, &mut lines[at]),
        5 => stretch(rng, &mut lines[at]),
        6 => disorder(rng, &mut lines),
        7 => lengthen(rng, &p, &mut lines),
        8..=10 => damage_setting(rng, &mut lines),
        _ => {}
    }
    let mut input = lines.concat();
    if once_in(rng, 12) {
        input.truncate(below(rng, input.len() + 1));
    }
    input
}
