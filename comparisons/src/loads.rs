//! Random and damaged inputs of the load program.

use crate::chains::*;
use crate::seed::{below, once_in, pick};
use reference::rng::Rng;
use reference::settings::Parameters;

/// Leaf counts at and past the ends of their range.
const COUNTS: [u64; 10] =
    [0, 1, 1000, 1001, 1002, 65537, 1 << 32, (1 << 32) + 1, (1 << 63) + 1, u64::MAX];

/// What may follow the two lines, beside further lines of the input.
const THIRD: [&[u8]; 14] = [
    b"\n", b"\n\n", b"x", b"\0", b" ", b"\t", b"\r\n", b"\xff", b"leaf\t7\n", b"leaf\t7", b"a\t3\n", b"c\t0", b"load\n",
    b"load\t1\t1\n",
];

/// A seed: any, or one at the ends of the word.
fn load_seed(rng: &mut Rng) -> u64 {
    match rng.word() % 4 {
        0 => pick(rng, &[0, 1, 2, 1 << 32, (1 << 63) - 1, 1 << 63, u64::MAX - 1, u64::MAX]),
        _ => rng.word() >> below(rng, 64),
    }
}

/// The two lines that ask for a load with a random seed.
pub fn lines(rng: &mut Rng, p: &Parameters, leaves: u64) -> Vec<Vec<u8>> {
    vec![param(p), line("load", &[leaves, load_seed(rng)])]
}

/// Put something after the two lines: a line or a part of one, or a line of them once more.
fn third_line(rng: &mut Rng, lines: &mut Vec<Vec<u8>>) {
    let mut further = match rng.word() % 4 {
        0 => lines[below(rng, lines.len())].clone(),
        _ => pick(rng, &THIRD).to_vec(),
    };
    if once_in(rng, 8) {
        stretch(rng, &mut further);
    }
    lines.push(further);
}

/// Damage the lines in one way; fewer than two are left as they are.
fn damage(rng: &mut Rng, lines: &mut Vec<Vec<u8>>) {
    lines.retain(|line| !line.is_empty());
    if lines.len() < 2 {
        return;
    }
    let at = below(rng, lines.len());
    match rng.word() % 12 {
        0 | 1 => damage_byte(rng, &mut lines[at]),
        2 => damage_digit(rng, &mut lines[at]),
        3 | 4 => damage_field(rng, &mut lines[at]),
        5 => stretch(rng, &mut lines[at]),
        6 => disorder(rng, lines),
        7 | 8 => damage_setting(rng, lines),
        9 => lines[1] = line("load", &[pick(rng, &COUNTS), load_seed(rng)]),
        _ => third_line(rng, lines),
    }
}

/// Any input of the load program: a third of them good, the others damaged, some in two ways.
pub fn any(rng: &mut Rng) -> Vec<u8> {
    let (p, leaves) = (setting(rng), pick(rng, &[1, 1, 2, 2, 3, 4, 9]));
    let mut lines = lines(rng, &p, leaves);
    for _ in 0..pick(rng, &[0, 0, 1, 1, 1, 2]) {
        damage(rng, &mut lines);
    }
    let mut input = lines.concat();
    if once_in(rng, 12) {
        input.truncate(below(rng, input.len() + 1));
    }
    input
}
