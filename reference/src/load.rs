//! The load program `foldload`: a chain file that anyone can rebuild from a setting, a leaf count and a seed.

use crate::records::*;
use crate::settings::Parameters;

/// The most leaves of a load.
pub const GREATEST_COUNT: u64 = 1000;

/// The draws that follow from a seed.
#[derive(Clone, Debug)]
pub struct Draws {
    state: u64,
}

impl Draws {
    /// The draws from this seed, which is no draw itself.
    pub fn new(seed: u64) -> Draws {
        Draws { state: seed }
    }

    /// The next draw: the new state.
    pub fn draw(&mut self) -> u64 {
        let next = self.state as u128 * 6364136223846793005 + 1442695040888963407;
        self.state = (next % (1 << 64)) as u64;
        self.state
    }

    /// The upper 32 bits of the next draw.
    fn upper(&mut self) -> u64 {
        self.draw() / (1 << 32)
    }

    /// The matrix A: whole draws.
    pub fn matrix(&mut self, p: &Parameters) -> Vec<u64> {
        (0..p.n * p.m).map(|_| self.draw()).collect()
    }

    /// A witness: upper bits modulo 2r + 1, less r.
    pub fn witness(&mut self, p: &Parameters) -> Vec<i64> {
        let r = radius(p.m, p.bound);
        (0..p.m * p.t).map(|_| (self.upper() % (2 * r + 1)) as i64 - r as i64).collect()
    }

    /// The bytes of a challenge: upper bits modulo 3.
    pub fn challenge(&mut self, p: &Parameters) -> Vec<u8> {
        (0..p.columns() * p.t as u128).map(|_| (self.upper() % 3) as u8).collect()
    }
}

/// r, the greatest number with r² × m at most B; m is not 0.
pub fn radius(m: u64, bound: u64) -> u64 {
    (bound / m).isqrt()
}

/// A line of a word and numbers.
fn record<T: ToString>(word: &str, numbers: &[T]) -> Vec<u8> {
    line(&[vec![word.to_string()], texts(numbers)].concat())
}

/// The line of a challenge, in which byte 2 is -1.
fn challenge_record(c: &[u8]) -> Vec<u8> {
    let entries: Vec<i64> = c.iter().map(|byte| [0, 1, -1][*byte as usize]).collect();
    record("c", &entries)
}

/// The chain file of an accepted setting with so many leaves; draws follow the order of its lines.
pub fn chain_file(p: &Parameters, leaves: u64, seed: u64) -> Vec<u8> {
    let mut draws = Draws::new(seed);
    let mut file = record("param", &[p.n, p.m, p.t, p.b, p.bound]);
    file.extend(record("a", &draws.matrix(p)));
    file.extend(record("leaf", &draws.witness(p)));
    for _ in 1..leaves {
        file.extend(record("leaf", &draws.witness(p)));
        file.extend(challenge_record(&draws.challenge(p)));
    }
    file
}

/// The setting of the first line: 13, then 1 to 6, then 14.
fn param(line: &[u8]) -> Result<Parameters, u32> {
    match word_and_fields(line) {
        (b"param", fields) => setting_of(&fields),
        _ => Err(13),
    }
}

/// The leaf count and the seed of the second line, or 13.
fn count_and_seed(line: &[u8]) -> Result<(u64, u64), u32> {
    let (word, fields) = word_and_fields(line);
    let two = numbers(&fields, 2, unsigned)?;
    if word != b"load" || two[0] < 1 || two[0] > GREATEST_COUNT {
        return Err(13);
    }
    Ok((two[0], two[1]))
}

/// The chain file that an input asks for, or the number of the line that is refused and its refusal.
fn asked_for(input: &[u8]) -> Result<Vec<u8>, (u64, u32)> {
    let mut lines = lines(input);
    let mut next = || lines.next().unwrap_or(Err(13));
    let p = next().and_then(param).map_err(|refusal| (1, refusal))?;
    let (leaves, seed) = next().and_then(count_and_seed).map_err(|refusal| (2, refusal))?;
    match lines.next() {
        Some(_) => Err((3, 13)),
        None => Ok(chain_file(&p, leaves, seed)),
    }
}

/// The output of the program for an input: the chain file, or the refusal alone.
pub fn run(input: &[u8]) -> Vec<u8> {
    asked_for(input).unwrap_or_else(|(number, refusal)| refused(number, refusal))
}
