//! The load program as one writes it in Rust: standard input is read whole, and each number goes by `write!` into a
//! buffered standard output. It takes good inputs alone.

use std::fmt::Display;
use std::io::{self, BufWriter, Write};

/// The state of the draws.
struct Draws(u64);

impl Draws {
    /// The next draw: the new state.
    fn draw(&mut self) -> u64 {
        self.0 = self.0.wrapping_mul(6364136223846793005).wrapping_add(1442695040888963407);
        self.0
    }

    /// The upper 32 bits of the next draw.
    fn upper(&mut self) -> u64 {
        self.draw() >> 32
    }
}

/// The numbers after the word of a line.
fn numbers<const COUNT: usize>(line: Option<&str>, word: &str) -> Option<[u64; COUNT]> {
    let mut fields = line?.split('\t');
    if fields.next() != Some(word) {
        return None;
    }
    let numbers: Vec<u64> = fields.map(|field| field.parse().ok()).collect::<Option<_>>()?;
    numbers.try_into().ok()
}

/// Digits of an entry: L + 2 for the greatest L with b^(2L) at most B.
fn digits(b: u64, bound: u64) -> u64 {
    let square = u128::from(b) * u128::from(b);
    let powers = std::iter::successors(Some(square), |power| Some(power * square));
    powers.take_while(|power| *power <= u128::from(bound)).count() as u64 + 2
}

/// Write a line of a word and so many entries.
fn line<T: Display>(out: &mut impl Write, word: &str, count: u64, mut entry: impl FnMut() -> T) -> io::Result<()> {
    write!(out, "{word}")?;
    for _ in 0..count {
        write!(out, "\t{}", entry())?;
    }
    writeln!(out)
}

fn main() -> io::Result<()> {
    let input = io::read_to_string(io::stdin())?;
    let mut lines = input.lines();
    let [n, m, t, b, bound] = numbers(lines.next(), "param").expect("a good setting");
    let [leaves, seed] = numbers(lines.next(), "load").expect("a leaf count and a seed");
    let r = (bound / m).isqrt();
    let columns = 2 * digits(b, bound) * t;
    let mut draws = Draws(seed);
    let mut out = BufWriter::new(io::stdout().lock());
    writeln!(out, "param\t{n}\t{m}\t{t}\t{b}\t{bound}")?;
    line(&mut out, "a", n * m, || draws.draw())?;
    for leaf in 0..leaves {
        line(&mut out, "leaf", m * t, || (draws.upper() % (2 * r + 1)) as i64 - r as i64)?;
        if leaf > 0 {
            line(&mut out, "c", columns * t, || [0, 1, -1][(draws.upper() % 3) as usize])?;
        }
    }
    out.flush()
}
