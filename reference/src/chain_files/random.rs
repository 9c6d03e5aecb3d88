//! Random chains: whole ones, ones that are refused late, and ones with one damaged byte.

use super::parts::line_of;
use crate::rng::Rng;
use crate::settings::{Parameters, LIST};
use crate::stored::{file_of, StoredFile};

/// The seed of all random chains; each group of files adds its own number.
const SEED: u64 = 20260201;

/// The shape of a challenge.
#[derive(Clone, Copy)]
enum Shape {
    Zeros,
    Ones,
    MinusOnes,
    Sparse,
    Mixed,
}

/// The shape of a witness.
#[derive(Clone, Copy)]
enum Leaf {
    Zero,
    Small,
    Border,
    Mixed,
}

/// A setting from its five numbers.
const fn setting(n: u64, m: u64, t: u64, b: u64, bound: u64) -> Parameters {
    Parameters { n, m, t, b, bound }
}

/// Names with a setting and a number of folds.
const LONG: [(&str, Parameters, usize); 10] = [
    ("random_setting_1_600_folds", LIST[0], 600),
    ("random_setting_2_250_folds", LIST[1], 250),
    ("random_largest_shape_60_folds", setting(8, 16, 2, 32, 1048576), 60),
    ("random_largest_shape_and_k_8_60_folds", setting(8, 16, 2, 3, 4782968), 60),
    ("random_largest_bound_k_8_60_folds", setting(2, 2, 2, 15, 29192926025390624), 60),
    ("random_largest_b_k_3_60_folds", setting(3, 1, 2, 1625, 6972900390624), 60),
    ("random_b_2_k_8_t_2_50_folds", setting(1, 15, 2, 2, 16383), 50),
    ("random_growth_just_holds_b_10_80_folds", setting(3, 5, 2, 10, 32000), 80),
    ("random_growth_just_holds_b_3_100_folds", setting(1, 1, 1, 3, 36), 100),
    ("random_b_7_m_3_80_folds", setting(4, 3, 1, 7, 90000), 80),
];

/// A challenge entry that is not 0 stands at every this many places of a sparse challenge, on average.
const SPARSE: u64 = 8;

/// A random shape of challenge; mixed ones are most frequent.
fn any_shape(rng: &mut Rng) -> Shape {
    match rng.word() % 8 {
        0 => Shape::Zeros,
        1 => Shape::Ones,
        2 => Shape::MinusOnes,
        3 => Shape::Sparse,
        _ => Shape::Mixed,
    }
}

/// A random shape of witness.
fn any_leaf(rng: &mut Rng) -> Leaf {
    match rng.word() % 8 {
        0 => Leaf::Zero,
        1 => Leaf::Small,
        2 | 3 => Leaf::Border,
        _ => Leaf::Mixed,
    }
}

/// The entries of a challenge.
fn challenge(rng: &mut Rng, p: &Parameters, shape: Shape) -> Vec<i64> {
    let length = p.columns() as usize * p.t as usize;
    let mut entry = || match shape {
        Shape::Zeros => 0,
        Shape::Ones => 1,
        Shape::MinusOnes => -1,
        Shape::Sparse if !rng.word().is_multiple_of(SPARSE) => 0,
        Shape::Sparse => [1, -1][rng.word() as usize % 2],
        Shape::Mixed => [0, 1, -1][rng.word() as usize % 3],
    };
    (0..length).map(|_| entry()).collect()
}

/// A witness whose columns take as much of B as they can, row after row from a random one.
fn border_witness(rng: &mut Rng, p: &Parameters) -> Vec<i64> {
    let (m, t) = (p.m as usize, p.t as usize);
    let mut s = vec![0; m * t];
    for j in 0..t {
        let mut left = p.bound;
        let first = rng.word() as usize % m;
        for i in (0..m).map(|i| (first + i) % m) {
            let size = left.isqrt();
            left -= size * size;
            s[i * t + j] = if rng.word().is_multiple_of(2) { size as i64 } else { -(size as i64) };
        }
    }
    s
}

/// The entries of a witness within B.
fn witness(rng: &mut Rng, p: &Parameters, leaf: Leaf) -> Vec<i64> {
    let (m, t) = (p.m as usize, p.t as usize);
    match leaf {
        Leaf::Zero => vec![0; m * t],
        // The columns have at most m as their squared length, and growth makes B no less.
        Leaf::Small => (0..m * t).map(|_| rng.between(-1, 1) as i64).collect(),
        Leaf::Border => border_witness(rng, p),
        Leaf::Mixed => rng.witness(m, t, p.bound),
    }
}

/// The matrix A, often with entries near the ends of the word.
fn matrix(rng: &mut Rng, p: &Parameters) -> Vec<u64> {
    let mut entry = || match rng.word() % 4 {
        0 => rng.word() % 16,
        1 => u64::MAX - rng.word() % 16,
        _ => rng.word(),
    };
    (0..p.n * p.m).map(|_| entry()).collect()
}

/// The lines of a random chain; a shape that is given holds for all its challenges.
fn chain(rng: &mut Rng, p: &Parameters, folds: usize, shape: Option<Shape>) -> Vec<String> {
    let mut lines = vec![line_of("param", &[p.n, p.m, p.t, p.b, p.bound]), line_of("a", &matrix(rng, p))];
    for number in 0..=folds {
        let leaf = any_leaf(rng);
        lines.push(line_of("leaf", &witness(rng, p, leaf)));
        if number > 0 {
            let shape = shape.unwrap_or_else(|| any_shape(rng));
            lines.push(line_of("c", &challenge(rng, p, shape)));
        }
    }
    lines
}

/// Long random chains.
pub fn long_chains() -> Vec<StoredFile> {
    let mut rng = Rng::new(SEED + 1);
    let file = |(name, p, folds): &(&str, Parameters, usize)| {
        StoredFile::new(*name, file_of(&chain(&mut rng, p, *folds, None)))
    };
    LONG.iter().map(file).collect()
}

/// Short random chains at the largest shape, all challenges of one shape.
pub fn shaped_chains() -> Vec<StoredFile> {
    let mut rng = Rng::new(SEED + 2);
    let shapes = [
        ("zeros", Shape::Zeros),
        ("ones", Shape::Ones),
        ("minus_ones", Shape::MinusOnes),
        ("sparse", Shape::Sparse),
    ];
    let file = |(label, shape): &(&str, Shape)| {
        let lines = chain(&mut rng, &setting(8, 16, 2, 3, 4782968), 6, Some(*shape));
        StoredFile::new(format!("random_all_challenges_{label}"), file_of(&lines))
    };
    shapes.iter().map(file).collect()
}

/// Random chains that are refused after many folds; good lines follow the bad one.
pub fn refused_late() -> Vec<StoredFile> {
    let mut rng = Rng::new(SEED + 3);
    // The leaf after fold f stands in line 4 + 2f, the challenge of fold f in line 3 + 2f.
    let places = [
        ("leaf_too_long_after_40_folds_8", LIST[0], 84, "leaf\t11"),
        ("leaf_bad_after_40_folds_13", LIST[0], 84, "leaf\t1e1"),
        ("c_bad_after_40_folds_13", LIST[0], 85, "c\t1\t1\t1\t1\t1\t1\t1\t1\t1\t3"),
        ("leaf_where_c_is_due_after_30_folds_13", LIST[1], 65, "leaf\t1"),
    ];
    let file = |(name, p, number, line): &(&str, Parameters, usize, &str)| {
        let mut lines = chain(&mut rng, p, 60, None);
        lines[number - 1] = line.to_string();
        StoredFile::new(*name, file_of(&lines))
    };
    places.iter().map(file).collect()
}

/// Replace, take out or put in one byte at a random place; the new byte is often one with a meaning.
fn damage_byte(rng: &mut Rng, input: &mut Vec<u8>) {
    let at = rng.word() as usize % input.len();
    let telling = b"\t\n-019 alc\r";
    let byte = match rng.word() % 3 {
        0 => rng.word() as u8,
        _ => telling[rng.word() as usize % telling.len()],
    };
    match rng.word() % 4 {
        0 => drop(input.remove(at)),
        1 => input.insert(at, byte),
        _ if input[at] == byte => input[at] ^= 1,
        _ => input[at] = byte,
    }
}

/// Replace one digit by another one; the line often stays good and says something else.
fn damage_digit(rng: &mut Rng, input: &mut [u8]) {
    let places: Vec<usize> = (0..input.len()).filter(|at| input[*at].is_ascii_digit()).collect();
    let at = places[rng.word() as usize % places.len()];
    let further = 1 + (rng.word() % 9) as u8;
    input[at] = b'0' + (input[at] - b'0' + further) % 10;
}

/// Short random chains with one damaged byte: any byte in those from a to j, a digit in those from k to t.
pub fn damaged_chains() -> Vec<StoredFile> {
    let mut rng = Rng::new(SEED + 4);
    let settings = [LIST[0], setting(2, 2, 1, 3, 72), LIST[1], setting(1, 1, 2, 3, 300)];
    let mut file = |(i, letter): (usize, char)| {
        let mut input = file_of(&chain(&mut rng, &settings[i % 4], 3, None));
        if i < 10 {
            damage_byte(&mut rng, &mut input);
        } else {
            damage_digit(&mut rng, &mut input);
        }
        StoredFile::new(format!("random_damaged_{letter}"), input)
    };
    ('a'..='t').enumerate().map(&mut file).collect()
}
