//! What several tests share.
#![allow(dead_code)]

use reference::operations::Instance;
use reference::rng::Rng;
use reference::settings::{refusal, Parameters};
use reference::stored::StoredFile;
use reference::tree::{Node, Tree};

/// A setting from its five numbers.
pub fn setting(n: u64, m: u64, t: u64, b: u64, bound: u64) -> Parameters {
    Parameters { n, m, t, b, bound }
}

/// The refusal of the five numbers.
pub fn refused(n: u64, m: u64, t: u64, b: u64, bound: u64) -> u32 {
    refusal(&setting(n, m, t, b, bound))
}

/// A random accepted setting with small sizes and at most the given N.
pub fn random_setting(rng: &mut Rng, greatest_columns: u128) -> Parameters {
    loop {
        let top = rng.between(2, 62) as u32;
        let p = setting(
            rng.between(1, 6) as u64,
            rng.between(1, 8) as u64,
            rng.between(1, 4) as u64,
            if rng.word() % 2 == 0 { rng.between(2, 12) } else { rng.between(2, 1700) } as u64,
            (1u64 << top) - rng.between(0, (1 << (top - 1)) - 1) as u64,
        );
        if refusal(&p) == 0 && p.columns() <= greatest_columns {
            return p;
        }
    }
}

/// A random matrix A; often with entries near the ends of the word.
pub fn random_matrix(rng: &mut Rng, p: &Parameters) -> Vec<u64> {
    let mut entry = |_| match rng.word() % 4 {
        0 => rng.word() % 16,
        1 => u64::MAX - rng.word() % 16,
        _ => rng.word(),
    };
    (0..p.n * p.m).map(&mut entry).collect()
}

/// A random challenge: mixed, or all of one byte.
pub fn random_challenge(rng: &mut Rng, p: &Parameters) -> Vec<u8> {
    let length = (p.columns() * p.t as u128) as usize;
    match rng.word() % 6 {
        0 => vec![(rng.word() % 3) as u8; length],
        _ => rng.challenge(length),
    }
}

/// A random tree with the given number of leaves, all within B; of the leaves that are right children about half are
/// fresh.
pub fn random_tree(rng: &mut Rng, p: &Parameters, leaves: usize) -> Tree {
    if leaves <= 1 {
        return Tree::Leaf(rng.witness(p.m as usize, p.t as usize, p.bound));
    }
    let left = rng.between(1, leaves as i128 - 1) as usize;
    let one = Box::new(random_tree(rng, p, left));
    if leaves - left == 1 && rng.word().is_multiple_of(2) {
        return Tree::FoldFresh(one, rng.witness(p.m as usize, 1, p.bound), random_challenge(rng, p));
    }
    let two = Box::new(random_tree(rng, p, leaves - left));
    Tree::Fold(one, two, random_challenge(rng, p))
}

/// An instance with one leaf.
pub fn instance<'a>(t: &'a [u64], d: &'a [i64]) -> Instance<'a> {
    Instance { t, d, leaves: 1 }
}

/// The whole number of a byte of C.
pub fn value(byte: u8) -> i128 {
    match byte {
        0 => 0,
        1 => 1,
        2 => -1,
        other => panic!("no value for byte {other}"),
    }
}

/// Entry (i, j) of joined D, said by cases.
pub fn joined_entry(t: usize, left: &Node, right: &Node, v: &[i64], i: usize, j: usize) -> i128 {
    let word = match (i < t, j < t) {
        (true, true) => left.d[i * t + j],
        (true, false) => v[i * t + j - t],
        (false, true) => v[j * t + i - t],
        (false, false) => right.d[(i - t) * t + j - t],
    };
    word as i128
}

/// Where entry (i, j) of a symmetric matrix stands in its lower triangle by rows, said by cases.
pub fn place(i: usize, j: usize) -> usize {
    if j <= i { i * (i + 1) / 2 + j } else { j * (j + 1) / 2 + i }
}

/// The answer that the diagonals and the two equations call for, worked out entry by entry; D~ is a triangle.
pub fn by_entries(p: &Parameters, left: &Node, right: &Node, v: &[i64], tt: &[u64], dd: &[i64]) -> &'static str {
    let (n, t, k) = (p.n as usize, p.t as usize, p.k() as usize);
    let columns = 2 * k * t;
    if (0..2 * t).any(|i| joined_entry(t, left, right, v, i, i) > p.bound as i128) {
        return "long";
    }
    for i in 0..2 * t {
        for j in 0..2 * t {
            let mut sum = 0i128;
            for e in 0..k {
                for f in 0..k {
                    let power = (p.b as i128).pow((e + f) as u32);
                    sum += power * dd[place(i * k + e, j * k + f)] as i128;
                }
            }
            if sum != joined_entry(t, left, right, v, i, j) {
                return "norm";
            }
        }
    }
    for i in 0..n {
        for j in 0..2 * t {
            let mut sum = 0u64;
            for e in 0..k {
                sum = sum.wrapping_add(p.b.pow(e as u32).wrapping_mul(tt[i * columns + j * k + e]));
            }
            let expected = if j < t { left.t[i * t + j] } else { right.t[i * t + j - t] };
            if sum != expected {
                return "commitment";
            }
        }
    }
    "yes"
}

/// The last line of an output.
pub fn last_line(text: &str) -> &str {
    text.strip_suffix('\n').unwrap().rsplit('\n').next().unwrap()
}

/// The refusal that the name of a stored file ends with.
pub fn named_refusal(name: &str) -> Option<u32> {
    name.rsplit('_').next().and_then(|word| word.parse().ok())
}

/// Whether the names of stored files are short, of small letters, digits and _ alone, and no two are the same.
pub fn plain_names(files: &[StoredFile]) -> bool {
    let mut names: Vec<&str> = files.iter().map(|file| file.name.as_str()).collect();
    let plain = |byte: u8| byte.is_ascii_lowercase() || byte.is_ascii_digit() || byte == b'_';
    names.sort();
    names.iter().all(|name| !name.is_empty() && name.len() <= 60 && name.bytes().all(plain))
        && names.windows(2).all(|pair| pair[0] != pair[1])
}
