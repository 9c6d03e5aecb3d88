//! Inputs for one setting: honest instances, their message and a challenge, all from one seed.

use idiomatic_plain as plain;

/// Numbers that look random and are the same in each run.
pub struct Numbers(pub u64);

impl Numbers {
    pub fn next(&mut self) -> u64 {
        self.0 = self.0.wrapping_mul(6364136223846793005).wrapping_add(1442695040888963407);
        let mixed = (self.0 ^ (self.0 >> 33)).wrapping_mul(0xff51afd7ed558ccd);
        mixed ^ (mixed >> 29)
    }
}

pub struct Case {
    pub p: [u64; 5],
    pub n: usize,
    pub m: usize,
    pub t: usize,
    pub k: usize,
    pub columns: usize,
    pub a: Vec<u64>,
    pub s1: Vec<i64>,
    pub s2: Vec<i64>,
    /// The rows of [S1 S2], of which S~ has the digits.
    pub both: Vec<i64>,
    pub t1: Vec<u64>,
    pub d1: Vec<i64>,
    pub t2: Vec<u64>,
    pub d2: Vec<i64>,
    pub v: Vec<i64>,
    pub tt: Vec<u64>,
    pub dd: Vec<i64>,
    pub ss: Vec<i64>,
    pub c: Vec<u8>,
    pub fresh: Fresh,
}

/// A fresh witness, its instance, and its message beside the first witness; S~, T~ and D~ have so many columns.
pub struct Fresh {
    pub columns: usize,
    pub vector: Vec<i64>,
    pub t2: Vec<u64>,
    pub d2: Vec<i64>,
    pub v: Vec<i64>,
    pub tt: Vec<u64>,
    pub dd: Vec<i64>,
    pub ss: Vec<i64>,
}

/// The largest size that every entry of a witness may have at once.
fn largest(bound: u64, m: u64) -> u64 {
    let mut size = ((bound / m) as f64).sqrt() as u64;
    while size * size * m > bound {
        size -= 1;
    }
    size
}

/// A case of this setting, which must be accepted.
pub fn case(p: [u64; 5]) -> Case {
    let z = plain::shape(p).ok().expect("the setting is accepted");
    let (n, m, t, columns) = (z.n, z.m, z.t, z.columns);
    let mut numbers = Numbers(2024_1964);
    let size = largest(z.bound, m as u64);
    let a = (0..n * m).map(|_| numbers.next()).collect::<Vec<u64>>();
    let mut witness = || (0..m * t).map(|_| (numbers.next() % (2 * size + 1)) as i64 - size as i64).collect::<Vec<i64>>();
    let (s1, s2) = (witness(), witness());
    let c = (0..columns * t).map(|_| (numbers.next() % 3) as u8).collect();
    let instance = |s: &[i64]| {
        let (mut t_out, mut d_out) = (vec![0; n * t], vec![0; t * t]);
        assert_eq!(plain::commit(p, &a, s, &mut t_out, &mut d_out, &mut 0), 0);
        (t_out, d_out)
    };
    let ((t1, d1), (t2, d2)) = (instance(&s1), instance(&s2));
    let (mut v, mut tt) = (vec![0; t * t], vec![0; n * columns]);
    let (mut dd, mut ss) = (vec![0; plain::triangle(columns)], vec![0; m * columns]);
    assert_eq!(plain::message(p, &a, &s1, &s2, &mut v, &mut tt, &mut dd, &mut ss), 0);
    let both = s1.chunks_exact(t).zip(s2.chunks_exact(t)).flat_map(|(left, right)| [left, right].concat()).collect();
    // The first numbers of the second witness are as good a vector as any.
    let fresh = fresh(&z, p, &a, &s1, &s2[..m]);
    Case { p, n, m, t, k: z.k, columns, a, s1, s2, both, t1, d1, t2, d2, v, tt, dd, ss, c, fresh }
}

/// The fresh part of a case.
fn fresh(z: &plain::Shape, p: [u64; 5], a: &[u64], s1: &[i64], vector: &[i64]) -> Fresh {
    let (n, m, t, columns) = (z.n, z.m, z.t, z.k * z.t + z.k);
    let (mut t2, mut d2) = (vec![0; n], vec![0]);
    assert_eq!(plain::commit_fresh(p, a, vector, &mut t2, &mut d2, &mut 0), 0);
    let (mut v, mut tt) = (vec![0; t], vec![0; n * columns]);
    let (mut dd, mut ss) = (vec![0; plain::triangle(columns)], vec![0; m * columns]);
    assert_eq!(plain::message_fresh(p, a, s1, vector, &mut v, &mut tt, &mut dd, &mut ss), 0);
    Fresh { columns, vector: vector.to_vec(), t2, d2, v, tt, dd, ss }
}
