//! The five numbers of a setting, what follows from them, and which are refused.

// The limits of a setting.
pub const GREATEST_N: u64 = 64;
pub const GREATEST_M: u64 = 4096;
pub const GREATEST_T: u64 = 16;
pub const LEAST_B: u64 = 2;
pub const GREATEST_B: u64 = 65535;
pub const GREATEST_BOUND: u64 = 1 << 62;
pub const GREATEST_COLUMNS: u128 = 512;
pub const GREATEST_WIDTH: u128 = 1 << 62;

/// Places for the powers of b.
pub const PLACES: usize = 33;

/// The five numbers; `bound` is B, which stands for the paper's beta squared.
#[derive(Clone, Copy, Debug, Default, PartialEq, Eq)]
pub struct Parameters {
    pub n: u64,
    pub m: u64,
    pub t: u64,
    pub b: u64,
    pub bound: u64,
}

/// The house list, rows 1 to 4.
pub const LIST: [Parameters; 4] = [
    Parameters { n: 1, m: 1, t: 1, b: 2, bound: 100 },
    Parameters { n: 4, m: 16, t: 2, b: 32, bound: 1048576 },
    Parameters { n: 8, m: 64, t: 4, b: 128, bound: 268435456 },
    Parameters { n: 16, m: 256, t: 1, b: 64, bound: 16777216 },
];

/// The product of whole numbers; nothing where a partial product is 2^128 or more.
fn product_of(factors: &[u128]) -> Option<u128> {
    factors.iter().try_fold(1u128, |sofar, factor| sofar.checked_mul(*factor))
}

/// Whether a number is above a limit; a number that is not there is 2^128 or more.
pub fn above(number: Option<u128>, limit: u128) -> bool {
    number.is_none_or(|value| value > limit)
}

impl Parameters {
    /// Digits of an entry: L + 2 for the greatest L with b^(2L) at most B; 0 where there is no greatest L.
    pub fn k(&self) -> u64 {
        if self.b < 2 || self.bound == 0 {
            return 0;
        }
        let square = self.b as u128 * self.b as u128;
        let mut l = 0;
        let mut next = Some(square);
        while !above(next, self.bound as u128) {
            l += 1;
            next = next.and_then(|power| power.checked_mul(square));
        }
        l + 2
    }

    /// Digit columns of two witnesses side by side: N = 2kt.
    pub fn columns(&self) -> u128 {
        2 * self.k() as u128 * self.t as u128
    }

    /// Greatest size of a digit: h is b/2 rounded down.
    pub fn h(&self) -> u64 {
        self.b / 2
    }

    /// Greatest size of an entry of D~: H = h² × m; nothing from 2^128 on.
    pub fn product_limit(&self) -> Option<u128> {
        product_of(&[self.h() as u128, self.h() as u128, self.m as u128])
    }

    /// (N × h)² × m, which may not pass B; nothing from 2^128 on.
    pub fn growth(&self) -> Option<u128> {
        let (columns, h) = (self.columns(), self.h() as u128);
        product_of(&[columns, h, columns, h, self.m as u128])
    }

    /// H × (1 + b + .. + b^(k−1))², which may not pass 2^62; nothing from 2^128 on.
    pub fn width(&self) -> Option<u128> {
        let sum: u128 = self.powers().iter().map(|power| *power as u128).sum();
        product_of(&[self.product_limit()?, sum, sum])
    }

    /// b^p in place p for p below k, zero from place k on; b^(k−1) is at most b × √B and fits.
    pub fn powers(&self) -> [u64; PLACES] {
        let mut powers = [0; PLACES];
        for p in 0..self.k() as usize {
            powers[p] = if p == 0 { 1 } else { powers[p - 1] * self.b };
        }
        powers
    }
}

/// 0 for an accepted setting, else the first refusal of 1 to 6 that applies.
pub fn refusal(p: &Parameters) -> u32 {
    let outside = |value: u64, least: u64, greatest: u64| value < least || value > greatest;
    if outside(p.n, 1, GREATEST_N) || outside(p.m, 1, GREATEST_M) || outside(p.t, 1, GREATEST_T) {
        1
    } else if outside(p.b, LEAST_B, GREATEST_B) {
        2
    } else if outside(p.bound, 1, GREATEST_BOUND) {
        3
    } else if p.columns() > GREATEST_COLUMNS {
        4
    } else if above(p.growth(), p.bound as u128) {
        5
    } else if above(p.width(), GREATEST_WIDTH) {
        6
    } else {
        0
    }
}

/// The row of the house list with this number; 12 outside 1 to 4.
pub fn listed(number: u64) -> Result<Parameters, u32> {
    match number {
        1..=4 => Ok(LIST[number as usize - 1]),
        _ => Err(12),
    }
}

/// An accepted setting with what follows from its five numbers; `columns` is N and `product_limit` H.
pub struct Shape {
    pub n: usize,
    pub m: usize,
    pub t: usize,
    pub b: u64,
    pub bound: u64,
    pub k: usize,
    pub columns: usize,
    pub h: u64,
    pub product_limit: u64,
    pub powers: [u64; PLACES],
}

/// The shape of an accepted setting, or the setting's refusal.
pub fn shape(p: &Parameters) -> Result<Shape, u32> {
    if refusal(p) != 0 {
        return Err(refusal(p));
    }
    let (n, m, t, k) = (p.n as usize, p.m as usize, p.t as usize, p.k() as usize);
    let (b, bound, h, powers) = (p.b, p.bound, p.h(), p.powers());
    Ok(Shape { n, m, t, b, bound, k, columns: 2 * k * t, h, product_limit: h * h * p.m, powers })
}
