//! Random settings: accepted ones, and ones at the borders of the rules.

use crate::seed::{below, once_in, pick};
use reference::rng::Rng;
use reference::settings::*;

/// Greatest n, m and t that are drawn.
#[derive(Clone, Copy)]
pub struct Limits {
    pub n: u64,
    pub m: u64,
    pub t: u64,
}

/// The limits of a setting.
pub const FULL: Limits = Limits { n: GREATEST_N, m: GREATEST_M, t: GREATEST_T };

/// The limits of the programs.
pub const CHAIN: Limits = Limits { n: 8, m: 16, t: 2 };

/// Large settings, each at some limit: N = 512, m = 4096, the most rows and columns, the greatest b, the greatest k.
pub const LARGE: [Parameters; 9] = [
    LIST[1],
    LIST[2],
    LIST[3],
    setting(64, 500, 16, 2, (1 << 30) - 1),
    setting(64, 4096, 1, 64, 1 << 28),
    setting(3, 4096, 1, 2, (1 << 48) - 1),
    setting(64, 16, 16, 32, 67108864),
    setting(64, 1, 1, 1625, 6972900390624),
    setting(64, 1, 1, 2, (1 << 60) - 1),
];

/// A setting from its five numbers.
pub const fn setting(n: u64, m: u64, t: u64, b: u64, bound: u64) -> Parameters {
    Parameters { n, m, t, b, bound }
}

/// Numbers at and past the ends of the ranges.
const ENDS: [u64; 22] = [
    0, 1, 2, 3, 15, 16, 17, 63, 64, 65, 4095, 4096, 4097, 65535, 65536, 1 << 32, (1 << 32) + 1,
    (1 << 62) - 1, 1 << 62, (1 << 62) + 1, 1 << 63, u64::MAX,
];

/// A number from 1 to the limit; small ones are frequent.
fn sized(rng: &mut Rng, limit: u64) -> u64 {
    let top = 1u64 << below(rng, limit.ilog2() as usize + 1);
    match once_in(rng, 8) {
        true => limit,
        false => rng.between(1, top as i128) as u64,
    }
}

/// A base; no accepted setting has one above 1625.
fn base(rng: &mut Rng) -> u64 {
    let top = pick(rng, &[4, 12, 200, 1700]);
    rng.between(2, top) as u64
}

/// b^(2l), where it is within 128 bits.
fn square_power(b: u64, l: u32) -> u128 {
    (b as u128).pow(2 * l)
}

/// The greatest L that a bound within its range allows.
fn greatest_l(b: u64) -> u32 {
    GREATEST_BOUND.ilog(b) / 2
}

/// The five numbers, with the greatest word where B is no word.
fn five(n: u64, m: u64, t: u64, b: u64, bound: u128) -> Parameters {
    Parameters { n, m, t, b, bound: bound.min(u64::MAX as u128) as u64 }
}

/// A number up or down by one, or as it is.
fn near(rng: &mut Rng, number: u128) -> u128 {
    (number + pick(rng, &[0, 1, 2])).saturating_sub(1)
}

/// A setting that is often accepted: B has the drawn number of digits, and holds growth where it can.
fn candidate(rng: &mut Rng, limits: Limits) -> Parameters {
    let (n, m, t, b) = (sized(rng, limits.n), sized(rng, limits.m), sized(rng, limits.t), base(rng));
    let l = rng.between(1, greatest_l(b) as i128) as u32;
    let growth = five(n, m, t, b, square_power(b, l)).growth().unwrap_or(u128::MAX);
    let low = square_power(b, l).max(growth).min(GREATEST_BOUND as u128);
    let high = (square_power(b, l + 1) - 1).min(GREATEST_BOUND as u128);
    let bound = match rng.word() % 4 {
        0 => low,
        1 => high,
        _ => rng.between(low as i128, high as i128) as u128,
    };
    five(n, m, t, b, bound)
}

/// A random accepted setting within limits.
pub fn accepted(rng: &mut Rng, limits: Limits) -> Parameters {
    accepted_where(rng, limits, |_| true)
}

/// A random accepted setting within limits of which something holds.
pub fn accepted_where(rng: &mut Rng, limits: Limits, holds: impl Fn(&Parameters) -> bool) -> Parameters {
    loop {
        let p = candidate(rng, limits);
        if refusal(&p) == 0 && holds(&p) {
            return p;
        }
    }
}

/// Five numbers that have little to do with each other.
fn wild(rng: &mut Rng) -> Parameters {
    let mut number = || match rng.word() % 3 {
        0 => rng.word() >> below(rng, 64),
        1 => 1 + rng.word() % 16,
        _ => pick(rng, &ENDS),
    };
    Parameters { n: number(), m: number(), t: number(), b: number(), bound: number() }
}

/// An accepted setting with one number replaced by an end of some range.
fn one_end(rng: &mut Rng) -> Parameters {
    let mut p = accepted(rng, FULL);
    let numbers = [&mut p.n, &mut p.m, &mut p.t, &mut p.b, &mut p.bound];
    let place = below(rng, 5);
    *numbers.into_iter().nth(place).expect("there are five") = pick(rng, &ENDS);
    p
}

/// N at 512 or just around it.
fn near_columns(rng: &mut Rng) -> Parameters {
    let t = rng.between(8, 16) as u64;
    let b = if t < 13 { 2 } else { rng.between(2, 3) as u64 };
    let k = 256 / t as u32 + below(rng, 2) as u32;
    let bound = pick(rng, &[square_power(b, k - 2), square_power(b, k - 1) - 1]);
    let (n, m) = (sized(rng, 64), sized(rng, 8));
    five(n, m, t, b, bound.min(GREATEST_BOUND as u128))
}

/// B at the growth or just around it.
fn near_growth(rng: &mut Rng) -> Parameters {
    let p = accepted(rng, FULL);
    let bound = near(rng, p.growth().expect("an accepted setting is within B"));
    five(p.n, p.m, p.t, p.b, bound)
}

/// m at the greatest that the width allows or just around it, with the greatest B for its digits.
fn near_width(rng: &mut Rng) -> Parameters {
    let b = base(rng);
    let l = rng.between(1, greatest_l(b) as i128) as u32;
    let bound = (square_power(b, l + 1) - 1).min(GREATEST_BOUND as u128);
    let one = five(1, 1, 1, b, bound);
    let greatest = one.width().map_or(0, |width| GREATEST_WIDTH / width);
    let (n, m, t) = (sized(rng, 64), near(rng, greatest).clamp(1, 5000) as u64, sized(rng, 16));
    five(n, m, t, b, bound)
}

/// B at an even power of b or just around it, for any b.
fn near_power(rng: &mut Rng) -> Parameters {
    let b = if once_in(rng, 2) { base(rng) } else { rng.between(2, 65536) as u64 };
    let l = rng.between(0, greatest_l(b) as i128) as u32;
    let (n, m, t) = (sized(rng, 64), sized(rng, 4096), sized(rng, 16));
    let bound = near(rng, square_power(b, l));
    five(n, m, t, b, bound)
}

/// A setting at some border; most of them are refused.
pub fn bordering(rng: &mut Rng) -> Parameters {
    let kinds = [wild, one_end, near_columns, near_growth, near_width, near_power];
    pick(rng, &kinds)(rng)
}

/// A setting at some border, where each refusal from 1 to 6 and none, 0, are equally frequent.
pub fn bordering_evenly(rng: &mut Rng) -> Parameters {
    let wanted = below(rng, 7) as u32;
    loop {
        let p = bordering(rng);
        if refusal(&p) == wanted {
            return p;
        }
    }
}
