//! Setting rules: points, borders, order, and a second calculation.

mod common;
use common::{refused, setting};
use reference::rng::Rng;
use reference::settings::*;

#[test]
fn points() {
    let one = setting(1, 1, 1, 2, 100);
    assert_eq!((refusal(&one), one.k(), one.columns(), one.growth()), (0, 5, 10, Some(100)));
    assert_eq!(refused(1, 1, 1, 2, 99), 5);
    let wide = setting(1, 4096, 1, 2, 4u64.pow(24) - 1);
    assert_eq!((refusal(&wide), wide.k()), (0, 25));
    assert_eq!(refused(1, 4096, 1, 2, 4u64.pow(24)), 6);
    assert_eq!(refused(1, 1, 16, 2, 4u64.pow(15)), 4);
    let held = setting(16, 256, 2, 128, 268435456);
    assert_eq!((held.growth(), refusal(&held)), (Some(268435456), 6));
}

#[test]
fn house_list() {
    let rows = [
        ((1, 1, 1, 2, 100), 5, 10),
        ((4, 16, 2, 32, 1048576), 4, 16),
        ((8, 64, 4, 128, 268435456), 4, 32),
        ((16, 256, 1, 64, 16777216), 4, 8),
    ];
    for (i, ((n, m, t, b, bound), k, columns)) in rows.into_iter().enumerate() {
        let p = listed(i as u64 + 1).unwrap();
        assert_eq!(p, setting(n, m, t, b, bound));
        assert_eq!((refusal(&p), p.k(), p.columns()), (0, k, columns));
        assert_eq!(p.growth(), Some(bound as u128), "growth is met with equality");
    }
    for number in [0, 5, 6, u64::MAX] {
        assert_eq!(listed(number), Err(12));
    }
}

#[test]
fn borders_of_the_ranges() {
    let roomy = 4u64.pow(12);
    for (n, number) in [(0, 1), (1, 0), (64, 0), (65, 1), (u64::MAX, 1)] {
        assert_eq!(refused(n, 1, 1, 2, roomy), number);
    }
    for (m, number) in [(0, 1), (1, 0), (4096, 0), (4097, 1), (u64::MAX, 1)] {
        assert_eq!(refused(1, m, 1, 2, roomy), number);
    }
    for (t, number) in [(0, 1), (1, 0), (16, 0), (17, 1), (u64::MAX, 1)] {
        assert_eq!(refused(1, 1, t, 2, roomy), number);
    }
    for (b, number) in [(0, 2), (1, 2), (2, 0), (65535, 5), (65536, 2), (u64::MAX, 2)] {
        assert_eq!(refused(1, 1, 1, b, roomy), number);
    }
    assert_eq!(refused(1, 1, 1, 65535, 1 << 62), 6);
    for (bound, number) in [(0, 3), (1, 5), (1 << 62, 6), ((1 << 62) + 1, 3), (u64::MAX, 3)] {
        assert_eq!(refused(1, 1, 1, 2, bound), number);
    }
}

#[test]
fn first_refusal_wins() {
    assert_eq!(refused(0, 1, 1, 0, 0), 1);
    assert_eq!(refused(1, 0, 1, 1, 0), 1);
    assert_eq!(refused(1, 1, 0, 70000, u64::MAX), 1);
    assert_eq!(refused(1, 1, 1, 1, 0), 2);
    assert_eq!(refused(1, 1, 1, 65536, u64::MAX), 2);
    assert_eq!(refused(1, 1, 16, 2, 0), 3);
    assert_eq!(refused(1, 4096, 16, 2, u64::MAX), 3);
    // N too large, growth held or not, width broken: 4 first.
    assert_eq!(refused(1, 4096, 16, 2, 1 << 62), 4);
    assert_eq!(refused(1, 4096, 16, 2, 4u64.pow(15)), 4);
    // Growth and width both broken: 5 first.
    let both = setting(1, 4096, 1, 60000, 1 << 40);
    assert!(both.growth() > Some(1 << 40) && both.width() > Some(1 << 62));
    assert_eq!(refusal(&both), 5);
}

#[test]
fn borders_of_columns_growth_and_width() {
    // N = 512 is accepted, 544 is not.
    let full = setting(1, 1, 16, 2, 4u64.pow(14));
    assert_eq!((full.columns(), refusal(&full)), (512, 0));
    assert_eq!(refused(1, 1, 16, 2, 4u64.pow(15) - 1), 0);
    assert_eq!(refused(1, 1, 16, 2, 4u64.pow(15)), 4);
    // Growth at equality and one below.
    for (m, t, b) in [(1, 1, 3), (2, 1, 3), (1, 2, 5), (2, 2, 9), (1, 1, 4), (1, 1, 2)] {
        let k = if b == 2 { 5 } else { 3 };
        let least = (2 * k * t * (b / 2)) * (2 * k * t * (b / 2)) * m;
        assert_eq!(refused(1, m, t, b, least), 0, "{m} {t} {b}");
        assert_eq!(refused(1, m, t, b, least - 1), 5, "{m} {t} {b}");
    }
    // Width: m × (2^k − 1)² against 2^62.
    for (k, m, number) in [(31, 1, 0), (31, 2, 6), (30, 4, 0), (30, 5, 6), (32, 1, 6), (33, 1, 6)] {
        let p = setting(1, m, 1, 2, 4u64.pow(k - 2));
        assert_eq!((p.k(), refusal(&p)), (k as u64, number));
        assert_eq!(p.width(), Some(m as u128 * ((1u128 << k) - 1) * ((1u128 << k) - 1)));
    }
}

#[test]
fn width_past_128_bits() {
    let p = setting(1, 4096, 1, 46340, 1 << 62);
    assert!(p.growth().unwrap() <= 1 << 62);
    assert_eq!((p.width(), refusal(&p)), (None, 6));
    // The same product, in two halves: H × sum is far below 2^128, and times sum is above 2^133.
    let sum: u128 = p.powers().iter().map(|x| *x as u128).sum();
    let part = p.product_limit().unwrap() * sum;
    assert!(part > (1u128 << 127) / (sum >> 6), "above 2^133");
    assert!(part <= u128::MAX / (sum >> 6), "below 2^135");
}

#[test]
fn extremes_do_not_panic() {
    let ends = [0, 1, 2, 3, 64, 65, 4096, 65535, 65536, 1 << 31, 1 << 32, (1 << 32) - 1, 1 << 62, 1 << 63, u64::MAX];
    for a in ends {
        for b in ends {
            for c in ends {
                for d in ends {
                    let p = setting(a, b, a, c, d);
                    let _ = (refusal(&p), p.k(), p.columns(), p.h(), p.product_limit(), p.growth(), p.width(), p.powers());
                }
            }
        }
    }
}

/// Whether a × b is above the limit, by division alone.
fn product_above(a: u128, b: u128, limit: u128) -> bool {
    a != 0 && b > limit / a
}

/// The refusal calculated another way: L by the definition, products by division.
fn second_calculation(p: &Parameters) -> u32 {
    if p.n == 0 || p.n > 64 || p.m == 0 || p.m > 4096 || p.t == 0 || p.t > 16 {
        return 1;
    }
    if p.b < 2 || p.b > 65535 {
        return 2;
    }
    if p.bound == 0 || p.bound > 1 << 62 {
        return 3;
    }
    let (b, bound) = (p.b as u128, p.bound as u128);
    // b^(2L) ≤ B exactly when b^L ≤ the root of B rounded down.
    let root = bound.isqrt();
    let l = root.ilog(b);
    let k = l + 2;
    let columns = 2 * k as u128 * p.t as u128;
    if columns > 512 {
        return 4;
    }
    let h = b / 2;
    if (columns * h) * (columns * h) * p.m as u128 > bound {
        return 5;
    }
    let sum = (b.pow(k) - 1) / (b - 1);
    let products = h * h * p.m as u128;
    if product_above(sum, sum, 1 << 62) || product_above(sum * sum, products, 1 << 62) {
        return 6;
    }
    0
}

#[test]
fn second_calculation_agrees() {
    let mut rng = Rng::new(11);
    let mut seen = [0; 7];
    for _ in 0..300000 {
        let top = rng.between(0, 63) as u32;
        let low = rng.word() % 2 == 0;
        let p = setting(
            rng.between(0, 66) as u64,
            if low { rng.between(0, 20) } else { rng.between(0, 4200) } as u64,
            if low { rng.between(1, 4) } else { rng.between(0, 17) } as u64,
            match rng.word() % 3 {
                0 => rng.between(1, 6),
                1 => rng.between(1, 200),
                _ => rng.between(0, 66000),
            } as u64,
            rng.word() >> top,
        );
        assert_eq!(refusal(&p), second_calculation(&p), "{p:?}");
        seen[refusal(&p) as usize] += 1;
    }
    // Bounds right at powers of b², where L steps.
    for b in 2..=65535u64 {
        for l in 0..32 {
            let Some(power) = (b as u128).checked_pow(2 * l) else { break };
            for bound in [power.wrapping_sub(1), power, power + 1] {
                let p = setting(1, 1, 1, b, bound.min(u64::MAX as u128) as u64);
                assert_eq!(refusal(&p), second_calculation(&p), "{p:?}");
                seen[refusal(&p) as usize] += 1;
            }
        }
    }
    assert!(seen.iter().all(|count| *count > 100), "{seen:?}");
}

#[test]
fn k_by_its_definition() {
    let mut rng = Rng::new(12);
    for _ in 0..20000 {
        let p = setting(1, 1, 1, rng.between(2, 65535) as u64, (rng.word() >> rng.between(0, 63) as u32).max(1));
        let l = p.k() as u32 - 2;
        assert!((p.b as u128).pow(2 * l) <= p.bound as u128);
        assert!((p.b as u128).pow(2 * l + 2) > p.bound as u128);
        let powers = p.powers();
        for (place, power) in powers.iter().enumerate() {
            let expected = if place < p.k() as usize { p.b.pow(place as u32) } else { 0 };
            assert_eq!(*power, expected);
        }
    }
    assert_eq!(setting(1, 1, 1, 2, 1 << 62).k(), 33);
    assert_eq!(setting(1, 1, 1, 2, 1 << 62).powers()[32], 1 << 32);
    assert_eq!(setting(1, 1, 1, 2, 3).k(), 2);
}

/// For n = m = t = 1 and a base, the refusal at the least B that gives k digits and holds growth.
fn best(b: u64, k: u32) -> Option<u32> {
    let low = (b as u128).pow(2 * (k - 2));
    let high = (b as u128).pow(2 * (k - 1)) - 1;
    let grown = (2 * k as u128 * (b as u128 / 2)).pow(2);
    let bound = low.max(grown);
    (bound <= high && bound <= 1 << 62).then(|| refused(1, 1, 1, b, bound as u64))
}

#[test]
fn smallest_columns() {
    // Every B up to 20000 and b up to 100: no accepted setting has fewer digit columns than 6t.
    for (m, t, least) in [(1, 1, 6), (2, 1, 6), (1, 2, 12), (2, 2, 12)] {
        let mut fewest = u128::MAX;
        for b in 2..=100 {
            for bound in 1..=20000 {
                let p = setting(1, m, t, b, bound);
                if p.columns() < fewest && refusal(&p) == 0 {
                    fewest = p.columns();
                }
            }
        }
        assert_eq!(fewest, least);
    }
    // k = 2 is never accepted: B < b² and growth (4h)² ≤ B exclude each other for every b.
    for b in 2..=65535u64 {
        assert!(16 * (b / 2) * (b / 2) >= b * b);
        assert_eq!(refused(1, 1, 1, b, b * b - 1), 5);
    }
}

#[test]
fn what_can_be_accepted() {
    let mut greatest_b = 0;
    let mut digits = std::collections::BTreeSet::new();
    for b in 2..=65535u64 {
        for k in (2..=33).take_while(|k| (b as u128).checked_pow(2 * (k - 1)).is_some()) {
            if best(b, k) == Some(0) {
                greatest_b = b;
                digits.insert(k);
            }
        }
    }
    assert_eq!(greatest_b, 1625);
    assert_eq!((digits.first(), digits.last()), (Some(&3), Some(&31)));
}
