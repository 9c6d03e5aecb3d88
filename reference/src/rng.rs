//! A seeded generator, so that runs repeat.

/// The generator splitmix64.
#[derive(Clone, Debug)]
pub struct Rng(u64);

impl Rng {
    /// The generator with this seed.
    pub fn new(seed: u64) -> Rng {
        Rng(seed)
    }

    /// The next word.
    pub fn word(&mut self) -> u64 {
        self.0 = self.0.wrapping_add(0x9E3779B97F4A7C15);
        let mut z = self.0;
        z = (z ^ (z >> 30)).wrapping_mul(0xBF58476D1CE4E5B9);
        z = (z ^ (z >> 27)).wrapping_mul(0x94D049BB133111EB);
        z ^ (z >> 31)
    }

    /// A number from low to high, both included; low where high is below it.
    pub fn between(&mut self, low: i128, high: i128) -> i128 {
        if high <= low {
            return low;
        }
        low + (self.word() as i128) % (high - low + 1)
    }

    /// A witness of m by t entries, each column within the bound; the extremes come up often.
    pub fn witness(&mut self, m: usize, t: usize, bound: u64) -> Vec<i64> {
        let mut s = vec![0; m * t];
        for j in 0..t {
            let mut left = bound as i128;
            let first = self.word() as usize % m.max(1);
            for i in (0..m).map(|i| (first + i) % m) {
                let r = (left as u64).isqrt() as i128;
                let drawn = self.between(-r - r / 4, r + r / 4);
                let entry = drawn.clamp(-r, r);
                left -= entry * entry;
                s[i * t + j] = entry as i64;
            }
        }
        s
    }

    /// A challenge of the given number of bytes, each 0, 1 or 2.
    pub fn challenge(&mut self, length: usize) -> Vec<u8> {
        (0..length).map(|_| (self.word() % 3) as u8).collect()
    }
}
