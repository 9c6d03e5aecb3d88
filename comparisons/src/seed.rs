//! The seed of a run, and draws from a generator.

use reference::rng::Rng;
use std::env;
use std::hash::{BuildHasher, RandomState};
use std::sync::OnceLock;

/// The seed of this run: `LOVA_SEED`, or else a fresh one.
pub fn seed() -> u64 {
    static SEED: OnceLock<u64> = OnceLock::new();
    *SEED.get_or_init(|| match env::var("LOVA_SEED") {
        Ok(text) => text.parse().unwrap_or_else(|_| panic!("LOVA_SEED is not a 64-bit number: {text}")),
        Err(_) => RandomState::new().hash_one("a fresh seed"),
    })
}

/// The generator of a test: the same for the same seed and name, whatever other tests run.
pub fn generator(name: &str) -> Rng {
    let step = |sum: u64, byte: u8| (sum ^ u64::from(byte)).wrapping_mul(0x100000001b3);
    Rng::new(name.bytes().fold(seed(), step))
}

/// A number below the limit, which is not 0.
pub fn below(rng: &mut Rng, limit: usize) -> usize {
    (rng.word() % limit as u64) as usize
}

/// True once in so many draws, on average.
pub fn once_in(rng: &mut Rng, draws: u64) -> bool {
    rng.word().is_multiple_of(draws)
}

/// One of the entries.
pub fn pick<T: Copy>(rng: &mut Rng, entries: &[T]) -> T {
    entries[below(rng, entries.len())]
}
