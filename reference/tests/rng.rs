//! The generator.

use reference::rng::Rng;

#[test]
fn first_words() {
    // The words that are commonly printed for splitmix64 with seed 1234567.
    let mut rng = Rng::new(1234567);
    let words: Vec<u64> = (0..5).map(|_| rng.word()).collect();
    let known = [
        6457827717110365317, 3203168211198807973, 9817491932198370423, 4593380528125082431, 16408922859458223821,
    ];
    assert_eq!(words, known);
}

#[test]
fn witnesses_are_within_the_bound() {
    let mut rng = Rng::new(61);
    for _ in 0..2000 {
        let (m, t) = (rng.between(1, 6) as usize, rng.between(1, 3) as usize);
        let bound = rng.word() >> rng.between(2, 63);
        let s = rng.witness(m, t, bound);
        for j in 0..t {
            let sum: u128 = (0..m).map(|i| (s[i * t + j].unsigned_abs() as u128).pow(2)).sum();
            assert!(sum <= bound as u128);
        }
    }
}
