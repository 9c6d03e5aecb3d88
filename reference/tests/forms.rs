//! What a cheating prover can count on: points, refusals and their order, the bound on the count, and changes of E that
//! leave the count as it is.

use reference::forms::*;
use reference::matrices::triangle_length;
use reference::operations::Answer;
use reference::rng::Rng;

/// What a call answers for this E; the count held 99 before, and after a refusal too.
#[track_caller]
fn counted(n: u64, e: &[i64]) -> Result<u64, u32> {
    let mut count = [99];
    match count_zeros(n, e, &mut count) {
        Answer::Done => Ok(count[0]),
        Answer::Refused(number) => {
            assert_eq!(count, [99]);
            Err(number)
        }
        other => panic!("{other:?} is no answer here"),
    }
}

/// The triangle of zeros with so many rows, but for one entry.
fn alone(n: u64, at: usize, entry: i64) -> Vec<i64> {
    let mut e = vec![0; triangle_length(n as usize)];
    e[at] = entry;
    e
}

/// Where entry (i, j) stands, j at most i.
fn place(i: usize, j: usize) -> usize {
    triangle_length(i) + j
}

/// All triangles with so many rows and entries up to this size.
fn small_triangles(n: u64, size: i64) -> impl Iterator<Item = Vec<i64>> {
    let (places, values) = (triangle_length(n as usize) as u32, 2 * size + 1);
    let entry = move |number: i64, at| number / values.pow(at) % values - size;
    (0..values.pow(places)).map(move |number| (0..places).map(|at| entry(number, at)).collect())
}

#[test]
fn points() {
    assert_eq!(counted(1, &[5]), Ok(1));
    assert_eq!(counted(1, &[0]), Ok(3));
    // 2 c0 c1 is 0 where one of them is, c0^2 - c1^2 where their sizes are equal, c0^2 + c1^2 where both are 0.
    assert_eq!(counted(2, &[0, 1, 0]), Ok(5));
    assert_eq!(counted(2, &[1, 0, -1]), Ok(5));
    assert_eq!(counted(2, &[1, 0, 1]), Ok(1));
    // An entry beside the diagonal counts twice: (c0 + c1)^2, (c0 - c1)^2 and 2 c0 (c0 + c1).
    assert_eq!(counted(2, &[1, 1, 1]), Ok(3));
    assert_eq!(counted(2, &[1, -1, 1]), Ok(3));
    assert_eq!(counted(2, &[2, 1, 0]), Ok(5));
    // c0^2 + 2 c0 c2 + 2 c1 c2 - c2^2 is 0 where c0 = c2 = 0, and at (1, -1, 1), (-1, 1, 1) and their negatives. Were
    // these the rows of an upper triangle, it would be so at five vectors.
    assert_eq!(counted(3, &[1, 0, 0, 1, 1, -1]), Ok(7));
}

#[test]
fn zero_has_every_vector() {
    for n in 1..=GREATEST_ROWS {
        assert_eq!(counted(n, &vec![0; triangle_length(n as usize)]), Ok(3u64.pow(n as u32)));
    }
}

#[test]
fn one_entry_alone() {
    for n in 1..=8 {
        for i in 0..n as usize {
            for entry in [1, -7, GREATEST_ENTRY, -GREATEST_ENTRY] {
                assert_eq!(counted(n, &alone(n, place(i, i), entry)), Ok(3u64.pow(n as u32 - 1)));
                for j in 0..i {
                    assert_eq!(counted(n, &alone(n, place(i, j), entry)), Ok(5 * 3u64.pow(n as u32 - 2)));
                }
            }
        }
    }
    assert_eq!(counted(12, &alone(12, place(11, 4), 3)), Ok(5 * 3u64.pow(10)));
}

#[test]
fn diagonal_matrices() {
    // A sum of powers of 3 is 0 where it has none of them; 1, 2 and -3 also sum to 0 all together.
    for n in 1..=10 {
        let mut e = vec![0; triangle_length(n as usize)];
        (0..n as usize).for_each(|i| e[place(i, i)] = 3i64.pow(i as u32));
        assert_eq!(counted(n, &e), Ok(1));
    }
    assert_eq!(counted(3, &[1, 0, 2, 0, 0, -3]), Ok(1 + 8));
    assert_eq!(counted(4, &[1, 0, 2, 0, 0, -3, 0, 0, 0, 0]), Ok(3 * (1 + 8)));
}

#[test]
fn the_greatest_matrices() {
    // A square of the sum c0 + .. + c11, which is 0 where c has as many entries 1 as -1.
    for entry in [GREATEST_ENTRY, -GREATEST_ENTRY] {
        assert_eq!(counted(12, &[entry; 78]), Ok(73789));
    }
}

#[test]
fn twenty_four() {
    for n in [0, 13, 14, 256, 257, 1 << 32, (1 << 32) + 1, (1 << 32) + 12, 1 << 63, u64::MAX] {
        for length in [0, 1, 3, 77, 78, 79, 91] {
            for places in 0..=2 {
                let mut count = vec![99; places];
                assert_eq!(count_zeros(n, &vec![i64::MIN; length], &mut count), Answer::Refused(24), "{n} rows");
                assert_eq!(count, vec![99; places]);
            }
        }
    }
}

#[test]
fn seven_comes_before_twenty_five() {
    for number in 0..12 * 100 * 4 {
        let (n, length, places) = (number % 12 + 1, number / 12 % 100, number / 1200);
        let fits = length == triangle_length(n) && places == 1;
        for (entry, fitting) in [(1, Answer::Done), (GREATEST_ENTRY + 1, Answer::Refused(25))] {
            let mut count = vec![99; places];
            let answer = count_zeros(n as u64, &vec![entry; length], &mut count);
            let expected = if fits { fitting } else { Answer::Refused(7) };
            assert_eq!(answer, expected, "{n} rows, {length} entries, {places} places");
            assert!(answer == Answer::Done || count == vec![99; places]);
        }
    }
}

#[test]
fn twenty_five() {
    for n in 1..=GREATEST_ROWS {
        for at in 0..triangle_length(n as usize) {
            for entry in [GREATEST_ENTRY + 1, -GREATEST_ENTRY - 1, 1 << 53, i64::MIN + 1, i64::MIN, i64::MAX] {
                assert_eq!(counted(n, &alone(n, at, entry)), Err(25), "{entry} at {at}");
            }
        }
    }
}

#[test]
fn the_bound() {
    // The greatest counts of all E other than zero with small entries.
    for (n, size, greatest) in [(1, 9, 1), (2, 9, 5), (3, 2, 15)] {
        let all = 3u64.pow(n as u32);
        let mut seen = 0;
        for e in small_triangles(n, size).filter(|e| e.iter().any(|entry| *entry != 0)) {
            let count = counted(n, &e).unwrap();
            assert!(3 * count <= 2 * all && count % 2 == 1, "{count} of {e:?}");
            seen = seen.max(count);
        }
        assert_eq!(seen, greatest, "{n} rows");
    }
}

/// A random triangle with entries up to this size.
fn random(rng: &mut Rng, n: u64, size: i64) -> Vec<i64> {
    (0..triangle_length(n as usize)).map(|_| rng.between(-size as i128, size as i128) as i64).collect()
}

/// The triangle with this row and the next one in each other's place, and their columns too.
fn swapped(e: &[i64], n: u64, at: usize) -> Vec<i64> {
    let turned = |i: usize| match i {
        _ if i == at => at + 1,
        _ if i == at + 1 => at,
        _ => i,
    };
    let entry = |i: usize, j: usize| e[place(i.max(j), i.min(j))];
    (0..n as usize).flat_map(|i| (0..=i).map(move |j| entry(turned(i), turned(j)))).collect()
}

/// The triangle with this row negated, and its column too, so that the diagonal entry stays.
fn negated(e: &[i64], n: u64, at: usize) -> Vec<i64> {
    let signed = |i: usize, j: usize| if (i == at) != (j == at) { -e[place(i, j)] } else { e[place(i, j)] };
    (0..n as usize).flat_map(|i| (0..=i).map(move |j| signed(i, j))).collect()
}

#[test]
fn counts_that_stay() {
    let mut rng = Rng::new(121);
    for number in 0..600 {
        let (n, size) = (2 + number % 5, [1, 2, 5][number as usize % 3]);
        let e = random(&mut rng, n, size);
        let count = counted(n, &e).unwrap();
        assert!(count % 2 == 1 && (3 * count <= 2 * 3u64.pow(n as u32) || e.iter().all(|entry| *entry == 0)));
        for at in 0..n as usize - 1 {
            assert_eq!(counted(n, &swapped(&e, n, at)), Ok(count), "{e:?}, {at} and the next one");
            assert_eq!(counted(n, &negated(&e, n, at)), Ok(count), "{e:?}, {at} negated");
        }
        for factor in [-1, 3, GREATEST_ENTRY / size] {
            let scaled: Vec<i64> = e.iter().map(|entry| entry * factor).collect();
            assert_eq!(counted(n, &scaled), Ok(count), "{factor} times {e:?}");
        }
        // A further row of zeros leaves its entry free.
        assert_eq!(counted(n + 1, &[e, vec![0; n as usize + 1]].concat()), Ok(3 * count));
    }
}
