//! The zeros of quadratic forms: what is timed of it, matrices of each kind.

use crate::cases::Numbers;
use crate::library;
use crate::timing::medians;
use idiomatic_native as native;
use idiomatic_plain as plain;

/// The matrices of a row.
pub const MATRICES: usize = 4;

/// A row of the table: nanoseconds a call by the library, by idiomatic Rust with -O and by the same for this processor.
pub struct FormRow {
    pub name: &'static str,
    pub rows: u64,
    pub times: [f64; 3],
}

/// Entries from -3 to 3.
fn small(numbers: &mut Numbers) -> i64 {
    (numbers.next() % 7) as i64 - 3
}

/// Entries from -2^52 to 2^52.
fn large(numbers: &mut Numbers) -> i64 {
    (numbers.next() % ((1 << 53) + 1)) as i64 - (1 << 52)
}

/// Nothing but 0.
fn zero(_: &mut Numbers) -> i64 {
    0
}

/// The counts by one variant, which is called directly.
fn count(triangles: &[Vec<i64>], rows: u64, counts: &mut [u64], count_zeros: impl Fn(u64, &[i64], &mut [u64]) -> u8) {
    for (e, count) in triangles.iter().zip(counts.chunks_exact_mut(1)) {
        assert_eq!(count_zeros(rows, e, count), 0, "the matrix is taken");
    }
}

/// Times the counts of matrices with such entries by the three variants, which take turns. The counts must be equal.
fn row(name: &'static str, rows: u64, entry: fn(&mut Numbers) -> i64) -> FormRow {
    let (mut numbers, places) = (Numbers(2024_1964), plain::triangle(rows as usize));
    let mut triangle = || (0..places).map(|_| entry(&mut numbers)).collect();
    let triangles: Vec<Vec<i64>> = (0..MATRICES).map(|_| triangle()).collect();
    let [mut by_library, mut by_plain, mut by_native] = [[0; MATRICES]; 3];
    let mut turns: Vec<Box<dyn FnMut() + '_>> = vec![
        Box::new(|| count(&triangles, rows, &mut by_library, library::count_zeros)),
        Box::new(|| count(&triangles, rows, &mut by_plain, plain::count_zeros)),
        Box::new(|| count(&triangles, rows, &mut by_native, native::count_zeros)),
    ];
    let times = medians(&mut turns);
    drop(turns);
    assert!(by_library == by_plain && by_plain == by_native, "{name}: the counts are equal");
    FormRow { name, rows, times: [times[0], times[1], times[2]].map(|time| time / MATRICES as f64) }
}

/// The rows of the table.
pub fn form_rows() -> impl Iterator<Item = FormRow> {
    let kinds: [(&str, fn(&mut Numbers) -> i64); 3] =
        [("small entries", small), ("large entries", large), ("zero", zero)];
    [8, 12].into_iter().flat_map(move |rows| kinds.map(|(name, entry)| row(name, rows, entry)))
}
