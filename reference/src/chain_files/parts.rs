//! A small good chain, and the same chain with one line changed.

use crate::stored::file_of;

/// A good chain with two folds at n = 2, m = 2, t = 1, b = 3, B = 72: k = 3, N = 6, growth just holds.
///
/// It prints, with 2^64 − 12 = 18446744073709551604 and so on:
/// `leaf 1 (2^64−12) 48 72 1`, `leaf 2 37 (2^64−15) 65 1`, `fold 1 yes (2^64−1) 23 13 2`,
/// `leaf 3 21 11 13 1`, `fold 2 yes 14 20 10 3`, `end 2 member`.
pub const BASE: [&str; 7] = [
    "param\t2\t2\t1\t3\t72",
    "a\t3\t5\t7\t18446744073709551615",
    "leaf\t6\t-6",
    "leaf\t-1\t8",
    "c\t0\t-1\t1\t-1\t1\t-1",
    "leaf\t2\t3",
    "c\t1\t1\t0\t-1\t1\t0",
];

/// The numbers of the lines of the small chain that have this word.
pub fn lines_of(kind: &str) -> Vec<usize> {
    (1..=BASE.len()).filter(|number| BASE[number - 1].split('\t').next() == Some(kind)).collect()
}

/// The first lines of the small chain.
pub fn first_lines(count: usize) -> Vec<u8> {
    file_of(&BASE[..count])
}

/// The small chain with another line at this number, counted from 1.
pub fn with_line(number: usize, line: impl AsRef<[u8]>) -> Vec<u8> {
    let mut lines: Vec<&[u8]> = BASE.iter().map(|line| line.as_bytes()).collect();
    lines[number - 1] = line.as_ref();
    file_of(&lines)
}

/// The small chain with a further line that gets this number.
pub fn with_further_line(number: usize, line: impl AsRef<[u8]>) -> Vec<u8> {
    let mut lines: Vec<&[u8]> = BASE.iter().map(|line| line.as_bytes()).collect();
    lines.insert(number - 1, line.as_ref());
    file_of(&lines)
}

/// The small chain without the line of this number.
pub fn without_line(number: usize) -> Vec<u8> {
    let mut lines = BASE.to_vec();
    lines.remove(number - 1);
    file_of(&lines)
}

/// The small chain with another text in a field; field 0 is the word.
pub fn with_field(number: usize, field: usize, text: &str) -> Vec<u8> {
    let mut fields: Vec<&str> = BASE[number - 1].split('\t').collect();
    fields[field] = text;
    with_line(number, fields.join("\t"))
}

/// How many fields follow the word in a line of the small chain.
pub fn fields_in(number: usize) -> usize {
    BASE[number - 1].split('\t').count() - 1
}

/// A line of a word and numbers, without its line feed.
pub fn line_of<T: ToString>(word: &str, numbers: &[T]) -> String {
    let fields: Vec<String> = numbers.iter().map(T::to_string).collect();
    format!("{word}\t{}", fields.join("\t"))
}
