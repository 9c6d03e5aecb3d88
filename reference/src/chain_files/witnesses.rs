//! Witnesses that are too long, and what comes before that.

use super::parts::{first_lines, with_line};
use crate::stored::{file_of, StoredFile};

/// Names with a line of the small chain, B = 72, and the witness put there.
const REPLACED: [(&str, usize, &str); 8] = [
    ("leaf_first_too_long_by_one_8", 3, "leaf\t8\t3"),
    ("leaf_second_too_long_by_one_8", 4, "leaf\t-3\t-8"),
    ("leaf_third_too_long_8", 6, "leaf\t6\t7"),
    ("leaf_first_square_wraps_64_bits_8", 3, "leaf\t4294967296\t0"),
    ("leaf_second_squares_wrap_64_bits_8", 4, "leaf\t4294967296\t-4294967296"),
    ("leaf_first_bad_and_too_long_13", 3, "leaf\t100\t007"),
    ("leaf_third_bad_and_too_long_13", 6, "leaf\t-0\t100"),
    ("leaf_too_long_where_c_is_due_13", 5, "leaf\t100\t100"),
];

/// A chain at setting 2 with this leaf: every entry 0, except some given by their places.
fn at_setting_2(entries: &[(usize, &str)]) -> Vec<u8> {
    let mut leaf = vec!["0"; 32];
    for (place, text) in entries {
        leaf[*place] = text;
    }
    let a = format!("a{}", "\t1".repeat(64));
    file_of(&["param\t4\t16\t2\t32\t1048576", &a, &format!("leaf\t{}", leaf.join("\t"))])
}

/// Leaves at setting 2, where the column is the last factor of a place.
fn several_columns() -> Vec<StoredFile> {
    // Row 3 of column 1 with 1024² = B, alone and with a further 1 in row 15.
    let full = (7, "-1024");
    // Four squares of 2^63 make 2^128.
    let ends = [0, 8, 16, 30].map(|place| (place, "-9223372036854775808"));
    vec![
        StoredFile::new("leaf_second_column_at_the_border", at_setting_2(&[full])),
        StoredFile::new("leaf_second_column_too_long_by_one_8", at_setting_2(&[full, (31, "1")])),
        StoredFile::new("leaf_both_columns_at_the_border", at_setting_2(&[full, (30, "1024")])),
        StoredFile::new("leaf_squares_wrap_128_bits_8", at_setting_2(&ends)),
    ]
}

/// All files of this subject.
pub fn files() -> Vec<StoredFile> {
    let replaced = |(name, line, text): &(&str, usize, &str)| StoredFile::new(*name, with_line(*line, text));
    let mut files: Vec<StoredFile> = REPLACED.iter().map(replaced).collect();
    let long = b"leaf\t7\t7\n".to_vec();
    let before_a_bad_c = [first_lines(3), long.clone(), b"c\t2\n".to_vec()].concat();
    files.push(StoredFile::new("leaf_too_long_before_a_bad_c_8", before_a_bad_c));
    files.push(StoredFile::new("leaf_too_long_and_c_missing_8", [first_lines(3), long].concat()));
    files.extend(several_columns());
    files
}
