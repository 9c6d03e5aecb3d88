//! Numbers that are not written as they must be, and numbers at the borders of their types.

use super::parts::{fields_in, lines_of, with_field};
use crate::stored::StoredFile;

/// Texts that are no number in any kind of line, with the kinds in which they are tried.
pub(crate) const NEVER_NUMBERS: [(&str, &str, &[&str]); 11] = [
    ("plus_one", "+1", &["param", "leaf", "c"]),
    ("leading_zero", "01", &["a", "leaf", "c"]),
    ("minus_zero", "-0", &["a", "leaf", "c"]),
    ("double_zero", "00", &["param", "leaf"]),
    ("empty_field", "", &["param", "a", "leaf", "c"]),
    ("blank", " ", &["a", "leaf"]),
    ("point", "1.0", &["param", "leaf", "c"]),
    ("hexadecimal", "0x1", &["a", "leaf"]),
    ("other_digit", "\u{661}", &["param", "leaf", "c"]),
    ("minus_alone", "-", &["a", "leaf", "c"]),
    ("two_64_and_one", "18446744073709551617", &["param", "a", "leaf", "c"]),
];

/// Names with a line and a field of the small chain and the number put there.
const BORDERS: [(&str, usize, usize, &str); 15] = [
    ("param_two_64_13", 1, 5, "18446744073709551616"),
    ("param_minus_one_13", 1, 1, "-1"),
    ("a_two_64_13", 2, 1, "18446744073709551616"),
    ("a_minus_one_13", 2, 4, "-1"),
    ("leaf_first_two_63_less_one_8", 3, 1, "9223372036854775807"),
    ("leaf_second_two_63_less_one_8", 4, 2, "9223372036854775807"),
    ("leaf_two_63_13", 4, 1, "9223372036854775808"),
    ("leaf_first_minus_two_63_8", 3, 2, "-9223372036854775808"),
    ("leaf_third_minus_two_63_8", 6, 1, "-9223372036854775808"),
    ("leaf_minus_two_63_less_one_13", 6, 2, "-9223372036854775809"),
    ("leaf_two_64_less_one_13", 3, 1, "18446744073709551615"),
    ("leaf_minus_leading_zero_13", 4, 1, "-01"),
    ("c_entry_two_13", 5, 1, "2"),
    ("c_entry_minus_two_13", 7, 6, "-2"),
    ("c_entry_eleven_13", 5, 6, "11"),
];

/// The small chain with a text at a place that goes round the lines of a kind and their fields.
fn at_place(i: usize, kind: &str, text: &str) -> Vec<u8> {
    let lines = lines_of(kind);
    let line = lines[i % lines.len()];
    with_field(line, 1 + (i / lines.len()) % fields_in(line), text)
}

/// All files of this subject.
pub fn files() -> Vec<StoredFile> {
    let mut files = Vec::new();
    for (i, (label, text, kinds)) in NEVER_NUMBERS.iter().enumerate() {
        for kind in *kinds {
            files.push(StoredFile::new(format!("{kind}_{label}_13"), at_place(i, kind, text)));
        }
    }
    let digits = format!("1{}", "0".repeat(999));
    for (i, kind) in ["param", "a", "leaf", "c"].iter().enumerate() {
        files.push(StoredFile::new(format!("{kind}_thousand_digits_13"), at_place(i, kind, &digits)));
    }
    for (name, line, field, text) in BORDERS {
        files.push(StoredFile::new(name, with_field(line, field, text)));
    }
    files
}
