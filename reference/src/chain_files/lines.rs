//! Lines with a wrong word, a wrong number of fields or bytes that do not belong there.

use super::parts::{lines_of, with_field, with_line, BASE};
use crate::stored::StoredFile;

/// Names with a line of the small chain and the word put there.
const WORDS: [(&str, usize, &str); 7] = [
    ("param_upper_case_13", 1, "PARAM"),
    ("a_doubled_13", 2, "aa"),
    ("leaf_first_one_capital_13", 3, "Leaf"),
    ("leaf_second_cut_short_13", 4, "lea"),
    ("leaf_third_with_s_13", 6, "leafs"),
    ("c_upper_case_13", 5, "C"),
    ("c_word_empty_13", 7, ""),
];

/// A change of a line.
pub(crate) type Change = fn(&str) -> Vec<u8>;

/// Changes that make any line bad, with the kinds in which they are tried.
pub(crate) const CHANGES: [(&str, Change, &[&str]); 10] = [
    ("word_alone", |line| line.split('\t').next().unwrap_or("").into(), &["param", "a", "leaf", "c"]),
    ("field_missing", |line| line.rsplit_once('\t').map_or(line, |(rest, _)| rest).into(), &["param", "a", "leaf", "c"]),
    ("field_too_many", |line| format!("{line}\t1").into(), &["param", "a", "leaf", "c"]),
    ("trailing_tab", |line| format!("{line}\t").into(), &["param", "leaf"]),
    ("doubled_tab", |line| line.replacen('\t', "\t\t", 1).into(), &["a", "c"]),
    ("blank_for_tab", |line| line.replacen('\t', " ", 1).into(), &["leaf"]),
    ("carriage_return", |line| format!("{line}\r").into(), &["param", "a", "leaf", "c"]),
    ("nul_byte", |line| format!("{line}\0").into(), &["leaf", "c"]),
    ("byte_177", |line| [line.as_bytes(), &[177]].concat(), &["param", "leaf"]),
    ("byte_225_in_word", |line| [&[225], &line.as_bytes()[1..]].concat(), &["a"]),
];

/// All files of this subject; the place of a change goes round the lines of a kind.
pub fn files() -> Vec<StoredFile> {
    let word = |(name, line, text): &(&str, usize, &str)| StoredFile::new(*name, with_field(*line, 0, text));
    let mut files: Vec<StoredFile> = WORDS.iter().map(word).collect();
    for (i, (label, change, kinds)) in CHANGES.iter().enumerate() {
        for kind in *kinds {
            let line = lines_of(kind)[i % lines_of(kind).len()];
            files.push(StoredFile::new(format!("{kind}_{label}_13"), with_line(line, change(BASE[line - 1]))));
        }
    }
    let marked = [&[0xef, 0xbb, 0xbf], BASE[0].as_bytes()].concat();
    files.push(StoredFile::new("byte_order_mark_13", with_line(1, marked)));
    files
}
