//! Missing lines, lines that are not due, a last line without its line feed, and long lines.

use super::parts::{first_lines, with_further_line, with_line, without_line, BASE};
use crate::stored::{file_of, stretched, StoredFile};

/// Names with the number of a further line in the small chain and its text.
const FURTHER: [(&str, usize, &str); 11] = [
    ("empty_line_where_leaf_is_due_13", 4, ""),
    ("empty_line_where_c_is_due_13", 5, ""),
    ("empty_line_at_the_end_13", 8, ""),
    ("param_twice_13", 2, "param\t2\t2\t1\t3\t72"),
    ("a_twice_13", 3, "a\t3\t5\t7\t11"),
    ("a_at_the_end_13", 8, "a\t3\t5\t7\t11"),
    ("leaf_where_c_is_due_13", 5, "leaf\t1\t1"),
    ("c_before_first_leaf_13", 3, "c\t0\t0\t0\t0\t0\t0"),
    ("c_after_first_leaf_13", 4, "c\t0\t0\t0\t0\t0\t0"),
    ("c_twice_13", 6, "c\t0\t0\t0\t0\t0\t0"),
    ("end_word_at_the_end_13", 8, "end"),
];

/// Names with how many first lines of the small chain are there.
const CUT: [(&str, usize); 5] = [
    ("empty_input_13", 0),
    ("a_missing_13", 1),
    ("leaf_first_missing_13", 2),
    ("c_missing_13", 4),
    ("c_missing_after_a_fold_13", 6),
];

/// Names with the number of the line that is left out of the small chain.
const LEFT_OUT: [(&str, usize); 3] =
    [("param_left_out_13", 1), ("a_left_out_13", 2), ("c_left_out_13", 5)];

/// Missing lines and lines that are not due.
pub fn missing_and_extra() -> Vec<StoredFile> {
    let mut files = vec![StoredFile::new("only_a_line_feed_13", "\n")];
    files.extend(CUT.iter().map(|(name, count)| StoredFile::new(*name, first_lines(*count))));
    files.extend(LEFT_OUT.iter().map(|(name, number)| StoredFile::new(*name, without_line(*number))));
    files.extend(FURTHER.iter().map(|(name, number, line)| StoredFile::new(*name, with_further_line(*number, line))));
    // The run stops at the first bad line.
    files.push(StoredFile::new("two_bad_lines_13", [first_lines(3), file_of(&["x", "leaf\t100\t100"])].concat()));
    files
}

/// Names with how many first lines of the small chain are whole and the bytes after them.
const UNTERMINATED: [(&str, usize, &str); 9] = [
    ("no_last_line_feed_param_13", 0, BASE[0]),
    ("no_last_line_feed_param_growth_13", 0, "param\t1\t1\t1\t2\t99"),
    ("no_last_line_feed_a_13", 1, BASE[1]),
    ("no_last_line_feed_leaf_first_13", 2, BASE[2]),
    ("no_last_line_feed_leaf_first_too_long_13", 2, "leaf\t8\t3"),
    ("no_last_line_feed_leaf_second_13", 3, BASE[3]),
    ("no_last_line_feed_leaf_third_too_long_13", 5, "leaf\t100\t100"),
    ("no_last_line_feed_c_13", 4, BASE[4]),
    ("no_last_line_feed_tab_13", 7, "\t"),
];

/// A last line without its line feed.
pub fn unterminated() -> Vec<StoredFile> {
    let unended = |(name, count, rest): &(&str, usize, &str)| {
        StoredFile::new(*name, [first_lines(*count), rest.as_bytes().to_vec()].concat())
    };
    UNTERMINATED.iter().map(unended).collect()
}

/// Long lines: all of them are bad, as the longest good one has 2690 bytes.
pub fn lengths() -> Vec<StoredFile> {
    let mut files = Vec::new();
    for (kind, number, length) in [("a", 2, 4095), ("leaf", 4, 4096), ("c", 5, 4096), ("c", 5, 4097), ("c", 7, 10000)] {
        let input = with_line(number, stretched(BASE[number - 1], length));
        files.push(StoredFile::new(format!("{kind}_line_of_{length}_bytes_13"), input));
    }
    let letters = [vec![b'x'; 10000], b"\n".to_vec(), first_lines(7)].concat();
    files.push(StoredFile::new("first_line_of_10001_bytes_13", letters));
    for length in [4095, 4096] {
        let rest = stretched(BASE[5], length + 1).into_bytes();
        let input = [first_lines(5), rest].concat();
        files.push(StoredFile::new(format!("no_last_line_feed_{length}_bytes_13"), input));
    }
    files
}
