//! Small chains that run to their end.

use super::parts::first_lines;
use crate::stored::{file_of, StoredFile};

/// Small chains of a few lines, as text.
const SMALL: [(&str, &str); 7] = [
    (
        "printed_example",
        "param\t1\t1\t1\t2\t100\na\t3\nleaf\t7\nleaf\t-5\nc\t1\t1\t1\t0\t0\t-1\t0\t-1\t0\t0\n",
    ),
    ("one_leaf", "param\t1\t1\t1\t2\t100\na\t3\nleaf\t7\n"),
    (
        "printed_example_zero_challenge",
        "param\t1\t1\t1\t2\t100\na\t3\nleaf\t7\nleaf\t-5\nc\t0\t0\t0\t0\t0\t0\t0\t0\t0\t0\n",
    ),
    ("a_two_63_times_two_wraps_to_zero", "param\t1\t1\t1\t2\t100\na\t9223372036854775808\nleaf\t2\n"),
    (
        "a_numbers_at_their_borders",
        "param\t4\t1\t1\t2\t100\na\t18446744073709551615\t9223372036854775808\t9223372036854775807\t0\nleaf\t-1\n",
    ),
    // Both leaves at B = 100, and the fold of −10 with 10 by ones is 0.
    (
        "leaves_at_the_border",
        "param\t1\t1\t1\t2\t100\na\t1\nleaf\t10\nleaf\t-10\nc\t1\t1\t1\t1\t1\t1\t1\t1\t1\t1\n",
    ),
    // 5 is −1 −1 1 at b = 3, so that two of them make 6 and D' = 36 = B.
    ("growth_is_reached", "param\t1\t1\t1\t3\t36\na\t5\nleaf\t5\nleaf\t5\nc\t-1\t-1\t1\t-1\t-1\t1\n"),
];

/// The longest good line: 8 × 16 entries of 20 digits, 2690 bytes with its line feed.
fn longest_good_line() -> Vec<u8> {
    let a = format!("a{}", "\t18446744073709551615".repeat(128));
    let leaf = format!("leaf{}", "\t-1".repeat(32));
    file_of(&["param\t8\t16\t2\t32\t1048576", &a, &leaf])
}

/// All files of this subject.
pub fn files() -> Vec<StoredFile> {
    let mut files: Vec<StoredFile> = SMALL.iter().map(|(name, text)| StoredFile::new(*name, *text)).collect();
    files.push(StoredFile::new("small_chain_two_folds", first_lines(7)));
    files.push(StoredFile::new("longest_good_line", longest_good_line()));
    files
}
