//! Stored load files: inputs of the load program.

use crate::chain_files::{lines::CHANGES, numerals::NEVER_NUMBERS, params::REFUSED};
use crate::settings::{Parameters, LIST};
use crate::stored::{file_of, in_order, stretched, StoredFile, Subject};

/// A good input: setting 1, two leaves, seed 1.
const BASE: [&str; 2] = ["param\t1\t1\t1\t2\t100", "load\t2\t1"];

/// A setting from its five numbers.
const fn setting(n: u64, m: u64, t: u64, b: u64, bound: u64) -> Parameters {
    Parameters { n, m, t, b, bound }
}

/// Names with a setting, a leaf count and a seed.
const GOOD: [(&str, Parameters, u64, u64); 21] = [
    ("seed_one", LIST[0], 2, 1),
    ("seed_zero", LIST[0], 2, 0),
    ("seed_two_64_less_one", LIST[0], 2, u64::MAX),
    ("seed_of_the_top_bit", LIST[0], 2, 1 << 63),
    ("one_leaf", LIST[0], 1, 1),
    ("three_leaves", LIST[0], 3, 1),
    ("thousand_leaves", LIST[0], 1000, 1),
    ("house_setting_two", LIST[1], 3, 20260201),
    ("greatest_n", setting(8, 1, 1, 2, 100), 3, 5),
    ("greatest_m", setting(1, 16, 1, 32, 1048576), 3, 6),
    ("greatest_t", setting(1, 1, 2, 32, 1048576), 3, 7),
    ("greatest_k", setting(1, 1, 1, 2, 16383), 3, 8),
    ("greatest_n_m_t_and_k", setting(8, 16, 2, 3, 4782968), 3, 9),
    // With n = 8, m = 16, t = 2 and k = 8 no greater base or bound is accepted: no file is longer for its leaves.
    ("greatest_shape_and_longest_entries", setting(8, 16, 2, 13, 3937376385699288), 3, 10),
    ("greatest_base", setting(3, 1, 2, 1625, 6972900390624), 3, 11),
    // r is 6 and 170859374, the least and the greatest that the program's settings have.
    ("least_radius", setting(1, 1, 1, 3, 36), 3, 12),
    ("greatest_radius", setting(1, 1, 1, 15, 29192926025390624), 3, 13),
    // r is 256 where B is 256² × 16, and 255 where it is less by one.
    ("radius_just_reached", setting(1, 16, 2, 32, 1048576), 2, 14),
    ("radius_just_missed", setting(1, 16, 2, 32, 1048575), 2, 14),
    // 173² × 3 = 89787.
    ("bound_is_no_square_times_m", setting(4, 3, 1, 7, 90000), 3, 15),
    ("small_setting_of_two_rows", setting(2, 2, 1, 3, 72), 3, 16),
];

/// The input that asks for a load.
fn input(p: &Parameters, leaves: u64, seed: u64) -> Vec<u8> {
    let Parameters { n, m, t, b, bound } = p;
    format!("param\t{n}\t{m}\t{t}\t{b}\t{bound}\nload\t{leaves}\t{seed}\n").into_bytes()
}

/// Loads that are printed.
fn good() -> Vec<StoredFile> {
    GOOD.iter().map(|(name, p, leaves, seed)| StoredFile::new(*name, input(p, *leaves, *seed))).collect()
}

/// The good input with another line at this number, counted from 1.
fn with_line(number: usize, line: impl AsRef<[u8]>) -> Vec<u8> {
    let mut lines = BASE.map(str::as_bytes);
    lines[number - 1] = line.as_ref();
    file_of(&lines)
}

/// The good input with another text in a field; field 0 is the word.
fn with_field(number: usize, field: usize, text: &str) -> Vec<u8> {
    let mut fields: Vec<&str> = BASE[number - 1].split('\t').collect();
    fields[field] = text;
    with_line(number, fields.join("\t"))
}

/// Refusals of the first line, as the chain program gives them; the second line is good.
fn settings() -> Vec<StoredFile> {
    let refused = |(name, fields): &(&str, &str)| StoredFile::new(*name, with_line(1, format!("param\t{fields}")));
    REFUSED.iter().map(refused).collect()
}

/// Names with a line and a field of the good input and the text put there.
const REPLACED: [(&str, usize, usize, &str); 22] = [
    ("load_count_zero_13", 2, 1, "0"),
    ("load_count_1001_13", 2, 1, "1001"),
    ("load_count_10000_13", 2, 1, "10000"),
    ("load_count_minus_one_13", 2, 1, "-1"),
    ("load_count_two_32_and_one_13", 2, 1, "4294967297"),
    ("load_count_two_63_and_one_13", 2, 1, "9223372036854775809"),
    ("load_count_two_64_less_one_13", 2, 1, "18446744073709551615"),
    ("load_count_two_64_13", 2, 1, "18446744073709551616"),
    ("load_seed_minus_one_13", 2, 2, "-1"),
    ("load_seed_two_64_13", 2, 2, "18446744073709551616"),
    ("load_seed_two_65_13", 2, 2, "36893488147419103232"),
    ("load_upper_case_13", 2, 0, "LOAD"),
    ("load_one_capital_13", 2, 0, "Load"),
    ("load_with_s_13", 2, 0, "loads"),
    ("load_cut_short_13", 2, 0, "loa"),
    ("load_word_empty_13", 2, 0, ""),
    ("load_word_leaf_13", 2, 0, "leaf"),
    ("load_word_param_13", 2, 0, "param"),
    ("param_upper_case_13", 1, 0, "PARAM"),
    ("param_one_capital_13", 1, 0, "Param"),
    ("param_word_load_13", 1, 0, "load"),
    ("param_word_a_13", 1, 0, "a"),
];

/// Fields that are not what they must be.
fn fields() -> Vec<StoredFile> {
    let replaced = |(name, line, field, text): &(&str, usize, usize, &str)| {
        StoredFile::new(*name, with_field(*line, *field, text))
    };
    let mut files: Vec<StoredFile> = REPLACED.iter().map(replaced).collect();
    let digits = format!("1{}", "0".repeat(999));
    let never = NEVER_NUMBERS.iter().map(|(label, text, _)| (*label, *text)).chain([("thousand_digits", &digits[..])]);
    for (i, (label, text)) in never.enumerate() {
        files.push(StoredFile::new(format!("param_{label}_13"), with_field(1, 1 + i % 5, text)));
        files.push(StoredFile::new(format!("load_count_{label}_13"), with_field(2, 1, text)));
        files.push(StoredFile::new(format!("load_seed_{label}_13"), with_field(2, 2, text)));
    }
    files
}

/// Lines with a wrong number of fields or bytes that do not belong there.
fn lines() -> Vec<StoredFile> {
    let mut files = Vec::new();
    for (label, change, _) in CHANGES {
        for (kind, number) in [("param", 1), ("load", 2)] {
            files.push(StoredFile::new(format!("{kind}_{label}_13"), with_line(number, change(BASE[number - 1]))));
        }
    }
    files.push(StoredFile::new("byte_order_mark_13", [&[0xef, 0xbb, 0xbf], &file_of(&BASE)[..]].concat()));
    files
}

/// Names with whole inputs: missing and swapped lines, a line that does not end, and which refusal comes first.
const ORDER: [(&str, &str); 22] = [
    ("empty_input_13", ""),
    ("only_a_line_feed_13", "\n"),
    ("empty_line_first_13", "\nparam\t1\t1\t1\t2\t100\nload\t2\t1\n"),
    ("swapped_lines_13", "load\t2\t1\nparam\t1\t1\t1\t2\t100\n"),
    ("load_missing_13", "param\t1\t1\t1\t2\t100\n"),
    ("load_after_an_empty_line_13", "param\t1\t1\t1\t2\t100\n\nload\t2\t1\n"),
    ("load_after_a_second_param_13", "param\t1\t1\t1\t2\t100\nparam\t1\t1\t1\t2\t100\nload\t2\t1\n"),
    ("load_after_a_13", "param\t1\t1\t1\t2\t100\na\t3\nload\t2\t1\n"),
    ("param_without_line_feed_13", "param\t1\t1\t1\t2\t100"),
    ("param_growth_without_line_feed_13", "param\t1\t1\t1\t2\t99"),
    ("param_too_large_without_line_feed_13", "param\t9\t1\t1\t2\t100"),
    ("load_without_line_feed_13", "param\t1\t1\t1\t2\t100\nload\t2\t1"),
    ("load_count_zero_without_line_feed_13", "param\t1\t1\t1\t2\t100\nload\t0\t1"),
    ("load_one_byte_without_line_feed_13", "param\t1\t1\t1\t2\t100\nl"),
    ("load_nul_without_line_feed_13", "param\t1\t1\t1\t2\t100\n\0"),
    ("param_growth_and_load_missing_5", "param\t1\t1\t1\t2\t99\n"),
    ("param_growth_before_a_bad_load_5", "param\t1\t1\t1\t2\t99\nload\t0\t1\n"),
    ("param_too_large_before_a_bad_load_14", "param\t9\t1\t1\t2\t100\nload\t1001\t1\n"),
    ("param_n_zero_before_a_load_without_line_feed_1", "param\t0\t1\t1\t2\t100\nload\t2\t1"),
    ("param_growth_before_a_third_line_5", "param\t1\t1\t1\t2\t99\nload\t2\t1\nleaf\t7\n"),
    ("load_bad_before_a_third_line_13", "param\t1\t1\t1\t2\t100\nload\t0\t1\nleaf\t7\n"),
    ("load_bad_before_a_line_feed_13", "param\t1\t1\t1\t2\t100\nload\t2\n\n"),
];

/// Missing lines, and the order of refusals.
fn order() -> Vec<StoredFile> {
    ORDER.iter().map(|(name, text)| StoredFile::new(*name, *text)).collect()
}

/// Names with what follows the two good lines.
const THIRD: [(&str, &str); 14] = [
    ("third_line_feed_alone_13", "\n"),
    ("third_line_two_line_feeds_13", "\n\n"),
    ("third_line_one_byte_13", "x"),
    ("third_line_nul_byte_13", "\0"),
    ("third_line_blank_13", " "),
    ("third_line_tab_13", "\t"),
    ("third_line_carriage_return_13", "\r\n"),
    ("third_line_a_13", "a\t3\n"),
    ("third_line_leaf_13", "leaf\t7\n"),
    ("third_line_leaf_without_line_feed_13", "leaf\t7"),
    ("third_line_load_13", "load\t2\t1\n"),
    ("third_line_bad_load_13", "load\t0\t1\n"),
    ("third_line_param_13", "param\t1\t1\t1\t2\t100\n"),
    ("third_line_refused_param_13", "param\t1\t1\t1\t2\t99\n"),
];

/// A third line, of whatever kind.
fn third_lines() -> Vec<StoredFile> {
    let after = |name: &str, rest: &[u8]| StoredFile::new(name, [&file_of(&BASE), rest].concat());
    let mut files: Vec<StoredFile> = THIRD.iter().map(|(name, rest)| after(name, rest.as_bytes())).collect();
    let run = stretched("leaf\t7", 9001);
    files.push(after("third_of_9000_bytes_without_line_feed_13", run.as_bytes()));
    files
}

/// Long lines, with their line feed and without one; all of them are bad.
fn lengths() -> Vec<StoredFile> {
    let mut files = Vec::new();
    for (kind, number) in [("param", 1), ("load", 2)] {
        for length in [4095, 4096, 4097] {
            let line = stretched(BASE[number - 1], length);
            files.push(StoredFile::new(format!("{kind}_line_of_{length}_bytes_13"), with_line(number, line)));
        }
        for length in [4095, 4096, 9000] {
            let run = stretched(BASE[number - 1], length + 1).into_bytes();
            let name = format!("{kind}_of_{length}_bytes_without_line_feed_13");
            files.push(StoredFile::new(name, [file_of(&BASE[..number - 1]), run].concat()));
        }
    }
    files
}

/// All subjects in the order in which their files are run.
pub fn subjects() -> Vec<Subject> {
    let subject = |title, files| Subject { title, files };
    vec![
        subject("loads that are printed", good()),
        subject("settings", settings()),
        subject("fields", fields()),
        subject("lines", lines()),
        subject("missing lines and the order of refusals", order()),
        subject("third lines", third_lines()),
        subject("length of lines", lengths()),
    ]
}

/// All files in the order in which they are run.
pub fn all() -> Vec<StoredFile> {
    in_order(subjects())
}
