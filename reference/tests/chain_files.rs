//! The stored chain files.

mod common;
use common::*;
use reference::chain::run;
use reference::chain_files::{all, subjects};
use reference::stored::{args, stdout, StoredFile};

// What the small chain prints, worked out by hand; 2^64 − 12, − 15 and − 1 stand in full.
const L1: &str = "leaf\t1\t18446744073709551604\t48\t72\t1\n";
const L2: &str = "leaf\t2\t37\t18446744073709551601\t65\t1\n";
const F1: &str = "fold\t1\tyes\t18446744073709551615\t23\t13\t2\n";
const L3: &str = "leaf\t3\t21\t11\t13\t1\n";
const F2: &str = "fold\t2\tyes\t14\t20\t10\t3\n";

/// Whole outputs written by hand from document 01: names with the parts of the output.
const BY_HAND: [(&str, &[&str]); 36] = [
    (
        "printed_example",
        &["leaf\t1\t21\t49\t1\nleaf\t2\t18446744073709551601\t25\t1\nfold\t1\tyes\t15\t25\t2\nend\t1\tmember\n"],
    ),
    ("one_leaf", &["leaf\t1\t21\t49\t1\nend\t0\tmember\n"]),
    ("small_chain_two_folds", &[L1, L2, F1, L3, F2, "end\t2\tmember\n"]),
    ("a_two_63_times_two_wraps_to_zero", &["leaf\t1\t0\t4\t1\nend\t0\tmember\n"]),
    (
        "a_numbers_at_their_borders",
        &["leaf\t1\t1\t9223372036854775808\t9223372036854775809\t0\t1\t1\nend\t0\tmember\n"],
    ),
    (
        "leaves_at_the_border",
        &["leaf\t1\t10\t100\t1\nleaf\t2\t18446744073709551606\t100\t1\nfold\t1\tyes\t0\t0\t2\nend\t1\tmember\n"],
    ),
    ("growth_is_reached", &["leaf\t1\t25\t25\t1\nleaf\t2\t25\t25\t1\nfold\t1\tyes\t30\t36\t2\nend\t1\tmember\n"]),
    ("param_m_zero_1", &["refused\t1\t1\n"]),
    ("param_b_65536_2", &["refused\t1\t2\n"]),
    ("param_bound_two_62_and_one_3", &["refused\t1\t3\n"]),
    ("param_columns_4", &["refused\t1\t4\n"]),
    ("param_growth_5", &["refused\t1\t5\n"]),
    ("param_width_6", &["refused\t1\t6\n"]),
    ("param_k_9_14", &["refused\t1\t14\n"]),
    ("param_5_before_14_5", &["refused\t1\t5\n"]),
    ("param_13_before_1_13", &["refused\t1\t13\n"]),
    ("a_minus_one_13", &["refused\t2\t13\n"]),
    ("leaf_first_too_long_by_one_8", &["refused\t3\t8\n"]),
    ("leaf_second_too_long_by_one_8", &[L1, "refused\t4\t8\n"]),
    ("leaf_too_long_before_a_bad_c_8", &[L1, "refused\t4\t8\n"]),
    ("leaf_third_minus_two_63_8", &[L1, L2, F1, "refused\t6\t8\n"]),
    ("leaf_third_bad_and_too_long_13", &[L1, L2, F1, "refused\t6\t13\n"]),
    ("leaf_too_long_where_c_is_due_13", &[L1, L2, "refused\t5\t13\n"]),
    ("leaf_squares_wrap_128_bits_8", &["refused\t3\t8\n"]),
    ("leaf_second_column_too_long_by_one_8", &["refused\t3\t8\n"]),
    ("c_entry_two_13", &[L1, L2, "refused\t5\t13\n"]),
    ("c_entry_minus_two_13", &[L1, L2, F1, L3, "refused\t7\t13\n"]),
    ("c_missing_13", &[L1, L2, "refused\t5\t13\n"]),
    ("c_missing_after_a_fold_13", &[L1, L2, F1, L3, "refused\t7\t13\n"]),
    ("c_twice_13", &[L1, L2, F1, "refused\t6\t13\n"]),
    ("empty_input_13", &["refused\t1\t13\n"]),
    ("empty_line_at_the_end_13", &[L1, L2, F1, L3, F2, "refused\t8\t13\n"]),
    ("no_last_line_feed_param_growth_13", &["refused\t1\t13\n"]),
    ("no_last_line_feed_leaf_third_too_long_13", &[L1, L2, F1, "refused\t6\t13\n"]),
    ("no_last_line_feed_4096_bytes_13", &[L1, L2, F1, "refused\t6\t13\n"]),
    ("two_bad_lines_13", &[L1, "refused\t4\t13\n"]),
];

/// The output of a file as text.
fn output(file: &StoredFile) -> String {
    String::from_utf8(run(&file.input)).unwrap()
}

#[test]
fn same_bytes_twice() {
    let (one, two) = (all(), all());
    assert_eq!(one, two);
    assert_eq!(args(&one), args(&two));
    assert_eq!(stdout(&one, run), stdout(&two, run));
}

#[test]
fn number_names_and_sizes() {
    let files = all();
    assert!(files.len() >= 60);
    assert!(plain_names(&files));
    let size: usize = files.iter().map(|file| file.input.len()).sum();
    assert!(size + args(&files).len() + stdout(&files, run).len() < 1_500_000);
    assert!(subjects().iter().all(|subject| !subject.files.is_empty()));
}

#[test]
fn outputs_by_hand() {
    let files = all();
    for (name, parts) in BY_HAND {
        let file = files.iter().find(|file| file.name == name).unwrap_or_else(|| panic!("no file {name}"));
        assert_eq!(output(file), parts.concat(), "{name}");
    }
}

#[test]
fn names_tell_the_refusal() {
    for file in all().iter().filter(|file| !file.name.starts_with("random_damaged")) {
        let text = output(file);
        match named_refusal(&file.name) {
            Some(number) => {
                let fields: Vec<&str> = last_line(&text).split('\t').collect();
                assert_eq!((fields[0], fields[2]), ("refused", number.to_string().as_str()), "{}", file.name);
            }
            None => assert!(text.starts_with("leaf\t1\t") && text.ends_with("\tmember\n"), "{}", file.name),
        }
    }
}

#[test]
fn every_refusal_of_the_program_occurs() {
    let mut seen: Vec<u32> = all().iter().filter_map(|file| named_refusal(&file.name)).collect();
    seen.sort();
    seen.dedup();
    assert_eq!(seen, [1, 2, 3, 4, 5, 6, 8, 13, 14]);
    let text = String::from_utf8(stdout(&all(), run)).unwrap();
    for number in seen {
        assert!(text.lines().any(|line| line.starts_with("refused\t") && line.ends_with(&format!("\t{number}"))));
    }
}

#[test]
fn refused_at_the_line_of_its_kind() {
    // In the small chain param, a and the leaves have one place each; c has two.
    let places = [("param_", "1"), ("a_", "2"), ("leaf_first_", "3"), ("leaf_second_", "4"), ("leaf_third_", "6")];
    let numbers = subjects().into_iter().filter(|subject| subject.title == "numerals" || subject.title == "settings");
    for file in numbers.flat_map(|subject| subject.files) {
        let text = output(&file);
        let line = last_line(&text).split('\t').nth(1).unwrap().to_string();
        for (_, number) in places.iter().filter(|(start, _)| file.name.starts_with(start)) {
            assert_eq!(line, *number, "{}", file.name);
        }
        if file.name.starts_with("c_") {
            assert!(line == "5" || line == "7", "{}", file.name);
        }
    }
}

#[test]
fn lines_have_the_length_in_their_name() {
    for length in [4095, 4096, 4097, 10000, 10001] {
        let ending = format!("_line_of_{length}_bytes_13");
        let files: Vec<StoredFile> = all().into_iter().filter(|file| file.name.ends_with(&ending)).collect();
        assert!(!files.is_empty(), "{length}");
        for file in files {
            let longest = file.input.split_inclusive(|byte| *byte == b'\n').map(<[u8]>::len).max();
            assert_eq!(longest, Some(length), "{}", file.name);
        }
    }
    for length in [4095, 4096] {
        let name = format!("no_last_line_feed_{length}_bytes_13");
        let file = all().into_iter().find(|file| file.name == name).unwrap();
        assert_eq!(file.input.rsplit(|byte| *byte == b'\n').next().map(<[u8]>::len), Some(length));
    }
}

#[test]
fn chains_are_as_long_as_they_say() {
    let mut long = 0;
    for file in all().iter().filter(|file| file.name.ends_with("_folds")) {
        let Some(folds) = file.name.rsplit('_').nth(1).and_then(|word| word.parse::<usize>().ok()) else { continue };
        assert!(output(file).ends_with(&format!("\nend\t{folds}\tmember\n")), "{}", file.name);
        long += usize::from(folds >= 200);
    }
    assert!(long >= 2);
    let late = all().into_iter().find(|file| file.name == "leaf_too_long_after_40_folds_8").unwrap();
    let text = output(&late);
    assert_eq!(text.lines().filter(|line| line.starts_with("fold\t")).count(), 40);
    assert_eq!(last_line(&text), "refused\t84\t8");
}

#[test]
fn written_form() {
    let files = vec![all()[0].clone(), all()[1].clone()];
    assert_eq!(args(&files), b"printed_example\none_leaf\n");
    let text = String::from_utf8(stdout(&files, run)).unwrap();
    assert!(text.starts_with("== printed_example\nleaf\t1\t21\t49\t1\n"));
    assert!(text.ends_with("end\t1\tmember\n== one_leaf\nleaf\t1\t21\t49\t1\nend\t0\tmember\n"));
}
