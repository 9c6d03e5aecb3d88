//! The stored load files.

mod common;
use common::*;
use reference::load::run;
use reference::load_files::{all, subjects};
use reference::settings::{refusal, Parameters};
use reference::stored::{args, stdout, StoredFile};

/// Whole outputs written by hand: names with the output.
const BY_HAND: [(&str, &str); 32] = [
    (
        "seed_one",
        "param\t1\t1\t1\t2\t100\na\t7806831264735756412\nleaf\t0\nleaf\t0\nc\t1\t0\t1\t1\t0\t0\t0\t0\t-1\t1\n",
    ),
    (
        "seed_zero",
        "param\t1\t1\t1\t2\t100\na\t1442695040888963407\nleaf\t0\nleaf\t-5\nc\t0\t1\t1\t1\t1\t1\t1\t-1\t0\t1\n",
    ),
    (
        "seed_two_64_less_one",
        "param\t1\t1\t1\t2\t100\na\t13525302890751722018\nleaf\t4\nleaf\t-10\nc\t-1\t0\t1\t1\t-1\t0\t1\t1\t1\t-1\n",
    ),
    ("one_leaf", "param\t1\t1\t1\t2\t100\na\t7806831264735756412\nleaf\t0\n"),
    (
        "small_setting_of_two_rows",
        "param\t2\t2\t1\t3\t72\n\
         a\t11035154253889893407\t11529910150516526018\t5421506643223711849\t1984338261489515204\n\
         leaf\t1\t3\nleaf\t2\t3\nc\t0\t1\t-1\t-1\t-1\t-1\nleaf\t-3\t-6\nc\t0\t0\t0\t1\t1\t1\n",
    ),
    ("param_m_zero_1", "refused\t1\t1\n"),
    ("param_b_65536_2", "refused\t1\t2\n"),
    ("param_bound_two_62_and_one_3", "refused\t1\t3\n"),
    ("param_columns_4", "refused\t1\t4\n"),
    ("param_growth_5", "refused\t1\t5\n"),
    ("param_width_6", "refused\t1\t6\n"),
    ("param_k_9_14", "refused\t1\t14\n"),
    ("param_5_before_14_5", "refused\t1\t5\n"),
    ("param_13_before_1_13", "refused\t1\t13\n"),
    ("param_carriage_return_13", "refused\t1\t13\n"),
    ("load_count_zero_13", "refused\t2\t13\n"),
    ("load_count_1001_13", "refused\t2\t13\n"),
    ("load_count_leading_zero_13", "refused\t2\t13\n"),
    ("load_seed_two_64_13", "refused\t2\t13\n"),
    ("load_field_missing_13", "refused\t2\t13\n"),
    ("empty_input_13", "refused\t1\t13\n"),
    ("empty_line_first_13", "refused\t1\t13\n"),
    ("swapped_lines_13", "refused\t1\t13\n"),
    ("load_missing_13", "refused\t2\t13\n"),
    ("param_growth_without_line_feed_13", "refused\t1\t13\n"),
    ("load_without_line_feed_13", "refused\t2\t13\n"),
    ("param_growth_before_a_bad_load_5", "refused\t1\t5\n"),
    ("load_bad_before_a_third_line_13", "refused\t2\t13\n"),
    ("third_line_feed_alone_13", "refused\t3\t13\n"),
    ("third_line_one_byte_13", "refused\t3\t13\n"),
    ("third_line_leaf_13", "refused\t3\t13\n"),
    ("load_of_9000_bytes_without_line_feed_13", "refused\t2\t13\n"),
];

/// The output of a file as text.
fn output(file: &StoredFile) -> String {
    String::from_utf8(run(&file.input)).unwrap()
}

/// The file with this name.
fn named(name: &str) -> StoredFile {
    all().into_iter().find(|file| file.name == name).unwrap_or_else(|| panic!("no file {name}"))
}

#[test]
fn same_bytes_twice() {
    let (one, two) = (all(), all());
    assert_eq!(one, two);
    assert_eq!(args(&one), args(&two));
    assert_eq!(stdout(&one, run), stdout(&two, run));
}

#[test]
fn number_names_and_sizes() {
    let files = all();
    assert!(files.len() >= 100);
    assert!(plain_names(&files));
    let size: usize = files.iter().map(|file| file.input.len()).sum();
    assert!(size + args(&files).len() < 150_000);
    assert!(stdout(&files, run).len() < 400_000);
    assert!(subjects().iter().all(|subject| !subject.files.is_empty()));
}

#[test]
fn outputs_by_hand() {
    for (name, expected) in BY_HAND {
        assert_eq!(output(&named(name)), expected, "{name}");
    }
}

#[test]
fn names_tell_the_refusal() {
    for file in all() {
        let text = output(&file);
        match named_refusal(&file.name) {
            Some(number) => {
                let fields: Vec<&str> = last_line(&text).split('\t').collect();
                assert_eq!((fields[0], fields[2]), ("refused", number.to_string().as_str()), "{}", file.name);
                // The refusal alone.
                assert_eq!(text.lines().count(), 1, "{}", file.name);
            }
            None => assert!(text.starts_with("param\t") && text.contains("\nleaf\t"), "{}", file.name),
        }
    }
}

#[test]
fn every_refusal_of_the_program_occurs() {
    let mut seen: Vec<u32> = all().iter().filter_map(|file| named_refusal(&file.name)).collect();
    seen.sort();
    seen.dedup();
    assert_eq!(seen, [1, 2, 3, 4, 5, 6, 13, 14]);
    let text = String::from_utf8(stdout(&all(), run)).unwrap();
    for ending in ["1\t1", "1\t2", "1\t3", "1\t4", "1\t5", "1\t6", "1\t14", "1\t13", "2\t13", "3\t13"] {
        assert!(text.lines().any(|line| line == format!("refused\t{ending}")), "{ending}");
    }
}

#[test]
fn refused_at_the_line_of_its_name() {
    let mut named = [0; 4];
    for file in all().iter().filter(|file| named_refusal(&file.name).is_some()) {
        let lines = [("param_", 1), ("load_", 2), ("third_", 3)];
        for (_, line) in lines.iter().filter(|(start, _)| file.name.starts_with(start)) {
            assert!(output(file).starts_with(&format!("refused\t{line}\t")), "{}", file.name);
            named[*line] += 1;
        }
    }
    assert!(named[1] > 40 && named[2] > 40 && named[3] > 10, "{named:?}");
}

#[test]
fn lines_have_the_length_in_their_name() {
    let mut seen = 0;
    for file in all().iter().filter(|file| file.name.contains("_bytes_")) {
        let words: Vec<&str> = file.name.split('_').collect();
        let place = words.iter().position(|word| *word == "bytes").unwrap();
        let length: usize = words[place - 1].parse().unwrap();
        let longest = file.input.split_inclusive(|byte| *byte == b'\n').map(<[u8]>::len).max();
        assert_eq!(longest, Some(length), "{}", file.name);
        assert_eq!(file.name.contains("line_feed"), file.input.last() != Some(&b'\n'), "{}", file.name);
        seen += 1;
    }
    assert_eq!(seen, 13);
}

/// The setting of a file's first line.
fn setting_of(file: &StoredFile) -> Parameters {
    let text = String::from_utf8(file.input.clone()).unwrap();
    let five: Vec<u64> = text.lines().next().unwrap().split('\t').skip(1).map(|field| field.parse().unwrap()).collect();
    setting(five[0], five[1], five[2], five[3], five[4])
}

#[test]
fn the_largest_settings_are_the_largest() {
    let p = setting_of(&named("greatest_shape_and_longest_entries"));
    assert_eq!((p.n, p.m, p.t, p.k(), refusal(&p)), (8, 16, 2, 8, 0));
    // One more in B is a ninth digit, and a greater base, which for eight digits is at most 35, is too wide.
    assert_eq!(Parameters { bound: p.bound + 1, ..p }.k(), 9);
    for b in p.b + 1..=35 {
        assert_eq!(refusal(&Parameters { b, bound: b.pow(12), ..p }), 6, "{b}");
    }
    let r = |name: &str| {
        let p = setting_of(&named(name));
        reference::load::radius(p.m, p.bound)
    };
    assert_eq!((r("least_radius"), r("greatest_radius")), (6, 170859374));
    assert_eq!((r("radius_just_reached"), r("radius_just_missed"), r("bound_is_no_square_times_m")), (256, 255, 173));
}

#[test]
fn loads_have_as_many_leaves_as_they_say() {
    let leaves = |name: &str| output(&named(name)).lines().filter(|line| line.starts_with("leaf\t")).count();
    assert_eq!((leaves("one_leaf"), leaves("seed_one"), leaves("three_leaves")), (1, 2, 3));
    assert_eq!(leaves("thousand_leaves"), 1000);
}

#[test]
fn written_form() {
    let files = [named("one_leaf"), named("load_missing_13")];
    assert_eq!(args(&files), b"one_leaf\nload_missing_13\n");
    let first = "== one_leaf\nparam\t1\t1\t1\t2\t100\na\t7806831264735756412\nleaf\t0\n";
    assert_eq!(stdout(&files, run), format!("{first}== load_missing_13\nrefused\t2\t13\n").into_bytes());
}
