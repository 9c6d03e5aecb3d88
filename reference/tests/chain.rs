//! The chain program.

mod common;
use common::*;
use reference::chain::{run, run_with_leaves};
use reference::rng::Rng;
use reference::settings::{Parameters, LIST};
use reference::tree::{honest, plain, Tree};

const HEAD: &str = "param\t1\t1\t1\t2\t100\na\t3\n";
const C: &str = "c\t1\t1\t1\t0\t0\t-1\t0\t-1\t0\t0\n";

/// The output as text.
fn output(input: &str) -> String {
    String::from_utf8(run(input.as_bytes())).unwrap()
}

#[test]
fn printed_example() {
    let input = "param\t1\t1\t1\t2\t100\na\t3\nleaf\t7\nleaf\t-5\nc\t1\t1\t1\t0\t0\t-1\t0\t-1\t0\t0\n";
    let expected =
        "leaf\t1\t21\t49\t1\nleaf\t2\t18446744073709551601\t25\t1\nfold\t1\tyes\t15\t25\t2\nend\t1\tmember\n";
    assert_eq!(run(input.as_bytes()), expected.as_bytes());
}

#[test]
fn one_leaf() {
    assert_eq!(output(&format!("{HEAD}leaf\t7\n")), "leaf\t1\t21\t49\t1\nend\t0\tmember\n");
}

#[test]
fn zero_challenge() {
    let input = format!("{HEAD}leaf\t7\nleaf\t-5\nc{}\n", "\t0".repeat(10));
    let expected =
        "leaf\t1\t21\t49\t1\nleaf\t2\t18446744073709551601\t25\t1\nfold\t1\tyes\t0\t0\t2\nend\t1\tmember\n";
    assert_eq!(output(&input), expected);
}

#[test]
fn missing_lines() {
    assert_eq!(output(""), "refused\t1\t13\n");
    assert_eq!(output("param\t1\t1\t1\t2\t100\n"), "refused\t2\t13\n");
    assert_eq!(output(HEAD), "refused\t3\t13\n");
    let input = format!("{HEAD}leaf\t7\nleaf\t-5\n");
    assert_eq!(output(&input), "leaf\t1\t21\t49\t1\nleaf\t2\t18446744073709551601\t25\t1\nrefused\t5\t13\n");
}

#[test]
fn unterminated_lines() {
    assert_eq!(output("param\t1\t1\t1\t2\t100"), "refused\t1\t13\n");
    assert_eq!(output("param\t1\t1\t1\t2\t99"), "refused\t1\t13\n");
    assert_eq!(output(&format!("{HEAD}leaf\t7")), "refused\t3\t13\n");
    assert_eq!(output(&format!("{HEAD}leaf\t11")), "refused\t3\t13\n");
    assert_eq!(output(&format!("{HEAD}leaf\t7\nx")), "leaf\t1\t21\t49\t1\nrefused\t4\t13\n");
    assert_eq!(output(&"x".repeat(4096)), "refused\t1\t13\n");
    assert_eq!(output(&"x".repeat(10000)), "refused\t1\t13\n");
}

#[test]
fn long_lines() {
    for length in [4094, 4095, 4096, 4097, 20000] {
        assert_eq!(output(&format!("{}\nparam\t1\t1\t1\t2\t100\n", "x".repeat(length))), "refused\t1\t13\n");
        let input = format!("{HEAD}leaf\t7\n{}\n", "7".repeat(length));
        assert_eq!(output(&input), "leaf\t1\t21\t49\t1\nrefused\t4\t13\n");
    }
}

#[test]
fn longest_good_lines() {
    // n = 8, m = 16: 128 entries of 20 digits.
    let p = setting(8, 16, 2, 32, 1048576);
    let a: String = "\t18446744073709551615".repeat(128);
    let s: String = "\t-1".repeat(32);
    let text = format!("param\t8\t16\t2\t32\t1048576\na{a}\nleaf{s}\n");
    assert_eq!(text.lines().nth(1).unwrap().len() + 1, 2690);
    let out = output(&text);
    let (_, root) = honest(&p, &[u64::MAX; 128], &Tree::Leaf(vec![-1; 32])).unwrap();
    assert_eq!(root.t, vec![16; 16]);
    assert!(out.ends_with("end\t0\tmember\n") && out.starts_with("leaf\t1\t16\t16"));
}

#[test]
fn settings_in_order() {
    let param = |text: &str| output(&format!("param\t{text}\n"));
    for (text, number) in [
        ("0\t1\t1\t2\t100", 1), ("1\t0\t1\t2\t100", 1), ("1\t1\t0\t2\t100", 1), ("65\t1\t1\t2\t100", 1),
        ("18446744073709551615\t1\t1\t2\t100", 1), ("1\t1\t1\t1\t100", 2), ("1\t1\t1\t0\t0", 2),
        ("1\t1\t1\t65536\t100", 2), ("1\t1\t1\t2\t0", 3), ("1\t1\t1\t2\t4611686018427387905", 3),
        ("1\t1\t1\t2\t18446744073709551615", 3), ("1\t1\t16\t2\t1073741824", 4), ("1\t1\t1\t2\t99", 5),
        ("1\t4096\t1\t2\t281474976710656", 6), ("1\t4096\t1\t46340\t4611686018427387904", 6),
        // Too large for the program and refused by the setting: the setting's number.
        ("9\t1\t1\t2\t99", 5), ("1\t1\t3\t2\t100", 5), ("16\t256\t2\t128\t268435456", 6),
        // 14: n, m, t and k in turn.
        ("9\t1\t1\t2\t100", 14), ("64\t1\t1\t2\t100", 14), ("1\t17\t1\t32\t1048576", 14),
        ("1\t1\t3\t32\t1048576", 14), ("1\t1\t1\t2\t16384", 14),
        // 13 before all of them.
        ("0\t1\t1\t2", 13), ("0\t1\t1\t2\t99\t0", 13), ("1\t1\t1\t2\t18446744073709551616", 13), ("-1\t1\t1\t2\t100", 13),
        ("01\t1\t1\t2\t99", 13), ("+1\t1\t1\t2\t100", 13), ("\t1\t1\t2\t100", 13), (" 1\t1\t1\t2\t100", 13),
        ("1\t1\t1\t2\t100\t", 13), ("1\t1\t1\t2\t100\r", 13), ("1 1\t1\t2\t100", 13), ("1\t1\t1\t0x2\t100", 13),
    ] {
        assert_eq!(param(text), format!("refused\t1\t{number}\n"), "{text}");
    }
    // Just within the program's limits: the next line is missing.
    for text in ["8\t1\t1\t2\t100", "1\t16\t1\t32\t1048576", "1\t1\t2\t32\t1048576", "1\t1\t1\t2\t16383"] {
        assert_eq!(param(text), "refused\t2\t13\n", "{text}");
    }
}

#[test]
fn words_and_order_of_lines() {
    for first in ["Param\t1\t1\t1\t2\t100", "params\t1\t1\t1\t2\t100", "a\t3", "leaf\t7", "", "\u{feff}param\t1\t1\t1\t2\t100", "param"] {
        assert_eq!(output(&format!("{first}\na\t3\n")), "refused\t1\t13\n", "{first:?}");
    }
    for second in ["param\t1\t1\t1\t2\t100", "A\t3", "leaf\t7", "", "a", "a\t3\t4", "a\t-3", "a\t18446744073709551616", "a\t03", "a 3"] {
        assert_eq!(output(&format!("param\t1\t1\t1\t2\t100\n{second}\nleaf\t7\n")), "refused\t2\t13\n", "{second:?}");
    }
    let bad_leaves = [
        "a\t3", "param\t1\t1\t1\t2\t100", "c\t0", "", "leaf", "leaf\t", "leaf\t7\t7", "leaf\t-0", "leaf\t07", "leaf\t-07", "leaf\t+7",
        "leaf\t--7", "leaf\t-", "leaf\t9223372036854775808", "leaf\t-9223372036854775809", "leaf\t7 ", "leaf\t7\r",
        "leaf\t7\0", "leaf\t\u{661}", "leaf\t7.0", "leaf\t1e1", "leaf\t99999999999999999999999999999999999999999", "LEAF\t7",
    ];
    for leaf in bad_leaves {
        assert_eq!(output(&format!("{HEAD}{leaf}\n{leaf}\n")), "refused\t3\t13\n", "{leaf:?}");
        assert_eq!(output(&format!("{HEAD}leaf\t7\n{leaf}\n{C}")), "leaf\t1\t21\t49\t1\nrefused\t4\t13\n", "{leaf:?}");
        let chain = format!("{HEAD}leaf\t7\nleaf\t-5\n{C}");
        let so_far = "leaf\t1\t21\t49\t1\nleaf\t2\t18446744073709551601\t25\t1\nfold\t1\tyes\t15\t25\t2\n";
        assert_eq!(output(&format!("{chain}{leaf}\n")), format!("{so_far}refused\t6\t13\n"), "{leaf:?}");
    }
    let so_far = "leaf\t1\t21\t49\t1\nleaf\t2\t18446744073709551601\t25\t1\n";
    for c in [
        "c", "c\t0", "c\t0\t0\t0\t0\t0\t0\t0\t0\t0", "c\t0\t0\t0\t0\t0\t0\t0\t0\t0\t0\t0", "c\t2\t0\t0\t0\t0\t0\t0\t0\t0\t0",
        "c\t0\t0\t0\t0\t0\t0\t0\t0\t0\t3", "c\t01\t0\t0\t0\t0\t0\t0\t0\t0\t0", "c\t-0\t0\t0\t0\t0\t0\t0\t0\t0\t0",
        "c\t+1\t0\t0\t0\t0\t0\t0\t0\t0\t0", "c\t-2\t0\t0\t0\t0\t0\t0\t0\t0\t0", "c\t\t0\t0\t0\t0\t0\t0\t0\t0\t0", "leaf\t11", "leaf\t7",
        "C\t0\t0\t0\t0\t0\t0\t0\t0\t0\t0", "", "a\t3",
    ] {
        assert_eq!(output(&format!("{HEAD}leaf\t7\nleaf\t-5\n{c}\n")), format!("{so_far}refused\t5\t13\n"), "{c:?}");
    }
    assert_eq!(output(&format!("{HEAD}leaf\t7\n{C}")), "leaf\t1\t21\t49\t1\nrefused\t4\t13\n");
    let twice = format!("{HEAD}leaf\t7\nleaf\t-5\n{C}{C}");
    assert_eq!(output(&twice), format!("{so_far}fold\t1\tyes\t15\t25\t2\nrefused\t6\t13\n"));
}

#[test]
fn bytes_that_are_not_text() {
    assert_eq!(run(&[0xff, 0xfe, b'\n']), b"refused\t1\t13\n");
    assert_eq!(run(b"param\t1\t1\t1\t2\t\xff100\n"), b"refused\t1\t13\n");
    assert_eq!(run(b"\n"), b"refused\t1\t13\n");
    assert_eq!(run(b"\0"), b"refused\t1\t13\n");
}

#[test]
fn witnesses_too_long() {
    for s in ["11", "-11", "9223372036854775807", "-9223372036854775808", "4294967296"] {
        assert_eq!(output(&format!("{HEAD}leaf\t{s}\n")), "refused\t3\t8\n");
        // A second leaf is 8 at its own line, whatever follows.
        for rest in ["", "x\n", C, "leaf\t7\n", "c"] {
            assert_eq!(output(&format!("{HEAD}leaf\t7\nleaf\t{s}\n{rest}")), "leaf\t1\t21\t49\t1\nrefused\t4\t8\n");
        }
    }
    // A bad number in the line comes before its length.
    let head = "param\t1\t2\t1\t3\t72\na\t1\t1\n";
    assert_eq!(output(&format!("{head}leaf\t100\t007\n")), "refused\t3\t13\n");
    assert_eq!(output(&format!("{head}leaf\t6\t6\n")), "leaf\t1\t12\t72\t1\nend\t0\tmember\n");
    assert_eq!(output(&format!("{head}leaf\t6\t7\n")), "refused\t3\t8\n");
}

#[test]
fn no_more_leaves_than_there_may_be() {
    let input = format!("{HEAD}leaf\t7\nleaf\t-5\n{C}leaf\t1\n{C}");
    let with = |leaves: u32, input: &str| String::from_utf8(run_with_leaves(leaves, input.as_bytes())).unwrap();
    assert_eq!(with(1, &input), output(&input));
    let two = "leaf\t1\t21\t49\t1\nleaf\t2\t18446744073709551601\t25\t1\n";
    // One leaf more is the most that there may be; the next one is refused.
    let most = format!("{two}fold\t1\tyes\t15\t25\t4294967295\nleaf\t3\t3\t1\t1\nrefused\t7\t15\n");
    assert_eq!(with(u32::MAX - 1, &input), most);
    assert_eq!(with(u32::MAX, &input), format!("{two}refused\t5\t15\n"));
    assert_eq!(with(0, &input), format!("{two}refused\t5\t15\n"));
    // A bad line comes first, and the end asks for no count.
    assert_eq!(with(u32::MAX, &input.replace("c\t1", "c\t2")), format!("{two}refused\t5\t13\n"));
    assert_eq!(with(u32::MAX, &format!("{HEAD}leaf\t7\n")), "leaf\t1\t21\t49\t1\nend\t0\tmember\n");
}

/// A line from a word and entries.
fn line(word: &str, entries: &[String]) -> String {
    format!("{word}\t{}\n", entries.join("\t"))
}

/// Entries as text.
fn texts<T: ToString>(entries: &[T]) -> Vec<String> {
    entries.iter().map(T::to_string).collect()
}

/// The input of a random chain, and the output built from honest trees grown leaf by leaf.
fn random_chain(rng: &mut Rng, p: &Parameters, pairs: usize) -> (String, String) {
    let a = random_matrix(rng, p);
    let mut input = line("param", &texts(&[p.n, p.m, p.t, p.b, p.bound])) + &line("a", &texts(&a));
    let mut out = String::new();
    let mut tree: Option<Tree> = None;
    for number in 0..=pairs {
        let s = rng.witness(p.m as usize, p.t as usize, p.bound);
        input += &line("leaf", &texts(&s));
        let (_, node) = honest(p, &a, &Tree::Leaf(s.clone())).unwrap();
        out += &line("leaf", &[texts(&[number + 1]), texts(&node.t), texts(&node.d), texts(&[1])].concat());
        tree = Some(match tree {
            None => Tree::Leaf(s),
            Some(sofar) => {
                let c = random_challenge(rng, p);
                input += &line("c", &c.iter().map(|x| value(*x).to_string()).collect::<Vec<_>>());
                let tree = Tree::Fold(Box::new(sofar), Box::new(Tree::Leaf(s)), c);
                let (_, node) = honest(p, &a, &tree).unwrap();
                assert_eq!(Some(node.s), plain(p, &tree));
                let (head, leaves) = (vec![number.to_string(), "yes".into()], texts(&[tree.leaves()]));
                out += &line("fold", &[head, texts(&node.t), texts(&node.d), leaves].concat());
                tree
            }
        });
    }
    out += &format!("end\t{pairs}\tmember\n");
    (input, out)
}

#[test]
fn random_chains() {
    let mut rng = Rng::new(51);
    for round in 0..60 {
        let p = match round % 3 {
            0 => LIST[0],
            1 => LIST[1],
            _ => loop {
                let p = random_setting(&mut rng, 32);
                if p.n <= 8 && p.m <= 16 && p.t <= 2 && p.k() <= 8 {
                    break p;
                }
            },
        };
        let pairs = rng.between(0, 25) as usize;
        let (input, expected) = random_chain(&mut rng, &p, pairs);
        assert_eq!(output(&input), expected);
        // Cut off anywhere, or with one byte changed, the answer is still some answer and starts the same way.
        for _ in 0..20 {
            let mut bytes = input.clone().into_bytes();
            bytes.truncate(rng.word() as usize % (bytes.len() + 1));
            let text = String::from_utf8(run(&bytes)).unwrap();
            let whole = bytes.last() == Some(&b'\n') || bytes.is_empty();
            let last = text.lines().last().unwrap();
            let lines = bytes.iter().filter(|x| **x == b'\n').count();
            let printed = lines.saturating_sub(2);
            let kept: String = expected.split_inclusive('\n').take(printed).collect();
            assert!(text.starts_with(&kept));
            if whole && lines >= 3 && lines % 2 == 1 {
                assert_eq!(last, format!("end\t{}\tmember", (lines - 3) / 2));
            } else {
                assert_eq!(last, format!("refused\t{}\t13", lines + 1));
            }
            let mut bytes = input.clone().into_bytes();
            let at = rng.word() as usize % bytes.len();
            bytes[at] = rng.word() as u8;
            let text = String::from_utf8(run(&bytes)).unwrap();
            assert!(text.ends_with('\n'));
        }
    }
}
