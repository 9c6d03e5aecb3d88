//! The load program.

mod common;
use common::*;
use reference::chain;
use reference::load::{radius, run, Draws};
use reference::rng::Rng;
use reference::settings::{Parameters, LIST};

const PARAM: &str = "param\t1\t1\t1\t2\t100\n";

/// Inputs with their outputs, worked out apart from the reference.
const BY_HAND: [(&str, &str); 6] = [
    (
        "param\t1\t1\t1\t2\t100\nload\t2\t1\n",
        "param\t1\t1\t1\t2\t100\na\t7806831264735756412\nleaf\t0\nleaf\t0\nc\t1\t0\t1\t1\t0\t0\t0\t0\t-1\t1\n",
    ),
    (
        "param\t1\t1\t1\t2\t100\nload\t2\t0\n",
        "param\t1\t1\t1\t2\t100\na\t1442695040888963407\nleaf\t0\nleaf\t-5\nc\t0\t1\t1\t1\t1\t1\t1\t-1\t0\t1\n",
    ),
    (
        "param\t1\t1\t1\t2\t100\nload\t2\t18446744073709551615\n",
        "param\t1\t1\t1\t2\t100\na\t13525302890751722018\nleaf\t4\nleaf\t-10\nc\t-1\t0\t1\t1\t-1\t0\t1\t1\t1\t-1\n",
    ),
    ("param\t1\t1\t1\t2\t100\nload\t1\t1\n", "param\t1\t1\t1\t2\t100\na\t7806831264735756412\nleaf\t0\n"),
    (
        "param\t2\t2\t1\t3\t72\nload\t3\t16\n",
        "param\t2\t2\t1\t3\t72\n\
         a\t11035154253889893407\t11529910150516526018\t5421506643223711849\t1984338261489515204\n\
         leaf\t1\t3\nleaf\t2\t3\nc\t0\t1\t-1\t-1\t-1\t-1\nleaf\t-3\t-6\nc\t0\t0\t0\t1\t1\t1\n",
    ),
    (
        "param\t1\t1\t2\t32\t1048576\nload\t2\t7\n",
        "param\t1\t1\t2\t32\t1048576\na\t9098160460397411210\nleaf\t-626\t-169\nleaf\t483\t181\n\
         c\t-1\t-1\t0\t-1\t0\t0\t0\t-1\t-1\t1\t-1\t1\t1\t1\t1\t0\
         \t-1\t-1\t0\t-1\t1\t-1\t-1\t0\t0\t-1\t0\t-1\t-1\t-1\t1\t0\n",
    ),
];

/// The output as text.
fn output(input: &str) -> String {
    String::from_utf8(run(input.as_bytes())).unwrap()
}

/// The input that asks for a load.
fn input(p: &Parameters, leaves: u64, seed: u64) -> String {
    format!("param\t{}\t{}\t{}\t{}\t{}\nload\t{leaves}\t{seed}\n", p.n, p.m, p.t, p.b, p.bound)
}

#[test]
fn outputs_by_hand() {
    for (input, expected) in BY_HAND {
        assert_eq!(output(input), expected, "{input:?}");
    }
}

#[test]
fn draws_are_the_new_states() {
    for (seed, first) in [(0, 1442695040888963407), (1, 7806831264735756412), (u64::MAX, 13525302890751722018)] {
        assert_eq!(Draws::new(seed).draw(), first);
    }
    let mut draws = Draws::new(20260201);
    let mut state = 20260201u64;
    for _ in 0..1000 {
        state = state.wrapping_mul(6364136223846793005).wrapping_add(1442695040888963407);
        assert_eq!(draws.draw(), state);
    }
}

#[test]
fn the_radius_is_the_greatest() {
    let squares = [(1, 100, 10), (1, 99, 9), (16, 1048576, 256), (16, 1048575, 255), (3, 90000, 173)];
    for (m, bound, r) in squares.into_iter().chain([(4, 3, 0), (1, 0, 0)]) {
        assert_eq!(radius(m, bound), r, "{m} {bound}");
    }
    assert_eq!((radius(1, 1 << 62), radius(1, (1 << 62) - 1)), (1 << 31, (1 << 31) - 1));
    let mut rng = Rng::new(71);
    let (mut none, mut some) = (0, 0);
    for _ in 0..20000 {
        let (m, bound) = (1 + (rng.word() >> rng.between(1, 63)), rng.word() >> rng.between(0, 63));
        let r = radius(m, bound) as u128;
        assert!(r * r * m as u128 <= bound as u128);
        assert!((r + 1) * (r + 1) * m as u128 > bound as u128);
        assert!(r == 0 || m <= bound);
        none += u32::from(m > bound);
        some += u32::from(r > 0);
    }
    assert!(none > 1000 && some > 1000);
}

#[test]
fn entries_are_within_their_ranges() {
    let mut rng = Rng::new(72);
    for round in 0..400 {
        // Every sixth setting has m above B, so that r is 0.
        let mut p = random_setting(&mut rng, 512);
        if round % 6 == 0 {
            p.bound = p.m - 1;
        }
        let mut draws = Draws::new(rng.word());
        let (a, s, c) = (draws.matrix(&p), draws.witness(&p), draws.challenge(&p));
        assert_eq!((a.len() as u64, s.len() as u64), (p.n * p.m, p.m * p.t));
        assert_eq!(c.len() as u128, p.columns() * p.t as u128);
        let r = radius(p.m, p.bound);
        assert!(s.iter().all(|entry| entry.unsigned_abs() <= r) && c.iter().all(|byte| *byte <= 2));
    }
    // Both ends of the range and all three bytes come up.
    let mut draws = Draws::new(73);
    let entries: Vec<i64> = (0..1000).flat_map(|_| draws.witness(&LIST[0])).collect();
    assert_eq!((entries.iter().min(), entries.iter().max()), (Some(&-10), Some(&10)));
    let c = draws.challenge(&LIST[1]);
    assert!((0..3).all(|byte| c.contains(&byte)));
}

#[test]
fn draws_follow_the_order_of_the_lines() {
    let mut rng = Rng::new(74);
    for _ in 0..100 {
        let (p, seed) = (random_program_setting(&mut rng), rng.word());
        let text = output(&input(&p, 3, seed));
        let words: Vec<&str> = text.lines().map(|line| line.split('\t').next().unwrap()).collect();
        assert_eq!(words, ["param", "a", "leaf", "leaf", "c", "leaf", "c"]);
        let mut draws = Draws::new(seed);
        for line in text.lines().skip(1) {
            let (word, entries) = line.split_once('\t').unwrap();
            let texts: Vec<String> = match word {
                "a" => draws.matrix(&p).iter().map(u64::to_string).collect(),
                "leaf" => draws.witness(&p).iter().map(i64::to_string).collect(),
                _ => draws.challenge(&p).iter().map(|byte| value(*byte).to_string()).collect(),
            };
            assert_eq!(entries, texts.join("\t"));
        }
    }
}

/// A random setting that the programs take.
fn random_program_setting(rng: &mut Rng) -> Parameters {
    loop {
        let p = random_setting(rng, 32);
        if p.n <= 8 && p.m <= 16 && p.t <= 2 && p.k() <= 8 {
            return p;
        }
    }
}

/// Whether the chain program takes the whole file of a load.
fn taken(p: &Parameters, leaves: u64, seed: u64) -> bool {
    let text = String::from_utf8(chain::run(&run(input(p, leaves, seed).as_bytes()))).unwrap();
    let count = |word: &str| text.lines().filter(|line| line.starts_with(word)).count() as u64;
    assert_eq!((count("leaf\t"), count("fold\t")), (leaves, leaves - 1));
    text.ends_with(&format!("end\t{}\tmember\n", leaves - 1))
}

#[test]
fn the_chain_program_takes_every_file() {
    let mut rng = Rng::new(75);
    for seed in [0, 1, u64::MAX] {
        for leaves in [1, 2, 1000] {
            assert!(taken(&LIST[0], leaves, seed), "{leaves} {seed}");
        }
        assert!(taken(&LIST[1], 40, seed), "{seed}");
    }
    for _ in 0..300 {
        let (p, leaves, seed) = (random_program_setting(&mut rng), rng.between(1, 12) as u64, rng.word());
        assert!(taken(&p, leaves, seed), "{p:?} {leaves} {seed}");
    }
}

#[test]
fn a_thousand_leaves_and_no_more() {
    let text = output(&format!("{PARAM}load\t1000\t5\n"));
    assert_eq!(text.lines().count(), 2 + 1 + 2 * 999);
    // A load with fewer leaves is the beginning of one with more.
    assert!(text.starts_with(&output(&format!("{PARAM}load\t999\t5\n"))));
    assert_eq!(output(&format!("{PARAM}load\t1001\t5\n")), "refused\t2\t13\n");
}

#[test]
fn refusals_of_the_first_line() {
    for (fields, number) in [
        ("0\t1\t1\t2\t100", 1), ("1\t1\t17\t2\t100", 1), ("18446744073709551615\t1\t1\t2\t100", 1),
        ("1\t1\t1\t1\t100", 2), ("1\t1\t1\t65536\t100", 2), ("1\t1\t1\t2\t0", 3),
        ("1\t1\t1\t2\t4611686018427387905", 3), ("1\t1\t16\t2\t1073741824", 4), ("1\t1\t1\t2\t99", 5),
        ("1\t4096\t1\t2\t281474976710656", 6), ("9\t1\t1\t2\t100", 14), ("1\t17\t1\t32\t1048576", 14),
        ("1\t1\t3\t32\t1048576", 14), ("1\t1\t1\t2\t16384", 14),
        // The setting's number before 14, and 13 before all of them.
        ("9\t1\t1\t2\t99", 5), ("0\t01\t1\t2\t100", 13), ("1\t1\t1\t2", 13), ("1\t1\t1\t2\t100\t", 13),
        ("1\t1\t1\t2\t18446744073709551616", 13), ("-1\t1\t1\t2\t100", 13), ("1\t1\t1\t2\t100\r", 13),
    ] {
        // Whatever follows.
        for rest in ["", "load\t2\t1\n", "load\t0\t1\n", "load\t2\t1", "\n", "load\t2\t1\nleaf\t7\n"] {
            let text = output(&format!("param\t{fields}\n{rest}"));
            assert_eq!(text, format!("refused\t1\t{number}\n"), "{fields} {rest:?}");
        }
        assert_eq!(output(&format!("param\t{fields}")), "refused\t1\t13\n", "{fields}");
    }
    for first in ["", "load\t2\t1", "Param\t1\t1\t1\t2\t100", "param", "\u{feff}param\t1\t1\t1\t2\t100"] {
        assert_eq!(output(&format!("{first}\nload\t2\t1\n")), "refused\t1\t13\n", "{first:?}");
    }
}

#[test]
fn refusals_of_the_second_line() {
    for second in [
        "", "load", "load\t", "load\t2", "load\t2\t", "load\t\t1", "load\t2\t1\t", "load\t2\t1\t1", "load\t0\t1",
        "load\t1001\t1", "load\t01\t1", "load\t-1\t1", "load\t+1\t1", "load\t-0\t1", "load\t18446744073709551616\t1",
        "load\t18446744073709551615\t1", "load\t4294967297\t1", "load\t2\t18446744073709551616", "load\t2\t-1",
        "load\t2\t01", "load\t2\t+1", "load\t2\t-0", "load 2\t1", "load\t2 1", "load\t2\t1 ", " load\t2\t1",
        "Load\t2\t1", "LOAD\t2\t1", "loads\t2\t1", "leaf\t2\t1", "a\t3", "load\t2\t1\r", "load\t2\t1\0",
        "load\t\u{662}\t1", "load\t2.0\t1", "load\t2\t0x1", "param\t1\t1\t1\t2\t100",
    ] {
        for rest in ["\n", "", "\n\n", "\nleaf\t7\n", "\nload\t2\t1\n"] {
            // Nothing at all is a missing line.
            assert_eq!(output(&format!("{PARAM}{second}{rest}")), "refused\t2\t13\n", "{second:?} {rest:?}");
        }
    }
    assert_eq!(output(&format!("{PARAM}load\t2\t1")), "refused\t2\t13\n");
    assert_eq!(output(PARAM), "refused\t2\t13\n");
    for bad in [&b"load\t2\t\xff1\n"[..], b"\xff\n", b"\0\n", b"\0"] {
        assert_eq!(run(&[PARAM.as_bytes(), bad].concat()), b"refused\t2\t13\n");
    }
}

#[test]
fn a_third_line_of_any_kind() {
    let long = "x".repeat(9000);
    for rest in [
        "\n", "\n\n", "x", "\0", " ", "\t", "\r\n", "leaf\t7\n", "leaf\t7", "a\t3\n", "load\t2\t1\n", "load\t2\t1",
        "load\t0\t1\n", PARAM, "param\t1\t1\t1\t2\t99\n", &long,
    ] {
        for leaves in [1, 2, 1000] {
            assert_eq!(output(&format!("{PARAM}load\t{leaves}\t1\n{rest}")), "refused\t3\t13\n", "{rest:?}");
        }
    }
    assert_eq!(run(&[PARAM.as_bytes(), b"load\t2\t1\n\xff"].concat()), b"refused\t3\t13\n");
}

#[test]
fn missing_and_long_lines() {
    assert_eq!(output(""), "refused\t1\t13\n");
    assert_eq!(output("\n"), "refused\t1\t13\n");
    for length in [4094, 4095, 4096, 4097, 9000, 70000] {
        let run = "1".repeat(length);
        for end in ["", "\n", "\nload\t2\t1\n"] {
            assert_eq!(output(&format!("{run}{end}")), "refused\t1\t13\n", "{length} {end:?}");
            assert_eq!(output(&format!("{PARAM}load\t2\t{run}{end}")), "refused\t2\t13\n", "{length} {end:?}");
        }
    }
}
