//! The static library's speed beside idiomatic Rust's: ratios of medians from one run.
//!
//! Every operation, in both profiles, and the digits and the four costly products alone, on the same inputs, with outputs
//! asserted equal. The variants take turns, so that what else the machine does falls on all of them; a fresh call also takes
//! turns with the library's general one. The operations that name the group of the next fold and count the zeros of a
//! quadratic form have tables of their own.

mod cases;
mod form_rows;
mod library;
mod rows;
mod timing;
mod turn_rows;

use cases::case;
use form_rows::{form_rows, FormRow, MATRICES};
use rows::{fresh_rows, rows, Row};
use turn_rows::{turn_rows, TurnRow, CALLS};

/// The settings of the first table: the house list, then large ones. The bound of the last is 9^14: k = 16 and N = 512, the
/// largest N there is, with the largest n, m and t.
const SETTINGS: [(&str, [u64; 5]); 7] = [
    ("house 1", [1, 1, 1, 2, 100]),
    ("house 2", [4, 16, 2, 32, 1 << 20]),
    ("house 3", [8, 64, 4, 128, 1 << 28]),
    ("house 4", [16, 256, 1, 64, 1 << 24]),
    ("one column", [64, 4096, 1, 16, 27_000_000]),
    ("middle", [32, 2048, 8, 3, 60_000_000]),
    ("large", [64, 4096, 16, 3, 22876792454961]),
];

/// The settings of the second table: m, N and t grow, four settings each. (N is 2kt, so it grows with t as well.)
const GROWING: [(&str, [u64; 5]); 12] = [
    ("m", [16, 64, 4, 3, 43046721]),
    ("m", [16, 256, 4, 3, 43046721]),
    ("m", [16, 1024, 4, 3, 43046721]),
    ("m", [16, 4096, 4, 3, 43046721]),
    ("N", [16, 256, 4, 3, 4782969]),
    ("N", [16, 256, 4, 3, 3486784401]),
    ("N", [16, 256, 4, 3, 22876792454961]),
    ("N", [16, 256, 4, 2, 1 << 40]),
    ("t", [16, 256, 2, 3, 3486784401]),
    ("t", [16, 256, 4, 3, 3486784401]),
    ("t", [16, 256, 8, 3, 3486784401]),
    ("t", [16, 256, 16, 3, 3486784401]),
];

/// A time in the unit that suits it.
fn shown(nanoseconds: f64) -> String {
    match nanoseconds {
        t if t < 1e3 => format!("{t:.0} ns"),
        t if t < 1e6 => format!("{:.1} us", t / 1e3),
        t => format!("{:.1} ms", t / 1e6),
    }
}

/// The first table: each row's time, and its ratios to idiomatic Rust with -O and for this processor; a fresh call's also to
/// the library's general one.
fn print_ratios() {
    for (name, p) in SETTINGS {
        let z = case(p);
        println!("{name}: n = {}, m = {}, t = {}, b = {}, B = {}, N = {}", z.n, z.m, z.t, p[3], p[4], z.columns);
        println!(
            "  {:<16}{:>12}{:>12}{:>12}{:>14}{:>12}",
            "", "Lova", "Rust -O", "ratio", "ratio native", "to general"
        );
        for Row { name, times: [lova, plain, native], general } in rows(&z).into_iter().chain(fresh_rows(&z)) {
            let (time, beside) = (shown(lova), shown(plain));
            let to_general = general.map_or(String::new(), |general| format!("{:.3}", lova / general));
            println!("  {name:<16}{time:>12}{beside:>12}{:>12.3}{:>14.3}{to_general:>12}", lova / plain, lova / native);
        }
    }
}

/// The second table: the library's times as one of m, N and t grows.
fn print_growth() {
    for (k, (grows, p)) in GROWING.into_iter().enumerate() {
        let z = case(p);
        let rows = rows(&z);
        if k % 4 == 0 {
            print!("{:<30}", format!("{grows} grows"));
            rows.iter().for_each(|row| print!("{:>15}", row.name));
            println!();
        }
        print!("{:<30}", format!("  n = {}, m = {}, t = {}, N = {}", z.n, z.m, z.t, z.columns));
        rows.iter().for_each(|row| print!("{:>15}", shown(row.times[0])));
        println!();
    }
}

/// The third table: a call of the turns of each kind, with the ratios of the first table.
fn print_turns() {
    println!("taking turns: {CALLS} calls of each kind");
    println!("  {:<16}{:>12}{:>12}{:>12}{:>14}", "", "Lova", "Rust -O", "ratio", "ratio native");
    for TurnRow { name, times: [lova, plain, native] } in turn_rows() {
        println!("  {name:<16}{lova:>9.1} ns{plain:>9.1} ns{:>12.3}{:>14.3}", lova / plain, lova / native);
    }
}

/// The fourth table: the zeros of quadratic forms, with matrices of each kind and the ratios of the first table.
fn print_forms() {
    println!("zeros of quadratic forms: {MATRICES} matrices of each kind");
    println!("  {:<28}{:>12}{:>12}{:>12}{:>14}", "", "Lova", "Rust -O", "ratio", "ratio native");
    for FormRow { name, rows, times: [lova, plain, native] } in form_rows() {
        let (name, time, beside) = (format!("N = {rows}, {name}"), shown(lova), shown(plain));
        println!("  {name:<28}{time:>12}{beside:>12}{:>12.4}{:>14.4}", lova / plain, lova / native);
    }
}

fn main() {
    match std::env::args().nth(1).as_deref() {
        None => {
            print_ratios();
            print_growth();
            print_turns();
            print_forms();
        }
        Some("ratios") => print_ratios(),
        Some("growth") => print_growth(),
        Some("turns") => print_turns(),
        Some("forms") => print_forms(),
        Some(other) => panic!("ratios, growth, turns, forms or nothing, not {other}"),
    }
}
