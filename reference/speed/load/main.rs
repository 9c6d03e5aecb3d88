//! The load program's speed beside idiomatic Rust's: ratios of medians from one run.
//!
//! `load_speed FOLDLOAD RUST` runs the two programs by turns on the longest load that there is, with its output into a
//! pipe that is read to its end and into /dev/null. What they print is asserted equal.

// The medians of calls are for the library's table.
#[allow(dead_code)]
#[path = "../timing.rs"]
mod timing;

use std::io::{self, Read, Write};
use std::process::{Command, Stdio};
use std::time::Instant;
use timing::median;

/// The load with the longest lines that there are, and the most leaves.
const INPUT: &str = "param\t8\t16\t2\t13\t3937376385699288\nload\t1000\t1\n";

/// How often each program runs, for each kind of output.
const RUNS: usize = 301;

/// The resources used by a process, as getrusage gives them: the times first, in seconds and microseconds.
#[repr(C)]
#[derive(Default)]
struct Usage {
    user: [i64; 2],
    system: [i64; 2],
    rest: [i64; 14],
}

extern "C" {
    fn getrusage(who: i32, usage: *mut Usage) -> i32;
}

/// User and system time of all processes that were waited for, in nanoseconds.
fn processor_time() -> f64 {
    let mut usage = Usage::default();
    // RUSAGE_CHILDREN is -1.
    assert_eq!(unsafe { getrusage(-1, &mut usage) }, 0);
    let nanoseconds = |[seconds, microseconds]: [i64; 2]| seconds as f64 * 1e9 + microseconds as f64 * 1e3;
    nanoseconds(usage.user) + nanoseconds(usage.system)
}

/// Run a program: what it printed into a pipe, nothing for /dev/null, with its processor time and how long it took.
fn run(program: &str, piped: bool) -> io::Result<(Vec<u8>, [f64; 2])> {
    let (used, start) = (processor_time(), Instant::now());
    let output = if piped { Stdio::piped() } else { Stdio::null() };
    let mut child = Command::new(program).stdin(Stdio::piped()).stdout(output).spawn()?;
    child.stdin.take().expect("a pipe").write_all(INPUT.as_bytes())?;
    let mut printed = Vec::with_capacity(1 << 20);
    if let Some(mut pipe) = child.stdout.take() {
        pipe.read_to_end(&mut printed)?;
    }
    assert!(child.wait()?.success(), "{program}");
    Ok((printed, [processor_time() - used, start.elapsed().as_nanos() as f64]))
}

/// The medians of processor time and of elapsed time for each of the programs, which take turns.
fn medians(programs: &[String; 2], piped: bool) -> io::Result<[[f64; 2]; 2]> {
    let mut times: [[Vec<f64>; 2]; 2] = Default::default();
    for round in 0..2 * RUNS {
        // Each goes first in every second pair.
        let which = (round + round / 2) % 2;
        let (_, taken) = run(&programs[which], piped)?;
        (0..2).for_each(|kind| times[which][kind].push(taken[kind]));
    }
    Ok(times.map(|kinds| kinds.map(median)))
}

fn main() -> io::Result<()> {
    let programs: Vec<String> = std::env::args().skip(1).collect();
    let programs: [String; 2] = programs.try_into().expect("usage: load_speed FOLDLOAD RUST");
    let printed = [run(&programs[0], true)?.0, run(&programs[1], true)?.0];
    assert!(printed[0] == printed[1], "the programs print different files");
    let setting = INPUT.lines().next().unwrap_or_default().replace('\t', " ");
    println!("{setting}, 1000 leaves, {} bytes, {RUNS} runs each", printed[0].len());
    println!("  {:<32}{:>12}{:>12}{:>12}", "", "foldload", "Rust -O", "ratio");
    for (place, piped) in [("pipe", true), ("/dev/null", false)] {
        let [lova, rust] = medians(&programs, piped)?;
        for (kind, name) in ["user and system", "elapsed"].into_iter().enumerate() {
            let (label, [one, two]) = (format!("{place}, {name}"), [lova[kind], rust[kind]]);
            println!("  {label:<32}{:>9.2} ms{:>9.2} ms{:>12.3}", one / 1e6, two / 1e6, one / two);
        }
    }
    Ok(())
}
