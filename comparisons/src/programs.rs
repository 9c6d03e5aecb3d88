//! The programs, fed in pieces of random sizes, and what they print beside what the reference prints.

use crate::seed::{below, pick, seed};
use reference::rng::Rng;
use std::io::ErrorKind::{BrokenPipe, ConnectionRefused, ConnectionReset, NotConnected};
use std::io::{self, Write};
use std::os::fd::OwnedFd;
use std::os::unix::net::UnixDatagram;
use std::path::{Path, PathBuf};
use std::process::{Command, Output, Stdio};
use std::{env, thread};

/// A way to feed a program.
type Feed = fn(&Path, &[u8], &mut Rng) -> io::Result<Output>;

/// The ways to feed a program.
pub const WAYS: [&str; 2] = ["by pieces", "by pipe"];

/// The program with this name: `LOVA_` and the name, or else what `rt` leaves in the crate's folder `out`.
pub fn program(name: &str) -> PathBuf {
    let package = PathBuf::from(env!("CARGO_MANIFEST_DIR"));
    let variable = format!("LOVA_{}", name.to_uppercase());
    let path = match env::var_os(&variable) {
        Some(path) => package.join(path),
        None => package.join("../crates").join(name).join("out").join(name),
    };
    let ways = format!("build it with `rt run` in crates/{name}, or set {variable}");
    assert!(path.is_file(), "no program at {}: {ways}", path.display());
    path
}

/// Send the input in pieces of random sizes; a program that has stopped reading is no fault.
fn send_pieces(rng: &mut Rng, mut input: &[u8], mut send: impl FnMut(&[u8]) -> io::Result<()>) -> io::Result<()> {
    let sizes = if input.len() < 3000 { [1, 16, 300] } else { [60, 5000, 20000] };
    let greatest = pick(rng, &sizes);
    while !input.is_empty() {
        let (piece, rest) = input.split_at(input.len().min(1 + below(rng, greatest)));
        match send(piece).map_err(|error| error.kind()) {
            Err(BrokenPipe | ConnectionRefused | ConnectionReset | NotConnected) => return Ok(()),
            other => other?,
        }
        input = rest;
    }
    Ok(())
}

/// Run the program, which reads from this, and write to the other end meanwhile; what it wrote.
fn run(program: &Path, input: Stdio, write: impl FnOnce() -> io::Result<()> + Send) -> io::Result<Output> {
    let child = Command::new(program).stdin(input).stdout(Stdio::piped()).stderr(Stdio::piped()).spawn()?;
    thread::scope(|scope| {
        let writer = scope.spawn(write);
        let output = child.wait_with_output();
        writer.join().expect("the writer does not panic")?;
        output
    })
}

/// What the program writes when it is fed through a pipe, in writes of random sizes; one read may take several.
fn feed_by_pipe(program: &Path, input: &[u8], rng: &mut Rng) -> io::Result<Output> {
    let (reader, mut writer) = io::pipe()?;
    run(program, reader.into(), move || send_pieces(rng, input, |piece| writer.write_all(piece)))
}

/// What the program writes when each of its reads takes one piece of random size, however fast it
/// reads: a socket of datagrams keeps the cuts, and an empty one is the end of the input.
fn feed_by_pieces(program: &Path, input: &[u8], rng: &mut Rng) -> io::Result<Output> {
    let (reader, writer) = UnixDatagram::pair()?;
    run(program, OwnedFd::from(reader).into(), move || {
        send_pieces(rng, input, |piece| writer.send(piece).map(drop))?;
        // Nobody may be there any more.
        let _ = writer.send(&[]);
        Ok(())
    })
}

/// Ask that a program prints what is expected and nothing else when it is fed in one of the two ways; that way.
pub fn compare(program: &Path, input: &[u8], expected: &str, rng: &mut Rng, place: &str) -> &'static str {
    let (feed, way) = pick(rng, &[(feed_by_pieces as Feed, WAYS[0]), (feed_by_pipe, WAYS[1])]);
    let output = feed(program, input, rng).expect("the program can be run");
    let start = String::from_utf8_lossy(&input[..input.len().min(2000)]);
    let shown = || format!("seed {}, {place}, fed {way}, the input begins with\n{start}", seed());
    assert_eq!(String::from_utf8_lossy(&output.stdout), expected, "{}", shown());
    assert!(output.stderr.is_empty(), "{}\n{}", String::from_utf8_lossy(&output.stderr), shown());
    assert!(output.status.success(), "{}: {}", output.status, shown());
    way
}
