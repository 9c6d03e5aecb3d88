//! The load program on standard input and output.

use std::io::{self, Read, Write};

/// Read all, run, write all.
fn main() -> io::Result<()> {
    let mut input = Vec::new();
    io::stdin().read_to_end(&mut input)?;
    io::stdout().write_all(&reference::load::run(&input))
}
