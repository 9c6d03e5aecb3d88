//! Writes the stored chain files: `chains FOLDER` makes FOLDER/data with one file for each name,
//! FOLDER/args with the names in the order of the run, and FOLDER/stdout with what the run prints.

use reference::stored::generate;
use reference::{chain, chain_files};
use std::io;

fn main() -> io::Result<()> {
    generate("chains", &chain_files::all(), chain::run)
}
