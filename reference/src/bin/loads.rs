//! Writes the stored load files: `loads FOLDER` makes FOLDER/data with one file for each name,
//! FOLDER/args with the names in the order of the run, and FOLDER/stdout with what the run prints.

use reference::stored::generate;
use reference::{load, load_files};
use std::io;

fn main() -> io::Result<()> {
    generate("loads", &load_files::all(), load::run)
}
