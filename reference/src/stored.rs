//! Stored files: inputs of a program, each with the output that it must give.
//!
//! A name tells what the file is for. A name that ends in a number says that the run
//! ends with this refusal; the tests hold every such name against the output.

use std::path::Path;
use std::{env, fs, io, process};

/// One stored file.
#[derive(Clone, Debug, PartialEq, Eq)]
pub struct StoredFile {
    pub name: String,
    pub input: Vec<u8>,
}

impl StoredFile {
    /// A file from its name and its bytes.
    pub(crate) fn new(name: impl Into<String>, input: impl Into<Vec<u8>>) -> StoredFile {
        StoredFile { name: name.into(), input: input.into() }
    }
}

/// A subject with its files.
pub struct Subject {
    pub title: &'static str,
    pub files: Vec<StoredFile>,
}

/// What a program prints for an input.
pub type Program = fn(&[u8]) -> Vec<u8>;

/// Lines as a file: a line feed after each.
pub(crate) fn file_of<T: AsRef<[u8]>>(lines: &[T]) -> Vec<u8> {
    lines.iter().flat_map(|line| [line.as_ref(), b"\n"].concat()).collect()
}

/// A line that starts like the given one and goes on with fields `1` up to this many bytes, line feed included.
pub(crate) fn stretched(line: &str, length: usize) -> String {
    let odd = if (length - 1 - line.len()).is_multiple_of(2) { "" } else { "1" };
    let pairs = (length - 1 - line.len()) / 2;
    format!("{line}{odd}{}", "\t1".repeat(pairs))
}

/// The files of all subjects in the order in which they are run.
pub fn in_order(subjects: Vec<Subject>) -> Vec<StoredFile> {
    subjects.into_iter().flat_map(|subject| subject.files).collect()
}

/// The names, one a line.
pub fn args(files: &[StoredFile]) -> Vec<u8> {
    files.iter().flat_map(|file| format!("{}\n", file.name).into_bytes()).collect()
}

/// What running all files prints: for each a line with its name, then the output of its run.
pub fn stdout(files: &[StoredFile], run: Program) -> Vec<u8> {
    let section = |file: &StoredFile| [format!("== {}\n", file.name).into_bytes(), run(&file.input)].concat();
    files.iter().flat_map(section).collect()
}

/// Write data, args and stdout into the folder.
fn write(folder: &Path, files: &[StoredFile], run: Program) -> io::Result<()> {
    let data = folder.join("data");
    fs::create_dir_all(&data)?;
    for file in files {
        fs::write(data.join(&file.name), &file.input)?;
    }
    fs::write(folder.join("args"), args(files))?;
    fs::write(folder.join("stdout"), stdout(files, run))
}

/// Names in FOLDER/data that this generator does not write, such as those of an older run.
fn left_over(folder: &Path, files: &[StoredFile]) -> io::Result<Vec<String>> {
    let mut names = Vec::new();
    for entry in fs::read_dir(folder.join("data"))? {
        let name = entry?.file_name().to_string_lossy().into_owned();
        if files.iter().all(|file| file.name != name) {
            names.push(name);
        }
    }
    Ok(names)
}

/// Take the folder from the command line, write the files and name what does not belong to them.
pub fn generate(generator: &str, files: &[StoredFile], run: Program) -> io::Result<()> {
    let Some(folder) = env::args_os().nth(1) else {
        eprintln!("usage: {generator} FOLDER");
        process::exit(2);
    };
    write(Path::new(&folder), files, run)?;
    for name in left_over(Path::new(&folder), files)? {
        eprintln!("not one of these files: data/{name}");
    }
    println!("{} files", files.len());
    Ok(())
}
