//! Stored chain files: inputs of the chain program.

mod good;
pub(crate) mod lines;
pub(crate) mod numerals;
mod order;
pub(crate) mod params;
mod parts;
mod random;
mod witnesses;

use crate::stored::{in_order, StoredFile, Subject};

/// All subjects in the order in which their files are run.
pub fn subjects() -> Vec<Subject> {
    let subject = |title, files| Subject { title, files };
    vec![
        subject("good chains", good::files()),
        subject("settings", params::files()),
        subject("numerals", numerals::files()),
        subject("witnesses", witnesses::files()),
        subject("words, fields and bytes of a line", lines::files()),
        subject("order of lines", order::missing_and_extra()),
        subject("last line without its line feed", order::unterminated()),
        subject("length of lines", order::lengths()),
        subject("output before a refusal", random::refused_late()),
        subject("random chains", random::long_chains()),
        subject("random chains with one shape of challenge", random::shaped_chains()),
        subject("random chains with one damaged byte", random::damaged_chains()),
    ]
}

/// All files in the order in which they are run.
pub fn all() -> Vec<StoredFile> {
    in_order(subjects())
}
