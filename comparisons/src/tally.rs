//! Counts of the outcomes of a test.

use crate::seed::seed;
use std::collections::BTreeMap;
use std::io::{stderr, Write};
use std::thread;

/// Print a line at once, past the capture of the test's output.
fn say(line: &str) {
    stderr().write_all(line.as_bytes()).expect("standard error takes a line");
}

/// How often each outcome occurred in a test.
pub struct Tally {
    name: String,
    cases: u64,
    counts: BTreeMap<String, u64>,
}

impl Tally {
    /// No outcome yet, in the test with this name.
    pub fn new(name: &str) -> Tally {
        Tally { name: name.to_string(), cases: 0, counts: BTreeMap::new() }
    }

    /// Count a case with its outcome.
    pub fn case(&mut self, outcome: &str) {
        self.cases += 1;
        self.note(outcome);
    }

    /// Count a further property of a case.
    pub fn note(&mut self, property: &str) {
        *self.counts.entry(property.to_string()).or_default() += 1;
    }

    /// How often an outcome or a property occurred so far.
    pub fn count(&self, outcome: &str) -> u64 {
        self.counts.get(outcome).copied().unwrap_or_default()
    }

    /// Print the counts, and ask that these outcomes and no others occurred.
    pub fn finish(self, expected: &[&str]) {
        let counts: Vec<String> = self.counts.iter().map(|(outcome, count)| format!("{outcome} {count}")).collect();
        say(&format!("{}: {} cases (seed {}): {}\n", self.name, self.cases, seed(), counts.join(", ")));
        let mut expected = expected.to_vec();
        expected.sort();
        let seen: Vec<&str> = self.counts.keys().map(String::as_str).collect();
        assert_eq!(seen, expected, "{} (seed {}): the outcomes that occurred", self.name, seed());
    }
}

impl Drop for Tally {
    /// Where the test fails, say with which seed and after how many cases.
    fn drop(&mut self) {
        if thread::panicking() {
            say(&format!("{}: failed after {} cases; LOVA_SEED={} repeats it\n", self.name, self.cases, seed()));
        }
    }
}
