//! The chain program `foldchain`.

use crate::operations::{relation, Profile};
use crate::records::*;
use crate::settings::Parameters;
use crate::tree::{fold, leaf, Node};

/// The record that is due; at `Leaf` the input may end as well.
#[derive(Clone, Copy, Default, PartialEq)]
enum Due {
    #[default]
    Param,
    A,
    FirstLeaf,
    Leaf,
    C,
}

/// The run state.
#[derive(Default)]
struct Run {
    due: Due,
    p: Parameters,
    a: Vec<u64>,
    /// The count that the accumulated node starts with in the place of commit's.
    given_count: Option<u32>,
    accumulated: Node,
    newest: Node,
    leaves: u64,
    folds: u64,
    output: Vec<u8>,
}

/// A signed number: an unsigned one or, other than zero, one after a minus, within 64 bits.
fn signed(field: &[u8]) -> Option<i64> {
    match field.strip_prefix(b"-") {
        Some(size) => unsigned(size).filter(|w| *w != 0 && *w <= 1 << 63).map(|w| (-(w as i128)) as i64),
        None => unsigned(field).and_then(|w| i64::try_from(w).ok()),
    }
}

/// A byte of C from -1, 0 or 1.
fn challenge_byte(field: &[u8]) -> Option<u8> {
    match field {
        b"0" => Some(0),
        b"1" => Some(1),
        b"-1" => Some(2),
        _ => None,
    }
}

/// The fields of an instance: T, D and the number of leaves under it.
fn instance_texts(node: &Node) -> Vec<String> {
    [texts(&node.t), texts(&node.d), texts(&[node.leaves])].concat()
}

impl Run {
    /// Print one line.
    fn print(&mut self, fields: &[String]) {
        self.output.extend(line(fields));
    }

    /// Take one line without its line feed, or give the refusal.
    fn line(&mut self, line: &[u8]) -> Result<(), u32> {
        let (word, fields) = word_and_fields(line);
        match (self.due, word) {
            (Due::Param, b"param") => self.param(&fields),
            (Due::A, b"a") => self.matrix(&fields),
            (Due::FirstLeaf, b"leaf") | (Due::Leaf, b"leaf") => self.leaf(&fields),
            (Due::C, b"c") => self.challenge(&fields),
            _ => Err(13),
        }
    }

    /// Take the setting: 13, then 1 to 6, then 14.
    fn param(&mut self, fields: &[&[u8]]) -> Result<(), u32> {
        self.p = setting_of(fields)?;
        self.due = Due::A;
        Ok(())
    }

    /// Take the matrix A.
    fn matrix(&mut self, fields: &[&[u8]]) -> Result<(), u32> {
        self.a = numbers(fields, self.p.n * self.p.m, unsigned)?;
        self.due = Due::FirstLeaf;
        Ok(())
    }

    /// Take a witness: 13, then 8; print its instance.
    fn leaf(&mut self, fields: &[&[u8]]) -> Result<(), u32> {
        let s = numbers(fields, self.p.m * self.p.t, signed)?;
        let node = leaf(&self.p, Profile::General, &self.a, &s)?;
        self.leaves += 1;
        let head = vec!["leaf".to_string(), self.leaves.to_string()];
        self.print(&[head, instance_texts(&node)].concat());
        if self.due == Due::FirstLeaf {
            let leaves = self.given_count.unwrap_or(node.leaves);
            self.accumulated = Node { leaves, ..node };
            self.due = Due::Leaf;
        } else {
            self.newest = node;
            self.due = Due::C;
        }
        Ok(())
    }

    /// Take a challenge: 13, then 15; fold the accumulated node with the newest leaf and print the fold.
    fn challenge(&mut self, fields: &[&[u8]]) -> Result<(), u32> {
        let c = numbers(fields, self.p.columns() as u64 * self.p.t, challenge_byte)?;
        let (answer, node) = fold(&self.p, Profile::General, &self.a, &self.accumulated, &self.newest, &c)?;
        self.folds += 1;
        let head = vec!["fold".to_string(), self.folds.to_string(), answer.word()];
        self.print(&[head, instance_texts(&node)].concat());
        self.accumulated = node;
        self.due = Due::Leaf;
        Ok(())
    }

    /// Take the end of the input: print the count of folds and the relation test, or 13 for a missing line.
    fn end(&mut self) -> Result<(), u32> {
        if self.due != Due::Leaf {
            return Err(13);
        }
        let node = &self.accumulated;
        let answer = relation(&self.p, &self.a, &node.t, &node.d, &node.s);
        self.print(&["end".to_string(), self.folds.to_string(), answer.word()]);
        Ok(())
    }
}

/// The output of a run from this state on an input.
fn output(mut run: Run, input: &[u8]) -> Vec<u8> {
    let mut number = 0u64;
    for line in lines(input) {
        number += 1;
        if let Err(refusal) = line.and_then(|text| run.line(text)) {
            run.output.extend(refused(number, refusal));
            return run.output;
        }
    }
    if let Err(refusal) = run.end() {
        run.output.extend(refused(number + 1, refusal));
    }
    run.output
}

/// The output of the program for an input.
pub fn run(input: &[u8]) -> Vec<u8> {
    output(Run::default(), input)
}

/// The output where the accumulated node starts with this many leaves under it: an input with 2^32 leaves is too long.
pub fn run_with_leaves(leaves: u32, input: &[u8]) -> Vec<u8> {
    output(Run { given_count: Some(leaves), ..Run::default() }, input)
}
