//! Reference for Lova folding at q = 2^64, written from documents 01 and 02 and the
//! readings of their open points. Plain and slow; it is meant to be compared with.
#![forbid(unsafe_code)]
#![allow(clippy::too_many_arguments)]

pub mod chain;
pub mod chain_files;
pub mod digits;
pub mod forms;
pub mod load;
pub mod load_files;
pub mod matrices;
pub mod operations;
mod records;
pub mod rng;
pub mod settings;
pub mod stored;
pub mod tree;
pub mod turns;
