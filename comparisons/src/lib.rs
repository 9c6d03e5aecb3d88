//! What the comparisons share: seeds, counts, random settings, matrices and inputs of the programs, and
//! calls that are made both by the static library and by the reference.
#![deny(unsafe_code)]
#![allow(clippy::too_many_arguments)]

#[cfg(feature = "library")]
pub mod calls;
#[cfg(feature = "library")]
pub mod cases;
pub mod chains;
#[cfg(feature = "library")]
pub mod forms;
pub mod inputs;
#[cfg(feature = "library")]
#[allow(unsafe_code)]
pub mod library;
pub mod loads;
pub mod programs;
#[cfg(feature = "library")]
pub mod recompositions;
#[cfg(feature = "library")]
pub mod repeats;
pub mod seed;
pub mod settings;
pub mod tally;
#[cfg(feature = "library")]
pub mod turns;
#[cfg(feature = "library")]
pub mod verdicts;
