//! A second program for the parts of the path card that can be asked in bytes
//! and numbers: parity, trace check, word reading, the pointer words that the
//! source writes, the container source and the unit source, the payload call,
//! the sink, and the circuit catalogue with its lookup and listing, its import from
//! comma-separated text and its export.
//!
//! Written from the rules paper ("01") alone, with the numbers of TU-3, the three
//! refusals of a trace, the count of compared pairs, the spreadsheet and the bit
//! columns of the parity from the requests for them ("02") and what was decided where
//! these leave room; only two values in the tests, said there to be published, come
//! from elsewhere. The rules stand in rules/, which of their cases were met is told by
//! coverage.rs, and the tests stand in tests/.

// A program that takes this file as a module need not use all of it.
#![allow(dead_code)]
#![forbid(unsafe_code)]

// The paths are said, since some of the programs that take this file as a module
// stand beside it and some elsewhere.
#[path = "coverage.rs"]
pub mod coverage;
#[path = "rules/mod.rs"]
mod rules;
#[cfg(test)]
#[path = "tests/mod.rs"]
mod tests;

pub use rules::*;
