//! Document 01's rules as plain Rust: what every other form of the driver is judged by.
//!
//! `tables`, `check`, `answer`, `drive` and `file` render the sections of document 01 in the paper's
//! order. They were written from its text, and not from the Rust driver that it ports; `unchecked` is
//! a run over tables of which the paper does not speak. `bench` holds the paper's own examples.
//! `grammar`, `automaton`, `generate` and `random` make tables and inputs for tests, and `example`
//! those of examples/; `vectors` reads and writes the stored list of answers, `damaged` makes the one of
//! refused tables, and `tally` is what the programs that compare have in common.
#![forbid(unsafe_code)]

pub mod answer;
pub mod automaton;
pub mod bench;
pub mod check;
pub mod damaged;
pub mod drive;
pub mod example;
pub mod file;
pub mod generate;
pub mod grammar;
pub mod random;
pub mod tables;
pub mod tally;
pub mod unchecked;
pub mod vectors;

use answer::{Limits, Refusal};
use drive::Driven;
use tables::Payloads;

/// The public call of document 01 as a whole: the check, refusal 18, and then the run.
pub fn call(
    payloads: &Payloads,
    token_bytes: &[u8],
    start_location: u32,
    limits: &Limits,
) -> Result<Driven, Refusal> {
    let tables = check::check(payloads)?;
    let tokens = check::read_tokens(token_bytes)?;
    Ok(drive::drive(&tables, &tokens, start_location, limits))
}
