//! Compares the Rust driver with the evaluator of document 01 on random runs, every field and word:
//! `cargo run --release --bin differential -- RUNS SEED`.
#![forbid(unsafe_code)]

use chamrolak_rules::answer::{Limits, Run};
use chamrolak_rules::drive::drive;
use chamrolak_rules::generate::{random_location, random_specimen, random_tokens};
use chamrolak_rules::tables::{Tables, Token};
use chamrolak_rules::tally::{runs_and_random, Tally};
use chamrolak_rules::vectors::{Case, StoredList};
use std::panic::catch_unwind;
use std::process::ExitCode;

const DEFAULT_RUNS: u64 = 20_000;
const RUNS_OF_A_TABLE: u64 = 10;
/// Some tables reduce for ever.
const BUDGET: u64 = 3_000;

/// What one run is made of.
#[derive(Clone)]
struct Input<'a> {
    tables: &'a Tables,
    tokens: Vec<Token>,
    start_location: u32,
    budget: u64,
}

impl Input<'_> {
    /// The evaluator's run, or none where it panics.
    fn by_the_rules(&self) -> Option<Run> {
        let limits = Limits::budget_only(self.budget);
        catch_unwind(|| drive(self.tables, &self.tokens, self.start_location, &limits).run).ok()
    }

    /// The Rust driver's run, or none where it panics.
    fn by_the_rust(&self) -> Option<Run> {
        let Input { tables, tokens, .. } = self;
        let run = || chamrolak_oracle::run(tables, tokens, self.start_location, self.budget);
        catch_unwind(run).ok()
    }

    /// The run, if both give the same one.
    fn agreed_run(&self) -> Option<Run> {
        let run = self.by_the_rules()?;
        (self.by_the_rust()? == run).then_some(run)
    }

    /// Leaves out tokens for as long as a difference remains.
    fn smallest_difference(mut self) -> Self {
        let mut place = 0;
        while place < self.tokens.len() {
            let mut shorter = self.clone();
            shorter.tokens.remove(place);
            match shorter.agreed_run() {
                None => self = shorter,
                Some(_) => place += 1,
            }
        }
        self
    }

    /// Prints the case in the stored list's form, with the answer that this run gives.
    fn print(&self, run: Option<Run>) {
        let Some(run) = run else {
            println!("it panicked");
            return;
        };
        let case = Case {
            table: 0,
            start_location: self.start_location,
            budget: self.budget,
            tokens: self.tokens.clone(),
            run,
        };
        let list = StoredList {
            tables: vec![self.tables.clone()],
            cases: vec![case],
        };
        print!("{}", list.to_text());
    }
}

fn main() -> ExitCode {
    let (runs, mut random) = runs_and_random(DEFAULT_RUNS);
    let mut tally = Tally::default();
    let mut specimen = random_specimen(&mut random);
    for run in 0..runs {
        if run % RUNS_OF_A_TABLE == 0 {
            specimen = random_specimen(&mut random);
            tally.add_table(specimen.origin);
        }
        let size = random.between(1, 25);
        let whole = Input {
            tables: &specimen.tables,
            tokens: random_tokens(&mut random, &specimen.grammar, size),
            start_location: random_location(&mut random),
            budget: BUDGET,
        };
        let Some(agreed) = whole.agreed_run() else {
            return report_difference(run, whole);
        };
        // The same run, cut at some unit: it shows only the steps before.
        let cut = Input {
            budget: random.between(0, agreed.units as usize) as u64,
            ..whole
        };
        if cut.agreed_run().is_none() {
            return report_difference(run, cut);
        }
        tally.add(&agreed);
    }
    tally.print();
    println!("differential: {runs} runs, 0 differences");
    ExitCode::SUCCESS
}

fn report_difference(run: u64, input: Input) -> ExitCode {
    let smallest = input.smallest_difference();
    println!("run {run} differs; by the rules:");
    smallest.print(smallest.by_the_rules());
    println!("by the Rust driver:");
    smallest.print(smallest.by_the_rust());
    println!("differential: {} runs, 1 difference", run + 1);
    ExitCode::FAILURE
}
