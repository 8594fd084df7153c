//! What the programs that compare many runs have in common: their arguments, and what they count.

use crate::answer::Run;
use crate::generate::Origin;
use crate::random::Random;
use std::collections::BTreeMap;

/// A program's two arguments, both optional: how many runs, and the seed of its random numbers.
pub fn runs_and_random(default_runs: u64) -> (u64, Random) {
    let mut arguments = std::env::args().skip(1);
    let mut number = |default| match arguments.next() {
        Some(argument) => argument.parse().expect("a number"),
        None => default,
    };
    (number(default_runs), Random::new(number(1)))
}

#[derive(Default)]
pub struct Tally {
    tables: BTreeMap<Origin, u64>,
    answers: BTreeMap<u32, u64>,
    marks: u64,
    marks_that_pop: u64,
    dropped_tokens: u64,
    units: u64,
}

impl Tally {
    pub fn add_table(&mut self, origin: Origin) {
        *self.tables.entry(origin).or_default() += 1;
    }

    pub fn add(&mut self, run: &Run) {
        *self.answers.entry(run.answer.number()).or_default() += 1;
        self.units += run.units;
        for record in &run.records {
            self.marks += 1;
            self.marks_that_pop += u64::from(record[2] < record[4]);
            self.dropped_tokens += u64::from(record[3] - record[4]);
        }
    }

    pub fn print(&self) {
        for (origin, count) in &self.tables {
            println!("tables {origin:?}: {count}");
        }
        for (answer, count) in &self.answers {
            println!("answer {answer}: {count}");
        }
        let (marks, popping, dropped) = (self.marks, self.marks_that_pop, self.dropped_tokens);
        println!("marks: {marks}, of which {popping} over popped tokens");
        println!("dropped tokens under marks: {dropped}");
        println!("units: {}", self.units);
    }
}
