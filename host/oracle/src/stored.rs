//! Makes the stored list: inputs chosen so that many kinds of run are in it, and the Rust driver's
//! answers to them.

use chamrolak_rules::answer::Run;
use chamrolak_rules::automaton::{self, Merging};
use chamrolak_rules::bench::{self, numbered_tokens};
use chamrolak_rules::generate::{
    bench_specimens, endless_specimen, fixed_grammars, random_location, random_specimen,
    random_tokens, Origin, Specimen,
};
use chamrolak_rules::random::Random;
use chamrolak_rules::tables::{Tables, Token};
use chamrolak_rules::vectors::{Case, StoredList};
use std::collections::BTreeSet;

/// The list's head, which says how it was made.
pub const HEAD: &str = "\
# Answers of the customer's Rust driver (lalrpop-util/src/state_machine.rs, Parser::drive), obtained
# by running it over the tables and tokens below. The form is described in host/rules/src/vectors.rs.
# Made by: cd host/oracle && cargo run --bin vectors
";

/// Budget of the cases that are not cut on purpose.
const BUDGET: u64 = 2_000;
const MOST_CASES_OF_A_TABLE: usize = 8;
/// Random tables, beside those of document 01 and of the fixed grammars.
const RANDOM_TABLES: usize = 34;
/// Larger tables would fill the list without showing more; the largest fixed one is in it.
const MOST_ITEMS_OF_A_RANDOM_TABLE: usize = 150;

pub fn stored_list() -> StoredList {
    let mut list = StoredList::default();
    let no_limit = u64::MAX;
    for example in bench::examples() {
        // The Rust driver has no limits; a budget is all that can be asked of it.
        if matches!(example.answer, 1..=6) || example.limits.budget != no_limit {
            let table = table_number(&mut list, &example.tables);
            let budget = example.limits.budget.min(BUDGET);
            let tokens = numbered_tokens(example.kinds);
            list.cases.push(case(&list, table, 0, budget, tokens));
        }
    }
    let mut random = Random::new(2026);
    for specimen in specimens(&mut random) {
        add_cases(&mut random, &mut list, &specimen);
    }
    list
}

fn specimens(random: &mut Random) -> Vec<Specimen> {
    let mut specimens = bench_specimens();
    specimens.push(endless_specimen());
    for grammar in fixed_grammars() {
        let merging = Merging::Merged;
        let tables = automaton::tables(&grammar, merging, 1).expect("fixed grammars conflict not");
        specimens.push(Specimen {
            origin: Origin::Automaton(merging),
            grammar,
            tables,
        });
    }
    let enough = specimens.len() + RANDOM_TABLES;
    while specimens.len() < enough {
        let specimen = random_specimen(random);
        let is_random = !matches!(specimen.origin, Origin::Bench | Origin::Endless);
        if is_random && specimen.tables.items.len() <= MOST_ITEMS_OF_A_RANDOM_TABLE {
            specimens.push(specimen);
        }
    }
    specimens
}

/// Tries inputs and keeps those whose run is unlike the ones already kept for this table.
fn add_cases(random: &mut Random, list: &mut StoredList, specimen: &Specimen) {
    let table = table_number(list, &specimen.tables);
    let mut seen = BTreeSet::new();
    for _ in 0..100 {
        let tokens = random_tokens(random, &specimen.grammar, 6);
        let start_location = random_location(random);
        let cut = random.one_in(10);
        let budget = if cut { random.below(30) as u64 } else { BUDGET };
        // A run for ever is cut short in the list as well.
        let budget = match specimen.origin {
            Origin::Endless => budget.min(20),
            _ => budget,
        };
        let case = case(list, table, start_location, budget, tokens);
        if case.run.nodes.len() <= 60 && seen.insert(likeness(&case.run)) {
            list.cases.push(case);
        }
        if seen.len() == MOST_CASES_OF_A_TABLE {
            return;
        }
    }
}

fn case(
    list: &StoredList,
    table: usize,
    start_location: u32,
    budget: u64,
    tokens: Vec<Token>,
) -> Case {
    let run = crate::run(&list.tables[table], &tokens, start_location, budget);
    Case {
        table,
        start_location,
        budget,
        tokens,
        run,
    }
}

/// The number of these tables in the list, to which they are added if they are new.
fn table_number(list: &mut StoredList, tables: &Tables) -> usize {
    let known = list.tables.iter().position(|known| known == tables);
    known.unwrap_or_else(|| {
        list.tables.push(tables.clone());
        list.tables.len() - 1
    })
}

/// Runs that agree in this are alike: the answer, the marks, whether tokens were dropped and popped,
/// and whether the error was at the end.
fn likeness(run: &Run) -> (u32, usize, bool, bool, bool) {
    let any = |test: fn(&[u32; 16]) -> bool| run.records.iter().any(test);
    (
        run.answer.number(),
        run.records.len().min(2),
        any(|record| record[4] < record[3]),
        any(|record| record[2] < record[4]),
        any(|record| record[0] == 4),
    )
}
