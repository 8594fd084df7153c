//! Compares the library with the customer's Rust driver on random runs, the result and every word of
//! every room: `cargo run --release --bin compare -- RUNS SEED`.
#![forbid(unsafe_code)]

use chamrolak::lent::RoomBytes;
use chamrolak::trial::{Call, Entry};
use chamrolak::Input;
use chamrolak_rules::answer::Run;
use chamrolak_rules::generate::{random_location, random_specimen, random_tokens, Specimen};
use chamrolak_rules::tables::{token_bytes, Payloads, Token};
use chamrolak_rules::tally::{runs_and_random, Tally};

const DEFAULT_RUNS: u64 = 200_000;
const RUNS_OF_A_TABLE: u64 = 20;
/// Some tables reduce for ever.
const BUDGET: u32 = 3_000;
/// The call that checks as well takes long on larger tables: there it is made now and then.
const MOST_ITEMS_CHECKED_ALWAYS: usize = 300;
const LARGE_TABLES_CHECKED_ONE_IN: usize = 300;

fn main() {
    let (runs, mut random) = runs_and_random(DEFAULT_RUNS);
    let mut tally = Tally::default();
    for first_run in (0..runs).step_by(RUNS_OF_A_TABLE as usize) {
        let table = Table::new(random_specimen(&mut random));
        tally.add_table(table.specimen.origin);
        for _ in first_run..runs.min(first_run + RUNS_OF_A_TABLE) {
            let size = random.between(1, 25);
            let tokens = random_tokens(&mut random, &table.specimen.grammar, size);
            let start_location = random_location(&mut random);
            let parses = !table.is_large() || random.one_in(LARGE_TABLES_CHECKED_ONE_IN);
            let whole = table.compare(&tokens, start_location, BUDGET, parses);
            // The same run, cut at some unit: it shows only the steps before.
            let cut = random.between(0, whole.units as usize) as u32;
            table.compare(&tokens, start_location, cut, false);
            tally.add(&whole);
        }
    }
    tally.print();
    println!("compare: {runs} runs, each also cut at some unit, 0 differences");
}

struct Table {
    specimen: Specimen,
    payloads: Payloads,
}

impl Table {
    fn new(specimen: Specimen) -> Table {
        let payloads = specimen.tables.encode();
        Table { specimen, payloads }
    }

    fn is_large(&self) -> bool {
        self.specimen.tables.items.len() > MOST_ITEMS_CHECKED_ALWAYS
    }

    /// Gives the Rust driver's run; panics where the library's differs.
    fn compare(&self, tokens: &[Token], start_location: u32, budget: u32, parses: bool) -> Run {
        let tables = &self.specimen.tables;
        let run = chamrolak_oracle::run(tables, tokens, start_location, budget.into());
        let call = Call {
            payloads: &self.payloads,
            input: Input {
                tokens: &token_bytes(tokens),
                start_location,
                budget,
            },
            // As deep as a run of so many units can be, and a few odd bytes.
            rooms: RoomBytes::filled_by(&run, run.units as usize + 1).and(35),
        };
        call.must_do(Entry::Drive, Ok(&run));
        if parses {
            call.must_do(Entry::Parse, Ok(&run));
        }
        run
    }
}
