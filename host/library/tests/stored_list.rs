//! The library against the stored lists: the Rust driver's answers, and damaged tables. Needs no Rust
//! source.

use chamrolak::lent::RoomBytes;
use chamrolak::trial::{judge_tables, result_of_refusal, Call, Entry};
use chamrolak::{check, Input, TableSlices};
use chamrolak_rules::damaged::DamagedList;
use chamrolak_rules::tables::{token_bytes, Payloads, Tables};
use chamrolak_rules::vectors::StoredList;

fn stored_list() -> StoredList {
    StoredList::from_text(include_str!("../../vectors/oracle.txt"))
}

#[test]
fn the_library_passes_every_stored_table() {
    for tables in &stored_list().tables {
        assert_eq!(judge_tables(&tables.encode()), 0);
    }
}

#[test]
fn the_library_gives_every_stored_answer() {
    let list = stored_list();
    let payloads: Vec<Payloads> = list.tables.iter().map(Tables::encode).collect();
    for case in &list.cases {
        let run = &case.run;
        let tokens = token_bytes(&case.tokens);
        // As deep as any run of so many units can be; then just what it filled, and some odd bytes.
        let exactly = RoomBytes::filled_by(run, run.units as usize + 1);
        for (entry, rooms) in [
            (Entry::Drive, exactly),
            (Entry::Drive, exactly.and(3)),
            (Entry::Parse, exactly.and(101)),
        ] {
            let call = Call {
                payloads: &payloads[case.table],
                input: Input {
                    tokens: &tokens,
                    start_location: case.start_location,
                    budget: case.budget as u32,
                },
                rooms,
            };
            call.must_do(entry, Ok(run));
        }
    }
    println!("stored list: {} cases, 3 calls each", list.cases.len());
}

#[test]
fn the_library_gives_every_stored_refusal() {
    let list = DamagedList::from_text(include_str!("../../vectors/damaged.txt"));
    for (number, case) in list.cases.iter().enumerate() {
        let result = check(&TableSlices::from(&case.payloads));
        assert_eq!(result, result_of_refusal(case.refusal), "case {number}");
    }
    println!("damaged tables: {} cases", list.cases.len());
}
