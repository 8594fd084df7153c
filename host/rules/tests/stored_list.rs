//! The evaluator against the stored list of the Rust driver's answers: needs no Rust source.

use chamrolak_rules::answer::Limits;
use chamrolak_rules::check::check;
use chamrolak_rules::tables::token_bytes;
use chamrolak_rules::vectors::StoredList;
use std::collections::BTreeSet;

fn stored_list() -> StoredList {
    StoredList::from_text(include_str!("../../vectors/oracle.txt"))
}

#[test]
fn the_evaluator_gives_every_stored_answer() {
    let list = stored_list();
    for (number, case) in list.cases.iter().enumerate() {
        let payloads = list.tables[case.table].encode();
        let tokens = token_bytes(&case.tokens);
        let limits = Limits::budget_only(case.budget);
        let driven = chamrolak_rules::call(&payloads, &tokens, case.start_location, &limits);
        assert_eq!(
            driven.map(|driven| driven.run).as_ref(),
            Ok(&case.run),
            "case {number}"
        );
    }
}

#[test]
fn the_list_holds_every_answer_of_the_rust_driver() {
    let list = stored_list();
    assert!(list.cases.len() >= 250);
    assert!(list
        .tables
        .iter()
        .all(|tables| check(&tables.encode()).is_ok()));
    let answers: BTreeSet<u32> = (list.cases.iter())
        .map(|case| case.run.answer.number())
        .collect();
    assert_eq!(answers, BTreeSet::from([1, 2, 3, 4, 5, 6, 19]));
    assert!(list.tables.iter().any(|tables| tables.flag == 0));
}
