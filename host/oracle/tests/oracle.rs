//! The Rust driver itself against the paper's examples and the stored list.

use chamrolak_rules::bench::{examples, numbered_tokens};
use chamrolak_rules::vectors::StoredList;

#[test]
fn the_rust_driver_gives_the_papers_answers() {
    // It knows no limit but the budget.
    let known = |answer: u32| answer <= 19;
    for example in examples().into_iter().filter(|e| known(e.answer)) {
        let tokens = numbered_tokens(example.kinds);
        let run = chamrolak_oracle::run(&example.tables, &tokens, 0, example.limits.budget);
        assert_eq!(run.answer.number(), example.answer, "{}", example.name);
        assert_eq!(run.answer.fields(), example.fields, "{}", example.name);
        assert_eq!(run.units, example.units, "{}", example.name);
    }
}

#[test]
fn the_stored_list_is_what_the_rust_driver_says_today() {
    let list = StoredList::from_text(include_str!("../../vectors/oracle.txt"));
    for (number, case) in list.cases.iter().enumerate() {
        let tables = &list.tables[case.table];
        let run = chamrolak_oracle::run(tables, &case.tokens, case.start_location, case.budget);
        assert_eq!(run, case.run, "case {number}");
    }
}
