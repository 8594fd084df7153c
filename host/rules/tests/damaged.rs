//! The evaluator against the stored list of damaged tables.

use chamrolak_rules::answer::Refusal;
use chamrolak_rules::check::check;
use chamrolak_rules::damaged::{DamagedList, HEAD};
use chamrolak_rules::tables::Tables;
use std::cmp::Ordering;
use std::collections::BTreeSet;

const STORED: &str = include_str!("../../vectors/damaged.txt");

#[test]
fn the_evaluator_gives_every_stored_refusal() {
    let list = DamagedList::from_text(STORED);
    assert!(list.cases.len() >= 300);
    for tables in &list.tables {
        assert!(check(&tables.encode()).is_ok());
    }
    for (number, case) in list.cases.iter().enumerate() {
        assert_eq!(
            check(&case.payloads).err(),
            Some(case.refusal),
            "case {number}"
        );
    }
}

/// The last place at which tables of these lists can be refused with this number.
fn last_place(number: u32, tables: &Tables) -> usize {
    let places = match number {
        11 => tables.actions.len() + tables.gotos.len(),
        12 | 13 => tables.productions.len(),
        16 => tables.actions.len(),
        _ => tables.items.len(),
    };
    places - 1
}

#[test]
fn the_stored_list_has_each_refusal_at_its_ends() {
    let list = DamagedList::from_text(STORED);
    for table in 0..list.tables.len() {
        // Which refusals came at the first place, at the last, and behind the last.
        let mut ends: BTreeSet<(u32, &str)> = BTreeSet::new();
        for case in list.cases.iter().filter(|case| case.table == table) {
            let Refusal { number, place } = case.refusal;
            if place == 0 {
                ends.insert((number, "first"));
            }
            // Lists of a wrong length have no places: 10 is refused at place 0.
            let Some(tables) = case.payloads.decode() else {
                continue;
            };
            match place.cmp(&last_place(number, &tables)) {
                Ordering::Less => {}
                Ordering::Equal => {
                    ends.insert((number, "last"));
                }
                Ordering::Greater => {
                    ends.insert((number, "behind"));
                }
            }
        }
        let mut wanted = BTreeSet::from([(10, "first"), (17, "behind")]);
        wanted.extend((11..=17).flat_map(|number| [(number, "first"), (number, "last")]));
        assert_eq!(ends, wanted, "table {table}");
    }
}

#[test]
fn the_stored_list_is_in_its_form() {
    let list = DamagedList::from_text(STORED);
    assert!(STORED == format!("{HEAD}{}", list.to_text()));
}
