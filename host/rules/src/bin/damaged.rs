//! Writes the stored list of damaged tables anew: `cargo run --release --bin damaged`.
#![forbid(unsafe_code)]

use chamrolak_rules::damaged::{damaged_list, HEAD};
use std::collections::BTreeMap;

fn main() -> std::io::Result<()> {
    let list = damaged_list();
    let path = concat!(env!("CARGO_MANIFEST_DIR"), "/../vectors/damaged.txt");
    std::fs::write(path, format!("{HEAD}{}", list.to_text()))?;
    let mut counts: BTreeMap<u32, usize> = BTreeMap::new();
    for case in &list.cases {
        *counts.entry(case.refusal.number).or_default() += 1;
    }
    let (tables, cases) = (list.tables.len(), list.cases.len());
    println!("damaged: {cases} cases over {tables} tables, by refusal {counts:?}");
    Ok(())
}
