//! The library's check against the evaluator's on damaged tables.

use chamrolak::trial::judge_tables;
use chamrolak_rules::automaton::{self, Merging};
use chamrolak_rules::generate::{damaged_tables, random_specimen, RECIPE_GRAMMAR};
use chamrolak_rules::grammar::Grammar;
use chamrolak_rules::random::Random;
use chamrolak_rules::tables::{Payloads, Tables};
use std::collections::BTreeMap;

const DAMAGED_TABLES: usize = 60_000;
/// Most of the time goes into making tables, so each is damaged in several ways.
const DAMAGES_OF_A_TABLE: usize = 10;
/// Larger tables have a test of their own, with fewer of them.
const MOST_ITEMS: usize = 300;
const LARGE_DAMAGED_TABLES: usize = 60;

fn judge(payloads: &Payloads, counts: &mut BTreeMap<u32, usize>) {
    *counts.entry(judge_tables(payloads)).or_default() += 1;
}

fn print_and_require(what: &str, counts: &BTreeMap<u32, usize>, least: usize) {
    println!("{what}, tables by refusal (0 passes): {counts:?}");
    for number in 10..=17 {
        let count = counts.get(&number).copied().unwrap_or(0);
        assert!(count >= least, "refusal {number} came {count} times");
    }
}

fn small_tables(random: &mut Random) -> Tables {
    loop {
        let specimen = random_specimen(random);
        if specimen.tables.items.len() <= MOST_ITEMS {
            return specimen.tables;
        }
    }
}

#[test]
fn damaged_tables_are_refused_as_the_rules_say() {
    let mut random = Random::new(21);
    let mut counts = BTreeMap::new();
    for _ in 0..DAMAGED_TABLES / DAMAGES_OF_A_TABLE {
        let tables = small_tables(&mut random);
        for _ in 0..DAMAGES_OF_A_TABLE {
            judge(&damaged_tables(&mut random, &tables), &mut counts);
        }
    }
    print_and_require("damaged", &counts, 500);
}

#[test]
fn tables_damaged_twice_give_the_lower_number() {
    let mut random = Random::new(22);
    let mut counts = BTreeMap::new();
    for _ in 0..10_000 {
        let tables = small_tables(&mut random);
        // Damage that still decodes can be damaged again.
        let once = damaged_tables(&mut random, &tables);
        if let Some(tables) = once.decode() {
            judge(&damaged_tables(&mut random, &tables), &mut counts);
        }
    }
    print_and_require("damaged twice", &counts, 50);
}

#[test]
fn large_damaged_tables() {
    let grammar = Grammar::from_text(RECIPE_GRAMMAR);
    let mut random = Random::new(23);
    let mut counts = BTreeMap::new();
    for merging in [Merging::Canonical, Merging::Merged] {
        let tables = automaton::tables(&grammar, merging, 1).expect("no conflict");
        judge(&tables.encode(), &mut counts);
        for _ in 0..LARGE_DAMAGED_TABLES / 2 {
            judge(&damaged_tables(&mut random, &tables), &mut counts);
        }
    }
    print_and_require("large", &counts, 1);
}
