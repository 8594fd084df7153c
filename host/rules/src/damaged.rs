//! The stored list of damaged tables: tables that pass the check, what was changed in them, and the
//! refusal that the evaluator then gives.
//!
//! The form is that of `vectors`. A case holds a line for each list that was changed: the list's word,
//! the first byte that changed, how many bytes were taken out there, and the bytes that were put in.
//! Then `refusal`, its number and place.

use crate::answer::Refusal;
use crate::automaton::{self, Merging};
use crate::check::check;
use crate::generate::{bench_specimens, damaged_tables, endless_specimen, fixed_grammars};
use crate::random::Random;
use crate::tables::{Item, Payloads, Tables};
use crate::vectors::{push_lines, push_tables, sections, table_of, Section};
use std::collections::BTreeMap;
use std::fmt::Write;

/// The list's head, which says how it was made.
pub const HEAD: &str = "\
# Damaged tables, and how document 01's rules as a plain evaluator (host/rules/src/check.rs) refuse them.
# The form is described in host/rules/src/damaged.rs.
# Made by: cd host/rules && cargo run --release --bin damaged
";

/// The words for a table's lists, in the paper's order.
const LIST_WORDS: [&str; 7] = [
    "sizes",
    "actions",
    "gotos",
    "productions",
    "right_sides",
    "items",
    "first_sets",
];
/// The last list holds bytes, the others 16-bit numbers.
const LISTS_OF_NUMBERS: usize = 6;

/// Larger tables would fill the list without showing more.
const MOST_ITEMS: usize = 80;
/// Random damages of a table that are kept for each refusal.
const MOST_RANDOM_CASES: usize = 2;
const RANDOM_DAMAGES: usize = 300;

#[derive(Clone, Debug, Default, PartialEq, Eq)]
pub struct DamagedList {
    pub tables: Vec<Tables>,
    pub cases: Vec<DamagedCase>,
}

#[derive(Clone, Debug, PartialEq, Eq)]
pub struct DamagedCase {
    /// The number, in the list, of the table that was damaged.
    pub table: usize,
    pub payloads: Payloads,
    pub refusal: Refusal,
}

impl DamagedList {
    pub fn to_text(&self) -> String {
        let mut text = String::new();
        push_tables(&mut text, &self.tables);
        for (number, case) in self.cases.iter().enumerate() {
            let _ = writeln!(text, "case {number} {}", case.table);
            let whole = self.tables[case.table].encode();
            let lists = whole.lists().into_iter().zip(case.payloads.lists());
            for (word, (before, after)) in LIST_WORDS.into_iter().zip(lists) {
                if before != after {
                    push_lines(&mut text, word, usize::MAX, change(before, after));
                }
            }
            let Refusal { number, place } = case.refusal;
            push_lines(&mut text, "refusal", 2, [number as usize, place]);
        }
        text
    }

    /// Reads what `to_text` writes. Panics on any other text: the list is ours.
    pub fn from_text(text: &str) -> DamagedList {
        let mut list = DamagedList::default();
        for section in sections(text) {
            match section.word {
                "table" => list.tables.push(table_of(&section)),
                _ => list.cases.push(case_of(&list.tables, &section)),
            }
        }
        list
    }
}

/// The first byte that changed, how many were taken out there, and those that were put in.
fn change(before: &[u8], after: &[u8]) -> Vec<usize> {
    let ahead = before.iter().zip(after);
    let at = ahead.take_while(|(one, other)| one == other).count();
    let (before, after) = (&before[at..], &after[at..]);
    let behind = before.iter().rev().zip(after.iter().rev());
    let same = behind.take_while(|(one, other)| one == other).count();
    let put = after[..after.len() - same].iter().map(|&byte| byte.into());
    [at, before.len() - same].into_iter().chain(put).collect()
}

fn case_of(tables: &[Tables], section: &Section) -> DamagedCase {
    let table = section.head[1] as usize;
    let mut payloads = tables[table].encode();
    for (word, bytes) in LIST_WORDS.into_iter().zip(payloads.lists_mut()) {
        if let &[at, cut, ref put @ ..] = section.list(word) {
            let put = put.iter().map(|&byte| byte as u8);
            bytes.splice(at as usize..(at + cut) as usize, put);
        }
    }
    let &[number, place] = section.list("refusal") else {
        panic!("a refusal is its number and place");
    };
    let refusal = Refusal {
        number: number as u32,
        place: place as usize,
    };
    DamagedCase {
        table,
        payloads,
        refusal,
    }
}

/// Makes the list.
pub fn damaged_list() -> DamagedList {
    let mut random = Random::new(1_017);
    let mut list = DamagedList {
        tables: tables_to_damage(),
        cases: Vec::new(),
    };
    for table in 0..list.tables.len() {
        let tables = list.tables[table].clone();
        let mut damaged = at_the_ends(&tables);
        damaged.push(without_production_0(&tables));
        damaged.extend(at_random(&mut random, &tables));
        for payloads in damaged {
            add_case(&mut list, table, payloads);
        }
    }
    list
}

fn tables_to_damage() -> Vec<Tables> {
    let fixed = fixed_grammars().into_iter().map(|grammar| {
        automaton::tables(&grammar, Merging::Merged, 1).expect("fixed grammars conflict not")
    });
    let specimens = bench_specimens().into_iter().chain([endless_specimen()]);
    let tables = specimens.map(|specimen| specimen.tables).chain(fixed);
    tables
        .filter(|tables| tables.items.len() <= MOST_ITEMS)
        .collect()
}

fn add_case(list: &mut DamagedList, table: usize, payloads: Payloads) {
    let known = |case: &DamagedCase| case.table == table && case.payloads == payloads;
    let refusal = check(&payloads).expect_err("a refusal");
    if !list.cases.iter().any(known) {
        list.cases.push(DamagedCase {
            table,
            payloads,
            refusal,
        });
    }
}

/// Of all tables with another last item or one number changed, for each refusal one of the lowest and
/// one of the highest place.
fn at_the_ends(tables: &Tables) -> Vec<Payloads> {
    let mut found = BTreeMap::new();
    let whole = tables.encode();
    for payloads in with_another_last_item(tables).chain(with_a_number_changed(&whole)) {
        if let Err(Refusal { number, place }) = check(&payloads) {
            found.entry((number, place)).or_insert(payloads);
        }
    }
    let ends = (10..=17).flat_map(|number| {
        let mut of_number = found.range((number, 0)..(number + 1, 0));
        let lowest = of_number.next();
        lowest.into_iter().chain(of_number.next_back())
    });
    ends.map(|(_, payloads)| payloads.clone()).collect()
}

/// One item alone in its state, the last, and with each past that an item can have: only so does 15
/// fail at the last item and at none before it.
fn with_another_last_item(tables: &Tables) -> impl Iterator<Item = Payloads> + '_ {
    let last = *tables.items.last().expect("tables that pass have items");
    let productions = tables.productions.iter().enumerate();
    let pasts = productions.flat_map(|(production, p)| {
        let dots = 1..=p.right.len() as u16;
        dots.map(move |dot| (production as u16, dot))
    });
    pasts.map(move |(production, dot)| {
        let mut tables = tables.clone();
        tables.items.retain(|item| item.state < last.state);
        tables.items.push(Item {
            production,
            dot,
            ..last
        });
        tables.encode()
    })
}

/// Each 16-bit number made each that is near those of small tables, and the lowest and highest; each
/// bit of the sets turned over.
fn with_a_number_changed(whole: &Payloads) -> impl Iterator<Item = Payloads> + '_ {
    let numbers = (-20..=40).chain([i16::MIN, i16::MAX]);
    let words = (0..LISTS_OF_NUMBERS).flat_map(move |list| {
        let places = (0..whole.lists()[list].len()).step_by(2);
        places.flat_map({
            let numbers = numbers.clone();
            move |place| numbers.clone().map(move |number| (list, place, number))
        })
    });
    let with_word = |(list, place, number): (usize, usize, i16)| {
        let mut payloads = whole.clone();
        payloads.lists_mut()[list][place..][..2].copy_from_slice(&number.to_le_bytes());
        payloads
    };
    let bits = 0..8 * whole.first_sets.len();
    let with_bit = |bit: usize| {
        let mut payloads = whole.clone();
        payloads.first_sets[bit / 8] ^= 1 << (bit % 8);
        payloads
    };
    words.map(with_word).chain(bits.map(with_bit))
}

/// No item of production 0 and no cell that reduces it, and no other fault: "item count where
/// (0, 0, 0, end) is missing".
fn without_production_0(tables: &Tables) -> Payloads {
    let mut tables = tables.clone();
    tables.items.retain(|item| item.production != 0);
    let reductions = tables.actions.iter_mut().filter(|cell| **cell == -1);
    reductions.for_each(|cell| *cell = 0);
    tables.encode()
}

/// Some random damages for each refusal.
fn at_random(random: &mut Random, tables: &Tables) -> Vec<Payloads> {
    let mut counts: BTreeMap<u32, usize> = BTreeMap::new();
    let mut kept = Vec::new();
    for _ in 0..RANDOM_DAMAGES {
        let payloads = damaged_tables(random, tables);
        let Err(refusal) = check(&payloads) else {
            continue;
        };
        let count = counts.entry(refusal.number).or_default();
        if *count < MOST_RANDOM_CASES {
            *count += 1;
            kept.push(payloads);
        }
    }
    kept
}
