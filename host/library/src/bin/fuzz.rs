//! Fuzz run over the C boundary: `cargo run --release --bin fuzz -- CALLS SEED`.
//!
//! Any bytes for every slice, in any length, and rooms of all sizes. The rules say what each call must
//! do with them, `chamrolak_drive` on tables that nobody checked included: every call returns, with the
//! right result, every word of every room is the right one, and no other byte changes, around the
//! rooms neither.
#![forbid(unsafe_code)]

use chamrolak::lent::RoomBytes;
use chamrolak::trial::{judge_tables, Call, Entry};
use chamrolak::Input;
use chamrolak_rules::generate::{damaged_tables, random_specimen, random_tokens, Specimen};
use chamrolak_rules::random::Random;
use chamrolak_rules::tables::{token_bytes, Payloads};
use chamrolak_rules::tally::runs_and_random;
use std::collections::BTreeMap;

const DEFAULT_CALLS: u64 = 100_000;
const MOST_UNITS: u32 = 5_000;
const CALLS_OF_A_SPECIMEN: u64 = 50;
/// A call that checks takes long on larger tables.
const MOST_ITEMS: usize = 300;

fn main() {
    let (calls, mut random) = runs_and_random(DEFAULT_CALLS);
    let mut counts: BTreeMap<(&str, u32), u64> = BTreeMap::new();
    let mut specimen = small_specimen(&mut random);
    for call in 0..calls {
        if call % CALLS_OF_A_SPECIMEN == 0 {
            specimen = small_specimen(&mut random);
        }
        let (name, number) = one_call(&mut random, &specimen);
        *counts.entry((name, number)).or_default() += 1;
    }
    for ((name, number), count) in &counts {
        println!("{name} {number}: {count}");
    }
    println!("fuzz: {calls} calls, 0 differences");
}

fn small_specimen(random: &mut Random) -> Specimen {
    loop {
        let specimen = random_specimen(random);
        if specimen.tables.items.len() <= MOST_ITEMS {
            return specimen;
        }
    }
}

/// Makes one call and holds it to what must be true of every call. Gives its name and number.
fn one_call(random: &mut Random, specimen: &Specimen) -> (&'static str, u32) {
    let payloads = any_tables(random, specimen);
    if random.one_in(4) {
        return ("check", judge_tables(&payloads));
    }
    let tokens = any_tokens(random, specimen);
    let call = Call {
        payloads: &payloads,
        input: Input {
            tokens: &tokens,
            start_location: random.next_number() as u32,
            budget: random.below(MOST_UNITS as usize) as u32,
        },
        rooms: RoomBytes {
            stack: any_room(random),
            scratch: any_room(random),
            nodes: any_room(random),
            children: any_room(random),
            records: any_room(random),
        },
    };
    let (name, entry) = match random.one_in(2) {
        true => ("parse", Entry::Parse),
        false => ("drive", Entry::Drive),
    };
    (name, call.must_do_as_the_rules_say(entry))
}

/// Tables of every degree of damage, from none to any bytes at all.
fn any_tables(random: &mut Random, specimen: &Specimen) -> Payloads {
    let mut payloads = match random.one_in(3) {
        true => specimen.tables.encode(),
        false => damaged_tables(random, &specimen.tables),
    };
    let kept = random.below(4);
    for list in [
        &mut payloads.sizes,
        &mut payloads.actions,
        &mut payloads.gotos,
        &mut payloads.productions,
        &mut payloads.right_sides,
        &mut payloads.items,
        &mut payloads.first_sets,
    ] {
        match kept {
            // As they are.
            0 | 1 => {}
            // Some bytes changed.
            2 if !list.is_empty() => {
                for _ in 0..random.below(4) {
                    let place = random.below(list.len());
                    list[place] = random.next_number() as u8;
                }
            }
            // Other bytes, in the same length or in any.
            _ => {
                let length = match random.one_in(2) {
                    true => list.len(),
                    false => any_length(random),
                };
                *list = any_bytes(random, length);
            }
        }
    }
    payloads
}

fn any_tokens(random: &mut Random, specimen: &Specimen) -> Vec<u8> {
    match random.below(4) {
        0 => {
            let length = any_length(random);
            any_bytes(random, length)
        }
        1 => {
            // Whole tokens whose kinds fit in 16 bits.
            let mut tokens = any_bytes(random, 12 * 30);
            tokens.chunks_mut(12).for_each(|token| token[2..4].fill(0));
            tokens
        }
        _ => token_bytes(&random_tokens(random, &specimen.grammar, 25)),
    }
}

/// Small numbers mostly, so that bytes often are in range.
fn any_bytes(random: &mut Random, length: usize) -> Vec<u8> {
    let small = random.one_in(2);
    let byte = |_| match small && random.below(8) > 0 {
        true => random.below(4) as u8,
        false => random.next_number() as u8,
    };
    (0..length).map(byte).collect()
}

/// Long enough for a run in three cases of four, so that runs also end by themselves.
fn any_room(random: &mut Random) -> usize {
    match random.one_in(4) {
        true => any_length(random),
        false => 3_000 + any_length(random),
    }
}

fn any_length(random: &mut Random) -> usize {
    match random.below(4) {
        0 => random.below(4),
        1 => random.below(70),
        2 => 32 * random.below(40),
        _ => random.below(3_000),
    }
}
