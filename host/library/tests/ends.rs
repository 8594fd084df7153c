//! Numbers at their ends: token counts, kinds, locations, budgets, rooms, sizes and lengths.

use chamrolak::lent::RoomBytes;
use chamrolak::trial::{judge_tables, Call, Entry};
use chamrolak::Input;
use chamrolak_rules::answer::{Limits, Refusal};
use chamrolak_rules::automaton::{self, Merging};
use chamrolak_rules::bench::{numbered_tokens, table_a};
use chamrolak_rules::generate::{random_tokens, tables_of_sizes, tables_with_the_most_items};
use chamrolak_rules::grammar::Grammar;
use chamrolak_rules::random::Random;
use chamrolak_rules::tables::{token_bytes, Payloads, Production, Tables, Token};

const BUDGET: u32 = 100_000;
const BOTH: [Entry; 2] = [Entry::Parse, Entry::Drive];

/// Makes both calls and holds them to the rules.
fn try_both(payloads: &Payloads, input: Input, rooms: RoomBytes) {
    let call = Call {
        payloads,
        input,
        rooms,
    };
    for entry in BOTH {
        call.must_do_as_the_rules_say(entry);
    }
}

/// Makes these calls with rooms that the run fills up to some odd bytes.
fn try_tokens(payloads: &Payloads, tokens: &[Token], start_location: u32, entries: &[Entry]) {
    let tokens = token_bytes(tokens);
    let limits = Limits::budget_only(BUDGET.into());
    let rooms = match chamrolak_rules::call(payloads, &tokens, start_location, &limits) {
        Ok(driven) => RoomBytes::filled_by(&driven.run, driven.deepest),
        Err(_) => RoomBytes::enough_for(10),
    };
    let call = Call {
        payloads,
        input: Input {
            tokens: &tokens,
            start_location,
            budget: BUDGET,
        },
        rooms: rooms.and(9),
    };
    for &entry in entries {
        call.must_do_as_the_rules_say(entry);
    }
}

#[test]
fn token_counts() {
    let payloads = table_a().encode();
    for count in [0, 1, 2, 4_095, 4_096, 4_097, 5_000] {
        for statement in [[0, 1], [0, 0], [1, 1]] {
            let kinds: Vec<u32> = statement.into_iter().cycle().take(count).collect();
            try_tokens(&payloads, &numbered_tokens(&kinds), 0, &BOTH);
        }
    }
}

#[test]
fn kinds() {
    let payloads = table_a().encode();
    for kind in [2, 3, 4, 255, 256, 65_534, 65_535, 65_536, u32::MAX] {
        for kinds in [
            vec![kind],
            vec![0, 1, kind],
            vec![0, 0, kind],
            vec![1, kind, 1],
        ] {
            try_tokens(&payloads, &numbered_tokens(&kinds), 0, &BOTH);
        }
    }
}

#[test]
fn token_lists_that_are_not_whole() {
    let payloads = table_a().encode();
    let bytes = token_bytes(&numbered_tokens(&[0, 1, 1]));
    for length in 0..=bytes.len() {
        let input = Input {
            tokens: &bytes[..length],
            start_location: 0,
            budget: BUDGET,
        };
        try_both(&payloads, input, RoomBytes::enough_for(100));
    }
}

#[test]
fn refusal_18_comes_after_the_others() {
    let mut tables = table_a();
    tables.items.pop();
    let call = Call {
        payloads: &tables.encode(),
        input: Input {
            tokens: &[0; 13],
            start_location: 0,
            budget: 0,
        },
        rooms: RoomBytes::enough_for(0).and(7),
    };
    let refused = |number, place| Err(Refusal { number, place });
    call.must_do(Entry::Parse, refused(17, 15));
    call.must_do(Entry::Drive, refused(18, 0));
}

#[test]
fn locations() {
    let payloads = table_a().encode();
    let ends = [0, 1, u32::MAX - 1, u32::MAX];
    for start_location in ends {
        for start in ends {
            for end in ends {
                for kinds in [&[][..], &[0], &[1], &[0, 0, 1], &[1, 1], &[0, 1, 0]] {
                    let token = |&kind: &u32| Token { kind, start, end };
                    let tokens: Vec<Token> = kinds.iter().map(token).collect();
                    try_tokens(&payloads, &tokens, start_location, &BOTH);
                }
            }
        }
    }
}

#[test]
fn budgets() {
    let payloads = table_a().encode();
    for kinds in [&[][..], &[0], &[7], &[65_535], &[0, 0, 1], &[0, 0, 7]] {
        let tokens = token_bytes(&numbered_tokens(kinds));
        for budget in [0, 1, 2, u32::MAX - 1, u32::MAX] {
            let input = Input {
                tokens: &tokens,
                start_location: 5,
                budget,
            };
            try_both(&payloads, input, RoomBytes::enough_for(100));
        }
    }
}

#[test]
fn rooms_of_no_bytes_and_of_a_few() {
    let payloads = table_a().encode();
    let enough = RoomBytes::enough_for(100);
    let few = [
        0, 1, 3, 4, 5, 7, 8, 31, 32, 33, 63, 64, 65, 95, 96, 127, 128,
    ];
    for kinds in [&[][..], &[1], &[0, 1], &[0, 0, 1], &[7], &[65_535]] {
        let tokens = token_bytes(&numbered_tokens(kinds));
        for budget in [0, 1, BUDGET] {
            let input = Input {
                tokens: &tokens,
                start_location: 0,
                budget,
            };
            for bytes in few {
                let rooms = [
                    RoomBytes {
                        stack: bytes,
                        ..enough
                    },
                    RoomBytes {
                        scratch: bytes,
                        ..enough
                    },
                    RoomBytes {
                        nodes: bytes,
                        ..enough
                    },
                    RoomBytes {
                        children: bytes,
                        ..enough
                    },
                    RoomBytes {
                        records: bytes,
                        ..enough
                    },
                    RoomBytes::for_entries(0, 0, 0, 0).and(bytes),
                ];
                for rooms in rooms {
                    try_both(&payloads, input, rooms);
                }
            }
        }
    }
}

/// S to L, L to nothing or L E `last`, E to one of some right sides.
fn grammar_of_statements(kinds: u16, statements: Vec<Vec<u16>>) -> Grammar {
    let (last, l, e) = (kinds - 1, kinds + 2, kinds + 3);
    let list = [(0, vec![l]), (1, vec![]), (1, vec![l, e, last])];
    let statements = statements.into_iter().map(|right| (2, right));
    let productions = list.into_iter().chain(statements);
    Grammar {
        kinds,
        nonterminals: 3,
        productions: productions
            .map(|(left, right)| Production { left, right })
            .collect(),
    }
}

fn try_random_tokens(grammar: &Grammar, tables: &Tables, runs: usize) {
    let payloads = tables.encode();
    let mut random = Random::new(31);
    for run in 0..runs {
        let tokens = random_tokens(&mut random, grammar, 60);
        // One check of such tables is enough: it takes long.
        let entries = if run == 0 { &BOTH[..] } else { &[Entry::Drive] };
        try_tokens(&payloads, &tokens, 9, entries);
    }
}

#[test]
fn one_kind_and_254_kinds() {
    for kinds in [1, 2, 31, 32, 33, 63, 64, 65, 253, 254] {
        // Each kind is a statement, and the error token; with one kind only the latter is left.
        let mut statements: Vec<Vec<u16>> = (0..kinds - 1).map(|kind| vec![kind]).collect();
        statements.push(vec![kinds]);
        let grammar = grammar_of_statements(kinds, statements);
        let tables = automaton::tables(&grammar, Merging::Canonical, 1).expect("no conflict");
        try_random_tokens(&grammar, &tables, 30);
    }
}

#[test]
fn the_most_states() {
    // A statement of kind k is k, so many times: each of its symbols takes a state, and the start,
    // L, L E and L E `last` take four.
    let mut statements: Vec<Vec<u16>> = (0..31).map(|kind| vec![kind; 32]).collect();
    statements.push([vec![31; 27], vec![33]].concat());
    let grammar = grammar_of_statements(33, statements);
    let tables = automaton::tables(&grammar, Merging::Canonical, 1).expect("no conflict");
    assert_eq!(tables.states, 1_024);
    try_random_tokens(&grammar, &tables, 20);
}

#[test]
fn sizes_at_and_past_their_ends() {
    judge_tables(&tables_of_sizes(1_024, 254, 255, 1_024).encode());
    judge_tables(&tables_of_sizes(1_025, 254, 255, 1_024).encode());
    judge_tables(&tables_of_sizes(1_024, 255, 255, 1_024).encode());
    judge_tables(&tables_of_sizes(1_024, 254, 256, 1_024).encode());
    judge_tables(&tables_of_sizes(1_024, 254, 255, 1_025).encode());
    judge_tables(&tables_of_sizes(2, 1, 3, 3).encode());
    // A size that the lists do not have: none, one more or less, past its end, the largest number.
    for tables in [table_a(), tables_of_sizes(2, 1, 3, 3)] {
        for size in 0..6 {
            let payloads = tables.encode();
            let at = 2 * size..2 * size + 2;
            let given =
                u16::from_le_bytes([payloads.sizes[at.start], payloads.sizes[at.start + 1]]);
            let others = [0, 1, 2, 3, 254, 255, 256, 1_024, 1_025, 32_768, 65_535];
            for number in others.into_iter().chain([given.wrapping_sub(1), given + 1]) {
                let mut changed = payloads.clone();
                changed.sizes[at.clone()].copy_from_slice(&number.to_le_bytes());
                judge_tables(&changed);
            }
        }
    }
}

#[test]
fn the_most_items() {
    judge_tables(&tables_with_the_most_items().encode());
}

#[test]
fn lengths_one_short_and_one_long() {
    let lists: [fn(&mut Payloads) -> &mut Vec<u8>; 7] = [
        |p| &mut p.sizes,
        |p| &mut p.actions,
        |p| &mut p.gotos,
        |p| &mut p.productions,
        |p| &mut p.right_sides,
        |p| &mut p.items,
        |p| &mut p.first_sets,
    ];
    let payloads = table_a().encode();
    for list in lists {
        // A byte, a number, an entry.
        for bytes in [1, 2, 4, 8, 33] {
            let mut short = payloads.clone();
            let length = list(&mut short).len();
            list(&mut short).truncate(length.saturating_sub(bytes));
            judge_tables(&short);
            let mut long = payloads.clone();
            list(&mut long).extend(vec![0; bytes]);
            judge_tables(&long);
        }
        let mut empty = payloads.clone();
        list(&mut empty).clear();
        judge_tables(&empty);
    }
    let nothing = Payloads {
        sizes: vec![],
        actions: vec![],
        gotos: vec![],
        productions: vec![],
        right_sides: vec![],
        items: vec![],
        first_sets: vec![],
    };
    judge_tables(&nothing);
}
