//! The check, number by number: what each refuses, at which place, and what it lets pass.

use chamrolak_rules::answer::Refusal;
use chamrolak_rules::bench::{numbered_tokens, set_action, table_a};
use chamrolak_rules::check::{check, read_tokens};
use chamrolak_rules::generate::{tables_of_sizes, tables_with_the_most_items};
use chamrolak_rules::tables::{token_bytes, Item, Payloads, Tables};

/// The refusal's number and place after a change to table A; (0, 0) if it passes.
fn after(change: impl FnOnce(&mut Tables)) -> (u32, usize) {
    let mut tables = table_a();
    change(&mut tables);
    refusal(&tables.encode())
}

fn refusal(payloads: &Payloads) -> (u32, usize) {
    match check(payloads) {
        Ok(_) => (0, 0),
        Err(Refusal { number, place }) => (number, place),
    }
}

fn item(state: u16, production: u16, dot: u16, lookahead: u16) -> Item {
    Item {
        state,
        production,
        dot,
        lookahead,
    }
}

fn add_item(tables: &mut Tables, item: Item) {
    tables.items.push(item);
    tables.items.sort();
}

fn remove_item(tables: &mut Tables, place: usize) {
    tables.items.remove(place);
}

#[test]
fn table_a_passes() {
    assert_eq!(after(|_| ()), (0, 0));
    assert_eq!(after(|t| t.flag = 0), (0, 0));
}

#[test]
fn refusal_10_sizes_flags_and_set_bits() {
    assert_eq!(after(|t| t.flag = 2), (10, 0));
    assert_eq!(after(|t| t.first_sets[2].nullable = 2), (10, 0));
    assert_eq!(after(|t| t.first_sets[0].insert(3)), (10, 0));
    assert_eq!(after(|t| t.first_sets[2].insert(255)), (10, 0));
    assert_eq!(after(|t| t.productions[4].right = vec![2; 33]), (10, 0));
    assert_eq!(after(|t| t.actions.truncate(23)), (10, 0));
    let mut odd = table_a().encode();
    odd.items.push(0);
    assert_eq!(refusal(&odd), (10, 0));
}

#[test]
fn sizes_at_their_ends() {
    let refusal_of = |tables: Tables| refusal(&tables.encode());
    assert_eq!(refusal_of(tables_of_sizes(1_024, 254, 255, 1_024)), (0, 0));
    assert_eq!(refusal_of(tables_of_sizes(1_025, 254, 255, 1_024)), (10, 0));
    assert_eq!(refusal_of(tables_of_sizes(1_024, 255, 255, 1_024)), (10, 0));
    assert_eq!(refusal_of(tables_of_sizes(1_024, 254, 256, 1_024)), (10, 0));
    assert_eq!(refusal_of(tables_of_sizes(1_024, 254, 255, 1_025)), (10, 0));
    assert_eq!(refusal_of(tables_of_sizes(2, 1, 3, 3)), (0, 0));
    for size in 0..4 {
        let mut payloads = tables_of_sizes(2, 1, 3, 3).encode();
        payloads.sizes[2 * size..][..2].fill(0);
        assert_eq!(refusal(&payloads), (10, 0), "size {size}");
    }
}

#[test]
fn the_most_items_pass() {
    let tables = tables_with_the_most_items();
    assert_eq!(tables.items.len(), 65_535);
    assert_eq!(refusal(&tables.encode()), (0, 0));
}

#[test]
fn refusal_11_cells() {
    // By place: 24 action cells, then 18 gotos.
    assert_eq!(after(|t| t.actions[1] = 7), (11, 1), "no such state");
    assert_eq!(after(|t| t.actions[1] = 1), (11, 1), "enters state 0");
    assert_eq!(after(|t| t.actions[1] = -6), (11, 1), "no such production");
    assert_eq!(after(|t| t.actions[23] = i16::MIN), (11, 23));
    assert_eq!(after(|t| t.actions[3] = 2), (11, 3), "positive at the end");
    assert_eq!(after(|t| t.gotos[17] = -1), (11, 24 + 17), "negative goto");
    assert_eq!(after(|t| t.gotos[17] = 1), (11, 24 + 17));
    assert_eq!(after(|t| t.gotos[17] = 7), (11, 24 + 17));
    let both = after(|t| {
        t.gotos[0] = -1;
        t.actions[20] = 100;
    });
    assert_eq!(both, (11, 20), "gotos are counted after all actions");
    // A goto of nonterminal 0 is no fault of 11; here 15 finds it, over S and not over L.
    assert_eq!(after(|t| t.gotos[0] = 2), (15, 7));
}

#[test]
fn refusal_12_productions() {
    assert_eq!(
        after(|t| t.productions[3].right[0] = 6),
        (12, 3),
        "no symbol"
    );
    assert_eq!(
        after(|t| t.productions[3].left = 3),
        (12, 3),
        "no nonterminal"
    );
    assert_eq!(
        after(|t| t.productions[2].right[0] = 3),
        (12, 2),
        "S on a right side"
    );
    assert_eq!(
        after(|t| t.productions[4].left = 0),
        (12, 4),
        "left of another"
    );
    assert_eq!(after(|t| t.productions[0].left = 1), (12, 0));
    assert_eq!(after(|t| t.productions[0].right = vec![]), (12, 0));
    assert_eq!(after(|t| t.productions[0].right = vec![4, 4]), (12, 0));
    assert_eq!(
        after(|t| t.productions[0].right = vec![2]),
        (12, 0),
        "a terminal"
    );
    assert_eq!(
        after(|t| t.productions[0].right = vec![3]),
        (12, 0),
        "S itself"
    );
    let one_nonterminal = after(|t| {
        t.first_sets.truncate(1);
        t.gotos.truncate(6);
        t.gotos.fill(0);
    });
    assert_eq!(one_nonterminal, (12, 0));
}

#[test]
fn refusal_13_flags_and_sets() {
    assert_eq!(
        after(|t| t.first_sets[0].nullable = 0),
        (13, 0),
        "p0 is judged too"
    );
    assert_eq!(after(|t| t.first_sets[1].nullable = 0), (13, 1));
    assert_eq!(after(|t| t.first_sets[0].bits[0] = 1), (13, 0));
    assert_eq!(
        after(|t| t.first_sets[1].bits[0] = 1),
        (13, 2),
        "E's error, behind L"
    );
    assert_eq!(after(|t| t.first_sets[2].bits[0] = 4), (13, 3));
    assert_eq!(
        after(|t| t.first_sets[2].bits[0] = 1),
        (13, 4),
        "the error token"
    );
    // A set that is larger than the smallest passes 13, as long as its users are as large.
    let larger = after(|t| t.first_sets.iter_mut().for_each(|set| set.bits[0] = 7));
    assert_eq!(larger.0, 17, "but it asks for more items");
    assert_eq!(after(|t| t.first_sets[0].bits[0] = 7), (0, 0));
}

#[test]
fn refusal_14_items() {
    assert_eq!(after(|t| t.items[20].state = 6), (14, 20));
    assert_eq!(after(|t| t.items[20].production = 5), (14, 20));
    assert_eq!(after(|t| t.items[20].dot = 4), (14, 20));
    assert_eq!(after(|t| t.items[20].lookahead = 4), (14, 20));
    assert_eq!(
        after(|t| t.items.swap(4, 5)),
        (14, 5),
        "the later of the pair"
    );
    assert_eq!(after(|t| t.items[8] = t.items[7]), (14, 8), "strictly");
}

#[test]
fn refusal_15_pasts() {
    assert_eq!(
        after(|t| add_item(t, item(0, 0, 1, 3))),
        (15, 1),
        "dot > 0 in state 0"
    );
    assert_eq!(
        after(|t| add_item(t, item(3, 0, 0, 3))),
        (15, 16),
        "p0 at dot 0"
    );
    assert_eq!(
        after(|t| add_item(t, item(3, 4, 1, 1))),
        (15, 17),
        "entered over a"
    );
    // State 2 is entered over E from state 1, which has no p2 at dot 0.
    assert_eq!(after(|t| add_item(t, item(2, 2, 1, 0))), (15, 13));
    // The lookahead at d-1 may be any: p3 at dot 1 in state 3 for `end` passes 15, and falls to 17.
    assert_eq!(after(|t| add_item(t, item(3, 3, 1, 3))), (17, 17));
}

#[test]
fn refusal_16_reduce_cells() {
    assert_eq!(after(|t| set_action(t, 2, 0, -2)), (16, 8));
    assert_eq!(after(|t| set_action(t, 3, 3, -1)), (16, 15), "p0 likewise");
    // Any lookahead will do.
    assert_eq!(after(|t| set_action(t, 3, 3, -4)), (0, 0));
}

#[test]
fn refusal_17_follow_ups() {
    assert_eq!(
        after(|t| set_action(t, 0, 3, 0)),
        (17, 3),
        "reduces p1 at the end"
    );
    assert_eq!(after(|t| set_action(t, 1, 0, 0)), (17, 11), "shift of a");
    assert_eq!(after(|t| t.gotos[1] = 0), (17, 0), "goto of L");
    assert_eq!(after(|t| remove_item(t, 2)), (17, 3), "p1 before error");
    assert_eq!(
        after(|t| remove_item(t, 17)),
        (16, 17),
        "but 16 comes first"
    );
    assert_eq!(after(|t| remove_item(t, 10)), (17, 6), "dot moved over L");
    // (0, 0, 0, end) is tested last, and (0, 0, 0, x) may stand beside it.
    let none = after(|t| {
        t.items.clear();
        t.actions.iter_mut().for_each(|cell| *cell = (*cell).max(0));
    });
    assert_eq!(none, (17, 0), "no item at all");
    let first_for_a = after(|t| {
        add_item(t, item(0, 0, 0, 0));
        add_item(t, item(1, 0, 1, 0));
        set_action(t, 1, 0, -1);
    });
    assert_eq!(first_for_a.0, 17, "a is shifted there");
    let first_for_semicolon = after(|t| {
        for new in [item(0, 0, 0, 1), item(0, 1, 0, 1), item(0, 2, 0, 1)] {
            add_item(t, new);
        }
        for new in [
            item(1, 0, 1, 1),
            item(1, 2, 1, 1),
            item(2, 2, 2, 1),
            item(5, 2, 3, 1),
        ] {
            add_item(t, new);
        }
        set_action(t, 0, 1, -2);
        set_action(t, 1, 1, -1);
        set_action(t, 5, 1, -3);
    });
    assert_eq!(first_for_semicolon, (0, 0));
}

#[test]
fn refusal_18_tokens() {
    let refused = Err(Refusal {
        number: 18,
        place: 0,
    });
    let tokens = numbered_tokens(&[0, 65_535]);
    let bytes = token_bytes(&tokens);
    assert_eq!(read_tokens(&bytes), Ok(tokens));
    assert_eq!(read_tokens(&bytes[1..]), refused);
    assert_eq!(
        read_tokens(&token_bytes(&numbered_tokens(&[65_536]))),
        refused
    );
    assert!(read_tokens(&token_bytes(&numbered_tokens(&[0; 4_096]))).is_ok());
    assert_eq!(
        read_tokens(&token_bytes(&numbered_tokens(&[0; 4_097]))),
        refused
    );
}
