//! Document 01, "The check, in this order, lowest place first": refusals 10 to 17, and 18.

use crate::answer::Refusal;
use crate::tables::{Cell, Item, Payloads, Symbol, Tables, Token};
use std::collections::{BTreeMap, BTreeSet};

/// Runs the tests 10 to 17 in order; the first place at which one fails is the refusal.
pub fn check(payloads: &Payloads) -> Result<Tables, Refusal> {
    let refused = |number, place| Refusal { number, place };
    let tables = payloads.decode().filter(sizes_and_sets_are_in_range);
    let tables = tables.ok_or(refused(10, 0))?;
    let tests: [(u32, FirstBadPlace); 7] = [
        (11, bad_cell),
        (12, bad_production),
        (13, production_that_breaks_closure),
        (14, bad_item),
        (15, item_with_a_wrong_past),
        (16, reduce_cell_without_item),
        (17, item_without_follow_up),
    ];
    for (number, first_bad_place) in tests {
        if let Some(place) = first_bad_place(&tables) {
            return Err(refused(number, place));
        }
    }
    Ok(tables)
}

/// A test: the lowest place at which it fails, if any.
type FirstBadPlace = fn(&Tables) -> Option<usize>;

/// 10: "a size, flag or set bit is out of range". "Each right side 0 to 32 symbols." The lengths of
/// the lists were judged by decoding; the item count is any 16-bit number.
fn sizes_and_sets_are_in_range(tables: &Tables) -> bool {
    let kinds_past_t = tables.t() + 1..256;
    (1..=1_024).contains(&tables.states)
        && (1..=254).contains(&tables.kinds)
        && (1..=255).contains(&tables.nonterminals())
        && (1..=1_024).contains(&tables.productions.len())
        && tables.productions.iter().all(|p| p.right.len() <= 32)
        && tables.flag <= 1
        && tables
            .first_sets
            .iter()
            .all(|set| set.nullable <= 1 && kinds_past_t.clone().all(|kind| !set.contains(kind)))
}

/// 11: "a cell names no state or production, enters state 0, is positive at end of input, or is a
/// negative goto"; the place is the "cell, gotos counted after all actions".
fn bad_cell(tables: &Tables) -> Option<usize> {
    let states = usize::from(tables.states);
    let enters_well = |state: usize| state != 0 && state < states;
    let bad_action = |(place, &cell): (usize, &i16)| {
        let at_end = place % tables.columns() == tables.end_column();
        match Cell::decode(cell) {
            Cell::Error => false,
            Cell::Shift(state) => at_end || !enters_well(state),
            Cell::Reduce(production) => production >= tables.productions.len(),
        }
    };
    let bad_goto = |&cell: &i16| cell < 0 || cell > 0 && !enters_well(cell as usize - 1);
    let among_gotos = || tables.gotos.iter().position(bad_goto);
    (tables.actions.iter().enumerate().position(bad_action))
        .or_else(|| among_gotos().map(|place| tables.actions.len() + place))
}

/// 12: "a symbol or left side is out of range; nonterminal 0 is on a right side or left of another
/// production; production 0 is misshapen". "Production 0 is nonterminal 0 to one other nonterminal."
fn bad_production(tables: &Tables) -> Option<usize> {
    let bad_symbol = |&number: &u16| match tables.symbol(number) {
        Symbol::Terminal(_) => false,
        Symbol::Nonterminal(nonterminal) => {
            nonterminal == 0 || nonterminal >= tables.nonterminals()
        }
    };
    let is_nonterminal = |number: u16| matches!(tables.symbol(number), Symbol::Nonterminal(_));
    tables
        .productions
        .iter()
        .enumerate()
        .position(|(place, p)| {
            let wrong_shape = match place {
                0 => p.left != 0 || p.right.len() != 1 || !is_nonterminal(p.right[0]),
                _ => p.left == 0,
            };
            wrong_shape
                || usize::from(p.left) >= tables.nonterminals()
                || p.right.iter().any(bad_symbol)
        })
}

/// 13: "nullable flags or first sets are not closed under it".
fn production_that_breaks_closure(tables: &Tables) -> Option<usize> {
    tables.productions.iter().position(|p| {
        let left = &tables.first_sets[usize::from(p.left)];
        let begins = begins(tables, &p.right);
        begins.can_be_empty && !left.is_nullable()
            || begins.kinds.iter().any(|&kind| !left.contains(kind))
    })
}

/// What can begin a list of symbols, by the given sets.
struct Begins {
    /// Kinds 0..t.
    kinds: BTreeSet<usize>,
    can_be_empty: bool,
}

fn begins(tables: &Tables, symbols: &[u16]) -> Begins {
    let mut kinds = BTreeSet::new();
    for &number in symbols {
        match tables.symbol(number) {
            Symbol::Terminal(kind) => {
                kinds.insert(kind);
                let can_be_empty = false;
                return Begins {
                    kinds,
                    can_be_empty,
                };
            }
            Symbol::Nonterminal(nonterminal) => {
                let set = &tables.first_sets[nonterminal];
                kinds.extend((0..=tables.t()).filter(|&kind| set.contains(kind)));
                if !set.is_nullable() {
                    let can_be_empty = false;
                    return Begins {
                        kinds,
                        can_be_empty,
                    };
                }
            }
        }
    }
    let can_be_empty = true;
    Begins {
        kinds,
        can_be_empty,
    }
}

/// 14: "an item is out of range, or the list is not strictly ascending". The place of a bad pair is
/// its later item.
fn bad_item(tables: &Tables) -> Option<usize> {
    let out_of_range = |item: &Item| {
        let right = tables.productions.get(usize::from(item.production));
        item.state >= tables.states
            || right.is_none_or(|p| usize::from(item.dot) > p.right.len())
            || usize::from(item.lookahead) > tables.end_column()
    };
    (0..tables.items.len()).find(|&place| {
        let item = &tables.items[place];
        out_of_range(item) || place > 0 && tables.items[place - 1] >= *item
    })
}

/// 15: "dot > 0 in state 0; production 0 at dot 0 elsewhere; or dot d > 0 and some shift or goto into
/// its state is not over the symbol before the dot, or comes from a state with no item of that
/// production at d-1".
fn item_with_a_wrong_past(tables: &Tables) -> Option<usize> {
    let entries = entries_by_state(tables);
    let dots = dotted_productions(tables);
    tables.items.iter().position(|item| {
        let Some(before) = item.dot.checked_sub(1) else {
            return item.production == 0 && item.state != 0;
        };
        let right = &tables.productions[usize::from(item.production)].right;
        let symbol_before = tables.symbol(right[usize::from(before)]);
        let wrong_entry = |&(from, over): &(u16, Symbol)| {
            over != symbol_before || !dots.contains(&(from, item.production, before))
        };
        item.state == 0
            || entries
                .get(&item.state)
                .into_iter()
                .flatten()
                .any(wrong_entry)
    })
}

/// For each state the shifts and gotos that enter it: from which state, over which symbol.
fn entries_by_state(tables: &Tables) -> BTreeMap<u16, Vec<(u16, Symbol)>> {
    let mut entries: BTreeMap<u16, Vec<_>> = BTreeMap::new();
    for from in 0..tables.states {
        for kind in 0..=tables.t() {
            if let Cell::Shift(into) = tables.action(usize::from(from), kind) {
                let entry = (from, Symbol::Terminal(kind));
                entries.entry(into as u16).or_default().push(entry);
            }
        }
        for nonterminal in 0..tables.nonterminals() {
            if let Some(into) = tables.goto(usize::from(from), nonterminal) {
                let entry = (from, Symbol::Nonterminal(nonterminal));
                entries.entry(into as u16).or_default().push(entry);
            }
        }
    }
    entries
}

/// The items less their lookaheads: (state, production, dot).
fn dotted_productions(tables: &Tables) -> BTreeSet<(u16, u16, u16)> {
    let dotted = |item: &Item| (item.state, item.production, item.dot);
    tables.items.iter().map(dotted).collect()
}

/// 16: "a reduce cell's state has no item of that production with the dot at its end".
fn reduce_cell_without_item(tables: &Tables) -> Option<usize> {
    let dots = dotted_productions(tables);
    tables
        .actions
        .iter()
        .enumerate()
        .position(|(place, &cell)| {
            let Cell::Reduce(production) = Cell::decode(cell) else {
                return false;
            };
            let state = (place / tables.columns()) as u16;
            let end = tables.productions[production].right.len() as u16;
            !dots.contains(&(state, production as u16, end))
        })
}

/// 17: "an item lacks its follow-up"; the place is the "item; item count where (0, 0, 0, end) is
/// missing, tested last".
fn item_without_follow_up(tables: &Tables) -> Option<usize> {
    let items: BTreeSet<Item> = tables.items.iter().copied().collect();
    let first = Item {
        state: 0,
        production: 0,
        dot: 0,
        lookahead: tables.end_column() as u16,
    };
    let first_is_missing = !items.contains(&first);
    (tables
        .items
        .iter()
        .position(|item| !has_follow_ups(tables, &items, item)))
    .or(first_is_missing.then_some(tables.items.len()))
}

/// "Follow-ups of (s, p, d, a). Before symbol X: the transition on X exists and its state has
/// (p, d+1, a). Before nonterminal B: s also has (q, 0, b) for each production q of B and each b that
/// can begin what follows B and then a, by the given sets. At the end: cell (s, a) reduces p. At dot
/// 0, p not 0: goto of p's left side exists in s."
fn has_follow_ups(tables: &Tables, items: &BTreeSet<Item>, item: &Item) -> bool {
    let state = usize::from(item.state);
    let production = usize::from(item.production);
    let p = &tables.productions[production];
    let ahead = match p.right.get(usize::from(item.dot)) {
        None => tables.action(state, item.lookahead.into()) == Cell::Reduce(production),
        Some(&number) => {
            let symbol = tables.symbol(number);
            let opened = match symbol {
                Symbol::Terminal(_) => true,
                Symbol::Nonterminal(b) => is_opened(tables, items, item, b),
            };
            opened && moves_on(tables, items, item, symbol)
        }
    };
    let has_goto = || tables.goto(state, p.left.into()).is_some();
    ahead && (item.dot > 0 || production == 0 || has_goto())
}

/// "The transition on X exists and its state has (p, d+1, a)." On a terminal it is a shift.
fn moves_on(tables: &Tables, items: &BTreeSet<Item>, item: &Item, symbol: Symbol) -> bool {
    let state = usize::from(item.state);
    let target = match symbol {
        Symbol::Nonterminal(nonterminal) => tables.goto(state, nonterminal),
        Symbol::Terminal(kind) => match tables.action(state, kind) {
            Cell::Shift(target) => Some(target),
            Cell::Reduce(_) | Cell::Error => None,
        },
    };
    target.is_some_and(|target| {
        items.contains(&Item {
            state: target as u16,
            dot: item.dot + 1,
            ..*item
        })
    })
}

/// "s also has (q, 0, b) for each production q of B and each b that can begin what follows B and
/// then a, by the given sets."
fn is_opened(tables: &Tables, items: &BTreeSet<Item>, item: &Item, nonterminal: usize) -> bool {
    let right = &tables.productions[usize::from(item.production)].right;
    let follows = begins(tables, &right[usize::from(item.dot) + 1..]);
    let mut lookaheads: Vec<u16> = follows.kinds.iter().map(|&kind| kind as u16).collect();
    if follows.can_be_empty {
        lookaheads.push(item.lookahead);
    }
    let of_nonterminal = |q: &usize| usize::from(tables.productions[*q].left) == nonterminal;
    (0..tables.productions.len())
        .filter(of_nonterminal)
        .all(|q| {
            lookaheads.iter().all(|&lookahead| {
                items.contains(&Item {
                    state: item.state,
                    production: q as u16,
                    dot: 0,
                    lookahead,
                })
            })
        })
}

pub const MOST_TOKENS: usize = 4_096;

/// "Then 18: token list not triples of 32-bit words, a kind over 65,535, or over 4,096 tokens;
/// place 0."
pub fn read_tokens(bytes: &[u8]) -> Result<Vec<Token>, Refusal> {
    let triples = bytes.chunks_exact(12);
    let whole = triples.remainder().is_empty();
    let word = |bytes: &[u8]| u32::from_le_bytes(bytes.try_into().expect("four bytes"));
    let token = |b: &[u8]| Token {
        kind: word(&b[..4]),
        start: word(&b[4..8]),
        end: word(&b[8..]),
    };
    let tokens: Vec<Token> = triples.map(token).collect();
    let kinds_fit = tokens.iter().all(|token| token.kind <= 65_535);
    if whole && kinds_fit && tokens.len() <= MOST_TOKENS {
        Ok(tokens)
    } else {
        Err(Refusal {
            number: 18,
            place: 0,
        })
    }
}
