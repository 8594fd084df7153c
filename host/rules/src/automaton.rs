//! Tables of a grammar: its LR(1) automaton, canonical or with the states of one core merged.

use crate::grammar::Grammar;
use crate::tables::{FirstSet, Item, Tables};
use std::collections::{BTreeMap, BTreeSet};

#[derive(Clone, Copy, Debug, PartialEq, Eq, PartialOrd, Ord)]
pub enum Merging {
    Canonical,
    Merged,
}

/// (production, dot, lookahead column)
type StateItem = (u16, u16, u16);
type ItemSet = BTreeSet<StateItem>;

/// The most states that tables may have.
const MOST_STATES: usize = 1_024;
const MOST_ITEMS: usize = 65_535;

/// The tables of a grammar, or none where two actions meet in one cell or the sizes do not hold it.
pub fn tables(grammar: &Grammar, merging: Merging, flag: u16) -> Option<Tables> {
    let builder = Builder {
        grammar,
        first_sets: grammar.first_sets(),
    };
    let canonical = builder.canonical()?;
    let automaton = match merging {
        Merging::Canonical => canonical,
        Merging::Merged => canonical.merged(),
    };
    builder.tables(&automaton, flag)
}

/// States as item sets, and the moves between them.
#[derive(Default)]
struct Automaton {
    states: Vec<ItemSet>,
    moves: BTreeMap<(usize, u16), usize>,
}

impl Automaton {
    /// Puts states of the same core together: (production, dot) pairs without lookaheads.
    fn merged(&self) -> Automaton {
        let mut number_of_core: BTreeMap<BTreeSet<(u16, u16)>, usize> = BTreeMap::new();
        let mut merged = Automaton::default();
        let mut merged_number = Vec::new();
        for items in &self.states {
            let core = items.iter().map(|&(p, dot, _)| (p, dot)).collect();
            let next = number_of_core.len();
            let number = *number_of_core.entry(core).or_insert(next);
            merged_number.push(number);
            if number == merged.states.len() {
                merged.states.push(ItemSet::new());
            }
            merged.states[number].extend(items);
        }
        for (&(from, symbol), &to) in &self.moves {
            (merged.moves).insert((merged_number[from], symbol), merged_number[to]);
        }
        merged
    }
}

struct Builder<'a> {
    grammar: &'a Grammar,
    first_sets: Vec<FirstSet>,
}

impl Builder<'_> {
    fn end_column(&self) -> u16 {
        self.grammar.kinds + 1
    }

    fn symbol_after_dot(&self, production: u16, dot: u16) -> Option<u16> {
        let right = &self.grammar.productions[usize::from(production)].right;
        right.get(usize::from(dot)).copied()
    }

    fn canonical(&self) -> Option<Automaton> {
        let first = self.closure(ItemSet::from([(0, 0, self.end_column())]));
        let mut number_of: BTreeMap<ItemSet, usize> = BTreeMap::from([(first.clone(), 0)]);
        let mut automaton = Automaton {
            states: vec![first],
            moves: BTreeMap::new(),
        };
        let mut from = 0;
        while from < automaton.states.len() {
            for (symbol, kernel) in self.kernels_after(&automaton.states[from]) {
                let items = self.closure(kernel);
                let to = *number_of.entry(items).or_insert_with_key(|items| {
                    automaton.states.push(items.clone());
                    automaton.states.len() - 1
                });
                automaton.moves.insert((from, symbol), to);
            }
            if automaton.states.len() > MOST_STATES {
                return None;
            }
            from += 1;
        }
        Some(automaton)
    }

    /// For each symbol behind a dot, the items with the dot moved over it.
    fn kernels_after(&self, items: &ItemSet) -> BTreeMap<u16, ItemSet> {
        let mut kernels: BTreeMap<u16, ItemSet> = BTreeMap::new();
        for &(production, dot, lookahead) in items {
            if let Some(symbol) = self.symbol_after_dot(production, dot) {
                let moved = (production, dot + 1, lookahead);
                kernels.entry(symbol).or_default().insert(moved);
            }
        }
        kernels
    }

    fn closure(&self, kernel: ItemSet) -> ItemSet {
        let mut pending: Vec<StateItem> = kernel.iter().copied().collect();
        let mut items = kernel;
        while let Some(item) = pending.pop() {
            for opened in self.opened_by(item) {
                if items.insert(opened) {
                    pending.push(opened);
                }
            }
        }
        items
    }

    /// The items that an item before a nonterminal opens.
    fn opened_by(&self, (production, dot, lookahead): StateItem) -> Vec<StateItem> {
        let symbol = self.symbol_after_dot(production, dot);
        let Some(nonterminal) = symbol.and_then(|symbol| self.grammar.nonterminal(symbol)) else {
            return Vec::new();
        };
        let right = &self.grammar.productions[usize::from(production)].right;
        let rest = &right[usize::from(dot) + 1..];
        let begins = self.grammar.begins(&self.first_sets, rest);
        let mut lookaheads: Vec<u16> = (0..=self.grammar.error_token())
            .filter(|&kind| begins.contains(kind.into()))
            .collect();
        if begins.is_nullable() {
            lookaheads.push(lookahead);
        }
        (0..)
            .zip(&self.grammar.productions)
            .filter(|(_, q)| usize::from(q.left) == nonterminal)
            .flat_map(|(q, _)| lookaheads.iter().map(move |&lookahead| (q, 0, lookahead)))
            .collect()
    }

    fn tables(&self, automaton: &Automaton, flag: u16) -> Option<Tables> {
        let grammar = self.grammar;
        let states = automaton.states.len();
        let columns = usize::from(grammar.kinds) + 2;
        let nonterminals = usize::from(grammar.nonterminals);
        let mut tables = Tables {
            states: states as u16,
            kinds: grammar.kinds,
            flag,
            actions: vec![0; states * columns],
            gotos: vec![0; states * nonterminals],
            productions: grammar.productions.clone(),
            items: Vec::new(),
            first_sets: self.first_sets.clone(),
        };
        for (&(from, symbol), &to) in &automaton.moves {
            let cell = match grammar.nonterminal(symbol) {
                Some(j) => &mut tables.gotos[from * nonterminals + j],
                None => &mut tables.actions[from * columns + usize::from(symbol)],
            };
            *cell = to as i16 + 1;
        }
        for (state, items) in automaton.states.iter().enumerate() {
            for &(production, dot, lookahead) in items {
                tables.items.push(Item {
                    state: state as u16,
                    production,
                    dot,
                    lookahead,
                });
                if self.symbol_after_dot(production, dot).is_some() {
                    continue;
                }
                let cell = &mut tables.actions[state * columns + usize::from(lookahead)];
                let reduce = -(production as i16 + 1);
                if *cell != 0 && *cell != reduce {
                    return None;
                }
                *cell = reduce;
            }
        }
        (tables.items.len() <= MOST_ITEMS).then_some(tables)
    }
}

#[cfg(test)]
mod tests {
    use super::*;
    use crate::check::check;
    use crate::generate::{fixed_grammars, random_grammar};
    use crate::random::Random;

    #[test]
    fn table_a_comes_out_of_its_grammar() {
        let grammar = Grammar::from_text("S: L\nL: | L E ;\nE: a | error");
        let built = tables(&grammar, Merging::Canonical, 1).expect("no conflict");
        assert_eq!((built.states, built.items.len()), (6, 21));
    }

    #[test]
    fn a_grammar_with_two_readings_is_discarded() {
        let grammar = Grammar::from_text("S: E\nE: E + E | a");
        assert_eq!(tables(&grammar, Merging::Canonical, 0), None);
    }

    #[test]
    fn automata_pass_the_check() {
        let mut random = Random::new(1);
        let random_grammars = (0..2_000).map(|_| random_grammar(&mut random));
        let mut passed = 0;
        for grammar in fixed_grammars().into_iter().chain(random_grammars) {
            for merging in [Merging::Canonical, Merging::Merged] {
                if let Some(tables) = tables(&grammar, merging, 1) {
                    assert_eq!(check(&tables.encode()), Ok(tables));
                    passed += 1;
                }
            }
        }
        assert!(passed > 200, "only {passed} tables");
    }
}
