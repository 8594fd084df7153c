//! Grammars for tests: a short notation, the smallest nullable flags and first sets, and sentences.

use crate::random::Random;
use crate::tables::{FirstSet, Production};

/// A context-free grammar with document 01's symbol numbers: 0..t are terminals, t the error token,
/// t+1+j nonterminal j. Production 0 is nonterminal 0 to one other nonterminal.
#[derive(Clone, Debug, PartialEq, Eq)]
pub struct Grammar {
    /// t, the number of user kinds.
    pub kinds: u16,
    pub nonterminals: u16,
    pub productions: Vec<Production>,
}

impl Grammar {
    /// Reads lines of the form `Left: a B c | d | error`. Names that stand left of a colon are
    /// nonterminals, `error` is the error token, and all others are user kinds, both numbered as
    /// they come.
    pub fn from_text(text: &str) -> Grammar {
        let rules = rules_of(text);
        let nonterminal = |name: &str| rules.iter().position(|(left, _)| *left == name);
        let kinds = Grammar::kind_names(text);
        let symbol = |name: &str| {
            let kind = kinds.iter().position(|kind| *kind == name);
            let number = match nonterminal(name) {
                Some(j) => kinds.len() + 1 + j,
                None => kind.unwrap_or(kinds.len()),
            };
            number as u16
        };
        let productions = (rules.iter().enumerate())
            .flat_map(|(left, (_, right))| right.split('|').map(move |side| (left, side)))
            .map(|(left, side)| Production {
                left: left as u16,
                right: side.split_whitespace().map(symbol).collect(),
            })
            .collect();
        Grammar {
            kinds: kinds.len() as u16,
            nonterminals: rules.len() as u16,
            productions,
        }
    }

    /// The names of the user kinds in such a text, by number.
    pub fn kind_names(text: &str) -> Vec<&str> {
        let rules = rules_of(text);
        let mut kinds: Vec<&str> = Vec::new();
        for name in rules.iter().flat_map(|(_, right)| right.split_whitespace()) {
            let is_nonterminal = rules.iter().any(|(left, _)| *left == name);
            let is_kind = name != "|" && name != "error" && !is_nonterminal;
            if is_kind && !kinds.contains(&name) {
                kinds.push(name);
            }
        }
        kinds
    }

    pub fn error_token(&self) -> u16 {
        self.kinds
    }

    /// The nonterminal that a symbol is, if it is one.
    pub fn nonterminal(&self, symbol: u16) -> Option<usize> {
        symbol.checked_sub(self.kinds + 1).map(usize::from)
    }

    /// The smallest nullable flags and first sets that are closed under the productions.
    pub fn first_sets(&self) -> Vec<FirstSet> {
        let mut sets = vec![FirstSet::default(); self.nonterminals.into()];
        loop {
            let before = sets.clone();
            for production in &self.productions {
                let begins = self.begins(&sets, &production.right);
                let left = &mut sets[usize::from(production.left)];
                left.nullable |= begins.nullable;
                (0..32).for_each(|byte| left.bits[byte] |= begins.bits[byte]);
            }
            if sets == before {
                return sets;
            }
        }
    }

    /// What can begin these symbols by the given sets, and whether they can be empty.
    pub fn begins(&self, sets: &[FirstSet], symbols: &[u16]) -> FirstSet {
        let mut begins = FirstSet::default();
        for &symbol in symbols {
            let Some(nonterminal) = self.nonterminal(symbol) else {
                begins.insert(symbol.into());
                return begins;
            };
            let set = &sets[nonterminal];
            (0..32).for_each(|byte| begins.bits[byte] |= set.bits[byte]);
            if !set.is_nullable() {
                return begins;
            }
        }
        begins.nullable = 1;
        begins
    }

    /// For each production the height of its lowest tree, or none where it has no tree at all.
    fn heights(&self) -> Vec<Option<usize>> {
        let mut heights: Vec<Option<usize>> = vec![None; self.productions.len()];
        loop {
            let before = heights.clone();
            for (number, production) in self.productions.iter().enumerate() {
                let below: Option<Vec<usize>> = (production.right.iter())
                    .filter_map(|&symbol| self.nonterminal(symbol))
                    .map(|nonterminal| self.lowest(&before, nonterminal))
                    .map(|lowest| lowest.and_then(|number| before[number]))
                    .collect();
                heights[number] = below.map(|heights| 1 + heights.into_iter().max().unwrap_or(0));
            }
            if heights == before {
                return heights;
            }
        }
    }

    /// The production of a nonterminal that has the lowest tree.
    fn lowest(&self, heights: &[Option<usize>], nonterminal: usize) -> Option<usize> {
        (0..self.productions.len())
            .filter(|&number| usize::from(self.productions[number].left) == nonterminal)
            .filter(|&number| heights[number].is_some())
            .min_by_key(|&number| heights[number])
    }

    /// True if every production derives some list of terminals.
    pub fn is_productive(&self) -> bool {
        self.heights().iter().all(Option::is_some)
    }

    /// A random sentence of a productive grammar, error tokens included; about so many productions
    /// are chosen freely, and the lowest ones from then on.
    pub fn sentence(&self, random: &mut Random, size: usize) -> Vec<u16> {
        let heights = self.heights();
        let mut free_choices = size;
        let mut sentence = Vec::new();
        let mut pending = vec![self.kinds + 1];
        while let Some(symbol) = pending.pop() {
            let Some(nonterminal) = self.nonterminal(symbol) else {
                sentence.push(symbol);
                continue;
            };
            let choices: Vec<usize> = (0..self.productions.len())
                .filter(|&number| usize::from(self.productions[number].left) == nonterminal)
                .collect();
            let lowest = self.lowest(&heights, nonterminal);
            let chosen = match free_choices {
                0 => lowest.expect("the grammar is productive"),
                _ => *random.pick(&choices),
            };
            free_choices = free_choices.saturating_sub(1);
            pending.extend(self.productions[chosen].right.iter().rev());
        }
        sentence
    }
}

/// The lines of a grammar's text: left side, and all its right sides.
fn rules_of(text: &str) -> Vec<(&str, &str)> {
    (text.lines())
        .filter_map(|line| line.split_once(": "))
        .map(|(left, right)| (left.trim(), right))
        .collect()
}

#[cfg(test)]
mod tests {
    use super::*;
    use crate::bench::table_a;

    #[test]
    fn the_notation_gives_table_a_its_productions_and_sets() {
        let grammar = Grammar::from_text("S: L\nL: | L E ;\nE: a | error");
        // Here `;` comes before a, so the two kinds are exchanged.
        let exchanged = |symbol: &u16| match symbol {
            0 => 1,
            1 => 0,
            other => *other,
        };
        let table_a = table_a();
        for (production, of_table_a) in grammar.productions.iter().zip(&table_a.productions) {
            assert_eq!(production.left, of_table_a.left);
            let right: Vec<u16> = of_table_a.right.iter().map(exchanged).collect();
            assert_eq!(production.right, right);
        }
        let sets = grammar.first_sets();
        for (set, of_table_a) in sets.iter().zip(&table_a.first_sets) {
            assert_eq!(set.nullable, of_table_a.nullable);
            assert!((0..3).all(|kind| {
                set.contains(exchanged(&kind).into()) == of_table_a.contains(kind.into())
            }));
        }
    }
}
