//! Document 01's tables as a `ParserDefinition`. What the generated code of a real lalrpop parser
//! would do in `reduce` is done here on nodes.

use crate::expected_kinds;
use crate::workings::{Place, Symbol, Workings};
use chamrolak_rules::answer::{NODE_MARK, NODE_PRODUCTION, NODE_TOKEN};
use chamrolak_rules::tables::{Tables, Token};
use lalrpop_util::state_machine::{
    ErrorRecovery, ParseResult, ParserDefinition, SimulatedReduce, SymbolTriple,
};
use lalrpop_util::ParseError;
use std::cell::Cell;

/// A token that knows its index.
#[derive(Clone, Debug)]
pub struct InputToken {
    pub index: u32,
    pub token: Token,
}

/// Kind 65535, met at this token.
#[derive(Debug)]
pub struct TokenizerError {
    pub token: u32,
}

/// Production 0 was reduced. Under a lookahead in the main loop the driver makes `ExtraToken` of it.
#[derive(Debug)]
pub enum Success {
    AtTheEnd { root: u32 },
    InErrorColumn { root: u32, token: u32 },
}

pub struct Definition<'a> {
    tables: &'a Tables,
    start_location: u32,
    workings: &'a Workings,
    /// True if the driver's last look was at the error column.
    looked_at_error_column: Cell<bool>,
}

impl<'a> Definition<'a> {
    pub fn new(tables: &'a Tables, start_location: u32, workings: &'a Workings) -> Definition<'a> {
        Definition {
            tables,
            start_location,
            workings,
            looked_at_error_column: Cell::new(false),
        }
    }

    fn cell(&self, state: i16, column: usize) -> i16 {
        self.tables.actions[state as usize * self.tables.columns() + column]
    }

    fn look(&self, state: i16, column: usize) -> i16 {
        self.workings.look();
        (self.looked_at_error_column).set(column == self.tables.error_column());
        self.cell(state, column)
    }
}

impl<'a> ParserDefinition for Definition<'a> {
    type Location = Place<'a>;
    type Error = TokenizerError;
    type Token = InputToken;
    type TokenIndex = usize;
    type Symbol = Symbol<'a>;
    type Success = Success;
    type StateIndex = i16;
    type Action = i16;
    type ReduceIndex = i16;
    type NonterminalIndex = usize;

    fn start_location(&self) -> Place<'a> {
        Place::new(self.start_location, self.workings)
    }

    fn start_state(&self) -> i16 {
        0
    }

    fn token_to_index(&self, token: &InputToken) -> Option<usize> {
        let kind = token.token.kind as usize;
        (kind < self.tables.t()).then_some(kind)
    }

    fn action(&self, state: i16, kind: usize) -> i16 {
        self.look(state, kind)
    }

    fn error_action(&self, state: i16) -> i16 {
        self.look(state, self.tables.error_column())
    }

    fn eof_action(&self, state: i16) -> i16 {
        self.look(state, self.tables.end_column())
    }

    fn goto(&self, state: i16, nonterminal: usize) -> i16 {
        let target = self.tables.goto(state as usize, nonterminal);
        target.expect("tables that pass the check have every goto that is needed") as i16
    }

    fn token_to_symbol(&self, _kind: usize, InputToken { index, token }: InputToken) -> Symbol<'a> {
        self.workings.pay();
        let (start, end) = (token.start, token.end);
        (self.workings).add_node([NODE_TOKEN, index, 0, 0, start, end, index, index + 1])
    }

    /// "Expected kinds: user kinds whose cell in the top state is not 0." Not a look that is paid.
    fn expected_tokens(&self, state: i16) -> Vec<String> {
        (0..self.tables.t())
            .filter(|&kind| self.cell(state, kind) != 0)
            .map(|kind| kind.to_string())
            .collect()
    }

    fn uses_error_recovery(&self) -> bool {
        self.tables.flag == 1
    }

    fn error_recovery_symbol(&self, recovery: ErrorRecovery<Self>) -> Symbol<'a> {
        self.workings.forgive_look();
        let [start, end] = self.workings.last_places();
        let popped = self.workings.take_let_go();
        let dropped: Vec<u32> = (recovery.dropped_tokens.iter())
            .map(|(_, token, _)| token.index)
            .collect();
        let (error, at, arose_at, expected) = match &recovery.error {
            ParseError::UnrecognizedToken { token, expected } => {
                (3, token.1.index, token.1.index, expected)
            }
            ParseError::UnrecognizedEof { location, expected } => {
                (4, location.value(), self.workings.token_count(), expected)
            }
            _ => unreachable!("recovery starts from an unrecognized token or end"),
        };
        let covered: Vec<[u32; 2]> = (popped.into_iter())
            .chain(dropped.iter().map(|&index| [index, index + 1]))
            .collect();
        assert!(covered.windows(2).all(|two| two[0][1] == two[1][0]));
        let stretch = match (covered.first(), covered.last()) {
            (Some(first), Some(last)) => [first[0], last[1]],
            // Nothing was dropped, so the lookahead is the one at which the error arose.
            _ => [arose_at; 2],
        };
        let expected = expected_kinds(expected);

        let mut records = self.workings.records.borrow_mut();
        let number = records.len() as u32;
        let mut record = [0; 16];
        record[..8].copy_from_slice(&[
            error,
            at,
            stretch[0],
            stretch[1],
            dropped.first().copied().unwrap_or(stretch[1]),
            start,
            end,
            expected.count(),
        ]);
        record[8..].copy_from_slice(&expected.0);
        records.push(record);
        (self.workings).add_node([NODE_MARK, number, 0, 0, start, end, stretch[0], stretch[1]])
    }

    fn reduce(
        &mut self,
        reduce_index: i16,
        lookahead_start: Option<&Place<'a>>,
        states: &mut Vec<i16>,
        symbols: &mut Vec<SymbolTriple<Self>>,
    ) -> Option<ParseResult<Self>> {
        self.workings.pay();
        let lookahead = match lookahead_start {
            Some(_) => self.workings.last_token_read(),
            None => self.workings.token_count(),
        };
        if reduce_index == 0 {
            assert_eq!(symbols.len(), 1, "production 0 is reduced over one symbol");
            let root = symbols[0].1.node;
            return Some(Ok(match self.looked_at_error_column.get() {
                true => Success::InErrorColumn {
                    root,
                    token: lookahead,
                },
                false => Success::AtTheEnd { root },
            }));
        }

        let production = &self.tables.productions[reduce_index as usize];
        let count = production.right.len();
        let popped = symbols.split_off(symbols.len() - count);
        states.truncate(states.len() - count);
        self.assert_spans(&popped);

        let mut child_entries = self.workings.child_entries.borrow_mut();
        let (first_child, start, end, tokens) = match (popped.first(), popped.last()) {
            (Some(first), Some(last)) => (
                child_entries.len() as u32,
                first.0.clone(),
                last.2.clone(),
                [first.1.tokens[0], last.1.tokens[1]],
            ),
            // "An empty one sits at the lookahead's start, else the top symbol's end, else the start
            // location (our rule)."
            _ => {
                let place = (lookahead_start.cloned())
                    .or(symbols.last().map(|top| top.2.clone()))
                    .unwrap_or_else(|| self.start_location());
                (0, place.clone(), place, [lookahead; 2])
            }
        };
        child_entries.extend(popped.iter().map(|(_, symbol, _)| symbol.node));
        drop(popped);
        // These went into a node, and not under a mark.
        self.workings.take_let_go();
        let symbol = self.workings.add_node([
            NODE_PRODUCTION,
            reduce_index as u32,
            first_child,
            count as u32,
            start.value(),
            end.value(),
            tokens[0],
            tokens[1],
        ]);
        let top = *states.last().expect("the first state stays");
        states.push(self.goto(top, production.left.into()));
        symbols.push((start, symbol, end));
        None
    }

    fn simulate_reduce(&self, production: i16) -> SimulatedReduce<Self> {
        if production == 0 {
            return SimulatedReduce::Accept;
        }
        let production = &self.tables.productions[production as usize];
        SimulatedReduce::Reduce {
            states_to_pop: production.right.len(),
            nonterminal_produced: production.left.into(),
        }
    }
}

impl<'a> Definition<'a> {
    /// What the driver keeps beside a symbol on its stack is what its node says: so the span that was
    /// noted for a mark is the one that the driver gave it.
    fn assert_spans(&self, symbols: &[SymbolTriple<Self>]) {
        let nodes = self.workings.nodes.borrow();
        for (start, symbol, end) in symbols {
            let node = nodes[symbol.node as usize];
            assert_eq!([start.value(), end.value()], [node[4], node[5]]);
        }
    }
}
