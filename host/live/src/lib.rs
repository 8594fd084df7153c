//! The customer's Rust driver as it would be used: its tables in arrays, its tree in vectors, and
//! nothing watched. The oracle's definition is made to show what the driver does; this one is made to
//! be quick, for timing.
#![forbid(unsafe_code)]

use chamrolak_rules::answer::{NODE_MARK, NODE_PRODUCTION, NODE_TOKEN};
use chamrolak_rules::tables::{Production, Tables, Token};
use lalrpop_util::state_machine::{
    ErrorRecovery, ParseResult, Parser, ParserDefinition, SimulatedReduce, SymbolTriple,
};
use std::cell::RefCell;

/// A parser over these tables.
pub struct PlainDriver {
    columns: usize,
    nonterminals: usize,
    recovers: bool,
    actions: Vec<i16>,
    gotos: Vec<i16>,
    /// Left side and length of each production.
    productions: Vec<(u16, u16)>,
    /// Generated parsers name the kinds that they expected.
    kind_names: Vec<String>,
}

impl PlainDriver {
    pub fn new(tables: &Tables) -> PlainDriver {
        let production = |p: &Production| (p.left, p.right.len() as u16);
        PlainDriver {
            columns: tables.columns(),
            nonterminals: tables.nonterminals(),
            recovers: tables.flag == 1,
            actions: tables.actions.clone(),
            gotos: tables.gotos.clone(),
            productions: tables.productions.iter().map(production).collect(),
            kind_names: (0..tables.t()).map(|kind| kind.to_string()).collect(),
        }
    }

    /// Runs the driver over user kinds; says whether it accepted. The tree that was there goes, its
    /// room stays.
    pub fn drive<T: Tree>(&self, tokens: &[Token], tree: &T) -> bool {
        tree.clear();
        let definition = Definition { driver: self, tree };
        let input = (0..)
            .zip(tokens)
            .map(|(index, &token)| Ok((token.start, InputToken { index, token }, token.end)));
        Parser::drive(definition, input).is_ok()
    }
}

/// What the reductions build.
pub trait Tree {
    type Symbol;

    fn clear(&self);
    fn token(&self, token: InputToken) -> Self::Symbol;
    fn mark(&self, dropped: usize, expected: usize) -> Self::Symbol;
    fn production(
        &self,
        number: i16,
        place: u32,
        popped: &[(u32, Self::Symbol, u32)],
    ) -> Self::Symbol;
}

/// No tree at all: the driver and nothing else.
pub struct NoTree;

impl Tree for NoTree {
    type Symbol = ();

    fn clear(&self) {}
    fn token(&self, _: InputToken) {}
    fn mark(&self, _: usize, _: usize) {}
    fn production(&self, _: i16, _: u32, _: &[(u32, (), u32)]) {}
}

/// Document 01's nodes, child entries and records. A mark's span and popped tokens are told to no
/// definition, nor is the lookahead's index: these words of marks and empty productions stay 0.
#[derive(Default)]
pub struct SameTree {
    nodes: RefCell<Vec<[u32; 8]>>,
    child_entries: RefCell<Vec<u32>>,
    records: RefCell<Vec<[u32; 16]>>,
}

impl SameTree {
    /// Node, child entry and record counts.
    pub fn counts(&self) -> [usize; 3] {
        let (nodes, children) = (self.nodes.borrow().len(), self.child_entries.borrow().len());
        [nodes, children, self.records.borrow().len()]
    }

    fn add(&self, node: [u32; 8]) -> Node {
        let mut nodes = self.nodes.borrow_mut();
        nodes.push(node);
        Node {
            number: nodes.len() as u32 - 1,
            tokens: [node[6], node[7]],
        }
    }
}

/// A node and the tokens under it.
pub struct Node {
    number: u32,
    tokens: [u32; 2],
}

impl Tree for SameTree {
    type Symbol = Node;

    fn clear(&self) {
        self.nodes.borrow_mut().clear();
        self.child_entries.borrow_mut().clear();
        self.records.borrow_mut().clear();
    }

    fn token(&self, InputToken { index, token }: InputToken) -> Node {
        let (start, end) = (token.start, token.end);
        self.add([NODE_TOKEN, index, 0, 0, start, end, index, index + 1])
    }

    fn mark(&self, dropped: usize, expected: usize) -> Node {
        let mut records = self.records.borrow_mut();
        let mut record = [0; 16];
        record[4] = dropped as u32;
        record[7] = expected as u32;
        records.push(record);
        self.add([NODE_MARK, records.len() as u32 - 1, 0, 0, 0, 0, 0, 0])
    }

    fn production(&self, number: i16, place: u32, popped: &[(u32, Node, u32)]) -> Node {
        let mut child_entries = self.child_entries.borrow_mut();
        let (first, span, tokens) = match popped {
            [] => (0, [place; 2], [0; 2]),
            [first, .., last] => (
                child_entries.len() as u32,
                [first.0, last.2],
                [first.1.tokens[0], last.1.tokens[1]],
            ),
            [only] => (child_entries.len() as u32, [only.0, only.2], only.1.tokens),
        };
        child_entries.extend(popped.iter().map(|(_, node, _)| node.number));
        self.add([
            NODE_PRODUCTION,
            number as u32,
            first,
            popped.len() as u32,
            span[0],
            span[1],
            tokens[0],
            tokens[1],
        ])
    }
}

/// A token that knows its index.
#[derive(Clone, Debug)]
pub struct InputToken {
    index: u32,
    token: Token,
}

struct Definition<'a, T> {
    driver: &'a PlainDriver,
    tree: &'a T,
}

impl<T> Definition<'_, T> {
    fn cell(&self, state: i16, column: usize) -> i16 {
        self.driver.actions[state as usize * self.driver.columns + column]
    }
}

impl<T: Tree> ParserDefinition for Definition<'_, T> {
    type Location = u32;
    type Error = ();
    type Token = InputToken;
    type TokenIndex = u16;
    type Symbol = T::Symbol;
    type Success = ();
    type StateIndex = i16;
    type Action = i16;
    type ReduceIndex = i16;
    type NonterminalIndex = u16;

    fn start_location(&self) -> u32 {
        0
    }

    fn start_state(&self) -> i16 {
        0
    }

    fn token_to_index(&self, token: &InputToken) -> Option<u16> {
        Some(token.token.kind as u16)
    }

    fn action(&self, state: i16, kind: u16) -> i16 {
        self.cell(state, kind.into())
    }

    fn error_action(&self, state: i16) -> i16 {
        self.cell(state, self.driver.columns - 2)
    }

    fn eof_action(&self, state: i16) -> i16 {
        self.cell(state, self.driver.columns - 1)
    }

    fn goto(&self, state: i16, nonterminal: u16) -> i16 {
        let row = state as usize * self.driver.nonterminals;
        self.driver.gotos[row + usize::from(nonterminal)] - 1
    }

    fn token_to_symbol(&self, _kind: u16, token: InputToken) -> T::Symbol {
        self.tree.token(token)
    }

    fn expected_tokens(&self, state: i16) -> Vec<String> {
        let names = self.driver.kind_names.iter().enumerate();
        names
            .filter(|(kind, _)| self.cell(state, *kind) != 0)
            .map(|(_, name)| name.clone())
            .collect()
    }

    fn uses_error_recovery(&self) -> bool {
        self.driver.recovers
    }

    fn error_recovery_symbol(&self, recovery: ErrorRecovery<Self>) -> T::Symbol {
        let expected = match &recovery.error {
            lalrpop_util::ParseError::UnrecognizedToken { expected, .. }
            | lalrpop_util::ParseError::UnrecognizedEof { expected, .. } => expected.len(),
            _ => 0,
        };
        self.tree.mark(recovery.dropped_tokens.len(), expected)
    }

    fn reduce(
        &mut self,
        production: i16,
        lookahead_start: Option<&u32>,
        states: &mut Vec<i16>,
        symbols: &mut Vec<SymbolTriple<Self>>,
    ) -> Option<ParseResult<Self>> {
        if production == 0 {
            return Some(Ok(()));
        }
        let (left, length) = self.driver.productions[production as usize];
        let kept = symbols.len() - usize::from(length);
        let popped = &symbols[kept..];
        let place = match (lookahead_start, symbols.last()) {
            (Some(start), _) => *start,
            (None, Some(top)) => top.2,
            (None, None) => 0,
        };
        let (start, end) = match popped {
            [] => (place, place),
            [first, ..] => (first.0, popped[popped.len() - 1].2),
        };
        let symbol = self.tree.production(production, place, popped);
        symbols.truncate(kept);
        states.truncate(states.len() - usize::from(length));
        let top = states[states.len() - 1];
        states.push(self.goto(top, left));
        symbols.push((start, symbol, end));
        None
    }

    fn simulate_reduce(&self, production: i16) -> SimulatedReduce<Self> {
        if production == 0 {
            return SimulatedReduce::Accept;
        }
        let (left, length) = self.driver.productions[production as usize];
        SimulatedReduce::Reduce {
            states_to_pop: length.into(),
            nonterminal_produced: left,
        }
    }
}
