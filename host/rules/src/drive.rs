//! Document 01, "Driving" and "What comes back", as one machine.
//!
//! "One unit is one look at an action cell: main loop, error column (its last look included), each
//! state searched, each simulated look." So one step of the machine is one look and what it then
//! does. The budget is tested before the look; every other limit before what that look pushes, so a
//! step that a limit stops writes nothing, and its look is counted.
//!
//! The machine is total: where tables that pass the check never lead, it does what crates/rules says
//! (`unchecked` has the sentence).

use crate::answer::{
    Answer, Expected, Limit, Limits, Node, Record, Run, NODE_MARK, NODE_PRODUCTION, NODE_TOKEN,
};
use crate::tables::{Cell, Readers, Token};

/// "Kind 65535 is the tokenizer's own error."
pub const TOKENIZER_ERROR_KIND: u32 = 65_535;

/// "8 words of expected bits."
const MOST_EXPECTED: usize = 256;

/// What a run left, and the most states that stood on a stack in it, real or simulated.
#[derive(Clone, Debug, PartialEq, Eq)]
pub struct Driven {
    pub run: Run,
    pub deepest: usize,
}

/// Runs tables over a token list that passes 18.
pub fn drive<T: Readers>(
    tables: &T,
    tokens: &[Token],
    start_location: u32,
    limits: &Limits,
) -> Driven {
    let mut machine = Machine {
        tables,
        tokens,
        start_location,
        limits,
        stack: Vec::new(),
        lookahead: 0,
        last_location: start_location,
        units: 0,
        nodes: Vec::new(),
        child_entries: Vec::new(),
        records: Vec::new(),
        deepest: 0,
    };
    let answer = machine.run();
    Driven {
        run: Run {
            answer,
            units: machine.units,
            nodes: machine.nodes,
            child_entries: machine.child_entries,
            records: machine.records,
        },
        deepest: machine.deepest,
    }
}

struct Machine<'a, T> {
    tables: &'a T,
    tokens: &'a [Token],
    start_location: u32,
    limits: &'a Limits,
    /// What stands above the first state, which is state 0.
    stack: Vec<Entry>,
    /// The lookahead's index; the token count at the end of input.
    lookahead: usize,
    last_location: u32,
    units: u64,
    nodes: Vec<Node>,
    child_entries: Vec<u32>,
    records: Vec<Record>,
    deepest: usize,
}

/// "Each stack entry is a token, a mark or a production, with its span": its node says which, and
/// holds the span and the tokens under it.
#[derive(Clone, Copy)]
struct Entry {
    state: usize,
    node: usize,
}

/// Which look comes next.
enum Mode {
    Main,
    ErrorColumn(FormedError),
    /// Search at the state above so many stack entries.
    Search(FormedError, usize),
    /// Simulate the lookahead above the error token, shifted at that place.
    Simulate(FormedError, usize, Vec<usize>),
}

/// "Form the error": recovery keeps it, for the record or for the answer.
struct FormedError {
    /// The token at which it arose, the token count at the end. Dropping begins there, so the
    /// dropped tokens are those from here up to the lookahead.
    arose_at: usize,
    answer: Answer,
    expected: Expected,
}

impl<T: Readers> Machine<'_, T> {
    fn run(&mut self) -> Answer {
        let mut next = self.begin();
        loop {
            next = match next {
                Err(answer) => return answer,
                Ok(_) if self.units == self.limits.budget => {
                    return Answer::Stopped(Limit::Consultations)
                }
                Ok(mode) => {
                    self.units += 1;
                    self.look(mode)
                }
            }
        }
    }

    /// "Depth 0 is 20 at unit 0, after 10 to 18 and before all else." Then the first token is read.
    fn begin(&mut self) -> Result<Mode, Answer> {
        self.test_depth(1)?;
        self.deepest = 1;
        self.judge_lookahead()?;
        Ok(Mode::Main)
    }

    fn look(&mut self, mode: Mode) -> Result<Mode, Answer> {
        match mode {
            Mode::Main => self.look_in_main_loop(),
            Mode::ErrorColumn(error) => self.look_at_error_column(error),
            Mode::Search(error, kept) => self.look_in_search(error, kept),
            Mode::Simulate(error, kept, states) => self.look_in_simulation(error, kept, states),
        }
    }

    fn look_in_main_loop(&mut self) -> Result<Mode, Answer> {
        let cell = (self.tables).action(self.top_state(), self.lookahead_column());
        match cell {
            Cell::Shift(state) if self.lookahead_token().is_some() => {
                self.shift(state)?;
                self.lookahead += 1;
                self.judge_lookahead()?;
                Ok(Mode::Main)
            }
            // "Production 0 under a lookahead token in the main loop is answer 5."
            Cell::Reduce(0) => Err(match self.lookahead_token() {
                Some(_) => Answer::ExtraToken {
                    token: self.lookahead as u32,
                },
                None => Answer::Accepted { root: self.root() },
            }),
            Cell::Reduce(production) => {
                self.reduce(production)?;
                Ok(Mode::Main)
            }
            // "Flag 0: an error cell gives 3, or 4 at the end, at once." A shift at the end, which the
            // check refuses with 11, is an error too.
            Cell::Error | Cell::Shift(_) => {
                let error = self.form_error();
                match self.tables.recovers() {
                    false => Err(error.answer),
                    true => Ok(Mode::ErrorColumn(error)),
                }
            }
        }
    }

    /// "Reduce by the error column until its cell is no reduce. If production 0 is reached there,
    /// answer 2." Then the search begins at the top.
    fn look_at_error_column(&mut self, error: FormedError) -> Result<Mode, Answer> {
        match self.error_cell(self.top_state()) {
            Cell::Reduce(0) => Err(Answer::AcceptedEarly {
                root: self.root(),
                token: error.arose_at as u32,
            }),
            Cell::Reduce(production) => {
                self.reduce(production)?;
                Ok(Mode::ErrorColumn(error))
            }
            Cell::Shift(_) | Cell::Error => Ok(Mode::Search(error, self.stack.len())),
        }
    }

    /// "If the error cell is not a shift, look further down. Otherwise simulate the lookahead above
    /// that shift." The simulated stack holds the error token's state from this look on.
    fn look_in_search(&mut self, error: FormedError, kept: usize) -> Result<Mode, Answer> {
        let Cell::Shift(error_state) = self.error_cell(self.state_above(kept)) else {
            return self.look_further_down(error, kept);
        };
        let mut states: Vec<usize> = (0..=kept).map(|below| self.state_above(below)).collect();
        self.push_simulated(&mut states, error_state)?;
        Ok(Mode::Simulate(error, kept, states))
    }

    /// "Error cell no, shift yes, production 0 yes." A yes places the mark; that repeated look at
    /// the error cell is free.
    fn look_in_simulation(
        &mut self,
        error: FormedError,
        kept: usize,
        mut states: Vec<usize>,
    ) -> Result<Mode, Answer> {
        let top = *states.last().expect("the error token's state at least");
        match self.tables.action(top, self.lookahead_column()) {
            Cell::Error => self.look_further_down(error, kept),
            Cell::Shift(_) | Cell::Reduce(0) => {
                self.place_mark(&error, kept)?;
                Ok(Mode::Main)
            }
            Cell::Reduce(production) => {
                let (left, size) = self.tables.production(production);
                // The first state stays, whatever is popped.
                states.truncate(states.len().saturating_sub(size).max(1));
                let top = *states.last().expect("the first state at least");
                let state = self.tables.goto_state(top, left);
                self.push_simulated(&mut states, state)?;
                Ok(Mode::Simulate(error, kept, states))
            }
        }
    }

    /// The next state of the search. "No state: drop the lookahead, read on, search the same stack.
    /// At end of input with no state, answer the original error."
    fn look_further_down(&mut self, error: FormedError, kept: usize) -> Result<Mode, Answer> {
        if kept > 0 {
            return Ok(Mode::Search(error, kept - 1));
        }
        if self.lookahead_token().is_none() {
            return Err(error.answer);
        }
        self.lookahead += 1;
        self.judge_lookahead()?;
        Ok(Mode::Search(error, self.stack.len()))
    }

    /// "Reading sets the last location to the token's end. A kind not below t ends at once with
    /// answer 3, with no recovery, even while dropping. Kind 65535 is the tokenizer's own error:
    /// answer 6, last location unchanged."
    fn judge_lookahead(&mut self) -> Result<(), Answer> {
        let Some(read) = self.lookahead_token() else {
            return Ok(());
        };
        let token = self.lookahead as u32;
        if read.kind == TOKENIZER_ERROR_KIND {
            return Err(Answer::TokenizerError { token });
        }
        self.last_location = read.end;
        if read.kind as usize >= self.tables.t() {
            let expected = self.expected_kinds();
            return Err(Answer::UnrecognizedToken { token, expected });
        }
        Ok(())
    }

    fn form_error(&self) -> FormedError {
        let expected = self.expected_kinds();
        FormedError {
            arose_at: self.lookahead,
            answer: match self.lookahead_token() {
                Some(_) => Answer::UnrecognizedToken {
                    token: self.lookahead as u32,
                    expected,
                },
                None => Answer::UnrecognizedEnd {
                    location: self.last_location,
                    expected,
                },
            },
            expected,
        }
    }

    /// "Expected kinds: user kinds whose cell in the top state is not 0."
    fn expected_kinds(&self) -> Expected {
        let cell = |kind: u32| self.tables.action(self.top_state(), kind as usize);
        (0..self.tables.t().min(MOST_EXPECTED) as u32)
            .filter(|&kind| cell(kind) != Cell::Error)
            .collect()
    }

    fn shift(&mut self, state: usize) -> Result<(), Answer> {
        self.test_depth(self.stack.len() + 2)?;
        self.test_nodes()?;
        let token = self.tokens[self.lookahead];
        let index = self.lookahead as u32;
        let tokens = [index, index + 1];
        self.push(
            state,
            NODE_TOKEN,
            index,
            [0, 0],
            [token.start, token.end],
            tokens,
        );
        Ok(())
    }

    /// "A reduced symbol spans its first symbol's start to its last one's end. An empty one sits at
    /// the lookahead's start, else the top symbol's end, else the start location (our rule)." "An
    /// empty stretch or production holds the lookahead's index twice." "Unused fields, and an empty
    /// production's first child entry, are 0."
    fn reduce(&mut self, number: usize) -> Result<(), Answer> {
        let (left, size) = self.tables.production(number);
        let kept = self.stack.len().saturating_sub(size);
        let count = self.stack.len() - kept;
        self.test_depth(kept + 2)?;
        self.test(
            self.child_entries.len() + count,
            self.limits.child_entries,
            Limit::ChildEntries,
        )?;
        self.test_nodes()?;

        let (children, span, tokens) = match (self.stack.get(kept), self.stack.last()) {
            (Some(&first), Some(&last)) => (
                [self.child_entries.len() as u32, count as u32],
                [self.start_of(first), self.end_of(last)],
                [self.tokens_of(first)[0], self.tokens_of(last)[1]],
            ),
            (_, top) => {
                let place = (self.lookahead_token().map(|token| token.start))
                    .or(top.map(|&top| self.end_of(top)))
                    .unwrap_or(self.start_location);
                ([0, 0], [place; 2], [self.lookahead as u32; 2])
            }
        };
        let popped = self.stack.split_off(kept);
        self.child_entries
            .extend(popped.iter().map(|entry| entry.node as u32));
        let state = self.tables.goto_state(self.top_state(), left);
        self.push(
            state,
            NODE_PRODUCTION,
            number as u32,
            children,
            span,
            tokens,
        );
        Ok(())
    }

    /// Pops down to so many entries and shifts the mark there, with its record.
    fn place_mark(&mut self, error: &FormedError, kept: usize) -> Result<(), Answer> {
        self.test_nodes()?;
        self.test(self.records.len() + 1, self.limits.records, Limit::Records)?;

        let popped = self.stack.split_off(kept);
        let dropped = &self.tokens[error.arose_at..self.lookahead];
        // "Mark start: the first popped symbol's start; else the first dropped token's; else the end
        // of the symbol below; else the start location."
        let start = (popped.first().map(|&first| self.start_of(first)))
            .or(dropped.first().map(|token| token.start))
            .or(self.stack.last().map(|&below| self.end_of(below)))
            .unwrap_or(self.start_location);
        // "Mark end: the last dropped token's end; else, if anything popped, the last symbol's end;
        // else the lookahead's start; else the mark's start."
        let end = (dropped.last().map(|token| token.end))
            .or(popped.last().map(|&last| self.end_of(last)))
            .or(self.lookahead_token().map(|token| token.start))
            .unwrap_or(start);
        // "Its stretch is the tokens under popped symbols, popped marks' stretches included, then
        // the dropped ones." Empty, it "holds the lookahead's index twice".
        let stretch: Vec<u32> = (popped.iter().map(|&entry| self.tokens_of(entry)))
            .flat_map(|[first, after_last]| first..after_last)
            .chain(error.arose_at as u32..self.lookahead as u32)
            .collect();
        let tokens = match (stretch.first(), stretch.last()) {
            (Some(first), Some(last)) => [*first, last + 1],
            _ => [self.lookahead as u32; 2],
        };
        // "Dropped first (after-last if none)."
        let dropped_first = match dropped {
            [] => tokens[1],
            _ => error.arose_at as u32,
        };

        let Cell::Shift(state) = self.error_cell(self.top_state()) else {
            unreachable!("the search found a shift here");
        };
        let number = self.records.len() as u32;
        let mut record = [0; 16];
        record[0] = error.answer.number();
        record[1] = error.answer.fields()[0];
        record[2..4].copy_from_slice(&tokens);
        record[4] = dropped_first;
        record[5..7].copy_from_slice(&[start, end]);
        record[7] = error.expected.count();
        record[8..].copy_from_slice(&error.expected.0);
        self.records.push(record);
        self.push(state, NODE_MARK, number, [0, 0], [start, end], tokens);
        Ok(())
    }

    fn push(
        &mut self,
        state: usize,
        kind: u32,
        number: u32,
        children: [u32; 2],
        span: [u32; 2],
        tokens: [u32; 2],
    ) {
        let node = self.nodes.len();
        self.stack.push(Entry { state, node });
        self.deepest = self.deepest.max(self.stack.len() + 1);
        self.nodes.push([
            kind,
            number,
            children[0],
            children[1],
            span[0],
            span[1],
            tokens[0],
            tokens[1],
        ]);
    }

    fn start_of(&self, entry: Entry) -> u32 {
        self.nodes[entry.node][4]
    }

    fn end_of(&self, entry: Entry) -> u32 {
        self.nodes[entry.node][5]
    }

    /// The first token under an entry, and the token after the last.
    fn tokens_of(&self, entry: Entry) -> [u32; 2] {
        let node = &self.nodes[entry.node];
        [node[6], node[7]]
    }

    /// "Production 0 .. builds no node": the root is the node of its one symbol.
    fn root(&self) -> u32 {
        self.stack.last().map_or(0, |entry| entry.node as u32)
    }

    fn lookahead_token(&self) -> Option<Token> {
        self.tokens.get(self.lookahead).copied()
    }

    fn lookahead_column(&self) -> usize {
        match self.lookahead_token() {
            Some(token) => token.kind as usize,
            None => self.tables.t() + 1,
        }
    }

    /// The state above so many entries; "State 0 starts".
    fn state_above(&self, kept: usize) -> usize {
        match kept.checked_sub(1) {
            None => 0,
            Some(top) => self.stack[top].state,
        }
    }

    fn top_state(&self) -> usize {
        self.state_above(self.stack.len())
    }

    fn error_cell(&self, state: usize) -> Cell {
        self.tables.action(state, self.tables.t())
    }

    fn push_simulated(&mut self, states: &mut Vec<usize>, state: usize) -> Result<(), Answer> {
        self.test_depth(states.len() + 1)?;
        states.push(state);
        self.deepest = self.deepest.max(states.len());
        Ok(())
    }

    /// "Depth counts states, real or simulated, the first included."
    fn test_depth(&self, states: usize) -> Result<(), Answer> {
        self.test(states, self.limits.depth, Limit::Depth)
    }

    fn test_nodes(&self) -> Result<(), Answer> {
        self.test(self.nodes.len() + 1, self.limits.nodes, Limit::Nodes)
    }

    fn test(&self, wanted: usize, room: usize, limit: Limit) -> Result<(), Answer> {
        match wanted <= room {
            true => Ok(()),
            false => Err(Answer::Stopped(limit)),
        }
    }
}
