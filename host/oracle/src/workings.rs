//! What is written down while the driver runs: looks, nodes, child entries and records.

use chamrolak_rules::answer::{Answer, Node, Record, Run};
use std::cell::{Cell, RefCell};
use std::fmt;
use std::panic::resume_unwind;

/// Thrown through the driver when it wants one look more than the budget.
pub struct Stop;

pub struct Workings {
    token_count: u32,
    budget: u64,
    units: Cell<u64>,
    /// A look that is not yet paid: only what the driver does next shows whether it is free.
    unpaid_look: Cell<bool>,
    /// The tokens read so far; the last of them is the lookahead, until the end is reached.
    tokens_read: Cell<u32>,
    /// The two places that the driver made last, the older one first.
    last_places: Cell<[u32; 2]>,
    /// The token ranges of the symbols that the driver let go since the last reduction or mark.
    let_go: RefCell<Vec<[u32; 2]>>,
    pub nodes: RefCell<Vec<Node>>,
    pub child_entries: RefCell<Vec<u32>>,
    pub records: RefCell<Vec<Record>>,
}

impl Workings {
    pub fn new(token_count: usize, budget: u64) -> Workings {
        Workings {
            token_count: token_count as u32,
            budget,
            units: Cell::new(0),
            unpaid_look: Cell::new(false),
            tokens_read: Cell::new(0),
            last_places: Cell::new([0; 2]),
            let_go: RefCell::default(),
            nodes: RefCell::default(),
            child_entries: RefCell::default(),
            records: RefCell::default(),
        }
    }

    pub fn into_run(self, answer: Answer) -> Run {
        Run {
            answer,
            units: self.units.get(),
            nodes: self.nodes.into_inner(),
            child_entries: self.child_entries.into_inner(),
            records: self.records.into_inner(),
        }
    }

    /// A call of one of the three action functions.
    pub fn look(&self) {
        self.pay();
        self.unpaid_look.set(true);
    }

    /// Called wherever the driver shows that its last look was not the one that places a mark.
    pub fn pay(&self) {
        if !self.unpaid_look.replace(false) {
            return;
        }
        if self.units.get() == self.budget {
            resume_unwind(Box::new(Stop));
        }
        self.units.set(self.units.get() + 1);
    }

    /// "The repeated look that places the mark is free."
    pub fn forgive_look(&self) {
        assert!(self.unpaid_look.replace(false), "a mark follows a look");
    }

    pub fn read(&self, index: u32) {
        self.pay();
        self.tokens_read.set(index + 1);
    }

    /// The last token read, which is the lookahead while there is one.
    pub fn last_token_read(&self) -> u32 {
        self.tokens_read.get() - 1
    }

    pub fn token_count(&self) -> u32 {
        self.token_count
    }

    pub fn last_places(&self) -> [u32; 2] {
        self.last_places.get()
    }

    /// The token ranges let go since the last reduction or mark, in the stack's order.
    pub fn take_let_go(&self) -> Vec<[u32; 2]> {
        self.let_go.take()
    }

    /// Writes a node and gives the symbol that stands for it.
    pub fn add_node(&self, node: Node) -> Symbol<'_> {
        let mut nodes = self.nodes.borrow_mut();
        nodes.push(node);
        Symbol {
            node: nodes.len() as u32 - 1,
            tokens: [node[6], node[7]],
            workings: self,
        }
    }
}

/// What stands on the driver's stack: a node, and the tokens under it.
pub struct Symbol<'a> {
    pub node: u32,
    /// First token, token after the last.
    pub tokens: [u32; 2],
    workings: &'a Workings,
}

/// The driver pops symbols for a mark without a word to its definition: their end is the word.
impl Drop for Symbol<'_> {
    fn drop(&mut self) {
        self.workings.let_go.borrow_mut().push(self.tokens);
    }
}

/// A location. The driver computes a mark's start and then its end as the last two copies before it
/// asks for the mark's symbol, and hands neither to the definition: so each one made is noted.
pub struct Place<'a> {
    value: u32,
    workings: &'a Workings,
}

impl<'a> Place<'a> {
    pub fn new(value: u32, workings: &'a Workings) -> Place<'a> {
        let [_, older] = workings.last_places.get();
        workings.last_places.set([older, value]);
        Place { value, workings }
    }

    pub fn value(&self) -> u32 {
        self.value
    }
}

impl Clone for Place<'_> {
    fn clone(&self) -> Self {
        Place::new(self.value, self.workings)
    }
}

impl fmt::Debug for Place<'_> {
    fn fmt(&self, f: &mut fmt::Formatter<'_>) -> fmt::Result {
        self.value.fmt(f)
    }
}
