//! Document 01, "What comes back": the answers, what they carry, and the limits of a run.

/// A refusal: 10 to 18 of the check, 30 to 33 of the file.
#[derive(Clone, Copy, Debug, PartialEq, Eq)]
pub struct Refusal {
    pub number: u32,
    pub place: usize,
}

/// "19 consultations, 20 depth, 21 child entries, 22 nodes, 23 records."
#[derive(Clone, Copy, Debug, PartialEq, Eq)]
pub enum Limit {
    Consultations = 19,
    Depth = 20,
    ChildEntries = 21,
    Nodes = 22,
    Records = 23,
}

#[derive(Clone, Debug, PartialEq, Eq)]
pub enum Answer {
    Accepted { root: u32 },
    AcceptedEarly { root: u32, token: u32 },
    UnrecognizedToken { token: u32, expected: Expected },
    UnrecognizedEnd { location: u32, expected: Expected },
    ExtraToken { token: u32 },
    TokenizerError { token: u32 },
    Stopped(Limit),
}

impl Answer {
    pub fn number(&self) -> u32 {
        match self {
            Answer::Accepted { .. } => 1,
            Answer::AcceptedEarly { .. } => 2,
            Answer::UnrecognizedToken { .. } => 3,
            Answer::UnrecognizedEnd { .. } => 4,
            Answer::ExtraToken { .. } => 5,
            Answer::TokenizerError { .. } => 6,
            Answer::Stopped(limit) => *limit as u32,
        }
    }

    pub fn root(&self) -> Option<u32> {
        match *self {
            Answer::Accepted { root } | Answer::AcceptedEarly { root, .. } => Some(root),
            _ => None,
        }
    }

    /// The fields in document 01's order, root left out; expected kinds upward.
    pub fn fields(&self) -> Vec<u32> {
        match self {
            Answer::Accepted { .. } | Answer::Stopped(_) => vec![],
            Answer::AcceptedEarly { token, .. }
            | Answer::ExtraToken { token }
            | Answer::TokenizerError { token } => vec![*token],
            Answer::UnrecognizedToken {
                token: first,
                expected,
            }
            | Answer::UnrecognizedEnd {
                location: first,
                expected,
            } => std::iter::once(*first).chain(expected.kinds()).collect(),
        }
    }
}

/// Expected kinds as eight words, "kind k at bit k mod 32 of word k/32".
#[derive(Clone, Copy, Debug, Default, PartialEq, Eq)]
pub struct Expected(pub [u32; 8]);

impl Expected {
    /// The kinds, upward.
    pub fn kinds(&self) -> Vec<u32> {
        let is_in = |kind: &u32| self.0[*kind as usize / 32] >> (kind % 32) & 1 == 1;
        (0..256).filter(is_in).collect()
    }

    /// "Expected count as the number of ones."
    pub fn count(&self) -> u32 {
        self.0.iter().map(|word| word.count_ones()).sum()
    }
}

impl FromIterator<u32> for Expected {
    fn from_iter<I: IntoIterator<Item = u32>>(kinds: I) -> Expected {
        let mut words = [0; 8];
        for kind in kinds {
            words[kind as usize / 32] |= 1 << (kind % 32);
        }
        Expected(words)
    }
}

/// "Node, 8 words: kind (0 token, 1 mark, 2 production), number (of that token, record or
/// production), first child entry, child count, start, end, first token, token after the last."
pub type Node = [u32; 8];

pub const NODE_TOKEN: u32 = 0;
pub const NODE_MARK: u32 = 1;
pub const NODE_PRODUCTION: u32 = 2;

/// "Record, 16 words: error 3 or 4, token or location, stretch first, stretch after-last, dropped
/// first (after-last if none), start, end, expected count as the number of ones, 8 words of expected
/// bits."
pub type Record = [u32; 16];

/// What a run leaves. The node, child and record counts are the lengths of the lists.
#[derive(Clone, Debug, PartialEq, Eq)]
pub struct Run {
    pub answer: Answer,
    pub units: u64,
    pub nodes: Vec<Node>,
    pub child_entries: Vec<u32>,
    pub records: Vec<Record>,
}

/// The budget in units, and the room in whole entries. Depth is the shorter of stack and scratch.
#[derive(Clone, Copy, Debug, PartialEq, Eq)]
pub struct Limits {
    pub budget: u64,
    pub depth: usize,
    pub child_entries: usize,
    pub nodes: usize,
    pub records: usize,
}

impl Limits {
    /// Room for every run that ends within so many units.
    pub fn budget_only(budget: u64) -> Limits {
        Limits {
            budget,
            depth: usize::MAX,
            child_entries: usize::MAX,
            nodes: usize::MAX,
            records: usize::MAX,
        }
    }

    /// The program's: "1,000,000 units, depth 512, 4,096 child entries, 1,024 nodes, 64 records".
    pub const PROGRAM: Limits = Limits {
        budget: 1_000_000,
        depth: 512,
        child_entries: 4_096,
        nodes: 1_024,
        records: 64,
    };
}
