//! Document 01, "Tables": the seven lists of a call as bytes, and the numbers in them.

/// A call's tables: the payloads of record kinds 1 to 7 of the file. "In a call, table numbers are
/// 16-bit and a set is 33 bytes, as in the file."
#[derive(Clone, Debug, PartialEq, Eq)]
pub struct Payloads {
    pub sizes: Vec<u8>,
    pub actions: Vec<u8>,
    pub gotos: Vec<u8>,
    pub productions: Vec<u8>,
    pub right_sides: Vec<u8>,
    pub items: Vec<u8>,
    pub first_sets: Vec<u8>,
}

/// Bytes of one first set: the nullable flag, then 256 bits.
pub const FIRST_SET_BYTES: usize = 33;

/// The decoded tables. The counts of productions, items and nonterminals are those of their lists.
#[derive(Clone, Debug, PartialEq, Eq)]
pub struct Tables {
    pub states: u16,
    /// t, the number of user kinds.
    pub kinds: u16,
    /// The recovery flag.
    pub flag: u16,
    /// By state and column.
    pub actions: Vec<i16>,
    /// By state and nonterminal.
    pub gotos: Vec<i16>,
    pub productions: Vec<Production>,
    pub items: Vec<Item>,
    /// By nonterminal.
    pub first_sets: Vec<FirstSet>,
}

#[derive(Clone, Debug, PartialEq, Eq)]
pub struct Production {
    /// A nonterminal's number.
    pub left: u16,
    /// Symbols: 0..t are terminals, t+1+j is nonterminal j.
    pub right: Vec<u16>,
}

/// The order of the fields is the order of the list.
#[derive(Clone, Copy, Debug, PartialEq, Eq, PartialOrd, Ord, Hash)]
pub struct Item {
    pub state: u16,
    pub production: u16,
    pub dot: u16,
    /// A column: t is the error token, t+1 the end of input.
    pub lookahead: u16,
}

/// "A first set: nullable flag, then 32 bytes, kind k at bit k mod 8 of byte k/8."
#[derive(Clone, Debug, Default, PartialEq, Eq)]
pub struct FirstSet {
    pub nullable: u8,
    pub bits: [u8; 32],
}

impl FirstSet {
    pub fn contains(&self, kind: usize) -> bool {
        self.bits[kind / 8] >> (kind % 8) & 1 == 1
    }

    pub fn insert(&mut self, kind: usize) {
        self.bits[kind / 8] |= 1 << (kind % 8);
    }

    pub fn is_nullable(&self) -> bool {
        self.nullable == 1
    }
}

/// What an action cell says: "Cell i > 0 shifts to state i-1; i < 0 reduces production -(i+1); 0 is
/// error."
#[derive(Clone, Copy, Debug, PartialEq, Eq)]
pub enum Cell {
    Error,
    Shift(usize),
    Reduce(usize),
}

impl Cell {
    pub fn decode(cell: i16) -> Cell {
        match i32::from(cell) {
            0 => Cell::Error,
            i if i > 0 => Cell::Shift(i as usize - 1),
            i => Cell::Reduce(-(i + 1) as usize),
        }
    }
}

/// What a number on a right side stands for.
#[derive(Clone, Copy, Debug, PartialEq, Eq)]
pub enum Symbol {
    Terminal(usize),
    Nonterminal(usize),
}

/// What a run reads of its tables.
pub trait Readers {
    /// t, the number of user kinds; also the error token's column.
    fn t(&self) -> usize;
    fn recovers(&self) -> bool;
    fn action(&self, state: usize, column: usize) -> Cell;
    /// The state that a reduction to this nonterminal goes to.
    fn goto_state(&self, state: usize, nonterminal: usize) -> usize;
    /// A production's left side, and the number of its symbols.
    fn production(&self, number: usize) -> (usize, usize);
}

/// Of tables that pass the check: a place outside of them is never read.
impl Readers for Tables {
    fn t(&self) -> usize {
        self.t()
    }

    fn recovers(&self) -> bool {
        self.flag == 1
    }

    fn action(&self, state: usize, column: usize) -> Cell {
        self.action(state, column)
    }

    fn goto_state(&self, state: usize, nonterminal: usize) -> usize {
        let target = self.goto(state, nonterminal);
        target.expect("tables that pass the check have every goto that is needed")
    }

    fn production(&self, number: usize) -> (usize, usize) {
        let production = &self.productions[number];
        (production.left.into(), production.right.len())
    }
}

impl Tables {
    /// t as an index; also the error token's column and symbol.
    pub fn t(&self) -> usize {
        usize::from(self.kinds)
    }

    pub fn columns(&self) -> usize {
        self.t() + 2
    }

    pub fn error_column(&self) -> usize {
        self.t()
    }

    pub fn end_column(&self) -> usize {
        self.t() + 1
    }

    pub fn nonterminals(&self) -> usize {
        self.first_sets.len()
    }

    pub fn action(&self, state: usize, column: usize) -> Cell {
        Cell::decode(self.actions[state * self.columns() + column])
    }

    /// "g > 0 goes to g-1, 0 is none."
    pub fn goto(&self, state: usize, nonterminal: usize) -> Option<usize> {
        let cell = self.gotos[state * self.nonterminals() + nonterminal];
        (cell > 0).then(|| cell as usize - 1)
    }

    pub fn symbol(&self, number: u16) -> Symbol {
        let number = usize::from(number);
        match number.checked_sub(self.t() + 1) {
            None => Symbol::Terminal(number),
            Some(nonterminal) => Symbol::Nonterminal(nonterminal),
        }
    }

    /// The seven payloads of these numbers.
    pub fn encode(&self) -> Payloads {
        let sizes = [
            self.states,
            self.kinds,
            self.first_sets.len() as u16,
            self.productions.len() as u16,
            self.items.len() as u16,
            self.flag,
        ];
        Payloads {
            sizes: bytes_of_words(sizes),
            actions: bytes_of_words(self.actions.iter().map(|&cell| cell as u16)),
            gotos: bytes_of_words(self.gotos.iter().map(|&cell| cell as u16)),
            productions: bytes_of_words(
                (self.productions.iter()).flat_map(|p| [p.left, p.right.len() as u16]),
            ),
            right_sides: bytes_of_words(self.productions.iter().flat_map(|p| p.right.clone())),
            items: bytes_of_words(
                (self.items.iter()).flat_map(|i| [i.state, i.production, i.dot, i.lookahead]),
            ),
            first_sets: (self.first_sets.iter())
                .flat_map(|set| std::iter::once(set.nullable).chain(set.bits))
                .collect(),
        }
    }
}

impl Payloads {
    /// The lists in the paper's order.
    pub fn lists(&self) -> [&Vec<u8>; 7] {
        [
            &self.sizes,
            &self.actions,
            &self.gotos,
            &self.productions,
            &self.right_sides,
            &self.items,
            &self.first_sets,
        ]
    }

    pub fn lists_mut(&mut self) -> [&mut Vec<u8>; 7] {
        [
            &mut self.sizes,
            &mut self.actions,
            &mut self.gotos,
            &mut self.productions,
            &mut self.right_sides,
            &mut self.items,
            &mut self.first_sets,
        ]
    }

    /// The numbers in these bytes, or none where "a list's length disagrees with the sizes".
    /// Whether the numbers are in range is the check's to say.
    pub fn decode(&self) -> Option<Tables> {
        let sizes = words_of_bytes(&self.sizes)?;
        let &[states, kinds, nonterminals, productions, items, flag] = sizes.as_slice() else {
            return None;
        };
        let columns = usize::from(kinds) + 2;
        let tables = Tables {
            states,
            kinds,
            flag,
            actions: signed_words_of_bytes(&self.actions)?,
            gotos: signed_words_of_bytes(&self.gotos)?,
            productions: self.decode_productions()?,
            items: self.decode_items()?,
            first_sets: self.decode_first_sets()?,
        };
        let lengths_agree = tables.actions.len() == usize::from(states) * columns
            && tables.gotos.len() == usize::from(states) * usize::from(nonterminals)
            && tables.productions.len() == usize::from(productions)
            && tables.items.len() == usize::from(items)
            && tables.first_sets.len() == usize::from(nonterminals);
        lengths_agree.then_some(tables)
    }

    fn decode_productions(&self) -> Option<Vec<Production>> {
        let symbols = words_of_bytes(&self.right_sides)?;
        let mut rest = symbols.as_slice();
        let mut productions = Vec::new();
        for head in entries_of::<2>(&self.productions)? {
            let right = rest.get(..usize::from(head[1]))?.to_vec();
            rest = &rest[right.len()..];
            productions.push(Production {
                left: head[0],
                right,
            });
        }
        rest.is_empty().then_some(productions)
    }

    fn decode_items(&self) -> Option<Vec<Item>> {
        let entries = entries_of::<4>(&self.items)?;
        let item = |[state, production, dot, lookahead]: [u16; 4]| Item {
            state,
            production,
            dot,
            lookahead,
        };
        Some(entries.into_iter().map(item).collect())
    }

    fn decode_first_sets(&self) -> Option<Vec<FirstSet>> {
        let sets = self.first_sets.chunks_exact(FIRST_SET_BYTES);
        let whole = sets.remainder().is_empty();
        let set = |bytes: &[u8]| FirstSet {
            nullable: bytes[0],
            bits: bytes[1..].try_into().expect("32 bytes follow the flag"),
        };
        whole.then(|| sets.map(set).collect())
    }
}

/// One token of a call. Its kind is a 32-bit word there: refusal 18 judges kinds over 65,535.
#[derive(Clone, Copy, Debug, PartialEq, Eq)]
pub struct Token {
    pub kind: u32,
    pub start: u32,
    pub end: u32,
}

/// A token list as a call takes it: triples of 32-bit words.
pub fn token_bytes(tokens: &[Token]) -> Vec<u8> {
    (tokens.iter())
        .flat_map(|token| [token.kind, token.start, token.end])
        .flat_map(u32::to_le_bytes)
        .collect()
}

/// Little-endian 16-bit numbers, or none where a byte is left over.
pub fn words_of_bytes(bytes: &[u8]) -> Option<Vec<u16>> {
    let pairs = bytes.chunks_exact(2);
    let whole = pairs.remainder().is_empty();
    whole.then(|| pairs.map(|b| u16::from_le_bytes([b[0], b[1]])).collect())
}

pub fn bytes_of_words(words: impl IntoIterator<Item = u16>) -> Vec<u8> {
    words.into_iter().flat_map(u16::to_le_bytes).collect()
}

fn signed_words_of_bytes(bytes: &[u8]) -> Option<Vec<i16>> {
    let words = words_of_bytes(bytes)?;
    Some(words.into_iter().map(|word| word as i16).collect())
}

/// Entries of N numbers each, or none where an entry is not whole.
fn entries_of<const N: usize>(bytes: &[u8]) -> Option<Vec<[u16; N]>> {
    let words = words_of_bytes(bytes)?;
    let entries = words.chunks_exact(N);
    let whole = entries.remainder().is_empty();
    whole.then(|| {
        entries
            .map(|e| e.try_into().expect("N numbers each"))
            .collect()
    })
}

#[cfg(test)]
mod tests {
    use super::*;

    #[test]
    fn cells_at_their_ends() {
        assert_eq!(Cell::decode(0), Cell::Error);
        assert_eq!(Cell::decode(1), Cell::Shift(0));
        assert_eq!(Cell::decode(i16::MAX), Cell::Shift(32766));
        assert_eq!(Cell::decode(-1), Cell::Reduce(0));
        assert_eq!(Cell::decode(i16::MIN), Cell::Reduce(32767));
    }

    #[test]
    fn encoded_tables_decode_to_themselves() {
        let tables = crate::bench::table_a();
        assert_eq!(tables.encode().decode(), Some(tables));
    }

    #[test]
    fn lists_of_a_wrong_length_do_not_decode() {
        let payloads = crate::bench::table_a().encode();
        let longer = |change: fn(&mut Payloads) -> &mut Vec<u8>, more: usize| {
            let mut longer = payloads.clone();
            change(&mut longer).extend(vec![0; more]);
            longer.decode()
        };
        assert_eq!(longer(|p| &mut p.sizes, 2), None);
        assert_eq!(longer(|p| &mut p.actions, 1), None);
        assert_eq!(longer(|p| &mut p.actions, 2), None);
        assert_eq!(longer(|p| &mut p.gotos, 2), None);
        assert_eq!(longer(|p| &mut p.productions, 4), None);
        assert_eq!(longer(|p| &mut p.right_sides, 2), None);
        assert_eq!(longer(|p| &mut p.items, 2), None);
        assert_eq!(longer(|p| &mut p.items, 8), None);
        assert_eq!(longer(|p| &mut p.first_sets, 33), None);
    }
}
