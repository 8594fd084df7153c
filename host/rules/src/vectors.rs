//! The stored list: tables, inputs and the Rust driver's answers as plain text.
//!
//! Every line is a word and decimal numbers. `table N` and `case N TABLE` begin a section; below
//! them the same word may stand on several lines, and its numbers are one list. Lines that begin
//! with `#` say nothing.
//!
//! A table holds document 01's record kinds 1 to 7 as numbers, in the paper's order: `sizes`,
//! `actions` (a line for each state), `gotos` (likewise), `productions` (left side, length),
//! `right_sides`, `items` (four numbers each, a line for each
//! state), `first_sets` (33 bytes each).
//!
//! A case holds the input, `start`, `budget` and `tokens` (kind, start, end), and what came back:
//! `answer` (its number, then its fields in the paper's order with the root first), `units`, `nodes`
//! (8 words each), `child_entries` and `records` (16 words each).

use crate::answer::{Answer, Limit, Run};
use crate::tables::{bytes_of_words, words_of_bytes, Item, Payloads, Tables, Token};
use std::collections::BTreeMap;
use std::fmt::Write;

#[derive(Clone, Debug, Default, PartialEq, Eq)]
pub struct StoredList {
    pub tables: Vec<Tables>,
    pub cases: Vec<Case>,
}

#[derive(Clone, Debug, PartialEq, Eq)]
pub struct Case {
    /// The number of its table in the list.
    pub table: usize,
    pub start_location: u32,
    pub budget: u64,
    pub tokens: Vec<Token>,
    pub run: Run,
}

impl StoredList {
    pub fn to_text(&self) -> String {
        let mut text = String::new();
        push_tables(&mut text, &self.tables);
        for (number, case) in self.cases.iter().enumerate() {
            let _ = writeln!(text, "case {number} {}", case.table);
            push_case(&mut text, case);
        }
        text
    }

    /// Reads what `to_text` writes. Panics on any other text: the list is ours.
    pub fn from_text(text: &str) -> StoredList {
        let mut list = StoredList::default();
        for section in sections(text) {
            match section.word {
                "table" => list.tables.push(table_of(&section)),
                _ => list.cases.push(case_of(&section)),
            }
        }
        list
    }
}

pub(crate) fn push_tables(text: &mut String, list: &[Tables]) {
    for (number, tables) in list.iter().enumerate() {
        let _ = writeln!(text, "table {number}");
        push_table(text, tables);
    }
}

fn push_table(text: &mut String, tables: &Tables) {
    let payloads = tables.encode();
    let words = |bytes: &[u8]| words_of_bytes(bytes).expect("an even number of bytes");
    push_lines(text, "sizes", 6, words(&payloads.sizes));
    push_lines(text, "actions", tables.columns(), tables.actions.clone());
    push_lines(text, "gotos", tables.nonterminals(), tables.gotos.clone());
    push_lines(text, "productions", 2, words(&payloads.productions));
    for production in &tables.productions {
        push_lines(text, "right_sides", 32, production.right.clone());
    }
    for items in tables.items.chunk_by(|one, next| one.state == next.state) {
        let numbers = |item: &Item| [item.state, item.production, item.dot, item.lookahead];
        push_lines(text, "items", usize::MAX, items.iter().flat_map(numbers));
    }
    push_lines(text, "first_sets", 33, payloads.first_sets);
}

fn push_case(text: &mut String, case: &Case) {
    let Run {
        answer,
        units,
        nodes,
        child_entries,
        records,
    } = &case.run;
    let tokens = case.tokens.iter().map(|t| [t.kind, t.start, t.end]);
    let answer_line = std::iter::once(answer.number())
        .chain(answer.root())
        .chain(answer.fields());
    push_lines(text, "start", 1, [case.start_location]);
    push_lines(text, "budget", 1, [case.budget]);
    push_lines(text, "tokens", 3, tokens.flatten());
    push_lines(text, "answer", usize::MAX, answer_line);
    push_lines(text, "units", 1, [*units]);
    push_lines(text, "nodes", 8, nodes.concat());
    push_lines(text, "child_entries", 32, child_entries.clone());
    push_lines(text, "records", 16, records.concat());
}

/// The numbers behind the word, so many on each line.
pub(crate) fn push_lines<N: ToString>(
    text: &mut String,
    word: &str,
    per_line: usize,
    numbers: impl IntoIterator<Item = N>,
) {
    let numbers: Vec<String> = numbers.into_iter().map(|n| n.to_string()).collect();
    for line in numbers.chunks(per_line) {
        let _ = writeln!(text, "{word} {}", line.join(" "));
    }
}

/// The lines from one `table` or `case` to the next.
pub(crate) struct Section<'a> {
    pub word: &'a str,
    pub head: Vec<i64>,
    lists: BTreeMap<&'a str, Vec<i64>>,
}

impl Section<'_> {
    pub fn list(&self, word: &str) -> &[i64] {
        self.lists.get(word).map_or(&[], |list| list)
    }

    /// 16-bit numbers, signed or not.
    fn words(&self, word: &str) -> Vec<u8> {
        bytes_of_words(self.list(word).iter().map(|&number| number as u16))
    }

    fn numbers(&self, word: &str) -> Vec<u32> {
        self.list(word)
            .iter()
            .map(|&number| number as u32)
            .collect()
    }

    fn entries<const N: usize>(&self, word: &str) -> Vec<[u32; N]> {
        let numbers = self.numbers(word);
        let entries = numbers.chunks(N);
        entries
            .map(|entry| entry.try_into().expect("whole entries"))
            .collect()
    }
}

pub(crate) fn sections(text: &str) -> Vec<Section<'_>> {
    let mut sections: Vec<Section> = Vec::new();
    for line in text.lines().filter(|line| !line.starts_with('#')) {
        let mut words = line.split_whitespace();
        let Some(word) = words.next() else {
            continue;
        };
        let numbers = words.map(|number| number.parse().expect("a decimal number"));
        match word {
            "table" | "case" => sections.push(Section {
                word,
                head: numbers.collect(),
                lists: BTreeMap::new(),
            }),
            _ => {
                let section = sections
                    .last_mut()
                    .expect("a table or case begins the list");
                section.lists.entry(word).or_default().extend(numbers);
            }
        }
    }
    sections
}

pub(crate) fn table_of(section: &Section) -> Tables {
    let payloads = Payloads {
        sizes: section.words("sizes"),
        actions: section.words("actions"),
        gotos: section.words("gotos"),
        productions: section.words("productions"),
        right_sides: section.words("right_sides"),
        items: section.words("items"),
        first_sets: section
            .list("first_sets")
            .iter()
            .map(|&n| n as u8)
            .collect(),
    };
    payloads.decode().expect("lists that agree with the sizes")
}

fn case_of(section: &Section) -> Case {
    let token = |[kind, start, end]: [u32; 3]| Token { kind, start, end };
    let run = Run {
        answer: answer_of(&section.numbers("answer")),
        units: section.list("units")[0] as u64,
        nodes: section.entries("nodes"),
        child_entries: section.numbers("child_entries"),
        records: section.entries("records"),
    };
    Case {
        table: section.head[1] as usize,
        start_location: section.list("start")[0] as u32,
        budget: section.list("budget")[0] as u64,
        tokens: section.entries("tokens").into_iter().map(token).collect(),
        run,
    }
}

fn answer_of(line: &[u32]) -> Answer {
    match *line {
        [1, root] => Answer::Accepted { root },
        [2, root, token] => Answer::AcceptedEarly { root, token },
        [3, token, ref kinds @ ..] => Answer::UnrecognizedToken {
            token,
            expected: kinds.iter().copied().collect(),
        },
        [4, location, ref kinds @ ..] => Answer::UnrecognizedEnd {
            location,
            expected: kinds.iter().copied().collect(),
        },
        [5, token] => Answer::ExtraToken { token },
        [6, token] => Answer::TokenizerError { token },
        [19] => Answer::Stopped(Limit::Consultations),
        _ => panic!("no answer of the Rust driver: {line:?}"),
    }
}

#[cfg(test)]
mod tests {
    use super::*;
    use crate::answer::Limits;
    use crate::drive::drive;
    use crate::generate::{random_specimen, random_tokens};
    use crate::random::Random;

    #[test]
    fn a_written_list_reads_back() {
        let mut random = Random::new(5);
        let mut list = StoredList::default();
        for table in 0..40 {
            let specimen = random_specimen(&mut random);
            let tokens = random_tokens(&mut random, &specimen.grammar, 10);
            let budget = random.between(0, 300) as u64;
            let limits = Limits::budget_only(budget);
            let run = drive(&specimen.tables, &tokens, 9, &limits).run;
            list.tables.push(specimen.tables);
            list.cases.push(Case {
                table,
                start_location: 9,
                budget,
                tokens,
                run,
            });
        }
        assert_eq!(StoredList::from_text(&list.to_text()), list);
    }
}
