//! Document 01, "Bench examples": table A, its variants, and what each example must give.

use crate::answer::Limits;
use crate::tables::{FirstSet, Item, Production, Tables, Token};

/// "Table A: kinds a, `;` (t = 2); nonterminals S, L, E; p0 S to L, p1 L to nothing, p2 L to L E `;`,
/// p3 E to a, p4 E to error." Columns and symbols: a 0, `;` 1, error 2; end is column 3, and S, L, E
/// are symbols 3, 4, 5.
pub fn table_a() -> Tables {
    let production = |left, right: &[u16]| Production {
        left,
        right: right.to_vec(),
    };
    Tables {
        states: 6,
        kinds: 2,
        flag: 1,
        #[rustfmt::skip]
        actions: vec![
            -2,  0, -2, -2,
             4,  0,  5, -1,
             0,  6,  0,  0,
             0, -4,  0,  0,
             0, -5,  0,  0,
            -3,  0, -3, -3,
        ],
        #[rustfmt::skip]
        gotos: vec![
            0, 2, 0,
            0, 0, 3,
            0, 0, 0,
            0, 0, 0,
            0, 0, 0,
            0, 0, 0,
        ],
        productions: vec![
            production(0, &[4]),
            production(1, &[]),
            production(1, &[4, 5, 1]),
            production(2, &[0]),
            production(2, &[2]),
        ],
        items: table_a_items(),
        first_sets: vec![
            first_set(true, &[0, 2]),
            first_set(true, &[0, 2]),
            first_set(false, &[0, 2]),
        ],
    }
}

/// "It has 21 items": the canonical LR(1) items of these states.
fn table_a_items() -> Vec<Item> {
    /// What can stand behind an L: a, error, end.
    const AFTER_L: &[u16] = &[0, 2, 3];
    let groups: [(u16, u16, u16, &'static [u16]); 11] = [
        (0, 0, 0, &[3]),
        (0, 1, 0, AFTER_L),
        (0, 2, 0, AFTER_L),
        (1, 0, 1, &[3]),
        (1, 2, 1, AFTER_L),
        (1, 3, 0, &[1]),
        (1, 4, 0, &[1]),
        (2, 2, 2, AFTER_L),
        (3, 3, 1, &[1]),
        (4, 4, 1, &[1]),
        (5, 2, 3, AFTER_L),
    ];
    let items_of = |(state, production, dot, lookaheads): (u16, u16, u16, &'static [u16])| {
        lookaheads.iter().map(move |&lookahead| Item {
            state,
            production,
            dot,
            lookahead,
        })
    };
    groups.into_iter().flat_map(items_of).collect()
}

fn first_set(nullable: bool, kinds: &[usize]) -> FirstSet {
    let mut set = FirstSet {
        nullable: nullable.into(),
        ..FirstSet::default()
    };
    kinds.iter().for_each(|&kind| set.insert(kind));
    set
}

/// "s1 and s5 `;` cells made -1 and -3".
pub fn table_a_that_ends_early() -> Tables {
    let mut tables = table_a();
    set_action(&mut tables, 1, 1, -1);
    set_action(&mut tables, 5, 1, -3);
    tables
}

/// "p4 and its items gone, s4 row 0, error no longer in first sets or lookaheads, s1 error cell -1".
pub fn table_a_without_error_production() -> Tables {
    let mut tables = table_a();
    tables.productions.pop();
    let error = tables.kinds;
    (tables.items).retain(|item| item.production != 4 && item.lookahead != error);
    (0..4).for_each(|column| set_action(&mut tables, 4, column, 0));
    set_action(&mut tables, 1, 2, -1);
    tables.first_sets = vec![
        first_set(true, &[0]),
        first_set(true, &[0]),
        first_set(false, &[0]),
    ];
    tables
}

pub fn set_action(tables: &mut Tables, state: usize, column: usize, cell: i16) {
    let columns = tables.columns();
    tables.actions[state * columns + column] = cell;
}

/// "Token n spans n to n+1."
pub fn numbered_tokens(kinds: &[u32]) -> Vec<Token> {
    let token = |(n, &kind): (u32, &u32)| Token {
        kind,
        start: n,
        end: n + 1,
    };
    (0..).zip(kinds).map(token).collect()
}

/// One line of the paper: tables, kinds, and the answer's number, fields and units.
pub struct Example {
    pub name: &'static str,
    pub tables: Tables,
    pub kinds: &'static [u32],
    pub limits: Limits,
    pub answer: u32,
    /// Without the root, as in the program's output.
    pub fields: &'static [u32],
    pub units: u64,
}

/// The examples that run (the others are refused, and stand with the tests below).
pub fn examples() -> Vec<Example> {
    let no_limit = Limits::budget_only(u64::MAX);
    let example = |name, kinds, answer, fields, units| Example {
        name,
        tables: table_a(),
        kinds,
        limits: no_limit,
        answer,
        fields,
        units,
    };
    let limited = |name, kinds, limits, answer, units| Example {
        limits,
        ..example(name, kinds, answer, &[], units)
    };
    let with = |change: fn(&mut Limits)| {
        let mut limits = no_limit;
        change(&mut limits);
        limits
    };
    vec![
        example("empty", &[], 1, &[], 2),
        example("a ;", &[0, 1], 1, &[], 6),
        limited("a ;, budget 5", &[0, 1], with(|l| l.budget = 5), 19, 5),
        limited("a ;, depth 3", &[0, 1], with(|l| l.depth = 3), 20, 4),
        limited(
            "a ;, 3 child entries",
            &[0, 1],
            with(|l| l.child_entries = 3),
            21,
            5,
        ),
        limited("a ;, 4 nodes", &[0, 1], with(|l| l.nodes = 4), 22, 5),
        example(";", &[1], 1, &[], 10),
        limited(";, no record room", &[1], with(|l| l.records = 0), 23, 6),
        example("a a ;", &[0, 0, 1], 1, &[], 16),
        example("a", &[0], 4, &[1, 1], 8),
        example("a a", &[0, 0], 3, &[1, 1], 12),
        example("a 7", &[0, 7], 3, &[1, 1], 2),
        // While dropping: the expected kinds are those of state 3 (a has been shifted).
        example("a a 7", &[0, 0, 7], 3, &[2, 1], 8),
        Example {
            tables: table_a_that_ends_early(),
            ..example("a ; ; where ; ends", &[0, 1, 1], 5, &[2], 6)
        },
        Example {
            tables: table_a_without_error_production(),
            ..example("a ; ; without p4", &[0, 1, 1], 2, &[2], 7)
        },
    ]
}

#[cfg(test)]
mod tests {
    use super::*;
    use crate::answer::Refusal;
    use crate::check::check;
    use crate::drive::{drive, Driven};
    use crate::tables::token_bytes;

    #[test]
    fn every_example_gives_the_papers_answer() {
        for example in examples() {
            let tokens = numbered_tokens(example.kinds);
            let payloads = example.tables.encode();
            let run = crate::call(&payloads, &token_bytes(&tokens), 0, &example.limits)
                .expect(example.name)
                .run;
            assert_eq!(run.answer.number(), example.answer, "{}", example.name);
            assert_eq!(run.answer.fields(), example.fields, "{}", example.name);
            assert_eq!(run.units, example.units, "{}", example.name);
        }
    }

    fn unlimited(kinds: &[u32]) -> Driven {
        let limits = Limits::budget_only(u64::MAX);
        drive(&table_a(), &numbered_tokens(kinds), 0, &limits)
    }

    #[test]
    fn counts_depth_and_words_of_the_papers_examples() {
        assert_eq!(table_a().items.len(), 21);

        let empty = unlimited(&[]).run;
        assert_eq!(empty.nodes, [[2, 1, 0, 0, 0, 0, 0, 0]]);

        let statement = unlimited(&[0, 1]);
        assert_eq!(statement.run.nodes.len(), 5);
        assert_eq!(statement.run.child_entries, [1, 0, 2, 3]);
        assert_eq!(statement.deepest, 4);

        let semicolon = unlimited(&[1]).run;
        let mark = semicolon.records[0];
        assert_eq!(mark[..7], [3, 0, 0, 0, 0, 0, 0], "mark empty, span 0 to 0");
    }

    #[test]
    fn depth_0_is_20_at_unit_0_before_all_else() {
        let limits = Limits {
            depth: 0,
            ..Limits::budget_only(0)
        };
        let run = drive(&table_a(), &numbered_tokens(&[65_535]), 0, &limits).run;
        assert_eq!((run.answer.number(), run.units), (20, 0));
        assert!(run.nodes.is_empty() && run.child_entries.is_empty() && run.records.is_empty());
    }

    #[test]
    fn a_bad_kind_behind_the_last_paid_look_is_not_19() {
        let answer = |kinds: &[u32], budget| {
            let limits = Limits::budget_only(budget);
            let run = drive(&table_a(), &numbered_tokens(kinds), 0, &limits).run;
            (run.answer.number(), run.units)
        };
        assert_eq!(answer(&[7], 0), (3, 0));
        assert_eq!(answer(&[65_535], 0), (6, 0));
        assert_eq!(answer(&[0, 65_535], 2), (6, 2));
        assert_eq!(answer(&[0, 1], 2), (19, 2));
    }

    #[test]
    fn the_papers_refusals() {
        let refused = |change: fn(&mut Tables)| {
            let mut tables = table_a();
            change(&mut tables);
            let Refusal { number, place } = check(&tables.encode()).unwrap_err();
            (number, place)
        };
        assert_eq!(refused(|t| set_action(t, 3, 1, 0)), (17, 16));
        assert_eq!(refused(|t| set_action(t, 3, 1, -5)), (16, 13));
        assert_eq!(refused(|t| t.items.truncate(20)), (17, 15));
        assert_eq!(refused(|t| set_action(t, 1, 3, 4)), (11, 7));
    }
}
