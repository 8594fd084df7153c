//! Document 01, "The file": the record file, its refusals 30 to 33, and the program's printed lines.

use crate::answer::{
    Expected, Limits, Node, Record, Refusal, Run, NODE_MARK, NODE_PRODUCTION, NODE_TOKEN,
};
use crate::tables::{token_bytes, Payloads, Tables, Token, FIRST_SET_BYTES};
use std::fmt::Write;

/// "A program reads standard input, at most 65,536 bytes."
pub const MOST_FILE_BYTES: usize = 65_536;

/// Kinds from here up are skipped.
pub const FIRST_SKIPPED_KIND: u16 = 32_768;

const HEAD_BYTES: usize = 6;
const TOKEN_KIND: u16 = 8;

/// One record: "length (4 bytes, payload only), kind (2 bytes), payload, little-endian".
pub fn record(kind: u16, payload: &[u8]) -> Vec<u8> {
    let mut bytes = (payload.len() as u32).to_le_bytes().to_vec();
    bytes.extend(kind.to_le_bytes());
    bytes.extend(payload);
    bytes
}

/// The file of these tables and tokens, kinds 1 to 8. In the file a token's kind takes 2 bytes.
pub fn write_file(payloads: &Payloads, tokens: &[Token]) -> Vec<u8> {
    let tables = [
        &payloads.sizes,
        &payloads.actions,
        &payloads.gotos,
        &payloads.productions,
        &payloads.right_sides,
        &payloads.items,
        &payloads.first_sets,
    ];
    let mut file: Vec<u8> = (1..)
        .zip(tables)
        .flat_map(|(kind, payload)| record(kind, payload))
        .collect();
    let mut token_payload = Vec::new();
    for token in tokens {
        token_payload.extend((token.kind as u16).to_le_bytes());
        token_payload.extend(token.start.to_le_bytes());
        token_payload.extend(token.end.to_le_bytes());
    }
    file.extend(record(TOKEN_KIND, &token_payload));
    file
}

/// "Kinds 1 to 8 once each, ascending"; refusals "33 too long, 30 cut record, 31 kind wrong or
/// missing, 32 length wrong, in that order record by record; place the record's first byte (0 for
/// 33, file length for a missing kind)".
pub fn read_file(file: &[u8]) -> Result<(Payloads, Vec<Token>), Refusal> {
    let refused = |number, place| Err(Refusal { number, place });
    if file.len() > MOST_FILE_BYTES {
        return refused(33, 0);
    }
    let mut found: Vec<&[u8]> = Vec::new();
    let mut place = 0;
    while place < file.len() {
        let Some((kind, payload)) = whole_record(&file[place..]) else {
            return refused(30, place);
        };
        if kind < FIRST_SKIPPED_KIND {
            let next = found.len() as u16 + 1;
            if kind != next || kind > TOKEN_KIND {
                return refused(31, place);
            }
            if !length_is_right(kind, payload.len()) {
                return refused(32, place);
            }
            found.push(payload);
        }
        place += HEAD_BYTES + payload.len();
    }
    let [sizes, actions, gotos, productions, right_sides, items, first_sets, tokens] = found[..]
    else {
        return refused(31, file.len());
    };
    let payloads = Payloads {
        sizes: sizes.to_vec(),
        actions: actions.to_vec(),
        gotos: gotos.to_vec(),
        productions: productions.to_vec(),
        right_sides: right_sides.to_vec(),
        items: items.to_vec(),
        first_sets: first_sets.to_vec(),
    };
    Ok((payloads, tokens.chunks(10).map(file_token).collect()))
}

/// The kind and payload of the record that these bytes begin with, or none where it is cut.
fn whole_record(bytes: &[u8]) -> Option<(u16, &[u8])> {
    let (length, rest) = bytes.split_first_chunk::<4>()?;
    let (kind, rest) = rest.split_first_chunk::<2>()?;
    let payload = rest.get(..u32::from_le_bytes(*length) as usize)?;
    Some((u16::from_le_bytes(*kind), payload))
}

/// "Kind 1: not 12 bytes; else not whole entries, of 2 bytes in kinds 2, 3 and 5, 4 in kind 4, 8 in
/// 6, 33 in 7, 10 in 8."
fn length_is_right(kind: u16, length: usize) -> bool {
    let entry = match kind {
        1 => return length == 12,
        4 => 4,
        6 => 8,
        7 => FIRST_SET_BYTES,
        8 => 10,
        _ => 2,
    };
    length.is_multiple_of(entry)
}

fn file_token(bytes: &[u8]) -> Token {
    let location = |at: usize| u32::from_le_bytes(bytes[at..at + 4].try_into().expect("4 bytes"));
    Token {
        kind: u16::from_le_bytes([bytes[0], bytes[1]]).into(),
        start: location(2),
        end: location(6),
    }
}

/// The whole output of the program `recipe` on these bytes.
pub fn recipe(file: &[u8]) -> String {
    let outcome = read_file(file).and_then(|(payloads, tokens)| {
        let run = crate::call(&payloads, &token_bytes(&tokens), 0, &Limits::PROGRAM)?.run;
        let tables = payloads.decode().expect("a run's tables decode");
        Ok(printed_run(&tables, &run))
    });
    outcome.unwrap_or_else(|refusal| format!("refused {} {}\n", refusal.number, refusal.place))
}

/// "The answer line goes on with the answer's fields in the order above, in decimal, one space
/// between, root left out"; "of the counts only the units are printed, on the next line"; "1 and 2
/// print the tree; all records follow".
pub fn printed_run(tables: &Tables, run: &Run) -> String {
    let mut lines = format!("answer {}", run.answer.number());
    push_numbers(&mut lines, run.answer.fields());
    let _ = writeln!(lines, "\nunits {}", run.units);
    if let Some(root) = run.answer.root() {
        let tree = printed_tree(tables, &run.nodes, &run.child_entries, root);
        let _ = writeln!(lines, "tree {tree}");
    }
    for (number, record) in run.records.iter().enumerate() {
        lines += &printed_mark(number, record);
    }
    lines
}

/// `[N: ..]` prints the production's left side N; `tN` is token N and `!N` the mark of record N.
fn printed_tree(tables: &Tables, nodes: &[Node], child_entries: &[u32], root: u32) -> String {
    let [kind, number, first_child, child_count, ..] = nodes[root as usize];
    match kind {
        NODE_TOKEN => format!("t{number}"),
        NODE_MARK => format!("!{number}"),
        NODE_PRODUCTION => {
            let left = tables.productions[number as usize].left;
            let children: Vec<String> = (first_child..first_child + child_count)
                .map(|entry| child_entries[entry as usize])
                .map(|child| printed_tree(tables, nodes, child_entries, child))
                .collect();
            format!("[{left}: {}]", children.join(", "))
        }
        _ => unreachable!("a node's kind is 0, 1 or 2"),
    }
}

fn printed_mark(number: usize, record: &Record) -> String {
    let [error, at, first, after_last, dropped, start, end, _count, bits @ ..] = *record;
    let mut line = format!(
        "mark {number} tokens {first} {after_last} dropped {dropped} span {start} {end} \
         error {error} at {at} expected"
    );
    push_numbers(&mut line, Expected(bits).kinds());
    line.push('\n');
    line
}

fn push_numbers(line: &mut String, numbers: Vec<u32>) {
    for number in numbers {
        let _ = write!(line, " {number}");
    }
}

#[cfg(test)]
mod tests {
    use super::*;
    use crate::bench::{
        numbered_tokens, table_a, table_a_that_ends_early, table_a_without_error_production,
    };

    fn file_of(kinds: &[u32]) -> Vec<u8> {
        write_file(&table_a().encode(), &numbered_tokens(kinds))
    }

    #[test]
    fn the_whole_output_of_the_paper() {
        assert_eq!(
            recipe(&file_of(&[0, 0, 1])),
            "answer 1\n\
             units 16\n\
             tree [1: [1: ], [2: !0], t2]\n\
             mark 0 tokens 0 2 dropped 1 span 0 2 error 3 at 1 expected 1\n"
        );
        assert!(recipe(&file_of(&[0])).starts_with("answer 4 1 1\nunits 8\n"));
    }

    #[test]
    fn the_lines_of_other_answers() {
        let printed = |tables: Tables, kinds: &[u32]| {
            recipe(&write_file(&tables.encode(), &numbered_tokens(kinds)))
        };
        let early = printed(table_a_without_error_production(), &[0, 1, 1]);
        assert_eq!(early, "answer 2 2\nunits 7\ntree [1: [1: ], [2: t0], t1]\n");
        let extra = printed(table_a_that_ends_early(), &[0, 1, 1]);
        assert_eq!(extra, "answer 5 2\nunits 6\n");
        assert_eq!(printed(table_a(), &[65_535]), "answer 6 0\nunits 0\n");
        // 255 statements of 4 nodes and 4 units behind the first empty list; the next one's last
        // node is the 1,025th.
        let long = printed(table_a(), &[0, 1].repeat(300));
        assert_eq!(long, "answer 22\nunits 1025\n");
        let marks = printed(table_a(), &[1].repeat(100));
        assert!(marks.starts_with("answer 23\nunits "));
        assert_eq!(marks.lines().count(), 2 + 64);
    }

    #[test]
    fn an_empty_expected_list_leaves_no_space_behind() {
        let run = Run {
            answer: crate::answer::Answer::UnrecognizedEnd {
                location: 7,
                expected: Expected::default(),
            },
            units: 3,
            nodes: vec![],
            child_entries: vec![],
            records: vec![[4, 7, 0, 0, 0, 1, 2, 0, 0, 0, 0, 0, 0, 0, 0, 0]],
        };
        assert_eq!(
            printed_run(&table_a(), &run),
            "answer 4 7\nunits 3\n\
             mark 0 tokens 0 0 dropped 0 span 1 2 error 4 at 7 expected\n"
        );
    }

    #[test]
    fn a_written_file_reads_back() {
        let payloads = table_a().encode();
        let tokens = numbered_tokens(&[0, 65_535, 7]);
        let file = write_file(&payloads, &tokens);
        assert_eq!(read_file(&file), Ok((payloads, tokens)));
    }

    #[test]
    fn refusals_of_a_file() {
        let refused = |file: &[u8], number: u32, place: usize| {
            assert_eq!(recipe(file), format!("refused {number} {place}\n"));
        };
        let good = file_of(&[0, 1]);
        let last = good.len() - (6 + 20);
        refused(&[], 31, 0);
        refused(&vec![0; 65_537], 33, 0);
        refused(&vec![0; 65_536], 31, 0);
        // A cut record: in its head, in its payload.
        refused(&good[..5], 30, 0);
        refused(&good[..last + 5], 30, last);
        refused(&good[..good.len() - 1], 30, last);
        // A missing kind at the file's end; a kind that comes twice, too late, or is not known.
        refused(&good[..last], 31, last);
        let and = |more: Vec<u8>| [good.clone(), more].concat();
        refused(&and(record(8, &[])), 31, good.len());
        refused(&and(record(0, &[])), 31, good.len());
        refused(&and(record(9, &[])), 31, good.len());
        refused(&and(record(32_767, &[])), 31, good.len());
        refused(&and(vec![1, 0, 0, 0, 9, 0]), 30, good.len());
        refused(&record(2, &[]), 31, 0);
        // Lengths.
        refused(&record(1, &[0; 13]), 32, 0);
        let wrong_tokens = [good[..last].to_vec(), record(8, &[0; 12])].concat();
        refused(&wrong_tokens, 32, last);
        // A wrong number of entries is the check's.
        let no_sets = [record(1, &[0; 12])]
            .into_iter()
            .chain((2..=8).map(|kind| record(kind, &[])));
        refused(&no_sets.flatten().collect::<Vec<_>>(), 10, 0);
    }

    #[test]
    fn skipped_records_may_stand_anywhere_but_not_be_cut() {
        let good = file_of(&[0, 1]);
        for skipped in [32_768, 65_535] {
            let around = [
                record(skipped, &[1, 2, 3]),
                good.clone(),
                record(skipped, &[]),
            ]
            .concat();
            assert_eq!(recipe(&around), recipe(&good));
            let cut = [good.clone(), record(skipped, &[1])[..6].to_vec()].concat();
            assert_eq!(recipe(&cut), format!("refused 30 {}\n", good.len()));
        }
    }

    #[test]
    fn too_many_tokens_in_a_file_are_18() {
        assert_eq!(recipe(&file_of(&[7; 4_097])), "refused 18 0\n");
        assert!(recipe(&file_of(&[7; 4_096])).starts_with("answer 3 0"));
    }
}
