//! Times the library and the customer's Rust driver side by side, in one process, on the same tables
//! and tokens: `cargo run --release --bin benchmark`.
//!
//! The table check is excluded on both sides (`chamrolak_drive`; the Rust has none). Buffers are not
//! cleared between runs on either side, and the Rust keeps its tree's vectors. The two take turns, so
//! that both meet the same noise, and the quickest run of each counts.
#![forbid(unsafe_code)]

use chamrolak::{check, drive, CallResult, Input, Rooms, TableSlices};
use chamrolak::{CHILD_BYTES, NODE_BYTES, RECORD_BYTES, REPORT_BYTES, SCRATCH_BYTES, STACK_BYTES};
use chamrolak_live::{NoTree, PlainDriver, SameTree};
use chamrolak_rules::automaton::{self, Merging};
use chamrolak_rules::bench::{numbered_tokens, table_a};
use chamrolak_rules::generate::RECIPE_GRAMMAR;
use chamrolak_rules::grammar::Grammar;
use chamrolak_rules::tables::{token_bytes, Payloads, Tables, Token};
use std::hint::black_box;
use std::time::{Duration, Instant};

const TOKENS: usize = 4_096;
const ROUNDS: usize = 200;
const ENTRIES: usize = 100_000;

fn main() {
    let subjects = [table_a_subject(), recipe_subject()];
    println!(
        "{TOKENS} tokens; the quickest of {ROUNDS} turns; buffers not cleared, table check excluded"
    );
    for subject in &subjects {
        for (name, kinds) in [
            ("no error", (subject.statements)(TOKENS)),
            ("every tenth token wrong", (subject.with_errors)(TOKENS)),
        ] {
            let times = subject.time(&kinds);
            let (states, units, marks) = (subject.tables.states, times.units, times.marks);
            println!(
                "{} ({states} states), {name}: {units} units, {marks} marks",
                subject.name
            );
            let library = times.library.as_secs_f64();
            println!("  library             {:7.1} us", 1e6 * library);
            for (name, time) in [("same tree", times.same_tree), ("no tree  ", times.no_tree)] {
                let rust = time.as_secs_f64();
                let ratio = library / rust;
                println!("  Rust with {name} {:7.1} us, ratio {ratio:.2}", 1e6 * rust);
            }
        }
    }
    for subject in &subjects {
        for (name, tokens_of) in [
            ("no error", subject.statements),
            ("every tenth token wrong", subject.with_errors),
        ] {
            println!("{}, {name}: nanoseconds for each token", subject.name);
            for count in [64, 128, 256, 512, 1_024, 2_048, 4_096] {
                let times = subject.time(&tokens_of(count));
                let each = |time: Duration| time.as_nanos() as f64 / count as f64;
                println!(
                    "  {count:5} tokens: library {:6.1}, Rust with same tree {:6.1}",
                    each(times.library),
                    each(times.same_tree)
                );
            }
        }
    }
}

/// Tables and lists of kinds for them, of any length.
struct Subject {
    name: &'static str,
    tables: Tables,
    payloads: Payloads,
    statements: fn(usize) -> Vec<u32>,
    with_errors: fn(usize) -> Vec<u32>,
}

struct Times {
    library: Duration,
    same_tree: Duration,
    no_tree: Duration,
    units: u32,
    marks: u32,
}

impl Subject {
    fn new(
        name: &'static str,
        tables: Tables,
        statements: fn(usize) -> Vec<u32>,
        with_errors: fn(usize) -> Vec<u32>,
    ) -> Subject {
        let payloads = tables.encode();
        assert_eq!(check(&TableSlices::from(&payloads)).number, 0);
        Subject {
            name,
            tables,
            payloads,
            statements,
            with_errors,
        }
    }

    fn time(&self, kinds: &[u32]) -> Times {
        let tokens = numbered_tokens(kinds);
        let rust = PlainDriver::new(&self.tables);
        let tree = SameTree::default();
        let mut library = Library::new(&self.payloads, &tokens);
        // Both do the same work, or the times say nothing.
        let accepted = rust.drive(&tokens, &tree);
        assert_eq!(library.drive().number == 1, accepted);
        let [_, _, _, _, units, nodes, children, marks, ..] = library.report_words();
        assert_eq!(
            [nodes, children, marks].map(|count| count as usize),
            tree.counts()
        );

        let mut times = Times {
            library: Duration::MAX,
            same_tree: Duration::MAX,
            no_tree: Duration::MAX,
            units,
            marks,
        };
        for _ in 0..ROUNDS {
            times.library = times.library.min(time(|| library.drive().number == 1));
            times.same_tree = times.same_tree.min(time(|| rust.drive(&tokens, &tree)));
            times.no_tree = times.no_tree.min(time(|| rust.drive(&tokens, &NoTree)));
        }
        times
    }
}

fn time(run: impl FnOnce() -> bool) -> Duration {
    let begin = Instant::now();
    black_box(run());
    begin.elapsed()
}

/// The library with rooms that are lent again and again.
struct Library<'a> {
    tables: TableSlices<'a>,
    tokens: Vec<u8>,
    rooms: [Vec<u8>; 5],
    report: [u8; REPORT_BYTES],
}

impl<'a> Library<'a> {
    fn new(payloads: &'a Payloads, tokens: &[Token]) -> Library<'a> {
        let bytes = [
            STACK_BYTES,
            SCRATCH_BYTES,
            NODE_BYTES,
            CHILD_BYTES,
            RECORD_BYTES,
        ];
        Library {
            tables: TableSlices::from(payloads),
            tokens: token_bytes(tokens),
            rooms: bytes.map(|bytes| vec![0; bytes * ENTRIES]),
            report: [0; REPORT_BYTES],
        }
    }

    fn drive(&mut self) -> CallResult {
        let input = Input {
            tokens: &self.tokens,
            start_location: 0,
            budget: u32::MAX,
        };
        let [stack, scratch, nodes, children, records] = &mut self.rooms;
        let rooms = Rooms {
            stack,
            scratch,
            nodes,
            children,
            records,
            report: &mut self.report,
        };
        drive(&self.tables, &input, rooms)
    }

    fn report_words(&self) -> [u32; 16] {
        let word = |at: usize| self.report[4 * at..][..4].try_into().expect("four bytes");
        std::array::from_fn(|at| u32::from_le_bytes(word(at)))
    }
}

fn table_a_subject() -> Subject {
    let statements = |count| [0, 1].into_iter().cycle().take(count).collect();
    // The tenth token would be `;`, and is `a`.
    let with_errors = |count| {
        let kind = |index| u32::from(index % 2 == 1 && index % 10 != 9);
        (0..count as u32).map(kind).collect()
    };
    Subject::new("table A", table_a(), statements, with_errors)
}

fn recipe_subject() -> Subject {
    let grammar = Grammar::from_text(RECIPE_GRAMMAR);
    let tables = automaton::tables(&grammar, Merging::Merged, 1).expect("no conflict");
    Subject::new("recipe grammar", tables, recipe, recipe_with_errors)
}

const STEPS: [&str; 6] = [
    "add number gram name ;",
    "mix name , name for number seconds ;",
    "heat name to number * ( name + number ) for number seconds ;",
    "let name = name ( number , number - name ) ;",
    "if name < number { add name ; } else { mix name ; } ;",
    "repeat number times { let name = number ; } ;",
];

/// Steps of the recipe grammar, exactly so many tokens.
fn recipe(count: usize) -> Vec<u32> {
    let names = Grammar::kind_names(RECIPE_GRAMMAR);
    let kind = |word: &str| names.iter().position(|name| *name == word);
    let kinds = |text: &str| -> Vec<u32> {
        let words = text.split_whitespace();
        words
            .map(|word| kind(word).expect("a kind") as u32)
            .collect()
    };
    let mut recipe = Vec::new();
    for step in STEPS.map(kinds).iter().cycle() {
        // The last step is as long as what is left, which must not be too short for it.
        if recipe.len() + step.len() + 6 > count {
            break;
        }
        recipe.extend(step);
    }
    let left = count - recipe.len();
    let (end, names) = match left % 2 {
        0 => ("for number seconds ;", (left - 6) / 2),
        _ => (";", (left - 3) / 2),
    };
    recipe.extend(kinds(&format!(
        "mix name {} {end}",
        ", name ".repeat(names)
    )));
    recipe
}

/// The same with every tenth token made `times`, which fits nowhere in these steps but once; a brace
/// stays, so that blocks stay what they are.
fn recipe_with_errors(count: usize) -> Vec<u32> {
    let names = Grammar::kind_names(RECIPE_GRAMMAR);
    let number = |word: &str| names.iter().position(|name| *name == word).expect("a kind") as u32;
    let (wrong, braces) = (number("times"), [number("{"), number("}")]);
    let mut kinds = recipe(count);
    for tenth in kinds.iter_mut().skip(9).step_by(10) {
        if !braces.contains(tenth) {
            *tenth = wrong;
        }
    }
    kinds
}
