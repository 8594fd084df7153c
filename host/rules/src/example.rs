//! The example recipe language of examples/, and its tables as a C header.

use crate::automaton::{self, Merging};
use crate::check::check;
use crate::generate::damaged_tables;
use crate::grammar::Grammar;
use crate::random::Random;
use crate::tables::{Payloads, Tables};
use std::fmt::Write;

/// What each material shows as, a line each, and regions of the scan with lines of their own. A line
/// with an error is given up as a whole, but for one inside the brackets of a mixed colour.
const GRAMMAR: &str = "
    Start: Recipe
    Recipe: | Recipe Line
    Line: Show newline | Region newline | title word newline | error newline
    Region: region word { newline Recipe }
    Show: Material Densities Looks
    Material: linen | resin | bone
    Densities: from number to number | above number | below number
    Looks: | Looks Look
    Look: colour Colour | opacity number | hidden
    Colour: white | amber | ivory | red | mix ( Colour , Colour ) | mix ( error )
";

/// The productions' names in C, by number.
const PRODUCTION_NAMES: [&str; 26] = [
    "START",
    "NO_LINES",
    "LINES",
    "SHOW_LINE",
    "REGION_LINE",
    "TITLE_LINE",
    "BAD_LINE",
    "REGION",
    "SHOW",
    "LINEN",
    "RESIN",
    "BONE",
    "FROM_TO",
    "ABOVE",
    "BELOW",
    "NO_LOOKS",
    "LOOKS",
    "COLOUR",
    "OPACITY",
    "HIDDEN",
    "WHITE",
    "AMBER",
    "IVORY",
    "RED",
    "MIX",
    "BAD_MIX",
];

/// The header that stands in examples/.
pub fn header() -> String {
    header_of(&tables_of(GRAMMAR).encode())
}

/// The same header with tables that have a fault, so that the example's tests can show what a host
/// says to it. 10 to 17: tables that the check refuses with that number. 5: a `}` too many ends the
/// recipe. 2: every error between lines ends it.
pub fn header_with_fault(number: u32) -> Option<String> {
    let tables = tables_of(GRAMMAR);
    match number {
        2 => {
            // The error token must not be shifted between lines, so that the cell is free.
            let mut tables = tables_of(&GRAMMAR.replace("error newline", "word newline"));
            let error = tables.error_column();
            end_recipe_at(&mut tables, error);
            Some(header_of(&tables.encode()))
        }
        5 => {
            let mut tables = tables;
            let brace = kinds().iter().position(|kind| *kind == "}");
            end_recipe_at(&mut tables, brace.expect("a kind"));
            Some(header_of(&tables.encode()))
        }
        10..=17 => {
            let mut random = Random::new(number.into());
            let refused = |payloads: &Payloads| {
                check(payloads).is_err_and(|refusal| refusal.number == number)
            };
            let mut damaged = || damaged_tables(&mut random, &tables);
            let first_refused = std::iter::from_fn(|| Some(damaged())).find(refused);
            first_refused.as_ref().map(header_of)
        }
        _ => None,
    }
}

/// What is reduced at the end of input is also reduced in this column where that is an error, so that
/// production 0 comes up there too: test 16 allows it.
fn end_recipe_at(tables: &mut Tables, column: usize) {
    let (columns, end) = (tables.columns(), tables.end_column());
    for row in tables.actions.chunks_mut(columns) {
        if row[column] == 0 {
            row[column] = row[end];
        }
    }
}

/// Not merged: so the words that a message calls expected are the ones that would have fitted.
fn tables_of(grammar: &str) -> Tables {
    let grammar = Grammar::from_text(grammar);
    automaton::tables(&grammar, Merging::Canonical, 1).expect("no conflict")
}

fn kinds() -> Vec<&'static str> {
    Grammar::kind_names(GRAMMAR)
}

fn header_of(payloads: &Payloads) -> String {
    let mut text = String::from(
        "/* The tables of the example's recipe language, made by\n \
         *   cd host/rules && cargo run --bin recipe_tables\n \
         * from this grammar:\n *\n",
    );
    for line in GRAMMAR.lines().filter(|line| !line.trim().is_empty()) {
        let _ = writeln!(text, " * {line}");
    }
    text += " */\n#ifndef RECIPE_TABLES_H\n#define RECIPE_TABLES_H\n\n#include \"chamrolak.h\"\n\n\
             /* clang-format off */\n\n";
    push_kinds(&mut text);
    push_productions(&mut text);
    let names = [
        "sizes",
        "actions",
        "gotos",
        "productions",
        "rights",
        "items",
        "sets",
    ];
    for (name, bytes) in names.into_iter().zip(payloads.lists()) {
        push_bytes(&mut text, name, bytes);
    }
    text += "static const chamrolak_tables recipe_tables = {\n";
    for name in names {
        let _ = writeln!(text, "    recipe_{name}, sizeof recipe_{name},");
    }
    text += "};\n\n#endif\n";
    text
}

fn push_kinds(text: &mut String) {
    *text += "/* The kinds of words, by number. */\nenum {\n";
    for (number, kind) in kinds().iter().enumerate() {
        let _ = writeln!(text, "  RECIPE_KIND_{} = {number},", name_in_c(kind));
    }
    let _ = writeln!(text, "  RECIPE_KIND_COUNT = {}\n}};\n", kinds().len());
    *text += "/* Their names in the grammar. */\n\
              static const char *const recipe_kind_names[RECIPE_KIND_COUNT] = {\n";
    for kind in kinds() {
        let _ = writeln!(text, "    \"{kind}\",");
    }
    *text += "};\n\n";
}

fn name_in_c(kind: &str) -> String {
    match kind {
        "{" => "OPEN_BRACE".into(),
        "}" => "CLOSE_BRACE".into(),
        "(" => "OPEN_BRACKET".into(),
        ")" => "CLOSE_BRACKET".into(),
        "," => "COMMA".into(),
        word => word.to_uppercase(),
    }
}

fn push_productions(text: &mut String) {
    let grammar = Grammar::from_text(GRAMMAR);
    assert_eq!(grammar.productions.len(), PRODUCTION_NAMES.len());
    *text += "/* The productions, by number. */\nenum {\n";
    for (number, name) in PRODUCTION_NAMES.iter().enumerate() {
        let comma = if number + 1 < PRODUCTION_NAMES.len() {
            ","
        } else {
            ""
        };
        let _ = writeln!(text, "  RECIPE_{name} = {number}{comma}");
    }
    *text += "};\n\n";
}

fn push_bytes(text: &mut String, name: &str, bytes: &[u8]) {
    let _ = writeln!(text, "static const uint8_t recipe_{name}[] = {{");
    for line in bytes.chunks(24) {
        let numbers: Vec<String> = line.iter().map(u8::to_string).collect();
        let _ = writeln!(text, "    {},", numbers.join(", "));
    }
    *text += "};\n\n";
}
