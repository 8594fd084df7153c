//! Tables and inputs for tests, all from seeded numbers: grammars, tables that pass the check, tables
//! damaged so that it refuses them, token lists with sentences, errors and odd kinds and locations.

use crate::automaton::{self, Merging};
use crate::bench::{
    set_action, table_a, table_a_that_ends_early, table_a_without_error_production,
};
use crate::drive::TOKENIZER_ERROR_KIND;
use crate::grammar::Grammar;
use crate::random::Random;
use crate::tables::{FirstSet, Item, Payloads, Production, Tables, Token};

/// A recipe language of a real instrument's size, with error productions at three levels.
pub const RECIPE_GRAMMAR: &str = "
    Start: Recipe
    Recipe: Head Steps
    Head: | recipe name ;
    Steps: | Steps Step ;
    Step: add Amount name | mix Names For | heat name to Expr For | let name = Expr | If | Repeat | error
    If: if Cond Block Else
    Else: | else Block
    Repeat: repeat Expr times Block
    Block: { Steps } | { Steps error }
    Amount: | number Unit
    Unit: gram | ml
    Names: name | Names , name
    For: | for number seconds
    Cond: Expr < Expr | Expr = Expr | not Cond
    Expr: Expr + Term | Expr - Term | Term
    Term: Term * Factor | Factor
    Factor: number | name | ( Expr ) | ( error ) | name ( Arguments )
    Arguments: | List
    List: Expr | List , Expr
";

/// Small grammars, each for the sake of one thing.
const SMALL_GRAMMARS: [&str; 8] = [
    // Table A's: statements with an error production.
    "S: L\nL: | L E ;\nE: a | error",
    // Expressions, and the error inside brackets only.
    "S: E\nE: E + T | T\nT: n | ( E ) | ( error )",
    // Right recursion over empty productions: long error columns and deep simulations.
    "S: A\nA: O a A | O | error b\nO: | o",
    // An error production behind an empty one, and at the very end.
    "S: L\nL: M x L | M error | M y\nM: ",
    // Merging states makes reductions before an error is seen.
    "S: E\nE: a X d | b X e | a error | b error\nX: c | c X",
    // The error token shifted at two depths: the search has a choice.
    "S: B\nB: { L }\nL: | L I\nI: B | a ; | error ;",
    // Nothing but an error, or nothing at all.
    "S: L\nL: | error | L ; error",
    // Without an error production.
    "S: V\nV: [ Vs ] | a\nVs: | Vs V ,",
];

pub fn fixed_grammars() -> Vec<Grammar> {
    let texts = SMALL_GRAMMARS.into_iter().chain([RECIPE_GRAMMAR]);
    texts.map(Grammar::from_text).collect()
}

/// A small productive grammar; most have empty productions and an error production.
pub fn random_grammar(random: &mut Random) -> Grammar {
    loop {
        let kinds = random.between(1, 5) as u16;
        let nonterminals = random.between(2, 5) as u16;
        let mut productions = vec![Production {
            left: 0,
            right: vec![kinds + 2],
        }];
        for left in 1..nonterminals {
            for _ in 0..random.between(1, 3) {
                let length = *random.pick(&[0, 1, 1, 2, 2, 3, 3, 4]);
                let right = (0..length).map(|_| random_symbol(random, kinds, nonterminals));
                let right = right.collect();
                productions.push(Production { left, right });
            }
        }
        let grammar = Grammar {
            kinds,
            nonterminals,
            productions,
        };
        if grammar.is_productive() {
            return grammar;
        }
    }
}

/// A symbol of a right side: a user kind, the error token, or a nonterminal but 0.
fn random_symbol(random: &mut Random, kinds: u16, nonterminals: u16) -> u16 {
    match random.below(8) {
        0 => kinds,
        1..=4 => random.below(kinds.into()) as u16,
        _ => kinds + 1 + random.between(1, usize::from(nonterminals) - 1) as u16,
    }
}

/// Where a set of tables comes from.
#[derive(Clone, Copy, Debug, PartialEq, Eq, PartialOrd, Ord)]
pub enum Origin {
    /// Document 01's table A or one of its variants.
    Bench,
    /// The automaton of a grammar.
    Automaton(Merging),
    /// An automaton with reductions in some of its error cells, as merged tables with default
    /// reductions have them.
    Loosened(Merging),
    /// Passes the check and reduces for ever on some input.
    Endless,
}

/// Tables that pass the check, and a grammar of their sentences.
#[derive(Clone, Debug)]
pub struct Specimen {
    pub origin: Origin,
    pub grammar: Grammar,
    pub tables: Tables,
}

impl Specimen {
    fn new(origin: Origin, tables: Tables) -> Specimen {
        let grammar = Grammar {
            kinds: tables.kinds,
            nonterminals: tables.nonterminals() as u16,
            productions: tables.productions.clone(),
        };
        Specimen {
            origin,
            grammar,
            tables,
        }
    }
}

pub fn bench_specimens() -> Vec<Specimen> {
    let tables = [
        table_a(),
        table_a_that_ends_early(),
        table_a_without_error_production(),
    ];
    let bench = |tables| Specimen::new(Origin::Bench, tables);
    tables.into_iter().map(bench).collect()
}

/// p0 S' to S, p1 S to x, p2 E to E, p3 E to nothing, over kinds x and y: `y` reduces p3 once and
/// then p2 for ever, at one depth.
pub fn endless_specimen() -> Specimen {
    let production = |left, right: &[u16]| Production {
        left,
        right: right.to_vec(),
    };
    let mut sets = vec![FirstSet::default(); 3];
    sets[0].insert(0);
    sets[1].insert(0);
    sets[2].nullable = 1;
    let tables = Tables {
        states: 4,
        kinds: 2,
        flag: 1,
        #[rustfmt::skip]
        actions: vec![
            3, -4, 0,  0,
            0,  0, 0, -1,
            0,  0, 0, -2,
            0, -3, 0,  0,
        ],
        gotos: vec![0, 2, 4, 0, 0, 0, 0, 0, 0, 0, 0, 0],
        productions: vec![
            production(0, &[4]),
            production(1, &[0]),
            production(2, &[5]),
            production(2, &[]),
        ],
        items: [
            [0, 0, 0, 3],
            [0, 1, 0, 3],
            [0, 2, 0, 1],
            [0, 3, 0, 1],
            [1, 0, 1, 3],
            [2, 1, 1, 3],
            [3, 2, 1, 1],
        ]
        .map(item)
        .to_vec(),
        first_sets: sets,
    };
    Specimen::new(Origin::Endless, tables)
}

/// Tables of a fixed grammar in one case of four, else of a random one.
pub fn random_specimen(random: &mut Random) -> Specimen {
    if random.one_in(20) {
        return random.pick(&bench_specimens()).clone();
    }
    if random.one_in(100) {
        return endless_specimen();
    }
    loop {
        let grammar = match random.one_in(4) {
            true => random.pick(&fixed_grammars()).clone(),
            false => random_grammar(random),
        };
        let merging = *random.pick(&[Merging::Canonical, Merging::Merged]);
        let flag = u16::from(!random.one_in(5));
        let Some(tables) = automaton::tables(&grammar, merging, flag) else {
            continue;
        };
        return match random.one_in(3) {
            true => Specimen::new(Origin::Loosened(merging), loosened(random, tables)),
            false => Specimen::new(Origin::Automaton(merging), tables),
        };
    }
}

/// Puts a reduction into some error cells, of a production whose dot is at its end in that state:
/// what test 16 allows, and no test forbids.
fn loosened(random: &mut Random, mut tables: Tables) -> Tables {
    let columns = tables.columns();
    let often = random.between(1, 4);
    for place in 0..tables.actions.len() {
        let state = place / columns;
        let reductions: Vec<u16> = (tables.items.iter())
            .filter(|item| usize::from(item.state) == state)
            .filter(|item| is_at_end(&tables, item))
            .map(|item| item.production)
            .collect();
        if tables.actions[place] == 0 && !reductions.is_empty() && random.one_in(often) {
            tables.actions[place] = -(*random.pick(&reductions) as i16 + 1);
        }
    }
    tables
}

fn is_at_end(tables: &Tables, item: &Item) -> bool {
    usize::from(item.dot) == tables.productions[usize::from(item.production)].right.len()
}

/// A token list for these tables: a sentence or noise, damaged more or less, with locations.
pub fn random_tokens(random: &mut Random, grammar: &Grammar, size: usize) -> Vec<Token> {
    let user_kinds = usize::from(grammar.kinds);
    let sentence = match random.one_in(10) {
        true => (0..random.below(size + 1))
            .map(|_| random.below(user_kinds) as u16)
            .collect(),
        false => grammar.sentence(random, size),
    };
    let mut kinds = Vec::new();
    for kind in sentence {
        match kind == grammar.error_token() {
            // Where the grammar allows an error, some tokens that do not fit.
            true => kinds.extend((0..random.below(4)).map(|_| random.below(user_kinds) as u32)),
            false => kinds.push(u32::from(kind)),
        }
    }
    for _ in 0..*random.pick(&[0, 0, 1, 1, 2, 4]) {
        damage_sentence(random, &mut kinds, user_kinds);
    }
    if random.one_in(8) {
        let t = user_kinds as u32;
        let odd = [
            t,
            t + 1,
            t + 2,
            255,
            256,
            65_534,
            TOKENIZER_ERROR_KIND,
            TOKENIZER_ERROR_KIND,
        ];
        let place = random.between(0, kinds.len());
        kinds.insert(place, *random.pick(&odd));
    }
    kinds.truncate(4 * size);
    with_locations(random, &kinds)
}

/// Inserts, deletes or replaces one user kind.
fn damage_sentence(random: &mut Random, kinds: &mut Vec<u32>, user_kinds: usize) {
    let place = random.between(0, kinds.len());
    let kind = random.below(user_kinds) as u32;
    match random.below(3) {
        0 => kinds.insert(place, kind),
        1 if place < kinds.len() => {
            kinds.remove(place);
        }
        2 if place < kinds.len() => kinds[place] = kind,
        _ => {}
    }
}

/// "Locations are 32-bit and need not ascend": numbered, with gaps, or any at all.
fn with_locations(random: &mut Random, kinds: &[u32]) -> Vec<Token> {
    let form = random.below(3);
    let mut reached = 0;
    let mut token = |&kind: &u32| {
        let (start, end) = match form {
            0 => (reached, reached + 1),
            1 => {
                let start = reached + random.below(3) as u32;
                (start, start + random.below(4) as u32)
            }
            _ => (random_location(random), random_location(random)),
        };
        reached = end;
        Token { kind, start, end }
    };
    kinds.iter().map(&mut token).collect()
}

pub fn random_location(random: &mut Random) -> u32 {
    match random.below(4) {
        0 => 0,
        1 => u32::MAX,
        2 => random.below(50) as u32,
        _ => random.next_number() as u32,
    }
}

/// Tables of these sizes for p0 S to N and p1 N to nothing. All other productions, of the last
/// nonterminal to 32 times kind 0, and all states but 0 and 1 are there for their number only.
pub fn tables_of_sizes(
    states: usize,
    kinds: u16,
    nonterminals: usize,
    productions: usize,
) -> Tables {
    let end = kinds + 1;
    let symbol_of_n = kinds + 2;
    let production = |left, right| Production { left, right };
    let mut rules = vec![production(0, vec![symbol_of_n]), production(1, vec![])];
    rules.resize(
        productions,
        production(nonterminals as u16 - 1, vec![0; 32]),
    );
    let mut first_set = FirstSet {
        nullable: 1,
        ..FirstSet::default()
    };
    first_set.insert(0);
    let mut tables = Tables {
        states: states as u16,
        kinds,
        flag: 1,
        actions: vec![0; states * (usize::from(kinds) + 2)],
        gotos: vec![0; states * nonterminals],
        productions: rules,
        items: [[0, 0, 0, end], [0, 1, 0, end], [1, 0, 1, end]]
            .map(item)
            .to_vec(),
        first_sets: vec![first_set; nonterminals],
    };
    tables.gotos[1] = 2;
    set_action(&mut tables, 0, end.into(), -2);
    set_action(&mut tables, 1, end.into(), -1);
    tables
}

/// Every size at its end, and 65,535 items: states that nothing enters may hold p0 at its end, with
/// every lookahead that p0 reduces under.
pub fn tables_with_the_most_items() -> Tables {
    let mut tables = tables_of_sizes(1_024, 254, 255, 1_024);
    let columns = tables.columns();
    let places = (2..1_024).flat_map(|state| (0..columns).map(move |column| (state, column)));
    for (state, column) in places.take(65_535 - tables.items.len()) {
        set_action(&mut tables, state, column, -1);
        tables.items.push(item([state as u16, 0, 1, column as u16]));
    }
    tables
}

fn item([state, production, dot, lookahead]: [u16; 4]) -> Item {
    Item {
        state,
        production,
        dot,
        lookahead,
    }
}

/// Tables with one thing changed, so that refusals 10 to 17 all come often.
pub fn damaged_tables(random: &mut Random, tables: &Tables) -> Payloads {
    let mut tables = tables.clone();
    match random.below(12) {
        0 | 1 => {
            let mut payloads = tables.encode();
            damage_lengths(random, &mut payloads);
            return payloads;
        }
        2 => damage_set_bytes(random, &mut tables),
        3 | 4 => {
            let place = random.below(tables.actions.len());
            tables.actions[place] = random_cell(random, &tables);
        }
        5 => {
            let place = random.below(tables.gotos.len());
            tables.gotos[place] = random_cell(random, &tables);
        }
        6 | 7 => damage_production(random, &mut tables),
        8 => {
            let place = random.below(tables.nonterminals());
            let kind = random.between(0, tables.t());
            let set = &mut tables.first_sets[place];
            match random.one_in(2) {
                true => set.nullable ^= 1,
                false => set.bits[kind / 8] ^= 1 << (kind % 8),
            }
        }
        _ => damage_items(random, &mut tables),
    }
    tables.encode()
}

/// A size that is off, or a list with a byte or an entry too many or too few.
fn damage_lengths(random: &mut Random, payloads: &mut Payloads) {
    if random.one_in(3) {
        let place = random.below(6);
        let odd = [0, 1, 2, 254, 255, 256, 1_024, 1_025, 65_535];
        let number: u16 = *random.pick(&odd);
        payloads.sizes[2 * place..][..2].copy_from_slice(&number.to_le_bytes());
        return;
    }
    let mut lists = payloads.lists_mut();
    let list = &mut lists[random.below(7)];
    let bytes = *random.pick(&[1, 2, 4, 8, 33]);
    match random.one_in(2) {
        true => list.truncate(list.len().saturating_sub(bytes)),
        false => list.extend(vec![0; bytes]),
    }
}

fn damage_set_bytes(random: &mut Random, tables: &mut Tables) {
    let first_past_t = tables.t() + 1;
    let place = random.below(tables.nonterminals());
    let set = &mut tables.first_sets[place];
    match random.one_in(2) {
        true => set.nullable = random.between(2, 255) as u8,
        false => set.insert(random.between(first_past_t, 255)),
    }
}

/// A number near the ends of what a cell may hold, or the lowest or highest.
fn random_cell(random: &mut Random, tables: &Tables) -> i16 {
    match random.below(8) {
        0 => i16::MIN,
        1 => i16::MAX,
        2 => 0,
        3..=5 => -(random.between(1, tables.productions.len() + 1) as i16),
        _ => random.between(1, usize::from(tables.states) + 1) as i16,
    }
}

fn damage_production(random: &mut Random, tables: &mut Tables) {
    let symbols = tables.t() + 1 + tables.nonterminals();
    let left = random.between(0, tables.nonterminals()) as u16;
    let symbol = random.between(0, symbols) as u16;
    let place = random.below(tables.productions.len());
    let production = &mut tables.productions[place];
    match random.below(4) {
        0 => production.left = left,
        1 => production.right.push(symbol),
        2 => production.right.extend([symbol; 33]),
        _ => match production.right.is_empty() {
            true => production.left = left,
            false => {
                let at = random.below(production.right.len());
                production.right[at] = symbol;
            }
        },
    }
}

fn damage_items(random: &mut Random, tables: &mut Tables) {
    if tables.items.is_empty() {
        return;
    }
    let place = random.below(tables.items.len());
    let item = &mut tables.items[place];
    match random.below(8) {
        0 => item.state = random.between(0, tables.states.into()) as u16,
        1 => item.production = random.between(0, tables.productions.len()) as u16,
        2 => item.dot = random.between(0, 33) as u16,
        3 => item.lookahead = random.between(0, usize::from(tables.kinds) + 2) as u16,
        4 => {
            tables.items.remove(place);
        }
        5 => tables.items.insert(place, tables.items[place]),
        6 => tables.items.swap(0, place),
        _ => {
            // One more item, in its right place.
            let mut item = tables.items[place];
            item.state = random.below(tables.states.into()) as u16;
            item.dot = item.dot.saturating_sub(random.below(2) as u16);
            tables.items.push(item);
            tables.items.sort();
            tables.items.dedup();
        }
    }
}

#[cfg(test)]
mod tests {
    use super::*;
    use crate::answer::Limits;
    use crate::check::check;
    use crate::drive::drive;
    use std::collections::BTreeMap;

    #[test]
    fn specimens_pass_the_check() {
        let mut random = Random::new(2);
        for _ in 0..300 {
            let specimen = random_specimen(&mut random);
            assert_eq!(check(&specimen.tables.encode()), Ok(specimen.tables));
        }
        assert!(check(&endless_specimen().tables.encode()).is_ok());
    }

    #[test]
    fn the_endless_table_is_stopped_by_the_budget_alone() {
        let specimen = endless_specimen();
        let y = [Token {
            kind: 1,
            start: 0,
            end: 1,
        }];
        let run = drive(&specimen.tables, &y, 0, &Limits::budget_only(5_000)).run;
        assert_eq!((run.answer.number(), run.units), (19, 5_000));
    }

    #[test]
    fn the_recipe_grammar_is_of_real_size() {
        let grammar = Grammar::from_text(RECIPE_GRAMMAR);
        let merged = automaton::tables(&grammar, Merging::Merged, 1).expect("no conflict");
        let canonical = automaton::tables(&grammar, Merging::Canonical, 1).expect("no conflict");
        assert!(merged.states > 80 && canonical.states > merged.states);
    }

    #[test]
    fn undamaged_sentences_without_errors_are_accepted() {
        let mut random = Random::new(3);
        for grammar in fixed_grammars() {
            let tables = automaton::tables(&grammar, Merging::Merged, 0).expect("no conflict");
            for _ in 0..50 {
                let sentence = grammar.sentence(&mut random, 20);
                if sentence.contains(&grammar.error_token()) {
                    continue;
                }
                let kinds: Vec<u32> = sentence.into_iter().map(u32::from).collect();
                let tokens = crate::bench::numbered_tokens(&kinds);
                let run = drive(&tables, &tokens, 0, &Limits::budget_only(100_000)).run;
                assert_eq!(run.answer.number(), 1, "{kinds:?} of {grammar:?}");
            }
        }
    }

    #[test]
    fn damaged_tables_meet_every_refusal() {
        let mut random = Random::new(4);
        let mut counts: BTreeMap<u32, usize> = BTreeMap::new();
        for _ in 0..3_000 {
            let specimen = random_specimen(&mut random);
            let damaged = damaged_tables(&mut random, &specimen.tables);
            let number = check(&damaged).err().map_or(0, |refusal| refusal.number);
            *counts.entry(number).or_default() += 1;
        }
        for number in 10..=17 {
            let count = counts.get(&number).copied().unwrap_or(0);
            assert!(
                count >= 20,
                "refusal {number} came {count} times: {counts:?}"
            );
        }
    }
}
