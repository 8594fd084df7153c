//! The library against the evaluator of document 01 on random runs, every word, whole and cut.

use chamrolak::lent::RoomBytes;
use chamrolak::trial::{Call, Entry};
use chamrolak::Input;
use chamrolak_rules::answer::Limits;
use chamrolak_rules::automaton::{self, Merging};
use chamrolak_rules::drive::{drive, Driven};
use chamrolak_rules::generate::{random_location, random_specimen, random_tokens, RECIPE_GRAMMAR};
use chamrolak_rules::grammar::Grammar;
use chamrolak_rules::random::Random;
use chamrolak_rules::tables::{token_bytes, Payloads, Tables, Token};
use std::collections::BTreeMap;

/// Some tables reduce for ever.
const BUDGET: u32 = 3_000;
/// Tables with more items than this are checked once in many runs: a call that checks takes long.
const MOST_ITEMS_CHECKED_ALWAYS: usize = 300;

/// Tables and a token list, and how often each answer came.
struct Trial<'a> {
    tables: &'a Tables,
    payloads: &'a Payloads,
    tokens: Vec<Token>,
    token_bytes: Vec<u8>,
    start_location: u32,
}

impl<'a> Trial<'a> {
    fn new(tables: &'a Tables, payloads: &'a Payloads, tokens: Vec<Token>, start: u32) -> Self {
        Trial {
            tables,
            payloads,
            token_bytes: token_bytes(&tokens),
            tokens,
            start_location: start,
        }
    }

    fn by_the_rules(&self, limits: &Limits) -> Driven {
        drive(self.tables, &self.tokens, self.start_location, limits)
    }

    /// Makes the call with this budget and these rooms, and holds it to the rules. Counts and gives
    /// the answer's number.
    fn try_with(&self, entry: Entry, budget: u32, rooms: RoomBytes, counts: &mut Counts) -> u32 {
        let input = Input {
            tokens: &self.token_bytes,
            start_location: self.start_location,
            budget,
        };
        let call = Call {
            payloads: self.payloads,
            input,
            rooms,
        };
        let answer = call.must_do_as_the_rules_say(entry);
        counts.add(answer);
        answer
    }
}

#[derive(Default)]
struct Counts {
    answers: BTreeMap<u32, u64>,
}

impl Counts {
    fn add(&mut self, answer: u32) {
        *self.answers.entry(answer).or_default() += 1;
    }

    fn print_and_require(&self, what: &str, answers: impl IntoIterator<Item = u32>, least: u64) {
        println!("{what}, calls by answer: {:?}", self.answers);
        for answer in answers {
            let count = self.answers.get(&answer).copied().unwrap_or(0);
            assert!(count >= least, "answer {answer} came {count} times");
        }
    }
}

/// Some bytes more in each room, so that rooms end inside an entry, and stack and scratch differ.
fn with_odd_bytes(random: &mut Random, rooms: RoomBytes) -> RoomBytes {
    let mut more = || *random.pick(&[0, 0, 1, 3, 4, 31, 33, 70]);
    RoomBytes {
        stack: rooms.stack + more(),
        scratch: rooms.scratch + more(),
        nodes: rooms.nodes + more(),
        children: rooms.children + more(),
        records: rooms.records + more(),
    }
}

#[test]
fn random_runs_and_random_limits() {
    let mut random = Random::new(11);
    let mut counts = Counts::default();
    for _ in 0..3_000 {
        let specimen = random_specimen(&mut random);
        let payloads = specimen.tables.encode();
        for run in 0..10 {
            let size = random.between(1, 25);
            let tokens = random_tokens(&mut random, &specimen.grammar, size);
            let start = random_location(&mut random);
            let trial = Trial::new(&specimen.tables, &payloads, tokens, start);
            let whole = trial.by_the_rules(&Limits::budget_only(BUDGET.into()));
            let filled = RoomBytes::filled_by(&whole.run, whole.deepest);
            let rooms = with_odd_bytes(&mut random, filled);
            trial.try_with(Entry::Drive, BUDGET, rooms, &mut counts);

            let mut at_most = |needed: usize| match random.one_in(2) {
                true => random.between(0, needed),
                false => needed,
            };
            let budget = at_most(whole.run.units as usize) as u32;
            let tight = RoomBytes::for_entries(
                at_most(whole.deepest),
                at_most(whole.run.child_entries.len()),
                at_most(whole.run.nodes.len()),
                at_most(whole.run.records.len()),
            );
            let tight = with_odd_bytes(&mut random, tight);
            trial.try_with(Entry::Drive, budget, tight, &mut counts);

            let large = specimen.tables.items.len() > MOST_ITEMS_CHECKED_ALWAYS;
            if !large || run == 0 && random.one_in(10) {
                trial.try_with(Entry::Parse, BUDGET, rooms, &mut counts);
                trial.try_with(Entry::Parse, budget, tight, &mut counts);
            }
        }
    }
    counts.print_and_require("random runs", (1..=6).chain(19..=23), 100);
}

#[test]
fn the_rooms_that_the_header_calls_enough_are() {
    let mut random = Random::new(14);
    let mut counts = Counts::default();
    for _ in 0..3_000 {
        let specimen = random_specimen(&mut random);
        let payloads = specimen.tables.encode();
        let tokens = random_tokens(&mut random, &specimen.grammar, 20);
        let trial = Trial::new(&specimen.tables, &payloads, tokens, 0);
        let budget = random.below(100);
        let rooms = RoomBytes::enough_for(budget);
        let answer = trial.try_with(Entry::Drive, budget as u32, rooms, &mut counts);
        assert!(answer <= 19, "answer {answer} under a budget of {budget}");
    }
    counts.print_and_require("rooms by the budget", (1..=6).chain([19]), 10);
}

/// Cuts a run at these budgets, and at these numbers of entries below what it filled: at depth,
/// child entries, nodes and records, each alone.
fn cut(
    trial: &Trial,
    whole: &Driven,
    counts: &mut Counts,
    below: &mut dyn FnMut(usize) -> Vec<usize>,
) {
    let filled = RoomBytes::filled_by(&whole.run, whole.deepest);
    let units = whole.run.units as usize;
    let mut cut_rooms =
        |rooms| trial.try_with(Entry::Drive, BUDGET.max(units as u32), rooms, counts);
    for depth in below(whole.deepest) {
        let shorter = RoomBytes::for_entries(depth, 0, 0, 0);
        let (stack, scratch) = (shorter.stack, shorter.scratch);
        cut_rooms(RoomBytes { stack, ..filled });
        cut_rooms(RoomBytes { scratch, ..filled });
    }
    for entries in below(whole.run.child_entries.len()) {
        let children = RoomBytes::for_entries(0, entries, 0, 0).children;
        cut_rooms(RoomBytes { children, ..filled });
    }
    for entries in below(whole.run.nodes.len()) {
        let nodes = RoomBytes::for_entries(0, 0, entries, 0).nodes;
        cut_rooms(RoomBytes { nodes, ..filled });
    }
    for entries in below(whole.run.records.len()) {
        let records = RoomBytes::for_entries(0, 0, 0, entries).records;
        cut_rooms(RoomBytes { records, ..filled });
    }
    for budget in below(units) {
        trial.try_with(Entry::Drive, budget as u32, filled, counts);
    }
}

#[test]
fn small_runs_cut_at_every_limit() {
    let mut random = Random::new(12);
    let mut counts = Counts::default();
    for _ in 0..1_500 {
        let specimen = random_specimen(&mut random);
        let payloads = specimen.tables.encode();
        let tokens = random_tokens(&mut random, &specimen.grammar, 10);
        let start = random_location(&mut random);
        let trial = Trial::new(&specimen.tables, &payloads, tokens, start);
        let whole = trial.by_the_rules(&Limits::budget_only(200));
        cut(&trial, &whole, &mut counts, &mut |all| (0..all).collect());
    }
    counts.print_and_require("small runs cut everywhere", 19..=23, 500);
}

/// A recipe of about so many tokens, of the generator's real-sized grammar, with some errors.
fn long_tokens(random: &mut Random, grammar: &Grammar, size: usize) -> Vec<Token> {
    let mut tokens = Vec::new();
    while tokens.len() < size {
        let piece = random_tokens(random, grammar, 40);
        let user_kinds = u32::from(grammar.kinds);
        tokens.extend(piece.into_iter().filter(|token| token.kind < user_kinds));
    }
    tokens.truncate(size);
    tokens
}

#[test]
fn long_runs_cut_at_sampled_limits() {
    let grammar = Grammar::from_text(RECIPE_GRAMMAR);
    let tables = automaton::tables(&grammar, Merging::Merged, 1).expect("no conflict");
    let payloads = tables.encode();
    let mut random = Random::new(13);
    let mut counts = Counts::default();
    for size in [300, 1_000, 4_095, 4_096] {
        let tokens = long_tokens(&mut random, &grammar, size);
        let trial = Trial::new(&tables, &payloads, tokens, 0);
        let whole = trial.by_the_rules(&Limits::budget_only(100_000));
        assert!(whole.run.units > size as u64, "the run goes on to the end");
        let filled = RoomBytes::filled_by(&whole.run, whole.deepest);
        trial.try_with(Entry::Drive, 100_000, filled, &mut counts);
        trial.try_with(Entry::Parse, 100_000, filled, &mut counts);
        let mut ends_and_some = |all: usize| match all {
            0 => vec![],
            _ => {
                let some = (0..20).map(|_| random.below(all));
                [0, all - 1].into_iter().chain(some).collect()
            }
        };
        cut(&trial, &whole, &mut counts, &mut ends_and_some);
    }
    counts.print_and_require("long runs cut at samples", 19..=23, 20);
}
