//! One call and what it left, held to what document 01's rules say: the result, every word of every
//! room, and the bytes past the counts, which must be as they were.

use crate::lent::{LentRooms, Room, RoomBytes};
use crate::{check, drive, parse, CallResult, Input, TableSlices};
use chamrolak_rules::answer::{Answer, Expected, Refusal, Run};
use chamrolak_rules::bench::numbered_tokens;
use chamrolak_rules::drive::Driven;
use chamrolak_rules::tables::{token_bytes, Payloads};
use chamrolak_rules::unchecked::drive_unchecked;

/// Which of the two calls that run.
#[derive(Clone, Copy, Debug, PartialEq, Eq)]
pub enum Entry {
    Parse,
    Drive,
}

/// The arguments of a call.
#[derive(Clone, Copy)]
pub struct Call<'a> {
    pub payloads: &'a Payloads,
    pub input: Input<'a>,
    pub rooms: RoomBytes,
}

/// What a call left.
struct Effect {
    result: CallResult,
    rooms: LentRooms,
}

impl Call<'_> {
    fn make(&self, entry: Entry) -> Effect {
        let mut rooms = LentRooms::new(&self.rooms);
        let tables = TableSlices::from(self.payloads);
        let result = match entry {
            Entry::Parse => parse(&tables, &self.input, rooms.lend()),
            Entry::Drive => drive(&tables, &self.input, rooms.lend()),
        };
        Effect { result, rooms }
    }

    /// The evaluator's answer to the same call.
    fn by_the_rules(&self, entry: Entry) -> Result<Driven, Refusal> {
        let Input {
            tokens,
            start_location,
            budget,
        } = self.input;
        let limits = self.rooms.limits(budget);
        match entry {
            Entry::Parse => chamrolak_rules::call(self.payloads, tokens, start_location, &limits),
            Entry::Drive => drive_unchecked(self.payloads, tokens, start_location, &limits),
        }
    }

    /// Makes the call and holds it to the evaluator. Gives the number of the refusal or answer.
    pub fn must_do_as_the_rules_say(&self, entry: Entry) -> u32 {
        match self.by_the_rules(entry) {
            Ok(driven) => {
                self.must_do(entry, Ok(&driven.run));
                driven.run.answer.number()
            }
            Err(refusal) => {
                self.must_do(entry, Err(refusal));
                refusal.number
            }
        }
    }

    /// Panics where the library does not do this, with the arguments that show it.
    pub fn must_do(&self, entry: Entry, expected: Result<&Run, Refusal>) {
        let difference = match expected {
            Ok(run) => self.make(entry).difference_from(run),
            Err(refusal) => self.make(entry).difference_from_refusal(refusal),
        };
        if let Some(difference) = difference {
            self.report(entry, &difference);
        }
    }

    fn report(&self, entry: Entry, difference: &str) -> ! {
        let Payloads {
            sizes,
            actions,
            gotos,
            productions,
            right_sides,
            items,
            first_sets,
        } = self.payloads;
        panic!(
            "{entry:?} differs from the rules: {difference}\n\
             start location {}, budget {}, {:?}\n\
             tokens {:?}\nsizes {sizes:?}\nactions {actions:?}\ngotos {gotos:?}\n\
             productions {productions:?}\nright sides {right_sides:?}\nitems {items:?}\n\
             first sets {first_sets:?}",
            self.input.start_location, self.input.budget, self.rooms, self.input.tokens,
        )
    }
}

/// Holds `chamrolak_check` to the rules, and where these tables are refused the calls that run as
/// well: `chamrolak_parse`, which must leave every room as it was, and `chamrolak_drive`, which takes
/// any tables. Gives the verdict's number; 0 is a pass.
pub fn judge_tables(payloads: &Payloads) -> u32 {
    let refusal = chamrolak_rules::check::check(payloads).err();
    let by_the_rules = refusal.map_or(PASSES, result_of_refusal);
    let by_the_library = check(&TableSlices::from(payloads));
    assert_eq!(by_the_library, by_the_rules, "tables {payloads:?}");
    if let Some(refusal) = refusal {
        let call = Call {
            payloads,
            input: Input {
                tokens: &token_bytes(&numbered_tokens(&[0, 1, 0])),
                start_location: 0,
                budget: 100,
            },
            rooms: RoomBytes::enough_for(20).and(5),
        };
        call.must_do(Entry::Parse, Err(refusal));
        call.must_do_as_the_rules_say(Entry::Drive);
    }
    by_the_rules.number
}

const PASSES: CallResult = CallResult {
    number: 0,
    value: 0,
};

/// What a call returns for this refusal.
pub fn result_of_refusal(Refusal { number, place }: Refusal) -> CallResult {
    CallResult {
        number,
        value: place as u32,
    }
}

impl Effect {
    /// "Refusals 10 to 18 touch no buffer": the report is none either, and here the stack and scratch
    /// rooms count as well.
    fn difference_from_refusal(&self, refusal: Refusal) -> Option<String> {
        let result = result_of_refusal(refusal);
        if self.result != result {
            return Some(format!("{:?} and not {result:?}", self.result));
        }
        self.first_change_past([0; 6])
    }

    /// The words of the run, and nothing past them. Stack and scratch rooms are the driver's own.
    fn difference_from(&self, run: &Run) -> Option<String> {
        let result = result_of(&run.answer);
        if self.result != result {
            return Some(format!("{:?} and not {result:?}", self.result));
        }
        let rooms = &self.rooms;
        let (stack, scratch) = (rooms.stack.length(), rooms.scratch.length());
        let nodes = run.nodes.concat();
        let records = run.records.concat();
        let report = report_words(run);
        let lengths = [&nodes, &run.child_entries, &records].map(|words| 4 * words.len());
        difference_of_words("report", &rooms.report, &report)
            .or_else(|| difference_of_words("nodes", &rooms.nodes, &nodes))
            .or_else(|| difference_of_words("children", &rooms.children, &run.child_entries))
            .or_else(|| difference_of_words("records", &rooms.records, &records))
            .or_else(|| {
                let [nodes, children, records] = lengths;
                let report = 4 * report.len();
                self.first_change_past([stack, scratch, nodes, children, records, report])
            })
    }

    /// A byte that changed behind so many written ones of each room, or around the room.
    fn first_change_past(&self, written: [usize; 6]) -> Option<String> {
        (self.rooms.named().into_iter())
            .zip(written)
            .find_map(|((name, room), from)| {
                let place = room.first_change(from)?;
                Some(format!("byte {place} of {name} changed"))
            })
    }
}

fn difference_of_words(name: &str, room: &Room, words: &[u32]) -> Option<String> {
    (words.iter().zip(room.words()).enumerate())
        .find(|(_, (word, found))| *word != found)
        .map(|(place, (word, found))| format!("word {place} of {name} is {found} and not {word}"))
}

/// Root for 1 and 2; token for 3, 5 and 6; location for 4; 0 for 19 to 23.
fn result_of(answer: &Answer) -> CallResult {
    let own_fields = own_fields(answer);
    CallResult {
        number: answer.number(),
        value: match answer.root() {
            Some(root) => root,
            None => own_fields.at,
        },
    }
}

/// What an answer carries beside its root; 0 where it has no such field.
struct OwnFields {
    /// Its token or location.
    at: u32,
    expected: Expected,
}

fn own_fields(answer: &Answer) -> OwnFields {
    let expected = Expected::default();
    match *answer {
        Answer::Accepted { .. } | Answer::Stopped(_) => OwnFields { at: 0, expected },
        Answer::AcceptedEarly { token: at, .. }
        | Answer::ExtraToken { token: at }
        | Answer::TokenizerError { token: at } => OwnFields { at, expected },
        Answer::UnrecognizedToken {
            token: at,
            expected,
        }
        | Answer::UnrecognizedEnd {
            location: at,
            expected,
        } => OwnFields { at, expected },
    }
}

/// The report: number, root, token or location, expected count, units, node, child and record
/// counts, 8 words of expected bits.
fn report_words(run: &Run) -> Vec<u32> {
    let OwnFields { at, expected } = own_fields(&run.answer);
    let head = [
        run.answer.number(),
        run.answer.root().unwrap_or(0),
        at,
        expected.count(),
        run.units as u32,
        run.nodes.len() as u32,
        run.child_entries.len() as u32,
        run.records.len() as u32,
    ];
    head.into_iter().chain(expected.0).collect()
}
