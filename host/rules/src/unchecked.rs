//! A run over tables that nobody checked. Document 01 speaks of tables that pass the check, but the
//! library's `chamrolak_drive` takes any bytes, and does with them what the definitions of crates/rules
//! say: "Every reader is total: a place outside its table is an error cell, a missing goto, or 0"; and
//! popping stops at the bottom of the stack.

use crate::answer::{Limits, Refusal};
use crate::check::read_tokens;
use crate::drive::{drive, Driven};
use crate::tables::{Cell, Payloads, Readers};

/// Refusal 18, and then the run.
pub fn drive_unchecked(
    payloads: &Payloads,
    token_bytes: &[u8],
    start_location: u32,
    limits: &Limits,
) -> Result<Driven, Refusal> {
    let tokens = read_tokens(token_bytes)?;
    let tables = Unchecked { payloads };
    Ok(drive(&tables, &tokens, start_location, limits))
}

struct Unchecked<'a> {
    payloads: &'a Payloads,
}

impl Unchecked<'_> {
    fn size(&self, number: usize) -> usize {
        word(&self.payloads.sizes, number).into()
    }

    fn states(&self) -> usize {
        self.size(0)
    }

    fn nonterminals(&self) -> usize {
        self.size(2)
    }
}

/// The 16-bit number at this place of a list, or 0 where it does not lie wholly inside.
fn word(bytes: &[u8], place: usize) -> u16 {
    match bytes.get(2 * place..2 * place + 2) {
        Some(two) => u16::from_le_bytes([two[0], two[1]]),
        None => 0,
    }
}

fn cell(bytes: &[u8], place: usize) -> Cell {
    Cell::decode(word(bytes, place) as i16)
}

impl Readers for Unchecked<'_> {
    fn t(&self) -> usize {
        self.size(1)
    }

    fn recovers(&self) -> bool {
        self.size(5) == 1
    }

    fn action(&self, state: usize, column: usize) -> Cell {
        let columns = self.t() + 2;
        match state < self.states() && column < columns {
            true => cell(&self.payloads.actions, state * columns + column),
            false => Cell::Error,
        }
    }

    /// A cell that is no goto leads to state 0.
    fn goto_state(&self, state: usize, nonterminal: usize) -> usize {
        if state >= self.states() || nonterminal >= self.nonterminals() {
            return 0;
        }
        let place = state * self.nonterminals() + nonterminal;
        match cell(&self.payloads.gotos, place) {
            Cell::Shift(target) => target,
            Cell::Reduce(_) | Cell::Error => 0,
        }
    }

    fn production(&self, number: usize) -> (usize, usize) {
        let productions = &self.payloads.productions;
        let number_at = |place| word(productions, place).into();
        (number_at(2 * number), number_at(2 * number + 1))
    }
}

#[cfg(test)]
mod tests {
    use super::*;
    use crate::generate::{random_location, random_specimen, random_tokens};
    use crate::random::Random;
    use crate::tables::token_bytes;

    #[test]
    fn tables_that_pass_give_the_run_of_the_rules() {
        let mut random = Random::new(7);
        for _ in 0..1_000 {
            let specimen = random_specimen(&mut random);
            let payloads = specimen.tables.encode();
            let tokens = token_bytes(&random_tokens(&mut random, &specimen.grammar, 20));
            let start = random_location(&mut random);
            let limits = Limits::budget_only(random.between(0, 300) as u64);
            assert_eq!(
                drive_unchecked(&payloads, &tokens, start, &limits),
                crate::call(&payloads, &tokens, start, &limits)
            );
        }
    }

    #[test]
    fn no_bytes_at_all_are_an_error_cell() {
        let nothing = Payloads {
            sizes: vec![],
            actions: vec![],
            gotos: vec![],
            productions: vec![],
            right_sides: vec![],
            items: vec![],
            first_sets: vec![],
        };
        let limits = Limits::budget_only(10);
        let run = drive_unchecked(&nothing, &[], 5, &limits).map(|driven| driven.run);
        let run = run.expect("an empty list passes 18");
        // t is 0 and the flag is not 1: the end of input is unrecognized, at the start location.
        assert_eq!((run.answer.number(), run.answer.fields()), (4, vec![5]));
        assert_eq!(run.units, 1);
    }
}
