//! The oracle: the customer's `Parser::drive` with a `ParserDefinition` over document 01's tables.
//!
//! The driver is run as it is. All that document 01 asks to come back is taken from what the driver
//! hands to its definition: the looks from its calls of the three action functions, the nodes from
//! the order in which it makes and reduces symbols, the records from its `ErrorRecovery`, and what a
//! mark covers from the symbols and locations that it lets go and copies while it places it. Only
//! what document 01 adds to the driver is rendered here: cells, gotos, a reduction's node and place.
#![forbid(unsafe_code)]

mod definition;
pub mod stored;
mod workings;

use chamrolak_rules::answer::{Answer, Expected, Limit, Run};
use chamrolak_rules::drive::TOKENIZER_ERROR_KIND;
use chamrolak_rules::tables::{Tables, Token};
use definition::{Definition, InputToken, Success, TokenizerError};
use lalrpop_util::state_machine::{Parser, TokenTriple};
use lalrpop_util::ParseError;
use std::panic::{catch_unwind, resume_unwind, AssertUnwindSafe};
use workings::{Place, Stop, Workings};

/// Runs the Rust driver over tables that pass the check. Some such tables reduce for ever, so the
/// run ends with answer 19 when it wants one look more than the budget.
pub fn run(tables: &Tables, tokens: &[Token], start_location: u32, budget: u64) -> Run {
    let workings = Workings::new(tokens.len(), budget);
    let definition = Definition::new(tables, start_location, &workings);
    let outcome = catch_unwind(AssertUnwindSafe(|| {
        let input = input(tokens, &workings);
        let result = Parser::drive(definition, input);
        workings.pay();
        result
    }));
    let answer = match outcome {
        Ok(result) => answer_of(result),
        Err(panic) if panic.is::<Stop>() => Answer::Stopped(Limit::Consultations),
        Err(panic) => resume_unwind(panic),
    };
    workings.into_run(answer)
}

type Input<'a> = Result<TokenTriple<Definition<'a>>, Error<'a>>;
type Error<'a> = ParseError<Place<'a>, InputToken, TokenizerError>;

/// The token list as the driver's iterator. Kind 65535 is the tokenizer's own error.
fn input<'a>(tokens: &'a [Token], workings: &'a Workings) -> impl Iterator<Item = Input<'a>> {
    (0..).zip(tokens).map(move |(index, &token)| {
        workings.read(index);
        if token.kind == TOKENIZER_ERROR_KIND {
            let error = TokenizerError { token: index };
            return Err(ParseError::User { error });
        }
        let start = Place::new(token.start, workings);
        let end = Place::new(token.end, workings);
        Ok((start, InputToken { index, token }, end))
    })
}

fn answer_of(result: Result<Success, Error>) -> Answer {
    match result {
        Ok(Success::AtTheEnd { root }) => Answer::Accepted { root },
        Ok(Success::InErrorColumn { root, token }) => Answer::AcceptedEarly { root, token },
        Err(ParseError::UnrecognizedToken { token, expected }) => Answer::UnrecognizedToken {
            token: token.1.index,
            expected: expected_kinds(&expected),
        },
        Err(ParseError::UnrecognizedEof { location, expected }) => Answer::UnrecognizedEnd {
            location: location.value(),
            expected: expected_kinds(&expected),
        },
        Err(ParseError::ExtraToken { token }) => Answer::ExtraToken {
            token: token.1.index,
        },
        Err(ParseError::User { error }) => Answer::TokenizerError { token: error.token },
        Err(ParseError::InvalidToken { .. }) => unreachable!("only lalrpop's lexer gives this"),
    }
}

/// The definition names a kind by its number.
fn expected_kinds(names: &[String]) -> Expected {
    let kind = |name: &String| name.parse::<u32>().expect("a kind's number");
    names.iter().map(kind).collect()
}
