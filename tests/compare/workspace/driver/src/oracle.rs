//! Plays scripts on the original Rust, and prints its answers.
//!
//! It adds what document 01 adds to the original's calls: more refusals, the
//! allowances, that a refused reading moves nothing, the order of GUID records,
//! the block writer and `tally`.

mod bits;
mod book;
mod books;
mod ledger;
mod lookups;
mod refusals;
mod tally;
mod texts;
mod walk;
mod windows;
mod writer;

use crate::answer::{Answers, Refusal};
use crate::error::Error;
use crate::script::{Call, Decoder};

use books::{Books, Flow};

/// A call's answer before it is printed.
type Answered<T> = Result<T, Refusal>;

/// The answers to `script`. They replace the contents of `buffer`.
pub fn play(script: &[u8], mut buffer: Vec<u8>) -> Result<Vec<u8>, Error> {
    buffer.clear();
    let mut answers = Answers::new(buffer);
    let mut books = Books::default();
    let mut calls = Decoder::new(script)?;
    while let Some(call) = calls.next_call()? {
        if play_call(&call, &mut books, &mut answers)? == Flow::Stop {
            break;
        }
        answers.next_call();
    }
    Ok(answers.into_text())
}

fn play_call(call: &Call<'_>, books: &mut Books, answers: &mut Answers) -> Result<Flow, Error> {
    match call {
        Call::Bits { win, readings } => bits::play(win, readings, answers),
        Call::Tally(input) => tally::play(input, answers)?,
        _ => return books.play(call, answers),
    }
    Ok(Flow::Continue)
}

/// Prints a refusal, or a success with `show`.
fn print<T>(answers: &mut Answers, answer: Answered<T>, show: impl FnOnce(&mut Answers, T)) {
    match answer {
        Ok(value) => show(answers, value),
        Err(refusal) => answers.refusal(refusal),
    }
}
