//! The program `tally`: it reads a block from standard input and prints its
//! counts.

use super::Answered;
use super::book::Book;
use super::walk::Counts;
use crate::answer::{Answers, Refusal};
use crate::error::Error;
use crate::script::{Blob, Win};

/// The most bytes that it reads.
const INPUT_TOP: u64 = 65_536;

const ALLOWANCES: [u64; 5] = [128, 32, 128, 8_192, 128];

pub fn play(input: &Blob<'_>, answers: &mut Answers) -> Result<(), Error> {
    let answer = counts(input)?;
    answers.line(|answers| {
        answers.word("tally");
        match answer {
            Ok(counts) => lines(answers, &counts.named()),
            Err(Refusal { number, a, b }) => {
                lines(
                    answers,
                    &[("refusal", u64::from(number)), ("a", a), ("b", b)],
                );
            }
        }
    });
    Ok(())
}

fn counts(input: &Blob<'_>) -> Result<Answered<Counts>, Error> {
    if input.len() > INPUT_TOP {
        return Ok(Err(Refusal::new(43, 0, 0)));
    }
    match Book::open(ALLOWANCES) {
        Err(refusal) => Ok(Err(refusal)),
        Ok(mut book) => book.read_block(&Win::whole(&input.bytes())),
    }
}

fn lines(answers: &mut Answers, lines: &[(&str, u64)]) {
    for (name, number) in lines {
        answers.word(" ");
        answers.word(name);
        answers.word("=");
        answers.number(*number);
    }
}
