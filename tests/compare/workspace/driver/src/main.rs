//! Plays scripts of calls on the original Rust and on the code ported from it,
//! and compares their answers.

mod answer;
mod compare;
mod coverage;
mod error;
mod modes;
mod oracle;
mod owned_win;
mod ported;
mod random_books;
mod random_calls;
mod rng;
mod scenario;
mod scenarios;
mod script;
mod stream;

use std::env;
use std::process::ExitCode;

fn main() -> ExitCode {
    let mut args = env::args().skip(1);
    let done = match args.next() {
        Some(mode) => modes::run(&mode, &args.collect::<Vec<_>>()),
        None => Err(modes::usage()),
    };
    match done {
        Ok(()) => ExitCode::SUCCESS,
        Err(error) => {
            eprintln!("{error}");
            ExitCode::from(error.status())
        }
    }
}
