//! Times the loops of the ported code and of the original.
//!
//! It prints only ratios, growths and speeds. Both sides get the same input in
//! turn, and on each side the best of many rounds counts, so other work on the
//! machine matters as little as possible.

#[cfg(has_bench)]
mod bits;
#[cfg(has_bench)]
mod blocks;
#[cfg(has_bench)]
mod book;
#[cfg(has_bench)]
mod case;
#[cfg(has_bench)]
mod sheet;

use crate::error::Error;

#[cfg(not(has_bench))]
pub fn run(_: Option<&str>) -> Result<(), Error> {
    Err(Error::NoLibrary("VRF_BENCHLIB", "libbench_loops.a"))
}

#[cfg(has_bench)]
pub fn run(only: Option<&str>) -> Result<(), Error> {
    let mut cases = bits::cases()?;
    let (mut of_books, text) = book::cases()?;
    let (mut of_blocks, bytes) = blocks::cases()?;
    cases.append(&mut of_books);
    cases.append(&mut of_blocks);
    let cases = case::run(cases, only)?;
    book::report(&cases, text);
    blocks::report(&cases, &bytes);
    Ok(())
}
