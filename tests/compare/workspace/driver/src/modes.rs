//! The modes of the driver.

mod bench;
mod books;
mod exhaustive;
mod files;
mod random;
mod sample;
mod selftest;

use crate::error::Error;

const USAGE: &str = "modes:
  selftest             tests the oracle: samples, and answers worked out by hand
  sample SEED DIR      writes scripts and the oracle's answers
  play FILE            prints the oracle's answers to a script
  check FILE...        compares scripts
  exhaustive [PART]    compares whole ranges of inputs
  random SEED N        compares N random calls of bits
  calls SEED N         compares N random scripts of book calls and lookups
  reads SEED N         compares N scripts of good and corrupted runs and blocks
  late SEED N          compares N scripts of an early and a late reader
  bench [NAME]         times the cases whose names begin with NAME, or all";

pub fn run(mode: &str, args: &[String]) -> Result<(), Error> {
    let args: Vec<&str> = args.iter().map(String::as_str).collect();
    match (mode, args.as_slice()) {
        ("selftest", []) => selftest::run(),
        ("sample", [seed, folder]) => sample::run(number(seed)?, folder),
        ("play", [file]) => files::play(file),
        ("check", files) if !files.is_empty() => files::check(files),
        ("exhaustive", []) => exhaustive::run(None),
        ("exhaustive", [part]) => exhaustive::run(Some(part)),
        ("random", [seed, calls]) => random::run(number(seed)?, number(calls)?),
        ("calls", [seed, scripts]) => books::calls(number(seed)?, number(scripts)?),
        ("reads", [seed, scripts]) => books::reads(number(seed)?, number(scripts)?),
        ("late", [seed, scripts]) => books::late(number(seed)?, number(scripts)?),
        ("bench", []) => bench::run(None),
        ("bench", [name]) => bench::run(Some(name)),
        _ => Err(usage()),
    }
}

pub fn usage() -> Error {
    Error::Usage(USAGE.to_owned())
}

fn number(text: &str) -> Result<u64, Error> {
    text.parse().map_err(|_| usage())
}
