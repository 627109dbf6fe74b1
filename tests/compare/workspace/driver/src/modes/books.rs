//! Compares random scripts of book calls.

use crate::compare::{MEMORY, Scripts};
use crate::error::Error;
use crate::random_books::late::LateJoin;
use crate::random_books::{self, calls, reads};
use crate::rng::Rng;
use crate::script::Script;

pub fn calls(seed: u64, scripts: u64) -> Result<(), Error> {
    each("calls", seed, scripts, calls::script)
}

pub fn reads(seed: u64, scripts: u64) -> Result<(), Error> {
    each("reads", seed, scripts, reads::script)
}

fn each(mode: &str, seed: u64, scripts: u64, make: fn(&mut Rng) -> Script) -> Result<(), Error> {
    let mut both = Scripts::open(MEMORY)?;
    for nth in 0..scripts {
        both.check(&make(&mut nth_rng(seed, nth)))?;
    }
    report(mode, seed, &both);
    Ok(())
}

pub fn late(seed: u64, scripts: u64) -> Result<(), Error> {
    let mut both = Scripts::open(MEMORY)?;
    let mut late = 0;
    for nth in 0..scripts {
        let join = random_books::late::late_join(&mut nth_rng(seed, nth));
        let answers = both.check(&join.script)?;
        late += u64::from(check_late_reader(&join, answers)?);
    }
    report("late", seed, &both);
    println!("{late} late readers, all like the early ones");
    Ok(())
}

/// Each script has its own seed, so that it can be made without the scripts
/// before it.
pub fn nth_rng(seed: u64, nth: u64) -> Rng {
    Rng::new(Rng::new(seed ^ nth.rotate_left(32)).next())
}

fn report(mode: &str, seed: u64, both: &Scripts) {
    println!(
        "{mode} {seed}: {} scripts, {} calls, all answers equal",
        both.scripts, both.calls
    );
    println!("{}", both.coverage);
}

/// Checks demand 3 of document 01 on the oracle's answers. The late reader
/// reads the block. From then on both readers answer the same, except that the
/// differences between their counters stay constant. Returns whether the block
/// was written, so that there is a late reader.
pub fn check_late_reader(join: &LateJoin, answers: &[u8]) -> Result<bool, Error> {
    let lines = Lines::of(answers);
    if !lines.of_call(join.write).starts_with("length") {
        return Ok(false);
    }
    let read = join.write + 2;
    if !lines.of_call(read).starts_with("counts") {
        return Err(wrong_late_reader(read, lines.of_call(read)));
    }
    let mut distance = None;
    for &(early, late) in &join.pairs {
        let (at_early, at_late) = (lines.of_call(early), lines.of_call(late));
        let alike = match (counters_in(at_early), counters_in(at_late)) {
            (Some(early), Some(late)) => {
                let now = distances(&early, &late);
                *distance.get_or_insert_with(|| now.clone()) == now
            }
            _ => at_early == at_late,
        };
        if !alike {
            return Err(wrong_late_reader(late, at_late));
        }
    }
    Ok(true)
}

fn wrong_late_reader(call: usize, line: &str) -> Error {
    Error::Wrong(format!("a late reader differs at call {call}: {line}"))
}

fn counters_in(line: &str) -> Option<Vec<u64>> {
    let words = line.strip_prefix("counters ")?.split_whitespace();
    Some(words.filter_map(|word| word.parse().ok()).collect())
}

fn distances(early: &[u64], late: &[u64]) -> Vec<u64> {
    std::iter::zip(early, late)
        .map(|(early, late)| late.wrapping_sub(*early))
        .collect()
}

/// The answer of each call, without the call's number. Several lines are
/// joined.
struct Lines {
    calls: Vec<String>,
}

impl Lines {
    fn of(answers: &[u8]) -> Self {
        let mut calls: Vec<String> = Vec::new();
        for line in String::from_utf8_lossy(answers).lines() {
            let (number, text) = line.split_once(' ').unwrap_or_default();
            let number = number.parse().unwrap_or(0);
            while calls.len() <= number {
                calls.push(String::new());
            }
            calls[number] += text;
            calls[number] += "\n";
        }
        Lines { calls }
    }

    fn of_call(&self, number: usize) -> &str {
        self.calls.get(number).map_or("", String::as_str)
    }
}
