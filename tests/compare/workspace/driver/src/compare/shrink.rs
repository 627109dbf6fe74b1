//! Shortens a script that shows a difference.

use std::fmt;

use super::{Difference, Sides};
use crate::script::{Call, Decoder, Script};

/// The most calls of a script that are shown.
const SHOWN_CALLS: usize = 24;

/// A shortened script and the difference that it shows.
pub struct Shortened {
    pub script: Vec<u8>,
    pub difference: Difference,
}

impl fmt::Display for Shortened {
    fn fmt(&self, f: &mut fmt::Formatter<'_>) -> fmt::Result {
        let calls = calls_of(&self.script);
        let more = calls.len().saturating_sub(SHOWN_CALLS);
        if more > 0 {
            writeln!(f, "({more} calls, then)")?;
        }
        for (number, (call, _)) in calls.iter().enumerate().skip(more) {
            writeln!(f, "call {number}: {call}")?;
        }
        self.difference.fmt(f)
    }
}

pub fn shortened(sides: &mut Sides, script: &[u8], difference: Difference) -> Shortened {
    let script = without_unneeded_calls(sides, script, &difference);
    // The lines now have other numbers, and the first difference may be another
    // one.
    let difference = match sides.differ(&script) {
        Ok(Some(difference)) => difference,
        _ => difference,
    };
    Shortened { script, difference }
}

/// Removes the calls after the one that differs. If that call is independent
/// and differs by itself, it is kept alone. Otherwise every call is removed
/// without which a difference remains.
fn without_unneeded_calls(sides: &mut Sides, script: &[u8], difference: &Difference) -> Vec<u8> {
    let mut calls = calls_of(script);
    if let Some(number) = difference.call_number() {
        calls.truncate(number + 1);
    }
    if let Some(last) = calls.last()
        && last.0.is_independent()
    {
        let alone = joined(std::slice::from_ref(last));
        if differs(sides, &alone) {
            return alone;
        }
    }
    // A call that was needed may become removable after another one is gone.
    loop {
        let before = calls.len();
        for at in (0..calls.len()).rev() {
            let removed = calls.remove(at);
            if !differs(sides, &joined(&calls)) {
                calls.insert(at, removed);
            }
        }
        if calls.len() == before {
            return joined(&calls);
        }
    }
}

fn differs(sides: &mut Sides, script: &[u8]) -> bool {
    matches!(sides.differ(script), Ok(Some(_)))
}

/// A script's calls, each with its bytes in the script.
fn calls_of(script: &[u8]) -> Vec<(Call<'_>, &[u8])> {
    let mut found = Vec::new();
    let Ok(mut calls) = Decoder::new(script) else {
        return found;
    };
    let mut start = calls.at();
    while let Ok(Some(call)) = calls.next_call() {
        found.push((call, &script[start..calls.at()]));
        start = calls.at();
    }
    found
}

fn joined(calls: &[(Call<'_>, &[u8])]) -> Vec<u8> {
    let mut script = Script::new();
    for (_, bytes) in calls {
        script.raw(bytes);
    }
    script.as_bytes().to_vec()
}
