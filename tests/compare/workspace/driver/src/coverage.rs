//! Which calls and refusals occurred in a comparison. A comparison says nothing
//! about a refusal that did not occur.

use std::collections::{BTreeMap, BTreeSet};
use std::fmt::{self, Debug, Write};

use crate::script::{Call, Reading};

/// A refusal's number; for some numbers also the first detail, see `BY_KIND`.
pub type Kind = (u32, Option<u64>);

/// Refusals whose first detail is a kind: an allowance or a count of a block.
const BY_KIND: [u32; 3] = [1, 31, 42];

#[derive(Default)]
pub struct Coverage {
    pub refusals: BTreeMap<Kind, u64>,
    /// How often each call was made.
    pub calls: BTreeMap<String, u64>,
    pub readings: BTreeSet<String>,
}

impl Coverage {
    pub fn note_call(&mut self, call: &Call<'_>) {
        *self.calls.entry(variant(call)).or_default() += 1;
        if let Call::Bits { readings, .. } = call {
            self.note_readings(readings);
        }
    }

    fn note_readings(&mut self, readings: &[Reading]) {
        self.readings.extend(readings.iter().map(variant));
    }

    pub fn note_answers(&mut self, answers: &[u8]) {
        for line in answers.split(|&b| b == b'\n') {
            if let Some(kind) = refusal_of(&String::from_utf8_lossy(line)) {
                *self.refusals.entry(kind).or_default() += 1;
            }
        }
    }

    /// The numbers of the refusals, without kinds.
    pub fn numbers(&self) -> BTreeSet<u32> {
        self.refusals.keys().map(|&(number, _)| number).collect()
    }
}

/// The name of an enum's variant, without its fields.
fn variant(shown: &impl Debug) -> String {
    let mut name = Name(String::new());
    // `Name` returns an error at the end of the name: the fields may be long,
    // and are not formatted.
    let _ = write!(name, "{shown:?}");
    name.0
}

/// Takes the text up to the first `(` or space.
struct Name(String);

impl Write for Name {
    fn write_str(&mut self, text: &str) -> fmt::Result {
        let end = text.find(['(', ' ']);
        self.0.push_str(&text[..end.unwrap_or(text.len())]);
        match end {
            None => Ok(()),
            Some(_) => Err(fmt::Error),
        }
    }
}

/// Parses `N refused NUMBER A B` and `N tally refusal=NUMBER a=A b=B`.
fn refusal_of(line: &str) -> Option<Kind> {
    let mut words = line.split(' ').skip(1);
    let (number, a) = match words.next()? {
        "refused" => (words.next()?, words.next()?),
        "tally" => (
            words.next()?.strip_prefix("refusal=")?,
            words.next()?.strip_prefix("a=")?,
        ),
        _ => return None,
    };
    let number = number.parse().ok()?;
    let kind = a.parse().ok().filter(|_| BY_KIND.contains(&number));
    Some((number, kind))
}

impl fmt::Display for Coverage {
    fn fmt(&self, f: &mut fmt::Formatter<'_>) -> fmt::Result {
        f.write_str("calls made:")?;
        for (call, times) in &self.calls {
            write!(f, " {call} {times}x")?;
        }
        f.write_str("\nrefusals seen:")?;
        for ((number, kind), times) in &self.refusals {
            match kind {
                Some(kind) => write!(f, " {number}({kind}) {times}x")?,
                None => write!(f, " {number} {times}x")?,
            }
        }
        Ok(())
    }
}
