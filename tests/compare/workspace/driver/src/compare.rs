//! Plays the same scripts on both sides, up to the first difference.

mod difference;
mod shrink;

pub use difference::{Difference, first_difference};
pub use shrink::Shortened;

use std::env;
use std::fs;
use std::path::Path;

use crate::coverage::Coverage;
use crate::error::Error;
use crate::oracle;
use crate::ported::Player;
use crate::script::{Decoder, Reading, Script, Win};

/// A script of independent calls is played when it has this many bytes.
const CHUNK: usize = 100_000;

/// Space for the ported side's text beyond the length of the oracle's, so that
/// additional lines are shown too.
const SLACK: usize = 1 << 22;

/// Memory lent to the ported side for books, unless a part needs more. Windows
/// and blocks get a second buffer of this size.
pub const MEMORY: usize = 1 << 26;

/// The oracle and the ported code.
pub struct Sides {
    player: Player,
    /// The oracle's answers to the last script. The buffer is used again.
    answers: Vec<u8>,
}

impl Sides {
    pub fn open(memory: usize) -> Result<Self, Error> {
        Ok(Self::with(Player::new(memory)?))
    }

    pub fn with(player: Player) -> Self {
        Sides {
            player,
            answers: Vec::new(),
        }
    }

    /// Plays a script on both sides. If they differ, the error has a shortened
    /// script, which is also stored.
    pub fn check(&mut self, script: &[u8]) -> Result<(), Error> {
        match self.differ(script) {
            Ok(None) => Ok(()),
            Ok(Some(difference)) => {
                let short = shrink::shortened(self, script, difference);
                let text = short.to_string() + keep(&short.script);
                Err(Error::Differs(text))
            }
            Err(Error::Oracle(text)) => Err(Error::Oracle(text + keep(script))),
            Err(error) => Err(error),
        }
    }

    /// A shortened script that shows the difference, if there is one.
    pub fn shortened(&mut self, script: &[u8]) -> Result<Option<Shortened>, Error> {
        let difference = self.differ(script)?;
        Ok(difference.map(|difference| shrink::shortened(self, script, difference)))
    }

    /// The oracle's answers to the last script.
    pub fn answers(&self) -> &[u8] {
        &self.answers
    }

    fn differ(&mut self, script: &[u8]) -> Result<Option<Difference>, Error> {
        self.answers = oracle::play(script, std::mem::take(&mut self.answers))?;
        let ported = self.player.play(script, self.answers.len() + SLACK)?;
        Ok(first_difference(&self.answers, ported))
    }
}

/// Stores a script for a later look. A folder that cannot be written to is no
/// error.
fn keep(script: &[u8]) -> &'static str {
    let written = env::var_os("VRF_COMPARE_DIR")
        .map(|folder| Path::new(&folder).join("difference.vjs"))
        .is_some_and(|file| fs::write(file, script).is_ok());
    if written {
        "\n(the script is difference.vjs in the build folder)"
    } else {
        ""
    }
}

/// Collects independent calls, and plays them on both sides when there are
/// enough of them.
pub struct Session {
    sides: Sides,
    script: Script,
    calls: u64,
}

impl Session {
    pub fn open(memory: usize) -> Result<Self, Error> {
        Ok(Session {
            sides: Sides::open(memory)?,
            script: Script::new(),
            calls: 0,
        })
    }

    pub fn bits(&mut self, win: &Win<'_>, readings: &[Reading]) -> Result<(), Error> {
        self.script.bits(win, readings);
        self.calls += 1;
        if self.script.len() < CHUNK {
            return Ok(());
        }
        self.flush()
    }

    /// Plays a script whose calls depend on each other.
    pub fn whole(&mut self, script: &Script) -> Result<(), Error> {
        self.calls += count_calls(script)?;
        self.sides.check(script.as_bytes())
    }

    /// Plays the calls that were not played yet, and returns the number of all
    /// calls.
    pub fn finish(mut self) -> Result<u64, Error> {
        self.flush()?;
        Ok(self.calls)
    }

    fn flush(&mut self) -> Result<(), Error> {
        self.sides.check(self.script.as_bytes())?;
        self.script.clear();
        Ok(())
    }
}

fn count_calls(script: &Script) -> Result<u64, Error> {
    let mut decoder = Decoder::new(script.as_bytes())?;
    let mut calls = 0;
    while decoder.next_call()?.is_some() {
        calls += 1;
    }
    Ok(calls)
}

/// Compares whole scripts, and records which calls and refusals occurred.
pub struct Scripts {
    sides: Sides,
    pub scripts: u64,
    pub calls: u64,
    pub coverage: Coverage,
}

impl Scripts {
    pub fn open(memory: usize) -> Result<Self, Error> {
        Ok(Self::on(Sides::open(memory)?))
    }

    pub fn on(sides: Sides) -> Self {
        Scripts {
            sides,
            scripts: 0,
            calls: 0,
            coverage: Coverage::default(),
        }
    }

    /// Returns the oracle's answers.
    pub fn check(&mut self, script: &Script) -> Result<&[u8], Error> {
        self.sides.check(script.as_bytes())?;
        self.scripts += 1;
        let mut calls = Decoder::new(script.as_bytes())?;
        while let Some(call) = calls.next_call()? {
            self.coverage.note_call(&call);
            self.calls += 1;
        }
        self.coverage.note_answers(self.sides.answers());
        Ok(self.sides.answers())
    }
}
