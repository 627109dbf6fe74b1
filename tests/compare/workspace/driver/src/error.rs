//! What can end a run, and its exit status.

use std::fmt;
use std::io;

use crate::script::Malformed;

#[derive(Debug)]
pub enum Error {
    /// The two sides answered differently. The text shows where.
    Differs(String),
    /// The ported code violated the contract of its C function.
    Ported(String),
    /// An answer is not the one that document 01 requires.
    Wrong(String),
    /// The oracle contradicts itself, so nothing can be compared with it.
    Oracle(String),
    /// The mode needs a library (the second text), and the variable (the first)
    /// names no folder that has it.
    NoLibrary(&'static str, &'static str),
    Usage(String),
    Script(Malformed),
    File(String, io::Error),
}

impl Error {
    /// 1: something was compared and is wrong. 2: nothing was compared.
    pub fn status(&self) -> u8 {
        match self {
            Error::Differs(_) | Error::Ported(_) | Error::Wrong(_) | Error::Oracle(_) => 1,
            _ => 2,
        }
    }
}

impl fmt::Display for Error {
    fn fmt(&self, f: &mut fmt::Formatter<'_>) -> fmt::Result {
        match self {
            Error::Differs(text) => write!(f, "the answers differ\n{text}"),
            Error::Ported(text) => write!(f, "the ported code: {text}"),
            Error::Wrong(text) => f.write_str(text),
            Error::Oracle(text) => write!(f, "the oracle is wrong: {text}"),
            Error::NoLibrary(variable, library) => write!(
                f,
                "this mode needs {library}: set {variable} to the folder that has it"
            ),
            Error::Usage(text) => f.write_str(text),
            Error::Script(malformed) => malformed.fmt(f),
            Error::File(name, error) => write!(f, "{name}: {error}"),
        }
    }
}

impl From<Malformed> for Error {
    fn from(malformed: Malformed) -> Self {
        Error::Script(malformed)
    }
}
