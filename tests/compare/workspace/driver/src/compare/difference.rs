//! The first difference between two texts.

use std::fmt;
use std::iter::zip;

/// The first line that differs, from each text, with its line end. It is empty
/// if the text has no such line.
#[derive(Clone, Debug, PartialEq, Eq)]
pub struct Difference {
    pub rust: Vec<u8>,
    pub port: Vec<u8>,
}

pub fn first_difference(rust: &[u8], port: &[u8]) -> Option<Difference> {
    if rust == port {
        return None;
    }
    let mut rust = rust.split_inclusive(|&b| b == b'\n');
    let mut port = port.split_inclusive(|&b| b == b'\n');
    loop {
        let (rust, port) = (rust.next(), port.next());
        if rust != port {
            return Some(Difference {
                rust: rust.unwrap_or_default().to_vec(),
                port: port.unwrap_or_default().to_vec(),
            });
        }
    }
}

impl Difference {
    /// The call number in the oracle's line, or in the other line if the
    /// oracle's is empty.
    pub fn call_number(&self) -> Option<usize> {
        line_number(&self.rust).or_else(|| line_number(&self.port))
    }
}

fn line_number(line: &[u8]) -> Option<usize> {
    let digits = line.split(|&b| b == b' ').next()?;
    std::str::from_utf8(digits).ok()?.parse().ok()
}

impl fmt::Display for Difference {
    fn fmt(&self, f: &mut fmt::Formatter<'_>) -> fmt::Result {
        let Difference { rust, port } = self;
        let from = shown_from(rust, port);
        write!(
            f,
            "rust: {}\nport: {}",
            shown(rust, from),
            shown(port, from)
        )
    }
}

/// The most bytes of a line that are shown.
const SHOWN: usize = 400;

/// The position from which two long lines are shown, so that the difference is
/// visible.
fn shown_from(rust: &[u8], port: &[u8]) -> usize {
    let equal = zip(rust, port).take_while(|(r, p)| r == p).count();
    equal.saturating_sub(SHOWN / 2)
}

fn shown(line: &[u8], from: usize) -> String {
    if line.is_empty() {
        return "(no line)".to_owned();
    }
    let (text, ending) = match line.strip_suffix(b"\n") {
        Some(text) => (text, ""),
        None => (line, " (no line end)"),
    };
    let from = from.min(text.len());
    let to = text.len().min(from + SHOWN);
    format!(
        "{}{}{}{ending}",
        if from > 0 { "... " } else { "" },
        String::from_utf8_lossy(&text[from..to]),
        if to < text.len() { " ..." } else { "" },
    )
}
