//! Whole ranges of inputs, and every combination of values at the limits.

mod books;
mod limits;
mod numbers;
mod texts;

use crate::compare::{MEMORY, Session};
use crate::error::Error;
use crate::modes::usage;

struct Part {
    name: &'static str,
    memory: usize,
    play: fn(&mut Session) -> Result<(), Error>,
}

const fn part(name: &'static str, play: fn(&mut Session) -> Result<(), Error>) -> Part {
    Part {
        name,
        memory: MEMORY,
        play,
    }
}

/// The fast parts come first, and those that need much memory last.
const PARTS: &[Part] = &[
    part("scenarios", books::worked_scenarios),
    part("windows", limits::windows),
    part("nesting", limits::nesting),
    part("widths", numbers::widths),
    part("copies", limits::copies),
    part("lengths", limits::lengths),
    part("long-texts", limits::long_texts),
    part("names", limits::names),
    part("utf16-units", texts::utf16_units),
    part("utf16-edges", texts::utf16_edges),
    part("utf8-1-2", texts::utf8_one_two),
    part("utf8-edges", texts::utf8_edges),
    part("packed-cut", numbers::packed_cut),
    part("packed-5", numbers::packed_five),
    part("bytes-1", numbers::one_byte),
    part("bytes-2", numbers::two_bytes),
    part("utf8-3", texts::utf8_three),
    part("three-groups", books::three_groups),
    part("short-objects", books::short_objects),
    part("short-fields", books::short_fields),
    part("short-blocks", books::short_blocks),
    part("bytes-3", numbers::three_bytes),
    Part {
        name: "large",
        memory: limits::LARGE_MEMORY,
        play: limits::large,
    },
    Part {
        name: "large-books",
        memory: limits::LARGE_MEMORY,
        play: books::large_windows,
    },
    Part {
        name: "openings",
        memory: books::OPENING_MEMORY,
        play: books::openings,
    },
];

pub fn run(only: Option<&str>) -> Result<(), Error> {
    let chosen: Vec<&Part> = PARTS
        .iter()
        .filter(|part| only.is_none_or(|name| name == part.name))
        .collect();
    if chosen.is_empty() {
        let names: Vec<&str> = PARTS.iter().map(|part| part.name).collect();
        eprintln!("parts: {}", names.join(" "));
        return Err(usage());
    }
    for part in chosen {
        let mut session = Session::open(part.memory)?;
        (part.play)(&mut session)?;
        println!(
            "{}: {} calls, all answers equal",
            part.name,
            session.finish()?
        );
    }
    Ok(())
}
