//! Book calls: every combination of allowances at and above their tops, every
//! three of a few groups, and every short string of a few bytes at the
//! positions where runs and blocks branch.

use crate::compare::Session;
use crate::error::Error;
use crate::random_books::reads::Kind;
use crate::scenario::Part::{Byte, Bytes, Packed, Text, Word};
use crate::scenario::{AMPLE, wire};
use crate::scenarios;
use crate::script::{Blob, Call, Script, Win};

/// Every scenario whose answers were worked out by hand, each in its own
/// script.
pub fn worked_scenarios(session: &mut Session) -> Result<(), Error> {
    for suite in scenarios::suites() {
        for scenario in &suite.scenarios {
            session.whole(&scenario.script)?;
        }
    }
    Ok(())
}

/// The longest windows that are allowed, and longer ones.
pub fn large_windows(session: &mut Session) -> Result<(), Error> {
    for scenario in scenarios::large() {
        session.whole(&scenario.script)?;
    }
    Ok(())
}

/// Enough for a book with all allowances at their tops, which takes up to 333
/// million bytes by document 01.
pub const OPENING_MEMORY: usize = 1 << 31;

/// Each allowance at 0, at its top and above it.
pub fn openings(session: &mut Session) -> Result<(), Error> {
    const TOPS: [u64; 5] = [1_000_000, 100_000, 1_000_000, 67_108_864, 1_000_000];
    for choice in 0..4_u32.pow(5) {
        let mut left = choice;
        let allowances = TOPS.map(|top| {
            let kind = left % 4;
            left /= 4;
            [0, top, top + 1, u64::MAX][kind as usize]
        });
        let mut script = Script::new();
        script.call(&Call::Open {
            book: 3,
            allowances,
        });
        script.call(&Call::SetGuid {
            guid: 7,
            path: Blob::Plain(b"x"),
            outer: 0,
        });
        script.call(&Call::AddGroup {
            path: Blob::Plain(b"y"),
            index: 1,
            slots: 1,
        });
        look(&mut script);
        session.whole(&script)?;
    }
    Ok(())
}

fn look(script: &mut Script) {
    script.call(&Call::Dump {
        groups: 3,
        slots: 4,
        guids: 3,
    });
    script.call(&Call::Counters);
}

/// Some of these paths are keys of others, and some have the same leaf.
const PATHS: [&str; 12] = [
    "",
    "Default__",
    "A",
    "Default__A",
    "A_ClassNetCache",
    "/x/y",
    "/x/_Core/y",
    "/Game/Characters/J",
    "/Game/Characters/_Core/J",
    "/s.A",
    "/t.A",
    "/s.A_ClassNetCache",
];

/// How many books are filled in one script.
const BOOKS: usize = 200;

/// Every three groups, each with one of two indices, and then a lookup with
/// every path and with a few names.
pub fn three_groups(session: &mut Session) -> Result<(), Error> {
    let choices = PATHS.len() * 2;
    let mut script = Script::new();
    for choice in 0..choices.pow(3) {
        script.call(&Call::Open {
            book: 0,
            allowances: AMPLE,
        });
        for nth in 0..3 {
            let one = choice / choices.pow(nth) % choices;
            script.call(&Call::AddGroup {
                path: Blob::Plain(PATHS[one / 2].as_bytes()),
                index: (one % 2) as u32,
                slots: nth + 1,
            });
        }
        find_all(&mut script);
        if choice % BOOKS == 0 {
            session.whole(&script)?;
            script.clear();
        }
    }
    session.whole(&script)
}

fn find_all(script: &mut Script) {
    for path in PATHS {
        let blob = Blob::Plain(path.as_bytes());
        script.call(&Call::GroupByPath(blob));
        script.call(&Call::ClassNetCacheKey(blob));
    }
    for name in ["A", "A_1", "A1", ""] {
        let blob = Blob::Plain(name.as_bytes());
        script.call(&Call::LeafMatch(blob));
        script.call(&Call::ResolveInstance(blob));
    }
    script.call(&Call::Write { buffer: 100 });
    look(script);
}

/// Bytes that have different meanings at different positions.
const BYTES: [u8; 8] = [0x00, 0x01, 0x02, 0x03, 0x04, 0x0A, 0x41, 0xFF];

/// The longest string of them.
const LONGEST: u32 = 5;

/// How many readings are in one script.
const READINGS: usize = 500;

pub fn short_fields(session: &mut Session) -> Result<(), Error> {
    let starts = [
        wire(&[]),
        // Then an entry that exports a group, a field of that group, a field of
        // a known group, and such a field with the first bytes of its name.
        wire(&[Packed(2), Packed(1), Packed(1), Text("")]),
        wire(&[
            Packed(1),
            Packed(1),
            Packed(1),
            Text(""),
            Packed(3),
            Byte(1),
        ]),
        wire(&[Packed(1), Packed(5), Packed(0), Byte(1), Packed(1), Word(7)]),
        wire(&[
            Packed(1),
            Packed(5),
            Packed(0),
            Byte(1),
            Packed(1),
            Word(7),
            Bytes(&[0, 1, 0, 0]),
        ]),
    ];
    for start in starts {
        each_string(session, &start, Kind::Fields)?;
    }
    Ok(())
}

pub fn short_objects(session: &mut Session) -> Result<(), Error> {
    for exporting in [0, 1] {
        for (depth, start) in [(0, wire(&[])), (14, wire(&[Packed(1), Byte(5)]))] {
            each_string(session, &start, Kind::Object { exporting, depth })?;
        }
    }
    // Payloads whose size is that of the string, or larger or smaller.
    for size in [4, 5, 6] {
        each_string(session, &wire(&[Packed(2), Word(size)]), Kind::Guids)?;
    }
    Ok(())
}

pub fn short_blocks(session: &mut Session) -> Result<(), Error> {
    let words = |guids| wire(&[Word(20), Bytes(&[0; 12]), Word(guids)]);
    let literal = wire(&[Packed(2), Packed(0), Byte(1), Text("a"), Byte(0)]);
    let group = wire(&[Word(2), Text("g"), Packed(6)]);
    let starts = [
        wire(&[]),
        words(1),
        [words(2), literal].concat(),
        [words(0), group.clone()].concat(),
        [words(0), group, wire(&[Packed(2)])].concat(),
    ];
    for start in starts {
        each_string(session, &start, Kind::Block)?;
    }
    Ok(())
}

/// Reads `start` followed by every short string. Each reading gets the same
/// small book.
fn each_string(session: &mut Session, start: &[u8], kind: Kind) -> Result<(), Error> {
    let mut script = Script::new();
    let mut readings = 0;
    for len in 0..=LONGEST {
        for choice in 0..BYTES.len().pow(len) {
            if readings % READINGS == 0 {
                session.whole(&script)?;
                script.clear();
                script.call(&Call::Open {
                    book: 0,
                    allowances: AMPLE,
                });
            }
            readings += 1;
            let string = digits(choice, len);
            small_book(&mut script);
            script.call(&kind.call(Win::whole(&[start, &string].concat())));
            look(&mut script);
        }
    }
    session.whole(&script)
}

fn small_book(script: &mut Script) {
    script.call(&Call::Clear);
    script.call(&Call::AddGroup {
        path: Blob::Plain(b"k"),
        index: 5,
        slots: 2,
    });
}

/// The digits of `choice` in base `BYTES.len()`, as elements of `BYTES`.
fn digits(choice: usize, len: u32) -> Vec<u8> {
    let mut left = choice;
    (0..len)
        .map(|_| {
            let byte = BYTES[left % BYTES.len()];
            left /= BYTES.len();
            byte
        })
        .collect()
}
