//! Tests of the oracle and of the comparison itself, without ported code:
//! answers that were worked out by hand from document 01, the samples, and
//! comparisons of the oracle with itself.

use std::collections::BTreeSet;

use crate::compare::{Scripts, Sides, first_difference};
use crate::coverage::Coverage;
use crate::error::Error;
use crate::modes::books::{check_late_reader, nth_rng};
use crate::modes::sample::samples;
use crate::oracle;
use crate::ported::Player;
use crate::random_books::{calls, late, reads};
use crate::scenario::Scenario;
use crate::scenarios;
use crate::script::Reading::{self, Bit, Bits, Copy, I32, Name, Packed, Sub, Text, U8, U32, Up};
use crate::script::{Blob, Decoder, KINDS, READINGS, Script, Win};

pub fn run() -> Result<(), Error> {
    let worked = check_worked_answers()? + check_scenarios()?;
    println!("{worked} answers worked out by hand");
    println!("{} samples", check_samples()?);
    check_difference()?;
    check_shortening()?;
    let (scripts, calls) = check_itself()?;
    println!("{scripts} random scripts with {calls} calls against itself");
    Ok(())
}

/// Plays each scenario by itself. Returns the number of calls.
fn check_scenarios() -> Result<usize, Error> {
    let suites = scenarios::suites()
        .into_iter()
        .flat_map(|suite| suite.scenarios);
    let mut calls = 0;
    for scenario in suites.chain(scenarios::large()) {
        let answers = oracle::play(scenario.script.as_bytes(), Vec::new())?;
        let answers = String::from_utf8_lossy(&answers).into_owned();
        let mut lines = answers.lines();
        for expected in &scenario.expected {
            let got = lines.next().unwrap_or("(nothing)");
            if got != expected {
                return Err(wrong(format!(
                    "{}: expected {expected}, got {got}",
                    scenario.what
                )));
            }
        }
        if let Some(line) = lines.next() {
            return Err(wrong(format!("{}: also got {line}", scenario.what)));
        }
        calls += scenario.calls();
    }
    Ok(calls)
}

fn wrong(what: String) -> Error {
    Error::Wrong(what)
}

/// A call and the lines of its answer, without the call's number.
struct Worked<'a> {
    what: &'static str,
    win: Win<'a>,
    readings: Vec<Reading>,
    lines: &'static [&'static str],
}

fn worked<'a>(
    what: &'static str,
    win: Win<'a>,
    readings: &[Reading],
    lines: &'static [&'static str],
) -> Worked<'a> {
    Worked {
        what,
        win,
        readings: readings.to_vec(),
        lines,
    }
}

/// Plays all of them as one script, so that the calls' numbers are tested too.
fn check_worked_answers() -> Result<usize, Error> {
    let mut cases = worked_numbers();
    cases.extend(worked_texts());
    cases.extend(worked_windows());
    let mut script = Script::new();
    for case in &cases {
        script.bits(&case.win, &case.readings);
    }
    let answers = oracle::play(script.as_bytes(), Vec::new())?;
    let answers = String::from_utf8_lossy(&answers).into_owned();
    let mut lines = answers.split_terminator('\n');
    for (number, case) in cases.iter().enumerate() {
        for line in case.lines {
            let expected = format!("{number} {line}");
            let got = lines.next().unwrap_or("(nothing)");
            if got != expected {
                return Err(wrong(format!(
                    "{}: expected {expected}, got {got}",
                    case.what
                )));
            }
        }
    }
    match lines.next() {
        Some(line) => Err(wrong(format!("one more line than expected: {line}"))),
        None if !answers.ends_with('\n') => Err(wrong("the last line has no line end".to_owned())),
        None => Ok(cases.len()),
    }
}

fn worked_numbers() -> Vec<Worked<'static>> {
    vec![
        worked(
            "P1",
            Win::whole(&[0xFE]),
            &[Packed],
            &["window", "value 127 at 8"],
        ),
        worked(
            "P2",
            Win::whole(&[0x01, 0x02]),
            &[Packed],
            &["window", "value 128 at 16"],
        ),
        worked(
            "P3",
            Win::whole(&[0xFF, 0xFF, 0xFF, 0xFF, 0x1E]),
            &[Packed],
            &["window", "value 4294967295 at 40"],
        ),
        worked(
            "P4 with a fifth chunk above 15",
            Win::whole(&[0xFF, 0xFF, 0xFF, 0xFF, 0x20]),
            &[Packed],
            &["window", "refused 12 0 0 at 0"],
        ),
        worked(
            "P4 with a sixth byte announced",
            Win::whole(&[0xFF, 0xFF, 0xFF, 0xFF, 0x21]),
            &[Packed],
            &["window", "refused 11 0 0 at 0"],
        ),
        // The number starts at bit 8. Its second byte would start at bit 16,
        // and is missing.
        worked(
            "a packed number that is cut",
            Win::whole(&[0x04, 0x03]),
            &[Packed, Packed, U8],
            &[
                "window",
                "value 2 at 8",
                "refused 10 16 8 at 8",
                "value 3 at 16",
            ],
        ),
        // The low three bits of 1011 0100 are 100, the others 10110.
        worked(
            "low bits first",
            Win::whole(&[0xB4]),
            &[Bits(3), Bits(5), Bits(0), Bit],
            &[
                "window",
                "value 4 at 3",
                "value 22 at 8",
                "value 0 at 8",
                "refused 10 8 1 at 8",
            ],
        ),
        // Bits 3 to 15 are 1 1111 1001 0110, which is 8086. Bits 0 to 2 are
        // outside.
        worked(
            "a window inside a byte",
            Win::new(&[0xB4, 0xFC], 3, 13),
            &[Bits(13)],
            &["window", "value 8086 at 13"],
        ),
        worked(
            "a width over 64, refused before too few bits",
            Win::whole(&[0xFF]),
            &[Bits(65), Bits(64), U8],
            &[
                "window",
                "refused 16 65 0 at 0",
                "refused 10 0 64 at 0",
                "value 255 at 8",
            ],
        ),
        worked(
            "words with and without a sign",
            Win::whole(&[0xFE, 0xFF, 0xFF, 0xFF, 0xFE, 0xFF, 0xFF, 0xFF, 0, 0, 0]),
            &[I32, U32, I32],
            &[
                "window",
                "value -2 at 32",
                "value 4294967294 at 64",
                "refused 10 64 32 at 64",
            ],
        ),
    ]
}

fn worked_texts() -> Vec<Worked<'static>> {
    vec![
        worked(
            "a text, its zero dropped, and one quoted",
            Win::whole(&[
                2, 0, 0, 0, 0x41, 0, 3, 0, 0, 0, 0x22, 0x5C, 0x7E, 0, 0, 0, 0,
            ]),
            &[Text, Text, Text],
            &[
                "window",
                r#"text "A" at 48"#,
                r#"text "\x22\x5c~" at 104"#,
                r#"text "" at 136"#,
            ],
        ),
        // U+00E9 is C3 A9. The pair D83C DFAF is U+1F3AF, F0 9F 8E AF.
        worked(
            "UTF-16",
            Win::whole(&[0xFD, 0xFF, 0xFF, 0xFF, 0xE9, 0, 0x3C, 0xD8, 0xAF, 0xDF]),
            &[Text],
            &["window", r#"text "\xc3\xa9\xf0\x9f\x8e\xaf" at 80"#],
        ),
        worked(
            "bad text",
            Win::whole(&[0, 2, 0, 0, 0, 0xC0, 0x80]),
            &[U8, Text, U8],
            &[
                "window",
                "value 0 at 8",
                "refused 14 8 0 at 8",
                "value 2 at 16",
            ],
        ),
        worked(
            "a lone surrogate",
            Win::whole(&[0xFF, 0xFF, 0xFF, 0xFF, 0x00, 0xDC]),
            &[Text],
            &["window", "refused 14 0 0 at 0"],
        ),
        worked(
            "more bytes than remain",
            Win::new(&[2, 0, 0, 0, 0x41, 0x42], 0, 47),
            &[Text],
            &["window", "refused 13 0 2 at 0"],
        ),
        worked(
            "the lowest length",
            Win::whole(&[0, 0, 0, 0x80]),
            &[Text],
            &["window", "refused 13 0 2147483648 at 0"],
        ),
        worked(
            "a length of -1 with one byte",
            Win::whole(&[0xFF, 0xFF, 0xFF, 0xFF, 0x41]),
            &[Text],
            &["window", "refused 13 0 4294967295 at 0"],
        ),
        // 4,098 bytes. The last one is no zero, so none is dropped.
        worked(
            "a long text",
            filled(&[0x02, 0x10, 0, 0], b'a', 4_102),
            &[Text],
            &["window", "refused 41 4098 0 at 0"],
        ),
        worked(
            "the longest text in a stream",
            filled(&[0, 0, 0x10, 0], b'a', 1_048_580),
            &[Text],
            &["window", "refused 41 1048576 0 at 0"],
        ),
        worked(
            "a text that is too long, with all its bytes",
            filled(&[1, 0, 0x10, 0], b'a', 1_048_581),
            &[Text],
            &["window", "refused 13 0 1048577 at 0"],
        ),
        worked(
            "N1",
            Win::whole(&[0, 3, 0, 0, 0, 0x46, 0x6F, 0x6F, 4, 0, 0, 0]),
            &[Name],
            &["window", r#"text "Foo_3" at 96"#],
        ),
        worked(
            "N1 below 0",
            Win::whole(&[0, 3, 0, 0, 0, 0x46, 0x6F, 0x6F, 0xFD, 0xFF, 0xFF, 0xFF]),
            &[Name],
            &["window", r#"text "Foo_-3" at 96"#],
        ),
        worked(
            "the lowest number",
            Win::whole(&[0, 1, 0, 0, 0, 0x46, 0, 0, 0, 0x80]),
            &[Name],
            &["window", r#"text "F_-2147483648" at 80"#],
        ),
        worked(
            "a name by index",
            Win::whole(&[9, 0x01, 0x02]),
            &[Name],
            &["window", r#"text "128" at 24"#],
        ),
        worked(
            "a name without its number",
            Win::whole(&[0, 1, 0, 0, 0, 0x46, 0, 0, 0]),
            &[Name],
            &["window", "refused 10 48 32 at 0"],
        ),
        worked(
            "a long text in a name, refused before its missing number",
            filled(&[0, 0x01, 0x10, 0, 0], b'n', 4_102),
            &[Name],
            &["window", "refused 41 4097 0 at 0"],
        ),
        // The four bytes of the number make 1111638594, which adds 11 bytes to
        // 4,086.
        worked(
            "a long rendering",
            filled(&[0, 0xF6, 0x0F, 0, 0], b'B', 4_095),
            &[Name],
            &["window", "refused 41 4097 0 at 0"],
        ),
    ]
}

fn worked_windows() -> Vec<Worked<'static>> {
    vec![
        // Bits 1 to 9 of FF 02 FF are seven ones, 0, 1: the bytes 7F and 01.
        worked(
            "a copy, and the bytes after it",
            Win::new(&[0xFF, 0x02, 0xFF], 1, 23),
            &[Copy { target: 4, bits: 9 }],
            &["window", r#"copied target "\x7f\x01\xa5\xa5" at 9"#],
        ),
        worked(
            "a target one bit too short, refused before too few bits",
            Win::whole(&[0xFF]),
            &[Copy { target: 1, bits: 9 }, Copy { target: 2, bits: 9 }],
            &[
                "window",
                r#"refused 15 9 8 target "\xa5" at 0"#,
                r#"refused 10 0 9 target "\xa5\xa5" at 0"#,
            ],
        ),
        worked(
            "a window too long",
            Win::new(&[0], 0, 9),
            &[Bit],
            &["refused 15 9 8"],
        ),
        worked(
            "a window past the end",
            Win::new(&[0], 9, 1),
            &[Bit],
            &["refused 15 1 0"],
        ),
        worked(
            "an empty window past the end",
            Win::new(&[0xFF], u64::MAX, 0),
            &[Bit],
            &["window", "refused 10 0 1 at 0"],
        ),
        worked(
            "the sum of first bit and count does not wrap",
            Win::new(&[0xFF], 8, u64::MAX - 7),
            &[Bit],
            &["refused 15 18446744073709551608 0"],
        ),
        worked(
            "a slice that is too long, refused before its window",
            filled(&[], 0, 268_435_457),
            &[Bit],
            &["refused 43 0 0"],
        ),
        // The inner windows start at bits 4 and 6 of the outermost.
        worked(
            "windows in windows",
            Win::whole(&[0x30, 0x8C]),
            &[
                Bits(4),
                Sub(8),
                Bits(2),
                Sub(7),
                Sub(6),
                Bits(6),
                Bit,
                Up,
                Bit,
                Up,
                Bits(4),
                Up,
            ],
            &[
                "window",
                "value 0 at 4",
                "inner at 12",
                "value 3 at 2",
                "refused 10 2 7 at 2",
                "inner at 8",
                "value 48 at 6",
                "refused 10 6 1 at 6",
                "up at 8",
                "refused 10 8 1 at 8",
                "up at 12",
                "value 8 at 16",
                "up at 16",
            ],
        ),
    ]
}

fn filled(head: &'static [u8], fill: u8, len: u32) -> Win<'static> {
    Win {
        blob: Blob::Filled { len, head, fill },
        first: 0,
        count: u64::from(len) * 8,
    }
}

/// The samples can be decoded to what was encoded. Together they have every
/// call, every reading and every refusal that a script can have.
fn check_samples() -> Result<usize, Error> {
    let samples = samples(1)?;
    let mut coverage = Coverage::default();
    for sample in &samples {
        read_back(&sample.script, &mut coverage)?;
        let answers = oracle::play(sample.script.as_bytes(), Vec::new())?;
        coverage.note_answers(&answers);
    }
    check_coverage(&coverage)?;
    Ok(samples.len())
}

/// Every call, every reading, and every refusal except 2 and 3, which depend on
/// the lent memory and cannot come from a script.
fn check_coverage(coverage: &Coverage) -> Result<(), Error> {
    let expected = [1..=1, 10..=16, 20..=26, 30..=36, 40..=45];
    let expected: BTreeSet<u32> = expected.into_iter().flatten().collect();
    if coverage.numbers() != expected {
        return Err(wrong(format!(
            "the only refusals are {:?}",
            coverage.numbers()
        )));
    }
    check_kinds(coverage)?;
    if coverage.readings.len() != READINGS || coverage.calls.len() != KINDS {
        let Coverage {
            calls, readings, ..
        } = coverage;
        return Err(wrong(format!(
            "the only calls are {calls:?}, with {readings:?}"
        )));
    }
    Ok(())
}

/// Refusals whose first detail is a kind occurred with every kind.
fn check_kinds(coverage: &Coverage) -> Result<(), Error> {
    for (number, kinds) in [(1, 1..=5), (31, 1..=3), (42, 1..=5)] {
        for kind in kinds {
            if !coverage.refusals.contains_key(&(number, Some(kind))) {
                return Err(wrong(format!(
                    "refusal {number} with kind {kind} never occurs"
                )));
            }
        }
    }
    Ok(())
}

fn read_back(script: &Script, coverage: &mut Coverage) -> Result<(), Error> {
    let mut again = Script::new();
    let mut calls = Decoder::new(script.as_bytes())?;
    while let Some(call) = calls.next_call()? {
        again.call(&call);
        coverage.note_call(&call);
    }
    if again.as_bytes() != script.as_bytes() {
        return Err(wrong(
            "a decoded script differs from the encoded one".to_owned(),
        ));
    }
    Ok(())
}

/// How many random scripts of each mode the oracle plays on both sides.
const SCRIPTS: u64 = 400;

/// The whole comparison with the oracle on both sides. Nothing may differ, and
/// the random scripts together have every refusal of a book.
fn check_itself() -> Result<(u64, u64), Error> {
    let mut both = Scripts::on(Sides::with(Player::oracle(None)));
    for nth in 0..SCRIPTS {
        both.check(&calls::script(&mut nth_rng(1, nth)))?;
        both.check(&reads::script(&mut nth_rng(2, nth)))?;
        let join = late::late_join(&mut nth_rng(3, nth));
        let answers = both.check(&join.script)?;
        check_late_reader(&join, answers)?;
    }
    let expected = [1..=1, 10..=15, 20..=26, 30..=36, 40..=45];
    for number in expected.into_iter().flatten() {
        if !both.coverage.numbers().contains(&number) {
            return Err(wrong(format!("no random script has refusal {number}")));
        }
    }
    check_kinds(&both.coverage)?;
    Ok((both.scripts, both.calls))
}

/// A comparison with ported code that accepts crossed groups must fail, and
/// must show the four calls that are needed.
fn check_shortening() -> Result<(), Error> {
    let mut sides = Sides::with(Player::oracle(Some(|answers| {
        let text = String::from_utf8_lossy(&answers);
        text.replace("refused 23 2 0", "place 1").into_bytes()
    })));
    let mut scenario = Scenario::on_book("crossed groups, and other calls");
    scenario.guid(2, "G", 0).add("A", 1, 1).add("C", 3, 1);
    scenario.field(1, 0, 0, "f").add("B", 2, 1).by_path("B");
    scenario.add("A", 2, 1).by_path("A").dump(3, 3, 3);
    let shown = match sides.shortened(scenario.script.as_bytes())? {
        Some(shortened) => shortened.to_string(),
        None => return Err(wrong("a wrong answer was not found".to_owned())),
    };
    let expected = "call 0: open 0 with [100, 100, 100, 100000, 100]\n\
               call 1: add_export_group \"A\", 1, 1\n\
               call 2: add_export_group \"B\", 2, 1\n\
               call 3: add_export_group \"A\", 2, 1\n\
               rust: 3 refused 23 2 0\n\
               port: 3 place 1";
    match shown == expected {
        true => Ok(()),
        false => Err(wrong(format!(
            "a script was not shortened as expected: {shown}"
        ))),
    }
}

/// The comparison must find every kind of difference between two texts.
fn check_difference() -> Result<(), Error> {
    let text: &[u8] = b"0 window\n0 value 1 at 1\n1 window\n";
    let seen = |rust: &[u8], port: &[u8]| first_difference(rust, port).map(|d| (d.rust, d.port));
    let lines = |rust: &[u8], port: &[u8]| Some((rust.to_vec(), port.to_vec()));
    let cut = &text[..text.len() - 1];
    let other = b"0 window\n0 value 0 at 1\n1 window\n";
    let right = seen(text, text).is_none()
        && seen(text, cut) == lines(b"1 window\n", b"1 window")
        && seen(text, b"") == lines(b"0 window\n", b"")
        && seen(b"0 window\n", text) == lines(b"", b"0 value 1 at 1\n")
        && seen(text, other) == lines(b"0 value 1 at 1\n", b"0 value 0 at 1\n");
    match right {
        true => Ok(()),
        false => Err(wrong("the comparison misses a difference".to_owned())),
    }
}
