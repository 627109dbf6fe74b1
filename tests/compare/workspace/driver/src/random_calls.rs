//! Random calls of `bits`. Most streams are written for the readings, at any
//! bit of a byte, some with flaws. The others are random bytes.

use crate::owned_win::OwnedWin;
use crate::rng::Rng;
use crate::script::{Reading, Win};
use crate::stream::Stream;

/// The most streams inside each other.
const DEEPEST: u32 = 6;

/// The most inner windows that the readings enter without leaving one.
const MOST_INNER: u32 = 8;

/// A window, which owns its bytes, and readings.
pub struct RandomCall {
    window: OwnedWin,
    pub readings: Vec<Reading>,
}

impl RandomCall {
    pub fn new(rng: &mut Rng) -> Self {
        if rng.once_in(4_000) {
            return huge_text(rng);
        }
        let mut plan = Plan::default();
        if rng.once_in(8) {
            plan.random_bytes(rng);
        } else {
            for _ in 0..=rng.below(10) {
                plan.element(rng, 0);
            }
        }
        limit_nesting(&mut plan.readings);
        RandomCall {
            window: OwnedWin::random(rng, &plan.stream),
            readings: plan.readings,
        }
    }

    pub fn win(&self) -> Win<'_> {
        self.window.win()
    }
}

/// A stream, and the readings for which it is written.
#[derive(Default)]
struct Plan {
    stream: Stream,
    readings: Vec<Reading>,
}

impl Plan {
    /// Adds one value to read, or a window with several values.
    fn element(&mut self, rng: &mut Rng, depth: u32) {
        match rng.below(16) {
            0 => self.number(rng, Reading::Bit, 1),
            1 | 2 => self.bits(rng),
            3 => self.number(rng, Reading::U8, 8),
            4 => self.number(rng, Reading::U32, 32),
            5 => self.number(rng, Reading::I32, 32),
            6 | 7 => {
                write_packed(rng, &mut self.stream);
                self.readings.push(Reading::Packed);
            }
            8..=10 => {
                write_text(rng, &mut self.stream);
                self.readings.push(Reading::Text);
            }
            11 | 12 => {
                write_name(rng, &mut self.stream);
                self.readings.push(Reading::Name);
            }
            13 => self.copy(rng),
            _ if depth < DEEPEST => self.inner(rng, depth),
            _ => self.readings.push(Reading::Up),
        }
    }

    fn number(&mut self, rng: &mut Rng, reading: Reading, width: u32) {
        let edges = [0, 1 << (width - 1), u64::MAX];
        let value = if rng.once_in(4) {
            rng.pick(&edges)
        } else {
            rng.next()
        };
        self.stream.bits(value, width);
        self.readings.push(reading);
    }

    fn bits(&mut self, rng: &mut Rng) {
        if rng.once_in(20) {
            let width = rng.pick(&[65, 66, 127, 128, 256, 320, 1 << 31, u32::MAX]);
            self.readings.push(Reading::Bits(width));
            return;
        }
        let width = rng.below(65) as u32;
        self.stream.bits(rng.next(), width);
        self.readings.push(Reading::Bits(width));
    }

    /// A copy into a target that fits exactly, or is shorter or longer.
    fn copy(&mut self, rng: &mut Rng) {
        let bits = match rng.below(4) {
            0 => rng.below(20),
            1 => rng.below(9) * 64,
            2 => rng.below(70) * 8,
            _ => rng.below(600),
        };
        for _ in 0..bits {
            self.stream.bit(rng.next() >> 63 == 1);
        }
        // The target fits the copy most often. Then the number of bits may
        // change too.
        let fitting = bits.div_ceil(8) as u32;
        let target = match rng.below(6) {
            0 => fitting.saturating_sub(1),
            1 => fitting + 1,
            2 => fitting + rng.below(20) as u32,
            _ => fitting,
        };
        let bits = match rng.below(12) {
            0 => u64::from(target) * 8 + 1,
            1 => rng.pick(&[u64::MAX, u64::MAX - 7, 1 << 63, 1 << 32]),
            _ => bits,
        };
        self.readings.push(Reading::Copy { target, bits });
    }

    /// An inner window with its own readings. Most often it fits them exactly,
    /// and is left again.
    fn inner(&mut self, rng: &mut Rng, depth: u32) {
        let mut inner = Plan::default();
        for _ in 0..rng.below(5) {
            inner.element(rng, depth + 1);
        }
        let len = inner.stream.len();
        let bits = match rng.below(10) {
            0 => rng.below(len + 1),
            1 => len.saturating_sub(1),
            2 => len + 1 + rng.below(16),
            3 if rng.once_in(4) => rng.pick(&[u64::MAX, u64::MAX - 1, 1 << 63, 1 << 40]),
            _ => len,
        };
        self.stream.stream(&inner.stream);
        self.readings.push(Reading::Sub(bits));
        self.readings.append(&mut inner.readings);
        for _ in 0..rng.pick(&[0, 1, 1, 1, 1, 1, 2]) {
            self.readings.push(Reading::Up);
        }
    }

    /// Random bytes, and readings that were not chosen for them.
    fn random_bytes(&mut self, rng: &mut Rng) {
        let len = rng.below(40);
        let few = rng.once_in(2);
        for _ in 0..len {
            let byte = if few {
                rng.pick(&[0x00, 0x01, 0x02, 0x7F, 0x80, 0xC2, 0xFF])
            } else {
                rng.byte()
            };
            self.stream.bytes(&[byte]);
        }
        for _ in 0..=rng.below(12) {
            self.readings.push(random_reading(rng));
        }
    }
}

/// Replaces the entry into a window by an exit if the nesting is too deep.
/// Refused windows are counted too, so the real nesting is never deeper.
fn limit_nesting(readings: &mut [Reading]) {
    let mut depth: u32 = 0;
    for reading in readings {
        if depth == MOST_INNER && matches!(reading, Reading::Sub(_)) {
            *reading = Reading::Up;
        }
        match reading {
            Reading::Sub(_) => depth += 1,
            Reading::Up => depth = depth.saturating_sub(1),
            _ => {}
        }
    }
}

fn random_reading(rng: &mut Rng) -> Reading {
    match rng.below(11) {
        0 => Reading::Bit,
        1 => Reading::Bits(rng.below(70) as u32),
        2 => Reading::U8,
        3 => Reading::U32,
        4 => Reading::I32,
        5 => Reading::Packed,
        6 => Reading::Text,
        7 => Reading::Name,
        8 => Reading::Copy {
            target: rng.below(12) as u32,
            bits: rng.below(90),
        },
        9 => Reading::Sub(rng.below(100)),
        _ => Reading::Up,
    }
}

/// A packed number in some encoding. Most of them can be read.
fn write_packed(rng: &mut Rng, stream: &mut Stream) {
    match rng.below(8) {
        0 => stream.bytes(&rng.bytes(5)),
        1 => {
            let run: Vec<u8> = (0..4).map(|_| rng.byte() | 1).collect();
            stream.bytes(&run);
            let last = [0x00, 0x01, 0x1E, 0x1F, 0x20, 0x21, 0x80, 0xFE, 0xFF];
            stream.bytes(&[rng.pick(&last)]);
        }
        2 | 3 => {
            let fewest = 1 + rng.below(5) as u32;
            stream.packed(rng.magnitude(32) as u32, fewest);
        }
        _ => stream.packed(rng.magnitude(32) as u32, 1),
    }
}

/// Lengths at the limits of the number, of a text and of the bytes that can
/// follow.
const LIMIT_LENGTHS: [i32; 14] = [
    0,
    1,
    -1,
    4_096,
    4_097,
    1_048_576,
    1_048_577,
    -524_288,
    -524_289,
    i32::MAX,
    i32::MAX - 1,
    i32::MIN,
    i32::MIN + 1,
    -1_073_741_824,
];

/// A text in some encoding. Most of them can be read.
fn write_text(rng: &mut Rng, stream: &mut Stream) {
    let text = random_text(rng);
    match rng.below(16) {
        0 => stream.i32(0),
        1..=5 => stream.text8(&with_zeroes(rng, text).into_bytes()),
        6 | 7 => stream.text8(&corrupt(rng, text.into_bytes())),
        8..=10 => stream.text16(&units(&with_zeroes(rng, text))),
        11 | 12 => stream.text16(&corrupt_units(rng, units(&text))),
        13 => {
            stream.i32(rng.pick(&LIMIT_LENGTHS));
            stream.bytes(text.as_bytes());
        }
        14 => {
            // The length is at most two bytes off.
            let delta = rng.below(5) as i32 - 2;
            stream.i32(text.len() as i32 + delta);
            stream.bytes(text.as_bytes());
        }
        _ => {
            stream.i32(rng.next() as i32);
            stream.bytes(text.as_bytes());
        }
    }
}

/// A name by index, or by text and number. Most of them can be read.
fn write_name(rng: &mut Rng, stream: &mut Stream) {
    if rng.once_in(3) {
        let kind = 1 + rng.below(255);
        stream.bits(kind, 8);
        write_packed(rng, stream);
        return;
    }
    stream.bits(0, 8);
    write_text(rng, stream);
    let edges = [0, 1, 2, 4, -1, -3, 10, 11, i32::MAX, i32::MIN];
    let number = if rng.once_in(2) {
        rng.pick(&edges)
    } else {
        let size = rng.magnitude(31) as i32;
        if rng.once_in(2) { -size } else { size }
    };
    stream.i32(number);
}

/// The first and the last character of each length in UTF-8, those next to the
/// surrogates, and those that are escaped in answers.
const CHARACTERS: [char; 14] = [
    '\0',
    '\u{1}',
    '"',
    '\\',
    '~',
    '\u{7f}',
    '\u{80}',
    '\u{7ff}',
    '\u{800}',
    '\u{d7ff}',
    '\u{e000}',
    '\u{ffff}',
    '\u{10000}',
    '\u{10ffff}',
];

/// A short text, rarely one of about the maximum length.
fn random_text(rng: &mut Rng) -> String {
    let ascii = rng.once_in(2);
    let mut text = String::new();
    if rng.once_in(150) {
        let letter = rng.pick(&['L', '\u{e9}', '\u{d55c}', '\u{1f3af}']);
        let target = 4_088 + rng.below(16) as usize;
        while text.len() + letter.len_utf8() <= target {
            text.push(letter);
        }
        while text.len() < target {
            text.push('x');
        }
        return text;
    }
    for _ in 0..rng.below(24) {
        text.push(if ascii {
            char::from(rng.below(95) as u8 + 0x20)
        } else {
            random_character(rng)
        });
    }
    text
}

fn random_character(rng: &mut Rng) -> char {
    if rng.once_in(3) {
        return rng.pick(&CHARACTERS);
    }
    let widest = rng.pick(&[7, 11, 16, 20]);
    char::from_u32(rng.magnitude(widest) as u32).unwrap_or('\u{fffd}')
}

/// With no final zero, with one, or with two.
fn with_zeroes(rng: &mut Rng, text: String) -> String {
    let zeroes = rng.pick(&[0, 1, 1, 1, 2]);
    text + &"\0".repeat(zeroes)
}

fn units(text: &str) -> Vec<u16> {
    text.encode_utf16().collect()
}

/// Changes, removes or repeats a byte, which usually makes bad UTF-8.
fn corrupt(rng: &mut Rng, mut bytes: Vec<u8>) -> Vec<u8> {
    if bytes.is_empty() {
        return vec![rng.byte()];
    }
    let at = rng.below(bytes.len() as u64) as usize;
    match rng.below(4) {
        0 => bytes[at] = rng.pick(&[0x80, 0xBF, 0xC0, 0xC1, 0xE0, 0xED, 0xF0, 0xF4, 0xF5, 0xFF]),
        1 => bytes[at] ^= 1 << rng.below(8),
        2 => {
            bytes.remove(at);
        }
        _ => bytes.insert(at, bytes[at]),
    }
    bytes
}

/// Inserts a surrogate, or removes a unit.
fn corrupt_units(rng: &mut Rng, mut units: Vec<u16>) -> Vec<u16> {
    let surrogate = 0xD800 + rng.below(0x800) as u16;
    if units.is_empty() {
        return vec![surrogate];
    }
    let at = rng.below(units.len() as u64) as usize;
    match rng.below(3) {
        0 => units[at] = surrogate,
        1 => units.insert(at, surrogate),
        _ => {
            units.remove(at);
        }
    }
    units
}

/// A text or a name of about the longest length that a stream can have. A fill
/// byte keeps the script short.
fn huge_text(rng: &mut Rng) -> RandomCall {
    let bytes = 1_048_575 + rng.below(3) as u32;
    let units = bytes / 2;
    let length = rng.pick(&[bytes as i32, -(units as i32)]);
    let mut head = Stream::new();
    let mut reading = Reading::Text;
    if rng.once_in(2) {
        head.bits(0, 8);
        reading = Reading::Name;
    }
    head.i32(length);
    let len = head.as_bytes().len() as u32 + bytes + rng.below(6) as u32;
    RandomCall {
        window: OwnedWin {
            head: head.into_bytes(),
            filled: Some((len, rng.pick(&[b'a', 0x00, 0x80, 0xC3]))),
            first: 0,
            count: u64::from(len) * 8 - rng.below(40),
        },
        readings: vec![reading, Reading::U32],
    }
}
