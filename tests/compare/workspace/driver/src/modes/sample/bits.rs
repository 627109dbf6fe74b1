//! Short scripts of the call `bits`. Together they have every reading and every
//! refusal of a reading.

use crate::script::Reading::{Bit, Bits, Copy, I32, Name, Packed, Sub, Text, U8, U32, Up};
use crate::script::{Blob, Reading, Script, Win};
use crate::stream::Stream;

/// Reads what `write` writes, at several bits of a byte.
fn at_places(script: &mut Script, readings: &[Reading], write: impl Fn(&mut Stream)) {
    for first in [0, 1, 7, 13] {
        let mut stream = Stream::new();
        stream.bits(u64::MAX, first);
        write(&mut stream);
        let first = u64::from(first);
        let win = Win::new(stream.as_bytes(), first, stream.len() - first);
        script.bits(&win, readings);
    }
}

fn whole(script: &mut Script, bytes: &[u8], readings: &[Reading]) {
    script.bits(&Win::whole(bytes), readings);
}

pub fn numbers(script: &mut Script) {
    let bytes = [
        0xB4, 0x01, 0xFE, 0xFF, 0xFF, 0xFF, 0x12, 0x80, 0x7F, 0x33, 0xC5,
    ];
    at_places(script, &[Bit, Bits(3), Bits(0), U8, I32, U32, Bit], |s| {
        s.bytes(&bytes)
    });
    at_places(script, &[Bits(64), Bits(24), Bits(1)], |s| s.bytes(&bytes));
    at_places(script, &[Bits(63), Bits(25)], |s| s.bytes(&bytes));
    at_places(script, &[Bits(57), Bits(32), Bits(31)], |s| s.bytes(&bytes));
    // Too wide is refused before too few bits, and neither refusal moves the
    // position.
    at_places(
        script,
        &[Bits(65), Bit, Bits(u32::MAX), Bits(64), U8],
        |s| s.bits(0x1A5, 9),
    );
    for (reading, width) in [(Bit, 1), (U8, 8), (U32, 32), (I32, 32)] {
        at_places(script, &[reading, reading], |s| {
            s.bits(1 << (width - 1), width)
        });
        at_places(script, &[reading, Bits(width - 1)], |s| {
            s.bits(0x55AA_55AA, width - 1)
        });
    }
    for width in 1..=64 {
        at_places(script, &[Bits(width)], |s| s.bits(u64::MAX, width));
    }
}

pub fn packed(script: &mut Script) {
    whole(script, &[0xFE], &[Packed, Packed]);
    whole(script, &[0x01, 0x02], &[Packed]);
    for last in [0x1E, 0x1F, 0x20, 0x21, 0x00] {
        let bytes = [0xFF, 0xFF, 0xFF, 0xFF, last];
        at_places(script, &[Packed, Packed], |s| s.bytes(&bytes));
    }
    for value in [
        0,
        1,
        127,
        128,
        16_383,
        16_384,
        2_097_151,
        2_097_152,
        268_435_456,
    ] {
        for fewest in 1..=5 {
            at_places(script, &[Packed], |s| s.packed(value, fewest));
        }
    }
    // Cut before each byte, and inside a byte.
    for count in [0, 7, 8, 15, 16, 24, 31, 32, 39] {
        script.bits(&Win::new(&[1; 5], 0, count), &[Packed, Bit, Packed]);
        script.bits(&Win::new(&[0xFF; 6], 3, count), &[Packed]);
    }
}

pub fn text(script: &mut Script) {
    for good in [
        "",
        "A",
        "~ \"\\\u{7f}",
        "caf\u{e9}",
        "\u{d55c}\u{ae00}",
        "\u{1f3af}\u{10ffff}",
    ] {
        for zeroes in ["", "\0", "\0\0"] {
            let text = format!("{good}{zeroes}");
            let units: Vec<u16> = text.encode_utf16().collect();
            at_places(script, &[Text, Bit], |s| s.text8(text.as_bytes()));
            at_places(script, &[Text, Bit], |s| s.text16(&units));
        }
    }
    let bad: [&[u8]; 9] = [
        &[0x80],
        &[0xC0, 0xAF],
        &[0xC3],
        &[0xE0, 0x9F, 0xBF],
        &[0xED, 0xA0, 0x80],
        &[0xE2, 0x82],
        &[0xF0, 0x8F, 0xBF, 0xBF],
        &[0xF4, 0x90, 0x80, 0x80],
        &[0xF5, 0x80, 0x80, 0x80],
    ];
    for bytes in bad {
        at_places(script, &[Text, U8], |s| s.text8(bytes));
    }
    let bad: [&[u16]; 4] = [&[0xD800], &[0xDC00], &[0xD800, 0x41], &[0xDC00, 0xD800]];
    for units in bad {
        at_places(script, &[Text, U8], |s| s.text16(units));
    }
    // More bytes than remain, more bytes than allowed, and a length that is
    // cut.
    for length in [
        1,
        2,
        5,
        -1,
        -3,
        1_048_576,
        1_048_577,
        i32::MAX,
        i32::MIN,
        i32::MIN + 1,
    ] {
        at_places(script, &[Bit, Text, Text], |s| {
            s.bit(true);
            s.i32(length);
        });
    }
    at_places(script, &[Text, Bit, Text], |s| s.bits(5, 31));
    script.bits(&Win::new(&[2, 0, 0, 0, 65, 66], 0, 47), &[Text]);
}

/// Long texts as a fill byte, complete and one byte short. Only those that are
/// not too long appear in the answers.
pub fn long_text(script: &mut Script) {
    let mut both = |length: i32, fill| {
        let size = if length < 0 { 2 } else { 1 };
        let len = 4 + length.unsigned_abs() * size;
        script.bits(&filled(&length.to_le_bytes(), fill, len), &[Text, Bit]);
        script.bits(&filled(&length.to_le_bytes(), fill, len - 1), &[Text]);
    };
    for bytes in [4_096, 4_097, 4_098, 1_048_576, 1_048_577] {
        both(bytes, b'a');
    }
    // Units of 0x6161, which have three bytes of UTF-8 each.
    for units in [1_365, 1_366, 524_288, 524_289] {
        both(-units, b'a');
    }
    // Zeroes. The last one is dropped.
    for zeroes in [4_097, 4_098, -4_097, -4_098] {
        both(zeroes, 0);
    }
    // Bad text is refused before long text.
    let head = i32::to_le_bytes(5_000);
    script.bits(&filled(&head, 0x80, 5_004), &[Text]);
}

fn filled<'a>(head: &'a [u8], fill: u8, len: u32) -> Win<'a> {
    Win {
        blob: Blob::Filled { len, head, fill },
        first: 0,
        count: u64::from(len) * 8,
    }
}

pub fn names(script: &mut Script) {
    for number in [
        0,
        1,
        2,
        4,
        -1,
        -3,
        10,
        11,
        -10,
        i32::MAX,
        i32::MIN + 1,
        i32::MIN,
    ] {
        at_places(script, &[Name, Bit], |s| s.name(b"Foo\0", number));
        whole(script, &name_bytes("", number), &[Name]);
    }
    for kind in [1, 2, 255] {
        for value in [0, 9, 10, 1_000_000, u32::MAX] {
            at_places(script, &[Name, Bit], |s| {
                s.bits(kind, 8);
                s.packed(value, 1);
            });
        }
    }
    whole(script, &[], &[Name]);
    whole(script, &[1], &[Name]);
    whole(script, &[0, 1, 0, 0], &[Name]);
    whole(script, &[7, 1, 1, 1, 1, 0x20], &[Name]);
    whole(script, &[7, 1, 1, 1, 1, 0x21], &[Name]);
    whole(script, &[0, 1, 0, 0, 0, 0xFF, 0, 0, 0, 0], &[Name]);
    whole(script, &[0, 2, 0, 0, 0, 0x41], &[Name]);
    let bytes = name_bytes("Cut", 3);
    for count in [72, 88, 89, 119] {
        script.bits(&Win::new(&bytes, 0, count), &[Name]);
    }
    // The fill byte also makes the number. Either the text is too long, or the
    // whole name is.
    for length in [4_085, 4_086, 4_087, 4_096, 4_097] {
        let mut head = vec![0];
        head.extend(i32::to_le_bytes(length));
        let following = [0, 3, 4];
        for more in following {
            let len = 5 + length as u32 + more;
            script.bits(&filled(&head, b'1', len), &[Name, Bit]);
        }
    }
}

fn name_bytes(base: &str, number: i32) -> Vec<u8> {
    let mut stream = Stream::new();
    stream.name(base.as_bytes(), number);
    stream.into_bytes()
}

pub fn copies(script: &mut Script) {
    let bytes = [
        0xFF, 0x00, 0x5A, 0xC3, 0x81, 0x7E, 0x99, 0x24, 0xE7, 0x18, 0xFF,
    ];
    for bits in [0, 1, 7, 8, 9, 31, 63, 64, 65, 80, 87] {
        let fitting = u64::div_ceil(bits, 8) as u32;
        let targets = [fitting, fitting + 2, fitting.saturating_sub(1)];
        for target in targets {
            at_places(script, &[Copy { target, bits }, Bit], |s| s.bytes(&bytes));
        }
    }
    let short = Copy { target: 1, bits: 9 };
    let long = Copy {
        target: 12,
        bits: 89,
    };
    let never = Copy {
        target: 1,
        bits: u64::MAX,
    };
    at_places(
        script,
        &[
            short,
            long,
            never,
            Bit,
            Copy {
                target: 11,
                bits: 88,
            },
        ],
        |s| {
            s.bytes(&bytes);
        },
    );
}

pub fn windows(script: &mut Script) {
    let bytes = [0xE4, 0x1B, 0x72];
    for (first, count) in [
        (0, 0),
        (0, 24),
        (0, 25),
        (1, 23),
        (1, 24),
        (23, 1),
        (24, 0),
        (24, 1),
        (25, 0),
        (25, 1),
        (u64::MAX, 0),
        (u64::MAX, 1),
        (u64::MAX, u64::MAX),
        (8, u64::MAX),
        (0, 1 << 63),
    ] {
        script.bits(&Win::new(&bytes, first, count), &[Bit, U8, Up, Bits(0)]);
        script.bits(&Win::new(&[], first, count), &[Bit, Packed]);
    }
    at_places(
        script,
        &[
            U8,
            Sub(9),
            Bit,
            Sub(8),
            U8,
            Bit,
            Up,
            Bit,
            Up,
            Bit,
            Up,
            Sub(7),
            Sub(6),
            Bit,
            Up,
        ],
        |s| s.bytes(&bytes),
    );
    at_places(
        script,
        &[
            Bit,
            Sub(24),
            Sub(u64::MAX),
            Sub(0),
            Bit,
            Up,
            Sub(23),
            Sub(23),
            Packed,
            Packed,
            Up,
            Up,
        ],
        |s| s.bytes(&bytes),
    );
    let copy = Copy {
        target: 2,
        bits: 11,
    };
    at_places(
        script,
        &[Sub(13), Bit, copy, copy, Up, copy, Text, Name],
        |s| s.bytes(&bytes),
    );
}
