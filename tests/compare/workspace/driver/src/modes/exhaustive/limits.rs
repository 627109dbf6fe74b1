//! Sizes around every limit: windows, inner windows, copies, lengths of texts
//! and of names.

use crate::compare::Session;
use crate::error::Error;
use crate::script::Reading::{self, Bit, Bits, Copy, I32, Name, Packed, Sub, Text, U8, U32, Up};
use crate::script::{Blob, Win};
use crate::stream::Stream;

/// Windows over short slices, with first bits and counts inside and outside of
/// them.
pub fn windows(session: &mut Session) -> Result<(), Error> {
    let far = [1 << 31, 1 << 32, 1 << 61, 1 << 63, u64::MAX - 7, u64::MAX];
    let numbers: Vec<u64> = (0..=34).chain(far).collect();
    for len in 0..=4 {
        let bytes = &[0xA7, 0x3C, 0xFF, 0x01][..len];
        for &first in &numbers {
            for &count in &numbers {
                let win = Win::new(bytes, first, count);
                session.bits(&win, &[Up, Bit, Packed, Text, Name, Bits(0), U32, Up])?;
                session.bits(&win, &[I32, U8, Bits(65), Sub(0), Bit, Up, Sub(1)])?;
            }
        }
    }
    Ok(())
}

/// Windows inside windows, some of them too long.
pub fn nesting(session: &mut Session) -> Result<(), Error> {
    let bytes = [0x5B, 0xE1, 0x90, 0x7F];
    let inside = [Bit, Packed, Bit];
    for first in 0..8 {
        for outer in 0..=18 {
            for inner in (0..=outer + 1).chain([u64::MAX - 3, u64::MAX]) {
                let mut readings = vec![Bit, Sub(outer), Bit, Sub(inner)];
                readings.extend(inside);
                readings.extend([Sub(3), U8, Up, Bit, Up, U8, Up, Bits(3), Up, Up, U8]);
                session.bits(&Win::new(&bytes, first, 24 - first), &readings)?;
            }
        }
    }
    Ok(())
}

/// Copies of every length up to a few words, at every bit of a byte. The target
/// has exactly the size of the copy, one byte less, or more.
pub fn copies(session: &mut Session) -> Result<(), Error> {
    let bytes: Vec<u8> = (0..80).map(|i: u8| i.wrapping_mul(151) ^ 0x9D).collect();
    for first in 0..8_u64 {
        for bits in (0..=200).chain([255, 256, 257, 511, 512, 513]) {
            for spare in [0, 1, 8, 63] {
                let count = bits + spare;
                let end = (first + count).div_ceil(8) as usize;
                for slice in [&bytes[..end], &bytes] {
                    each_target(session, &Win::new(slice, first, count), bits)?;
                }
            }
        }
    }
    Ok(())
}

fn each_target(session: &mut Session, win: &Win<'_>, bits: u64) -> Result<(), Error> {
    let fitting = bits.div_ceil(8) as u32;
    for target in [fitting, fitting + 1, fitting + 9, fitting.saturating_sub(1)] {
        session.bits(win, &[Copy { target, bits }, Bit])?;
    }
    // After one bit: one more bit than above, and far too many.
    let target = fitting + 1;
    let bits = bits + 1;
    session.bits(
        win,
        &[
            Bit,
            Copy { target, bits },
            Copy {
                target,
                bits: u64::MAX,
            },
        ],
    )
}

/// Bits before the window: none, and a part of a byte.
const FIRSTS: [u64; 2] = [0, 5];

/// Announced lengths around every limit. Up to one byte more than announced
/// follows.
pub fn lengths(session: &mut Session) -> Result<(), Error> {
    let announced = [
        0,
        1,
        2,
        4_095,
        4_096,
        4_097,
        4_098,
        1_048_575,
        1_048_576,
        1_048_577,
        i32::MAX,
    ];
    let announced_units = [
        -1,
        -2,
        -4_096,
        -4_097,
        -524_287,
        -524_288,
        -524_289,
        -1_048_576,
        i32::MIN + 1,
        i32::MIN,
    ];
    for length in announced.into_iter().chain(announced_units) {
        for first in FIRSTS {
            for fill in [b'a', 0x00, 0xC2, 0xDC] {
                for following in following_bytes(length) {
                    length_call(session, length, first, fill, following * 8)?;
                    length_call(
                        session,
                        length,
                        first,
                        fill,
                        (following * 8).saturating_sub(1),
                    )?;
                }
            }
        }
    }
    Ok(())
}

/// How many bytes follow a length: about as many as it announces, or a few if
/// it announces too many.
fn following_bytes(length: i32) -> Vec<u64> {
    let size = if length < 0 { 2 } else { 1 };
    let announced = u64::from(length.unsigned_abs()) * size;
    if announced > 1_100_000 {
        return vec![0, 1, 5_000];
    }
    vec![0, announced.saturating_sub(1), announced, announced + 1]
}

/// A length, and bits after it that repeat the byte `fill`.
fn length_call(
    session: &mut Session,
    length: i32,
    first: u64,
    fill: u8,
    following_bits: u64,
) -> Result<(), Error> {
    let mut head = Stream::new();
    head.bits(0, first as u32);
    head.i32(length);
    let count = 32 + following_bits;
    let whole = ((first + 32) / 8) as usize;
    // The rest of the byte in which the length ends belongs to the repetition.
    head.bits(u64::from(fill), 8);
    let win = Win {
        blob: Blob::Filled {
            len: (first + count).div_ceil(8).max(whole as u64 + 1) as u32,
            head: &head.as_bytes()[..whole + 1],
            fill: fill.rotate_left(first as u32),
        },
        first,
        count,
    };
    session.bits(&win, &[Text, U8])
}

/// Texts of about 4,096 bytes of UTF-8, from characters of every length, in
/// both encodings, with up to two final zeroes, valid and corrupted.
pub fn long_texts(session: &mut Session) -> Result<(), Error> {
    for letter in ['a', '\u{e9}', '\u{d55c}', '\u{1f3af}'] {
        for bytes in 4_090..=4_100 {
            for zeroes in 0..=2 {
                let text = text_of(letter, bytes) + &"\0".repeat(zeroes);
                let units: Vec<u16> = text.encode_utf16().collect();
                let mut corrupted = text.clone().into_bytes();
                *corrupted.last_mut().expect("it is long") = 0xC2;
                let mut lone = units.clone();
                *lone.last_mut().expect("it is long") = 0xD800;
                for first in FIRSTS {
                    in_window(session, first, 0, Text, |s| s.text8(text.as_bytes()))?;
                    in_window(session, first, 0, Text, |s| s.text16(&units))?;
                    in_window(session, first, 0, Text, |s| s.text8(&corrupted))?;
                    in_window(session, first, 0, Text, |s| s.text16(&lone))?;
                }
            }
        }
    }
    Ok(())
}

/// A text of `bytes` bytes, with as many as possible of them in `letter`.
fn text_of(letter: char, bytes: usize) -> String {
    let size = letter.len_utf8();
    "x".repeat(bytes % size) + &letter.to_string().repeat(bytes / size)
}

/// Numbers of a name at which its rendering gets longer.
fn name_numbers() -> impl Iterator<Item = i32> {
    let edges = (1..10).map(|digits| 10_i32.pow(digits));
    let around = edges.flat_map(|edge| [edge, edge + 1, -edge, 1 - edge]);
    around.chain([0, 1, 2, 4, -1, -3, i32::MAX, i32::MIN + 1, i32::MIN])
}

/// Names whose text and whose rendering are about as long as allowed, also with
/// the number cut off; short names with every number; and names by index.
pub fn names(session: &mut Session) -> Result<(), Error> {
    for number in name_numbers() {
        for len in [0, 1, 3].into_iter().chain(4_083..=4_098) {
            let text = "n".repeat(len);
            for first in FIRSTS {
                for cut in [0, 1, 32] {
                    let write = |s: &mut Stream| s.name(text.as_bytes(), number);
                    in_window(session, first, cut, Name, write)?;
                }
            }
        }
    }
    for kind in 0..=u8::MAX {
        for value in [0, 1, 127, 128, 1_000_000, u32::MAX] {
            for fewest in 1..=5 {
                in_window(session, 3, 0, Name, |s| {
                    s.bits(u64::from(kind), 8);
                    s.packed(value, fewest);
                })?;
            }
        }
        for last in [0x00, 0x1E, 0x1F, 0x20, 0x21] {
            in_window(session, 0, 0, Name, |s| s.bytes(&[kind, 1, 1, 1, 1, last]))?;
        }
    }
    Ok(())
}

/// One reading, `first` bits into a byte. The window ends `cut` bits before the
/// stream does.
fn in_window(
    session: &mut Session,
    first: u64,
    cut: u64,
    reading: Reading,
    write: impl FnOnce(&mut Stream),
) -> Result<(), Error> {
    let mut stream = Stream::new();
    stream.bits(u64::MAX, first as u32);
    write(&mut stream);
    let win = Win::new(stream.as_bytes(), first, stream.len() - first - cut);
    session.bits(&win, &[reading, Bit])
}

/// Enough for slices of 268,435,456 bytes, even if the ported side copies them.
pub const LARGE_MEMORY: usize = 1 << 30;

/// The longest slice that is allowed, windows at its end, and a slice that is
/// one byte longer.
pub fn large(session: &mut Session) -> Result<(), Error> {
    const TOP: u32 = 268_435_456;
    let all = u64::from(TOP) * 8;
    for (first, count) in [
        (0, all),
        (0, all + 1),
        (all - 99, 99),
        (all - 99, 100),
        (all, 0),
    ] {
        let blob = large_blob(TOP);
        let win = Win { blob, first, count };
        session.bits(&win, &[U32, Packed, Bits(64), Sub(40), Bits(40), Up])?;
    }
    for (first, count) in [(0, 8), (0, u64::MAX), (u64::MAX, 1)] {
        let blob = large_blob(TOP + 1);
        session.bits(&Win { blob, first, count }, &[U8])?;
    }
    Ok(())
}

fn large_blob(len: u32) -> Blob<'static> {
    Blob::Filled {
        len,
        head: &[1, 2, 3],
        fill: 0x92,
    }
}
