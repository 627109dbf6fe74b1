//! Short strings of bytes, read as numbers.

use crate::compare::Session;
use crate::error::Error;
use crate::rng::Rng;
use crate::script::Reading::{Bit, Bits, I32, Packed, U8, U32};
use crate::script::Win;
use crate::stream::Stream;

/// Every byte, with every window inside it.
pub fn one_byte(session: &mut Session) -> Result<(), Error> {
    for byte in 0..=u8::MAX {
        for first in 0..=8 {
            for count in 0..=8 - first {
                each_way(session, &Win::new(&[byte], first, count))?;
            }
        }
    }
    Ok(())
}

/// Every two bytes, from each bit of the first byte to the end.
pub fn two_bytes(session: &mut Session) -> Result<(), Error> {
    for value in 0..=u16::MAX {
        for first in 0..8 {
            each_way(session, &Win::new(&value.to_le_bytes(), first, 16 - first))?;
        }
    }
    Ok(())
}

/// Every three bytes.
pub fn three_bytes(session: &mut Session) -> Result<(), Error> {
    for value in 0..1 << 24 {
        let bytes = u32::to_le_bytes(value);
        let win = Win::whole(&bytes[..3]);
        session.bits(&win, &[Packed, Packed, Packed, U8])?;
        session.bits(&win, &[Bits(7), Bits(13), Bits(4), Bit])?;
        session.bits(&win, &[U8, Bits(16), Bit])?;
    }
    Ok(())
}

/// Reads a window as packed numbers, as bytes, and as two numbers of every
/// width.
fn each_way(session: &mut Session, win: &Win<'_>) -> Result<(), Error> {
    session.bits(win, &[Packed, Packed, U8, Bit])?;
    session.bits(win, &[U8, Packed, Bit])?;
    let count = win.count as u32;
    for width in 0..=count + 1 {
        let rest = count.saturating_sub(width);
        session.bits(win, &[Bits(width), Bits(rest), Bit])?;
    }
    Ok(())
}

/// Bytes at which the answer for a packed number can change: the first and the
/// last byte of each kind, mostly around 15, the fifth byte's largest chunk.
const PACKED_BORDERS: [u8; 16] = [
    0x00, 0x01, 0x02, 0x03, 0x1C, 0x1D, 0x1E, 0x1F, 0x20, 0x21, 0x7E, 0x7F, 0x80, 0x81, 0xFE, 0xFF,
];

/// Five bytes from `PACKED_BORDERS`.
pub fn packed_five(session: &mut Session) -> Result<(), Error> {
    let mut bytes = [0; 5];
    for choice in 0..PACKED_BORDERS.len().pow(5) {
        set_digits(&mut bytes, &PACKED_BORDERS, choice);
        session.bits(&Win::whole(&bytes), &[Packed, Packed])?;
    }
    Ok(())
}

/// Five bytes of four kinds, at every bit of a byte, in a window that ends at
/// every bit.
pub fn packed_cut(session: &mut Session) -> Result<(), Error> {
    const KINDS: [u8; 4] = [0x00, 0x01, 0x1F, 0xFF];
    let mut bytes = [0; 5];
    for choice in 0..KINDS.len().pow(5) {
        set_digits(&mut bytes, &KINDS, choice);
        for first in 0..8 {
            let mut stream = ones(first);
            stream.bytes(&bytes);
            for count in 0..=40 {
                let win = Win::new(stream.as_bytes(), first, count);
                session.bits(&win, &[Packed, Packed])?;
            }
        }
    }
    Ok(())
}

/// Sets the bytes to the digits of `choice` in base `kinds.len()`, as elements
/// of `kinds`.
fn set_digits(bytes: &mut [u8], kinds: &[u8], choice: usize) {
    let mut left = choice;
    for byte in bytes {
        *byte = kinds[left % kinds.len()];
        left /= kinds.len();
    }
}

/// Set bits before a window: a reading that uses them gives a wrong answer.
fn ones(count: u64) -> Stream {
    let mut stream = Stream::new();
    stream.bits(u64::MAX, count as u32);
    stream
}

/// Every width at every bit of a byte, over several patterns of bits. The
/// window has exactly the width, or one bit less, or more; the bytes end with
/// the window, or go on.
pub fn widths(session: &mut Session) -> Result<(), Error> {
    let mut rng = Rng::new(1);
    let kinds = [vec![0xFF; 24], vec![0x55; 24], rng.bytes(24), rng.bytes(24)];
    for bytes in &kinds {
        for first in 0..8 {
            for width in (0..=66).chain([127, 128, 1 << 31, u32::MAX]) {
                for count in counts_around(u64::from(width)) {
                    let end = (first + count).div_ceil(8) as usize;
                    for slice in [&bytes[..end], bytes] {
                        let win = Win::new(slice, first, count);
                        session.bits(&win, &[Bits(width), Bit, Bits(width)])?;
                        session.bits(&win, &[U8, U32, I32, Bit])?;
                        session.bits(&win, &[I32, U8, U32])?;
                    }
                }
            }
        }
    }
    Ok(())
}

/// Counts of bits near `width`, few enough for the bytes in [`widths`].
fn counts_around(width: u64) -> impl Iterator<Item = u64> {
    let width = width.min(100);
    [0, width.saturating_sub(1), width, width + 1, width + 64].into_iter()
}
