//! Short texts: all of them if there are few enough, otherwise all that are
//! made of values at the borders.

use crate::compare::Session;
use crate::error::Error;
use crate::script::Reading::{Bit, Text};
use crate::script::Win;
use crate::stream::Stream;

/// Every text of one or two bytes, at every bit of a byte.
pub fn utf8_one_two(session: &mut Session) -> Result<(), Error> {
    for value in 0..=u16::MAX {
        let bytes = value.to_le_bytes();
        for first in 0..8 {
            if bytes[1] == 0 {
                text(session, first, |stream| stream.text8(&bytes[..1]))?;
            }
            text(session, first, |stream| stream.text8(&bytes))?;
        }
    }
    Ok(())
}

/// Every text of three bytes.
pub fn utf8_three(session: &mut Session) -> Result<(), Error> {
    for value in 0..1 << 24 {
        let [a, b, c, _] = u32::to_le_bytes(value);
        session.bits(&Win::whole(&[3, 0, 0, 0, a, b, c]), &[Text])?;
    }
    Ok(())
}

/// Every first two bytes of four. The last two are just inside and just outside
/// the range of continuation bytes. Each text is read with and without a final
/// zero.
pub fn utf8_edges(session: &mut Session) -> Result<(), Error> {
    const TAILS: [u8; 6] = [0x00, 0x7F, 0x80, 0xBF, 0xC0, 0xFF];
    for value in 0..=u16::MAX {
        let [lead, second] = value.to_le_bytes();
        for third in TAILS {
            for fourth in TAILS {
                let window = [5, 0, 0, 0, lead, second, third, fourth, 0];
                session.bits(&Win::whole(&window), &[Text])?;
                let window = [4, 0, 0, 0, lead, second, third, fourth];
                session.bits(&Win::whole(&window), &[Text])?;
            }
        }
    }
    Ok(())
}

/// Every single unit, at every bit of a byte.
pub fn utf16_units(session: &mut Session) -> Result<(), Error> {
    for unit in 0..=u16::MAX {
        for first in 0..8 {
            text(session, first, |stream| stream.text16(&[unit]))?;
        }
    }
    Ok(())
}

/// Units at which the number of UTF-8 bytes or the kind of unit changes.
const UNIT_BORDERS: [u16; 16] = [
    0x0000, 0x0001, 0x007F, 0x0080, 0x07FF, 0x0800, 0xD7FF, 0xD800, 0xD801, 0xDBFF, 0xDC00, 0xDC01,
    0xDFFF, 0xE000, 0xFFFD, 0xFFFF,
];

/// Two, three and four of these units, at two bits of a byte.
pub fn utf16_edges(session: &mut Session) -> Result<(), Error> {
    for first in [0, 3] {
        for a in UNIT_BORDERS {
            for b in UNIT_BORDERS {
                text(session, first, |stream| stream.text16(&[a, b]))?;
                for c in UNIT_BORDERS {
                    text(session, first, |stream| stream.text16(&[a, b, c]))?;
                    for d in UNIT_BORDERS {
                        text(session, first, |stream| stream.text16(&[a, b, c, d]))?;
                    }
                }
            }
        }
    }
    Ok(())
}

/// Reads a text in a window of exactly its size, `first` bits into a byte.
fn text(session: &mut Session, first: u64, write: impl FnOnce(&mut Stream)) -> Result<(), Error> {
    let mut stream = Stream::new();
    stream.bits(u64::MAX, first as u32);
    write(&mut stream);
    let win = Win::new(stream.as_bytes(), first, stream.len() - first);
    session.bits(&win, &[Text, Bit])
}
