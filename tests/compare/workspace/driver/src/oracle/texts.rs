//! Texts. Document 01 has limits on them that the original does not have.

use vrf_bitio::BitReader;

use super::Answered;
use crate::answer::Refusal;

/// The most bytes of a text in a stream (refusal 13).
pub const WIRE_TEXT_TOP: i64 = 1_048_576;

/// The most bytes of a text as UTF-8 (refusal 41).
const TEXT_TOP: usize = 4_096;

/// A text that is an argument of a call.
pub fn callers_text(bytes: &[u8]) -> Answered<&str> {
    let text = std::str::from_utf8(bytes).map_err(|_| Refusal::new(40, 0, 0))?;
    within_top(text)?;
    Ok(text)
}

pub fn read_text(reader: &mut BitReader<'_>) -> Answered<String> {
    let text = reader.read_fstring(WIRE_TEXT_TOP)?;
    within_top(&text)?;
    Ok(text)
}

/// The limit applies to the text before its number is read, and to the whole
/// name. The original reads both at once, so a copy of the reader reads the
/// text first. Its other errors are ignored here: the original finds them
/// again.
pub fn read_name(reader: &mut BitReader<'_>) -> Answered<String> {
    let mut ahead = reader.clone();
    if ahead.read_u8() == Ok(0)
        && let Ok(base) = ahead.read_fstring(WIRE_TEXT_TOP)
    {
        within_top(&base)?;
    }
    let name = vrf_schema::read_field_name(reader)?;
    within_top(&name)?;
    Ok(name)
}

fn within_top(text: &str) -> Answered<()> {
    if text.len() > TEXT_TOP {
        return Err(Refusal::new(41, text.len() as u64, 0));
    }
    Ok(())
}
