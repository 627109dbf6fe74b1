//! Windows: the bytes lent to a call, and a reader on some of their bits.

use vrf_bitio::BitReader;

use super::Answered;
use crate::answer::Refusal;
use crate::script::Win;

/// The longest slice of bytes that can be lent (refusal 43).
const WINDOW_TOP: u64 = 268_435_456;

/// Calls `read` with a reader on the window, unless the window is refused.
pub fn with_window<T>(win: &Win<'_>, read: impl FnOnce(BitReader<'_>) -> T) -> Answered<T> {
    // Tested first, so that the bytes of a longer blob are not made.
    if win.blob.len() > WINDOW_TOP {
        return Err(Refusal::new(43, 0, 0));
    }
    let bytes = win.blob.bytes();
    Ok(read(open(&bytes, win.first, win.count)?))
}

/// A reader whose position 0 is bit `first` of `bytes`.
fn open(bytes: &[u8], first: u64, count: u64) -> Answered<BitReader<'_>> {
    if first == 0 {
        return Ok(BitReader::with_bit_len(bytes, count)?);
    }
    // In the original only an inner window can start later, and that has
    // neither this refusal nor a start after the end.
    let available = BitReader::new(bytes).len_bits().saturating_sub(first);
    if count > available {
        return Err(Refusal::new(15, count, available));
    }
    if count == 0 {
        return Ok(BitReader::new(&[]));
    }
    let mut whole = BitReader::new(bytes);
    whole.skip_bits(first)?;
    Ok(whole.sub_reader(count)?)
}
