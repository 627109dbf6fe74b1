//! Streams in windows. Other bits come before and after the stream, and the
//! window's count may be too small or too large.

use crate::rng::Rng;
use crate::script::{Blob, Win};
use crate::stream::Stream;

/// A window that owns its bytes.
pub struct OwnedWin {
    pub head: Vec<u8>,
    /// The blob's length and its fill byte, unless the blob is plain.
    pub filled: Option<(u32, u8)>,
    pub first: u64,
    pub count: u64,
}

impl OwnedWin {
    /// A stream in a window that usually fits. It may also cut the stream,
    /// include the bits after it, or be refused.
    pub fn random(rng: &mut Rng, stream: &Stream) -> Self {
        let first = match rng.below(5) {
            0 => 0,
            1 => rng.below(100),
            _ => rng.below(8),
        };
        let mut all = Stream::new();
        for _ in 0..first {
            all.bit(rng.once_in(2));
        }
        all.stream(stream);
        pad(rng, &mut all);
        let bytes = all.into_bytes();
        let (first, count) = place_window(rng, first, stream.len(), bytes.len() as u64 * 8);
        let (head, filled) = encode_blob(rng, bytes);
        OwnedWin {
            head,
            filled,
            first,
            count,
        }
    }

    /// A stream in a window that fits exactly, with set bits before and after
    /// it.
    pub fn fitting(first: u64, stream: &Stream) -> Self {
        let mut all = Stream::new();
        all.bits(u64::MAX, first as u32);
        all.stream(stream);
        all.bits(u64::MAX, 8);
        OwnedWin {
            head: all.into_bytes(),
            filled: None,
            first,
            count: stream.len(),
        }
    }

    pub fn win(&self) -> Win<'_> {
        let head = &self.head;
        Win {
            blob: match self.filled {
                None => Blob::Plain(head),
                Some((len, fill)) => Blob::Filled { len, head, fill },
            },
            first: self.first,
            count: self.count,
        }
    }
}

/// Adds nothing, set bits up to the end of the byte, or random bits. Bits after
/// a window must not change the answer.
fn pad(rng: &mut Rng, stream: &mut Stream) {
    match rng.below(3) {
        0 => {}
        1 => {
            while !stream.len().is_multiple_of(8) {
                stream.bit(true);
            }
        }
        _ => {
            while !stream.len().is_multiple_of(8) {
                stream.bit(rng.once_in(2));
            }
            let len = rng.below(12);
            stream.bytes(&rng.bytes(len));
        }
    }
}

/// The first bit and the count of a window, for a stream of `len` bits that
/// starts at bit `first` of `all`.
fn place_window(rng: &mut Rng, first: u64, len: u64, all: u64) -> (u64, u64) {
    match rng.below(40) {
        0..=5 => (first, rng.below(len + 1)),
        6..=9 => (first, len.saturating_sub(rng.below(40))),
        10..=13 => (first, all - first),
        14 => (first, all - first + 1 + rng.below(3)),
        15 => match rng.below(6) {
            0 => (first, u64::MAX),
            1 => (u64::MAX, rng.below(2)),
            2 => (all + rng.below(3), rng.below(2)),
            3 => (u64::MAX - rng.below(100), u64::MAX - rng.below(100)),
            4 => (all, 0),
            _ => (rng.next(), rng.next()),
        },
        _ => (first, len),
    }
}

/// A plain blob most often. Otherwise a filled one: its last equal bytes become
/// the fill byte, or the fill byte is not used.
fn encode_blob(rng: &mut Rng, mut bytes: Vec<u8>) -> (Vec<u8>, Option<(u32, u8)>) {
    if !rng.once_in(5) {
        return (bytes, None);
    }
    let len = bytes.len() as u32;
    let Some(&last) = bytes.last() else {
        return (bytes, Some((len, rng.byte())));
    };
    if rng.once_in(3) {
        return (bytes, Some((len, !last)));
    }
    while bytes.last() == Some(&last) {
        bytes.pop();
    }
    (bytes, Some((len, last)))
}
