//! Scripts: lists of calls, encoded and decoded.
//!
//! The types below are used in both directions. They borrow their bytes,
//! because a comparison encodes and decodes many millions of calls.

mod decode;
mod encode;
mod show;

pub use decode::{Decoder, Malformed};
pub use encode::Script;

use std::borrow::Cow;

const MAGIC: [u8; 4] = *b"VJS1";

/// Added to the length of a blob that has a fill byte.
const FILLED: u32 = 1 << 31;

/// The byte that begins each call.
mod code {
    pub const OPEN: u8 = 0x01;
    pub const USE: u8 = 0x02;
    pub const CLEAR: u8 = 0x03;
    pub const ADD_GROUP: u8 = 0x04;
    pub const SET_FIELD: u8 = 0x05;
    pub const SET_GUID: u8 = 0x06;
    pub const FIELDS_RUN: u8 = 0x10;
    pub const GUID_RUN: u8 = 0x11;
    pub const OBJECT: u8 = 0x12;
    pub const BLOCK: u8 = 0x13;
    pub const WRITE: u8 = 0x14;
    pub const READ_WRITTEN: u8 = 0x15;
    pub const GROUP_BY_INDEX: u8 = 0x20;
    pub const GROUP_BY_PATH: u8 = 0x21;
    pub const PATH_BY_GUID: u8 = 0x22;
    pub const OUTER_GUID: u8 = 0x23;
    pub const OUTER_PATH: u8 = 0x24;
    pub const TAG_NAME: u8 = 0x25;
    pub const FIELD: u8 = 0x26;
    pub const GROUP_AT: u8 = 0x27;
    pub const NAME_AT: u8 = 0x28;
    pub const GUID_PATH_AT: u8 = 0x29;
    pub const LEAF_MATCH: u8 = 0x2A;
    pub const RESOLVE_INSTANCE: u8 = 0x2B;
    pub const CLASS_NET_CACHE_KEY: u8 = 0x2C;
    pub const COUNTERS: u8 = 0x2D;
    pub const DUMP: u8 = 0x2E;
    pub const BITS: u8 = 0x30;
    pub const TALLY: u8 = 0x31;
}

/// A string of bytes: all of them, or its beginning and one byte that fills the
/// rest, so that long windows are short in a script.
#[derive(Clone, Copy, Debug, PartialEq, Eq)]
pub enum Blob<'a> {
    Plain(&'a [u8]),
    Filled { len: u32, head: &'a [u8], fill: u8 },
}

/// A tail of at least this many equal bytes becomes a fill byte.
const WORTH_FILLING: usize = 24;

impl<'a> Blob<'a> {
    /// Plain, or filled if that makes the script much shorter.
    pub fn of(bytes: &'a [u8]) -> Self {
        let Some(&fill) = bytes.last() else {
            return Blob::Plain(bytes);
        };
        let tail = bytes.iter().rev().take_while(|&&b| b == fill).count();
        if tail < WORTH_FILLING {
            return Blob::Plain(bytes);
        }
        Blob::Filled {
            len: bytes.len() as u32,
            head: &bytes[..bytes.len() - tail],
            fill,
        }
    }

    pub fn len(&self) -> u64 {
        match *self {
            Blob::Plain(bytes) => bytes.len() as u64,
            Blob::Filled { len, .. } => u64::from(len),
        }
    }

    /// The bytes. Only a filled blob needs new memory.
    pub fn bytes(&self) -> Cow<'a, [u8]> {
        match *self {
            Blob::Plain(bytes) => Cow::Borrowed(bytes),
            Blob::Filled { len, head, fill } => {
                let mut bytes = vec![fill; len as usize];
                bytes[..head.len()].copy_from_slice(head);
                Cow::Owned(bytes)
            }
        }
    }
}

/// Bytes, a first bit and a bit count. The numbers may be any: the call says
/// whether they make a window.
#[derive(Clone, Copy, Debug, PartialEq, Eq)]
pub struct Win<'a> {
    pub blob: Blob<'a>,
    pub first: u64,
    pub count: u64,
}

impl<'a> Win<'a> {
    pub fn new(bytes: &'a [u8], first: u64, count: u64) -> Self {
        Win {
            blob: Blob::Plain(bytes),
            first,
            count,
        }
    }

    /// All bits of `bytes`.
    pub fn whole(bytes: &'a [u8]) -> Self {
        Self::new(bytes, 0, bytes.len() as u64 * 8)
    }
}

/// One reading of the call `bits`.
#[derive(Clone, Copy, Debug, PartialEq, Eq)]
pub enum Reading {
    Bit,
    Bits(u32),
    U8,
    U32,
    I32,
    Packed,
    Text,
    Name,
    Copy { target: u32, bits: u64 },
    Sub(u64),
    Up,
}

/// One call, under the name that document 01 or the script format gives it.
#[derive(Clone, Debug, PartialEq, Eq)]
pub enum Call<'a> {
    Open {
        book: u8,
        allowances: [u64; 5],
    },
    Use {
        book: u8,
    },
    Clear,
    AddGroup {
        path: Blob<'a>,
        index: u32,
        slots: u32,
    },
    SetField {
        index: u32,
        handle: u32,
        checksum: u32,
        name: Blob<'a>,
    },
    SetGuid {
        guid: u32,
        path: Blob<'a>,
        outer: u32,
    },
    FieldsRun(Win<'a>),
    GuidRun(Win<'a>),
    Object {
        win: Win<'a>,
        exporting: u8,
        depth: u32,
    },
    Block(Win<'a>),
    Write {
        buffer: u64,
    },
    ReadWritten,
    GroupByIndex(u32),
    GroupByPath(Blob<'a>),
    PathByGuid(u32),
    OuterGuid(u32),
    OuterPath(u32),
    TagName(u32),
    Field {
        place: u32,
        slot: u32,
    },
    GroupAt(u32),
    NameAt {
        place: u32,
        slot: u32,
    },
    GuidPathAt(u32),
    LeafMatch(Blob<'a>),
    ResolveInstance(Blob<'a>),
    ClassNetCacheKey(Blob<'a>),
    Counters,
    Dump {
        groups: u32,
        slots: u32,
        guids: u32,
    },
    Bits {
        win: Win<'a>,
        readings: Vec<Reading>,
    },
    Tally(Blob<'a>),
}

/// The number of kinds of calls, and of readings.
pub const KINDS: usize = 29;
pub const READINGS: usize = 11;

impl Call<'_> {
    /// Whether its answer depends on no earlier call.
    pub fn is_independent(&self) -> bool {
        matches!(self, Call::Bits { .. } | Call::Tally(_))
    }
}
