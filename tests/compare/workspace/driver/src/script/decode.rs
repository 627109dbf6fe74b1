//! Decodes scripts.

use std::fmt;

use super::{Blob, Call, FILLED, MAGIC, Reading, Win, code};

/// Why some bytes are no script.
#[derive(Clone, Debug, PartialEq, Eq)]
pub struct Malformed {
    /// The byte at which decoding stopped.
    pub at: usize,
    pub what: String,
}

impl fmt::Display for Malformed {
    fn fmt(&self, f: &mut fmt::Formatter<'_>) -> fmt::Result {
        write!(f, "not a script at byte {}: {}", self.at, self.what)
    }
}

type Decoded<T> = Result<T, Malformed>;

/// Decodes a script call by call.
pub struct Decoder<'a> {
    script: &'a [u8],
    at: usize,
}

impl<'a> Decoder<'a> {
    pub fn new(script: &'a [u8]) -> Decoded<Self> {
        let mut decoder = Decoder { script, at: 0 };
        if decoder.take(MAGIC.len() as u32)? != MAGIC {
            return Err(decoder.malformed("it does not begin with VJS1"));
        }
        Ok(decoder)
    }

    /// The first byte after the last decoded call.
    pub fn at(&self) -> usize {
        self.at
    }

    /// The next call, or none at the script's end.
    pub fn next_call(&mut self) -> Decoded<Option<Call<'a>>> {
        if self.at == self.script.len() {
            return Ok(None);
        }
        let code = self.u8()?;
        self.call(code).map(Some)
    }

    fn call(&mut self, code: u8) -> Decoded<Call<'a>> {
        Ok(match code {
            code::OPEN => self.open()?,
            code::USE => Call::Use { book: self.u8()? },
            code::CLEAR => Call::Clear,
            code::ADD_GROUP => Call::AddGroup {
                path: self.blob()?,
                index: self.u32()?,
                slots: self.u32()?,
            },
            code::SET_FIELD => Call::SetField {
                index: self.u32()?,
                handle: self.u32()?,
                checksum: self.u32()?,
                name: self.blob()?,
            },
            code::SET_GUID => Call::SetGuid {
                guid: self.u32()?,
                path: self.blob()?,
                outer: self.u32()?,
            },
            code::FIELDS_RUN => Call::FieldsRun(self.win()?),
            code::GUID_RUN => Call::GuidRun(self.win()?),
            code::OBJECT => Call::Object {
                win: self.win()?,
                exporting: self.u8()?,
                depth: self.u32()?,
            },
            code::BLOCK => Call::Block(self.win()?),
            code::WRITE => Call::Write {
                buffer: self.u64()?,
            },
            code::READ_WRITTEN => Call::ReadWritten,
            code::BITS => self.bits()?,
            code::TALLY => Call::Tally(self.blob()?),
            lookup => self.lookup(lookup)?,
        })
    }

    fn open(&mut self) -> Decoded<Call<'a>> {
        let book = self.u8()?;
        let mut allowances = [0; 5];
        for allowance in &mut allowances {
            *allowance = self.u64()?;
        }
        Ok(Call::Open { book, allowances })
    }

    /// A call that changes nothing.
    fn lookup(&mut self, code: u8) -> Decoded<Call<'a>> {
        Ok(match code {
            code::GROUP_BY_INDEX => Call::GroupByIndex(self.u32()?),
            code::GROUP_BY_PATH => Call::GroupByPath(self.blob()?),
            code::PATH_BY_GUID => Call::PathByGuid(self.u32()?),
            code::OUTER_GUID => Call::OuterGuid(self.u32()?),
            code::OUTER_PATH => Call::OuterPath(self.u32()?),
            code::TAG_NAME => Call::TagName(self.u32()?),
            code::FIELD => Call::Field {
                place: self.u32()?,
                slot: self.u32()?,
            },
            code::GROUP_AT => Call::GroupAt(self.u32()?),
            code::NAME_AT => Call::NameAt {
                place: self.u32()?,
                slot: self.u32()?,
            },
            code::GUID_PATH_AT => Call::GuidPathAt(self.u32()?),
            code::LEAF_MATCH => Call::LeafMatch(self.blob()?),
            code::RESOLVE_INSTANCE => Call::ResolveInstance(self.blob()?),
            code::CLASS_NET_CACHE_KEY => Call::ClassNetCacheKey(self.blob()?),
            code::COUNTERS => Call::Counters,
            code::DUMP => Call::Dump {
                groups: self.u32()?,
                slots: self.u32()?,
                guids: self.u32()?,
            },
            byte => return Err(self.malformed(&format!("call {byte:02X} is unknown"))),
        })
    }

    fn bits(&mut self) -> Decoded<Call<'a>> {
        let win = self.win()?;
        let readings = (0..self.u32()?)
            .map(|_| self.reading())
            .collect::<Decoded<_>>()?;
        Ok(Call::Bits { win, readings })
    }

    fn reading(&mut self) -> Decoded<Reading> {
        Ok(match self.u8()? {
            0 => Reading::Bit,
            1 => Reading::Bits(self.u32()?),
            2 => Reading::U8,
            3 => Reading::U32,
            4 => Reading::I32,
            5 => Reading::Packed,
            6 => Reading::Text,
            7 => Reading::Name,
            8 => Reading::Copy {
                target: self.u32()?,
                bits: self.u64()?,
            },
            9 => Reading::Sub(self.u64()?),
            10 => Reading::Up,
            byte => return Err(self.malformed(&format!("reading {byte} is unknown"))),
        })
    }

    fn win(&mut self) -> Decoded<Win<'a>> {
        Ok(Win {
            blob: self.blob()?,
            first: self.u64()?,
            count: self.u64()?,
        })
    }

    fn blob(&mut self) -> Decoded<Blob<'a>> {
        let word = self.u32()?;
        if word < FILLED {
            return Ok(Blob::Plain(self.take(word)?));
        }
        let len = word - FILLED;
        let head_len = self.u32()?;
        let head = self.take(head_len)?;
        let fill = self.u8()?;
        if head_len > len {
            return Err(self.malformed("a blob's beginning is longer than the blob"));
        }
        Ok(Blob::Filled { len, head, fill })
    }

    fn u8(&mut self) -> Decoded<u8> {
        Ok(self.array::<1>()?[0])
    }

    fn u32(&mut self) -> Decoded<u32> {
        Ok(u32::from_le_bytes(self.array()?))
    }

    fn u64(&mut self) -> Decoded<u64> {
        Ok(u64::from_le_bytes(self.array()?))
    }

    fn array<const N: usize>(&mut self) -> Decoded<[u8; N]> {
        match self.script[self.at..].first_chunk() {
            Some(bytes) => {
                self.at += N;
                Ok(*bytes)
            }
            None => Err(self.malformed("it is cut short")),
        }
    }

    fn take(&mut self, len: u32) -> Decoded<&'a [u8]> {
        match self.script[self.at..].get(..len as usize) {
            Some(bytes) => {
                self.at += bytes.len();
                Ok(bytes)
            }
            None => Err(self.malformed("it is cut short")),
        }
    }

    fn malformed(&self, what: &str) -> Malformed {
        Malformed {
            at: self.at,
            what: what.to_owned(),
        }
    }
}
