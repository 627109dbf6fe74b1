//! Encodes scripts.

use super::{Blob, Call, FILLED, MAGIC, Reading, Win, code};

#[derive(Clone)]
pub struct Script {
    bytes: Vec<u8>,
}

impl Script {
    pub fn new() -> Self {
        Script {
            bytes: MAGIC.to_vec(),
        }
    }

    pub fn as_bytes(&self) -> &[u8] {
        &self.bytes
    }

    pub fn len(&self) -> usize {
        self.bytes.len()
    }

    /// Drops the calls and keeps their memory.
    pub fn clear(&mut self) {
        self.bytes.truncate(MAGIC.len());
    }

    /// Appends all calls of another script.
    pub fn append(&mut self, other: &Script) {
        self.bytes.extend_from_slice(&other.bytes[MAGIC.len()..]);
    }

    /// Appends calls that are already encoded.
    pub fn raw(&mut self, calls: &[u8]) {
        self.bytes.extend_from_slice(calls);
    }

    pub fn call(&mut self, call: &Call<'_>) {
        match *call {
            Call::Open { book, allowances } => self.open(book, allowances),
            Call::Use { book } => self.bytes.extend([code::USE, book]),
            Call::Clear => self.bytes.push(code::CLEAR),
            Call::AddGroup { path, index, slots } => {
                self.bytes.push(code::ADD_GROUP);
                self.blob(&path);
                self.u32s(&[index, slots]);
            }
            Call::SetField {
                index,
                handle,
                checksum,
                name,
            } => {
                self.numbers(code::SET_FIELD, &[index, handle, checksum]);
                self.blob(&name);
            }
            Call::SetGuid { guid, path, outer } => {
                self.numbers(code::SET_GUID, &[guid]);
                self.blob(&path);
                self.u32(outer);
            }
            Call::FieldsRun(win) => self.window(code::FIELDS_RUN, &win),
            Call::GuidRun(win) => self.window(code::GUID_RUN, &win),
            Call::Object {
                win,
                exporting,
                depth,
            } => {
                self.window(code::OBJECT, &win);
                self.bytes.push(exporting);
                self.u32(depth);
            }
            Call::Block(win) => self.window(code::BLOCK, &win),
            Call::Write { buffer } => {
                self.bytes.push(code::WRITE);
                self.u64(buffer);
            }
            Call::ReadWritten => self.bytes.push(code::READ_WRITTEN),
            Call::Bits { win, ref readings } => self.bits(&win, readings),
            Call::Tally(input) => self.text(code::TALLY, &input),
            ref lookup => self.lookup(lookup),
        }
    }

    fn open(&mut self, book: u8, allowances: [u64; 5]) {
        self.bytes.extend([code::OPEN, book]);
        for allowance in allowances {
            self.u64(allowance);
        }
    }

    /// A call that changes nothing.
    fn lookup(&mut self, call: &Call<'_>) {
        match *call {
            Call::GroupByIndex(index) => self.numbers(code::GROUP_BY_INDEX, &[index]),
            Call::GroupByPath(path) => self.text(code::GROUP_BY_PATH, &path),
            Call::PathByGuid(guid) => self.numbers(code::PATH_BY_GUID, &[guid]),
            Call::OuterGuid(guid) => self.numbers(code::OUTER_GUID, &[guid]),
            Call::OuterPath(guid) => self.numbers(code::OUTER_PATH, &[guid]),
            Call::TagName(tag) => self.numbers(code::TAG_NAME, &[tag]),
            Call::Field { place, slot } => self.numbers(code::FIELD, &[place, slot]),
            Call::GroupAt(place) => self.numbers(code::GROUP_AT, &[place]),
            Call::NameAt { place, slot } => self.numbers(code::NAME_AT, &[place, slot]),
            Call::GuidPathAt(place) => self.numbers(code::GUID_PATH_AT, &[place]),
            Call::LeafMatch(name) => self.text(code::LEAF_MATCH, &name),
            Call::ResolveInstance(name) => self.text(code::RESOLVE_INSTANCE, &name),
            Call::ClassNetCacheKey(path) => self.text(code::CLASS_NET_CACHE_KEY, &path),
            Call::Counters => self.bytes.push(code::COUNTERS),
            Call::Dump {
                groups,
                slots,
                guids,
            } => self.numbers(code::DUMP, &[groups, slots, guids]),
            ref other => unreachable!("{other} is no lookup"),
        }
    }

    pub fn bits(&mut self, win: &Win<'_>, readings: &[Reading]) {
        self.window(code::BITS, win);
        self.u32(readings.len() as u32);
        for reading in readings {
            self.reading(*reading);
        }
    }

    fn reading(&mut self, reading: Reading) {
        match reading {
            Reading::Bit => self.bytes.push(0),
            Reading::Bits(width) => {
                self.bytes.push(1);
                self.u32(width);
            }
            Reading::U8 => self.bytes.push(2),
            Reading::U32 => self.bytes.push(3),
            Reading::I32 => self.bytes.push(4),
            Reading::Packed => self.bytes.push(5),
            Reading::Text => self.bytes.push(6),
            Reading::Name => self.bytes.push(7),
            Reading::Copy { target, bits } => {
                self.bytes.push(8);
                self.u32(target);
                self.u64(bits);
            }
            Reading::Sub(bits) => {
                self.bytes.push(9);
                self.u64(bits);
            }
            Reading::Up => self.bytes.push(10),
        }
    }

    fn numbers(&mut self, code: u8, numbers: &[u32]) {
        self.bytes.push(code);
        self.u32s(numbers);
    }

    fn text(&mut self, code: u8, text: &Blob<'_>) {
        self.bytes.push(code);
        self.blob(text);
    }

    fn window(&mut self, code: u8, win: &Win<'_>) {
        self.bytes.push(code);
        self.blob(&win.blob);
        self.u64(win.first);
        self.u64(win.count);
    }

    fn blob(&mut self, blob: &Blob<'_>) {
        match *blob {
            Blob::Plain(bytes) => {
                self.u32(bytes.len() as u32);
                self.bytes.extend_from_slice(bytes);
            }
            Blob::Filled { len, head, fill } => {
                self.u32(FILLED + len);
                self.u32(head.len() as u32);
                self.bytes.extend_from_slice(head);
                self.bytes.push(fill);
            }
        }
    }

    fn u32s(&mut self, values: &[u32]) {
        values.iter().for_each(|&value| self.u32(value));
    }

    fn u32(&mut self, value: u32) {
        self.bytes.extend_from_slice(&value.to_le_bytes());
    }

    fn u64(&mut self, value: u64) {
        self.bytes.extend_from_slice(&value.to_le_bytes());
    }
}
