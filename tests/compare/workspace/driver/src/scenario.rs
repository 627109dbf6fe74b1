//! A script with the answers that were worked out for it.

use crate::script::{Blob, Call, Script, Win};

pub struct Scenario {
    pub what: &'static str,
    pub script: Script,
    /// Every line of the answers, with the number of its call.
    pub expected: Vec<String>,
    calls: usize,
}

/// Allowances that are enough, unless a scenario is about allowances.
pub const AMPLE: [u64; 5] = [100, 100, 100, 100_000, 100];

impl Scenario {
    pub fn new(what: &'static str) -> Self {
        Scenario {
            what,
            script: Script::new(),
            expected: Vec::new(),
            calls: 0,
        }
    }

    /// With an open book that has ample allowances.
    pub fn on_book(what: &'static str) -> Self {
        let mut scenario = Self::new(what);
        scenario.open(0, AMPLE).answers("opened");
        scenario
    }

    pub fn calls(&self) -> usize {
        self.calls
    }

    pub fn call(&mut self, call: &Call<'_>) -> &mut Self {
        self.script.call(call);
        self.calls += 1;
        self
    }

    /// Adds a line of the last call's answer.
    pub fn answers(&mut self, line: &str) -> &mut Self {
        self.expected.push(format!("{} {line}", self.calls - 1));
        self
    }

    pub fn open(&mut self, book: u8, allowances: [u64; 5]) -> &mut Self {
        self.call(&Call::Open { book, allowances })
    }

    pub fn add(&mut self, path: &str, index: u32, slots: u32) -> &mut Self {
        self.call(&Call::AddGroup {
            path: Blob::of(path.as_bytes()),
            index,
            slots,
        })
    }

    pub fn field(&mut self, index: u32, handle: u32, checksum: u32, name: &str) -> &mut Self {
        self.call(&Call::SetField {
            index,
            handle,
            checksum,
            name: Blob::of(name.as_bytes()),
        })
    }

    pub fn guid(&mut self, guid: u32, path: &str, outer: u32) -> &mut Self {
        self.call(&Call::SetGuid {
            guid,
            path: Blob::of(path.as_bytes()),
            outer,
        })
    }

    pub fn fields_run(&mut self, bytes: &[u8]) -> &mut Self {
        self.call(&Call::FieldsRun(whole(bytes)))
    }

    pub fn guid_run(&mut self, bytes: &[u8]) -> &mut Self {
        self.call(&Call::GuidRun(whole(bytes)))
    }

    pub fn object(&mut self, bytes: &[u8], exporting: u8, depth: u32) -> &mut Self {
        self.call(&Call::Object {
            win: whole(bytes),
            exporting,
            depth,
        })
    }

    pub fn block(&mut self, bytes: &[u8]) -> &mut Self {
        self.call(&Call::Block(whole(bytes)))
    }

    pub fn tally(&mut self, bytes: &[u8]) -> &mut Self {
        self.call(&Call::Tally(Blob::of(bytes)))
    }

    pub fn write(&mut self, buffer: u64) -> &mut Self {
        self.call(&Call::Write { buffer })
    }

    pub fn dump(&mut self, groups: u32, slots: u32, guids: u32) -> &mut Self {
        self.call(&Call::Dump {
            groups,
            slots,
            guids,
        })
    }

    pub fn by_path(&mut self, path: &str) -> &mut Self {
        self.call(&Call::GroupByPath(Blob::of(path.as_bytes())))
    }

    pub fn leaf_match(&mut self, name: &str) -> &mut Self {
        self.call(&Call::LeafMatch(Blob::of(name.as_bytes())))
    }

    pub fn resolve(&mut self, name: &str) -> &mut Self {
        self.call(&Call::ResolveInstance(Blob::of(name.as_bytes())))
    }

    pub fn class_net_cache(&mut self, path: &str) -> &mut Self {
        self.call(&Call::ClassNetCacheKey(Blob::of(path.as_bytes())))
    }

    /// Schema generation, GUID generation, dropped, replaced, renamed.
    pub fn counters(&mut self, [schema, guid, dropped, replaced, renamed]: [u64; 5]) -> &mut Self {
        self.call(&Call::Counters).answers(&format!(
            "counters schema {schema} guid {guid} dropped {dropped} replaced {replaced} \
             renamed {renamed}"
        ))
    }
}

/// A window over all bits. A long tail of equal bytes becomes a fill byte.
fn whole(bytes: &[u8]) -> Win<'_> {
    Win {
        blob: Blob::of(bytes),
        first: 0,
        count: bytes.len() as u64 * 8,
    }
}

/// A part of a stream.
#[derive(Clone, Copy)]
pub enum Part<'a> {
    /// A packed number below 128, which has one byte.
    Packed(u8),
    Byte(u8),
    Bytes(&'a [u8]),
    Word(u32),
    /// UTF-8 with a final zero. An empty text is the length 0.
    Text(&'a str),
}

pub fn wire(parts: &[Part<'_>]) -> Vec<u8> {
    let mut bytes = Vec::new();
    for part in parts {
        match *part {
            Part::Packed(number) => bytes.push(number << 1),
            Part::Byte(byte) => bytes.push(byte),
            Part::Bytes(more) => bytes.extend_from_slice(more),
            Part::Word(word) => bytes.extend(word.to_le_bytes()),
            Part::Text("") => bytes.extend([0; 4]),
            Part::Text(text) => {
                bytes.extend((text.len() as u32 + 1).to_le_bytes());
                bytes.extend_from_slice(text.as_bytes());
                bytes.push(0);
            }
        }
    }
    bytes
}
