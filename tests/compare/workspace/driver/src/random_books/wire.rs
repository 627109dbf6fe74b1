//! Writes runs, objects and blocks in any encoding that is allowed, with flaws
//! at a given rate.

use std::cell::Cell;

use super::pool::Pool;
use crate::rng::Rng;
use crate::stream::Stream;

pub struct Writer<'p> {
    pool: &'p Pool,
    /// One in this many possible flaws is made; none if this is 0.
    flaws: u64,
    /// How many texts remain until the long one, counting it; no long text if
    /// this is 0.
    until_long: Cell<u64>,
}

impl<'p> Writer<'p> {
    pub fn new(pool: &'p Pool, flaws: u64) -> Self {
        Writer {
            pool,
            flaws,
            until_long: Cell::new(0),
        }
    }

    /// Makes text number `nth` a long one, counting from 1.
    pub fn with_long_text(self, nth: u64) -> Self {
        self.until_long.set(nth);
        self
    }

    fn flaw(&self, rng: &mut Rng) -> bool {
        self.flaws != 0 && rng.once_in(self.flaws)
    }

    pub fn fields_run(&self, rng: &mut Rng) -> Stream {
        let entries = rng.below(6) as u32;
        let mut run = Stream::new();
        let announced = self.announced(rng, entries);
        self.packed(rng, &mut run, announced);
        let mut known = Vec::new();
        for _ in 0..entries {
            self.fields_entry(rng, &mut run, &mut known);
        }
        run
    }

    /// The number of what follows. A flaw makes it wrong.
    fn announced(&self, rng: &mut Rng, count: u32) -> u32 {
        if !self.flaw(rng) {
            return count;
        }
        match rng.below(4) {
            0 => count + 1,
            1 => count.saturating_sub(1),
            2 => u32::MAX,
            _ => rng.magnitude(32) as u32,
        }
    }

    /// Exports a group, or refers to one that this run exported; a flaw refers
    /// to any group.
    fn fields_entry(&self, rng: &mut Rng, run: &mut Stream, known: &mut Vec<u32>) {
        let exported = known.is_empty() || rng.once_in(2);
        if exported {
            let (path, mut index) = self.path_and_index(rng);
            let slots = self.slots(rng);
            // Too many slots, together with an index that a group of this run
            // already has.
            if slots > 65_536 && !known.is_empty() {
                index = rng.pick(known);
            }
            self.packed(rng, run, index);
            let flag = self.exported_flag(rng);
            self.packed(rng, run, flag);
            self.text(rng, run, &path);
            self.packed(rng, run, slots);
            known.push(index);
        } else {
            let index = match self.flaw(rng) {
                true => self.pool.index(rng),
                false => rng.pick(known),
            };
            self.packed(rng, run, index);
            self.packed(rng, run, 0);
        }
        let has_field = match rng.below(4) {
            0 => 0,
            1 => 1 + rng.below(255) as u8,
            _ => 1,
        };
        run.bytes(&[has_field]);
        if has_field != 0 {
            let handle = self.handle(rng);
            self.packed(rng, run, handle);
            self.field_tail(rng, run);
        }
    }

    fn exported_flag(&self, rng: &mut Rng) -> u32 {
        match self.flaw(rng) {
            true => rng.pick(&[2, 3, 127, 128, u32::MAX]),
            false => 1,
        }
    }

    /// Most often the path and the index of one pair.
    fn path_and_index(&self, rng: &mut Rng) -> (String, u32) {
        if rng.once_in(4) {
            return (self.pool.path_or_related(rng), self.pool.index(rng));
        }
        let nth = rng.below(self.pool.pairs() as u64) as usize;
        let (path, index) = self.pool.pair(nth);
        (path.to_owned(), index)
    }

    fn slots(&self, rng: &mut Rng) -> u32 {
        if self.flaw(rng) {
            return rng.pick(&[65_536, 65_537, 65_538, 1 << 20, u32::MAX]);
        }
        rng.below(7) as u32
    }

    fn handle(&self, rng: &mut Rng) -> u32 {
        match rng.below(12) {
            0 => rng.pick(&[7, 127, 128, 65_535, 65_536, u32::MAX]),
            _ => rng.below(6) as u32,
        }
    }

    /// A field's checksum and name.
    fn field_tail(&self, rng: &mut Rng, stream: &mut Stream) {
        let checksum = rng.pick(&[0, 1, 7, u32::MAX, 0x8000_0000]);
        stream.bytes(&checksum.to_le_bytes());
        self.name(rng, stream);
    }

    fn name(&self, rng: &mut Rng, stream: &mut Stream) {
        if rng.once_in(5) {
            stream.bytes(&[1 + rng.below(255) as u8]);
            let index = rng.magnitude(32) as u32;
            self.packed(rng, stream, index);
            return;
        }
        stream.bytes(&[0]);
        let base = self.pool.name(rng);
        self.text(rng, stream, &base);
        let number = match rng.below(4) {
            0 => rng.pick(&[1, 2, 4, 11, -1, -3, i32::MAX, i32::MIN]),
            _ => 0,
        };
        stream.i32(number);
    }

    pub fn guid_run(&self, rng: &mut Rng) -> Stream {
        let payloads = rng.below(5) as u32;
        let mut run = Stream::new();
        let announced = self.announced(rng, payloads);
        self.packed(rng, &mut run, announced);
        for _ in 0..payloads {
            let object = self.object(rng, true);
            let size = (object.len() / 8) as i32;
            let size = match self.flaw(rng) {
                true => self.wrong_size(rng, size),
                false => size,
            };
            run.i32(size);
            run.stream(&object);
            // One more byte, which the announced size may include.
            if self.flaw(rng) {
                run.bytes(&[0]);
            }
        }
        run
    }

    fn wrong_size(&self, rng: &mut Rng, size: i32) -> i32 {
        match rng.below(6) {
            0 => size + 1,
            1 => size - 1,
            2 => rng.pick(&[-1, i32::MIN, i32::MAX, 0]),
            3 => rng.next() as i32,
            _ => size + 1 + rng.below(20) as i32,
        }
    }

    /// An object with its outers: most often up to two, rarely about as many as
    /// allowed.
    pub fn object(&self, rng: &mut Rng, exporting: bool) -> Stream {
        let outers = match rng.below(30) {
            0 => 14 + rng.below(4),
            1..=6 => rng.below(5),
            _ => rng.below(3),
        };
        let mut stream = Stream::new();
        self.chain(rng, exporting, outers, &mut stream);
        stream
    }

    fn chain(&self, rng: &mut Rng, exporting: bool, outers: u64, stream: &mut Stream) {
        let last = outers == 0;
        // If it is not exporting, only GUID 1 has flags.
        let guid = match rng.below(8) {
            0 if last => 0,
            _ if !exporting && !last => 1,
            _ => self.pool.guid(rng),
        };
        self.packed(rng, stream, guid);
        if guid == 0 || !(exporting || guid == 1) {
            return;
        }
        let has_path = !last || rng.once_in(2);
        let others = (rng.byte() & 0b1111_1010) | rng.pick(&[0, 0, 4]);
        stream.bytes(&[others | u8::from(has_path)]);
        if !has_path {
            return;
        }
        match last {
            true => self.packed(rng, stream, 0),
            false => self.chain(rng, exporting, outers - 1, stream),
        }
        let path = self.pool.path_or_related(rng);
        self.text(rng, stream, &path);
        if others & 4 != 0 && !self.flaw(rng) {
            stream.bytes(&rng.bytes(4));
        }
    }

    pub fn block(&self, rng: &mut Rng) -> Stream {
        let guids = rng.below(7);
        let groups = rng.below(5);
        self.block_of(rng, guids, groups, 6)
    }

    /// A block of about the size that `tally`'s book holds. Often one of the
    /// counts is a little too large.
    pub fn block_for_tally(&self, rng: &mut Rng) -> Stream {
        let guids = match self.pool.is_long() {
            // With long texts a few GUIDs reach the limit of its input.
            true => rng.pick(&[0, 1, 15, 16, 17]),
            false => rng.pick(&[0, 0, 1, 127, 128, 129, 130]),
        };
        let groups = rng.pick(&[0, 0, 1, 31, 32, 33]);
        let slots = rng.pick(&[0, 4, 5, 130]);
        self.block_of(rng, guids, groups, slots)
    }

    fn block_of(&self, rng: &mut Rng, guids: u64, groups: u64, slots: u64) -> Stream {
        let mut body = Stream::new();
        for _ in 0..3 {
            self.reserved_word(rng, &mut body);
        }
        let announced = self.announced(rng, guids as u32);
        body.bytes(&announced.to_le_bytes());
        self.block_guids(rng, guids, &mut body);
        let announced = self.announced(rng, groups as u32);
        body.bytes(&announced.to_le_bytes());
        self.block_groups(rng, groups, slots, &mut body);
        let mut block = Stream::new();
        // The body is four bytes shorter than the block.
        let word = (body.len() / 8) as i64 - 4;
        let word = match self.flaw(rng) {
            true => word + rng.pick(&[-1, 1, -8, 8, 1 << 31]),
            false => word,
        };
        block.bytes(&(word as u32).to_le_bytes());
        block.stream(&body);
        if rng.once_in(4) {
            let more = rng.below(6);
            block.bytes(&rng.bytes(more));
        }
        block
    }

    fn reserved_word(&self, rng: &mut Rng, body: &mut Stream) {
        let word = match self.flaw(rng) {
            true => rng.pick(&[1, 0x100, u32::MAX]),
            false => 0,
        };
        body.bytes(&word.to_le_bytes());
    }

    fn block_guids(&self, rng: &mut Rng, guids: u64, body: &mut Stream) {
        // If there are many GUIDs, they are distinct.
        let many = guids > 20;
        let sharing = rng.once_in(2);
        let mut literals = 0;
        for nth in 0..guids {
            let guid = match many {
                true => nth as u32 + 2,
                false => self.pool.guid(rng),
            };
            self.packed(rng, body, guid);
            let outer = self.pool.guid(rng);
            self.packed(rng, body, outer);
            if literals > 0 && sharing && rng.once_in(2) {
                body.bytes(&[0]);
                let place = match self.flaw(rng) {
                    true => literals + rng.below(3) as u32,
                    false => rng.below(u64::from(literals)) as u32,
                };
                self.packed(rng, body, place);
            } else {
                self.kind_of_literal(rng, body);
                let path = self.pool.path(rng);
                self.text(rng, body, path);
                literals += 1;
            }
            body.bytes(&[rng.byte()]);
        }
    }

    fn kind_of_literal(&self, rng: &mut Rng, body: &mut Stream) {
        body.bytes(&[match self.flaw(rng) {
            true => rng.pick(&[0, 2, 3, 128, 255]),
            false => 1,
        }]);
    }

    /// If there are more groups than paths, numbers make them distinct.
    fn block_groups(&self, rng: &mut Rng, groups: u64, slots: u64, body: &mut Stream) {
        let offset = rng.below(self.pool.pairs() as u64) as usize;
        for nth in 0..groups as usize {
            let (path, index) = self.pool.pair(offset + nth);
            let (mut path, mut index) = (path.to_owned(), index);
            let turn = nth / self.pool.pairs();
            if turn > 0 {
                path += &turn.to_string();
                index += turn as u32 * 100;
            }
            if rng.once_in(12) {
                index = self.pool.index(rng);
            }
            self.text(rng, body, &path);
            self.packed(rng, body, index);
            let slots = match self.flaw(rng) {
                true => self.slots(rng),
                false => rng.below(slots + 1) as u32,
            };
            self.packed(rng, body, slots);
            // A wrong number of slots can be large. The first 300 slots are
            // enough.
            for slot in 0..slots.min(300) {
                self.block_slot(rng, slot, body);
            }
        }
    }

    fn block_slot(&self, rng: &mut Rng, slot: u32, body: &mut Stream) {
        if rng.once_in(3) {
            return body.bytes(&[0]);
        }
        body.bytes(&[rng.pick(&[1, 1, 1, 2, 255])]);
        let handle = match self.flaw(rng) {
            true => slot.wrapping_add(rng.pick(&[1, u32::MAX, 128])),
            false => slot,
        };
        self.packed(rng, body, handle);
        self.field_tail(rng, body);
    }

    /// A packed number, sometimes in more bytes than needed.
    fn packed(&self, rng: &mut Rng, stream: &mut Stream, value: u32) {
        if self.flaw(rng) {
            match rng.below(6) {
                0 => {
                    let last = rng.pick(&[0x1F, 0x20, 0x21, 0xFF]);
                    return stream.bytes(&[1, 1, 1, 1, last]);
                }
                // The stream ends after this number. A refusal that comes
                // before the next reading must still occur.
                1 => {
                    stream.packed(value, 1);
                    return stream.end();
                }
                _ => {}
            }
        }
        let fewest = match rng.below(6) {
            0 => 1 + rng.below(5) as u32,
            _ => 1,
        };
        stream.packed(value, fewest);
    }

    /// A text in either encoding, with its final zero, without it, or with two,
    /// one of which belongs to the text.
    fn text(&self, rng: &mut Rng, stream: &mut Stream, text: &str) {
        let until_long = self.until_long.get();
        self.until_long.set(until_long.saturating_sub(1));
        if until_long == 1 {
            return long_text(rng, stream);
        }
        if self.flaw(rng) {
            return self.bad_text(rng, stream, text);
        }
        if text.is_empty() && rng.once_in(2) {
            return stream.i32(0);
        }
        let zeroes = rng.pick(&["\0", "\0", "\0", "\0", "", "\0\0"]);
        let text = format!("{text}{zeroes}");
        match rng.below(4) {
            0 => {
                let units: Vec<u16> = text.encode_utf16().collect();
                stream.text16(&units);
            }
            _ => stream.text8(text.as_bytes()),
        }
    }

    fn bad_text(&self, rng: &mut Rng, stream: &mut Stream, text: &str) {
        match rng.below(10) {
            0 | 1 => stream.text8(&[text.as_bytes(), &[0xC3]].concat()),
            2 => stream.text16(&[0xDC00, 0x41]),
            3 | 4 => {
                stream.i32(rng.pick(&[i32::MAX, i32::MIN, 1_048_577, -524_289, 4_096]));
                stream.bytes(text.as_bytes());
            }
            5 | 6 => {
                stream.i32(text.len() as i32 + 1 + rng.below(3) as i32);
                stream.bytes(text.as_bytes());
            }
            7 | 8 => {
                stream.text8(text.as_bytes());
                stream.end();
            }
            _ => long_text(rng, stream),
        }
    }
}

/// A text of about the maximum length in bytes of UTF-8. Often the stream ends
/// after it.
fn long_text(rng: &mut Rng, stream: &mut Stream) {
    let len = rng.pick(&[4_086, 4_090, 4_095, 4_096, 4_097, 4_098]);
    match rng.below(4) {
        0 => stream.text16(&vec![u16::from(b'L'); len]),
        1 => {
            stream.i32(len as i32 + 1);
            stream.bytes(&vec![b'L'; len]);
            stream.bytes(&[0]);
        }
        _ => stream.text8(&vec![b'L'; len]),
    }
    if rng.once_in(2) {
        stream.end();
    }
}
