//! Reads runs and blocks field by field, as document 01 describes them, with
//! the original's `BitReader` and single steps on a ledger.
//!
//! The original reads a run or a block at once, and cannot stop at one of the
//! refusals that document 01 adds. This walk can. If none of them occurs, it
//! must agree with the original in everything.

use vrf_bitio::BitReader;

use super::Answered;
use super::ledger::Ledger;
use super::texts::{read_name, read_text};
use crate::answer::Refusal;

/// The most slots of a group (refusals 22 and 31).
pub const SLOTS_TOP: u32 = 65_536;

/// Objects at this depth are not read (refusal 26).
const DEPTH_TOP: u32 = 16;

/// The most GUIDs and groups of a block (refusal 31).
const BLOCK_GUIDS_TOP: u32 = 1_000_000;
const BLOCK_GROUPS_TOP: u32 = 100_000;

fn refused<T>(number: u32, a: u32, b: u32) -> Answered<T> {
    Err(Refusal::new(number, u64::from(a), u64::from(b)))
}

/// Returns the number of entries.
pub fn fields_run(reader: &mut BitReader<'_>, ledger: &mut Ledger) -> Answered<u32> {
    let count = reader.read_int_packed()?;
    for _ in 0..count {
        fields_entry(reader, ledger)?;
    }
    Ok(count)
}

/// Up to two steps: a group if the entry exports one, and a field if it has
/// one.
fn fields_entry(reader: &mut BitReader<'_>, ledger: &mut Ledger) -> Answered<()> {
    let index = reader.read_int_packed()?;
    match reader.read_int_packed()? {
        0 if ledger.cache().get_group_by_index(index).is_none() => return refused(20, index, 0),
        0 => {}
        1 => exported_group(reader, index, ledger)?,
        flag => return refused(21, index, flag),
    }
    if reader.read_u8()? != 0 {
        let handle = reader.read_int_packed()?;
        field(reader, index, handle, ledger)?;
    }
    Ok(())
}

fn exported_group(reader: &mut BitReader<'_>, index: u32, ledger: &mut Ledger) -> Answered<()> {
    let path = read_text(reader)?;
    let slots = reader.read_int_packed()?;
    if slots > SLOTS_TOP {
        return refused(22, slots, 0);
    }
    ledger.add(&path, index, slots)?;
    Ok(())
}

/// Reads what follows a field's handle.
fn field(reader: &mut BitReader<'_>, index: u32, handle: u32, ledger: &mut Ledger) -> Answered<()> {
    let checksum = reader.read_u32()?;
    let name = read_name(reader)?;
    ledger.set_field(index, handle, checksum, &name)?;
    Ok(())
}

/// Returns the number of payloads.
pub fn guid_run(reader: &mut BitReader<'_>, ledger: &mut Ledger) -> Answered<u32> {
    let count = reader.read_int_packed()?;
    for _ in 0..count {
        payload(reader, ledger)?;
    }
    Ok(count)
}

fn payload(reader: &mut BitReader<'_>, ledger: &mut Ledger) -> Answered<()> {
    let size = reader.read_i32()?;
    if size < 0 {
        return refused(24, size as u32, 0);
    }
    let mut inner = reader.sub_reader(u64::from(size as u32) * 8)?;
    object(&mut inner, true, 0, ledger)?;
    match inner.bits_remaining() / 8 {
        0 => Ok(()),
        bytes => Err(Refusal::new(25, bytes, 0)),
    }
}

/// Returns the object's GUID. The outer object is read and recorded first.
pub fn object(
    reader: &mut BitReader<'_>,
    exporting: bool,
    depth: u32,
    ledger: &mut Ledger,
) -> Answered<u32> {
    const HAS_PATH: u8 = 1;
    const HAS_CHECKSUM: u8 = 4;
    if depth >= DEPTH_TOP {
        return refused(26, DEPTH_TOP, 0);
    }
    let guid = reader.read_int_packed()?;
    if guid == 0 {
        return Ok(guid);
    }
    let flags = if exporting || guid == 1 {
        reader.read_u8()?
    } else {
        0
    };
    if flags & HAS_PATH != 0 {
        let outer = object(reader, exporting, depth + 1, ledger)?;
        let path = read_text(reader)?;
        if flags & HAS_CHECKSUM != 0 {
            reader.read_u32()?;
        }
        ledger.set_guid(guid, &path, outer)?;
    }
    Ok(guid)
}

/// The seven counts of a block.
#[derive(Clone, Copy, Debug, Default, PartialEq, Eq)]
pub struct Counts {
    pub guids: u64,
    pub groups: u64,
    pub fields: u64,
    pub frame: u64,
    pub indexed: u64,
    pub literals: u64,
    pub resolved: u64,
}

impl Counts {
    /// In `tally`'s order, with the names that it prints.
    pub fn named(&self) -> [(&'static str, u64); 7] {
        [
            ("guids", self.guids),
            ("groups", self.groups),
            ("fields", self.fields),
            ("frame", self.frame),
            ("indexed", self.indexed),
            ("literals", self.literals),
            ("resolved", self.resolved),
        ]
    }
}

pub fn block(reader: &mut BitReader<'_>, ledger: &mut Ledger) -> Answered<Counts> {
    let mut counts = Counts::default();
    let word = reader.read_u32()?;
    for byte in [4, 8, 12] {
        let value = reader.read_u32()?;
        if value != 0 {
            return refused(30, byte, value);
        }
    }
    block_guids(reader, ledger, &mut counts)?;
    block_groups(reader, ledger, &mut counts)?;
    counts.frame = reader.position() / 8;
    let expected = u64::from(word) + 8;
    if counts.frame != expected {
        return Err(Refusal::new(36, counts.frame, expected));
    }
    Ok(counts)
}

fn block_guids(
    reader: &mut BitReader<'_>,
    ledger: &mut Ledger,
    counts: &mut Counts,
) -> Answered<()> {
    let count = reader.read_u32()?;
    if count > BLOCK_GUIDS_TOP {
        return refused(31, 1, count);
    }
    let mut literals = Vec::new();
    for entry in 0..count {
        block_guid(reader, entry, &mut literals, ledger, counts)?;
    }
    counts.guids = u64::from(count);
    counts.literals = literals.len() as u64;
    Ok(())
}

fn block_guid(
    reader: &mut BitReader<'_>,
    entry: u32,
    literals: &mut Vec<String>,
    ledger: &mut Ledger,
    counts: &mut Counts,
) -> Answered<()> {
    let guid = reader.read_int_packed()?;
    let outer = reader.read_int_packed()?;
    let path = match reader.read_u8()? {
        0 => {
            counts.indexed += 1;
            let place = reader.read_int_packed()?;
            let Some(path) = literals.get(place as usize) else {
                return refused(33, entry, place);
            };
            counts.resolved += 1;
            path.clone()
        }
        1 => {
            let path = read_text(reader)?;
            ledger.take_literal(literals.len() as u64 + 1)?;
            literals.push(path.clone());
            path
        }
        kind => return refused(32, entry, u32::from(kind)),
    };
    reader.read_u8()?;
    ledger.set_guid(guid, &path, outer)
}

fn block_groups(
    reader: &mut BitReader<'_>,
    ledger: &mut Ledger,
    counts: &mut Counts,
) -> Answered<()> {
    let count = reader.read_u32()?;
    if count > BLOCK_GROUPS_TOP {
        return refused(31, 2, count);
    }
    for _ in 0..count {
        block_group(reader, ledger, counts)?;
    }
    counts.groups = u64::from(count);
    Ok(())
}

fn block_group(
    reader: &mut BitReader<'_>,
    ledger: &mut Ledger,
    counts: &mut Counts,
) -> Answered<()> {
    let path = read_text(reader)?;
    let index = reader.read_int_packed()?;
    let slots = reader.read_int_packed()?;
    if slots > SLOTS_TOP {
        return refused(31, 3, slots);
    }
    let known = ledger.cache();
    if known.get_group_by_index(index).is_some() || known.get_group_by_path(&path).is_some() {
        return refused(34, index, 0);
    }
    ledger.add(&path, index, slots)?;
    for slot in 0..slots {
        if reader.read_u8()? == 0 {
            continue;
        }
        let handle = reader.read_int_packed()?;
        if handle != slot {
            return refused(35, slot, handle);
        }
        field(reader, index, handle, ledger)?;
        counts.fields += 1;
    }
    Ok(())
}
