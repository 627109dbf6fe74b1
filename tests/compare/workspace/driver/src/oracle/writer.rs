//! The block writer. The original has none: this one follows document 01's
//! section on blocks.

use std::collections::HashSet;

use vrf_schema::export::{NetFieldExport, NetFieldExportGroup};
use vrf_schema::path::for_each_replay_path_key;

use super::Answered;
use super::book::Book;
use crate::answer::Refusal;
use crate::stream::Stream;

/// The longest block that is written (refusal 45).
const BLOCK_TOP: u64 = 268_435_456;

/// The five words before the GUIDs, and the one before the groups.
const WORDS: u64 = 6 * 4;

/// A block's length minus the number in its first word.
const END_OFFSET: u64 = 8;

/// The book's block, if it fits into `buffer` bytes.
pub fn write(book: &Book, buffer: u64) -> Answered<Vec<u8>> {
    if let Some(place) = first_covered_group(book.cache.groups()) {
        return Err(Refusal::new(44, place as u64, 0));
    }
    let length = block_length(book);
    if length > buffer || length > BLOCK_TOP {
        return Err(Refusal::new(45, length, 0));
    }
    let block = block_bytes(book, length);
    assert_eq!(
        block.len() as u64,
        length,
        "the block has the computed length"
    );
    Ok(block)
}

/// The first group whose path is a key of an earlier group.
fn first_covered_group(groups: &[NetFieldExportGroup]) -> Option<usize> {
    let mut keys: HashSet<String> = HashSet::new();
    groups.iter().position(|group| {
        let covered = keys.contains(&group.path);
        for_each_replay_path_key(&group.path, |key| {
            keys.insert(key.to_owned());
        });
        covered
    })
}

/// Computed without making the block, which may be too long for that.
fn block_length(book: &Book) -> u64 {
    let guids = book.ledger.guids().iter().map(|&guid| {
        let outer = book.outer_guid(guid).unwrap_or(0);
        let path = book.cache.get_path_by_guid(guid).unwrap_or_default();
        packed_length(guid) + packed_length(outer) + 1 + text_length(path) + 1
    });
    let groups = book.cache.groups().iter().map(group_length);
    WORDS + guids.sum::<u64>() + groups.sum::<u64>()
}

fn group_length(group: &NetFieldExportGroup) -> u64 {
    let slots = group.fields.iter().map(|slot| match slot {
        None => 1,
        Some(field) => 1 + packed_length(field.handle) + 4 + 1 + text_length(&field.name) + 4,
    });
    let head = text_length(&group.path)
        + packed_length(group.path_name_index)
        + packed_length(group.len());
    head + slots.sum::<u64>()
}

fn packed_length(number: u32) -> u64 {
    u64::from(number.checked_ilog2().unwrap_or(0) / 7 + 1)
}

fn text_length(text: &str) -> u64 {
    match text.len() as u64 {
        0 => 4,
        bytes => 4 + bytes + 1,
    }
}

fn block_bytes(book: &Book, length: u64) -> Vec<u8> {
    let mut block = Stream::new();
    word(&mut block, (length - END_OFFSET) as u32);
    for _ in 0..3 {
        word(&mut block, 0);
    }
    word(&mut block, book.ledger.guids().len() as u32);
    for &guid in book.ledger.guids() {
        block.packed(guid, 1);
        block.packed(book.outer_guid(guid).unwrap_or(0), 1);
        block.bytes(&[1]);
        text(
            &mut block,
            book.cache.get_path_by_guid(guid).unwrap_or_default(),
        );
        block.bytes(&[0]);
    }
    word(&mut block, book.cache.groups().len() as u32);
    for group in book.cache.groups() {
        group_bytes(&mut block, group);
    }
    block.into_bytes()
}

fn group_bytes(block: &mut Stream, group: &NetFieldExportGroup) {
    text(block, &group.path);
    block.packed(group.path_name_index, 1);
    block.packed(group.len(), 1);
    for slot in &group.fields {
        match slot {
            None => block.bytes(&[0]),
            Some(field) => field_bytes(block, field),
        }
    }
}

fn field_bytes(block: &mut Stream, field: &NetFieldExport) {
    block.bytes(&[1]);
    block.packed(field.handle, 1);
    word(block, field.compatible_checksum);
    block.bytes(&[0]);
    text(block, &field.name);
    word(block, 0);
}

fn word(block: &mut Stream, word: u32) {
    block.bytes(&word.to_le_bytes());
}

/// An empty text is the length 0. Any other text has a final zero, which the
/// length includes.
fn text(block: &mut Stream, text: &str) {
    if text.is_empty() {
        return word(block, 0);
    }
    word(block, text.len() as u32 + 1);
    block.bytes(text.as_bytes());
    block.bytes(&[0]);
}
