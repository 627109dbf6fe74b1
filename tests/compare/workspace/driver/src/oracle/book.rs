//! A book: a cache that the original's readers changed, and a ledger that makes
//! the same changes step by step.

use std::fmt::Debug;

use vrf_bitio::BitReader;
use vrf_schema::NetGuidCache;
use vrf_schema::checkpoint::read_checkpoint_tables;
use vrf_schema::reader::{load_object, read_export_guids, read_net_field_exports};

use super::Answered;
use super::ledger::Ledger;
use super::texts::{WIRE_TEXT_TOP, callers_text};
use super::walk::{self, Counts, SLOTS_TOP};
use super::windows::with_window;
use crate::answer::Refusal;
use crate::error::Error;
use crate::script::{Blob, Win};

pub struct Book {
    pub ledger: Ledger,
    /// No walk changes this cache, so a reader of the original finds it as the
    /// previous call left it. All lookups use it.
    pub cache: NetGuidCache,
}

/// A refusal is an answer; an error means that the oracle contradicts itself.
type Read<T> = Result<Answered<T>, Error>;

impl Book {
    pub fn open(allowances: [u64; 5]) -> Answered<Self> {
        Ok(Book {
            ledger: Ledger::open(allowances)?,
            cache: NetGuidCache::new(),
        })
    }

    pub fn clear(&mut self) {
        self.ledger.clear();
        self.cache.clear();
    }

    pub fn add(&mut self, path: &Blob<'_>, index: u32, slots: u32) -> Answered<usize> {
        let bytes = path.bytes();
        let path = callers_text(&bytes)?;
        if slots > SLOTS_TOP {
            return Err(Refusal::new(22, u64::from(slots), 0));
        }
        self.step(|ledger| ledger.add(path, index, slots))
    }

    pub fn set_field(
        &mut self,
        index: u32,
        handle: u32,
        checksum: u32,
        name: &Blob<'_>,
    ) -> Answered<bool> {
        let bytes = name.bytes();
        let name = callers_text(&bytes)?;
        self.step(|ledger| ledger.set_field(index, handle, checksum, name))
    }

    pub fn set_guid(&mut self, guid: u32, path: &Blob<'_>, outer: u32) -> Answered<()> {
        let bytes = path.bytes();
        let path = callers_text(&bytes)?;
        self.step(|ledger| ledger.set_guid(guid, path, outer))
    }

    /// A direct call is a single step. It is made on both caches.
    fn step<T>(&mut self, make: impl FnOnce(&mut Ledger) -> Answered<T>) -> Answered<T> {
        let answer = make(&mut self.ledger);
        self.ledger.apply_steps(&mut self.cache);
        answer
    }

    /// Returns the count and the position after the run.
    pub fn read_fields(&mut self, win: &Win<'_>) -> Read<(u32, u64)> {
        self.read(
            win,
            |reader, ledger| Ok((walk::fields_run(reader, ledger)?, reader.position())),
            |reader, cache| Ok((read_net_field_exports(reader, cache)?, reader.position())),
        )
    }

    /// Returns the count and the position after the run.
    pub fn read_guids(&mut self, win: &Win<'_>) -> Read<(u32, u64)> {
        self.read(
            win,
            |reader, ledger| Ok((walk::guid_run(reader, ledger)?, reader.position())),
            |reader, cache| Ok((read_export_guids(reader, cache)?, reader.position())),
        )
    }

    /// Returns the GUID and the position after the object.
    pub fn read_object(&mut self, win: &Win<'_>, exporting: bool, depth: u32) -> Read<(u32, u64)> {
        self.read(
            win,
            |reader, ledger| {
                let guid = walk::object(reader, exporting, depth, ledger)?;
                Ok((guid, reader.position()))
            },
            |reader, cache| {
                // The original's run of GUIDs records them like this.
                let register = &mut |guid, path, outer| {
                    cache.set_net_guid_path(guid, path, Some(outer));
                };
                let guid = load_object(reader, exporting, WIRE_TEXT_TOP, depth, register)?;
                Ok((guid.0, reader.position()))
            },
        )
    }

    pub fn read_block(&mut self, win: &Win<'_>) -> Read<Counts> {
        self.read(win, walk::block, |reader, cache| {
            let bytes = whole_bytes(reader)?;
            let tables = read_checkpoint_tables(&bytes, cache)?;
            Ok(Counts {
                guids: tables.guid_count.into(),
                groups: tables.group_count.into(),
                fields: tables.exported_fields.into(),
                frame: tables.frame_offset as u64,
                indexed: tables.indexed_paths.into(),
                literals: tables.literal_paths.into(),
                resolved: tables.resolved_path_indices.into(),
            })
        })
    }

    /// Walks over the window on the ledger. If the walk ends with a refusal
    /// that document 01 adds inside a reader, that is the answer, and the
    /// walk's steps are made again on the cache. Otherwise the original's
    /// reader gives the answer and makes the steps, and the walk must agree
    /// with it.
    fn read<T: PartialEq + Debug>(
        &mut self,
        win: &Win<'_>,
        walk: impl FnOnce(&mut BitReader<'_>, &mut Ledger) -> Answered<T>,
        original: impl FnOnce(&mut BitReader<'_>, &mut NetGuidCache) -> Answered<T>,
    ) -> Read<T> {
        let read = with_window(win, |reader| {
            let walked = walk(&mut reader.clone(), &mut self.ledger);
            if walked.as_ref().is_err_and(is_added) {
                self.ledger.apply_steps(&mut self.cache);
                return Ok(walked);
            }
            self.ledger.forget_steps();
            let answer = original(&mut reader.clone(), &mut self.cache);
            if answer == walked {
                Ok(answer)
            } else {
                Err(contradiction(&format!("{answer:?} against {walked:?}")))
            }
        });
        let answer = match read {
            Err(refusal) => Err(refusal),
            Ok(read) => read?,
        };
        match self.ledger.disagrees_with(&self.cache) {
            Some(what) => Err(contradiction(what)),
            None => Ok(answer),
        }
    }
}

/// Of the refusals inside a reader, document 01 adds the text limit (41) and
/// the allowances (42).
fn is_added(refusal: &Refusal) -> bool {
    matches!(refusal.number, 41 | 42)
}

fn contradiction(what: &str) -> Error {
    Error::Oracle(format!("the walk and the original differ in {what}"))
}

/// A block's bytes. The window may begin inside a byte, but the original needs
/// a slice. Bits after the last whole byte cannot be read, and are left out.
fn whole_bytes(reader: &mut BitReader<'_>) -> Answered<Vec<u8>> {
    let len = reader.bits_remaining() / 8;
    let mut bytes = vec![0; len as usize];
    reader.copy_bits_to(&mut bytes, len * 8)?;
    Ok(bytes)
}
