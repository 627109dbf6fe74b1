//! Checkpoint blocks and fields runs. Reading is compared with the original.
//! Writing is compared with a plain copy of the block's bytes, since the
//! original has no writer.

use std::cell::RefCell;
use std::rc::Rc;

use super::book::{self, FIELDS, GROUPS, GUIDS};
use super::case::Case;
use super::sheet::{SET_FIELD, Sheet};
use crate::error::Error;
use crate::ported::loops;
use crate::rng::Rng;
use crate::stream::Stream;

/// The sizes of the blocks, in multiples of a recording's last block.
const SCALES: [u32; 4] = [1, 4, 16, 64];

/// The suffix of a case's name, and whether the call checks the book.
const CHECKS: [(&str, bool); 2] = [("", false), ("_checked", true)];

/// How blocks are written: the suffix of the case's name, whether the call
/// checks the book, and whether the buffer is larger than the block. A buffer
/// that is a quarter larger holds every block of the bench, and the writer does
/// not compute the length first.
const WRITINGS: [(&str, bool, bool); 3] = [
    ("", false, true),
    ("_checked", true, true),
    ("_exact", false, false),
];

/// A turn reads `RUNS` runs of `EXPORTS` exports. In a run of new groups,
/// `DECLARED` exports declare the group of the exports that follow.
const RUNS: u32 = 16;
const EXPORTS: u32 = 100;
const DECLARED: u32 = 10;

/// The cases, and the number of bytes of each scale's block.
pub fn cases() -> Result<(Vec<Case>, Vec<usize>), Error> {
    let mut rng = Rng::new(13);
    let mut cases = Vec::new();
    let mut bytes = Vec::new();
    for scale in SCALES {
        let block = Rc::new(Block::new(&mut rng, scale));
        bytes.push(block.bytes.len());
        readings(&mut cases, scale, &block);
        writings(&mut cases, scale, &block)?;
        if scale == 1 {
            runs(&mut cases, &mut rng, &block)?;
        }
    }
    Ok((cases, bytes))
}

/// Prints how much longer a byte of the largest block takes than one of the
/// smallest, and how fast blocks are written.
pub fn report(cases: &[Case], bytes: &[usize]) {
    let seconds = |name: &str| {
        cases
            .iter()
            .find(|case| case.name == name)
            .map(Case::seconds)
    };
    let sized = || SCALES.iter().zip(bytes);
    for (suffix, _) in CHECKS {
        let once = |(scale, _): (&u32, &usize)| seconds(&reading(*scale, suffix));
        if let (Some(few), Some(many)) = (
            sized().next().and_then(once),
            sized().next_back().and_then(once),
        ) {
            let times = bytes[bytes.len() - 1] as f64 / bytes[0] as f64;
            println!(
                "read_block{suffix}_growth {:.2}, the original's {:.2}",
                many.1 / few.1 / times,
                many.0 / few.0 / times
            );
        }
    }
    for (name, ..) in WRITINGS {
        for (scale, len) in sized() {
            if let Some((copy, port)) = seconds(&writing(*scale, name)) {
                let speed = |time: f64| *len as f64 / time / 1e9;
                println!(
                    "write_block{name}_{scale}x_speed {:.2} GB a second, the copy {:.2}",
                    speed(port),
                    speed(copy)
                );
            }
        }
    }
}

fn reading(scale: u32, suffix: &str) -> String {
    format!("read_block{suffix}_{scale}x")
}

fn writing(scale: u32, suffix: &str) -> String {
    format!("write_block{suffix}_{scale}x")
}

/// A block, and the smallest allowances for it.
struct Block {
    bytes: Vec<u8>,
    allowances: [u64; 4],
}

impl Block {
    fn new(rng: &mut Rng, scale: u32) -> Self {
        let guids = book::guids(rng, scale * GUIDS, book::rising);
        let groups = book::groups(rng, scale * GROUPS, scale * FIELDS).sheet;
        let fields = groups.count(SET_FIELD);
        let mut stream = Stream::new();
        for word in [0, 0, 0, 0, guids.len() as i32] {
            stream.i32(word);
        }
        put_guids(&mut stream, &guids);
        stream.i32((groups.len() - fields) as i32);
        put_groups(&mut stream, &groups);
        let mut bytes = stream.into_bytes();
        let first = bytes.len() as u32 - 8;
        bytes[..4].copy_from_slice(&first.to_le_bytes());
        let text = guids.texts.len() + groups.texts.len();
        Block {
            bytes,
            allowances: [guids.len(), groups.len() - fields, fields, text as u64],
        }
    }

    /// Memory for a book of these allowances, with one literal for each GUID.
    /// docs/LAYOUT.md gives the size.
    fn memory([guids, groups, fields, text]: [u64; 4]) -> Vec<u8> {
        let need = 4 * (37 + 11 * guids + 16 * groups + 10 * fields) + 2 * text;
        vec![0; need as usize]
    }

    /// The port's book of this block. It has passed the check.
    fn book(&self, allowances: [u64; 4]) -> Result<Vec<u8>, Error> {
        let mut memory = Self::memory(allowances);
        let read = loops::read_block(&mut memory, allowances, &self.bytes, false);
        if read == 0 || !loops::check(&memory) {
            return Err(Error::Ported(
                "it did not read a block, or the book fails its check".into(),
            ));
        }
        Ok(memory)
    }
}

/// A text as blocks have it, with a final zero byte.
fn put_text(stream: &mut Stream, text: &[u8]) {
    stream.text8(&[text, &[0]].concat());
}

fn put_guids(stream: &mut Stream, sheet: &Sheet) {
    for row in sheet.rows() {
        stream.packed(row.a, 1);
        stream.packed(row.b, 1);
        stream.bytes(&[1]);
        put_text(stream, sheet.text(row));
        stream.bytes(&[0]);
    }
}

/// Groups. Each is followed by its fields, in the order of their slots.
fn put_groups(stream: &mut Stream, sheet: &Sheet) {
    let mut empty = 0;
    for row in sheet.rows() {
        if row.kind == SET_FIELD {
            stream.bytes(&[1]);
            put_field(stream, row.b, row.c, sheet.text(row));
            empty -= 1;
        } else {
            stream.bytes(&vec![0; empty]);
            put_text(stream, sheet.text(row));
            stream.packed(row.a, 1);
            stream.packed(row.b, 1);
            empty = row.b as usize;
        }
    }
    stream.bytes(&vec![0; empty]);
}

fn put_field(stream: &mut Stream, handle: u32, checksum: u32, name: &[u8]) {
    stream.packed(handle, 1);
    stream.i32(checksum as i32);
    stream.name(&[name, &[0]].concat(), 0);
}

fn readings(cases: &mut Vec<Case>, scale: u32, block: &Rc<Block>) {
    let memory = Rc::new(RefCell::new(Block::memory(block.allowances)));
    for (suffix, checked) in CHECKS {
        let (rust, port, memory) = (block.clone(), block.clone(), memory.clone());
        cases.push(Case::new(
            reading(scale, suffix),
            move || original::read_block(&rust.bytes),
            move || {
                let mut memory = memory.borrow_mut();
                loops::read_block(&mut memory, port.allowances, &port.bytes, checked)
            },
        ));
    }
}

fn writings(cases: &mut Vec<Case>, scale: u32, block: &Rc<Block>) -> Result<(), Error> {
    let book = Rc::new(block.book(block.allowances)?);
    let len = block.bytes.len();
    for (name, checked, larger) in WRITINGS {
        let size = if larger { len + len / 4 } else { len };
        let out = Rc::new(RefCell::new(vec![0; size]));
        let written = loops::write_block(&book, &mut out.borrow_mut(), checked);
        if written != len as u64 || out.borrow()[..len] != block.bytes {
            return Err(Error::Ported("it wrote a different block".into()));
        }
        let (block, book) = (block.clone(), book.clone());
        let (copied, wrote) = (out.clone(), out);
        cases.push(Case::new(
            writing(scale, name),
            move || original::copy(&block.bytes, &mut copied.borrow_mut()[..len]),
            move || loops::write_block(&book, &mut wrote.borrow_mut(), checked),
        ));
    }
    Ok(())
}

/// Runs on the book of a block. Their groups and fields are new to the book, or
/// the book already has their fields.
fn runs(cases: &mut Vec<Case>, rng: &mut Rng, block: &Rc<Block>) -> Result<(), Error> {
    for (name, stream) in [("new", new_runs(rng)), ("known", known_runs(rng))] {
        let stream = Rc::new(stream);
        let [guids, groups, fields, text] = block.allowances;
        let more = u64::from(RUNS * EXPORTS);
        let book = Rc::new(block.book([
            guids,
            groups + more,
            fields + more,
            text + stream.len() as u64,
        ])?);
        for (suffix, checked) in CHECKS {
            let (block, book) = (block.clone(), book.clone());
            let (rust, port) = (stream.clone(), stream.clone());
            cases.push(Case::over(
                format!("read_run{suffix}_{EXPORTS}_{name}"),
                (
                    move || original::read_block(&block.bytes).left.unwrap_or_default(),
                    move |cache| original::read_runs(&rust, RUNS, cache),
                ),
                (
                    move || Vec::clone(&book),
                    move |memory| loops::read_runs(memory, &port, RUNS, checked),
                ),
            ));
        }
    }
    Ok(())
}

/// `DECLARED` exports of each run declare a group. Every export brings a field
/// of the group that was declared last.
fn new_runs(rng: &mut Rng) -> Vec<u8> {
    let mut stream = Stream::new();
    let mut index = GROUPS;
    for _ in 0..RUNS {
        stream.packed(EXPORTS, 1);
        for export in 0..EXPORTS {
            let handle = export % (EXPORTS / DECLARED);
            index += u32::from(handle == 0);
            stream.packed(index, 1);
            stream.packed(u32::from(handle == 0), 1);
            if handle == 0 {
                let name = book::class_name(rng, index);
                let path = book::group_path(rng, &name, index % 2 == 1);
                put_text(&mut stream, path.as_bytes());
                stream.packed(EXPORTS / DECLARED, 1);
            }
            put_export(&mut stream, rng, handle);
        }
    }
    stream.into_bytes()
}

/// Fields of the block's groups, each of which has at least five.
fn known_runs(rng: &mut Rng) -> Vec<u8> {
    let mut stream = Stream::new();
    let mut fields = Vec::new();
    for _ in 0..EXPORTS {
        let index = rng.below(u64::from(GROUPS)) as u32;
        let handle = rng.below(u64::from(FIELDS / GROUPS)) as u32;
        fields.push((index, handle));
    }
    let mut run = Stream::new();
    run.packed(EXPORTS, 1);
    for (index, handle) in fields {
        run.packed(index, 1);
        run.packed(0, 1);
        put_export(&mut run, rng, handle);
    }
    (0..RUNS).for_each(|_| stream.stream(&run));
    stream.into_bytes()
}

fn put_export(stream: &mut Stream, rng: &mut Rng, handle: u32) {
    stream.bytes(&[1]);
    let name = book::field_name(rng);
    put_field(stream, handle, rng.next() as u32, name.as_bytes());
}

/// The original's work on the same bytes. The functions are never inlined, for
/// the reason given in `bits`.
mod original {
    use std::hint::black_box;

    use vrf_bitio::BitReader;
    use vrf_schema::NetGuidCache;
    use vrf_schema::checkpoint::read_checkpoint_tables;
    use vrf_schema::reader::read_net_field_exports;

    use super::super::case::Outcome;

    #[inline(never)]
    pub fn read_block(bytes: &[u8]) -> Outcome {
        let mut cache = NetGuidCache::new();
        let sum = read_checkpoint_tables(black_box(bytes), &mut cache).map_or(0, |read| {
            u64::from(read.guid_count)
                + u64::from(read.group_count)
                + u64::from(read.literal_paths)
                + u64::from(read.resolved_path_indices)
                + u64::from(read.exported_fields)
                + read.frame_offset as u64
        });
        Outcome {
            sum,
            left: Some(cache),
        }
    }

    #[inline(never)]
    pub fn read_runs(bytes: &[u8], count: u32, cache: &mut NetGuidCache) -> u64 {
        let mut reader = BitReader::new(black_box(bytes));
        let runs = (0..count).map_while(|_| read_net_field_exports(&mut reader, cache).ok());
        runs.map(u64::from).sum()
    }

    #[inline(never)]
    pub fn copy(from: &[u8], to: &mut [u8]) -> u64 {
        black_box(&mut *to).copy_from_slice(black_box(from));
        to.len() as u64
    }
}
