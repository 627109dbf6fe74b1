//! The four books of a script, and the text of their answers.

use super::book::Book;
use super::ledger::counters;
use super::writer;
use super::{Answered, print};
use crate::answer::Answers;
use crate::error::Error;
use crate::script::{Call, Win};

/// The value of every byte of a lent buffer before a block is written there.
const BUFFER_BYTE: u8 = 0xA5;

/// The longest buffer that the oracle lends.
const BUFFER_TOP: u64 = 1 << 30;

#[derive(Default)]
pub struct Books {
    books: [Option<Book>; 4],
    current: usize,
    /// The block that was written last, by any book.
    written: Vec<u8>,
}

/// Whether the calls after this one are played.
#[derive(Clone, Copy, PartialEq, Eq)]
pub enum Flow {
    Continue,
    Stop,
}

impl Books {
    pub fn play(&mut self, call: &Call<'_>, answers: &mut Answers) -> Result<Flow, Error> {
        match *call {
            Call::Open { book, allowances } => {
                let answer = self.open(book, allowances);
                answers.line(|answers| print(answers, answer, |a, ()| a.word("opened")));
            }
            Call::Use { book } => {
                self.current = number_of(book);
                answers.line(|answers| answers.word("using"));
            }
            _ => match &mut self.books[self.current] {
                None => answers.line(|answers| answers.word("no book")),
                Some(book) => return play_on(book, &mut self.written, call, answers),
            },
        }
        Ok(Flow::Continue)
    }

    /// A refused opening leaves the old book, which becomes the current one.
    fn open(&mut self, book: u8, allowances: [u64; 5]) -> Answered<()> {
        self.current = number_of(book);
        self.books[self.current] = Some(Book::open(allowances)?);
        Ok(())
    }
}

fn number_of(book: u8) -> usize {
    usize::from(book % 4)
}

fn play_on(
    book: &mut Book,
    written: &mut Vec<u8>,
    call: &Call<'_>,
    answers: &mut Answers,
) -> Result<Flow, Error> {
    match *call {
        Call::FieldsRun(ref win) => print_run(answers, book.read_fields(win)?, "count"),
        Call::GuidRun(ref win) => print_run(answers, book.read_guids(win)?, "count"),
        Call::Object {
            ref win,
            exporting,
            depth,
        } => print_run(
            answers,
            book.read_object(win, exporting != 0, depth)?,
            "guid",
        ),
        Call::Block(ref win) => read_block(book, win, answers)?,
        Call::ReadWritten => read_block(book, &Win::whole(written), answers)?,
        Call::Write { buffer } if buffer > BUFFER_TOP => {
            answers.line(|answers| answers.word("too large"));
            return Ok(Flow::Stop);
        }
        Call::Write { buffer } => write(book, buffer, written, answers),
        Call::Dump {
            groups,
            slots,
            guids,
        } => dump(book, groups, slots, guids, answers),
        _ => answers.line(|answers| play_short(book, call, answers)),
    }
    Ok(Flow::Continue)
}

fn print_run(answers: &mut Answers, answer: Answered<(u32, u64)>, label: &str) {
    answers.line(|answers| {
        print(answers, answer, |answers, (number, position)| {
            answers.labelled(label, u64::from(number));
            answers.labelled(" at", position);
        });
    });
}

fn read_block(book: &mut Book, win: &Win<'_>, answers: &mut Answers) -> Result<(), Error> {
    let answer = book.read_block(win)?;
    answers.line(|answers| {
        print(answers, answer, |answers, counts| {
            answers.word("counts");
            for (_, count) in counts.named() {
                answers.labelled("", count);
            }
        });
    });
    Ok(())
}

fn write(book: &Book, buffer: u64, written: &mut Vec<u8>, answers: &mut Answers) {
    let mut lent = vec![BUFFER_BYTE; buffer as usize];
    let answer = writer::write(book, buffer);
    if let Ok(block) = &answer {
        lent[..block.len()].copy_from_slice(block);
        written.clone_from(block);
    }
    answers.line(|answers| {
        print(answers, answer, |answers, block| {
            answers.labelled("length", block.len() as u64);
        });
        answers.word(" fnv ");
        answers.hexadecimal(fnv(&lent));
    });
}

/// FNV-1a of 64 bits.
fn fnv(bytes: &[u8]) -> u64 {
    const START: u64 = 0xCBF2_9CE4_8422_2325;
    const PRIME: u64 = 0x0000_0100_0000_01B3;
    bytes.iter().fold(START, |hash, &byte| {
        (hash ^ u64::from(byte)).wrapping_mul(PRIME)
    })
}

/// Prints a line for every place below the given numbers, also for empty
/// places: no lookup gives the number of places.
fn dump(book: &Book, groups: u32, slots: u32, guids: u32, answers: &mut Answers) {
    for place in 0..groups {
        answers.line(|answers| {
            answers.labelled("group", u64::from(place));
            answers.word(" ");
            print_group(book, place, answers);
            print_fields(book, place, slots, answers);
        });
    }
    for place in 0..guids {
        answers.line(|answers| {
            answers.labelled("guid", u64::from(place));
            answers.word(" ");
            print_guid_path(book, place, answers);
        });
    }
}

/// An empty place has an empty text and zeroes.
fn print_group(book: &Book, place: u32, answers: &mut Answers) {
    let group = book.group_at(place);
    answers.word("path ");
    answers.quoted(group.map_or("", |group| &group.path).as_bytes());
    let index = group.map_or(0, |group| group.path_name_index);
    answers.labelled(" index", u64::from(index));
    let slots = group.map_or(0, |group| group.len());
    answers.labelled(" slots", u64::from(slots));
}

fn print_fields(book: &Book, place: u32, slots: u32, answers: &mut Answers) {
    let Some(group) = book.group_at(place) else {
        return;
    };
    for slot in 0..slots.min(group.len()) {
        if let Some(field) = group.get_field(slot) {
            answers.labelled(" field", u64::from(slot));
            answers.labelled("", u64::from(field.compatible_checksum));
            answers.word(" ");
            answers.quoted(field.name.as_bytes());
        }
    }
}

fn print_guid_path(book: &Book, place: u32, answers: &mut Answers) {
    let path = book.path_at_guid(place as usize).unwrap_or_default();
    answers.word("path ");
    answers.quoted(path.as_bytes());
}

/// The calls whose answer is one short line.
fn play_short(book: &mut Book, call: &Call<'_>, answers: &mut Answers) {
    match *call {
        Call::Clear => {
            book.clear();
            answers.word("cleared");
        }
        Call::AddGroup {
            ref path,
            index,
            slots,
        } => print(answers, book.add(path, index, slots), |answers, place| {
            answers.labelled("place", place as u64);
        }),
        Call::SetField {
            index,
            handle,
            checksum,
            ref name,
        } => {
            let answer = book.set_field(index, handle, checksum, name);
            print(answers, answer, |answers, placed| {
                answers.word(if placed { "placed" } else { "not placed" });
            });
        }
        Call::SetGuid {
            guid,
            ref path,
            outer,
        } => print(answers, book.set_guid(guid, path, outer), |answers, ()| {
            answers.word("set");
        }),
        _ => play_lookup(book, call, answers),
    }
}

fn play_lookup(book: &Book, call: &Call<'_>, answers: &mut Answers) {
    match *call {
        Call::GroupByIndex(index) => print_place(answers, Ok(book.group_by_index(index))),
        Call::GroupByPath(ref path) => print_place(answers, book.group_by_path(path)),
        Call::PathByGuid(guid) => print_place(answers, Ok(book.path_by_guid(guid))),
        Call::OuterGuid(guid) => {
            print_found(answers, "guid", book.outer_guid(guid).map(u64::from));
        }
        Call::OuterPath(guid) => print_place(answers, Ok(book.outer_path(guid))),
        Call::TagName(tag) => print_place(answers, Ok(book.tag_group(tag))),
        Call::Field { place, slot } => {
            let group = book.group_at(place);
            let field = group.and_then(|group| group.get_field(slot));
            let checksum = field.map(|field| u64::from(field.compatible_checksum));
            print_found(answers, "checksum", checksum);
        }
        Call::GroupAt(place) => print_group(book, place, answers),
        Call::NameAt { place, slot } => {
            let group = book.group_at(place);
            let field = group.and_then(|group| group.get_field(slot));
            answers.word("name ");
            answers.quoted(field.map_or("", |field| &field.name).as_bytes());
        }
        Call::GuidPathAt(place) => print_guid_path(book, place, answers),
        Call::LeafMatch(ref name) => print_place(answers, book.leaf_match(name)),
        Call::ResolveInstance(ref name) => print_place(answers, book.resolve_instance(name)),
        Call::ClassNetCacheKey(ref path) => print_place(answers, book.class_net_cache_key(path)),
        Call::Counters => print_counters(book, answers),
        ref other => unreachable!("{other} is answered elsewhere"),
    }
}

fn print_place(answers: &mut Answers, answer: Answered<Option<usize>>) {
    print(answers, answer, |answers, place| {
        print_found(answers, "place", place.map(|place| place as u64));
    });
}

fn print_found(answers: &mut Answers, label: &str, found: Option<u64>) {
    match found {
        Some(number) => answers.labelled(label, number),
        None => answers.word("absent"),
    }
}

fn print_counters(book: &Book, answers: &mut Answers) {
    answers.word("counters");
    let labels = [" schema", " guid", " dropped", " replaced", " renamed"];
    for (label, counter) in std::iter::zip(labels, counters(&book.cache)) {
        answers.labelled(label, counter);
    }
}
