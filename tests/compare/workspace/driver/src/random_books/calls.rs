//! Scripts of book calls and lookups, most of them on one book.

use super::pool::Pool;
use super::wire::Writer;
use super::{allowances, allowances_beyond, look_at_all};
use crate::owned_win::OwnedWin;
use crate::rng::Rng;
use crate::script::{Blob, Call, Script};

/// The length of an empty book's block.
const EMPTY_BLOCK: u64 = 24;

pub fn script(rng: &mut Rng) -> Script {
    let pool = Pool::new(rng);
    let watched = rng.once_in(3) && !pool.is_long() && !pool.has_many();
    let mut script = Script::new();
    if rng.once_in(6) {
        before_opening(rng, &pool, &mut script);
    }
    let allowances = allowances(rng, &pool);
    script.call(&Call::Open {
        book: 0,
        allowances,
    });
    // The first writing makes sure that there is a last written block.
    let writes = rng.once_in(3);
    if writes {
        script.call(&Call::Write {
            buffer: EMPTY_BLOCK + rng.below(3),
        });
    }
    if pool.is_for_lookups() && !rng.once_in(4) {
        fill(rng, &pool, &mut script);
    }
    for _ in 0..(10 + rng.below(50)) * pool.calls() {
        let changes = match rng.below(16) {
            0 if writes => written_block_call(rng, &pool, &mut script),
            1 if rng.once_in(4) => other_book(rng, &pool, &mut script),
            _ => book_call(rng, &pool, &mut script),
        };
        if changes && watched {
            look_at_all(&pool, &mut script);
        }
    }
    if writes {
        script.call(&Call::Write {
            buffer: ample_buffer(&pool),
        });
    }
    look_at_all(&pool, &mut script);
    script
}

/// Adds most of the pool's paths as groups, each with its own index, and then
/// makes lookups by text. Returns the number of calls.
pub fn fill(rng: &mut Rng, pool: &Pool, script: &mut Script) -> usize {
    let mut calls = 0;
    for nth in 0..pool.pairs() {
        let (path, index) = pool.pair(nth);
        if !rng.once_in(6) {
            script.call(&Call::AddGroup {
                path: Blob::of(path.as_bytes()),
                index,
                slots: rng.below(4) as u32,
            });
            calls += 1;
        }
    }
    for _ in 0..rng.below(30) {
        lookup_by_text(rng, pool, script);
        calls += 1;
    }
    calls
}

/// Enough for every book that a script makes of its pool, unless a group has
/// very many slots.
pub fn ample_buffer(pool: &Pool) -> u64 {
    (4_000 + pool.longest * 40) * pool.calls()
}

/// Calls to a book that is not open, and refused openings.
fn before_opening(rng: &mut Rng, pool: &Pool, script: &mut Script) {
    for _ in 0..1 + rng.below(4) {
        match rng.below(4) {
            0 => script.call(&Call::Use { book: rng.byte() }),
            1 => script.call(&Call::Open {
                book: rng.byte(),
                allowances: allowances_beyond(rng),
            }),
            _ => {
                book_call(rng, pool, script);
            }
        }
    }
}

/// Writes a block, or reads the last written one. Returns whether that may
/// change the book.
fn written_block_call(rng: &mut Rng, pool: &Pool, script: &mut Script) -> bool {
    if rng.once_in(2) {
        script.call(&Call::ReadWritten);
        return true;
    }
    script.call(&Call::Write {
        buffer: match rng.below(4) {
            0 => rng.below(200),
            1 => rng.magnitude(16),
            _ => ample_buffer(pool),
        },
    });
    false
}

/// Uses another book for one call, opens another book, or opens this one again.
fn other_book(rng: &mut Rng, pool: &Pool, script: &mut Script) -> bool {
    match rng.below(4) {
        0 => script.call(&Call::Open {
            book: 0,
            allowances: allowances_beyond(rng),
        }),
        1 => {
            script.call(&Call::Use { book: rng.byte() });
            book_call(rng, pool, script);
            script.call(&Call::Use { book: 0 });
        }
        _ => script.call(&Call::Open {
            book: rng.byte(),
            allowances: allowances(rng, pool),
        }),
    }
    true
}

/// One call on the current book. Returns whether it may change the book.
pub fn book_call(rng: &mut Rng, pool: &Pool, script: &mut Script) -> bool {
    match rng.below(100) {
        0..=23 => add(rng, pool, script),
        24..=41 => set_field(rng, pool, script),
        42..=52 => set_guid(rng, pool, script),
        53..=65 => read(rng, pool, script),
        66 => script.call(&Call::Clear),
        _ => {
            lookup(rng, pool, script);
            return false;
        }
    }
    true
}

fn add(rng: &mut Rng, pool: &Pool, script: &mut Script) {
    let path = pool.callers_text(rng);
    let slots = match rng.below(60) {
        0 => rng.pick(&[65_535, 65_536]),
        1 => rng.pick(&[65_537, 100_000, u32::MAX]),
        _ => rng.below(8) as u32,
    };
    script.call(&Call::AddGroup {
        path: Blob::of(&path),
        index: pool.index(rng),
        slots,
    });
}

fn set_field(rng: &mut Rng, pool: &Pool, script: &mut Script) {
    let name = pool.callers_name(rng);
    script.call(&Call::SetField {
        index: pool.index(rng),
        handle: handle(rng),
        checksum: rng.pick(&[0, 1, 7, 1 << 31, u32::MAX]),
        name: Blob::of(&name),
    });
}

fn handle(rng: &mut Rng) -> u32 {
    match rng.below(24) {
        0 => rng.pick(&[8, 127, 65_535, 65_536, u32::MAX]),
        _ => rng.below(6) as u32,
    }
}

fn set_guid(rng: &mut Rng, pool: &Pool, script: &mut Script) {
    let path = pool.callers_text(rng);
    script.call(&Call::SetGuid {
        guid: pool.guid(rng),
        path: Blob::of(&path),
        outer: pool.guid(rng),
    });
}

/// A run, an object or a block. Most of them can be read.
fn read(rng: &mut Rng, pool: &Pool, script: &mut Script) {
    let flaws = rng.pick(&[0, 0, 60]);
    let writer = Writer::new(pool, flaws);
    let kind = rng.below(10);
    let exporting = u8::from(!rng.once_in(4));
    let stream = match kind {
        0..=3 => writer.fields_run(rng),
        4..=6 => writer.guid_run(rng),
        7 | 8 => writer.object(rng, exporting == 1),
        _ => writer.block(rng),
    };
    let window = OwnedWin::fitting(rng.below(8), &stream);
    let win = window.win();
    script.call(&match kind {
        0..=3 => Call::FieldsRun(win),
        4..=6 => Call::GuidRun(win),
        7 | 8 => Call::Object {
            win,
            exporting,
            depth: rng.pick(&[0, 0, 0, 1, 14, 15, 16, u32::MAX]),
        },
        _ => Call::Block(win),
    });
}

/// One lookup of any kind.
pub fn lookup(rng: &mut Rng, pool: &Pool, script: &mut Script) {
    if rng.once_in(2) || pool.is_for_lookups() && rng.once_in(2) {
        return lookup_by_text(rng, pool, script);
    }
    match rng.below(8) {
        0 => script.call(&Call::GroupByIndex(pool.index(rng))),
        1 => script.call(&Call::PathByGuid(pool.guid(rng))),
        2 => script.call(&Call::OuterGuid(pool.guid(rng))),
        3 => script.call(&Call::OuterPath(pool.guid(rng))),
        4 => script.call(&Call::TagName(handle(rng))),
        5 => script.call(&Call::Field {
            place: place(rng, pool),
            slot: handle(rng),
        }),
        6 => script.call(&Call::NameAt {
            place: place(rng, pool),
            slot: handle(rng),
        }),
        _ => script.call(&match rng.below(3) {
            0 => Call::GroupAt(place(rng, pool)),
            1 => Call::GuidPathAt(place(rng, pool)),
            _ => Call::Counters,
        }),
    }
}

fn place(rng: &mut Rng, pool: &Pool) -> u32 {
    match rng.below(16) {
        0 => rng.pick(&[8, 1_000_000, u32::MAX]),
        _ => rng.below(6 * pool.calls()) as u32,
    }
}

fn lookup_by_text(rng: &mut Rng, pool: &Pool, script: &mut Script) {
    let kind = rng.below(4);
    let text = match kind {
        0 | 1 => pool.callers_text(rng),
        _ => pool.bare_name(rng),
    };
    let blob = Blob::of(&text);
    script.call(&match kind {
        0 => Call::GroupByPath(blob),
        1 => Call::ClassNetCacheKey(blob),
        2 => Call::LeafMatch(blob),
        _ => Call::ResolveInstance(blob),
    });
}
