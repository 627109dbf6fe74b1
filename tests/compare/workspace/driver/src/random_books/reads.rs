//! Scripts of runs, objects and blocks: good ones, all prefixes of good ones,
//! good ones with one byte changed, and random bytes.

use super::pool::Pool;
use super::wire::Writer;
use super::{allowances, calls, look_at_all};
use crate::owned_win::OwnedWin;
use crate::rng::Rng;
use crate::script::{Blob, Call, Script, Win};
use crate::stream::Stream;

/// The most bytes of a stream whose prefixes are all read, or whose bytes are
/// all changed.
const SMALL: u64 = 90;

pub fn script(rng: &mut Rng) -> Script {
    let plan = Plan::new(rng);
    let mut script = Script::new();
    match rng.below(9) {
        0 => plan.beginnings(rng, &mut script),
        1 => plan.changed_bytes(rng, &mut script),
        2 => plan.random_bytes(rng, &mut script),
        3 => plan.one_bit_further(rng, &mut script),
        4 => plan.long_texts(rng, &mut script),
        _ => plan.one_after_another(rng, &mut script),
    }
    script
}

/// What is read, and how.
#[derive(Clone, Copy, PartialEq, Eq)]
pub enum Kind {
    Fields,
    Guids,
    Object { exporting: u8, depth: u32 },
    Block,
    Tally,
}

impl Kind {
    fn any(rng: &mut Rng) -> Self {
        match rng.below(12) {
            0..=3 => Kind::Fields,
            4 | 5 => Kind::Guids,
            6 => Kind::Object {
                exporting: u8::from(!rng.once_in(3)),
                depth: rng.pick(&[0, 0, 0, 1, 13, 14, 15, 16, 17, u32::MAX]),
            },
            7..=10 => Kind::Block,
            _ => Kind::Tally,
        }
    }

    fn stream(self, rng: &mut Rng, writer: &Writer<'_>) -> Stream {
        match self {
            Kind::Fields => writer.fields_run(rng),
            Kind::Guids => writer.guid_run(rng),
            Kind::Object { exporting, .. } => writer.object(rng, exporting != 0),
            Kind::Block => writer.block(rng),
            Kind::Tally => writer.block_for_tally(rng),
        }
    }

    /// `tally` has no window: it reads all bytes of the blob.
    pub fn call<'a>(self, win: Win<'a>) -> Call<'a> {
        match self {
            Kind::Fields => Call::FieldsRun(win),
            Kind::Guids => Call::GuidRun(win),
            Kind::Object { exporting, depth } => Call::Object {
                win,
                exporting,
                depth,
            },
            Kind::Block => Call::Block(win),
            Kind::Tally => Call::Tally(win.blob),
        }
    }
}

/// A book to read into, and what to read.
struct Plan {
    pool: Pool,
    allowances: [u64; 5],
    /// Calls on the fresh book before each reading. There may be none.
    before: Script,
    kind: Kind,
}

impl Plan {
    fn new(rng: &mut Rng) -> Self {
        let pool = Pool::new(rng);
        let mut before = Script::new();
        if rng.once_in(2) {
            for _ in 0..1 + rng.below(4) {
                calls::book_call(rng, &pool, &mut before);
            }
        }
        Plan {
            allowances: allowances(rng, &pool),
            kind: Kind::any(rng),
            pool,
            before,
        }
    }

    fn fresh_book(&self, script: &mut Script) {
        script.call(&Call::Open {
            book: 0,
            allowances: self.allowances,
        });
        script.append(&self.before);
    }

    /// The longest of a few good streams of at most `SMALL` bytes, or a longer
    /// one if all are longer.
    fn small(&self, rng: &mut Rng) -> Stream {
        let writer = Writer::new(&self.pool, 0);
        let mut best = self.kind.stream(rng, &writer);
        for _ in 0..8 {
            let other = self.kind.stream(rng, &writer);
            let fits = other.len() <= SMALL * 8;
            if fits && (best.len() > SMALL * 8 || other.len() > best.len()) {
                best = other;
            }
        }
        best
    }

    /// Every prefix, each into its own book.
    fn beginnings(&self, rng: &mut Rng, script: &mut Script) {
        let first = rng.below(8);
        let window = OwnedWin::fitting(first, &self.small(rng));
        let whole = window.count / 8;
        let step = whole / SMALL + 1;
        for bytes in (0..=whole).step_by(step as usize) {
            self.fresh_book(script);
            // A few bits after the last whole byte make no difference.
            let count = (bytes * 8 + rng.pick(&[0, 0, 1, 7])).min(window.count);
            let mut win = window.win();
            win.count = count;
            if self.kind == Kind::Tally || rng.once_in(2) {
                let end = (first + count).div_ceil(8) as usize;
                win.blob = Blob::Plain(&window.head[..end]);
            }
            read(script, self.kind, win);
        }
    }

    /// One byte changed, each byte in its turn.
    fn changed_bytes(&self, rng: &mut Rng, script: &mut Script) {
        let stream = self.small(rng);
        let first = rng.below(8);
        let len = stream.as_bytes().len();
        let step = len / SMALL as usize + 1;
        for at in (0..len).step_by(step) {
            let mut bytes = stream.as_bytes().to_vec();
            bytes[at] = changed(rng, bytes[at]);
            let mut corrupted = Stream::new();
            corrupted.bytes(&bytes);
            self.fresh_book(script);
            read(
                script,
                self.kind,
                OwnedWin::fitting(first, &corrupted).win(),
            );
        }
    }

    /// Random bytes, some of them after a prefix of a good stream.
    fn random_bytes(&self, rng: &mut Rng, script: &mut Script) {
        self.fresh_book(script);
        for _ in 0..1 + rng.below(20) {
            let mut stream = Stream::new();
            if rng.once_in(2) {
                let good = self.small(rng);
                let keep = rng.below(good.as_bytes().len() as u64 + 1) as usize;
                stream.bytes(&good.as_bytes()[..keep]);
            } else if self.kind == Kind::Block {
                stream.bytes(&[0; 16]);
            }
            let few = rng.once_in(2);
            for _ in 0..rng.below(40) {
                let byte = match few {
                    true => rng.pick(&[0, 0, 1, 2, 4, 5, 0x41, 0x80, 0xFF]),
                    false => rng.byte(),
                };
                stream.bytes(&[byte]);
            }
            read(script, self.kind, OwnedWin::random(rng, &stream).win());
        }
    }

    /// One stream, starting at every bit of a byte.
    fn one_bit_further(&self, rng: &mut Rng, script: &mut Script) {
        let flaws = rng.pick(&[0, 20]);
        let stream = self.kind.stream(rng, &Writer::new(&self.pool, flaws));
        for first in 0..8 {
            self.fresh_book(script);
            read(script, self.kind, OwnedWin::fitting(first, &stream).win());
        }
    }

    /// A text of about the maximum length, each text in its turn. The book may
    /// be too small for it.
    fn long_texts(&self, rng: &mut Rng, script: &mut Script) {
        for nth in 1..=6 {
            let writer = Writer::new(&self.pool, 0).with_long_text(nth);
            let stream = self.kind.stream(rng, &writer);
            let mut allowances = self.allowances;
            if rng.once_in(2) {
                allowances[3] = rng.pick(&[4_095, 4_096, 4_100, 8_192]);
            }
            script.call(&Call::Open {
                book: 0,
                allowances,
            });
            read(
                script,
                self.kind,
                OwnedWin::fitting(rng.below(8), &stream).win(),
            );
        }
    }

    /// Several streams into one book, good or not, in any window.
    fn one_after_another(&self, rng: &mut Rng, script: &mut Script) {
        self.fresh_book(script);
        let flaws = rng.pick(&[0, 15, 40]);
        let writer = Writer::new(&self.pool, flaws);
        for _ in 0..1 + rng.below(10) {
            let kind = Kind::any(rng);
            let stream = kind.stream(rng, &writer);
            let window = match rng.below(3) {
                0 => OwnedWin::random(rng, &stream),
                _ => OwnedWin::fitting(rng.below(8), &stream),
            };
            read(script, kind, window.win());
            if rng.once_in(12) {
                script.call(&Call::Clear);
            }
        }
        for _ in 0..rng.below(8) {
            calls::lookup(rng, &self.pool, script);
        }
        if !self.pool.is_long() {
            look_at_all(&self.pool, script);
        }
    }
}

/// One reading, and what the book holds after it.
fn read(script: &mut Script, kind: Kind, win: Win<'_>) {
    script.call(&kind.call(win));
    if kind != Kind::Tally {
        script.call(&Call::Dump {
            groups: 5,
            slots: 6,
            guids: 6,
        });
        script.call(&Call::Counters);
    }
}

fn changed(rng: &mut Rng, byte: u8) -> u8 {
    match rng.below(6) {
        0 => byte ^ (1 << rng.below(8)),
        1 => byte.wrapping_add(1),
        2 => byte.wrapping_sub(1),
        3 => rng.pick(&[0, 1, 2, 0x7F, 0x80, 0xFE, 0xFF]),
        _ => rng.byte(),
    }
}
