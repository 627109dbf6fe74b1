//! Scripts of an early and a late reader. The late reader gets only the block
//! of the early reader's book. From then on both get the same calls.

use super::pool::Pool;
use super::{allowances, calls, look_at_all};
use crate::rng::Rng;
use crate::script::{Call, Script};

const EARLY: u8 = 0;
const LATE: u8 = 1;

pub struct LateJoin {
    pub script: Script,
    /// The call that writes the block. The second call after it reads the
    /// block.
    pub write: usize,
    /// A call on the early reader's book, and the same call on the late
    /// reader's.
    pub pairs: Vec<(usize, usize)>,
}

pub fn late_join(rng: &mut Rng) -> LateJoin {
    let pool = Pool::new(rng);
    let allowances = late_allowances(rng, &pool);
    let mut plan = Plan::default();
    plan.open(EARLY, allowances);
    // There is a last written block even if the next writing is refused.
    plan.call(&Call::Write { buffer: 24 });
    if pool.is_for_lookups() && rng.once_in(2) {
        let mut filling = Script::new();
        let count = calls::fill(rng, &pool, &mut filling);
        plan.append(&filling, count);
    }
    for _ in 0..rng.below(40) * pool.calls() {
        let mut call = Script::new();
        calls::book_call(rng, &pool, &mut call);
        plan.append(&call, 1);
    }
    let write = plan.calls;
    plan.call(&Call::Write {
        buffer: calls::ample_buffer(&pool),
    });
    plan.open(LATE, allowances);
    plan.call(&Call::ReadWritten);
    plan.look_at_both(&pool);
    for _ in 0..rng.below(25) * pool.calls() {
        let mut call = Script::new();
        calls::book_call(rng, &pool, &mut call);
        plan.at_both(&call, 1);
    }
    plan.look_at_both(&pool);
    LateJoin {
        script: plan.script,
        write,
        pairs: plan.pairs,
    }
}

/// At least as many literals as GUIDs, so that the late reader can read every
/// block.
fn late_allowances(rng: &mut Rng, pool: &Pool) -> [u64; 5] {
    let mut allowances = allowances(rng, pool);
    allowances[4] = allowances[4].max(allowances[0]);
    allowances
}

struct Plan {
    script: Script,
    calls: usize,
    pairs: Vec<(usize, usize)>,
}

impl Default for Plan {
    fn default() -> Self {
        Plan {
            script: Script::new(),
            calls: 0,
            pairs: Vec::new(),
        }
    }
}

impl Plan {
    fn call(&mut self, call: &Call<'_>) {
        self.script.call(call);
        self.calls += 1;
    }

    fn append(&mut self, calls: &Script, count: usize) {
        self.script.append(calls);
        self.calls += count;
    }

    fn open(&mut self, book: u8, allowances: [u64; 5]) {
        self.call(&Call::Open { book, allowances });
    }

    /// Makes the `count` calls of a script on the early reader's book, and then
    /// on the late reader's.
    fn at_both(&mut self, calls: &Script, count: usize) {
        self.call(&Call::Use { book: EARLY });
        let early = self.calls;
        self.append(calls, count);
        self.call(&Call::Use { book: LATE });
        let late = self.calls;
        self.append(calls, count);
        self.pairs
            .extend((0..count).map(|at| (early + at, late + at)));
    }

    fn look_at_both(&mut self, pool: &Pool) {
        let mut look = Script::new();
        look_at_all(pool, &mut look);
        self.at_both(&look, 2);
    }
}
