//! Random scripts of book calls.
//!
//! Each script takes its texts, indices and GUIDs from a small pool of related
//! ones, so that merges, replacements, crossings, ambiguity and full allowances
//! are common.

pub mod calls;
pub mod late;
mod pool;
pub mod reads;
mod wire;

use crate::rng::Rng;
use crate::script::{Call, Script};

use pool::Pool;

/// Allowances that are enough for every script of short texts.
const AMPLE: [u64; 5] = [200, 100, 300, 40_000, 200];

/// The tops of the allowances.
const TOPS: [u64; 5] = [1_000_000, 100_000, 1_000_000, 67_108_864, 1_000_000];

/// Usually ample. Otherwise some allowances are so small that they are soon
/// used up.
fn allowances(rng: &mut Rng, pool: &Pool) -> [u64; 5] {
    let mut allowances = AMPLE;
    allowances[3] = AMPLE[3].max(pool.longest * 30);
    if !rng.once_in(3) {
        return allowances;
    }
    let few = if pool.has_many() { 80 } else { 6 };
    for (which, allowance) in allowances.iter_mut().enumerate() {
        if !rng.once_in(2) {
            continue;
        }
        *allowance = match which {
            3 if pool.is_long() => rng.below(pool.longest * 4),
            3 => rng.below(few * 20),
            _ => rng.below(few),
        };
    }
    allowances
}

/// One or more allowances above their tops. The others are any.
fn allowances_beyond(rng: &mut Rng) -> [u64; 5] {
    let mut allowances = TOPS.map(|top| rng.pick(&[0, 1, top]));
    let which = rng.below(5) as usize;
    for at in 0..5 {
        if at == which || rng.once_in(4) {
            allowances[at] = rng.pick(&[TOPS[at] + 1, 1 << 32, 1 << 63, u64::MAX]);
        }
    }
    allowances
}

/// Dumps the groups and GUIDs that a script can make of its pool, and the
/// counters.
fn look_at_all(pool: &Pool, script: &mut Script) {
    let (groups, guids) = if pool.has_many() { (90, 90) } else { (9, 12) };
    script.call(&Call::Dump {
        groups,
        slots: 9,
        guids,
    });
    script.call(&Call::Counters);
}
