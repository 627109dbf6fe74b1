//! Scripts that are stored with the original's answers: short ones that
//! together have every call, every reading and every refusal, and random ones.

mod bits;

use std::fs;
use std::path::Path;

use crate::error::Error;
use crate::modes::books::nth_rng;
use crate::oracle;
use crate::random_books::{calls, late, reads};
use crate::random_calls::RandomCall;
use crate::rng::Rng;
use crate::scenarios::{self, Suite};
use crate::script::Script;

pub struct Sample {
    pub name: String,
    pub script: Script,
}

/// The most bytes of a random script.
const RANDOM_LENGTH: usize = 10_000;

/// The most bytes of the answers to a random script of book calls.
const RANDOM_ANSWERS: usize = 30_000;

/// How many random scripts of book calls are tried for one sample.
const TRIES: u64 = 30;

pub fn run(seed: u64, folder: &str) -> Result<(), Error> {
    let mut all = Script::new();
    for sample in samples(seed)? {
        all.append(&sample.script);
        store(folder, &sample.name, &sample.script)?;
    }
    store(folder, "all", &all)
}

fn store(folder: &str, name: &str, script: &Script) -> Result<(), Error> {
    let answers = oracle::play(script.as_bytes(), Vec::new())?;
    write(folder, name, "vjs", script.as_bytes())?;
    write(folder, name, "txt", &answers)
}

fn write(folder: &str, name: &str, ending: &str, bytes: &[u8]) -> Result<(), Error> {
    let file = Path::new(folder).join(format!("{name}.{ending}"));
    fs::create_dir_all(folder)
        .and_then(|()| fs::write(&file, bytes))
        .map_err(|e| Error::File(file.display().to_string(), e))
}

pub fn samples(seed: u64) -> Result<Vec<Sample>, Error> {
    let mut samples = bits_samples(seed);
    samples.extend(scenarios::suites().iter().map(of_suite));
    for nth in 1..=5 {
        let seed = seed.wrapping_add(nth);
        samples.push(random_books(
            format!("calls-random-{nth}"),
            seed,
            calls::script,
        )?);
        samples.push(random_books(
            format!("reads-random-{nth}"),
            seed,
            reads::script,
        )?);
        samples.push(random_books(format!("late-random-{nth}"), seed, |rng| {
            late::late_join(rng).script
        })?);
    }
    Ok(samples)
}

fn bits_samples(seed: u64) -> Vec<Sample> {
    let sample = |name: &str, write: fn(&mut Script)| {
        let mut script = Script::new();
        write(&mut script);
        Sample {
            name: name.to_owned(),
            script,
        }
    };
    vec![
        sample("bits-numbers", bits::numbers),
        sample("bits-packed", bits::packed),
        sample("bits-text", bits::text),
        sample("bits-long-text", bits::long_text),
        sample("bits-names", bits::names),
        sample("bits-copies", bits::copies),
        sample("bits-windows", bits::windows),
        random_bits("bits-random-1", seed),
        random_bits("bits-random-2", seed.wrapping_add(1)),
    ]
}

/// Ends before the first call that would make the script too long.
fn random_bits(name: &str, seed: u64) -> Sample {
    let mut rng = Rng::new(seed);
    let mut script = Script::new();
    loop {
        let call = RandomCall::new(&mut rng);
        let mut longer = script.clone();
        longer.bits(&call.win(), &call.readings);
        if longer.len() > RANDOM_LENGTH {
            return Sample {
                name: name.to_owned(),
                script,
            };
        }
        script = longer;
    }
}

/// A suite's scenarios, one after another. Each scenario opens the books that
/// it uses. The one that needs unopened books is the first.
fn of_suite(suite: &Suite) -> Sample {
    let mut script = Script::new();
    for scenario in &suite.scenarios {
        script.append(&scenario.script);
    }
    Sample {
        name: suite.name.to_owned(),
        script,
    }
}

/// Appends random scripts as long as the script and its answers stay short.
fn random_books(
    name: String,
    seed: u64,
    make: impl Fn(&mut Rng) -> Script,
) -> Result<Sample, Error> {
    let mut script = Script::new();
    for nth in 0..TRIES {
        let mut longer = script.clone();
        longer.append(&make(&mut nth_rng(seed, nth)));
        if longer.len() > RANDOM_LENGTH {
            continue;
        }
        if oracle::play(longer.as_bytes(), Vec::new())?.len() <= RANDOM_ANSWERS {
            script = longer;
        }
    }
    Ok(Sample { name, script })
}
