//! Compares random calls of `bits`.

use crate::compare::{MEMORY, Session};
use crate::error::Error;
use crate::random_calls::RandomCall;
use crate::rng::Rng;

pub fn run(seed: u64, calls: u64) -> Result<(), Error> {
    let mut rng = Rng::new(seed);
    let mut session = Session::open(MEMORY)?;
    for _ in 0..calls {
        let call = RandomCall::new(&mut rng);
        session.bits(&call.win(), &call.readings)?;
    }
    println!(
        "random {seed}: {} calls, all answers equal",
        session.finish()?
    );
    Ok(())
}
