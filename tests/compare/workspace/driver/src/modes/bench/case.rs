//! Two loops that do the same work, and the best time of each.

use std::hint::black_box;
use std::rc::Rc;
use std::time::{Duration, Instant};

use vrf_schema::NetGuidCache;

use crate::error::Error;

const ROUNDS: u32 = 100;

/// A case stops after it has used this much time, but not before it has had
/// `FEWEST` turns.
const SPENT: Duration = Duration::from_secs(8);
const FEWEST: u32 = 7;

/// A turn repeats its loop until it takes about this long. Short turns are more
/// often undisturbed.
const TURN: Duration = Duration::from_millis(1);

/// Runs the cases whose names begin with `only`, or all of them.
///
/// Every case has one turn in every round. A disturbance of a few seconds then
/// affects a few turns of all cases and not all turns of one case.
pub fn run(mut cases: Vec<Case>, only: Option<&str>) -> Result<Vec<Case>, Error> {
    cases.retain(|case| only.is_none_or(|only| case.name.starts_with(only)));
    for case in &mut cases {
        case.prepare()?;
    }
    for _ in 0..ROUNDS {
        cases.iter_mut().for_each(Case::turn);
    }
    for case in &cases {
        println!("{} ratio {:.2}", case.name, case.ratio());
    }
    Ok(cases)
}

/// A loop's sum, and the book that it made. The time of dropping the book is
/// not counted, since lent memory is not dropped either.
pub struct Outcome {
    pub sum: u64,
    pub left: Option<NetGuidCache>,
}

impl From<u64> for Outcome {
    fn from(sum: u64) -> Self {
        Outcome { sum, left: None }
    }
}

/// Runs a loop once, and returns its time and its sum.
type Loop = Box<dyn FnMut() -> (Duration, u64)>;

/// How long this thread has run, without the time in which other work
/// interrupted it.
fn processor_time() -> Duration {
    #[repr(C)]
    struct Time {
        seconds: i64,
        nanoseconds: i64,
    }
    unsafe extern "C" {
        fn clock_gettime(clock: i32, time: *mut Time) -> i32;
    }
    const OF_THIS_THREAD: i32 = 3;
    let mut time = Time {
        seconds: 0,
        nanoseconds: 0,
    };
    // SAFETY: the C library writes one `Time`, whose layout is the one above.
    unsafe { clock_gettime(OF_THIS_THREAD, &mut time) };
    Duration::new(time.seconds as u64, time.nanoseconds as u32)
}

/// A loop over a value that `ready` makes for every turn, outside the time.
fn timed<S: 'static, R: Into<Outcome>>(
    mut ready: impl FnMut() -> S + 'static,
    mut run: impl FnMut(&mut S) -> R + 'static,
) -> Loop {
    Box::new(move || {
        let mut over = ready();
        let start = processor_time();
        let outcome = black_box(run(&mut over));
        let took = processor_time() - start;
        (took, outcome.into().sum)
    })
}

/// The two loops of a case, and the best time of each so far.
pub struct Case {
    pub name: String,
    rust: Loop,
    port: Loop,
    repeats: u32,
    turns: u32,
    spent: Duration,
    rust_best: Duration,
    port_best: Duration,
}

impl Case {
    pub fn new<R: Into<Outcome>>(
        name: impl Into<String>,
        mut rust: impl FnMut() -> R + 'static,
        mut port: impl FnMut() -> u64 + 'static,
    ) -> Self {
        let nothing = || ();
        Self::over(
            name,
            (nothing, move |_: &mut ()| rust()),
            (nothing, move |_: &mut ()| port()),
        )
    }

    /// Each loop runs over a value that is made before its time begins.
    pub fn over<S: 'static, T: 'static, R: Into<Outcome>>(
        name: impl Into<String>,
        rust: (
            impl FnMut() -> S + 'static,
            impl FnMut(&mut S) -> R + 'static,
        ),
        port: (
            impl FnMut() -> T + 'static,
            impl FnMut(&mut T) -> u64 + 'static,
        ),
    ) -> Self {
        Case {
            name: name.into(),
            rust: timed(rust.0, rust.1),
            port: timed(port.0, port.1),
            repeats: 1,
            turns: 0,
            spent: Duration::ZERO,
            rust_best: Duration::MAX,
            port_best: Duration::MAX,
        }
    }

    /// Times can be compared only if both loops have the same sum.
    fn prepare(&mut self) -> Result<(), Error> {
        let (expected, got) = ((self.rust)().1, (self.port)().1);
        if expected != got {
            let text = format!(
                "{}: the original's sum is {expected}, the port's {got}",
                self.name
            );
            return Err(Error::Wrong(text));
        }
        while time(self.repeats, &mut self.rust) < TURN {
            self.repeats *= 2;
        }
        Ok(())
    }

    fn turn(&mut self) {
        if self.turns >= FEWEST && self.spent > SPENT {
            return;
        }
        let start = Instant::now();
        self.rust_best = self.rust_best.min(time(self.repeats, &mut self.rust));
        self.port_best = self.port_best.min(time(self.repeats, &mut self.port));
        self.spent += start.elapsed();
        self.turns += 1;
    }

    fn ratio(&self) -> f64 {
        self.port_best.as_secs_f64() / self.rust_best.as_secs_f64()
    }

    /// Seconds for one run of the original's loop, and of the port's.
    pub fn seconds(&self) -> (f64, f64) {
        let once = |best: Duration| best.as_secs_f64() / f64::from(self.repeats);
        (once(self.rust_best), once(self.port_best))
    }
}

fn time(repeats: u32, run: &mut Loop) -> Duration {
    (0..repeats).map(|_| run().0).sum()
}

/// Two references to one value, for the two loops of a case.
pub fn shared<T>(value: T) -> (Rc<T>, Rc<T>) {
    let value = Rc::new(value);
    (value.clone(), value)
}
