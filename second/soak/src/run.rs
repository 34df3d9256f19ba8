//! A run: its threads, its end, and what came of it.

use crate::options::Options;
use crate::progress::{Progress, Shown};
use crate::shared::Shared;
use crate::work::{seeds, work};
use compare::calls::Call;
use std::collections::BTreeSet;
use std::io::{self, Write};
use std::sync::atomic::{AtomicBool, Ordering};
use std::thread::{self, Builder, Scope, ScopedJoinHandle};
use std::time::{Duration, Instant};

/// How soon a request to stop is noticed.
const TICK: Duration = Duration::from_millis(50);

/// Makes the calls; each thread has its own.
pub type Calls = fn() -> Vec<Box<dyn Call>>;

#[derive(Clone, Copy, Debug, PartialEq, Eq)]
pub enum Ending {
    AllEqual,
    Differed,
}

impl Ending {
    /// The exit status.
    pub fn status(self) -> u8 {
        match self {
            Ending::AllEqual => 0,
            Ending::Differed => 1,
        }
    }
}

/// Runs until it is stopped, and says what came of it.
pub fn run(
    calls: Calls,
    options: &Options,
    asked_to_stop: &AtomicBool,
    mut shown: Shown<impl Write>,
) -> io::Result<Ending> {
    let (seed, threads) = (options.seed, options.threads);
    shown.say(&format!("soak --seed {seed} --threads {threads}"))?;
    let run = Run {
        shared: &Shared::new(options.cases),
        asked_to_stop,
        start: Instant::now(),
        limit: options.time,
        all_refusals: refusals(&calls()),
    };
    thread::scope(|scope| {
        let threads = start_all(scope, calls, options, run.shared);
        let watched = threads.and_then(|threads| run.watch(&threads, &mut shown));
        // The scope waits for all threads, also where one couldn't be started.
        run.shared.stop();
        watched
    })?;
    run.close(&calls(), shown)
}

fn start_all<'scope, 'all: 'scope>(
    scope: &'scope Scope<'scope, 'all>,
    calls: Calls,
    options: &Options,
    shared: &'all Shared,
) -> io::Result<Vec<ScopedJoinHandle<'scope, ()>>> {
    let (seed, threads) = (options.seed, options.threads.get());
    let start = |thread| {
        let body = move || work(&calls(), seeds(seed, thread, threads), shared);
        Builder::new().spawn_scoped(scope, body)
    };
    (0..threads).map(start).collect()
}

/// How many refusals these calls can give.
fn refusals(calls: &[Box<dyn Call>]) -> usize {
    let answers = calls.iter().flat_map(|call| call.answers());
    let refusals: BTreeSet<&u32> = answers.filter(|answer| **answer != 0).collect();
    refusals.len()
}

struct Run<'a> {
    shared: &'a Shared,
    asked_to_stop: &'a AtomicBool,
    start: Instant,
    limit: Option<Duration>,
    all_refusals: usize,
}

impl Run<'_> {
    /// Shows the progress until the run is over. A thread ends by itself with
    /// the last case, a difference, or a fault of its own.
    fn watch(
        &self,
        threads: &[ScopedJoinHandle<()>],
        shown: &mut Shown<impl Write>,
    ) -> io::Result<()> {
        while !self.is_over() && !threads.iter().any(ScopedJoinHandle::is_finished) {
            thread::sleep(TICK);
            shown.show(&self.progress())?;
        }
        Ok(())
    }

    fn is_over(&self) -> bool {
        let timed_out = self
            .limit
            .is_some_and(|limit| self.start.elapsed() >= limit);
        timed_out || self.asked_to_stop.load(Ordering::Relaxed)
    }

    fn progress(&self) -> Progress {
        Progress {
            time: self.start.elapsed(),
            cases: self.shared.cases(),
            refusals: self.shared.seen().refusals(),
            all_refusals: self.all_refusals,
        }
    }

    /// Says which difference there was, and all totals.
    fn close(&self, calls: &[Box<dyn Call>], mut shown: Shown<impl Write>) -> io::Result<Ending> {
        let (ending, last) = match self.shared.difference() {
            None => (Ending::AllEqual, "no difference"),
            Some(report) => {
                shown.say(report)?;
                (Ending::Differed, "a DIFFERENCE, see above")
            }
        };
        let calls: Vec<&dyn Call> = calls.iter().map(|call| call.as_ref()).collect();
        let seen = self.shared.seen();
        shown.say(&seen.table(&calls))?;
        shown.say(&seen.amounts())?;
        shown.say(&format!("{}\n{last}", self.progress()))?;
        Ok(ending)
    }
}
