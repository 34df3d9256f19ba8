//! What the threads share.

use compare::seen::Seen;
use std::num::NonZeroU64;
use std::ops::ControlFlow;
use std::sync::atomic::{AtomicBool, AtomicU64, Ordering};
use std::sync::{Mutex, MutexGuard, OnceLock, PoisonError};

#[derive(Default)]
pub struct Shared {
    stopped: AtomicBool,
    cases: AtomicU64,
    /// The count of cases that ends the run.
    last_case: Option<NonZeroU64>,
    /// The answers of all rounds that are over.
    seen: Mutex<Seen>,
    /// The report of the first difference.
    difference: OnceLock<String>,
}

impl Shared {
    pub fn new(last_case: Option<NonZeroU64>) -> Self {
        Shared {
            last_case,
            ..Shared::default()
        }
    }

    /// All threads end with the case that they are at.
    pub fn stop(&self) {
        self.stopped.store(true, Ordering::Relaxed);
    }

    /// Counts a case that is compared; whether the thread is to go on.
    pub fn count(&self) -> ControlFlow<()> {
        let cases = self.cases.fetch_add(1, Ordering::Relaxed) + 1;
        if self.last_case.is_some_and(|last| cases >= last.get()) {
            self.stop();
        }
        match self.stopped.load(Ordering::Relaxed) {
            true => ControlFlow::Break(()),
            false => ControlFlow::Continue(()),
        }
    }

    /// Ends the run with a difference. Only the first is reported.
    pub fn differ(&self, report: impl FnOnce() -> String) {
        self.stop();
        self.difference.get_or_init(report);
    }

    /// Adds the answers of a round.
    pub fn add(&self, seen: &Seen) {
        self.lock().merge(seen);
    }

    pub fn cases(&self) -> u64 {
        self.cases.load(Ordering::Relaxed)
    }

    pub fn seen(&self) -> Seen {
        self.lock().clone()
    }

    pub fn difference(&self) -> Option<&str> {
        self.difference.get().map(String::as_str)
    }

    /// A thread that failed in the midst of adding has spoilt a total only.
    fn lock(&self) -> MutexGuard<'_, Seen> {
        self.seen.lock().unwrap_or_else(PoisonError::into_inner)
    }
}
