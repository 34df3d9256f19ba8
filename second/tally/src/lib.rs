//! How many checks passed and failed.

#![forbid(unsafe_code)]

#[derive(Clone, Copy, Debug, Default, PartialEq, Eq)]
pub struct Tally {
    passed: u32,
    failed: u32,
}

impl Tally {
    pub fn count(&mut self, passed: bool) {
        match passed {
            true => self.passed += 1,
            false => self.failed += 1,
        }
    }

    pub fn add(&mut self, other: Tally) {
        self.passed += other.passed;
        self.failed += other.failed;
    }

    pub fn passed(&self) -> u32 {
        self.passed
    }

    pub fn failed(&self) -> u32 {
        self.failed
    }

    /// A line for a group of checks.
    pub fn line(&self, group: &str) -> String {
        let all = self.passed + self.failed;
        match self.failed {
            0 => format!("{group}: {all}, all as expected"),
            failed => format!("FAILED: {group}: {failed} of {all}"),
        }
    }

    /// The count of a whole run. A run of a part has another form, so that it
    /// can't be taken for the whole.
    pub fn last_line(&self, whole: bool) -> String {
        let (passed, failed) = (self.passed, self.failed);
        match (whole, failed) {
            (true, _) => format!("{passed} passed, {failed} failed"),
            (false, 0) => format!("a part was run: {passed} checks, none of them failed"),
            (false, _) => format!("a part was run: {passed} checks held, {failed} failed"),
        }
    }
}
