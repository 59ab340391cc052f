//! Cases that a test looks for, and how often each was seen.

use std::collections::BTreeMap;

#[derive(Default)]
pub struct Seen(BTreeMap<String, usize>);

impl Seen {
    /// Counts a case, if it holds. One that never holds is a case all the same.
    pub fn count(&mut self, case: impl Into<String>, holds: bool) {
        *self.0.entry(case.into()).or_default() += usize::from(holds);
    }

    /// Each case was seen more often than this.
    pub fn each_over(&self, least: usize) {
        assert!(self.0.values().all(|&count| count > least), "{:#?}", self.0);
    }
}
