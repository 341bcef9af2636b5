//! How often each answer was seen, so that a generator that has become one-sided fails its test.

use crate::compare::Seen;
use std::collections::BTreeMap;

#[derive(Default)]
pub struct Tally {
    seen: BTreeMap<Seen, u64>,
}

impl Tally {
    pub fn see(&mut self, seen: Seen) {
        *self.seen.entry(seen).or_default() += 1;
    }

    /// How many comparisons were made.
    pub fn total(&self) -> u64 {
        self.seen.values().sum()
    }

    /// Prints the tally, and fails where an operation's answer was seen less often than stated.
    pub fn expect(&self, least: &[(&'static str, &[(u32, u64)])]) {
        println!("{} comparisons: {:?}", self.total(), self.seen);
        for (operation, answers) in least {
            for (answer, times) in *answers {
                let seen = self.seen.get(&(*operation, *answer)).copied().unwrap_or(0);
                assert!(seen >= *times, "{operation} {answer} was seen {seen} times only, not {times}");
            }
        }
    }
}
