//! Readings (measurements): which are wrong, and what a half-known stow knows with them.

use super::function::Term;
use super::{refused, Refused};

/// Four parallel lists as they are lent, of any lengths.
#[derive(Clone, Debug, Default, PartialEq, Eq)]
pub struct Measurements {
    pub measured: Vec<u32>,
    pub lows: Vec<i32>,
    pub highs: Vec<i32>,
    pub thresholds: Vec<i32>,
}

/// One reading, complete: its variable, from low to high, against a threshold.
#[derive(Clone, Copy, Debug, PartialEq, Eq)]
pub struct Measurement {
    pub variable: u32,
    pub low: i32,
    pub high: i32,
    pub threshold: i32,
}

impl Measurement {
    /// Whether the variable is true; none where that is unknown.
    pub fn value(self) -> Option<bool> {
        if self.low >= self.threshold {
            return Some(true);
        }
        if self.high < self.threshold {
            return Some(false);
        }
        None
    }
}

/// Why a reading is wrong.
#[derive(Clone, Copy, Debug, PartialEq, Eq)]
pub enum Wrong {
    Incomplete,
    LowAboveHigh,
    OutOfRange,
    Marked,
    ReadBefore,
}

impl Measurements {
    pub fn push(&mut self, entry: Measurement) {
        self.measured.push(entry.variable);
        self.lows.push(entry.low);
        self.highs.push(entry.high);
        self.thresholds.push(entry.threshold);
    }

    /// The lists of lows, of highs and of thresholds.
    pub fn numbers(&mut self) -> [&mut Vec<i32>; 3] {
        [&mut self.lows, &mut self.highs, &mut self.thresholds]
    }

    /// The entries that some list has.
    pub fn longest(&self) -> usize {
        [self.measured.len(), self.lows.len(), self.highs.len(), self.thresholds.len()].into_iter().max().expect("four lists")
    }

    /// An entry that every list has.
    pub fn entry(&self, index: usize) -> Option<Measurement> {
        Some(Measurement {
            variable: *self.measured.get(index)?,
            low: *self.lows.get(index)?,
            high: *self.highs.get(index)?,
            threshold: *self.thresholds.get(index)?,
        })
    }

    /// What is wrong with an entry beside a row over so many variables.
    fn wrong_at(&self, index: usize, term: Term, variables: u32) -> Option<Wrong> {
        let Some(Measurement { variable, low, high, .. }) = self.entry(index) else { return Some(Wrong::Incomplete) };
        if low > high {
            return Some(Wrong::LowAboveHigh);
        }
        if variable >= variables {
            return Some(Wrong::OutOfRange);
        }
        if term.marks() >> variable & 1 == 1 {
            return Some(Wrong::Marked);
        }
        self.measured[..index].contains(&variable).then_some(Wrong::ReadBefore)
    }

    /// The lowest wrong entry, and why it is wrong.
    pub fn lowest_wrong(&self, term: Term, variables: u32) -> Option<(usize, Wrong)> {
        (0..self.longest()).find_map(|index| Some((index, self.wrong_at(index, term, variables)?)))
    }

    /// The row with the marks of the readings added; 53 with the lowest wrong reading.
    pub fn added_to(&self, term: Term, variables: u32) -> Result<Term, Refused> {
        if let Some((index, _)) = self.lowest_wrong(term, variables) {
            return refused(53, index as u64);
        }
        let mut known = term;
        for entry in (0..self.longest()).filter_map(|index| self.entry(index)) {
            match entry.value() {
                Some(true) => known.positive |= 1 << entry.variable,
                Some(false) => known.negative |= 1 << entry.variable,
                None => {}
            }
        }
        Ok(known)
    }
}
