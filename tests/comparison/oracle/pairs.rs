//! Pairs of variables that cannot both be true: which lists are refused, and which rows are left out of the shown list.

use super::function::Term;
use super::{refused, Refused};

/// Two parallel lists as they are lent, of any lengths.
#[derive(Clone, Debug, Default, PartialEq, Eq)]
pub struct Pairs {
    pub firsts: Vec<u32>,
    pub seconds: Vec<u32>,
}

impl Pairs {
    pub fn new(firsts: &[u32], seconds: &[u32]) -> Pairs {
        Pairs { firsts: firsts.to_vec(), seconds: seconds.to_vec() }
    }

    /// Complete pairs.
    pub fn of(pairs: &[(u32, u32)]) -> Pairs {
        let (firsts, seconds) = pairs.iter().copied().unzip();
        Pairs { firsts, seconds }
    }

    /// The entries that some list has.
    pub fn longest(&self) -> usize {
        self.firsts.len().max(self.seconds.len())
    }

    /// A pair that both lists have.
    pub fn entry(&self, index: usize) -> Option<(u32, u32)> {
        Some((*self.firsts.get(index)?, *self.seconds.get(index)?))
    }

    /// 57: a pair that is incomplete, has one variable twice, or a variable that is not below their number.
    pub fn check(&self, variables: u32) -> Result<(), Refused> {
        let right = |(first, second): (u32, u32)| first != second && first < variables && second < variables;
        match (0..self.longest()).all(|index| self.entry(index).is_some_and(right)) {
            true => Ok(()),
            false => refused(57, 0),
        }
    }

    /// Whether the row marks both variables of some pair yes.
    pub fn leave_out(&self, row: Term) -> bool {
        let yes = |variable: u32| row.positive >> variable & 1 == 1;
        (0..self.longest()).filter_map(|index| self.entry(index)).any(|(first, second)| yes(first) && yes(second))
    }
}
