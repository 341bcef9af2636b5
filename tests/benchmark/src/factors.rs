//! The factors of a product: what it asks of the variables of a block.
use crate::random::Random;
use std::fmt;

/// What a product asks of a block of variables.
#[derive(Clone, Copy)]
pub enum Factor {
    Nothing,
    All,
    AtLeast(u32),
    /// Two variables whose places in the block differ by an exclusive or with this number.
    Pair(u32),
}

impl Factor {
    pub fn random(random: &mut Random) -> Self {
        match random.below(8) {
            0..=2 => Factor::Nothing,
            3 => Factor::All,
            4..=5 => Factor::AtLeast(random.between(1, 7) as u32),
            _ => Factor::Pair(random.between(1, 3) as u32),
        }
    }

    /// The masks of a block's variables that do.
    pub fn masks(self, block: u64) -> Vec<u64> {
        let (size, first) = (block.count_ones(), block.trailing_zeros());
        match self {
            Factor::Nothing => vec![0],
            Factor::All => vec![block],
            Factor::AtLeast(k) => subsets(k, size).into_iter().map(|mask| mask << first).collect(),
            Factor::Pair(d) => {
                let pairs = (0..size).filter(|i| i < &(i ^ d) && i ^ d < size);
                pairs.map(|i| (1 << i | 1 << (i ^ d)) << first).collect()
            }
        }
    }
}

impl fmt::Display for Factor {
    fn fmt(&self, f: &mut fmt::Formatter) -> fmt::Result {
        match self {
            Factor::Nothing => write!(f, "-"),
            Factor::All => write!(f, "all"),
            Factor::AtLeast(k) => write!(f, "at least {k}"),
            Factor::Pair(d) => write!(f, "pair {d}"),
        }
    }
}

/// The masks of k of size variables.
fn subsets(k: u32, size: u32) -> Vec<u64> {
    if k == 0 || k > size {
        return if k == 0 { vec![0] } else { Vec::new() };
    }
    let mut masks = subsets(k, size - 1);
    masks.extend(subsets(k - 1, size - 1).into_iter().map(|mask| mask | 1 << (size - 1)));
    masks
}
