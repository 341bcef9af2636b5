//! The shown list by hand. The pairs are folded into one mask a variable; only a positive literal that is the first of a pair is looked at.
use crate::terms::Terms;
use quelbrift::MAX_VARIABLES;

/// For each variable those that come second in a pair with it, and the variables that come first in one.
pub struct Excluded {
    firsts: u64,
    masks: [u64; MAX_VARIABLES as usize],
}

impl Excluded {
    pub const NOTHING: Excluded = Excluded { firsts: 0, masks: [0; MAX_VARIABLES as usize] };

    pub fn new(firsts: &[u32], seconds: &[u32]) -> Self {
        let mut excluded = Self::NOTHING;
        for (&first, &second) in firsts.iter().zip(seconds) {
            excluded.firsts |= 1 << first;
            excluded.masks[first as usize] |= 1 << second;
        }
        excluded
    }

    /// Whether both variables of a pair are among the positive literals.
    fn leaves_out(&self, positive: u64) -> bool {
        let mut firsts = positive & self.firsts;
        while firsts != 0 {
            if self.masks[firsts.trailing_zeros() as usize] & positive != 0 {
                return true;
            }
            firsts &= firsts - 1;
        }
        false
    }

    /// Puts the terms that are not left out into the buffers, in their order, and zeros after them.
    pub fn show(&self, terms: Terms, positives: &mut [u64], negatives: &mut [u64]) {
        let mut count = 0;
        for t in terms.iter().filter(|t| !self.leaves_out(t.positive)) {
            (positives[count], negatives[count]) = (t.positive, t.negative);
            count += 1;
        }
        positives[count..].fill(0);
        negatives[count..].fill(0);
    }
}
