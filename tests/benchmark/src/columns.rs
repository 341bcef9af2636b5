//! For each literal the terms of a side that have it, 64 a word.
use crate::steps::Steps;
use crate::terms::{Term, Terms};

/// The variables of a term at most; its literals are twice as many, the positive ones first.
pub const VARIABLES: usize = 40;
/// The words of bits for the terms of a side at most.
pub const WORDS: usize = 64;

/// Does something with the number of each bit of a mask.
fn each_bit(mask: u64, mut work: impl FnMut(usize)) {
    let mut left = mask;
    while left != 0 {
        work(left.trailing_zeros() as usize);
        left &= left - 1;
    }
}

/// A bit a term of a side.
pub type Bits = [u64; WORDS];

/// For each literal the words of bits of the terms of a side that have it; made when they are first needed.
pub struct Columns<'a> {
    bits: &'a mut [u64],
    pub words: usize,
    pub made: bool,
}

impl<'a> Columns<'a> {
    /// Not yet made, for a number of terms.
    pub fn new(bits: &'a mut [u64], terms: usize) -> Self {
        Columns { bits, words: terms.div_ceil(64), made: false }
    }

    pub fn make(&mut self, steps: &mut impl Steps, terms: Terms) {
        let words = self.words;
        steps.add(2 * VARIABLES * words + terms.count());
        self.bits[..2 * VARIABLES * words].fill(0);
        for (i, t) in terms.iter().enumerate() {
            each_bit(t.positive, |x| self.bits[words * x + i / 64] |= 1 << (i % 64));
            each_bit(t.negative, |x| self.bits[words * (VARIABLES + x) + i / 64] |= 1 << (i % 64));
        }
        self.made = true;
    }

    fn column(&self, l: usize) -> &[u64] {
        &self.bits[self.words * l..self.words * (l + 1)]
    }

    /// Leaves the bits of the terms that have literals k and l; whether there are any.
    fn narrow(&self, left: &mut Bits, k: usize, l: usize) -> bool {
        let columns = self.column(k).iter().zip(self.column(l));
        let mut any = 0;
        for (word, (has, also)) in left[..self.words].iter_mut().zip(columns) {
            *word &= has & also;
            any |= *word;
        }
        any != 0
    }

    /// Leaves the bits of the terms that have the literals of a mask of one sign, from that sign's first on; whether there are any.
    /// Two literals go at once, and an odd last one with itself.
    #[inline(always)]
    fn narrow_all(&self, steps: &mut impl Steps, left: &mut Bits, mask: u64, first: usize) -> bool {
        let mut mask = mask;
        while mask != 0 {
            steps.add(self.words);
            let rest = mask & (mask - 1);
            let [k, l] = [mask, if rest != 0 { rest } else { mask }].map(|mask| first + mask.trailing_zeros() as usize);
            if !self.narrow(left, k, l) {
                return false;
            }
            mask = rest & rest.wrapping_sub(1);
        }
        true
    }

    /// Kept term k becomes the hint of the terms left that have all literals of t; whether some are left.
    #[inline(always)]
    pub fn spread(&self, steps: &mut impl Steps, left: &mut Bits, hints: &mut [u16], t: Term, k: usize) -> bool {
        let mut settled = *left;
        if !self.narrow_all(steps, &mut settled, t.positive, 0) || !self.narrow_all(steps, &mut settled, t.negative, VARIABLES) {
            return true;
        }
        steps.add(self.words);
        let mut rest = 0;
        for w in 0..self.words {
            left[w] &= !settled[w];
            rest |= left[w];
            each_bit(settled[w], |i| hints[64 * w + i] = k as u16);
        }
        rest != 0
    }
}
