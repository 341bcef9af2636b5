//! A count of steps, or none: a test of two terms is a step, and so is an operation on a word of bits.

pub trait Steps {
    fn add(&mut self, count: usize);
}

/// No count, at no cost.
pub struct Uncounted;

impl Steps for Uncounted {
    fn add(&mut self, _count: usize) {}
}

/// The steps so far.
pub struct Counted(pub u64);

impl Steps for Counted {
    fn add(&mut self, count: usize) {
        self.0 += count as u64;
    }
}
