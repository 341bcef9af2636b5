//! A small seeded generator (splitmix64): the same cases in every run.

use std::cell::Cell;
use std::sync::OnceLock;

pub struct Random {
    state: Cell<u64>,
}

impl Random {
    pub fn new(seed: u64) -> Random {
        Random { state: Cell::new(seed) }
    }

    /// The generator of one case of one test. QUELBRIFT_RUN, a number, makes other cases; without it they are always the same.
    pub fn of(test: u64, seed: u64) -> Random {
        static RUN: OnceLock<u64> = OnceLock::new();
        let given = || std::env::var("QUELBRIFT_RUN").map_or(0, |run| run.parse().expect("QUELBRIFT_RUN is a number"));
        Random::new((RUN.get_or_init(given) << 40) ^ test ^ seed)
    }

    pub fn next(&self) -> u64 {
        self.state.set(self.state.get().wrapping_add(0x9e37_79b9_7f4a_7c15));
        let mut mixed = self.state.get();
        mixed = (mixed ^ (mixed >> 30)).wrapping_mul(0xbf58_476d_1ce4_e5b9);
        mixed = (mixed ^ (mixed >> 27)).wrapping_mul(0x94d0_49bb_1331_11eb);
        mixed ^ (mixed >> 31)
    }

    /// A number below `end`, which is above 0.
    pub fn below(&self, end: u64) -> u64 {
        self.next() % end
    }

    /// A position in a list of that length, which is above 0.
    pub fn position(&self, length: usize) -> usize {
        self.below(length as u64) as usize
    }

    /// A number from `low` to `high`, both included.
    pub fn between(&self, low: u64, high: u64) -> u64 {
        low + self.below(high - low + 1)
    }

    /// True once in so many times.
    pub fn once_in(&self, times: u64) -> bool {
        self.below(times) == 0
    }

    /// One of the items.
    pub fn choose<T: Clone>(&self, items: &[T]) -> T {
        items[self.position(items.len())].clone()
    }

    /// One of the set bits of a mask that is not 0.
    pub fn bit_of(&self, mask: u64) -> u32 {
        let bits: Vec<u32> = (0..64).filter(|bit| mask >> bit & 1 == 1).collect();
        self.choose(&bits)
    }

    pub fn shuffle<T>(&self, items: &mut [T]) {
        for end in (1..items.len()).rev() {
            let other = self.position(end + 1);
            items.swap(end, other);
        }
    }
}
