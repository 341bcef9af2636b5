//! Results of an operation on nodes, remembered.
use super::hash::hash;

/// There is no room for more results than this.
const MOST_RESULTS: usize = 1 << 22;

/// Results for three numbers, the first of which is not 0; a later one may take the place of an earlier one.
pub struct Results {
    entries: Vec<[u32; 4]>,
    stored: usize,
}

impl Results {
    pub fn new() -> Self {
        Results { entries: vec![[0; 4]; 64], stored: 0 }
    }

    pub fn get(&self, [a, b, c]: [u32; 3]) -> Option<u32> {
        let entry = self.entries[hash(a, b, c) & (self.entries.len() - 1)];
        (entry[..3] == [a, b, c]).then_some(entry[3])
    }

    pub fn put(&mut self, [a, b, c]: [u32; 3], result: u32) {
        if self.stored == self.entries.len() && self.stored < MOST_RESULTS {
            let earlier = std::mem::replace(&mut self.entries, vec![[0; 4]; 4 * self.stored]);
            earlier.into_iter().filter(|entry| entry[0] != 0).for_each(|entry| self.store(entry));
        }
        self.stored += 1;
        self.store([a, b, c, result]);
    }

    fn store(&mut self, entry: [u32; 4]) {
        let mask = self.entries.len() - 1;
        self.entries[hash(entry[0], entry[1], entry[2]) & mask] = entry;
    }
}
