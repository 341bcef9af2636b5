//! The two listings and the view.

use super::questions::{paste_table, table_notes};
use crate::compare::{same, same_entries, Case, Seen};
use crate::engine::{self, MARGIN};
use crate::oracle::answers::Oracle;
use crate::oracle::function::{Listed, Term};
use crate::oracle::listing::{self, Buffers, Shown};
use crate::oracle::pairs::Pairs;
use crate::oracle::table::Table;
use crate::oracle::{view, Refused};
use crate::random::Random;
use crate::shrink;

/// A listing: what is listed, the weights, the capacity, and the lengths of the buffers (positive masks, negative masks, counts). One of
/// clearances has pairs, and the lengths of the buffers of the shown list; one of blockers lends neither.
#[derive(Clone, Debug)]
pub struct Listing {
    pub listed: Listed,
    pub table: Table,
    pub weights: Vec<u32>,
    pub pairs: Pairs,
    pub capacity: u32,
    pub lengths: [usize; 3],
    pub shown: [usize; 2],
    /// The seed of what the buffers hold before.
    pub noise: u64,
}

/// Three lists with margins, full of noise.
pub fn noise(seed: u64, lengths: [usize; 3]) -> Buffers {
    let random = Random::new(seed);
    let mut rows = |length: usize| (0..length + 2 * MARGIN).map(|_| random.next()).collect::<Vec<u64>>();
    let [positives, negatives, counts] = lengths.map(&mut rows);
    Buffers { positives, negatives, counts: counts.iter().map(|word| *word as u32).collect() }
}

/// The lent parts of three lists with margins.
pub fn middles(lists: &Buffers) -> Buffers {
    let Buffers { mut positives, mut negatives, mut counts } = lists.clone();
    Buffers {
        positives: engine::middle(&mut positives).to_vec(),
        negatives: engine::middle(&mut negatives).to_vec(),
        counts: engine::middle(&mut counts).to_vec(),
    }
}

/// The lists with other lent parts in them.
pub fn with_middles(lists: &Buffers, middles: &Buffers) -> Buffers {
    let mut with = lists.clone();
    engine::middle(&mut with.positives).copy_from_slice(&middles.positives);
    engine::middle(&mut with.negatives).copy_from_slice(&middles.negatives);
    engine::middle(&mut with.counts).copy_from_slice(&middles.counts);
    with
}

/// Five lists with margins, full of noise.
pub fn shown_noise(seed: u64, lengths: [usize; 3], shown: [usize; 2]) -> Shown {
    let Buffers { positives, negatives, .. } = noise(!seed, [shown[0], shown[1], 0]);
    Shown { listing: noise(seed, lengths), positives, negatives }
}

/// The lent parts of five lists with margins.
fn shown_middles(lists: &Shown) -> Shown {
    let Shown { listing, mut positives, mut negatives } = lists.clone();
    let [positives, negatives] = [&mut positives, &mut negatives].map(|list| engine::middle(list).to_vec());
    Shown { listing: middles(&listing), positives, negatives }
}

/// The lists with other lent parts in them.
fn with_shown_middles(lists: &Shown, middles: &Shown) -> Shown {
    let mut with = Shown { listing: with_middles(&lists.listing, &middles.listing), ..lists.clone() };
    engine::middle(&mut with.positives).copy_from_slice(&middles.positives);
    engine::middle(&mut with.negatives).copy_from_slice(&middles.negatives);
    with
}

impl Listing {
    /// Without pairs, and with buffers of the shown list just enough.
    pub fn new(listed: Listed, table: Table, weights: &[u32], capacity: u32, lengths: [usize; 3], noise: u64) -> Listing {
        let shown = if listed == Listed::Clearances { capacity.min(4096) as usize } else { 0 };
        Listing { listed, table, weights: weights.to_vec(), pairs: Pairs::default(), capacity, lengths, shown: [shown; 2], noise }
    }

    /// With these pairs, where clearances are listed; blockers stay as they are.
    pub fn with_pairs(self, pairs: Pairs) -> Listing {
        match self.listed {
            Listed::Clearances => Listing { pairs, ..self },
            Listed::Blockers => self,
        }
    }

    /// With buffers of the shown list of these lengths, likewise.
    pub fn with_shown(self, shown: [usize; 2]) -> Listing {
        match self.listed {
            Listed::Clearances => Listing { shown, ..self },
            Listed::Blockers => self,
        }
    }

    /// With buffers just enough.
    pub fn fitting(listed: Listed, table: Table, weights: &[u32], capacity: u32, noise: u64) -> Listing {
        let (nodes, rows) = (table.nodes as usize, table.nodes as usize * capacity as usize);
        Listing::new(listed, table, weights, capacity, [rows, rows, nodes], noise)
    }

    fn operation(&self) -> &'static str {
        match self.listed {
            Listed::Clearances => "list",
            Listed::Blockers => "list_negation",
        }
    }

    /// The engine's answer: how many clearances are shown; none of blockers.
    fn by_engine(&self, lists: &mut Shown) -> Result<Option<u64>, Refused> {
        let Listing { table, weights, pairs, capacity, .. } = self;
        match self.listed {
            Listed::Clearances => engine::list_shown(table, weights, pairs, *capacity, lists).map(Some),
            Listed::Blockers => engine::list(self.listed, table, weights, *capacity, &mut lists.listing).map(|()| None),
        }
    }

    /// The oracle's answer likewise.
    fn by_oracle(&self, oracle: &Oracle, primes: &[Vec<Term>], lent: &mut Shown) -> Result<Option<u64>, Refused> {
        let Listing { weights, pairs, capacity, .. } = self;
        match self.listed {
            Listed::Clearances => listing::list_shown(oracle, primes, weights, pairs, *capacity, lent).map(Some),
            Listed::Blockers => listing::list(oracle, primes, weights, *capacity, &mut lent.listing).map(|()| None),
        }
    }

    /// Compares the answers and every entry, also those in the margins.
    pub fn compared_by(&self, oracle: &Oracle, primes: &[Vec<Term>]) -> Result<Seen, String> {
        let before = shown_noise(self.noise, self.lengths, self.shown);
        let mut after = before.clone();
        let engine_answer = engine::caught(|| self.by_engine(&mut after));
        let mut lent = shown_middles(&before);
        let answer = self.by_oracle(oracle, primes, &mut lent);
        let expected = with_shown_middles(&before, &lent);
        same(self.operation(), engine_answer, Ok(answer))?;
        same_entries("counts", &after.listing.counts, &expected.listing.counts, MARGIN)?;
        same_entries("positive masks", &after.listing.positives, &expected.listing.positives, MARGIN)?;
        same_entries("negative masks", &after.listing.negatives, &expected.listing.negatives, MARGIN)?;
        same_entries("positive masks shown", &after.positives, &expected.positives, MARGIN)?;
        same_entries("negative masks shown", &after.negatives, &expected.negatives, MARGIN)?;
        let whole = primes.last().map_or(0, Vec::len) as u64;
        Ok(match answer {
            Ok(Some(shown)) if shown < whole => (self.operation(), 2),
            Ok(_) => (self.operation(), u32::from(whole > 0)),
            Err(refusal) => (self.operation(), refusal.number),
        })
    }
}

impl Case for Listing {
    fn compared(&self) -> Result<Seen, String> {
        let oracle = Oracle::new(&self.table);
        let primes = oracle.accepted().map(|accepted| accepted.primes(self.listed)).unwrap_or_default();
        self.compared_by(&oracle, &primes)
    }

    fn smaller(&self) -> Vec<Listing> {
        let mut smaller = vec![];
        for table in shrink::tables(&self.table) {
            // With the smaller buffers that such a table needs, and with the same ones.
            let rows = (table.nodes as usize).saturating_mul(self.capacity as usize);
            let fitting = [rows, rows, table.nodes as usize];
            let lengths = [0, 1, 2].map(|buffer| fitting[buffer].min(self.lengths[buffer]));
            let weights = shrink::weights_for(&table, &self.table, &self.weights);
            smaller.push(Listing { table: table.clone(), weights: weights.clone(), lengths, ..self.clone() });
            smaller.push(Listing { table, weights, ..self.clone() });
        }
        for weights in shrink::weights(&self.weights) {
            smaller.push(Listing { weights, ..self.clone() });
        }
        for (table, weights) in shrink::without_variable(&self.table, &self.weights) {
            smaller.push(Listing { table, weights, ..self.clone() });
        }
        for pairs in shrink::pairs(&self.pairs) {
            smaller.push(Listing { pairs, ..self.clone() });
        }
        for capacity in shrink::numbers(u64::from(self.capacity)) {
            smaller.push(Listing { capacity: capacity as u32, ..self.clone() });
        }
        for buffer in 0..3 {
            for length in shrink::numbers(self.lengths[buffer] as u64) {
                let mut lengths = self.lengths;
                lengths[buffer] = length as usize;
                smaller.push(Listing { lengths, ..self.clone() });
            }
        }
        for buffer in 0..2 {
            for length in shrink::numbers(self.shown[buffer] as u64) {
                let mut shown = self.shown;
                shown[buffer] = length as usize;
                smaller.push(Listing { shown, ..self.clone() });
            }
        }
        smaller
    }

    fn paste(&self) -> String {
        let Listing { listed, table, weights, pairs: Pairs { firsts, seconds }, capacity, lengths, shown, noise } = self;
        let listing = format!("Listing::new({listed:?}, {}, &{weights:?}, {capacity}, {lengths:?}, {noise})", paste_table(table));
        match listed {
            Listed::Clearances => format!("{listing}.with_pairs(Pairs::new(&{firsts:?}, &{seconds:?})).with_shown({shown:?})"),
            Listed::Blockers => listing,
        }
    }

    fn notes(&self) -> String {
        table_notes(&self.table)
    }
}

/// A view of a buffer of that length.
#[derive(Clone, Debug)]
pub struct View {
    pub length: usize,
    pub capacity: u32,
    pub node: u32,
    pub count: u32,
}

impl View {
    pub fn new(length: usize, capacity: u32, node: u32, count: u32) -> View {
        View { length, capacity, node, count }
    }
}

impl Case for View {
    fn compared(&self) -> Result<Seen, String> {
        let buffer = vec![0u64; self.length];
        let part = engine::caught(|| {
            let part = quelbrift::view(&buffer, self.capacity, self.node, self.count);
            ((part.as_ptr() as u64 - buffer.as_ptr() as u64) / 8, part.len() as u64)
        });
        let expected = view::view(self.length as u64, self.capacity, self.node, self.count);
        same("view: offset and length", part, Ok(expected))?;
        Ok(("view", u32::from(expected.1 > 0)))
    }

    fn smaller(&self) -> Vec<View> {
        let lower = |number: u32| shrink::numbers(u64::from(number)).into_iter().map(|number| number as u32);
        let mut smaller: Vec<View> = lower(self.node).map(|node| View { node, ..self.clone() }).collect();
        smaller.extend(lower(self.count).map(|count| View { count, ..self.clone() }));
        smaller.extend(lower(self.capacity).map(|capacity| View { capacity, ..self.clone() }));
        smaller.extend(shrink::numbers(self.length as u64).iter().map(|&length| View { length: length as usize, ..self.clone() }));
        smaller
    }

    fn paste(&self) -> String {
        format!("View::new({}, {}, {}, {})", self.length, self.capacity, self.node, self.count)
    }
}
