//! The walk of a loading script.

use super::listings;
use super::questions::{paste_table, table_notes};
use crate::compare::{same, same_entries, Case, Seen};
use crate::engine::{self, MARGIN};
use crate::oracle::answers::Oracle;
use crate::oracle::function::{Listed, Term};
use crate::oracle::script::Step;
use crate::oracle::table::Table;
use crate::oracle::walk::{self, Lent};
use crate::random::Random;
use crate::shrink;

/// The number of lent buffers: positive masks, negative masks, counts, statuses, numbers of clearances left.
pub const BUFFERS: usize = 5;

/// A walk: the weights, the capacity, the steps, and the lengths of the buffers.
#[derive(Clone, Debug)]
pub struct Walk {
    pub table: Table,
    pub weights: Vec<u32>,
    pub capacity: u32,
    pub steps: Vec<Step>,
    pub lengths: [usize; BUFFERS],
    /// The seed of what the buffers hold before.
    pub noise: u64,
}

/// What both sides say of a walk, and the entries of the steps.
pub struct Walked {
    pub seen: Seen,
    pub statuses: Vec<u32>,
}

/// The buffer lengths that are just enough.
pub fn enough(table: &Table, capacity: u32, steps: usize) -> [usize; BUFFERS] {
    let nodes = table.nodes as usize;
    let rows = nodes.saturating_mul(capacity as usize);
    [rows, rows, nodes, steps, steps]
}

/// Five lists with margins, full of noise.
fn noise(seed: u64, lengths: [usize; BUFFERS]) -> Lent {
    let [positives, negatives, counts, statuses, compatibles] = lengths;
    let random = Random::new(!seed);
    let words = |length: usize| (0..length + 2 * MARGIN).map(|_| random.next() as u32).collect();
    let listing = listings::noise(seed, [positives, negatives, counts]);
    Lent { listing, statuses: words(statuses), compatibles: words(compatibles) }
}

/// The lent parts of five lists with margins.
fn middles(lists: &Lent) -> Lent {
    let Lent { listing, mut statuses, mut compatibles } = lists.clone();
    let [statuses, compatibles] = [engine::middle(&mut statuses).to_vec(), engine::middle(&mut compatibles).to_vec()];
    Lent { listing: listings::middles(&listing), statuses, compatibles }
}

/// The lists with other lent parts in them.
fn with_middles(lists: &Lent, middles: &Lent) -> Lent {
    let mut with = Lent { listing: listings::with_middles(&lists.listing, &middles.listing), ..lists.clone() };
    engine::middle(&mut with.statuses).copy_from_slice(&middles.statuses);
    engine::middle(&mut with.compatibles).copy_from_slice(&middles.compatibles);
    with
}

impl Walk {
    /// The steps as pairs of a variable and an act.
    pub fn new(table: Table, weights: &[u32], capacity: u32, steps: &[(u32, u32)], lengths: [usize; BUFFERS], noise: u64) -> Walk {
        let steps = steps.iter().map(|&(variable, act)| Step { variable, act }).collect();
        Walk { table, weights: weights.to_vec(), capacity, steps, lengths, noise }
    }

    /// With buffers just enough.
    pub fn fitting(table: Table, weights: &[u32], capacity: u32, steps: Vec<Step>, noise: u64) -> Walk {
        let lengths = enough(&table, capacity, steps.len());
        Walk { table, weights: weights.to_vec(), capacity, steps, lengths, noise }
    }

    /// Compares the answers and every entry, also those in the margins.
    pub fn compared_by(&self, oracle: &Oracle, primes: &[Vec<Term>]) -> Result<Walked, String> {
        let before = noise(self.noise, self.lengths);
        let mut after = before.clone();
        let engine_answer = engine::caught(|| engine::walk(&self.table, &self.weights, self.capacity, &self.steps, &mut after));
        let mut lent = middles(&before);
        let answer = walk::walk(oracle, primes, &self.weights, self.capacity, &self.steps, &mut lent);
        let expected = with_middles(&before, &lent);
        same("walk: the step named, or the refusal", engine_answer, Ok(answer))?;
        same_entries("statuses", &after.statuses, &expected.statuses, MARGIN)?;
        same_entries("compatibles", &after.compatibles, &expected.compatibles, MARGIN)?;
        same_entries("counts", &after.listing.counts, &expected.listing.counts, MARGIN)?;
        same_entries("positive masks", &after.listing.positives, &expected.listing.positives, MARGIN)?;
        same_entries("negative masks", &after.listing.negatives, &expected.listing.negatives, MARGIN)?;
        Ok(match answer {
            Ok(named) => Walked { seen: ("walk", u32::from(named.is_some())), statuses: lent.statuses[..self.steps.len()].to_vec() },
            Err(refusal) => Walked { seen: ("walk", refusal.number), statuses: vec![] },
        })
    }

    /// With a smaller table, its weights, and buffers that are just enough if that is shorter than before, or as long as before.
    fn with_table(&self, table: Table) -> [Walk; 2] {
        let fitting = enough(&table, self.capacity, self.steps.len());
        let lengths = [0, 1, 2, 3, 4].map(|buffer| fitting[buffer].min(self.lengths[buffer]));
        let weights = shrink::weights_for(&table, &self.table, &self.weights);
        [lengths, self.lengths].map(|lengths| Walk { table: table.clone(), weights: weights.clone(), lengths, ..self.clone() })
    }
}

/// Fewer steps, and steps with lower numbers.
fn smaller_steps(steps: &[Step]) -> Vec<Vec<Step>> {
    let mut smaller = shrink::lists(steps);
    for (index, &Step { variable, act }) in steps.iter().enumerate() {
        let mut change = |step: Step| {
            let mut changed = steps.to_vec();
            changed[index] = step;
            smaller.push(changed);
        };
        shrink::numbers(u64::from(variable)).iter().for_each(|&lower| change(Step { variable: lower as u32, act }));
        shrink::numbers(u64::from(act)).iter().for_each(|&lower| change(Step { variable, act: lower as u32 }));
    }
    smaller
}

impl Case for Walk {
    fn compared(&self) -> Result<Seen, String> {
        let oracle = Oracle::new(&self.table);
        let primes = oracle.accepted().map(|accepted| accepted.primes(Listed::Clearances)).unwrap_or_default();
        Ok(self.compared_by(&oracle, &primes)?.seen)
    }

    fn smaller(&self) -> Vec<Walk> {
        let mut smaller: Vec<Walk> = smaller_steps(&self.steps).into_iter().map(|steps| Walk { steps, ..self.clone() }).collect();
        for table in shrink::tables(&self.table) {
            smaller.extend(self.with_table(table));
        }
        for weights in shrink::weights(&self.weights) {
            smaller.push(Walk { weights, ..self.clone() });
        }
        for (table, weights) in shrink::without_variable(&self.table, &self.weights) {
            smaller.push(Walk { table, weights, ..self.clone() });
        }
        for capacity in shrink::numbers(u64::from(self.capacity)) {
            smaller.push(Walk { capacity: capacity as u32, ..self.clone() });
        }
        for buffer in 0..BUFFERS {
            for length in shrink::numbers(self.lengths[buffer] as u64) {
                let mut lengths = self.lengths;
                lengths[buffer] = length as usize;
                smaller.push(Walk { lengths, ..self.clone() });
            }
        }
        smaller
    }

    fn paste(&self) -> String {
        let Walk { table, weights, capacity, steps, lengths, noise } = self;
        let steps: Vec<(u32, u32)> = steps.iter().map(|step| (step.variable, step.act)).collect();
        format!("Walk::new({}, &{weights:?}, {capacity}, &{steps:?}, {lengths:?}, {noise})", paste_table(table))
    }

    fn notes(&self) -> String {
        table_notes(&self.table)
    }
}
