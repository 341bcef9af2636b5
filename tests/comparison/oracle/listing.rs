//! A listing: what it leaves in the lent buffers, three and, with the shown list, five.

use super::answers::Oracle;
use super::function::Term;
use super::pairs::Pairs;
use super::{refused, weights, Refused};

/// Puts the masks of some rows into two buffers, from a place on.
fn put(rows: &[Term], start: usize, positives: &mut [u64], negatives: &mut [u64]) {
    for (offset, term) in rows.iter().enumerate() {
        positives[start + offset] = term.positive;
        negatives[start + offset] = term.negative;
    }
}

/// The lent buffers: two for the masks of the rows, one for the counts.
#[derive(Clone, Debug, PartialEq, Eq)]
pub struct Buffers {
    pub positives: Vec<u64>,
    pub negatives: Vec<u64>,
    pub counts: Vec<u32>,
}

impl Buffers {
    /// 41 for so many nodes.
    fn check(&self, nodes: usize, capacity: u32) -> Result<(), Refused> {
        let rows = nodes * capacity as usize;
        if capacity > 4096 || self.positives.len() < rows || self.negatives.len() < rows || self.counts.len() < nodes {
            return refused(41, 0);
        }
        Ok(())
    }

    /// Zeroes the first row entries and counts; the later ones stay.
    fn zero(&mut self, rows: usize, nodes: usize) {
        self.positives[..rows].fill(0);
        self.negatives[..rows].fill(0);
        self.counts[..nodes].fill(0);
    }

    /// Fills all of them by the rows of every node, in order by the weights; or zeros and 42.
    fn fill(&mut self, primes: &[Vec<Term>], weights: &[u32], capacity: usize) -> Result<(), Refused> {
        self.zero(primes.len() * capacity, primes.len());
        if primes.last().expect("a node").len() > capacity {
            return refused(42, 0);
        }
        for (node, primes) in primes.iter().enumerate() {
            assert!(primes.len() <= capacity, "no count is above the last node's");
            self.counts[node] = primes.len() as u32;
            put(&weights::ordered(weights, primes), node * capacity, &mut self.positives, &mut self.negatives);
        }
        Ok(())
    }
}

/// Lists the rows of every node by the weights, its clearances or its blockers as they are given, at most `capacity` of each.
pub fn list(oracle: &Oracle, primes: &[Vec<Term>], weights: &[u32], capacity: u32, buffers: &mut Buffers) -> Result<(), Refused> {
    oracle.accepted()?;
    buffers.check(primes.len(), capacity)?;
    weights::check(weights, oracle.variables)?;
    buffers.fill(primes, weights, capacity as usize)
}

/// The five lent buffers: those of the listing, and two for the masks of the shown list.
#[derive(Clone, Debug, PartialEq, Eq)]
pub struct Shown {
    pub listing: Buffers,
    pub positives: Vec<u64>,
    pub negatives: Vec<u64>,
}

/// Lists the clearances of every node, and shows those of the last node that no pair leaves out, in their order: how many.
pub fn list_shown(
    oracle: &Oracle,
    primes: &[Vec<Term>],
    weights: &[u32],
    pairs: &Pairs,
    capacity: u32,
    lent: &mut Shown,
) -> Result<u64, Refused> {
    oracle.accepted()?;
    lent.listing.check(primes.len(), capacity)?;
    let room = capacity as usize;
    if lent.positives.len() < room || lent.negatives.len() < room {
        return refused(41, 0);
    }
    weights::check(weights, oracle.variables)?;
    pairs.check(oracle.variables)?;
    lent.positives[..room].fill(0);
    lent.negatives[..room].fill(0);
    lent.listing.fill(primes, weights, room)?;
    let mut shown = weights::ordered(weights, primes.last().expect("a node"));
    shown.retain(|&row| !pairs.leave_out(row));
    put(&shown, 0, &mut lent.positives, &mut lent.negatives);
    Ok(shown.len() as u64)
}
