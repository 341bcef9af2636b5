//! Prime implicants by decision diagrams: a reduced ordered diagram of each node's function, and from it by the recursion of Coudert and
//! Madre a zero-suppressed diagram of its prime implicants. Equal functions and equal sets are made once for all nodes.
mod functions;
mod hash;
mod nodes;
mod results;
mod sets;

use crate::check::node;
use crate::listing::{Lent, Listed};
use crate::part::Full;
use crate::terms::{Of, Term, EMPTY};
use functions::Functions;
use nodes::{Node, ONE, ZERO};
use quelbrift::Table;
use sets::{unpacked, Sets};
use std::ops::Range;

pub use nodes::Over;

/// All diagrams of a table, and for each function its prime implicants, or `UNKNOWN`.
struct Diagrams {
    functions: Functions,
    sets: Sets,
    primes: Vec<u32>,
}

const UNKNOWN: u32 = u32::MAX;

impl Diagrams {
    fn new() -> Self {
        Diagrams { functions: Functions::new(), sets: Sets::new(), primes: vec![ZERO, ONE] }
    }

    /// The functions of the table's nodes.
    fn read(&mut self, table: Table) -> Result<Vec<u32>, Over> {
        let mut roots = Vec::with_capacity(table.nodes as usize);
        for i in 0..table.nodes as usize {
            let (kind, x, children) = node(table.words, i);
            let root = match kind {
                0 => ZERO,
                1 => ONE,
                2 => self.functions.make(x, ZERO, ONE)?,
                3 => self.functions.make(x, ONE, ZERO)?,
                4 => self.functions.choose(x, roots[children[0] as usize], roots[children[1] as usize])?,
                _ => children.iter().rev().try_fold(ONE, |all, &child| self.functions.and(roots[child as usize], all))?,
            };
            roots.push(root);
        }
        Ok(roots)
    }

    /// The prime implicants of a function or of its negation.
    fn listed(&mut self, of: Of, f: u32) -> Result<u32, Over> {
        let listed = if of == Of::Function { f } else { self.functions.not(f)? };
        self.primes(listed)
    }

    /// The prime implicants of a function f: those of both cofactors by its top variable; those of one of them alone, with a literal.
    fn primes(&mut self, f: u32) -> Result<u32, Over> {
        if let Some(&set) = self.primes.get(f as usize).filter(|&&set| set != UNKNOWN) {
            return Ok(set);
        }
        let Node { level, low, high } = self.functions.nodes.at(f);
        let both = self.functions.and(low, high)?;
        let (of_both, of_low, of_high) = (self.primes(both)?, self.primes(low)?, self.primes(high)?);
        let (negative, positive) = (self.sets.minus(of_low, of_both)?, self.sets.minus(of_high, of_both)?);
        let with_positive = self.sets.make(2 * level + 1, of_both, positive)?;
        let set = self.sets.make(2 * level, with_positive, negative)?;
        if self.primes.len() <= f as usize {
            self.primes.resize(self.functions.nodes.count(), UNKNOWN);
        }
        self.primes[f as usize] = set;
        Ok(set)
    }

    /// The terms of a set, in order, as keys; more than enough where the set has more.
    fn keys(&self, set: u32, enough: usize, keys: &mut Vec<u128>) {
        keys.clear();
        self.sets.enumerate(set, EMPTY, enough, keys);
        keys.sort_unstable();
    }
}

/// The prime implicants of the last node.
pub fn list_last(of: Of, table: Table) -> Result<Vec<Term>, Over> {
    let mut diagrams = Diagrams::new();
    let roots = diagrams.read(table)?;
    let set = diagrams.listed(of, roots[roots.len() - 1])?;
    let mut keys = Vec::new();
    diagrams.keys(set, usize::MAX, &mut keys);
    Ok(keys.into_iter().map(unpacked).collect())
}

/// Writes the terms of some sets into the parts of the nodes; those of a set met again are copied.
fn write(diagrams: &Diagrams, sets: &[u32], capacity: usize, lent: &mut Lent) -> Result<(), Full> {
    let mut order: Vec<usize> = (0..sets.len()).collect();
    order.sort_by_key(|&i| sets[i]);
    let mut keys = Vec::new();
    for equal in order.chunk_by(|&i, &j| sets[i] == sets[j]) {
        diagrams.keys(sets[equal[0]], capacity, &mut keys);
        if keys.len() > capacity {
            return Err(Full);
        }
        let part = |i: usize| -> Range<usize> { i * capacity..i * capacity + keys.len() };
        let first = part(equal[0]);
        for (k, &key) in first.clone().zip(&keys) {
            let t = unpacked(key);
            (lent.positives[k], lent.negatives[k]) = (t.positive, t.negative);
        }
        for &i in equal {
            lent.positives.copy_within(first.clone(), part(i).start);
            lent.negatives.copy_within(first.clone(), part(i).start);
            lent.counts[i] = keys.len() as u32;
        }
    }
    Ok(())
}

/// Lists the prime implicants of every node; the arguments of the engine's two listings, and their answer unless the nodes of the
/// diagrams are too many.
pub fn list(
    of: Of,
    table: Table,
    capacity: u32,
    positives: &mut [u64],
    negatives: &mut [u64],
    counts: &mut [u32],
) -> Result<Listed, Over> {
    let mut lent = match Lent::new(table, capacity, positives, negatives, counts) {
        Ok(lent) => lent,
        Err(refusal) => return Ok(Err(refusal)),
    };
    let mut diagrams = Diagrams::new();
    let roots = diagrams.read(table)?;
    let sets = roots.into_iter().map(|f| diagrams.listed(of, f)).collect::<Result<Vec<u32>, Over>>()?;
    let filled = write(&diagrams, &sets, capacity as usize, &mut lent);
    Ok(lent.finish(filled))
}
