//! A listing by hand: the table is checked, the lent buffers are cleared, and the terms of each node are made in its own part.
use crate::check::{check, node};
use crate::part::{Full, Part};
use crate::terms::{conflict, extend, join, key, Of, Term, Terms, EMPTY};
use quelbrift::{Refusal, Table};

/// Done, or refused with a number.
pub type Listed = Result<(), Refusal>;

/// The first entries of the lent buffers: a part of capacity entries and a count for each node.
pub struct Lent<'a> {
    pub positives: &'a mut [u64],
    pub negatives: &'a mut [u64],
    pub counts: &'a mut [u32],
}

impl<'a> Lent<'a> {
    /// The cleared entries for an accepted table.
    pub fn new(
        table: Table,
        capacity: u32,
        positives: &'a mut [u64],
        negatives: &'a mut [u64],
        counts: &'a mut [u32],
    ) -> Result<Self, Refusal> {
        check(table)?;
        let (n, capacity) = (table.nodes as usize, capacity as usize);
        let total = n * capacity;
        if capacity > 4096 || positives.len() < total || negatives.len() < total || counts.len() < n {
            return Err(Refusal { number: 41, place: 0 });
        }
        let mut lent = Lent { positives: &mut positives[..total], negatives: &mut negatives[..total], counts: &mut counts[..n] };
        lent.clear();
        Ok(lent)
    }

    fn clear(&mut self) {
        self.positives.fill(0);
        self.negatives.fill(0);
        self.counts.fill(0);
    }

    /// Done where no node was full; otherwise the entries are cleared again.
    pub fn finish(&mut self, filled: Result<(), Full>) -> Listed {
        filled.map_err(|Full| {
            self.clear();
            Refusal { number: 42, place: 0 }
        })
    }
}

/// Adds the joins of the terms of a and b.
fn joins(part: &mut Part, a: Terms, b: Terms) -> Result<(), Full> {
    for u in b.iter() {
        for t in a.iter() {
            if !conflict(u, t) {
                part.insert(join(u, t))?;
            }
        }
    }
    Ok(())
}

/// Makes the terms of a conjunction of two or more: child by child, from the last to the first.
fn conjunction<'a>(part: &mut Part, children: &[u32], terms: impl Fn(u32) -> Terms<'a>) -> Result<(), Full> {
    let (first, rest) = (terms(children[0]), &children[1..]);
    if let [second] = rest {
        return joins(part, first, terms(*second));
    }
    let capacity = part.positives.len();
    let (positives, negatives) = (&mut vec![0; capacity][..], &mut vec![0; capacity][..]);
    let mut joined = Part { positives, negatives, count: 0 };
    conjunction(&mut joined, rest, terms)?;
    joins(part, first, joined.terms())
}

/// Makes the terms of the negation of a conjunction: those of the children's negations, in order.
fn union<'a>(part: &mut Part, children: &[u32], terms: impl Fn(u32) -> Terms<'a>) -> Result<(), Full> {
    let mut all: Vec<Term> = children.iter().flat_map(|&child| terms(child).iter()).collect();
    if all.len() > part.positives.len() {
        return Err(Full);
    }
    all.sort_by_key(|&t| key(t));
    all.into_iter().for_each(|t| part.push(t));
    Ok(())
}

/// Makes the terms of one node in its own part, from its children's terms in the parts below.
fn fill(
    decision: &mut impl FnMut(&mut Part, u32, Terms, Terms) -> Result<(), Full>,
    of: Of,
    part: &mut Part,
    node: (u32, u32, &[u32]),
    below: Terms,
    counts: &[u32],
    capacity: usize,
) -> Result<(), Full> {
    let (kind, x, children) = node;
    let terms = |child: u32| {
        let start = child as usize * capacity;
        let end = start + counts[child as usize] as usize;
        Terms { positives: &below.positives[start..end], negatives: &below.negatives[start..end] }
    };
    match kind {
        0 | 1 if of.value(kind == 1) => part.insert(EMPTY).map(|_| ()),
        2 | 3 => part.insert(extend(EMPTY, x, of.value(kind == 2))).map(|_| ()),
        4 => decision(part, x, terms(children[0]), terms(children[1])),
        5 if of == Of::Function => conjunction(part, children, terms),
        5 => union(part, children, terms),
        _ => Ok(()),
    }
}

/// Fills the nodes' parts, the lowest node first.
fn fill_all(
    mut decision: impl FnMut(&mut Part, u32, Terms, Terms) -> Result<(), Full>,
    of: Of,
    table: Table,
    capacity: usize,
    lent: &mut Lent,
) -> Result<(), Full> {
    for i in 0..table.nodes as usize {
        let (low, high) = lent.positives.split_at_mut(i * capacity);
        let (low_negatives, high_negatives) = lent.negatives.split_at_mut(i * capacity);
        let below = Terms { positives: low, negatives: low_negatives };
        let mut part = Part { positives: &mut high[..capacity], negatives: &mut high_negatives[..capacity], count: 0 };
        fill(&mut decision, of, &mut part, node(table.words, i), below, lent.counts, capacity)?;
        lent.counts[i] = part.count as u32;
    }
    Ok(())
}

/// Lists the prime implicants of every node; a decision's by the given function from its part, its variable and its sides' terms.
pub fn list(
    decision: impl FnMut(&mut Part, u32, Terms, Terms) -> Result<(), Full>,
    of: Of,
    table: Table,
    capacity: u32,
    mut lent: Lent,
) -> Listed {
    let filled = fill_all(decision, of, table, capacity as usize, &mut lent);
    lent.finish(filled)
}
