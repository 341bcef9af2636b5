//! The walk of a script of the most steps beside the listing that it starts with, on a few families at the largest capacity. A step sets
//! a variable or drops one, most of them more than once.
use crate::buffers::Buffers;
use crate::families::{filled_product, hidden_weighted_bit, one_product, parity, product, Family};
use crate::measure::stop;
use crate::terms::{conflict, extend, Of, Term, EMPTY};
use crate::timing::{least, shown, Runs};
use crate::{engine, CAPACITY};
use quelbrift::{Refusal, Step, Table, WalkBuffers, MAX_NODES, MAX_STEPS};

/// The most steps, over all of so many variables.
fn script(variables: u32) -> Vec<Step> {
    (0..MAX_STEPS as u32).map(|i| Step { variable: 7 * i % variables, act: i / 5 % 3 }).collect()
}

/// What is known after a step, from what was known before.
fn stepped(known: Term, step: &Step) -> Term {
    let bit = 1 << step.variable;
    let rest = Term { positive: known.positive & !bit, negative: known.negative & !bit };
    if step.act == quelbrift::DROP {
        return rest;
    }
    extend(rest, step.variable, step.act == quelbrift::SET_YES)
}

/// The buffers of a walk.
struct Lent {
    listing: Buffers,
    statuses: Vec<u32>,
    compatibles: Vec<u32>,
}

impl Lent {
    fn list(&mut self, table: Table) -> Result<(), Refusal> {
        engine::list(Of::Function, table, engine::zeros(table), CAPACITY, &mut self.listing)
    }

    fn walk(&mut self, table: Table, steps: &[Step]) -> Result<Option<usize>, Refusal> {
        let Lent { listing: Buffers { positives, negatives, counts, .. }, statuses, compatibles } = self;
        let buffers = WalkBuffers { positives, negatives, counts, statuses, compatibles };
        quelbrift::walk(table, engine::zeros(table), CAPACITY, steps, buffers)
    }

    /// Whether each entry is that of the partial assignment after its step, judged by itself.
    fn agrees(&self, table: Table, steps: &[Step]) -> bool {
        let (mut known, terms) = (EMPTY, self.listing.last(CAPACITY));
        steps.iter().zip(self.statuses.iter().zip(&self.compatibles)).all(|(step, (&status, &compatible))| {
            known = stepped(known, step);
            let judged = quelbrift::evaluate_partial(table, known, &[], &[], &[], &[]);
            let left = terms.iter().filter(|&&term| !conflict(term, known)).count();
            judged.is_ok_and(|judged| judged.verdict as u32 == status) && left == compatible as usize
        })
    }
}

/// The time of the listing, that of the walk, and what of it is left for each step.
fn line(family: &Family) {
    let table = family.circuit.table();
    let steps = script(table.variables);
    let entries = || vec![u32::MAX; steps.len()];
    let mut lent = Lent { listing: Buffers::new(table, CAPACITY), statuses: entries(), compatibles: entries() };
    let done = |refusal: Option<Refusal>| refusal.is_none_or(|refusal| stop(&format!("{}: {refusal}", family.name)));
    let times = least(Runs::Several, 2, |i| match i {
        0 => done(lent.list(table).err()),
        _ => done(lent.walk(table, &steps).err()),
    });
    if !lent.agrees(table, &steps) {
        stop(&format!("{}: the walk and single verdicts differ", family.name));
    }
    let [listing, walk] = [times[0], times[1]].map(|time| time.expect("work that is done has a time"));
    let step = walk.saturating_sub(listing) / steps.len() as u32;
    let (rows, [listing, walk, step]) = (lent.listing.rows(), [listing, walk, step].map(shown));
    println!("{:<48} {:>2} {:>5} {rows:>5} {listing:>8} {walk:>8} {step:>8}", family.name, table.variables, table.nodes);
}

pub fn print() {
    println!("{:<48} {:>2} {:>5} {:>5} {:>8} {:>8} {:>8}", "family", "N", "nodes", "rows", "listing", "walk", "a step");
    [filled_product(12, MAX_NODES as usize), product(12, 1, 2), one_product(6, 1, 4), parity(13), hidden_weighted_bit(12)]
        .iter()
        .for_each(line);
}
