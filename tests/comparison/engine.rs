//! The archive's answers in the oracle's types. A wrapper's panic (an answer that no paper allows) is caught, so that it can be
//! shown with the case that led to it.

use crate::oracle::answers::{Completions, Verdict};
use crate::oracle::function::{Listed, Term};
use crate::oracle::listing::{Buffers, Shown};
use crate::oracle::pairs::Pairs;
use crate::oracle::script::Step;
use crate::oracle::table::Table;
use crate::oracle::walk::Lent;
use crate::oracle::Refused;
use std::cell::Cell;
use std::panic::{catch_unwind, set_hook, take_hook, AssertUnwindSafe};
use std::sync::Once;

thread_local! {
    static CATCHING: Cell<bool> = const { Cell::new(false) };
}

/// Prints no panic that is caught here.
fn quiet_while_catching() {
    static ONCE: Once = Once::new();
    ONCE.call_once(|| {
        let usual = take_hook();
        set_hook(Box::new(move |info| {
            if !CATCHING.get() {
                usual(info)
            }
        }));
    });
}

/// What the closure returns, or its panic as words.
pub fn caught<T>(work: impl FnOnce() -> T) -> Result<T, String> {
    quiet_while_catching();
    let outside = CATCHING.replace(true);
    let result = catch_unwind(AssertUnwindSafe(work));
    CATCHING.set(outside);
    result.map_err(|panic| match panic.downcast::<String>() {
        Ok(words) => *words,
        Err(_) => "a panic without words".to_string(),
    })
}

pub fn lent(table: &Table) -> quelbrift::Table<'_> {
    quelbrift::Table { words: &table.words, variables: table.variables, nodes: table.nodes }
}

pub fn term(term: Term) -> quelbrift::Term {
    quelbrift::Term { positive: term.positive, negative: term.negative }
}

pub fn completions(answer: quelbrift::Completions) -> Completions {
    let verdict = match answer.verdict {
        quelbrift::Verdict::Forbidden => Verdict::Forbidden,
        quelbrift::Verdict::Open => Verdict::Open,
        quelbrift::Verdict::Allowed => Verdict::Allowed,
    };
    Completions { verdict, allowed: answer.allowed, forbidden: answer.forbidden }
}

pub fn own<T>(answer: Result<T, quelbrift::Refusal>) -> Result<T, Refused> {
    answer.map_err(|refusal| Refused { number: refusal.number, place: refusal.place })
}

/// Entries on both sides of a lent part, which nobody lent: watched too, and enough to show most writes outside the lent part.
pub const MARGIN: usize = 64;

/// Lends the middle of a list with margins.
pub fn middle<T>(list: &mut [T]) -> &mut [T] {
    let end = list.len() - MARGIN;
    &mut list[MARGIN..end]
}

/// One of the two listings, without pairs.
pub type Listing = fn(quelbrift::Table, &[u32], u32, &mut [u64], &mut [u64], &mut [u32]) -> Result<(), quelbrift::Refusal>;

pub fn listing(listed: Listed) -> Listing {
    match listed {
        Listed::Clearances => list_clearances,
        Listed::Blockers => quelbrift::list_negation,
    }
}

/// Lists the clearances without pairs, with a shown list that nobody looks at.
fn list_clearances(
    table: quelbrift::Table,
    weights: &[u32],
    capacity: u32,
    positives: &mut [u64],
    negatives: &mut [u64],
    counts: &mut [u32],
) -> Result<(), quelbrift::Refusal> {
    let [mut shown_positives, mut shown_negatives] = [(); 2].map(|()| vec![0; capacity as usize]);
    let (shown_positives, shown_negatives) = (&mut shown_positives, &mut shown_negatives);
    let buffers = quelbrift::ListBuffers { positives, negatives, counts, shown_positives, shown_negatives };
    quelbrift::list(table, weights, &[], &[], capacity, buffers).map(|_| ())
}

/// Lists into the middles of three lists with margins.
pub fn list(listed: Listed, table: &Table, weights: &[u32], capacity: u32, lists: &mut Buffers) -> Result<(), Refused> {
    let Buffers { positives, negatives, counts } = lists;
    own(listing(listed)(lent(table), weights, capacity, middle(positives), middle(negatives), middle(counts)))
}

/// Lists the clearances by pairs, with the middles of five lists with margins lent: how many are shown.
pub fn list_shown(table: &Table, weights: &[u32], pairs: &Pairs, capacity: u32, lists: &mut Shown) -> Result<u64, Refused> {
    let Shown { listing: Buffers { positives, negatives, counts }, positives: shown_positives, negatives: shown_negatives } = lists;
    let buffers = quelbrift::ListBuffers {
        positives: middle(positives),
        negatives: middle(negatives),
        counts: middle(counts),
        shown_positives: middle(shown_positives),
        shown_negatives: middle(shown_negatives),
    };
    let answer = own(quelbrift::list(lent(table), weights, &pairs.firsts, &pairs.seconds, capacity, buffers));
    answer.map(|shown| shown as u64)
}

fn lent_steps(steps: &[Step]) -> Vec<quelbrift::Step> {
    steps.iter().map(|&Step { variable, act }| quelbrift::Step { variable, act }).collect()
}

/// Reads a script into the middle of a list with margins.
pub fn read_script(text: &[u8], variables: u32, list: &mut Vec<Step>) -> Result<u64, Refused> {
    let mut steps = lent_steps(list);
    let answer = own(quelbrift::read_script(text, variables, middle(&mut steps)));
    *list = steps.iter().map(|&quelbrift::Step { variable, act }| Step { variable, act }).collect();
    answer.map(|number| number as u64)
}

/// Walks a script with the middles of five lists with margins lent.
pub fn walk(table: &Table, weights: &[u32], capacity: u32, steps: &[Step], lists: &mut Lent) -> Result<Option<u64>, Refused> {
    let Lent { listing: Buffers { positives, negatives, counts }, statuses, compatibles } = lists;
    let buffers = quelbrift::WalkBuffers {
        positives: middle(positives),
        negatives: middle(negatives),
        counts: middle(counts),
        statuses: middle(statuses),
        compatibles: middle(compatibles),
    };
    let answer = own(quelbrift::walk(lent(table), weights, capacity, &lent_steps(steps), buffers));
    answer.map(|named| named.map(|step| step as u64))
}
