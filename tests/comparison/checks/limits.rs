//! The stated limits of a call: its stack, and that calls from several threads do not disturb one another.

use crate::cases::listings::Listing;
use crate::cases::partials::Partial;
use crate::cases::questions::Asked;
use crate::cases::questions::Question::{Check, Count, Evaluate, Implies, Prime, Reduce};
use crate::cases::readings::Reading;
use crate::cases::scripts::Script;
use crate::cases::walks::Walk;
use crate::cases::writings::Writing;
use crate::circuits;
use crate::compare::compare;
use crate::oracle::function::{Listed, Term};
use crate::oracle::script::MOST_STEPS;
use crate::oracle::table::{Table, MOST_CHILDREN, MOST_NODES, NODE_WORDS};
use crate::oracle::text::MOST_BYTES;
use crate::oracle::weights::MOST_WEIGHT;
use crate::pairs;
use crate::partials;
use crate::random::Random;
use crate::scripts;
use crate::tally::Tally;
use crate::texts;
use crate::weights;

/// What the header states, and what the comparison itself needs.
const STATED_STACK: usize = 512 * 1024;
const OWN_STACK: usize = 32 * 1024;

/// The words of the largest table.
const MOST_WORDS: usize = MOST_NODES * NODE_WORDS;

/// The largest work of each kind; how many comparisons were made.
fn largest_work(seed: u64) -> u64 {
    let (random, mut tally) = (Random::new(seed), Tally::default());
    let table = Table::of(40, &circuits::chain(&random, 8, 1_023));
    for question in [Check, Count, Evaluate(7), Implies(0, 0), Prime(0, 0), Reduce(0), Reduce((1 << 40) - 1)] {
        compare("limits", &Asked::new(table.clone(), question), &mut tally);
    }
    let measurements = partials::measurements_of(&random, &(0..40).collect::<Vec<u32>>());
    compare("limits", &Partial { table: table.clone(), term: Term::EMPTY, measurements }, &mut tally);
    let (variables, clauses) = circuits::clauses(6, 4);
    let [clauses, parity] = [(variables, clauses), (13, circuits::parity(13))].map(|(variables, nodes)| Table::of(variables, &nodes));
    for listed in Listed::BOTH {
        for (table, capacity) in [(&table, 300), (&clauses, 4_096), (&parity, 4_096)] {
            let weights = weights::right(&random, table.variables);
            let listing = Listing::fitting(listed, table.clone(), &weights, capacity, seed);
            compare("limits", &listing.with_pairs(pairs::right(&random, table.variables, &[])), &mut tally);
        }
    }
    compare("limits", &Writing::new(table.clone(), MOST_BYTES), &mut tally);
    for depth in [16, 17, 3_000] {
        compare("limits", &Reading::new(texts::deep(&random, depth).as_bytes(), MOST_WORDS), &mut tally);
    }
    compare("limits", &Reading::new(texts::largest(&random).as_bytes(), MOST_WORDS), &mut tally);
    for (table, capacity) in [(&table, 300), (&clauses, 4_096)] {
        let (steps, weights) =
            (scripts::steps(&random, table.variables, Term::EMPTY, MOST_STEPS), weights::right(&random, table.variables));
        compare("limits", &Walk::fitting(table.clone(), &weights, capacity, steps, seed), &mut tally);
    }
    compare("limits", &Script::new(&scripts::text(&random, 40, MOST_STEPS), 40, MOST_STEPS), &mut tally);
    tally.total()
}

/// A call that needs more than the stated stack ends the process here.
#[test]
fn within_the_stated_stack() {
    let small = std::thread::Builder::new().stack_size(STATED_STACK + OWN_STACK);
    let compared = small.spawn(|| largest_work(0x6000_0000)).expect("a thread").join();
    assert_eq!(compared.expect("no difference"), 22);
}

#[test]
fn several_threads_at_once() {
    let threads: Vec<_> =
        (0..4).map(|seed| std::thread::spawn(move || (0..3).map(|more| largest_work(8 * seed + more)).sum::<u64>())).collect();
    let compared: u64 = threads.into_iter().map(|thread| thread.join().expect("no difference")).sum();
    assert_eq!(compared, 4 * 3 * 22);
}

/// The wrapper's limits are those that the oracle has from the papers.
#[test]
fn limits_of_the_papers() {
    assert_eq!(quelbrift::NODE_WORDS, NODE_WORDS);
    assert_eq!(quelbrift::MAX_CHILDREN as usize, MOST_CHILDREN);
    assert_eq!(quelbrift::MAX_NODES as usize, MOST_NODES);
    assert_eq!(quelbrift::MAX_TEXT, MOST_BYTES);
    assert_eq!(quelbrift::MAX_STEPS, MOST_STEPS);
    assert_eq!(quelbrift::MAX_WEIGHT, MOST_WEIGHT);
}
