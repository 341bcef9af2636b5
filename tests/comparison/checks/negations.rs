//! Blockers without an oracle, over up to 40 variables. A circuit without `both` and the circuit of its negation have the same nodes but
//! for exchanged leaves: the blockers of the one are the clearances of the other. And circuits whose rows are known by construction.

use crate::cases::listings::Listing;
use crate::circuits::{self, Part};
use crate::engine;
use crate::oracle::answers::Oracle;
use crate::oracle::function::{Listed, Term};
use crate::oracle::listing::Buffers;
use crate::oracle::rows;
use crate::oracle::table::{Node, Table};
use crate::oracle::Refused;
use crate::pairs;
use crate::random::Random;
use crate::tally::Tally;
use crate::weights;

/// The answer of a listing, and all that it leaves in buffers that held something.
fn left(listed: Listed, table: &Table, weights: &[u32], capacity: u32) -> (Result<(), Refused>, Buffers) {
    let [rows, counts] = [table.nodes as usize * capacity as usize, table.nodes as usize].map(|length| length + 2 * engine::MARGIN + 1);
    let mut lists = Buffers { positives: vec![7; rows], negatives: vec![7; rows], counts: vec![7; counts] };
    (engine::list(listed, table, weights, capacity, &mut lists), lists)
}

/// A decision diagram, often over many variables, whose negation is accepted too: no `pick` has two `true` children.
pub fn diagram(random: &Random) -> (u32, Vec<Node>) {
    let variables = random.choose(&[40, random.between(12, 40)]) as u32;
    let nodes = match random.below(3) {
        0 => circuits::layered(random, variables, random.between(1, 4)),
        1 => circuits::layered(random, variables.min(16), random.between(4, 12)),
        _ => circuits::symmetric(random.between(8, 12) as u32, random.next()),
    };
    let nodes = circuits::scattered(random, &nodes, variables);
    let accepted = Table::of(variables, &circuits::negated(&nodes)).check().is_ok();
    if accepted {
        (variables, nodes)
    } else {
        diagram(random)
    }
}

#[test]
fn blockers_are_the_clearances_of_the_negation() {
    let (mut tally, mut longest) = (Tally::default(), 0);
    for seed in 0..600 {
        let random = Random::of(0x7200_0000, seed);
        let (variables, nodes) = diagram(&random);
        let [own, negated] = [nodes.clone(), circuits::negated(&nodes)].map(|nodes| Table::of(variables, &nodes));
        for capacity in [random.choose(&[1, 8, 30]), random.choose(&[64, 100, 300]), random.choose(&[700, 1_500])] {
            for (one, other) in [(&own, &negated), (&negated, &own)] {
                let weights = weights::any(&random, variables);
                let blockers = left(Listed::Blockers, one, &weights, capacity);
                let clearances = left(Listed::Clearances, other, &weights, capacity);
                assert!(blockers == clearances, "seed {seed}, weights {weights:?}, capacity {capacity}, {one:?}");
                let (answer, Buffers { mut counts, .. }) = blockers;
                longest = engine::middle(&mut counts).iter().copied().fold(longest, u32::max);
                tally.see(("list_negation", answer.map_or_else(|refusal| refusal.number, |()| 1)));
            }
        }
    }
    assert!(longest > 1_000, "the longest listing has {longest} rows");
    tally.expect(&[("list_negation", &[(1, 900), (42, 500), (56, 300)])]);
}

/// The clearances and the blockers of every node of `circuits::cubes`, in the order of its nodes.
pub fn rows_of_cubes(number: u32, size: u32) -> [Vec<Vec<Term>>; 2] {
    let empty = Term { positive: 0, negative: 0 };
    let (mut clearances, mut blockers) = (vec![vec![], vec![empty]], vec![vec![empty], vec![]]);
    for block in (0..number).rev() {
        for first in (0..size).rev() {
            // What is left of this block, and the later ones.
            let starts = [block * size + first].into_iter().chain((block + 1..number).map(|later| later * size));
            let parts: Vec<Vec<u32>> = starts.map(|start| (start..(start / size + 1) * size).collect()).collect();
            let all = |part: &Vec<u32>| vec![Term { positive: part.iter().map(|variable| 1 << variable).sum(), negative: 0 }];
            let each = |part: &Vec<u32>| part.iter().map(|variable| Term { positive: 0, negative: 1 << variable }).collect();
            let [alls, eaches]: [Vec<Vec<Term>>; 2] = [parts.iter().map(all).collect(), parts.iter().map(each).collect()];
            clearances.push(rows::united(&alls.iter().map(Vec::as_slice).collect::<Vec<_>>()));
            blockers.push(rows::joined(&eaches.iter().map(Vec::as_slice).collect::<Vec<_>>()));
        }
    }
    [clearances, blockers]
}

/// A circuit with one more variable in conjunction, and its rows from the circuit's own.
fn with_literal((variables, mut nodes): Part, known: &mut [Vec<Vec<Term>>; 2]) -> Table {
    let last = nodes.len() as u32 - 1;
    nodes.extend([Node::No(variables), Node::Both(vec![last, last + 1])]);
    let bit = 1 << variables;
    let literals = [Term { positive: 0, negative: bit }, Term { positive: bit, negative: 0 }];
    for listed in Listed::BOTH {
        let (rows, literal) = (&mut known[listed as usize], [literals[listed as usize]]);
        let both = rows::of_conjunction(listed, &[&rows[last as usize], &literal]);
        rows.extend([literal.to_vec(), both]);
    }
    Table::of(variables + 1, &nodes)
}

/// The engine's listings of a circuit whose rows are known: just enough room, one too little, and the most.
fn list_known(random: &Random, table: &Table, known: &[Vec<Vec<Term>>; 2], tally: &mut Tally) {
    for (listed, rows) in Listed::BOTH.into_iter().zip(known) {
        let whole = rows.last().expect("a node").len() as u32;
        for capacity in [whole, whole - 1, 4_096].map(|capacity| capacity.min(4_096)) {
            let weights = weights::right(random, table.variables);
            let pairs = pairs::right(random, table.variables, rows.last().expect("a node"));
            let listing = Listing::fitting(listed, table.clone(), &weights, capacity, 1).with_pairs(pairs);
            let compared = listing.compared_by(&Oracle::new(table), rows);
            tally.see(compared.unwrap_or_else(|difference| panic!("{listed:?} of {table:?} by {weights:?}\n{difference}")));
        }
    }
}

/// Few clearances and as many blockers as a listing can hold, one too many for the room, and more than any listing holds.
#[test]
fn few_clearances_and_many_blockers() {
    let (mut tally, random) = (Tally::default(), Random::of(0x7300_0000, 0));
    for (number, size, wholes) in [(6, 4, [6, 4096]), (12, 2, [12, 4096]), (8, 3, [8, 6561]), (5, 5, [5, 3125]), (2, 19, [2, 361])] {
        let (circuit, mut known) = (circuits::cubes(number, size), rows_of_cubes(number, size));
        assert_eq!([0, 1].map(|listed: usize| known[listed].last().expect("a node").len()), wholes);
        list_known(&random, &Table::of(circuit.0, &circuit.1), &known, &mut tally);
        list_known(&random, &with_literal(circuit, &mut known), &known, &mut tally);
    }
    tally.expect(&[("list", &[(1, 2), (2, 6), (42, 10)]), ("list_negation", &[(1, 12), (42, 18)])]);
}

/// The rows known by construction are those that trying every row finds.
#[test]
fn known_rows_and_tried_rows_agree() {
    for (number, size) in [(1, 1), (1, 8), (3, 4), (6, 2), (13, 1)] {
        let (variables, nodes) = circuits::cubes(number, size);
        let oracle = Oracle::new(&Table::of(variables, &nodes));
        let accepted = oracle.accepted().expect("accepted");
        assert_eq!(Listed::BOTH.map(|listed| accepted.primes(listed)), rows_of_cubes(number, size));
    }
}
