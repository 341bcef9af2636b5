//! Weights change the order of rows and nothing else: all of them 0 is the order without them. Wrong ones among all other faults.

use super::chains::{rows, Row};
use super::listed::Listings;
use super::wide::grouped;
use crate::cases::listings::Listing;
use crate::cases::walks::{enough, Walk};
use crate::circuits::{self, Part};
use crate::compare::compare;
use crate::oracle::function::{Listed, Term};
use crate::oracle::table::{reachable, Node, Table};
use crate::random::Random;
use crate::tally::Tally;
use crate::weights;

/// Where a row stands without weights.
fn place(&(positive, negative): &Row) -> (u32, u64, u64) {
    let marks: u64 = positive | negative;
    (marks.count_ones(), marks, positive)
}

/// The sum of the weights of its marks.
fn sum(weights: &[u32], &(positive, negative): &Row) -> u32 {
    let weight = |variable: usize| weights[variable] * ((positive | negative) >> variable & 1) as u32;
    (0..weights.len()).map(weight).sum()
}

/// The engine's rows of every node by all-zero weights, and by the same weight for all: as the oracle finds them, in the order without
/// weights. By other weights: the same ones, in another order.
#[test]
fn weights_change_the_order_alone() {
    let mut changed = 0;
    for seed in 0..2_000 {
        let random = Random::of(0x8000_0000, seed);
        let variables = random.between(1, 8) as u32;
        let table = Table::of(variables, &circuits::nodes(&random, variables));
        let mut tally = Tally::default();
        let listings = Listings::new(format!("weights, seed {seed}"), &table, &mut tally);
        for listed in Listed::BOTH {
            let by = |weights: &[u32]| rows(listed, &table, weights, listings.whole(listed));
            let without = by(&vec![0; variables as usize]);
            for (node, rows) in without.iter().enumerate() {
                let mut expected: Vec<Row> = listings.rows(listed, node).iter().map(|term| (term.positive, term.negative)).collect();
                expected.sort_by_key(place);
                assert_eq!(*rows, expected, "seed {seed}, {listed:?} of node {node} of {table:?}");
            }
            let same = random.choose(&[1, 1_000, 1 + random.below(1_000) as u32]);
            assert_eq!(by(&vec![same; variables as usize]), without, "seed {seed}, {listed:?}, {same} each");
            let weights = weights::right(&random, variables);
            for (node, mut rows) in by(&weights).into_iter().enumerate() {
                let rises =
                    rows.windows(2).all(|pair| (sum(&weights, &pair[0]), place(&pair[0])) < (sum(&weights, &pair[1]), place(&pair[1])));
                assert!(rises, "seed {seed}, {listed:?} of node {node} of {table:?} by {weights:?}: {rows:?}");
                changed += u32::from(rows != without[node]);
                rows.sort_by_key(place);
                assert_eq!(rows, without[node], "seed {seed}, {listed:?} of node {node} of {table:?} by {weights:?}");
            }
        }
    }
    assert!(changed > 1_500, "the order of {changed} nodes only was changed");
}

/// The circuit of a function by its values; bit i of a place is the value of variable i. Decisions alone.
pub fn circuit_of(values: u64, variables: u32) -> Vec<Node> {
    let mut nodes = vec![Node::False, Node::True];
    let mut level: Vec<u32> = (0..1 << variables).map(|place| (values >> place & 1) as u32).collect();
    for variable in (0..variables).rev() {
        let half = level.len() / 2;
        let mut decide = |place: usize| {
            let (a, b) = (level[place], level[place + half]);
            if a == b {
                return a;
            }
            nodes.push(Node::Pick(variable, a, b));
            nodes.len() as u32 - 1
        };
        level = (0..half).map(&mut decide).collect();
    }
    nodes.truncate(level[0] as usize + 1);
    reachable(&nodes)
}

/// Every function of three variables by all weights of 0 to 2.
#[test]
fn every_function_by_small_weights() {
    let mut tally = Tally::default();
    for function in 0..256 {
        let table = Table::of(3, &circuit_of(function, 3));
        let mut listings = Listings::new(format!("function {function}"), &table, &mut tally);
        for (listed, weights) in Listed::BOTH.into_iter().flat_map(|listed| (0..27).map(move |weights| (listed, weights))) {
            let (weights, capacity) = ([weights % 3, weights / 3 % 3, weights / 9], listings.whole(listed));
            listings.list(listed, &weights, capacity, listings.enough(capacity), 1);
        }
    }
    tally.expect(&[("list", &[(0, 27), (1, 255 * 27)]), ("list_negation", &[(0, 27), (1, 255 * 27)])]);
}

/// Rows of over 30 marks with large weights: the sums are about 2^15, and those of one circuit often on both sides of it.
#[test]
fn large_sums() {
    let (mut tally, mut both_sides) = (Tally::default(), 0);
    for seed in 0..200 {
        let random = Random::of(0x8100_0000, seed);
        let rest = random.between(4, 7) as u32;
        let mut parts: Vec<Part> = (rest..40).map(|_| (1, vec![random.choose(&[Node::Yes(0), Node::No(0)])])).collect();
        parts.push(circuits::satisfiable(&random, rest));
        random.shuffle(&mut parts);
        let nodes = circuits::scattered(&random, &grouped(&random, parts), 40);
        let table = Table::of(40, &nodes);
        let near = (1 << 15) / (42 - u64::from(rest));
        let weights: Vec<u32> = (0..40).map(|_| random.between(near - 40, near + 40) as u32).collect();
        let mut listings = Listings::new(format!("large sums, seed {seed}"), &table, &mut tally);
        for listed in Listed::BOTH {
            let capacity = listings.whole(listed);
            listings.list(listed, &weights, capacity, listings.enough(capacity), seed);
        }
        let is_large = |term: &Term| sum(&weights, &(term.positive, term.negative)) >= 1 << 15;
        let rows = listings.rows(Listed::Clearances, nodes.len() - 1);
        both_sides += u32::from(rows.iter().any(is_large) && !rows.iter().all(is_large));
    }
    assert!(both_sides > 15, "{both_sides} circuits only have sums on both sides");
    tally.expect(&[("list", &[(1, 200)]), ("list_negation", &[(1, 200)])]);
}

/// Right weights of three variables, and wrong ones: too few, too many, and at each place one too large.
const LISTS: [&[u32]; 12] = [
    &[0, 0, 0],
    &[1_000, 1_000, 1_000],
    &[2, 0, 1],
    &[],
    &[0, 0],
    &[0, 0, 0, 0],
    &[1_001, 0, 0],
    &[0, 1_001, 0],
    &[0, 0, 1_001],
    &[u32::MAX, u32::MAX, u32::MAX],
    &[1_001, 0],
    &[0, 0, 0, 1_001],
];

/// Right and wrong weights with right and wrong tables, steps, buffers and capacities, all of them together.
#[test]
fn every_two_faults() {
    let mut tally = Tally::default();
    let worked = vec![Node::No(1), Node::Yes(2), Node::True, Node::Pick(1, 1, 2), Node::Pick(0, 0, 3)];
    let nobodys = [vec![Node::True], worked.clone()].concat();
    let long: Vec<(u32, u32)> = (0..257).map(|step| (step % 3, 1)).collect();
    let scripts: [&[(u32, u32)]; 5] = [&[], &[(0, 1), (1, 0), (2, 2)], &[(0, 1), (3, 1)], &[(0, 1), (0, 3)], &long];
    for (table, weights) in [worked, nobodys].iter().flat_map(|nodes| LISTS.map(|weights| (Table::of(3, nodes), weights))) {
        for (capacity, short) in [0, 1, 2, 3, 4, 5, 4_097].into_iter().flat_map(|capacity| (0..6).map(move |short| (capacity, short))) {
            for steps in scripts {
                // Each buffer in turn is one too short, and at last none is.
                let mut lengths = enough(&table, capacity.min(5), steps.len());
                lengths.iter_mut().skip(short).take(1).for_each(|length| *length = length.saturating_sub(1));
                compare("faults", &Walk::new(table.clone(), weights, capacity, steps, lengths, 1), &mut tally);
                if steps.is_empty() {
                    let [positives, negatives, counts, ..] = lengths;
                    for listed in Listed::BOTH {
                        let listing = Listing::new(listed, table.clone(), weights, capacity, [positives, negatives, counts], 1);
                        compare("faults", &listing, &mut tally);
                    }
                }
            }
        }
    }
    tally.expect(&[
        ("list", &[(1, 18), (23, 500), (41, 250), (42, 40), (56, 150)]),
        ("list_negation", &[(1, 30), (23, 500), (41, 250), (42, 20), (56, 150)]),
        ("walk", &[(0, 20), (23, 2_500), (41, 600), (42, 60), (54, 1_000), (55, 500), (56, 250)]),
    ]);
}
