//! Conjunctions of many children beside chains of conjunctions of two for the same functions.

use super::listed::Listings;
use crate::cases::listings::noise;
use crate::circuits;
use crate::engine;
use crate::oracle::function::Listed;
use crate::oracle::listing::Buffers;
use crate::oracle::table::{Node, Table};
use crate::oracle::Refused;
use crate::random::Random;
use crate::tally::Tally;
use crate::weights;

/// A row: the masks of the variables marked yes and of those marked no.
pub type Row = (u64, u64);

/// The rows of every node as the engine lists them.
pub fn rows(listed: Listed, table: &Table, weights: &[u32], capacity: u32) -> Vec<Vec<Row>> {
    rows_or_refusal(listed, table, weights, capacity).expect("room enough")
}

/// The same, or the refusal.
pub fn rows_or_refusal(listed: Listed, table: &Table, weights: &[u32], capacity: u32) -> Result<Vec<Vec<Row>>, Refused> {
    let [rows, nodes] = [table.nodes * capacity, table.nodes].map(|length| length as usize);
    let mut lists = noise(u64::from(capacity), [rows, rows, nodes]);
    engine::list(listed, table, weights, capacity, &mut lists)?;
    Ok(by_node(lists, capacity))
}

/// The rows of every node that a listing left in lists with margins, just enough.
pub fn by_node(mut lists: Buffers, capacity: u32) -> Vec<Vec<Row>> {
    let [positives, negatives] = [&mut lists.positives, &mut lists.negatives].map(|list| engine::middle(list));
    let capacity = capacity as usize;
    let rows = |(node, &count): (usize, &u32)| {
        let part = |masks: &[u64]| masks[node * capacity..][..capacity][..count as usize].to_vec();
        part(positives).into_iter().zip(part(negatives)).collect()
    };
    engine::middle(&mut lists.counts).iter().enumerate().map(rows).collect()
}

/// Whether some conjunction has more than two children.
fn is_wide(nodes: &[Node]) -> bool {
    nodes.iter().any(|node| node.children().len() > 2)
}

/// Tables with conjunctions of two only: the rows are those of the program that tries every row.
#[test]
fn two_child_tables_list_the_rows_they_listed() {
    let (mut tally, mut conjunctions) = (Tally::default(), 0);
    for seed in 0..2_000 {
        let random = Random::of(0x7000_0000, seed);
        let variables = random.between(1, 8) as u32;
        let (nodes, _) = circuits::chained(&random, &circuits::nodes(&random, variables));
        assert!(!is_wide(&nodes));
        conjunctions += nodes.iter().filter(|node| matches!(node, Node::Both(_))).count();
        let table = Table::of(variables, &nodes);
        let mut listings = Listings::new(format!("two children, seed {seed}"), &table, &mut tally);
        listings.list_around(&random, |whole| [whole, whole.saturating_sub(1)]);
    }
    assert!(conjunctions > 5_000, "{conjunctions} conjunctions only");
    tally.expect(&[
        ("list", &[(0, 5), (1, 1_200), (2, 250), (42, 1_900), (56, 300), (57, 300)]),
        ("list_negation", &[(0, 100), (1, 1_500), (42, 1_500), (56, 300)]),
    ]);
}

/// A conjunction of many children has the rows of a chain of conjunctions of two, and so has every node above it.
#[test]
fn a_conjunction_lists_the_rows_of_a_chain() {
    let (mut wide, mut listed_rows) = (0, [0, 0]);
    for seed in 0..3_000 {
        let random = Random::of(0x7100_0000, seed);
        let variables = random.between(1, 8) as u32;
        let nodes = circuits::nodes(&random, variables);
        let (chained, places) = circuits::chained(&random, &nodes);
        let [one, chain] = [&nodes, &chained].map(|nodes| Table::of(variables, nodes));
        let mut tally = Tally::default();
        let listings = Listings::new(format!("chains, seed {seed}"), &one, &mut tally);
        for listed in Listed::BOTH {
            let weights = weights::right(&random, variables);
            let [of_one, of_chain] = [&one, &chain].map(|table| rows(listed, table, &weights, listings.whole(listed)));
            for (node, &place) in places.iter().enumerate() {
                assert_eq!(of_one[node], of_chain[place as usize], "seed {seed}, {listed:?} of node {node} of {nodes:?}");
            }
            listed_rows[listed as usize] += of_one.iter().map(Vec::len).sum::<usize>();
        }
        wide += usize::from(is_wide(&nodes));
    }
    assert!(wide > 1_000, "{wide} tables with a conjunction of many only");
    assert!(listed_rows.iter().all(|&rows| rows > 40_000), "{listed_rows:?} clearances and blockers only");
}
