//! Every well-formed table of few nodes over few variables, not only random ones.

use super::listed::Listings;
use super::questions::{ask_everything, Questioning};
use crate::cases::questions::Question::Check;
use crate::oracle::table::{Node, Table, MOST_CHILDREN};
use crate::random::Random;
use crate::tally::Tally;

/// Every list of so many children below that place.
fn every_children(index: u32, number: usize) -> Vec<Vec<u32>> {
    let lists = (index as usize).pow(number as u32);
    (0..lists).map(|list| (0..number).map(|place| (list / (index as usize).pow(place as u32)) as u32 % index).collect()).collect()
}

/// Every well-formed node for that place, conjunctions of up to so many children.
fn every_node(variables: u32, index: u32, children: usize) -> Vec<Node> {
    let mut nodes = vec![Node::False, Node::True];
    for variable in 0..variables {
        nodes.extend([Node::Yes(variable), Node::No(variable)]);
    }
    for (a, b) in (0..index).flat_map(|a| (0..index).map(move |b| (a, b))) {
        nodes.extend((0..variables).map(|variable| Node::Pick(variable, a, b)));
    }
    for number in (2..=children).filter(|_| index > 0) {
        nodes.extend(every_children(index, number).into_iter().map(Node::Both));
    }
    nodes
}

/// Every table with these first nodes, up to `most` nodes in all, and conjunctions of up to so many children.
fn every_table(variables: u32, first: &[Node], most: usize, children: usize, visit: &mut dyn FnMut(&Table)) {
    for node in every_node(variables, first.len() as u32, children) {
        let nodes = [first, &[node]].concat();
        visit(&Table::of(variables, &nodes));
        if nodes.len() < most {
            every_table(variables, &nodes, most, children, visit);
        }
    }
}

fn every_operation(table: &Table, random: &Random, tally: &mut Tally) {
    let mut questioning = Questioning::new("small".to_string(), table, tally);
    if table.check().is_err() {
        return questioning.ask(Check);
    }
    ask_everything(&mut questioning, random);
    Listings::new("small".to_string(), table, tally).list_around(random, |whole| [whole, whole.saturating_sub(1)]);
}

#[test]
fn every_small_table() {
    let (mut tally, random) = (Tally::default(), Random::of(0x5000_0000, 0));
    for (variables, most, children) in [(1, 5, 2), (1, 4, 3), (2, 4, 3), (3, 4, 2)] {
        every_table(variables, &[], most, children, &mut |table| every_operation(table, &random, &mut tally));
    }
    tally.expect(&[
        ("check", &[(0, 5_000), (23, 50_000), (24, 5_000), (25, 1_000)]),
        ("list", &[(0, 6), (1, 5_000), (2, 200), (42, 5_000), (56, 1_000), (57, 1_000)]),
        ("list_negation", &[(0, 1_000), (1, 5_000), (42, 5_000), (56, 1_000)]),
    ]);
}

/// Every conjunction of two to eight of a few nodes.
#[test]
fn every_conjunction() {
    let (mut tally, random) = (Tally::default(), Random::of(0x5100_0000, 0));
    let pick = || Node::Pick(2, 0, 1);
    for first in [
        vec![Node::True, Node::Yes(0), Node::No(1)],
        vec![Node::True, Node::Yes(0), pick()],
        vec![Node::Yes(0), Node::Yes(1), pick()],
        vec![Node::Yes(0), Node::True, Node::No(0)],
        vec![Node::False, Node::True, pick()],
    ] {
        for children in (2..=MOST_CHILDREN).flat_map(|number| every_children(first.len() as u32, number)) {
            let table = Table::of(3, &[first.as_slice(), &[Node::Both(children)]].concat());
            every_operation(&table, &random, &mut tally);
        }
    }
    tally.expect(&[
        ("check", &[(0, 100), (23, 1_000), (24, 10_000), (25, 1_000)]),
        ("list", &[(1, 100), (42, 100), (57, 20)]),
        ("list_negation", &[(1, 100), (42, 100)]),
    ]);
}
