//! Tables that are nearly accepted, and noise.

use crate::circuits;
use crate::oracle::table::{reachable, Node, Table, MOST_CHILDREN, NODE_WORDS};
use crate::random::Random;

/// A number that is likely to lie at some limit of the table.
fn telling(random: &Random, table: &Table) -> u32 {
    let (variables, nodes) = (table.variables, table.nodes);
    let limits = [0, 1, 2, 3, 4, 5, 6, 7, 31, 32, 39, 40, 41, 63, 64, 255, 1023, 1024, 1025, 1 << 30, 1 << 31, u32::MAX];
    match random.below(4) {
        0 => random.choose(&limits),
        1 => random.choose(&[variables, variables.wrapping_sub(1), variables.wrapping_add(1)]),
        2 => random.choose(&[nodes, nodes.wrapping_sub(1), nodes.wrapping_add(1)]),
        _ => random.below(u64::from(nodes.max(1))) as u32,
    }
}

/// Changes one word, at times to one near it, or one of the bits of it.
fn change_word(random: &Random, table: &mut Table) {
    if table.words.is_empty() {
        return;
    }
    let index = random.position(table.words.len());
    let word = table.words[index];
    table.words[index] = match random.below(6) {
        0 => word.wrapping_add(1),
        1 => word.wrapping_sub(1),
        2 => word ^ (1 << random.below(32)),
        3 => random.next() as u32,
        _ => telling(random, table),
    };
}

/// Changes the number of children of a node, or the word of one of its children, used or not.
fn change_children(random: &Random, table: &mut Table) {
    let nodes = table.words.len() / NODE_WORDS;
    if nodes == 0 {
        return;
    }
    let (node, place) = (random.position(nodes), 2 + random.position(1 + MOST_CHILDREN));
    let number = node as u32;
    table.words[NODE_WORDS * node + place] = match place {
        2 => random.choose(&[0, 1, 2, 3, 7, 8, 9, 10, 258, 1 << 16 | 2, 1 << 31, u32::MAX]),
        _ => random.choose(&[0, 1, number.wrapping_sub(1), number, number + 1, telling(random, table)]),
    };
}

/// Changes a child to another node below, adds or drops one, or changes a variable to another one: the table stays well-formed.
fn change_child(random: &Random, table: &mut Table) {
    let Ok(mut nodes) = table.well_formed() else { return };
    let index = random.position(nodes.len());
    let other = random.below(index.max(1) as u64) as u32;
    let variable = random.below(u64::from(table.variables)) as u32;
    nodes[index] = match (nodes[index].clone(), random.once_in(2)) {
        (Node::Pick(v, _, b), true) => Node::Pick(v, other, b),
        (Node::Both(children), _) => Node::Both(changed(random, children, other)),
        (node, _) => node.renamed(|_| variable, |child| child),
    };
    table.words.splice(..NODE_WORDS * nodes.len(), nodes.iter().flat_map(|node| node.encode()));
}

/// The children with another one in the place of one of them, one more, or one less.
fn changed(random: &Random, mut children: Vec<u32>, other: u32) -> Vec<u32> {
    let place = random.position(children.len());
    match random.below(3) {
        0 if children.len() < MOST_CHILDREN => children.insert(place, other),
        1 if children.len() > 2 => drop(children.remove(place)),
        _ => children[place] = other,
    }
    children
}

/// Changes one node to another one that is well-formed in its place.
fn change_node(random: &Random, table: &mut Table) {
    let Ok(nodes) = table.well_formed() else { return };
    let index = random.position(nodes.len());
    let node = noise_node(random, table.variables, index as u32);
    table.words[NODE_WORDS * index..][..NODE_WORDS].copy_from_slice(&node.encode());
}

/// Changes N, n, or the number of words.
fn change_size(random: &Random, table: &mut Table) {
    match random.below(5) {
        0 => table.variables = telling(random, table),
        1 => table.nodes = telling(random, table),
        2 => table.nodes = table.nodes.wrapping_sub(1),
        3 => table.words.truncate((NODE_WORDS * table.nodes as usize).saturating_sub(1)),
        _ => table.words.truncate(random.position(table.words.len() + 1)),
    }
}

/// A well-formed node for that place.
fn noise_node(random: &Random, variables: u32, index: u32) -> Node {
    let variable = random.below(u64::from(variables)) as u32;
    let child = || random.below(u64::from(index.max(1))) as u32;
    match random.below(if index == 0 { 4 } else { 8 }) {
        0 => Node::False,
        1 => Node::True,
        2 => Node::Yes(variable),
        3 => Node::No(variable),
        4 | 5 => Node::Pick(variable, child(), child()),
        _ => Node::Both((0..circuits::number_of_children(random)).map(|_| child()).collect()),
    }
}

/// A well-formed table of noise.
pub fn noise(random: &Random, variables: u32, nodes: u64) -> Table {
    let nodes: Vec<Node> = (0..nodes).map(|index| noise_node(random, variables, index as u32)).collect();
    Table::of(variables, &nodes)
}

/// A well-formed table of noise without the nodes that are nobody's children.
pub fn connected(random: &Random, variables: u32, nodes: u64) -> Table {
    let nodes = noise(random, variables, nodes).well_formed().expect("well-formed");
    Table::of(variables, &reachable(&nodes))
}

/// A table that may be accepted or not: an accepted one with a few changes, or noise.
pub fn table(random: &Random) -> Table {
    let variables = if random.once_in(3) { random.between(1, 40) } else { random.between(1, 8) } as u32;
    let used = variables.min(6);
    let mut table = match random.below(8) {
        0 => noise(random, variables, random.between(1, 8)),
        1 | 2 => connected(random, variables, random.between(1, 12)),
        3 => circuits::table(random, used),
        _ => Table { variables, ..circuits::table(random, used) },
    };
    for _ in 0..random.choose(&[0, 1, 1, 1, 2, 4]) {
        match random.below(9) {
            0 | 1 => change_word(random, &mut table),
            2 | 8 => change_children(random, &mut table),
            3 | 4 => change_child(random, &mut table),
            5 | 6 => change_node(random, &mut table),
            _ => change_size(random, &mut table),
        }
    }
    table
}
