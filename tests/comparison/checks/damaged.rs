//! Damaged tables and noise: the check, and that every operation refuses by it and leaves the buffers as the paper says.

use super::questions::Questioning;
use crate::cases::listings::Listing;
use crate::cases::partials::Partial;
use crate::cases::questions::Asked;
use crate::cases::questions::Question::{Check, Count};
use crate::cases::walks::Walk;
use crate::cases::writings::Writing;
use crate::circuits;
use crate::compare::compare;
use crate::damage;
use crate::oracle::function::{Listed, Term};
use crate::oracle::table::{Node, Table, MOST_CHILDREN, NODE_WORDS};
use crate::pairs;
use crate::partials;
use crate::random::Random;
use crate::scripts;
use crate::tally::Tally;
use crate::weights;

/// Any mask, mostly one within the variables.
fn mask(random: &Random, table: &Table) -> u64 {
    match random.below(6) {
        0 => random.next(),
        1 => 0,
        _ => random.next() & ((1u64.checked_shl(table.variables).unwrap_or(0)).wrapping_sub(1)),
    }
}

/// All operations on one table, with any arguments.
fn every_operation(origin: &str, random: &Random, table: &Table, tally: &mut Tally) {
    let mut questioning = Questioning::new(origin.to_string(), table, tally);
    questioning.ask(Check);
    questioning.ask(Count);
    let assignment = mask(random, table);
    questioning.ask_assignment(assignment);
    let other = mask(random, table) & if random.once_in(4) { u64::MAX } else { !assignment };
    questioning.ask_row(assignment, other);
    let term = Term { positive: assignment, negative: other };
    let mut measurements = partials::measurements(random, term, table.variables);
    if random.once_in(2) {
        partials::damage(random, &mut measurements, term, table.variables);
    }
    compare(origin, &Partial { table: table.clone(), term, measurements }, tally);
    let capacity: u32 = if random.once_in(100) { 4097 } else { random.choose(&[0, 1, 3, 20, 100]) };
    let rows = (table.nodes as usize).min(60) * capacity as usize;
    let longer = random.position(3);
    let lengths =
        random.choose(&[[rows + longer, rows, (table.nodes as usize).min(60)], [rows, rows + longer, 70], [0, 0, 0], [9, 8, 7]]);
    let weights = || weights::any(random, table.variables.min(64));
    let shown = random.choose(&[capacity, capacity, capacity, capacity.saturating_sub(1)]) as usize;
    for listed in Listed::BOTH {
        let listing = Listing::new(listed, table.clone(), &weights(), capacity, lengths, random.next());
        let pairs = pairs::any(random, table.variables.min(64), &[term]);
        compare(origin, &listing.with_pairs(pairs).with_shown([shown, shown + longer]), tally);
    }
    let sink = random.choose(&[0, 40, 400, 4_000, random.position(300)]);
    compare(origin, &Writing::new(table.clone(), sink), tally);
    let mut steps = scripts::steps(random, table.variables.clamp(1, 64), term, random.choose(&[0, 1, 2, 5, 257]));
    if random.once_in(2) {
        scripts::damage(random, &mut steps, table.variables.clamp(1, 64));
    }
    let [positives, negatives, counts] = lengths;
    let lengths = [positives, negatives, counts, random.choose(&[steps.len(), steps.len(), 3]), steps.len() + longer];
    compare(origin, &Walk { table: table.clone(), weights: weights(), capacity, steps, lengths, noise: random.next() }, tally);
}

#[test]
fn damaged_tables() {
    let mut tally = Tally::default();
    for seed in 0..40_000 {
        let random = Random::of(0xc000_0000, seed);
        let table = damage::table(&random);
        every_operation(&format!("damaged, seed {seed}"), &random, &table, &mut tally);
    }
    let refusals: &[(u32, u64)] = &[(21, 1_000), (22, 3_000), (23, 3_000), (24, 1_000), (25, 200)];
    let operations = ["check", "evaluate", "partial", "count", "implies", "prime", "reduce", "list", "list_negation", "walk"];
    tally.expect(&operations.map(|operation| (operation, refusals)));
    tally.expect(&[
        ("check", &[(0, 5_000)]),
        ("evaluate", &[(0, 500), (1, 500), (31, 200)]),
        ("partial", &[(0, 200), (1, 200), (2, 200), (32, 200), (53, 500)]),
        ("prime", &[(0, 500), (1, 50), (32, 200)]),
        ("reduce", &[(1, 500), (31, 200), (33, 500)]),
        ("list", &[(1, 500), (2, 30), (41, 500), (42, 500), (56, 500), (57, 700)]),
        ("list_negation", &[(0, 500), (1, 500), (41, 500), (42, 500), (56, 500)]),
        ("walk", &[(0, 200), (1, 50), (41, 500), (42, 200), (54, 1_000), (55, 200), (56, 200)]),
        ("write", &[(1, 5_000), (16, 5_000), (21, 1_000), (22, 3_000)]),
    ]);
}

/// Puts a fault, or none, at one of the last nodes of a chain.
fn damage_far_end(random: &Random, nodes: &mut [Node]) {
    let end = nodes.len() - random.position(9) - 2;
    let last = end as u32;
    let next = nodes[end + 1].clone();
    // A conjunction of these among `true`s.
    let both = |children: &[u32]| {
        let mut all = vec![0; circuits::number_of_children(random)];
        all[..children.len()].copy_from_slice(children);
        random.shuffle(&mut all);
        Node::Both(all)
    };
    (nodes[end], nodes[end + 1]) = match random.below(8) {
        0 => (both(&[last]), next),
        1 => (Node::Yes(40), next),
        2 => (Node::Pick(39, last - 1, last - 1), both(&[last, last])),
        3 => (Node::False, next),
        4 => (Node::False, both(&[last - 1, last])),
        5 => (Node::Pick(39, last - 1, last - 1), both(&[last])),
        _ => (nodes[end].clone(), next),
    };
}

/// Tables of the most nodes and of one more; the fault, if any, at the far end.
#[test]
fn largest_tables() {
    let mut tally = Tally::default();
    for seed in 0..300 {
        let random = Random::of(0xc100_0000, seed);
        let count = random.between(1021, 1026) as u32;
        let mut nodes = vec![Node::True];
        (1..count).for_each(|index| nodes.push(Node::Both(vec![index - 1, random.below(u64::from(index)) as u32])));
        damage_far_end(&random, &mut nodes);
        every_operation(&format!("largest, seed {seed}"), &random, &Table::of(40, &nodes), &mut tally);
    }
    tally.expect(&[("check", &[(0, 30), (21, 50), (22, 20), (23, 10), (24, 10), (25, 10)]), ("write", &[(16, 50), (21, 50), (22, 20)])]);
}

/// The check and the writer on one table.
fn check_and_write(origin: &str, table: &Table, tally: &mut Tally) {
    compare(origin, &Asked::new(table.clone(), Check), tally);
    compare(origin, &Writing::new(table.clone(), 2_000), tally);
}

/// A node of that kind over that many children, right or not, and how many nodes are below it.
fn children_below(kind: u32, number: u32) -> (u32, Table) {
    let most = MOST_CHILDREN as u32;
    let below = number.min(most + 1);
    let mut words: Vec<u32> = (0..below).flat_map(|variable| Node::Yes(variable).encode()).collect();
    words.extend([kind, if (2..=4).contains(&kind) { 10 } else { 0 }, number]);
    words.extend((0..most).map(|child| if child < below { child } else { 0 }));
    (below, Table { variables: 11, nodes: below + 1, words })
}

/// Every kind with every number of children, and then with every word changed in turn: unused words, variables and children at and
/// past their limits.
#[test]
fn every_word_of_a_node() {
    let mut tally = Tally::default();
    for kind in 0..=6 {
        for number in (0..=10).chain([16, 255, 256 + 2, 1 << 16 | 2, 1 << 31 | 2, u32::MAX]) {
            let (below, table) = children_below(kind, number);
            let start = NODE_WORDS * below as usize;
            check_and_write("words of a node", &table, &mut tally);
            for place in 0..NODE_WORDS {
                for word in [0, 1, below.saturating_sub(1), below, below + 1, 10, 11, 256, 1 << 31, u32::MAX] {
                    let mut changed = table.clone();
                    changed.words[start + place] = word;
                    check_and_write("words of a node", &changed, &mut tally);
                }
            }
        }
    }
    tally.expect(&[("check", &[(0, 200), (22, 10_000), (23, 50), (24, 5)]), ("write", &[(1, 300), (22, 10_000)])]);
}

/// Some nodes, and a conjunction of children among them.
fn conjunction_with(below: &[Node], children: Vec<u32>) -> Table {
    Table::of(40, &[below, &[Node::Both(children)]].concat())
}

/// A conjunction of each number of children, with a fault at every place or at every two of them, and without one.
#[test]
fn every_two_children() {
    let mut tally = Tally::default();
    for number in 2..=MOST_CHILDREN {
        let literals: Vec<Node> = (0..number as u32).map(Node::Yes).collect();
        let own: Vec<u32> = (0..number as u32).collect();
        let mut see = |below: &[Node], children: Vec<u32>, expected: u32| {
            let table = conjunction_with(below, children);
            assert_eq!(table.check().map_or_else(|refusal| refusal.number, |_| 0), expected, "{table:?}");
            compare("two children", &Asked::new(table, Check), &mut tally);
        };
        see(&literals, own.clone(), 0);
        for place in 0..number {
            let with = |node: Node| [&literals[..place], &[node], &literals[place + 1..]].concat();
            see(&with(Node::False), own.clone(), 25);
            see(&with(Node::True), own.clone(), 0);
            for other in (0..number).filter(|&other| other != place) {
                let same = other as u32;
                see(&with(Node::No(same)), own.clone(), 24);
                // One node in two places: with the literal that stood there, nobody's child now; without it; and with no variable.
                let mut twice = own.clone();
                twice[place] = same;
                see(&literals, twice.clone(), 23);
                let mut fewer = [&literals[..place], &literals[place + 1..]].concat();
                twice.iter_mut().for_each(|child| *child -= u32::from(*child > place as u32));
                see(&fewer, twice.clone(), 24);
                fewer[twice[place] as usize] = Node::True;
                see(&fewer, twice, 0);
            }
        }
    }
    tally.expect(&[("check", &[(0, 200), (23, 150), (24, 300), (25, 30)])]);
}
