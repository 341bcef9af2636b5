//! Smaller tables, texts, weights, pairs and numbers, for small reproducers.

use crate::oracle::pairs::Pairs;
use crate::oracle::table::{Table, MOST_CHILDREN, NODE_WORDS};
use std::ops::Range;

/// Smaller numbers: 0, the half, one less.
pub fn numbers(number: u64) -> Vec<u64> {
    let mut smaller = vec![0, number / 2, number.saturating_sub(1)];
    smaller.retain(|&candidate| candidate < number);
    smaller.dedup();
    smaller
}

/// Smaller masks: without one of their bits; with the highest one moved down.
pub fn masks(mask: u64) -> Vec<u64> {
    let without = (0..64).filter(|bit| mask >> bit & 1 == 1).map(|bit| mask & !(1 << bit));
    without.chain([mask >> 1]).filter(|&candidate| candidate < mask).collect()
}

/// The slices of a list of that length: all of it, the halves, the quarters, ... each item.
fn slices(whole: usize) -> Vec<Range<usize>> {
    let mut slices = vec![];
    let mut length = whole;
    while length > 0 {
        slices.extend((0..=whole - length).step_by(length).map(|start| start..start + length));
        length /= 2;
    }
    slices
}

/// The list without a slice, as far as it has it.
fn without<T: Clone>(list: &[T], slice: &Range<usize>) -> Vec<T> {
    [&list[..slice.start.min(list.len())], &list[slice.end.min(list.len())..]].concat()
}

/// Shorter lists: without a slice.
pub fn lists<T: Clone>(list: &[T]) -> Vec<Vec<T>> {
    slices(list.len()).iter().map(|slice| without(list, slice)).collect()
}

/// Smaller weights: all 0, fewer of them, lower ones.
pub fn weights(weights: &[u32]) -> Vec<Vec<u32>> {
    let mut smaller = vec![];
    if weights.iter().any(|&weight| weight > 0) {
        smaller.push(vec![0; weights.len()]);
    }
    smaller.extend(lists(weights));
    for (index, &weight) in weights.iter().enumerate() {
        for lower in numbers(u64::from(weight)) {
            let mut changed = weights.to_vec();
            changed[index] = lower as u32;
            smaller.push(changed);
        }
    }
    smaller
}

/// The weights for a smaller table: fewer by as many as it has fewer variables, so that a list stays right, or as wrong as it was.
pub fn weights_for(smaller: &Table, table: &Table, weights: &[u32]) -> Vec<u32> {
    let fewer = table.variables.saturating_sub(smaller.variables) as usize;
    weights[..weights.len().saturating_sub(fewer)].to_vec()
}

/// The table over one variable fewer, with the weights but one.
pub fn without_variable(table: &Table, weights: &[u32]) -> Vec<(Table, Vec<u32>)> {
    let fewer = || Table { variables: table.variables.saturating_sub(1), ..table.clone() };
    (0..weights.len()).map(|index| (fewer(), [&weights[..index], &weights[index + 1..]].concat())).collect()
}

/// Up to so many pairs are made lower one by one.
const FEW_PAIRS: usize = 50;

/// Smaller pairs: fewer of them, lower variables.
pub fn pairs(pairs: &Pairs) -> Vec<Pairs> {
    let Pairs { firsts, seconds } = pairs;
    let mut smaller: Vec<Pairs> =
        slices(pairs.longest()).iter().map(|slice| Pairs { firsts: without(firsts, slice), seconds: without(seconds, slice) }).collect();
    for (index, (first, second)) in (0..pairs.longest().min(FEW_PAIRS)).filter_map(|index| Some((index, pairs.entry(index)?))) {
        let mut change = |first: u32, second: u32| {
            let mut changed = pairs.clone();
            (changed.firsts[index], changed.seconds[index]) = (first, second);
            smaller.push(changed);
        };
        numbers(u64::from(first)).iter().for_each(|&lower| change(lower as u32, second));
        numbers(u64::from(second)).iter().for_each(|&lower| change(first, lower as u32));
    }
    smaller
}

/// Shorter texts, and texts with a lower digit.
pub fn texts(text: &[u8]) -> Vec<Vec<u8>> {
    let mut smaller = lists(text);
    for place in (0..text.len()).filter(|&place| (b'1'..=b'9').contains(&text[place])) {
        let mut lower = text.to_vec();
        lower[place] = b'0';
        smaller.push(lower.clone());
        lower[place] = text[place] - 1;
        smaller.push(lower);
    }
    smaller
}

/// The table without one node; what pointed to it points to another one, and the numbers above it fall by one.
fn without_node(table: &Table, removed: u32, instead: u32) -> Table {
    let mut words = vec![];
    for (index, node) in table.words.chunks(NODE_WORDS).enumerate().filter(|(index, _)| *index != removed as usize) {
        let kept = index < table.nodes as usize;
        let renumber = |child: u32| match child {
            _ if child == removed => instead,
            _ if child > removed && kept => child - 1,
            _ => child,
        };
        let start = words.len();
        words.extend(node);
        if node.len() == NODE_WORDS {
            words[start + 3..][..children(node)].iter_mut().for_each(|child| *child = renumber(*child));
        }
    }
    Table { nodes: table.nodes - 1, words, ..*table }
}

/// How many of the words of a node are used children.
fn children(node: &[u32]) -> usize {
    (node[2] as usize).min(MOST_CHILDREN)
}

/// The node without one of its children; those after it move down.
fn without_child(node: &[u32], place: usize) -> Vec<u32> {
    let mut fewer = node.to_vec();
    fewer.remove(3 + place);
    fewer.push(0);
    fewer[2] -= 1;
    fewer
}

fn without_nodes(table: &Table) -> Vec<Table> {
    let mut smaller = vec![];
    let whole = (table.nodes as usize).min(table.words.len() / NODE_WORDS) as u32;
    for nodes in numbers(u64::from(whole)) {
        smaller.push(Table { nodes: nodes as u32, ..table.clone() });
    }
    for removed in (0..whole).rev() {
        let start = NODE_WORDS * removed as usize;
        let below = removed.saturating_sub(1);
        for instead in [table.words[start + 3], table.words[start + 4], below, 0] {
            smaller.push(without_node(table, removed, instead));
        }
    }
    smaller
}

/// Smaller tables: fewer words, fewer nodes, fewer variables, simpler nodes, lower words.
pub fn tables(table: &Table) -> Vec<Table> {
    let needed = (NODE_WORDS * table.nodes as usize).min(table.words.len());
    let mut smaller = vec![];
    if table.words.len() > needed {
        smaller.push(Table { words: table.words[..needed].to_vec(), ..table.clone() });
    }
    smaller.extend(without_nodes(table));
    for variables in numbers(u64::from(table.variables)) {
        smaller.push(Table { variables: variables as u32, ..table.clone() });
    }
    for nodes in numbers(u64::from(table.nodes)) {
        smaller.push(Table { nodes: nodes as u32, ..table.clone() });
    }
    let mut change = |start: usize, new: &[u32]| {
        let mut words = table.words.clone();
        words[start..start + new.len()].copy_from_slice(new);
        smaller.push(Table { words, ..table.clone() });
    };
    for start in (0..needed / NODE_WORDS).map(|node| NODE_WORDS * node) {
        let node = &table.words[start..][..NODE_WORDS];
        if node[0] > 1 {
            let mut simple = [0; NODE_WORDS];
            simple[0] = 1;
            change(start, &simple);
        }
        (0..children(node)).for_each(|place| change(start, &without_child(node, place)));
    }
    for index in 0..table.words.len() {
        numbers(u64::from(table.words[index])).iter().for_each(|&lower| change(index, &[lower as u32]));
    }
    smaller
}
