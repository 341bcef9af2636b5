//! Circuits as node tables: kind, variable, number of children and eight children a node, children before parents.
use quelbrift::{Table, NODE_WORDS};
use std::collections::HashMap;

/// The words of a node.
pub type Node = [u32; NODE_WORDS];

/// The words of a node of a kind over a variable, or 0, with some children.
fn node(kind: u32, x: u32, children: &[u32]) -> Node {
    let mut words = [0; NODE_WORDS];
    words[..3].copy_from_slice(&[kind, x, children.len() as u32]);
    words[3..3 + children.len()].copy_from_slice(children);
    words
}

/// A table under construction; the last node made is the whole circuit.
pub struct Circuit {
    pub words: Vec<u32>,
    pub variables: u32,
    made: HashMap<Node, u32>,
}

impl Circuit {
    pub fn new(variables: u32) -> Self {
        Circuit { words: Vec::new(), variables, made: HashMap::new() }
    }

    pub fn nodes(&self) -> usize {
        self.words.len() / NODE_WORDS
    }

    /// The table as it is lent to the engine.
    pub fn table(&self) -> Table<'_> {
        Table { words: &self.words, variables: self.variables, nodes: self.nodes() as u32 }
    }

    /// A new node, even where one with the same words is there.
    fn fresh(&mut self, node: Node) -> u32 {
        let number = self.nodes() as u32;
        self.words.extend(node);
        number
    }

    /// The node with these words, made once.
    fn shared(&mut self, node: Node) -> u32 {
        if let Some(&number) = self.made.get(&node) {
            return number;
        }
        let number = self.fresh(node);
        self.made.insert(node, number);
        number
    }

    pub fn constant(&mut self, value: bool) -> u32 {
        self.shared(node(u32::from(value), 0, &[]))
    }

    pub fn positive(&mut self, x: u32) -> u32 {
        self.shared(node(2, x, &[]))
    }

    pub fn negative(&mut self, x: u32) -> u32 {
        self.shared(node(3, x, &[]))
    }

    /// a where x is false, b where it is true.
    pub fn decision(&mut self, x: u32, a: u32, b: u32) -> u32 {
        self.shared(node(4, x, &[a, b]))
    }

    /// A decision of its own, not shared with an equal one.
    pub fn fresh_decision(&mut self, x: u32, a: u32, b: u32) -> u32 {
        self.fresh(node(4, x, &[a, b]))
    }

    pub fn conjunction(&mut self, a: u32, b: u32) -> u32 {
        self.conjunction_of(&[a, b])
    }

    /// One conjunction of two to eight nodes of disjoint variables.
    pub fn conjunction_of(&mut self, parts: &[u32]) -> u32 {
        self.shared(node(5, 0, parts))
    }

    /// The conjunction of one or more nodes of disjoint variables, as a chain of conjunctions of two.
    pub fn all(&mut self, parts: &[u32]) -> u32 {
        let mut whole = parts[0];
        for &part in &parts[1..] {
            whole = self.conjunction(whole, part);
        }
        whole
    }

    /// At least k of the variables are true, as an ordered decision diagram with literals at its ends.
    pub fn at_least(&mut self, k: usize, variables: &[u32]) -> u32 {
        if k == 0 || k > variables.len() {
            return self.constant(k == 0);
        }
        let (x, rest) = (variables[0], &variables[1..]);
        if rest.is_empty() {
            return self.positive(x);
        }
        let low = self.at_least(k, rest);
        let high = self.at_least(k - 1, rest);
        self.decision(x, low, high)
    }

    /// At least k of the variables are true, or the node is; the variables are not in the node.
    pub fn at_least_or(&mut self, k: usize, variables: &[u32], node: u32) -> u32 {
        if k == 0 {
            return self.constant(true);
        }
        if k > variables.len() {
            return node;
        }
        let (x, rest) = (variables[0], &variables[1..]);
        let low = self.at_least_or(k, rest, node);
        let high = self.at_least_or(k - 1, rest, node);
        self.decision(x, low, high)
    }

    /// Some term is true: masks of variables, none inside another, the variables of `negatives` with negative literals; as an ordered
    /// decision diagram, or none where the table comes to have more than some nodes.
    pub fn some_of(&mut self, masks: &[u64], negatives: u64, most: usize) -> Option<u32> {
        let mut sorted = masks.to_vec();
        sorted.sort_unstable();
        self.some_of_sorted(sorted, negatives, most, &mut HashMap::new())
    }

    fn some_of_sorted(&mut self, masks: Vec<u64>, negatives: u64, most: usize, made: &mut HashMap<Vec<u64>, u32>) -> Option<u32> {
        if let Some(&number) = made.get(&masks) {
            return Some(number);
        }
        let all = masks.iter().fold(0, |all, mask| all | mask);
        if all == 0 {
            return Some(self.constant(!masks.is_empty()));
        }
        let (x, bit) = (all.trailing_zeros(), all & all.wrapping_neg());
        let is_negative = negatives & bit != 0;
        let number = if masks == [bit] {
            self.shared(node(2 + u32::from(is_negative), x, &[]))
        } else {
            let (with, without) = cofactors(&masks, bit);
            let with = self.some_of_sorted(with, negatives, most, made)?;
            let without = self.some_of_sorted(without, negatives, most, made)?;
            let (low, high) = if is_negative { (with, without) } else { (without, with) };
            self.decision(x, low, high)
        };
        made.insert(masks, number);
        (self.nodes() <= most).then_some(number)
    }
}

/// The least masks where a variable's literal is true, and where it is false; all sorted.
fn cofactors(masks: &[u64], bit: u64) -> (Vec<u64>, Vec<u64>) {
    let (with, without): (Vec<u64>, Vec<u64>) = masks.iter().partition(|&mask| mask & bit != 0);
    let mut either: Vec<u64> = with.iter().map(|mask| mask ^ bit).collect();
    let others: Vec<u64> = without.iter().copied().filter(|mask| !either.iter().any(|inside| inside & !mask == 0)).collect();
    either.extend(others);
    either.sort_unstable();
    (either, without)
}
