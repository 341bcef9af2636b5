//! The nodes of diagrams of one kind, each made once.
use super::hash::hash;

/// More nodes than this of one kind are too many.
const MOST_NODES: usize = 5_000_000;

/// Too many nodes.
pub struct Over;

/// The constants of a diagram: the empty set and the set of the empty term, the functions false and true.
pub const ZERO: u32 = 0;
pub const ONE: u32 = 1;
/// The level of the constants, below all others.
const BOTTOM: u32 = u32::MAX;

/// A node: its level, and what is below it where the variable is false or the literal is not in the term, and where it is.
#[derive(Clone, Copy, PartialEq)]
pub struct Node {
    pub level: u32,
    pub low: u32,
    pub high: u32,
}

/// The nodes of one kind, each made once; a slot holds the number of a node, or 0.
pub struct Nodes {
    nodes: Vec<Node>,
    slots: Vec<u32>,
}

impl Nodes {
    pub fn new() -> Self {
        let constant = Node { level: BOTTOM, low: 0, high: 0 };
        Nodes { nodes: vec![constant; 2], slots: vec![0; 256] }
    }

    pub fn count(&self) -> usize {
        self.nodes.len()
    }

    pub fn at(&self, f: u32) -> Node {
        self.nodes[f as usize]
    }

    pub fn level(&self, f: u32) -> u32 {
        self.at(f).level
    }

    /// The slot of a node, or the free one for it.
    fn slot(&self, node: Node) -> usize {
        let mask = self.slots.len() - 1;
        let mut at = hash(node.low, node.high, node.level) & mask;
        while self.slots[at] != 0 && self.at(self.slots[at]) != node {
            at = (at + 1) & mask;
        }
        at
    }

    pub fn make(&mut self, node: Node) -> Result<u32, Over> {
        let at = self.slot(node);
        if self.slots[at] != 0 {
            return Ok(self.slots[at]);
        }
        if self.nodes.len() == MOST_NODES {
            return Err(Over);
        }
        let number = self.nodes.len() as u32;
        self.nodes.push(node);
        self.slots[at] = number;
        if 2 * self.nodes.len() > self.slots.len() {
            self.grow();
        }
        Ok(number)
    }

    fn grow(&mut self) {
        self.slots = vec![0; 4 * self.slots.len()];
        for number in 2..self.nodes.len() as u32 {
            let at = self.slot(self.at(number));
            self.slots[at] = number;
        }
    }
}
