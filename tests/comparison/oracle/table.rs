//! The node table: decoding, encoding and the check (21 to 25).

use super::{refused, Refused};

/// The words of a node: kind, variable, number of children, and as many children as a `both` may have.
pub const NODE_WORDS: usize = 3 + MOST_CHILDREN;
pub const MOST_CHILDREN: usize = 8;
pub const MOST_NODES: usize = 1_024;

/// A table as it is lent, good or bad. The words past the nodes are not read.
#[derive(Clone, Debug, PartialEq, Eq)]
pub struct Table {
    pub variables: u32,
    pub nodes: u32,
    pub words: Vec<u32>,
}

#[derive(Clone, Debug, PartialEq, Eq)]
pub enum Node {
    False,
    True,
    Yes(u32),
    No(u32),
    /// The variable, the child where it is false, the child where it is true.
    Pick(u32, u32, u32),
    /// Two to eight children.
    Both(Vec<u32>),
}

impl Node {
    pub fn children(&self) -> Vec<u32> {
        match self {
            Node::Pick(_, a, b) => vec![*a, *b],
            Node::Both(children) => children.clone(),
            _ => vec![],
        }
    }

    /// The variable that is named at the node.
    pub fn variable(&self) -> Option<u32> {
        match self {
            Node::Yes(variable) | Node::No(variable) | Node::Pick(variable, _, _) => Some(*variable),
            _ => None,
        }
    }

    /// The same node over renamed variables and renumbered children.
    pub fn renamed(&self, variable: impl Fn(u32) -> u32, child: impl Fn(u32) -> u32) -> Node {
        match self {
            Node::False => Node::False,
            Node::True => Node::True,
            Node::Yes(v) => Node::Yes(variable(*v)),
            Node::No(v) => Node::No(variable(*v)),
            Node::Pick(v, a, b) => Node::Pick(variable(*v), child(*a), child(*b)),
            Node::Both(children) => Node::Both(children.iter().map(|&old| child(old)).collect()),
        }
    }

    pub fn encode(&self) -> [u32; NODE_WORDS] {
        let kind = match self {
            Node::False => 0,
            Node::True => 1,
            Node::Yes(_) => 2,
            Node::No(_) => 3,
            Node::Pick(..) => 4,
            Node::Both(_) => 5,
        };
        let children = self.children();
        let mut words = [0; NODE_WORDS];
        words[..3].copy_from_slice(&[kind, self.variable().unwrap_or(0), children.len() as u32]);
        words[3..3 + children.len()].copy_from_slice(&children);
        words
    }

    /// The node that its words mean; none where the kind is above 5, does not allow the number of children, or leaves a word unused
    /// that is not 0.
    fn decode(words: &[u32]) -> Option<Node> {
        let (used, unused) = words[3..].split_at_checked(words[2] as usize)?;
        if unused.iter().any(|&word| word != 0) {
            return None;
        }
        match (words[0], words[1], used) {
            (0, 0, []) => Some(Node::False),
            (1, 0, []) => Some(Node::True),
            (2, variable, []) => Some(Node::Yes(variable)),
            (3, variable, []) => Some(Node::No(variable)),
            (4, variable, &[a, b]) => Some(Node::Pick(variable, a, b)),
            (5, 0, [_, _, ..]) => Some(Node::Both(used.to_vec())),
            _ => None,
        }
    }
}

/// The variables under each node: those named at it or below it.
pub fn supports(nodes: &[Node]) -> Vec<u64> {
    let mut supports: Vec<u64> = vec![];
    for node in nodes {
        let own = node.variable().map_or(0, |variable| 1 << variable);
        supports.push(node.children().iter().fold(own, |mask, &child| mask | supports[child as usize]));
    }
    supports
}

/// The nodes that the last one needs, renumbered.
pub fn reachable(nodes: &[Node]) -> Vec<Node> {
    let mut needed = vec![false; nodes.len()];
    needed[nodes.len() - 1] = true;
    for index in (0..nodes.len()).rev() {
        if needed[index] {
            nodes[index].children().iter().for_each(|&child| needed[child as usize] = true);
        }
    }
    let kept: Vec<usize> = (0..nodes.len()).filter(|&index| needed[index]).collect();
    in_order(nodes, &kept)
}

/// The nodes at these positions, in this order, with their children renumbered.
pub fn in_order(nodes: &[Node], order: &[usize]) -> Vec<Node> {
    let mut places = vec![0; nodes.len()];
    order.iter().enumerate().for_each(|(place, &index)| places[index] = place as u32);
    order.iter().map(|&index| nodes[index].renamed(|variable| variable, |child| places[child as usize])).collect()
}

/// 23 for each node: not the last, and nobody's child.
fn parentless(nodes: &[Node]) -> Vec<bool> {
    let mut parentless = vec![true; nodes.len()];
    parentless[nodes.len() - 1] = false;
    for child in nodes.iter().flat_map(|node| node.children()) {
        parentless[child as usize] = false;
    }
    parentless
}

/// 24 for a node: a variable that meets itself.
fn undecomposable(node: &Node, supports: &[u64]) -> bool {
    let under = |child: u32| supports[child as usize];
    match node {
        Node::Pick(variable, a, b) => (under(*a) | under(*b)) >> variable & 1 == 1,
        Node::Both(children) => {
            let meets_an_earlier_one = |place: usize| children[..place].iter().any(|&other| under(other) & under(children[place]) != 0);
            (0..children.len()).any(meets_an_earlier_one)
        }
        _ => false,
    }
}

/// 25 for a node: a `both` with a `false` child, or a `pick` with two.
fn unreduced(nodes: &[Node], node: &Node) -> bool {
    let is_false = |child: u32| nodes[child as usize] == Node::False;
    match node {
        Node::Pick(_, a, b) => is_false(*a) && is_false(*b),
        Node::Both(children) => children.iter().any(|&child| is_false(child)),
        _ => false,
    }
}

impl Table {
    pub fn new(variables: u32, nodes: u32, words: &[u32]) -> Table {
        Table { variables, nodes, words: words.to_vec() }
    }

    pub fn of(variables: u32, nodes: &[Node]) -> Table {
        Table { variables, nodes: nodes.len() as u32, words: nodes.iter().flat_map(|node| node.encode()).collect() }
    }

    /// The nodes of a well-formed table: 21, then 22 with the lowest node.
    pub fn well_formed(&self) -> Result<Vec<Node>, Refused> {
        let in_range = (1..=40).contains(&self.variables) && (1..=MOST_NODES).contains(&(self.nodes as usize));
        if !in_range || self.words.len() < NODE_WORDS * self.nodes as usize {
            return refused(21, 0);
        }
        (0..self.nodes).map(|index| self.node(index).ok_or(Refused { number: 22, place: u64::from(index) })).collect()
    }

    /// One node, where its variable is below the number of variables and its children are below it.
    fn node(&self, index: u32) -> Option<Node> {
        let start = NODE_WORDS * index as usize;
        let node = Node::decode(&self.words[start..start + NODE_WORDS])?;
        let children_below = node.children().iter().all(|&child| child < index);
        (node.variable().is_none_or(|variable| variable < self.variables) && children_below).then_some(node)
    }

    /// The nodes of an accepted table: 21 to 25 in that order, each with its lowest node.
    pub fn check(&self) -> Result<Vec<Node>, Refused> {
        let nodes = self.well_formed()?;
        let (supports, parentless) = (supports(&nodes), parentless(&nodes));
        let lowest = |number: u32, fault: &dyn Fn(usize) -> bool| match (0..nodes.len()).find(|&index| fault(index)) {
            Some(index) => refused(number, index as u64),
            None => Ok(()),
        };
        lowest(23, &|index| parentless[index])?;
        lowest(24, &|index| undecomposable(&nodes[index], &supports))?;
        lowest(25, &|index| unreduced(&nodes, &nodes[index]))?;
        Ok(nodes)
    }
}
