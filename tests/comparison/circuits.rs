//! Random tables that are accepted: every kind, conjunctions of two to eight, shared children, a child that serves twice, deep nesting,
//! constants.

use crate::oracle::table::{in_order, reachable, supports, Node, Table, MOST_CHILDREN};
use crate::random::Random;

/// The same circuit with its nodes in another order, children first.
pub fn reordered(random: &Random, nodes: &[Node]) -> Vec<Node> {
    let mut order: Vec<usize> = vec![];
    let mut placed = vec![false; nodes.len()];
    while order.len() < nodes.len() {
        let ready: Vec<usize> = (0..nodes.len())
            .filter(|&index| !placed[index] && nodes[index].children().iter().all(|&child| placed[child as usize]))
            .collect();
        let next = random.choose(&ready);
        placed[next] = true;
        order.push(next);
    }
    in_order(nodes, &order)
}

/// The same circuit over more variables, its own ones moved to other places.
pub fn scattered(random: &Random, nodes: &[Node], variables: u32) -> Vec<Node> {
    let mut places: Vec<u32> = (0..variables).collect();
    random.shuffle(&mut places);
    nodes.iter().map(|node| node.renamed(|variable| places[variable as usize], |child| child)).collect()
}

/// The same circuit with each conjunction as a chain of conjunctions of two; and for each node the one that it has become.
pub fn chained(random: &Random, nodes: &[Node]) -> (Vec<Node>, Vec<u32>) {
    let (mut chained, mut places): (Vec<Node>, Vec<u32>) = (vec![], vec![]);
    for node in nodes {
        match node.renamed(|variable| variable, |child| places[child as usize]) {
            Node::Both(children) => {
                let mut whole = children[0];
                for &child in &children[1..] {
                    chained.push(Node::Both(if random.once_in(2) { vec![whole, child] } else { vec![child, whole] }));
                    whole = chained.len() as u32 - 1;
                }
            }
            other => chained.push(other),
        }
        places.push(chained.len() as u32 - 1);
    }
    (chained, places)
}

/// A number of children of a `both`: two, one more, as many as there can be, or any.
pub fn number_of_children(random: &Random) -> usize {
    let any = 2 + random.position(MOST_CHILDREN - 1);
    random.choose(&[2, 2, 3, MOST_CHILDREN, any, any])
}

/// Builds a circuit from the top: each part gets the variables that it may name.
struct Builder<'a> {
    random: &'a Random,
    nodes: Vec<Node>,
}

impl Builder<'_> {
    fn push(&mut self, node: Node) -> u32 {
        self.nodes.push(node);
        self.nodes.len() as u32 - 1
    }

    /// A node that is there already and names allowed variables only.
    fn shared(&mut self, allowed: u64) -> Option<u32> {
        let supports = supports(&self.nodes);
        let fitting: Vec<u32> =
            (0..self.nodes.len()).filter(|&index| supports[index] & !allowed == 0).map(|index| index as u32).collect();
        (!fitting.is_empty()).then(|| self.random.choose(&fitting))
    }

    fn leaf(&mut self, allowed: u64) -> u32 {
        let node = match self.random.below(if allowed == 0 { 2 } else { 10 }) {
            0 => Node::False,
            1 => Node::True,
            even if even % 2 == 0 => Node::Yes(self.random.bit_of(allowed)),
            _ => Node::No(self.random.bit_of(allowed)),
        };
        self.push(node)
    }

    /// A part whose node is not `false`.
    fn satisfiable(&mut self, allowed: u64, depth: u32) -> u32 {
        let part = self.part(allowed, depth);
        match self.nodes[part as usize] {
            Node::False => self.push(Node::True),
            _ => part,
        }
    }

    fn part(&mut self, allowed: u64, depth: u32) -> u32 {
        if self.random.once_in(5) {
            if let Some(node) = self.shared(allowed) {
                return node;
            }
        }
        if depth == 0 || self.random.once_in(12) || self.nodes.len() > 60 {
            return self.leaf(allowed);
        }
        if allowed == 0 || self.random.once_in(3) {
            return self.both(allowed, depth);
        }
        self.pick(allowed, depth)
    }

    /// The children share the allowed variables out; one with no variable under it serves again at times.
    fn both(&mut self, allowed: u64, depth: u32) -> u32 {
        let (mut left, mut children): (u64, Vec<u32>) = (allowed, vec![]);
        for more in (0..number_of_children(self.random)).rev() {
            let supports = supports(&self.nodes);
            let constant = children.iter().copied().find(|&child| supports[child as usize] == 0);
            let own = if more == 0 { left } else { left & self.random.next() };
            children.push(match constant {
                Some(child) if self.random.once_in(2) => child,
                _ => self.satisfiable(own, depth - 1),
            });
            left &= !own;
        }
        self.random.shuffle(&mut children);
        self.push(Node::Both(children))
    }

    fn pick(&mut self, allowed: u64, depth: u32) -> u32 {
        let variable = self.random.bit_of(allowed);
        let rest = allowed & !(1 << variable);
        let a = self.part(rest, depth - 1);
        let b = match self.nodes[a as usize] {
            Node::False => self.satisfiable(rest, depth - 1),
            _ if self.random.once_in(8) => a,
            _ => self.part(rest, depth - 1),
        };
        let (a, b) = if self.random.once_in(2) { (a, b) } else { (b, a) };
        self.push(Node::Pick(variable, a, b))
    }
}

/// A random circuit over these variables.
pub fn built(random: &Random, variables: u32, depth: u32) -> Vec<Node> {
    let mut builder = Builder { random, nodes: vec![] };
    let last = builder.part((1 << variables) - 1, depth);
    builder.nodes.truncate(last as usize + 1);
    reachable(&builder.nodes)
}

/// A random decision diagram: a level a variable, each with a few nodes over the levels below, so that much is shared.
pub fn layered(random: &Random, variables: u32, width: u64) -> Vec<Node> {
    let mut nodes = vec![Node::False, Node::True];
    let mut order: Vec<u32> = (0..variables).collect();
    random.shuffle(&mut order);
    for variable in order {
        let below = nodes.len() as u64;
        let nearest = below.saturating_sub(2 * width);
        for _ in 0..random.between(1, width) {
            let a = random.between(nearest, below - 1) as u32;
            let b = if a == 0 { random.between(1, below - 1) as u32 } else { random.between(nearest, below - 1) as u32 };
            nodes.push(Node::Pick(variable, a, b));
        }
    }
    reachable(&nodes)
}

/// True where the number of true variables is one of these (bit i of the mask: i of them). Has many clearances.
pub fn symmetric(variables: u32, numbers: u64) -> Vec<Node> {
    let mut nodes = vec![Node::False, Node::True];
    // The functions of the variables from some one on, by how many before it are true.
    let mut level: Vec<u32> = (0..=variables).map(|number| (numbers >> number & 1) as u32).collect();
    for variable in (0..variables).rev() {
        let above = |number: u32, nodes: &mut Vec<Node>| {
            let (a, b) = (level[number as usize], level[number as usize + 1]);
            if a == b {
                return a;
            }
            nodes.push(Node::Pick(variable, a, b));
            nodes.len() as u32 - 1
        };
        level = (0..=variable).map(|number| above(number, &mut nodes)).collect();
    }
    nodes.truncate(level[0] as usize + 1);
    reachable(&nodes)
}

/// True where an odd number of the variables are. Has 2^(variables - 1) clearances, and as many blockers.
pub fn parity(variables: u32) -> Vec<Node> {
    symmetric(variables, 0xaaaa_aaaa)
}

/// A long chain over a literal: `both` with constants, or the same part under a `pick` once for each other variable.
pub fn chain(random: &Random, variables: u32, length: u64) -> Vec<Node> {
    let mut free: Vec<u32> = (0..variables).collect();
    random.shuffle(&mut free);
    let first = free.pop().expect("a variable");
    let mut nodes = vec![Node::True, random.choose(&[Node::Yes(first), Node::No(first)])];
    for _ in 1..length {
        let (last, any) = (nodes.len() as u32 - 1, random.position(nodes.len()) as u32);
        let constant = supports(&nodes)[any as usize] == 0;
        let node = match free.last() {
            Some(&variable) if random.once_in(3) => {
                free.pop();
                Node::Pick(variable, last, if random.once_in(3) { last } else { any })
            }
            _ => {
                let mut children = vec![0; number_of_children(random)];
                children[0] = last;
                if constant {
                    children[1] = any;
                }
                random.shuffle(&mut children);
                Node::Both(children)
            }
        };
        nodes.push(node);
    }
    reachable(&nodes)
}

/// A circuit, and how many variables it is over.
pub type Part = (u32, Vec<Node>);

/// One conjunction of two to eight circuits over different variables: each one's are moved up by those of the ones before.
pub fn conjunction(parts: &[Part]) -> Part {
    let (mut moved, mut nodes, mut children): (u32, Vec<Node>, Vec<u32>) = (0, vec![], vec![]);
    for (variables, part) in parts {
        let start = nodes.len() as u32;
        nodes.extend(part.iter().map(|node| node.renamed(|variable| variable + moved, |child| child + start)));
        children.push(nodes.len() as u32 - 1);
        moved += variables;
    }
    nodes.push(Node::Both(children));
    (moved, nodes)
}

/// One conjunction of that many circuits, each true where at least one of its variables is, and `true` in all places left.
pub fn clauses(number: usize, variables: u32) -> Part {
    let mut parts = vec![(variables, symmetric(variables, u64::MAX - 1)); number];
    parts.resize(MOST_CHILDREN, (0, vec![Node::True]));
    conjunction(&parts)
}

/// True where all variables of at least one block are, that many blocks of so many variables; by decisions alone. Has a clearance a
/// block, and a blocker for each choice of one variable from every block.
pub fn cubes(number: u32, size: u32) -> Part {
    let mut nodes = vec![Node::False, Node::True];
    let mut otherwise = 0;
    for start in (0..number).rev().map(|block| block * size) {
        let mut all = 1;
        for variable in (start..start + size).rev() {
            nodes.push(Node::Pick(variable, otherwise, all));
            all = nodes.len() as u32 - 1;
        }
        otherwise = all;
    }
    (number * size, nodes)
}

/// The negation of each node of a circuit without `both`: constants and literals are exchanged.
pub fn negated(nodes: &[Node]) -> Vec<Node> {
    let negation = |node: &Node| match node {
        Node::False => Node::True,
        Node::True => Node::False,
        Node::Yes(variable) => Node::No(*variable),
        Node::No(variable) => Node::Yes(*variable),
        pick @ Node::Pick(..) => pick.clone(),
        Node::Both(_) => panic!("a circuit without `both`"),
    };
    nodes.iter().map(negation).collect()
}

/// A circuit over that many variables, or none, whose node is not `false`.
pub fn satisfiable(random: &Random, variables: u32) -> Part {
    let nodes = match variables {
        0 => vec![Node::True],
        1 => vec![random.choose(&[Node::Yes(0), Node::No(0), Node::True])],
        _ => nodes(random, variables),
    };
    (variables, if nodes.last() == Some(&Node::False) { vec![Node::True] } else { nodes })
}

/// One conjunction of two to eight circuits that share the variables out as evenly as can be.
pub fn parted(random: &Random, variables: u32) -> Vec<Node> {
    let number = number_of_children(random) as u32;
    let sizes = (0..number).map(|place| (variables + place) / number);
    conjunction(&sizes.map(|size| satisfiable(random, size)).collect::<Vec<Part>>()).1
}

/// A random accepted circuit over that many variables, of any of the kinds above.
pub fn nodes(random: &Random, variables: u32) -> Vec<Node> {
    let nodes = match random.below(12) {
        0..=4 => built(random, variables, random.between(0, 9) as u32),
        5..=7 => layered(random, variables, random.between(1, 5)),
        8 => symmetric(variables, random.next()),
        9 => chain(random, variables, random.between(1, 25)),
        _ => parted(random, variables),
    };
    match random.below(3) {
        0 => reordered(random, &nodes),
        1 => scattered(random, &nodes, variables),
        _ => nodes,
    }
}

/// A random accepted table; words that are not read follow it at times.
pub fn table(random: &Random, variables: u32) -> Table {
    let mut table = Table::of(variables, &nodes(random, variables));
    if random.once_in(3) {
        let surplus = random.between(1, 15);
        table.words.extend((0..surplus).map(|_| random.next() as u32));
    }
    table
}
