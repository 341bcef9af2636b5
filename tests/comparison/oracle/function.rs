//! The functions of the nodes on every assignment, and what "implies" and "clearance" mean by these alone.

use super::table::{supports, Node};

/// A row: the masks of the variables marked yes and of those marked no.
#[derive(Clone, Copy, Debug, PartialEq, Eq)]
pub struct Term {
    pub positive: u64,
    pub negative: u64,
}

impl Term {
    /// The row without marks.
    pub const EMPTY: Term = Term { positive: 0, negative: 0 };

    pub fn marks(self) -> u64 {
        self.positive | self.negative
    }

    pub fn without(self, variable: u32) -> Term {
        Term { positive: self.positive & !(1 << variable), negative: self.negative & !(1 << variable) }
    }

    pub fn agrees_with(self, assignment: u64) -> bool {
        self.positive & !assignment == 0 && self.negative & assignment == 0
    }

    fn within(self, variables: u64) -> Term {
        Term { positive: self.positive & variables, negative: self.negative & variables }
    }
}

/// Whether the term is a clearance: it implies, and without any one of its marks it does not.
pub fn is_prime(term: Term, implies: impl Fn(Term) -> bool) -> bool {
    implies(term) && (0..64).filter(|variable| term.marks() >> variable & 1 == 1).all(|variable| !implies(term.without(variable)))
}

/// What is listed of every node: its clearances, or its blockers, which are the clearances of its negation.
#[derive(Clone, Copy, Debug, PartialEq, Eq)]
pub enum Listed {
    Clearances,
    Blockers,
}

impl Listed {
    /// Both kinds of rows; the number of a kind is its place here.
    pub const BOTH: [Listed; 2] = [Listed::Clearances, Listed::Blockers];

    /// The value that the function has on every assignment that agrees with such a row.
    pub fn value(self) -> bool {
        self == Listed::Clearances
    }

    /// The values of the function whose clearances they are: the node's own, or its negation.
    pub fn function(self, own: &[bool]) -> Vec<bool> {
        match self {
            Listed::Clearances => own.to_vec(),
            Listed::Blockers => own.iter().map(|value| !value).collect(),
        }
    }
}

/// The value of every node on one assignment.
pub fn values(nodes: &[Node], assignment: u64) -> Vec<bool> {
    let mut values: Vec<bool> = vec![];
    for node in nodes {
        let is_true = |variable: u32| assignment >> variable & 1 == 1;
        values.push(match node {
            Node::False => false,
            Node::True => true,
            Node::Yes(variable) => is_true(*variable),
            Node::No(variable) => !is_true(*variable),
            Node::Pick(variable, a, b) => values[*if is_true(*variable) { b } else { a } as usize],
            Node::Both(children) => children.iter().all(|&child| values[child as usize]),
        });
    }
    values
}

/// So many variables are tried out, also those that are not named.
pub const FEW: usize = 8;

/// More variables than this are not tried out.
const MOST_TRIED: usize = 13;

/// The functions of all nodes on every assignment of the tried variables.
pub struct Functions {
    pub tried: Vec<u32>,
    /// By position: bit j of the position is the value of tried variable j, every other variable is false.
    assignments: Vec<u64>,
    /// By node, then by position.
    pub truth: Vec<Vec<bool>>,
}

impl Functions {
    /// Tries all variables where they are few; else those that are named, for no other matters; none where these are many too.
    pub fn new(variables: u32, nodes: &[Node]) -> Option<Functions> {
        let named = supports(nodes).iter().fold(0, |all, support| all | support);
        let all_tried = variables as usize <= FEW;
        let tried: Vec<u32> = (0..variables).filter(|variable| all_tried || named >> variable & 1 == 1).collect();
        if tried.len() > MOST_TRIED {
            return None;
        }
        let assignments: Vec<u64> = (0..1 << tried.len()).map(|position| spread(&tried, position)).collect();
        let mut truth = vec![vec![]; nodes.len()];
        for assignment in &assignments {
            for (function, value) in truth.iter_mut().zip(values(nodes, *assignment)) {
                function.push(value);
            }
        }
        Some(Functions { tried, assignments, truth })
    }

    /// The function of the last node.
    pub fn whole(&self) -> &[bool] {
        self.truth.last().expect("a node")
    }

    /// The circuit's values on the assignments of the tried variables that agree with the term.
    fn agreeing(&self, term: Term) -> impl Iterator<Item = bool> + '_ {
        let term = term.within(self.tried.iter().fold(0, |mask, variable| mask | 1 << variable));
        let whole = self.assignments.iter().zip(self.whole());
        whole.filter(move |(assignment, _)| term.agrees_with(**assignment)).map(|(_, &value)| value)
    }

    /// Whether every assignment that agrees with the term gives the circuit that value.
    pub fn forces(&self, term: Term, forced: bool) -> bool {
        self.agreeing(term).all(|value| value == forced)
    }

    /// How many assignments of that many variables agree with the term and give the circuit that value.
    pub fn completions(&self, term: Term, variables: u32, counted: bool) -> u64 {
        let untried = (0..variables).filter(|variable| !self.tried.contains(variable) && term.marks() >> variable & 1 == 0);
        (self.agreeing(term).filter(|&value| value == counted).count() as u64) << untried.count()
    }
}

/// The assignment that gives tried variable j the value of bit j, and false to every other variable.
pub fn spread(tried: &[u32], position: usize) -> u64 {
    tried.iter().enumerate().fold(0, |mask, (bit, variable)| mask | ((position as u64 >> bit & 1) << variable))
}
