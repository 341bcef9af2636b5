//! A second way to "count", "forces" and "completions", for more variables than can be tried: by shares of all assignments. Exact for
//! accepted circuits.

use super::function::Term;
use super::table::Node;

/// All assignments of 40 variables.
const ALL: u128 = 1 << 40;

/// How many of the 2^40 assignments of 40 variables make the circuit true, where those variables that the term marks are set to its
/// marks first.
fn share(nodes: &[Node], term: Term) -> u128 {
    let mut shares: Vec<u128> = vec![];
    for node in nodes {
        let share_of = |child: u32| shares[child as usize];
        let decide = |variable: u32, if_false: u128, if_true: u128| match (term.positive >> variable & 1, term.negative >> variable & 1) {
            (0, 0) => (if_false + if_true) / 2,
            (0, _) => if_false,
            _ => if_true,
        };
        shares.push(match node {
            Node::False => 0,
            Node::True => ALL,
            Node::Yes(variable) => decide(*variable, 0, ALL),
            Node::No(variable) => decide(*variable, ALL, 0),
            Node::Pick(variable, a, b) => decide(*variable, share_of(*a), share_of(*b)),
            Node::Both(children) => children.iter().fold(ALL, |share, &child| share * share_of(child) / ALL),
        });
    }
    shares.pop().expect("a node")
}

/// Whether every assignment that agrees with the term gives the circuit that value.
pub fn forces(nodes: &[Node], term: Term, forced: bool) -> bool {
    share(nodes, term) == if forced { ALL } else { 0 }
}

/// How many assignments of that many variables agree with the term and give the circuit that value.
pub fn completions(nodes: &[Node], term: Term, variables: u32, counted: bool) -> u64 {
    let share = share(nodes, term);
    let unknown = variables - term.marks().count_ones();
    ((if counted { share } else { ALL - share }) >> (40 - unknown)) as u64
}

pub fn count_models(nodes: &[Node], variables: u32) -> u64 {
    (share(nodes, Term::EMPTY) >> (40 - variables)) as u64
}
