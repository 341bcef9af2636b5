//! The answers about an accepted circuit: verdict, also for a half-known stow, count, the two tests on a row, striking down, and the
//! clearances and blockers of every node.

use super::function::{is_prime, values, Functions, Listed, Term, FEW};
use super::measurements::Measurements;
use super::table::{reachable, supports, Node, Table};
use super::{counting, refused, rows, Refused};

/// A circuit that the check has accepted or refused, with its functions where they can be tried out.
pub struct Oracle {
    pub variables: u32,
    checked: Result<Accepted, Refused>,
}

pub struct Accepted {
    nodes: Vec<Node>,
    functions: Option<Functions>,
}

/// What is answered for a half-known stow: the verdict, and how many completions are allowed and how many are forbidden.
#[derive(Clone, Copy, Debug, PartialEq, Eq)]
pub struct Completions {
    pub verdict: Verdict,
    pub allowed: u64,
    pub forbidden: u64,
}

#[derive(Clone, Copy, Debug, PartialEq, Eq)]
pub enum Verdict {
    Forbidden,
    Open,
    Allowed,
}

impl Oracle {
    pub fn new(table: &Table) -> Oracle {
        let accept = |nodes: Vec<Node>| Accepted { functions: Functions::new(table.variables, &nodes), nodes };
        Oracle { variables: table.variables, checked: table.check().map(accept) }
    }

    pub fn accepted(&self) -> Result<&Accepted, Refused> {
        self.checked.as_ref().map_err(|refusal| *refusal)
    }

    /// A mask with a bit at the number of variables or above.
    fn outside(&self, mask: u64) -> bool {
        mask >> self.variables != 0
    }

    pub fn evaluate(&self, assignment: u64) -> Result<bool, Refused> {
        let accepted = self.accepted()?;
        if self.outside(assignment) {
            return refused(31, 0);
        }
        Ok(accepted.allows(assignment))
    }

    pub fn count_models(&self) -> Result<u64, Refused> {
        let accepted = self.accepted()?;
        Ok(match &accepted.functions {
            Some(functions) => {
                let tried_out = functions.whole().iter().filter(|&&value| value).count() as u64;
                tried_out << (self.variables as usize - functions.tried.len())
            }
            None => counting::count_models(&accepted.nodes, self.variables),
        })
    }

    /// The circuit, where the term has no bit outside and none in both masks.
    fn accepted_for(&self, term: Term) -> Result<&Accepted, Refused> {
        let accepted = self.accepted()?;
        if self.outside(term.marks()) || term.positive & term.negative != 0 {
            return refused(32, 0);
        }
        Ok(accepted)
    }

    pub fn implies(&self, term: Term) -> Result<bool, Refused> {
        Ok(self.accepted_for(term)?.implies(term))
    }

    pub fn is_prime(&self, term: Term) -> Result<bool, Refused> {
        let accepted = self.accepted_for(term)?;
        Ok(is_prime(term, |shorter| accepted.implies(shorter)))
    }

    /// The row with the readings' marks added, by all its completions: allowed if every one is, forbidden if none is, else open.
    pub fn evaluate_partial(&self, term: Term, measurements: &Measurements) -> Result<Completions, Refused> {
        let accepted = self.accepted_for(term)?;
        let known = measurements.added_to(term, self.variables)?;
        let [allowed, forbidden] = [true, false].map(|value| accepted.completions(known, self.variables, value));
        let verdict = match (allowed, forbidden) {
            (_, 0) => Verdict::Allowed,
            (0, _) => Verdict::Forbidden,
            _ => Verdict::Open,
        };
        Ok(Completions { verdict, allowed, forbidden })
    }

    /// All marks of the assignment, each struck in turn if the rest still implies.
    pub fn reduce(&self, assignment: u64) -> Result<Term, Refused> {
        if !self.evaluate(assignment)? {
            return refused(33, 0);
        }
        let accepted = self.accepted()?;
        let mut term = Term { positive: assignment, negative: !assignment & ((1 << self.variables) - 1) };
        for variable in 0..self.variables {
            if accepted.implies(term.without(variable)) {
                term = term.without(variable);
            }
        }
        Ok(term)
    }
}

impl Accepted {
    pub fn allows(&self, assignment: u64) -> bool {
        *values(&self.nodes, assignment).last().expect("a node")
    }

    pub fn implies(&self, term: Term) -> bool {
        self.forces(term, true)
    }

    /// Whether every assignment that agrees with the term gives the circuit that value.
    pub fn forces(&self, term: Term, forced: bool) -> bool {
        match &self.functions {
            Some(functions) => functions.forces(term, forced),
            None => counting::forces(&self.nodes, term, forced),
        }
    }

    /// How many assignments of that many variables agree with the term and give the circuit that value.
    pub fn completions(&self, term: Term, variables: u32, counted: bool) -> u64 {
        match &self.functions {
            Some(functions) => functions.completions(term, variables, counted),
            None => counting::completions(&self.nodes, term, variables, counted),
        }
    }

    /// The same by counting, to compare the two ways with each other.
    pub fn completions_by_counting(&self, term: Term, variables: u32, counted: bool) -> u64 {
        counting::completions(&self.nodes, term, variables, counted)
    }

    /// "forces" by counting, likewise.
    pub fn forces_by_counting(&self, term: Term, forced: bool) -> bool {
        counting::forces(&self.nodes, term, forced)
    }

    pub fn count_by_counting(&self, variables: u32) -> u64 {
        counting::count_models(&self.nodes, variables)
    }

    /// The clearances or the blockers of every node, in the order without weights.
    pub fn primes(&self, listed: Listed) -> Vec<Vec<Term>> {
        match &self.functions {
            Some(functions) if functions.tried.len() <= FEW => {
                functions.truth.iter().map(|own| rows::primes(&listed.function(own), &functions.tried)).collect()
            }
            _ => self.primes_by_parts(listed),
        }
    }

    /// The same where many variables are named: each node by those under it, and a `both` with many of them by its children,
    /// which share none.
    fn primes_by_parts(&self, listed: Listed) -> Vec<Vec<Term>> {
        let supports = supports(&self.nodes);
        let mut primes: Vec<Vec<Term>> = vec![];
        for (index, node) in self.nodes.iter().enumerate() {
            primes.push(match node {
                Node::Both(children) if supports[index].count_ones() as usize > FEW => {
                    let parts: Vec<&[Term]> = children.iter().map(|&child| primes[child as usize].as_slice()).collect();
                    rows::of_conjunction(listed, &parts)
                }
                _ => {
                    let part = Functions::new(40, &reachable(&self.nodes[..=index])).expect("few enough variables to try every row");
                    rows::primes(&listed.function(part.whole()), &part.tried)
                }
            });
        }
        primes
    }
}
