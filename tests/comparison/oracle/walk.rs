//! The walk of a loading script: each prefix is answered by itself, from the last line about each variable in it.

use super::answers::{Oracle, Verdict};
use super::function::Term;
use super::listing::{self, Buffers};
use super::measurements::Measurements;
use super::script::{Step, DROP, MOST_STEPS, NO, YES};
use super::{refused, Refused};

/// The five lent buffers: those of the listing, and two with an entry a step.
#[derive(Clone, Debug, PartialEq, Eq)]
pub struct Lent {
    pub listing: Buffers,
    /// 2, 0 or 1 for allowed, forbidden or open.
    pub statuses: Vec<u32>,
    /// How many clearances do not clash with what is known.
    pub compatibles: Vec<u32>,
}

/// 54 or 55 of one step, 54 first: its act is none of the three, or it stands beyond the most steps; its variable is out of range.
fn wrong(index: usize, step: &Step, variables: u32) -> Option<u32> {
    if ![NO, YES, DROP].contains(&step.act) || index >= MOST_STEPS {
        return Some(54);
    }
    (step.variable >= variables).then_some(55)
}

/// 54 or 55 with the lowest wrong step.
pub fn lowest_wrong(steps: &[Step], variables: u32) -> Option<Refused> {
    let refusal = |(index, step)| Some(Refused { number: wrong(index, step, variables)?, place: index as u64 });
    steps.iter().enumerate().find_map(refusal)
}

/// What is known after some steps: of each variable what the last step about it says.
pub fn known(prefix: &[Step], variables: u32) -> Term {
    let mut known = Term::EMPTY;
    for variable in 0..variables {
        let last = prefix.iter().rev().find(|step| step.variable == variable);
        match last.map(|step| step.act) {
            Some(YES) => known.positive |= 1 << variable,
            Some(NO) => known.negative |= 1 << variable,
            _ => {}
        }
    }
    known
}

/// Whether some variable is marked yes by the one row and no by the other.
pub fn clash(one: Term, other: Term) -> bool {
    one.positive & other.negative != 0 || one.negative & other.positive != 0
}

/// The answer for one prefix: the verdict on what is known, and how many of the clearances do not clash with it.
fn answered(oracle: &Oracle, clearances: &[Term], prefix: &[Step]) -> (Verdict, u32) {
    let known = known(prefix, oracle.variables);
    let verdict = oracle.evaluate_partial(known, &Measurements::default()).expect("a row of an accepted circuit").verdict;
    (verdict, clearances.iter().filter(|&&clearance| !clash(clearance, known)).count() as u32)
}

/// The first step at which, and at every later one, the answer is allowed.
fn allowed_from(verdicts: &[Verdict]) -> Option<u64> {
    let from_here_on = |&step: &usize| verdicts[step..].iter().all(|&verdict| verdict == Verdict::Allowed);
    (0..verdicts.len()).find(from_here_on).map(|step| step as u64)
}

/// Walks a script through a circuit whose clearances are given by node, and listed by the weights: the step named, or none.
pub fn walk(
    oracle: &Oracle,
    primes: &[Vec<Term>],
    weights: &[u32],
    capacity: u32,
    steps: &[Step],
    lent: &mut Lent,
) -> Result<Option<u64>, Refused> {
    oracle.accepted()?;
    if let Some(refusal) = lowest_wrong(steps, oracle.variables) {
        return Err(refusal);
    }
    if lent.statuses.len() < steps.len() || lent.compatibles.len() < steps.len() {
        return refused(41, 0);
    }
    listing::list(oracle, primes, weights, capacity, &mut lent.listing)?;
    let clearances = primes.last().expect("a node");
    let answers: Vec<(Verdict, u32)> = (1..=steps.len()).map(|length| answered(oracle, clearances, &steps[..length])).collect();
    for (step, (verdict, compatible)) in answers.iter().enumerate() {
        lent.statuses[step] = match verdict {
            Verdict::Forbidden => 0,
            Verdict::Open => 1,
            Verdict::Allowed => 2,
        };
        lent.compatibles[step] = *compatible;
    }
    Ok(allowed_from(&answers.iter().map(|answer| answer.0).collect::<Vec<Verdict>>()))
}
