//! The weights of the variables, which the papers call minutes: which lists are refused, and the order of rows by them.

use super::function::Term;
use super::{refused, rows, Refused};

pub const MOST_WEIGHT: u32 = 1_000;

/// 56: not one entry for each variable, or an entry above the most.
pub fn check(weights: &[u32], variables: u32) -> Result<(), Refused> {
    if weights.len() != variables as usize || weights.iter().any(|&weight| weight > MOST_WEIGHT) {
        return refused(56, 0);
    }
    Ok(())
}

/// The sum over the variables that the row marks, yes or no.
pub fn sum(weights: &[u32], term: Term) -> u32 {
    let marked = |variable: &usize| term.marks() >> variable & 1 == 1;
    (0..weights.len()).filter(marked).map(|variable| weights[variable]).sum()
}

/// The rows in order: the smaller sum, and then as without weights.
pub fn ordered(weights: &[u32], rows: &[Term]) -> Vec<Term> {
    let mut ordered = rows.to_vec();
    ordered.sort_by_cached_key(|term| (sum(weights, *term), rows::order(term)));
    ordered
}
