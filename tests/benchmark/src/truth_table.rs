//! Quine-McCluskey by truth table: all minterms of the circuit, or of its negation, merged level by level.
use crate::check::node;
use crate::terms::{key, Of};
use quelbrift::{Table, Term};

/// An implicant: the free variables in the high half, the values of the others in the low half.
type Implicant = u64;

fn implicant(free: u32, value: u32) -> Implicant {
    u64::from(free) << 32 | u64::from(value)
}

/// The circuit's value at an assignment, node by node.
fn value(words: &[u32], values: &mut [bool], assignment: u32) -> bool {
    for i in 0..values.len() {
        let (kind, x, children) = node(words, i);
        let bit = assignment >> x & 1 == 1;
        values[i] = match kind {
            0 => false,
            1 => true,
            2 => bit,
            3 => !bit,
            4 => values[children[usize::from(bit)] as usize],
            _ => children.iter().all(|&child| values[child as usize]),
        };
    }
    values[values.len() - 1]
}

/// The minterms, rising.
fn minterms(of: Of, table: Table) -> Vec<Implicant> {
    let mut values = vec![false; table.nodes as usize];
    (0..1u32 << table.variables).filter(|&s| of.value(value(table.words, &mut values, s))).map(|s| implicant(0, s)).collect()
}

/// Finds the pairs of one group (the same free variables) that differ in x alone, marks them, and adds the merged ones.
/// The group rises, so the partner with x true is found by a second index that only goes up.
fn merge_by(group: &[Implicant], merged: &mut [bool], x: u32, next: Option<&mut Vec<Implicant>>) {
    let mut partner = 0;
    let mut found = next;
    for k in 0..group.len() {
        let low = group[k];
        if low >> x & 1 == 1 {
            continue;
        }
        let high = low | 1 << x;
        while partner < group.len() && group[partner] < high {
            partner += 1;
        }
        if partner < group.len() && group[partner] == high {
            merged[k] = true;
            merged[partner] = true;
            if let Some(next) = found.as_deref_mut() {
                next.push(low | 1 << (32 + x));
            }
        }
    }
}

/// Merges one level: what merges goes to the next level, each once; what does not is prime.
fn merge_level(level: &[Implicant], variables: u32, next: &mut Vec<Implicant>, primes: &mut Vec<Implicant>) {
    for group in level.chunk_by(|a, b| a >> 32 == b >> 32) {
        let free = (group[0] >> 32) as u32;
        let mut merged = vec![false; group.len()];
        for x in (0..variables).filter(|x| free >> x & 1 == 0) {
            let is_highest = free >> x == 0;
            merge_by(group, &mut merged, x, is_highest.then_some(&mut *next));
        }
        primes.extend(group.iter().zip(&merged).filter(|(_, &m)| !m).map(|(&implicant, _)| implicant));
    }
}

fn term(implicant: Implicant, variables: u32) -> Term {
    let fixed = !(implicant >> 32) & ((1 << variables) - 1);
    let positive = implicant & fixed;
    Term { positive, negative: fixed & !positive }
}

/// The prime implicants of the circuit or of its negation, in the engine's order.
pub fn list(of: Of, table: Table) -> Vec<Term> {
    let mut level = minterms(of, table);
    let mut primes = Vec::new();
    while !level.is_empty() {
        let mut next = Vec::new();
        merge_level(&level, table.variables, &mut next, &mut primes);
        level = next;
    }
    let mut terms: Vec<Term> = primes.iter().map(|&p| term(p, table.variables)).collect();
    terms.sort_unstable_by_key(|&t| key(t));
    terms
}
