//! The engine's algorithm before: each join of a decision is tried with two pairs remembered, and searched where they do not settle it.
use crate::listing::{self, Lent, Listed};
use crate::part::{Full, Part};
use crate::terms::{common, conflict, extend, inside, join, Of, Term, Terms, EMPTY};
use quelbrift::Table;

/// b is inside t, and a literal of t is neither in a nor in b.
fn is_short(t: Term, a: Term, b: Term) -> bool {
    inside(b, t) && !inside(t, join(a, b))
}

/// The terms of a and b at two places are inside t, and their join lacks a literal of t.
fn is_shorter_at(a: Terms, b: Terms, k: usize, l: usize, t: Term) -> bool {
    let pair = a.get(k).zip(b.get(l));
    pair.is_some_and(|(u, v)| inside(u, t) && is_short(t, u, v))
}

/// The places of a term of a and a term of b inside t whose join lacks a literal of t.
fn find_shorter(a: Terms, b: Terms, t: Term) -> Option<(usize, usize)> {
    let mut shared = EMPTY;
    for (k, u) in a.iter().enumerate() {
        if is_short(t, shared, u) {
            let mut next = t;
            for (l, v) in b.iter().enumerate().filter(|&(_, v)| inside(v, t)) {
                if !inside(t, join(u, v)) {
                    return Some((k, l));
                }
                next = common(next, v);
            }
            shared = next;
        }
    }
    None
}

/// Some term of the list is inside t.
fn holds_one(terms: Terms, t: Term) -> bool {
    terms.iter().any(|u| inside(u, t))
}

/// Adds the terms that have no term of the other side inside, each with the literal of x.
fn extend_all(part: &mut Part, x: u32, sign: bool, other: Terms, terms: Terms) -> Result<(), Full> {
    for t in terms.iter() {
        if !holds_one(other, t) {
            part.insert(extend(t, x, sign))?;
        }
    }
    Ok(())
}

/// For each term of b the place of a term of a that showed a join with it not to be least.
type Partners = [u16; 4096];

/// Adds the least joins of t with the terms of b; a term with one of b inside is the only one of its joins. The pair that showed the
/// last join not to be least is tried first, then the partner of the term of b.
fn join_with(part: &mut Part, partners: &mut Partners, a: Terms, b: Terms, t: Term) -> Result<(), Full> {
    if holds_one(b, t) {
        return part.insert(t).map(|_| ());
    }
    let (mut first, mut second) = (0, 0);
    for (at, u) in b.iter().enumerate().filter(|&(_, u)| !conflict(t, u)) {
        let joined = join(t, u);
        let partner = partners[at] as usize;
        let tried = is_shorter_at(a, b, first, second, joined) || is_shorter_at(a, b, partner, at, joined);
        if tried || part.holds(joined) {
            continue;
        }
        match find_shorter(a, b, joined) {
            Some(pair) => {
                (first, second) = pair;
                partners[at] = first as u16;
            }
            None => {
                part.insert(joined)?;
            }
        }
    }
    Ok(())
}

fn decision(part: &mut Part, x: u32, a: Terms, b: Terms) -> Result<(), Full> {
    extend_all(part, x, false, b, a)?;
    extend_all(part, x, true, a, b)?;
    let mut partners = [0; 4096];
    for t in a.iter() {
        join_with(part, &mut partners, a, b, t)?;
    }
    Ok(())
}

/// Lists the prime implicants of every node; the same arguments and answer as the engine's two listings.
pub fn list(of: Of, table: Table, capacity: u32, positives: &mut [u64], negatives: &mut [u64], counts: &mut [u32]) -> Listed {
    listing::list(decision, of, table, capacity, Lent::new(table, capacity, positives, negatives, counts)?)
}
