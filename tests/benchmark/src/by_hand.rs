//! The engine's algorithm written by hand. The least joins of a decision are kept as they are found: a join with a kept term inside is
//! settled, any other is reduced to a least one, which is new. The joins that a kept term settles are found 64 at a time.
use crate::columns::{Bits, Columns, VARIABLES, WORDS};
use crate::listing::{self, Lent, Listed};
use crate::part::{Full, Part};
use crate::steps::{Steps, Uncounted};
use crate::terms::{common, conflict, extend, inside, join, size, without, Of, Term, Terms, EMPTY};
use quelbrift::Table;

/// The place of no kept term.
const NONE: u16 = 4096;

/// A side of a decision: its terms, and for each the place of a kept term that was inside its last join.
struct Side<'a> {
    terms: Terms<'a>,
    hints: &'a mut [u16],
}

/// A join of a term of a and a term of b inside t that lacks a literal of t.
fn find_shorter(steps: &mut impl Steps, a: Terms, b: Terms, t: Term) -> Option<Term> {
    let mut shared = EMPTY;
    for u in a.iter() {
        steps.add(1);
        if !inside(u, t) || inside(t, join(shared, u)) {
            continue;
        }
        let mut next = t;
        for v in b.iter().inspect(|_| steps.add(1)).filter(|&v| inside(v, t)) {
            if !inside(t, join(u, v)) {
                return Some(join(u, v));
            }
            next = common(next, v);
        }
        shared = next;
    }
    None
}

/// A least join inside a join.
fn reduce(steps: &mut impl Steps, a: Terms, b: Terms, t: Term) -> Term {
    let mut least = t;
    while let Some(shorter) = find_shorter(steps, a, b, least) {
        least = shorter;
    }
    least
}

/// The place of a term of the list inside t: a guess first, then t itself, then the terms with fewer literals, whose number is given.
fn find_inside(steps: &mut impl Steps, terms: Terms, fewer: usize, guess: usize, t: Term) -> Option<usize> {
    if terms.get(guess).is_some_and(|u| inside(u, t)) {
        return Some(guess);
    }
    let own = terms.place(t);
    if terms.get(own) == Some(t) {
        return Some(own);
    }
    let found = terms.first(fewer).iter().position(|u| inside(u, t));
    steps.add(found.unwrap_or(fewer));
    found
}

/// Kept term k is there and inside t.
fn covers(kept: &Part, k: u16, t: Term) -> bool {
    let k = k as usize;
    k < kept.count && kept.positives[k] & !t.positive == 0 && kept.negatives[k] & !t.negative == 0
}

/// The list of a decision, and its least joins so far, in the order in which they were found, so that a place stays a term's own.
struct Joins<'a, 'b, S> {
    list: &'a mut Part<'b>,
    kept: Part<'a>,
    steps: &'a mut S,
}

impl<S: Steps> Joins<'_, '_, S> {
    /// Lists t, and keeps it where it is new.
    fn keep(&mut self, t: Term) -> Result<(), Full> {
        if self.list.insert(t)? {
            self.kept.push(t);
        }
        Ok(())
    }

    /// Lists each term of a side: as it is, and kept, where the other side has a term inside it, else with the literal of x. Returns the
    /// number of those with x.
    fn add_side(&mut self, x: u32, sign: bool, other: Terms, side: &mut Side) -> Result<usize, Full> {
        let (mut fewer, mut guess, mut open) = (0, 0, 0);
        for (k, t) in side.terms.iter().enumerate() {
            while fewer < other.count() && size(other.term(fewer)) < size(t) {
                fewer += 1;
            }
            self.steps.add(1);
            if let Some(found) = find_inside(self.steps, other, fewer, guess, t) {
                guess = found + 1;
                self.keep(t)?;
                side.hints[k] = self.kept.count as u16 - 1;
            } else {
                side.hints[k] = NONE;
                self.list.insert(extend(t, x, sign))?;
                open += 1;
            }
        }
        Ok(open)
    }

    /// Finds kept terms inside the joins of t with the terms of a side from a place on whose hints fail; these are left where there is
    /// none. Returns what it cost.
    #[inline(never)]
    fn renew(&mut self, side: &mut Side, columns: &Columns, left: &mut Bits, from: usize, t: Term) -> usize {
        let (mut all, mut cost) = (t, 1);
        left[..columns.words].fill(0);
        self.steps.add(side.terms.count() - from + self.kept.count);
        for j in from..side.terms.count() {
            let u = side.terms.term(j);
            if conflict(t, u) || covers(&self.kept, side.hints[j], join(t, u)) {
                continue;
            }
            left[j / 64] |= 1 << (j % 64);
            all = join(all, u);
        }
        for (k, u) in self.kept.terms().iter().enumerate().filter(|&(_, u)| inside(u, all)) {
            cost += columns.words;
            if !columns.spread(self.steps, left, side.hints, without(u, t), k) {
                return cost;
            }
        }
        cost
    }

    /// Joins t with the terms of a side from a place on: inside each join that no kept term settles, a least one is kept. Returns what
    /// it cost.
    #[inline(never)]
    fn join_with(
        &mut self,
        pair: [Terms; 2],
        side: &mut Side,
        columns: &mut Columns,
        left: &mut Bits,
        from: usize,
        t: Term,
    ) -> Result<usize, Full> {
        let mut cost = 0;
        self.steps.add(side.terms.count() - from);
        for j in from..side.terms.count() {
            let u = side.terms.term(j);
            let joined = join(t, u);
            if conflict(t, u) || covers(&self.kept, side.hints[j], joined) {
                continue;
            }
            if cost == 0 {
                if !columns.made {
                    columns.make(self.steps, side.terms);
                }
                cost = self.renew(side, columns, left, j, t);
                if covers(&self.kept, side.hints[j], joined) {
                    continue;
                }
            }
            let least = reduce(self.steps, pair[0], pair[1], joined);
            self.keep(least)?;
            columns.spread(self.steps, left, side.hints, without(least, t), self.kept.count - 1);
        }
        Ok(cost)
    }

    /// Joins all terms of a and b: the side whose next terms cost less goes on.
    fn join_all(&mut self, a: &mut Side, b: &mut Side, columns: [&mut [u64]; 2]) -> Result<(), Full> {
        let [of_a, of_b] = columns;
        let (pair, [p, q]) = ([a.terms, b.terms], [a.terms.count(), b.terms.count()]);
        let (mut of_a, mut of_b) = (Columns::new(of_a, p), Columns::new(of_b, q));
        let (mut i, mut j, mut cost_a, mut cost_b, mut left) = (0, 0, 0, 0, [0; WORDS]);
        while i < p && j < q {
            if cost_a * (p - i) <= cost_b * (q - j) {
                let t = a.terms.term(i);
                if !covers(&self.kept, a.hints[i], t) {
                    cost_a = self.join_with(pair, b, &mut of_b, &mut left, j, t)?;
                }
                i += 1;
            } else {
                let t = b.terms.term(j);
                if !covers(&self.kept, b.hints[j], t) {
                    cost_b = self.join_with(pair, a, &mut of_a, &mut left, i, t)?;
                }
                j += 1;
            }
        }
        Ok(())
    }

    #[inline(never)]
    fn join_many(&mut self, a: &mut Side, b: &mut Side) -> Result<(), Full> {
        self.join_all(a, b, [&mut [0; 2 * VARIABLES * WORDS], &mut [0; 2 * VARIABLES * WORDS]])
    }

    fn both_sides(&mut self, x: u32, a: &mut Side, b: &mut Side) -> Result<(), Full> {
        let open_low = self.add_side(x, false, b.terms, a)?;
        let open_high = self.add_side(x, true, a.terms, b)?;
        if open_low == 0 || open_high == 0 {
            return Ok(());
        }
        if a.terms.count() <= 64 && b.terms.count() <= 64 {
            return self.join_all(a, b, [&mut [0; 2 * VARIABLES], &mut [0; 2 * VARIABLES]]);
        }
        self.join_many(a, b)
    }
}

/// A decision with room for some kept terms and some hints a side.
#[inline(never)]
fn decide<const KEPT: usize, const HINTS: usize>(
    list: &mut Part,
    steps: &mut impl Steps,
    x: u32,
    a: Terms,
    b: Terms,
) -> Result<(), Full> {
    let (positives, negatives) = (&mut [0; KEPT], &mut [0; KEPT]);
    let mut joins = Joins { list, kept: Part { positives, negatives, count: 0 }, steps };
    joins.both_sides(x, &mut Side { terms: a, hints: &mut [0; HINTS] }, &mut Side { terms: b, hints: &mut [0; HINTS] })
}

/// Fills the empty list with the prime implicants of a decision by x over sides with the terms a and b; short sides have short arrays.
pub fn decision(list: &mut Part, steps: &mut impl Steps, x: u32, a: Terms, b: Terms) -> Result<(), Full> {
    if a.count() > 64 || b.count() > 64 {
        return decide::<4096, 4096>(list, steps, x, a, b);
    }
    if a.count() * b.count() > 64 {
        return decide::<1024, 64>(list, steps, x, a, b);
    }
    decide::<64, 64>(list, steps, x, a, b)
}

/// The same as `list`, and counts the steps of its decisions.
pub fn list_counting(steps: &mut impl Steps, of: Of, table: Table, capacity: u32, lent: Lent) -> Listed {
    listing::list(|list: &mut Part, x, a: Terms, b: Terms| decision(list, steps, x, a, b), of, table, capacity, lent)
}

/// Lists the prime implicants of every node; the same arguments and answer as the engine's two listings.
pub fn list(of: Of, table: Table, capacity: u32, positives: &mut [u64], negatives: &mut [u64], counts: &mut [u32]) -> Listed {
    list_counting(&mut Uncounted, of, table, capacity, Lent::new(table, capacity, positives, negatives, counts)?)
}
