//! Families of circuits, each a function of a few numbers.
use crate::circuit::Circuit;

/// A circuit with its name.
pub struct Family {
    pub name: String,
    pub circuit: Circuit,
    /// The algorithm before takes seconds to minutes.
    pub slow: bool,
}

pub fn named(name: String, circuit: Circuit) -> Family {
    Family { name, circuit, slow: false }
}

fn slow(family: Family) -> Family {
    Family { slow: true, ..family }
}

fn range(start: u32, length: u32) -> Vec<u32> {
    (start..start + length).collect()
}

/// At least k of n variables, as an ordered decision diagram.
pub fn at_least(k: usize, n: u32) -> Family {
    let mut c = Circuit::new(n);
    c.at_least(k, &range(0, n));
    named(format!("at least {k} of {n}"), c)
}

/// Between low and high of n variables are true: terms of both signs.
pub fn between(low: usize, high: usize, n: u32) -> Family {
    fn made(c: &mut Circuit, low: usize, high: usize, x: u32) -> u32 {
        let left = (c.variables - x) as usize;
        if low > high || low > left {
            return c.constant(false);
        }
        if low == 0 && high >= left {
            return c.constant(true);
        }
        let a = made(c, low, high, x + 1);
        let b = if high == 0 { c.constant(false) } else { made(c, low.saturating_sub(1), high - 1, x + 1) };
        c.decision(x, a, b)
    }
    let mut c = Circuit::new(n);
    made(&mut c, low, high, 0);
    named(format!("between {low} and {high} of {n}"), c)
}

/// An odd number of n variables: 2^(n-1) terms, any two in conflict.
pub fn parity(n: u32) -> Family {
    let mut c = Circuit::new(n);
    let (mut odd, mut even) = (c.positive(n - 1), c.negative(n - 1));
    for x in (0..n - 1).rev() {
        let above = if x > 0 { c.decision(x, even, odd) } else { even };
        odd = c.decision(x, odd, even);
        even = above;
    }
    named(format!("parity of {n}"), c)
}

/// Blocks of their own variables, each at least k of m.
fn thresholds(c: &mut Circuit, blocks: u32, k: usize, m: u32) -> Vec<u32> {
    (0..blocks).map(|i| c.at_least(k, &range(i * m, m))).collect()
}

/// The conjunction of blocks of their own variables, each at least k of m: C(m, k)^blocks terms. A chain of conjunctions of two.
pub fn product(blocks: u32, k: usize, m: u32) -> Family {
    let mut c = Circuit::new(blocks * m);
    let parts = thresholds(&mut c, blocks, k, m);
    c.all(&parts);
    named(format!("product of {blocks} times at least {k} of {m}"), c)
}

/// The same as one conjunction, of two to eight blocks.
pub fn one_product(blocks: u32, k: usize, m: u32) -> Family {
    let mut c = Circuit::new(blocks * m);
    let parts = thresholds(&mut c, blocks, k, m);
    c.conjunction_of(&parts);
    named(format!("one node of {blocks} times at least {k} of {m}"), c)
}

/// The same function as `product` of at least 1 of 2, in a table of so many nodes: a chain of conjunctions of eight times one node fills
/// it up, and the last of them, which is true, is a side of every decision.
pub fn filled_product(blocks: u32, nodes: usize) -> Family {
    let mut c = Circuit::new(2 * blocks);
    let mut top = c.constant(true);
    // Each block makes a literal, a decision and a conjunction; the first has no conjunction.
    while c.nodes() + 3 * blocks as usize - 1 < nodes {
        top = c.conjunction_of(&[top; 8]);
    }
    let mut parts = Vec::new();
    for x in (0..2 * blocks).step_by(2) {
        let side = c.positive(x);
        parts.push(c.decision(x + 1, side, top));
    }
    c.all(&parts);
    named(format!("product of {blocks} times at least 1 of 2, filled up"), c)
}

/// A decision over two thresholds k of m that share some variables.
pub fn overlap(k: usize, m: u32, common: u32) -> Family {
    let mut c = Circuit::new(2 * m - common + 1);
    let low = c.at_least(k, &range(1, m));
    let high = c.at_least(k, &range(1 + m - common, m));
    c.decision(0, low, high);
    named(format!("decision, at least {k} of {m}, {common} shared"), c)
}

/// The data variable that the selecting variables name.
pub fn multiplexer(selectors: u32) -> Family {
    let mut c = Circuit::new(selectors + (1 << selectors));
    let mut layer: Vec<u32> = (0..1 << selectors).map(|i| c.positive(selectors + i)).collect();
    for x in (0..selectors).rev() {
        layer = layer.chunks(2).map(|pair| c.decision(x, pair[0], pair[1])).collect();
    }
    named(format!("multiplexer of {selectors} selectors"), c)
}

/// The number that n variables write in base two, variable 0 the highest digit, is from low to high.
pub fn interval(low: u64, high: u64, n: u32) -> Family {
    fn made(c: &mut Circuit, low: Option<u64>, high: Option<u64>, x: u32) -> u32 {
        if x == c.variables || (low.is_none() && high.is_none()) {
            return c.constant(true);
        }
        let digit = c.variables - 1 - x;
        let bit = |bound: u64| bound >> digit & 1 == 1;
        let side = |c: &mut Circuit, one: bool| {
            if low.is_some_and(|l| bit(l) && !one) || high.is_some_and(|h| !bit(h) && one) {
                return c.constant(false);
            }
            let tight = |bound: Option<u64>| bound.filter(|&b| bit(b) == one);
            made(c, tight(low), tight(high), x + 1)
        };
        let (a, b) = (side(c, false), side(c, true));
        c.decision(x, a, b)
    }
    let mut c = Circuit::new(n);
    made(&mut c, Some(low), Some(high), 0);
    named(format!("interval {low} to {high} of {n} digits"), c)
}

/// A threshold under a chain of decisions with one child on both sides: every node above has the threshold's terms again.
pub fn repeated(k: usize, m: u32, above: u32) -> Family {
    let mut c = Circuit::new(m + above);
    let mut top = c.at_least(k, &range(above, m));
    for x in (0..above).rev() {
        top = c.decision(x, top, top);
    }
    named(format!("{above} decisions over one at least {k} of {m}"), c)
}

/// The variable with the number of true variables among n is true (none for 0): terms of both signs, little shared.
pub fn hidden_weighted_bit(n: u32) -> Family {
    fn made(c: &mut Circuit, x: u32, ones: u32, taken: u32) -> u32 {
        if x == c.variables {
            return c.constant(ones > 0 && taken >> (ones - 1) & 1 == 1);
        }
        let a = made(c, x + 1, ones, taken);
        let b = made(c, x + 1, ones + 1, taken | 1 << x);
        if a == b {
            return a;
        }
        c.decision(x, a, b)
    }
    let mut c = Circuit::new(n);
    made(&mut c, 0, 0, 0);
    named(format!("hidden weighted bit of {n}"), c)
}

/// All of the variables are true.
fn every(c: &mut Circuit, variables: &[u32]) -> u32 {
    let literals: Vec<u32> = variables.iter().map(|&x| c.positive(x)).collect();
    c.all(&literals)
}

/// The two sides of `one_join` in the circuit: on variables 1 to m a threshold and all of the next m, and the other way round.
fn crossed(c: &mut Circuit, k: usize, m: u32) -> (u32, u32) {
    let (own, other) = (range(1, m), range(1 + m, m));
    let (g, h) = (c.at_least(k, &own), c.at_least(k, &other));
    let (all_own, all_other) = (every(c, &own), every(c, &other));
    (c.conjunction(g, all_other), c.conjunction(all_own, h))
}

/// A decision whose sides have p = C(m, k) terms each, and all p^2 joins are one term, which is minimal.
pub fn one_join(k: usize, m: u32) -> Family {
    let mut c = Circuit::new(2 * m + 1);
    let (low, high) = crossed(&mut c, k, m);
    c.decision(0, low, high);
    named(format!("one join, at least {k} of {m} crossed"), c)
}

/// Like `one_join`, but the low side has a last term that makes the joins of all others one term that is not minimal, and this
/// is seen only at the end of each search. Such a decision stands 2^levels times below a tree of decisions.
pub fn one_join_late(k: usize, m: u32, levels: u32) -> Family {
    let mut c = Circuit::new(2 * m + 1 + levels);
    let (own, other) = (range(1, m), range(1 + m, m));
    let (g, h) = (c.at_least(k, &own), c.at_least(k, &other));
    let (most_own, most_other, all_own) = (every(&mut c, &own[1..]), every(&mut c, &other[1..]), every(&mut c, &own));
    let low = c.decision(other[0], most_own, g);
    let (low, high) = (c.conjunction(most_other, low), c.conjunction(all_own, h));
    copies(&mut c, low, high, 2 * m + 1);
    named(format!("{} times one join, seen late, at least {k} of {m}", 1 << levels), c)
}

/// Clauses of their own variables, of the given sizes, from variable `start` on.
fn clauses(c: &mut Circuit, sizes: &[u32], start: u32) -> u32 {
    let mut at = start;
    let mut parts = Vec::new();
    for &size in sizes {
        parts.push(c.at_least(1, &range(at, size)));
        at += size;
    }
    c.all(&parts)
}

/// A tree of decisions above the leaves, one variable a level from `start` on.
fn tree(c: &mut Circuit, leaves: Vec<u32>, start: u32) {
    let (mut layer, mut x) = (leaves, start);
    while layer.len() > 1 {
        layer = layer.chunks(2).map(|pair| c.fresh_decision(x, pair[0], pair[1])).collect();
        x += 1;
    }
}

/// The decision by variable 0 over two sides, below a tree of decisions by the variables from `start` on: once for each of its leaves.
pub fn copies(c: &mut Circuit, low: u32, high: u32, start: u32) {
    let leaves = (0..1 << (c.variables - start)).map(|_| c.fresh_decision(0, low, high)).collect();
    tree(c, leaves, start);
}

/// A tree of decisions whose leaves are all the product of clauses of the given sizes.
pub fn same_sides(sizes: &[u32], levels: u32) -> Family {
    let mut c = Circuit::new(levels + sizes.iter().sum::<u32>());
    let product = clauses(&mut c, sizes, levels);
    tree(&mut c, vec![product; 1 << levels], 0);
    named(format!("{} decisions over clauses of {sizes:?}", (1u32 << levels) - 1), c)
}

/// All of the variables `all`, or the given node.
fn every_or(c: &mut Circuit, all: &[u32], node: u32) -> u32 {
    let mut top = c.constant(true);
    for &x in all.iter().rev() {
        top = c.decision(x, node, top);
    }
    top
}

/// Blocks of m variables each.
fn blocks_of(blocks: u32, m: u32) -> Vec<Vec<u32>> {
    (0..blocks).map(|i| range(i * m, m)).collect()
}

/// All variables of at least one of some blocks of m, by decisions alone: as many prime implicants as blocks, and m^blocks of the
/// negation.
pub fn all_of_one(blocks: u32, m: u32) -> Family {
    let mut c = Circuit::new(blocks * m);
    let none = c.constant(false);
    blocks_of(blocks, m).iter().rev().fold(none, |node, block| every_or(&mut c, block, node));
    named(format!("all of one of {blocks} blocks of {m}"), c)
}

/// At least one variable of each of some blocks of m, by decisions alone: m^blocks prime implicants, and as many of the negation as
/// blocks.
pub fn one_of_each(blocks: u32, m: u32) -> Family {
    let mut c = Circuit::new(blocks * m);
    let (none, all) = (c.constant(false), c.constant(true));
    let some_and = |node: u32, block: &Vec<u32>| block.iter().rev().fold(none, |rest, &x| c.decision(x, rest, node));
    blocks_of(blocks, m).iter().rev().fold(all, some_and);
    named(format!("one of each of {blocks} blocks of {m}"), c)
}

/// A decision whose sides have p = C(m, k) terms each and one in common, the last of each, which is inside all p^2 joins.
pub fn late(k: usize, m: u32) -> Family {
    let size = k as u32;
    let mut c = Circuit::new(1 + 2 * m + 2 * size);
    let (own, other) = (range(1, m), range(1 + m, m));
    let (u, v) = (range(1 + 2 * m, size), range(1 + 2 * m + size, size));
    let (g, h) = (c.at_least(k, &own), c.at_least(k, &other));
    let (low, high) = (every_or(&mut c, &v, g), every_or(&mut c, &u, h));
    let (all_u, all_v) = (every(&mut c, &u), every(&mut c, &v));
    let (low, high) = (c.conjunction(all_u, low), c.conjunction(all_v, high));
    c.decision(0, low, high);
    named(format!("late, at least {k} of {m}"), c)
}

/// A decision one of whose sides has p = C(m, k) terms, and the other, the high one or the low one, q = C(o, l) and a last one. The p
/// joins with the last one are inside all p * q others.
pub fn last_join(k: usize, m: u32, l: usize, o: u32, last_high: bool) -> Family {
    let size = l as u32;
    let mut c = Circuit::new(2 + m + o + size);
    let u = range(2 + m + o, size);
    let (g, h) = (c.at_least(k, &range(2, m)), c.at_least(l, &range(2 + m, o)));
    let (all_u, v) = (every(&mut c, &u), c.positive(1));
    let (few, more) = (c.conjunction(all_u, g), every_or(&mut c, &u, h));
    let more = c.conjunction(v, more);
    let (low, high) = if last_high { (few, more) } else { (more, few) };
    c.decision(0, low, high);
    named(format!("last join {}, at least {k} of {m} and {l} of {o}", if last_high { "high" } else { "low" }), c)
}

/// A decision one of whose sides has the p = C(m, k) terms of the other and p more: none of the joins with these is least.
pub fn more_on_one_side(k: usize, m: u32, more_high: bool) -> Family {
    let mut c = Circuit::new(1 + 2 * m);
    let side = c.at_least(k, &range(1, m));
    let more = c.at_least_or(k, &range(1 + m, m), side);
    let (low, high) = if more_high { (side, more) } else { (more, side) };
    c.decision(0, low, high);
    named(format!("more {}, at least {k} of {m}", if more_high { "high" } else { "low" }), c)
}

/// The two sides of `alternating` from variable 1 on: p = C(m, k) terms, and 2 q = 2 C(o, l) and two last ones.
fn alternating_sides(c: &mut Circuit, k: usize, m: u32, l: usize, o: u32) -> (u32, u32) {
    let u = range(3 + m + o, l as u32);
    let (all_u, g) = (every(c, &u), c.at_least(k, &range(3, m)));
    let few = c.conjunction(all_u, g);
    let (one_of_two, h) = (c.at_least(1, &[1, 2]), c.at_least(l, &range(3 + m, o)));
    let rest = every_or(c, &u, h);
    (few, c.conjunction(one_of_two, rest))
}

/// A decision whose low side has p = C(m, k) terms and whose high side 2 q = 2 C(o, l) and two last ones. Of two joins in turn, the one
/// holds the join with the one last term, the other that with the other. It stands 2^levels times below a tree of decisions.
pub fn alternating(k: usize, m: u32, l: usize, o: u32, levels: u32) -> Family {
    let free = 3 + m + o + l as u32;
    let mut c = Circuit::new(free + levels);
    let (low, high) = alternating_sides(&mut c, k, m, l, o);
    copies(&mut c, low, high, free);
    named(format!("{} times alternating, at least {k} of {m} and {l} of {o}", 1 << levels), c)
}

/// `alternating` with its sides exchanged: the terms of the low side are of two classes, by the last term that settles their joins.
pub fn classes(k: usize, m: u32, l: usize, o: u32, levels: u32) -> Family {
    let free = 3 + m + o + l as u32;
    let mut c = Circuit::new(free + levels);
    let (high, low) = alternating_sides(&mut c, k, m, l, o);
    copies(&mut c, low, high, free);
    named(format!("{} times classes, at least {k} of {m} and {l} of {o}", 1 << levels), c)
}

/// The three ways to pair four variables, as masks of two pairs each.
const PAIRINGS: [[u32; 2]; 3] = [[0b0101, 0b1010], [0b0110, 0b1001], [0b0011, 0b1100]];

/// A diagram of the four variables from `start` on: its end is the first, or second, of `ends` where only a pair of the one, or of the
/// other, pairing is true, the third where pairs of both are, and false elsewhere.
fn pairs(c: &mut Circuit, start: u32, pairings: [[u32; 2]; 2], ends: [u32; 3]) -> u32 {
    fn made(c: &mut Circuit, start: u32, depth: u32, values: u32, end: &dyn Fn(u32) -> u32) -> u32 {
        if depth == 4 {
            return end(values);
        }
        let low = made(c, start, depth + 1, values, end);
        let high = made(c, start, depth + 1, values | 1 << depth, end);
        if low == high {
            return low;
        }
        c.decision(start + depth, low, high)
    }
    let none = c.constant(false);
    let has = |values: u32, pairing: [u32; 2]| pairing.iter().any(|&pair| pair & !values == 0);
    let end = |values| match pairings.map(|pairing| has(values, pairing)) {
        [true, false] => ends[0],
        [false, true] => ends[1],
        [true, true] => ends[2],
        _ => none,
    };
    made(c, start, 0, 0, &end)
}

/// For each of n digits a pair of the one pairing is true, and the node too; or for each digit a pair of the other pairing.
fn digits(c: &mut Circuit, n: u32, pairings: [[u32; 2]; 2], node: u32) -> u32 {
    let (none, mut second) = (c.constant(false), c.constant(true));
    let (mut first, mut either) = (node, second);
    for start in (1..n).rev().map(|digit| 1 + 4 * digit) {
        let ends = [first, second, either];
        either = pairs(c, start, pairings, ends);
        second = pairs(c, start, pairings, [none, second, second]);
        first = pairs(c, start, pairings, [first, none, first]);
    }
    pairs(c, 1, pairings, [first, second, either])
}

/// A decision over digits of four variables. A term i of the low side has a pair of the first pairing for each of n digits, a term j of
/// the high side one of the second, and their join holds just one pair of the third for each, as it were i xor j; the sides have these
/// 2^n terms of the third pairing in common. So each join has just one least join inside, along each term another one. The other terms
/// stand once with each of some more variables. The decision stands 2^levels times below a tree of decisions.
pub fn xor(n: u32, more: u32, levels: u32) -> Family {
    let free = 1 + 4 * n + more;
    let mut c = Circuit::new(free + levels);
    let clause = if more == 0 { c.constant(true) } else { c.at_least(1, &range(1 + 4 * n, more)) };
    let low = digits(&mut c, n, [PAIRINGS[0], PAIRINGS[2]], clause);
    let high = digits(&mut c, n, [PAIRINGS[1], PAIRINGS[2]], clause);
    copies(&mut c, low, high, free);
    named(format!("{} times xor of {n} digits, {more} more variables", 1 << levels), c)
}

/// The families of the table.
pub fn usual() -> Vec<Family> {
    vec![
        at_least(3, 5),
        at_least(6, 12),
        at_least(7, 14),
        at_least(4, 16),
        between(3, 6, 9),
        between(2, 10, 12),
        parity(5),
        parity(13),
        product(8, 1, 2),
        one_product(8, 1, 2),
        product(4, 2, 4),
        one_product(4, 2, 4),
        product(12, 1, 2),
        product(6, 1, 4),
        one_product(6, 1, 4),
        overlap(3, 8, 2),
        overlap(3, 12, 6),
        multiplexer(3),
        multiplexer(4),
        interval(1000, 3000, 12),
        interval(12345, 54321, 16),
        repeated(5, 10, 6),
        hidden_weighted_bit(8),
        hidden_weighted_bit(12),
        one_join(4, 7),
        one_join(4, 9),
        same_sides(&[8, 8, 8], 1),
        late(4, 11),
        all_of_one(6, 4),
        one_of_each(6, 4),
        all_of_one(8, 4),
        one_of_each(8, 4),
    ]
}

/// The worst circuits found.
pub fn worst() -> Vec<Family> {
    let clauses: [u32; 5] = [8, 8, 4, 4, 4];
    vec![
        one_join(4, 9),
        one_join(5, 11),
        one_join(6, 13),
        one_join_late(5, 11, 0),
        one_join_late(5, 11, 2),
        one_join_late(6, 13, 0),
        same_sides(&clauses, 1),
        same_sides(&clauses, 5),
        same_sides(&clauses, 8),
        late(5, 12),
        late(6, 13),
        last_join(5, 11, 5, 12, true),
        last_join(4, 14, 5, 14, true),
        last_join(5, 11, 5, 12, false),
        last_join(4, 14, 5, 14, false),
        more_on_one_side(5, 11, false),
        more_on_one_side(5, 11, true),
        more_on_one_side(6, 13, false),
        more_on_one_side(6, 13, true),
        alternating(4, 10, 4, 11, 0),
        alternating(4, 12, 5, 13, 0),
        classes(4, 10, 4, 11, 0),
        classes(4, 12, 5, 13, 0),
        xor(6, 0, 0),
        xor(7, 4, 0),
        xor(9, 3, 0),
        xor(8, 3, 4),
        xor(7, 4, 7),
        slow(alternating(4, 12, 5, 13, 4)),
        slow(alternating(4, 12, 5, 13, 7)),
        slow(classes(4, 12, 5, 13, 7)),
    ]
}
