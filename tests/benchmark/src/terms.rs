//! Terms of two masks, their order, and lists of them.
pub use quelbrift::Term;

/// What is listed of a node: the prime implicants of its function, or those of the negation.
#[derive(Clone, Copy, PartialEq)]
pub enum Of {
    Function,
    Negation,
}

impl Of {
    /// The value of what is listed where the node's function has that value.
    pub fn value(self, own: bool) -> bool {
        own == (self == Of::Function)
    }
}

/// The term with no literal.
pub const EMPTY: Term = Term { positive: 0, negative: 0 };

/// Each literal of t is one of u.
pub fn inside(t: Term, u: Term) -> bool {
    t.positive & !u.positive == 0 && t.negative & !u.negative == 0
}

pub fn conflict(t: Term, u: Term) -> bool {
    (t.positive & u.negative) | (t.negative & u.positive) != 0
}

pub fn join(t: Term, u: Term) -> Term {
    Term { positive: t.positive | u.positive, negative: t.negative | u.negative }
}

/// The literals that two terms have in common.
pub fn common(t: Term, u: Term) -> Term {
    Term { positive: t.positive & u.positive, negative: t.negative & u.negative }
}

/// The literals of t that u does not have.
pub fn without(t: Term, u: Term) -> Term {
    Term { positive: t.positive & !u.positive, negative: t.negative & !u.negative }
}

/// The number of literals.
pub fn size(t: Term) -> u32 {
    (t.positive | t.negative).count_ones()
}

/// The sum of the weights of the variables, whatever their signs.
pub fn sum(weights: &[u32], t: Term) -> u32 {
    (0..weights.len()).filter(|x| (t.positive | t.negative) >> x & 1 == 1).map(|x| weights[x]).sum()
}

/// The order without weights: fewer literals, then the smaller mask of all variables, then the smaller positive mask.
pub fn key(t: Term) -> (u32, u64, u64) {
    (size(t), t.positive | t.negative, t.positive)
}

pub fn extend(t: Term, x: u32, sign: bool) -> Term {
    let bit = 1 << x;
    match sign {
        true => Term { positive: t.positive | bit, ..t },
        false => Term { negative: t.negative | bit, ..t },
    }
}

/// A list of terms in order: the positive masks, and the negative masks.
#[derive(Clone, Copy)]
pub struct Terms<'a> {
    pub positives: &'a [u64],
    pub negatives: &'a [u64],
}

impl<'a> Terms<'a> {
    pub fn count(&self) -> usize {
        self.positives.len()
    }

    pub fn term(&self, k: usize) -> Term {
        Term { positive: self.positives[k], negative: self.negatives[k] }
    }

    pub fn get(&self, k: usize) -> Option<Term> {
        Some(Term { positive: *self.positives.get(k)?, negative: *self.negatives.get(k)? })
    }

    pub fn iter(&self) -> impl Iterator<Item = Term> + 'a {
        self.positives.iter().zip(self.negatives).map(|(&positive, &negative)| Term { positive, negative })
    }

    /// The first terms.
    pub fn first(&self, count: usize) -> Terms<'a> {
        Terms { positives: &self.positives[..count], negatives: &self.negatives[..count] }
    }

    /// The place of t in the order: its own where it is there.
    pub fn place(&self, t: Term) -> usize {
        let (mut low, mut high) = (0, self.count());
        if high > 0 && key(self.term(high - 1)) < key(t) {
            return high;
        }
        while low < high {
            let middle = low + (high - low) / 2;
            if key(self.term(middle)) < key(t) {
                low = middle + 1;
            } else {
                high = middle;
            }
        }
        low
    }
}
