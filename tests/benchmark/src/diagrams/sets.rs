//! Sets of terms as zero-suppressed decision diagrams over literals.
use super::nodes::{Node, Nodes, Over, ONE, ZERO};
use super::results::Results;
use crate::terms::{extend, key, Term};

/// Sets of terms: literal 2 x is variable x negative, 2 x + 1 is x positive.
pub struct Sets {
    nodes: Nodes,
    differences: Results,
}

impl Sets {
    pub fn new() -> Self {
        Sets { nodes: Nodes::new(), differences: Results::new() }
    }

    /// The terms of low, and those of high with literal l, which stands above both.
    pub fn make(&mut self, l: u32, low: u32, high: u32) -> Result<u32, Over> {
        if high == ZERO {
            return Ok(low);
        }
        self.nodes.make(Node { level: l, low, high })
    }

    /// The terms of p that q does not have.
    pub fn minus(&mut self, p: u32, q: u32) -> Result<u32, Over> {
        if p == ZERO || p == q {
            return Ok(ZERO);
        }
        if q == ZERO {
            return Ok(p);
        }
        let (of_p, of_q) = (self.nodes.at(p), self.nodes.at(q));
        if of_p.level > of_q.level {
            return self.minus(p, of_q.low);
        }
        if let Some(result) = self.differences.get([p, q, 0]) {
            return Ok(result);
        }
        let (low, high) = if of_p.level < of_q.level {
            (self.minus(of_p.low, q)?, of_p.high)
        } else {
            (self.minus(of_p.low, of_q.low)?, self.minus(of_p.high, of_q.high)?)
        };
        let result = self.make(of_p.level, low, high)?;
        self.differences.put([p, q, 0], result);
        Ok(result)
    }

    /// Adds the keys of the terms of a set, each with the literals of t, until there are more than enough.
    pub fn enumerate(&self, set: u32, t: Term, enough: usize, keys: &mut Vec<u128>) {
        if set == ONE {
            keys.push(packed(t));
        }
        if set > ONE && keys.len() <= enough {
            let Node { level, low, high } = self.nodes.at(set);
            self.enumerate(low, t, enough, keys);
            self.enumerate(high, extend(t, level / 2, level % 2 == 1), enough, keys);
        }
    }
}

/// The key of a term as one number of the same order.
fn packed(t: Term) -> u128 {
    let (size, variables, positive) = key(t);
    u128::from(size) << 80 | u128::from(variables) << 40 | u128::from(positive)
}

pub fn unpacked(key: u128) -> Term {
    let mask = (1 << 40) - 1;
    let (variables, positive) = ((key >> 40) as u64 & mask, key as u64 & mask);
    Term { positive, negative: variables & !positive }
}
