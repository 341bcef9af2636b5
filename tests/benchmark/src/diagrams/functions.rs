//! Functions as reduced ordered binary decision diagrams, variable 0 on top.
use super::nodes::{Node, Nodes, Over, ONE, ZERO};
use super::results::Results;

pub struct Functions {
    pub nodes: Nodes,
    conjunctions: Results,
    choices: Results,
    negations: Results,
}

impl Functions {
    pub fn new() -> Self {
        Functions { nodes: Nodes::new(), conjunctions: Results::new(), choices: Results::new(), negations: Results::new() }
    }

    /// low where x is false, high where it is true; x stands above both.
    pub fn make(&mut self, x: u32, low: u32, high: u32) -> Result<u32, Over> {
        if low == high {
            return Ok(low);
        }
        self.nodes.make(Node { level: x, low, high })
    }

    /// The function where x, which stands at its top or above, is false, and where it is true.
    fn cofactors(&self, f: u32, x: u32) -> [u32; 2] {
        let Node { level, low, high } = self.nodes.at(f);
        if level == x {
            [low, high]
        } else {
            [f, f]
        }
    }

    pub fn and(&mut self, f: u32, g: u32) -> Result<u32, Over> {
        let (f, g) = (f.min(g), f.max(g));
        if f == g || f == ONE {
            return Ok(g);
        }
        if f == ZERO {
            return Ok(ZERO);
        }
        if let Some(result) = self.conjunctions.get([f, g, 0]) {
            return Ok(result);
        }
        let x = self.nodes.level(f).min(self.nodes.level(g));
        let ([f0, f1], [g0, g1]) = (self.cofactors(f, x), self.cofactors(g, x));
        let (low, high) = (self.and(f0, g0)?, self.and(f1, g1)?);
        let result = self.make(x, low, high)?;
        self.conjunctions.put([f, g, 0], result);
        Ok(result)
    }

    pub fn not(&mut self, f: u32) -> Result<u32, Over> {
        if f == ZERO || f == ONE {
            return Ok(if f == ZERO { ONE } else { ZERO });
        }
        if let Some(result) = self.negations.get([f, 0, 0]) {
            return Ok(result);
        }
        let Node { level, low, high } = self.nodes.at(f);
        let (low, high) = (self.not(low)?, self.not(high)?);
        let result = self.make(level, low, high)?;
        self.negations.put([f, 0, 0], result);
        Ok(result)
    }

    /// g where x is false, h where it is true.
    pub fn choose(&mut self, x: u32, g: u32, h: u32) -> Result<u32, Over> {
        let top = self.nodes.level(g).min(self.nodes.level(h));
        if g == h || x < top {
            return self.make(x, g, h);
        }
        if let Some(result) = self.choices.get([x + 1, g, h]) {
            return Ok(result);
        }
        let ([g0, g1], [h0, h1]) = (self.cofactors(g, top), self.cofactors(h, top));
        let (low, high) = (self.choose(x, g0, h0)?, self.choose(x, g1, h1)?);
        let result = self.make(top, low, high)?;
        self.choices.put([x + 1, g, h], result);
        Ok(result)
    }
}
