//! Pairs of sides of a decision, made and changed at random. A side has one sign a variable, so any list of masks of variables, none
//! inside another, is its list of prime implicants.
use crate::circuit::Circuit;
use crate::factors::Factor;
use crate::random::Random;
use std::fmt;

/// Variables 1 to this may be in a side.
pub const VARIABLES: u32 = 32;
/// More terms than this are too many for a side.
const MOST_TERMS: usize = 3000;

/// The masks that have no other one inside, in the order of terms.
fn least(mut masks: Vec<u64>) -> Vec<u64> {
    masks.sort_unstable_by_key(|&mask| (mask.count_ones(), mask));
    masks.dedup();
    let mut least: Vec<u64> = Vec::new();
    for mask in masks {
        if !least.iter().any(|other| other & !mask == 0) {
            least.push(mask);
        }
    }
    least
}

/// A side: the least masks of some products of a factor a block, and some more; and the variables that are negative in it.
#[derive(Clone, Default)]
struct Side {
    products: Vec<Vec<Factor>>,
    more: Vec<u64>,
    negatives: u64,
}

impl Side {
    /// The masks, or none where they are too many.
    fn masks(&self, blocks: &[u64]) -> Option<Vec<u64>> {
        let mut all = self.more.clone();
        for product in &self.products {
            let mut masks = vec![0];
            for (factor, &block) in product.iter().zip(blocks) {
                let factors = factor.masks(block);
                if masks.len() * factors.len() > MOST_TERMS {
                    return None;
                }
                masks = masks.iter().flat_map(|mask| factors.iter().map(move |other| mask | other)).collect();
            }
            all.extend(masks);
        }
        let least = least(all);
        (least.len() <= MOST_TERMS).then_some(least)
    }

    /// A mask of a few variables at random.
    fn add_random(&mut self, random: &mut Random, variables: usize, most: usize) {
        let size = random.between(1, most);
        self.more.push((0..size).fold(0, |mask, _| mask | 1 << random.between(1, variables)));
    }

    fn change(&mut self, random: &mut Random, blocks: usize) {
        let factors = |random: &mut Random| (0..blocks).map(|_| Factor::random(random)).collect();
        let (products, more) = (self.products.len(), self.more.len());
        match random.below(8) {
            0..=2 if products > 0 => self.products[random.below(products)][random.below(blocks)] = Factor::random(random),
            3 if products > 1 => drop(self.products.swap_remove(random.below(products))),
            4 => self.products.push(factors(random)),
            5 if more > 0 => drop(self.more.swap_remove(random.below(more))),
            6 if more > 0 => self.more[random.below(more)] ^= 1 << random.between(1, VARIABLES as usize),
            7 => self.negatives ^= 1 << random.between(1, VARIABLES as usize),
            _ => self.add_random(random, VARIABLES as usize, 7),
        }
    }
}

/// Variables 1 to the last in blocks of a few.
fn blocks(random: &mut Random) -> Vec<u64> {
    let (mut blocks, mut start) = (Vec::new(), 1);
    while start <= VARIABLES as usize {
        let size = random.between(2, 12).min(VARIABLES as usize + 1 - start);
        blocks.push(((1 << size) - 1) << start);
        start += size;
    }
    blocks
}

/// Two sides over the same blocks of variables.
#[derive(Clone)]
pub struct Sides {
    blocks: Vec<u64>,
    sides: [Side; 2],
}

/// The sizes of the blocks, and for each side its products, its single masks and the variables that are negative in it.
impl fmt::Display for Sides {
    fn fmt(&self, f: &mut fmt::Formatter) -> fmt::Result {
        let sizes: Vec<u32> = self.blocks.iter().map(|block| block.count_ones()).collect();
        write!(f, "blocks of {sizes:?} variables")?;
        for Side { products, more, negatives } in &self.sides {
            let shown = |product: &Vec<Factor>| product.iter().map(Factor::to_string).collect::<Vec<_>>().join(", ");
            let products: Vec<String> = products.iter().map(shown).collect();
            write!(f, "\nside of ({}), masks {more:x?}, negative {negatives:x}", products.join(") or ("))?;
        }
        Ok(())
    }
}

/// The masks of two sides, and the variables that are negative in each.
#[derive(Default, PartialEq)]
pub struct Masks {
    pub masks: [Vec<u64>; 2],
    pub negatives: [u64; 2],
}

impl Sides {
    /// Sides of products of blocks.
    pub fn of_products(random: &mut Random) -> Self {
        let mut sides = Sides { blocks: blocks(random), sides: Default::default() };
        let blocks = sides.blocks.len();
        for side in &mut sides.sides {
            for _ in 0..random.between(1, 2) {
                side.products.push((0..blocks).map(|_| Factor::random(random)).collect());
            }
        }
        sides
    }

    /// Sides of single masks of a few variables, some of which the sides have in common.
    pub fn of_masks(random: &mut Random) -> Self {
        let mut sides = Sides { blocks: blocks(random), sides: Default::default() };
        let (variables, count, most) = (random.between(2, 14), random.below(250), random.between(1, 7));
        for side in &mut sides.sides {
            let some = random.part_of(u64::MAX);
            side.negatives = random.part_of(some);
            (0..count).for_each(|_| side.add_random(random, variables, most));
        }
        let common = sides.sides[0].more[..count / 5].to_vec();
        sides.sides[1].more.extend(common);
        sides
    }

    /// Changes one thing: a bound of the blocks, a mask that the other side gets too, or something of one side.
    pub fn change(&mut self, random: &mut Random) {
        let (blocks, side) = (self.blocks.len(), random.below(2));
        if blocks > 1 && random.once_in(6) {
            return self.move_bound(random);
        }
        if random.once_in(8) {
            let more = self.sides[1 - side].more.clone();
            return self.sides[side].more.extend(more.first());
        }
        self.sides[side].change(random, blocks);
    }

    /// A variable goes from a block to the next one, or back.
    fn move_bound(&mut self, random: &mut Random) {
        let k = random.below(self.blocks.len() - 1);
        let (first, second) = (self.blocks[k], self.blocks[k + 1]);
        let bit = if random.once_in(2) { second & second.wrapping_neg() } else { 1 << (63 - first.leading_zeros()) };
        if first != bit && second != bit {
            self.blocks[k] ^= bit;
            self.blocks[k + 1] ^= bit;
        }
    }

    /// The masks of both sides, or none where they are too many.
    pub fn masks(&self) -> Option<Masks> {
        let [low, high] = &self.sides;
        Some(Masks { masks: [low.masks(&self.blocks)?, high.masks(&self.blocks)?], negatives: [low.negatives, high.negatives] })
    }
}

impl Masks {
    /// The positive masks and the negative masks of a side, in the order of terms.
    pub fn terms(&self, side: usize) -> (Vec<u64>, Vec<u64>) {
        let negatives = self.negatives[side];
        self.masks[side].iter().map(|&mask| (mask & !negatives, mask & negatives)).unzip()
    }

    /// The nodes of both sides in a circuit, or none where it has more than some nodes.
    pub fn nodes(&self, c: &mut Circuit, most: usize) -> Option<(u32, u32)> {
        let low = c.some_of(&self.masks[0], self.negatives[0], most)?;
        let high = c.some_of(&self.masks[1], self.negatives[1], most)?;
        Some((low, high))
    }
}
