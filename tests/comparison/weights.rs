//! Random weights: right lists, and lists that are wrong in one way.

use crate::oracle::weights::MOST_WEIGHT;
use crate::random::Random;

/// A right list: all 0, small ones with many ties, any, or all the most.
pub fn right(random: &Random, variables: u32) -> Vec<u32> {
    let (low, high) = random.choose(&[(0, 0), (0, 2), (0, 2), (0, MOST_WEIGHT), (0, MOST_WEIGHT), (MOST_WEIGHT, MOST_WEIGHT)]);
    (0..variables).map(|_| random.between(u64::from(low), u64::from(high)) as u32).collect()
}

/// A wrong list: an entry too many, one too few, or one above the most; at times many more, or none.
pub fn wrong(random: &Random, variables: u32) -> Vec<u32> {
    let mut weights = right(random, variables);
    let length = weights.len();
    match random.below(3) {
        0 if length > 0 => weights.truncate(random.choose(&[length - 1, length - 1, length - 1, 0])),
        1 if length > 0 => {
            let place = random.choose(&[0, length - 1, random.position(length)]);
            let any = (random.next() as u32).max(MOST_WEIGHT + 1);
            let above = [MOST_WEIGHT + 1, MOST_WEIGHT + 1, MOST_WEIGHT + 2, 1 << 16, 1 << 31, 1 << 31 | weights[place], u32::MAX, any];
            weights[place] = random.choose(&above);
        }
        _ => weights.resize(random.choose(&[length + 1, length + 1, length + 1, length + 41]), random.choose(&[0, MOST_WEIGHT])),
    }
    weights
}

/// Mostly a right list.
pub fn any(random: &Random, variables: u32) -> Vec<u32> {
    match random.once_in(6) {
        true => wrong(random, variables),
        false => right(random, variables),
    }
}
