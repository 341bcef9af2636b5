//! A search for bad circuits: a pair of sides of a decision is changed at random, and a change after which its joins take no fewer steps
//! by hand is kept. The seed and the rounds are fixed, so each search finds the same.
use crate::by_hand;
use crate::circuit::Circuit;
use crate::families::{copies, named, Family};
use crate::part::Part;
use crate::random::Random;
use crate::sides::{Masks, Sides, VARIABLES};
use crate::steps::Counted;
use crate::terms::Terms;

const SEED: u64 = 88172645463325252;
/// How many pairs go on, the worst so far, and how often each is changed.
const ROUNDS: [(usize, usize); 4] = [(80, 40), (20, 60), (5, 150), (1, 100)];
/// The nodes of the sides at most; the copies of the decision and the tree above them have room beside.
const MOST_NODES: usize = 760;
/// The table of many decisions has 2 to this power of them.
pub const LEVELS: u32 = 7;

/// The steps of the decision over a pair of sides; none where it has more prime implicants than the capacity.
fn steps(masks: &Masks, capacity: usize) -> Option<u64> {
    let [a, b] = [masks.terms(0), masks.terms(1)];
    let (mut positives, mut negatives, mut steps) = (vec![0; capacity], vec![0; capacity], Counted(0));
    let mut part = Part { positives: &mut positives, negatives: &mut negatives, count: 0 };
    let [a, b] = [&a, &b].map(|(positives, negatives)| Terms { positives, negatives });
    by_hand::decision(&mut part, &mut steps, 0, a, b).ok()?;
    Some(steps.0)
}

/// The decision over a pair of sides, 2^levels times below a tree of decisions; none where it needs too many nodes.
fn circuit(masks: &Masks, levels: u32) -> Option<Circuit> {
    let mut c = Circuit::new(1 + VARIABLES + levels);
    let (low, high) = masks.nodes(&mut c, MOST_NODES)?;
    copies(&mut c, low, high, 1 + VARIABLES);
    Some(c)
}

/// A pair of sides, their masks, and the steps.
struct Found {
    sides: Sides,
    masks: Masks,
    steps: u64,
}

/// Changes a pair of sides a number of times; a change that leaves the masks as they are is kept without a count.
fn climb(random: &mut Random, found: &mut Found, changes: usize, capacity: usize) {
    for _ in 0..changes {
        let mut sides = found.sides.clone();
        (0..random.between(1, 3)).for_each(|_| sides.change(random));
        let Some(masks) = sides.masks() else { continue };
        if masks == found.masks {
            found.sides = sides;
            continue;
        }
        let Some(steps) = steps(&masks, capacity) else { continue };
        if steps >= found.steps && circuit(&masks, 0).is_some() {
            *found = Found { sides, masks, steps };
        }
    }
}

/// The worst pair of sides found.
fn worst(capacity: usize) -> Found {
    let mut random = Random::new(SEED);
    let start = |i: usize| if i.is_multiple_of(4) { Sides::of_masks(&mut random) } else { Sides::of_products(&mut random) };
    let mut pairs: Vec<Found> = (0..ROUNDS[0].0).map(start).map(|sides| Found { sides, masks: Masks::default(), steps: 0 }).collect();
    for (count, changes) in ROUNDS {
        pairs.truncate(count);
        pairs.iter_mut().for_each(|found| climb(&mut random, found, changes, capacity));
        pairs.sort_by_key(|found| std::cmp::Reverse(found.steps));
        println!("{count} pairs of sides changed {changes} times: {} steps at most", pairs[0].steps);
    }
    pairs.swap_remove(0)
}

/// The worst pair found, as a circuit of one decision and as a table of many.
pub fn search(capacity: usize) -> [Family; 2] {
    let Found { sides, masks, .. } = worst(capacity);
    println!("{sides}");
    let [p, q] = [masks.masks[0].len(), masks.masks[1].len()];
    [0, LEVELS].map(|levels| {
        let circuit = circuit(&masks, levels).expect("a pair with few nodes");
        named(format!("{} times found, {p} and {q} terms", 1 << levels), circuit)
    })
}
