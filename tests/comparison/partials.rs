//! Random half-known stows: rows, and lists of readings that are right or damaged.

use crate::oracle::function::Term;
use crate::oracle::measurements::{Measurement, Measurements};
use crate::random::Random;

/// Any i32, mostly one at a limit or a small one.
fn number(random: &Random) -> i32 {
    match random.below(4) {
        0 => random.next() as i32,
        1 => random.choose(&[i32::MIN, i32::MIN + 1, i32::MAX - 1, i32::MAX]),
        _ => random.between(0, 6) as i32 - 3,
    }
}

/// A number at the other one or next to it, or any.
fn near(random: &Random, other: i32) -> i32 {
    match random.below(5) {
        0 => number(random),
        1 | 2 => other,
        3 => other.saturating_sub(1),
        _ => other.saturating_add(1),
    }
}

/// A right reading of a variable.
pub fn measurement(random: &Random, variable: u32) -> Measurement {
    let threshold = number(random);
    let (one, other) = (near(random, threshold), near(random, threshold));
    Measurement { variable, low: one.min(other), high: one.max(other), threshold }
}

/// A row over so many variables that marks few, half or most of them.
pub fn term(random: &Random, variables: u32) -> Term {
    let (assignment, any) = (random.next(), random.next());
    let marks = random.choose(&[0, any, any & random.next(), any | random.next()]) & ((1 << variables) - 1);
    Term { positive: assignment & marks, negative: !assignment & marks }
}

/// The row with a bit outside or in both masks.
pub fn no_term(random: &Random, term: Term, variables: u32) -> Term {
    let Term { positive, negative } = term;
    let inside = 1 << random.below(u64::from(variables));
    let outside = 1 << random.choose(&[u64::from(variables), 63, random.between(u64::from(variables), 63)]);
    match random.below(3) {
        0 => Term { positive: positive | inside, negative: negative | inside },
        1 => Term { positive: positive | outside, negative },
        _ => Term { positive, negative: negative | outside },
    }
}

/// Right readings of some of the variables that the row does not mark, in any order.
pub fn measurements(random: &Random, term: Term, variables: u32) -> Measurements {
    let mut free: Vec<u32> = (0..variables.min(64)).filter(|variable| term.marks() >> variable & 1 == 0).collect();
    random.shuffle(&mut free);
    free.truncate(random.position(free.len() + 1));
    measurements_of(random, &free)
}

/// A right reading of each of these variables, which are different ones.
pub fn measurements_of(random: &Random, variables: &[u32]) -> Measurements {
    let mut lists = Measurements::default();
    variables.iter().for_each(|&variable| lists.push(measurement(random, variable)));
    lists
}

/// Makes lists of any lengths of lists of one.
fn change_lengths(random: &Random, lists: &mut Measurements) {
    let length = |old: usize| random.choose(&[old, old, old + 1, old.saturating_sub(1), random.position(old + 1)]);
    lists.measured.resize(length(lists.measured.len()), 0);
    lists.numbers().into_iter().for_each(|list| list.resize(length(list.len()), 0));
}

/// Damages the readings in one way, where there is one to damage.
pub fn damage(random: &Random, lists: &mut Measurements, term: Term, variables: u32) {
    let complete = (0..lists.longest()).take_while(|&index| lists.entry(index).is_some()).count();
    if complete == 0 {
        return change_lengths(random, lists);
    }
    let index = random.position(complete);
    let marked: Vec<u32> = (0..variables.min(64)).filter(|variable| term.marks() >> variable & 1 == 1).collect();
    match random.below(5) {
        0 => {
            lists.highs[index] = lists.highs[index].min(i32::MAX - 1);
            lists.lows[index] = random.choose(&[lists.highs[index] + 1, i32::MAX]);
        }
        1 => {
            let outside =
                [variables, variables.wrapping_add(1), 40, 63, 64, 65, 64 + index as u32, 1 << 31, u32::MAX, random.next() as u32];
            lists.measured[index] = random.choose(&outside).max(variables);
        }
        2 if !marked.is_empty() => lists.measured[index] = random.choose(&marked),
        3 => lists.measured[index] = lists.measured[random.position(complete)],
        _ => change_lengths(random, lists),
    }
}
