//! Random pairs: right lists, and lists that are wrong in one way.

use crate::oracle::function::Term;
use crate::oracle::pairs::Pairs;
use crate::random::Random;

/// Any two of so many variables, or two that one of the rows marks, often both yes.
fn pair(random: &Random, variables: u32, rows: &[Term]) -> (u32, u32) {
    let all = u64::MAX >> (64 - variables);
    let row = if rows.is_empty() { Term::EMPTY } else { random.choose(rows) };
    let mask = random.choose(&[all, row.marks(), row.positive, row.positive]);
    let mask = if mask.count_ones() < 2 { all } else { mask };
    let first = random.bit_of(mask);
    (first, random.bit_of(mask & !(1 << first)))
}

/// A right list, beside these rows: none, few or many pairs, in any order, some of them again or the other way round; at times all.
pub fn right(random: &Random, variables: u32, rows: &[Term]) -> Pairs {
    if variables < 2 {
        return Pairs::default();
    }
    let number = random.choose(&[0, 1, 1, 2, 3, random.position(2 * variables as usize)]);
    let mut pairs: Vec<(u32, u32)> = (0..number).map(|_| pair(random, variables, rows)).collect();
    if random.once_in(40) {
        pairs.extend((0..variables).flat_map(|first| (0..first).map(move |second| (first, second))));
    }
    if random.once_in(3) && !pairs.is_empty() {
        let (first, second) = random.choose(&pairs);
        pairs.push(random.choose(&[(first, second), (second, first)]));
    }
    random.shuffle(&mut pairs);
    Pairs::of(&pairs)
}

/// A wrong list: one variable twice in a pair, one out of range, first or second, or one list longer than the other.
pub fn wrong(random: &Random, variables: u32, rows: &[Term]) -> Pairs {
    let Pairs { mut firsts, mut seconds } = right(random, variables, rows);
    let place = random.choose(&[0, firsts.len(), random.position(firsts.len() + 1)]);
    let inside = random.below(u64::from(variables.max(1))) as u32;
    let any = (random.next() as u32).max(variables);
    let outside = random.choose(&[variables, variables, variables + 1, 64, 64 + inside, 256 + inside, 1 << 31 | inside, u32::MAX, any]);
    let kinds = [(inside, inside), (outside, inside), (inside, outside)].map(|(first, second)| (Some(first), Some(second)));
    let (first, second) = random.choose(&[&kinds[..], &[(Some(inside), None), (None, Some(inside))]].concat());
    first.into_iter().for_each(|variable| firsts.insert(place, variable));
    second.into_iter().for_each(|variable| seconds.insert(place, variable));
    Pairs { firsts, seconds }
}

/// Mostly a right list.
pub fn any(random: &Random, variables: u32, rows: &[Term]) -> Pairs {
    match random.once_in(6) {
        true => wrong(random, variables, rows),
        false => right(random, variables, rows),
    }
}
