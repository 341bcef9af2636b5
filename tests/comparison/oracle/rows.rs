//! The clearances of a function by trying every row, and the rows of functions that share no variable from those of each.

use super::function::{spread, Listed, Term};

/// The order of rows without weights: fewer marks, then the smaller mask of all marked variables, then the smaller yes mask.
pub fn order(term: &Term) -> (u32, u64, u64) {
    (term.marks().count_ones(), term.marks(), term.positive)
}

/// The marks of a row, by variable; also the digits of the row's number in base three, the first variable's lowest.
type Marks = Vec<usize>;
const NO: usize = 0;
const YES: usize = 1;
const UNMARKED: usize = 2;

/// Every row, by its number.
fn every_row(variables: usize, mut visit: impl FnMut(usize, &Marks)) {
    let mut marks = vec![NO; variables];
    for row in 0..3usize.pow(variables as u32) {
        visit(row, &marks);
        for mark in &mut marks {
            *mark = (*mark + 1) % 3;
            if *mark != NO {
                break;
            }
        }
    }
}

/// The bits of the variables with that mark.
fn marked(marks: &Marks, mark: usize) -> usize {
    marks.iter().rev().fold(0, |bits, &other| 2 * bits + usize::from(other == mark))
}

/// For every row, whether each assignment that agrees with it makes the function true. A row with all marks agrees with one
/// assignment; any other one with those of two rows that mark one variable more, and these have lower numbers.
fn implied_rows(function: &[bool], variables: usize) -> Vec<bool> {
    let mut implied: Vec<bool> = vec![];
    every_row(variables, |row, marks| {
        let implies = match marks.iter().position(|&mark| mark == UNMARKED) {
            Some(variable) => {
                let step = 3usize.pow(variable as u32);
                implied[row - (UNMARKED - YES) * step] && implied[row - (UNMARKED - NO) * step]
            }
            None => function[marked(marks, YES)],
        };
        implied.push(implies);
    });
    implied
}

/// The clearances of a function of the tried variables, in order: the rows that imply it and stop doing so if any one mark is
/// struck.
pub fn primes(function: &[bool], tried: &[u32]) -> Vec<Term> {
    let implied = implied_rows(function, tried.len());
    let mut primes: Vec<Term> = vec![];
    every_row(tried.len(), |row, marks| {
        let struck = |variable: usize| row + (UNMARKED - marks[variable]) * 3usize.pow(variable as u32);
        let mut with_mark = (0..tried.len()).filter(|&variable| marks[variable] != UNMARKED);
        if implied[row] && with_mark.all(|variable| !implied[struck(variable)]) {
            primes.push(Term { positive: spread(tried, marked(marks, YES)), negative: spread(tried, marked(marks, NO)) });
        }
    });
    primes.sort_by_key(order);
    primes
}

/// The rows of a conjunction of functions that share no variable, in order: one row of each, joined.
pub fn joined(parts: &[&[Term]]) -> Vec<Term> {
    let join = |a: &Term, b: &Term| Term { positive: a.positive | b.positive, negative: a.negative | b.negative };
    let mut joined = vec![Term { positive: 0, negative: 0 }];
    for part in parts {
        joined = joined.iter().flat_map(|a| part.iter().map(move |b| join(a, b))).collect();
    }
    joined.sort_by_key(order);
    joined
}

/// The rows of a disjunction of functions that share no variable, none of which is true everywhere, in order: those of each.
pub fn united(parts: &[&[Term]]) -> Vec<Term> {
    let mut united = parts.concat();
    united.sort_by_key(order);
    united
}

/// The rows of a conjunction whose children share no variable, none of which is `false`, from those of its children.
pub fn of_conjunction(listed: Listed, parts: &[&[Term]]) -> Vec<Term> {
    match listed {
        Listed::Clearances => joined(parts),
        Listed::Blockers => united(parts),
    }
}
