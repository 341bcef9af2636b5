//! The verdict for a half-known stow.

use super::questions::{paste_table, table_notes};
use crate::compare::{same, Case, Seen};
use crate::engine;
use crate::oracle::answers::{Completions, Oracle};
use crate::oracle::function::Term;
use crate::oracle::measurements::Measurements;
use crate::oracle::table::Table;
use crate::oracle::Refused;
use crate::shrink;

/// A row and readings, about a table.
#[derive(Clone, Debug)]
pub struct Partial {
    pub table: Table,
    pub term: Term,
    pub measurements: Measurements,
}

/// The engine's answer, or its panic.
pub fn engine_answer(table: &Table, term: Term, measurements: &Measurements) -> Result<Result<Completions, Refused>, String> {
    let Measurements { measured, lows, highs, thresholds } = measurements;
    let (lent, term) = (engine::lent(table), engine::term(term));
    let answer = engine::caught(|| engine::own(quelbrift::evaluate_partial(lent, term, measured, lows, highs, thresholds)));
    answer.map(|answer| answer.map(engine::completions))
}

impl Partial {
    /// The masks of the variables marked yes and of those marked no; the readings list by list.
    pub fn new(table: Table, positive: u64, negative: u64, measured: &[u32], lows: &[i32], highs: &[i32], thresholds: &[i32]) -> Partial {
        let [lows, highs, thresholds] = [lows, highs, thresholds].map(<[i32]>::to_vec);
        Partial {
            table,
            term: Term { positive, negative },
            measurements: Measurements { measured: measured.to_vec(), lows, highs, thresholds },
        }
    }

    pub fn compared_by(&self, oracle: &Oracle) -> Result<Seen, String> {
        let answer = oracle.evaluate_partial(self.term, &self.measurements);
        same("evaluate_partial", engine_answer(&self.table, self.term, &self.measurements), Ok(answer))?;
        Ok(("partial", answer.map_or_else(|refusal| refusal.number, |completions| completions.verdict as u32)))
    }

    fn with_measurements(&self, measurements: Measurements) -> Partial {
        Partial { measurements, ..self.clone() }
    }
}

/// The list without one entry, where it has it.
fn without<T: Clone>(list: &[T], index: usize) -> Vec<T> {
    list.iter().take(index).chain(list.iter().skip(index + 1)).cloned().collect()
}

/// Shorter lists: without one entry of all four, or without the last of one list; and entries nearer to 0.
fn smaller_measurements(measurements: &Measurements) -> Vec<Measurements> {
    let mut smaller = vec![];
    let mut change = |change: &dyn Fn(&mut Measurements)| {
        let mut changed = measurements.clone();
        change(&mut changed);
        smaller.push(changed);
    };
    for index in 0..measurements.longest() {
        change(&|lists| {
            lists.measured = without(&lists.measured, index);
            lists.numbers().into_iter().for_each(|list| *list = without(list, index));
        });
    }
    change(&|lists| lists.measured.truncate(measurements.measured.len().saturating_sub(1)));
    for (index, &variable) in measurements.measured.iter().enumerate() {
        shrink::numbers(u64::from(variable)).iter().for_each(|&lower| change(&|lists| lists.measured[index] = lower as u32));
    }
    for (list, numbers) in measurements.clone().numbers().into_iter().enumerate() {
        change(&|lists| lists.numbers()[list].truncate(numbers.len().saturating_sub(1)));
        for (index, number) in numbers.iter().enumerate() {
            let nearer = shrink::numbers(u64::from(number.unsigned_abs()));
            nearer.iter().for_each(|&size| change(&|lists| lists.numbers()[list][index] = size as i32 * number.signum()));
        }
    }
    smaller.retain(|candidate| candidate != measurements);
    smaller
}

impl Case for Partial {
    fn compared(&self) -> Result<Seen, String> {
        self.compared_by(&Oracle::new(&self.table))
    }

    fn smaller(&self) -> Vec<Partial> {
        let mut smaller: Vec<Partial> =
            smaller_measurements(&self.measurements).into_iter().map(|lists| self.with_measurements(lists)).collect();
        smaller.extend(shrink::tables(&self.table).into_iter().map(|table| Partial { table, ..self.clone() }));
        let Term { positive, negative } = self.term;
        let lower_yes = shrink::masks(positive).into_iter().map(|positive| Term { positive, negative });
        let lower_no = shrink::masks(negative).into_iter().map(|negative| Term { positive, negative });
        smaller.extend(lower_yes.chain(lower_no).map(|term| Partial { term, ..self.clone() }));
        smaller
    }

    fn paste(&self) -> String {
        let Measurements { measured, lows, highs, thresholds } = &self.measurements;
        let (table, Term { positive, negative }) = (paste_table(&self.table), self.term);
        format!("Partial::new({table}, {positive}, {negative}, &{measured:?}, &{lows:?}, &{highs:?}, &{thresholds:?})")
    }

    fn notes(&self) -> String {
        table_notes(&self.table)
    }
}
