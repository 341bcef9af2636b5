//! The verdict for a partial assignment beside the count of models, on a few families. Every other variable is measured: the first of
//! these is true, the next false, the next unknown, and so on.
use crate::families::{at_least, hidden_weighted_bit, one_product, parity, Family};
use crate::measure::stop;
use crate::timing::{least, shown, Runs};
use quelbrift::{Completions, Table, Term};

/// The answer where each value measured is 5 to 7.
fn evaluated(table: Table, measured: &[u32], thresholds: &[i32]) -> Completions {
    let (lows, highs) = (vec![5; measured.len()], vec![7; measured.len()]);
    let empty = Term { positive: 0, negative: 0 };
    quelbrift::evaluate_partial(table, empty, measured, &lows, &highs, thresholds).unwrap_or_else(|refusal| stop(&refusal.to_string()))
}

fn line(family: &Family) {
    let table = family.circuit.table();
    let measured: Vec<u32> = (0..table.variables).step_by(2).collect();
    let thresholds: Vec<i32> = (0..measured.len()).map(|place| [5, 8, 6][place % 3]).collect();
    let models = quelbrift::count_models(table).unwrap_or_else(|refusal| stop(&refusal.to_string()));
    if evaluated(table, &[], &[]).allowed != models {
        stop(&format!("{}: the counts differ", family.name));
    }
    let times = least(Runs::Several, 2, |i| match i {
        0 => quelbrift::count_models(table).is_ok(),
        _ => evaluated(table, &measured, &thresholds).allowed <= models,
    });
    let [count, partial] = [times[0], times[1]].map(|time| time.map_or("none".into(), shown));
    println!("{:<38} {:>2} {:>5} {count:>8} {partial:>8}", family.name, table.variables, table.nodes);
}

pub fn print() {
    println!("{:<38} {:>2} {:>5} {:>8} {:>8}", "family", "N", "nodes", "count", "partial");
    [at_least(7, 14), parity(13), one_product(6, 1, 4), hidden_weighted_bit(12)].iter().for_each(line);
}
