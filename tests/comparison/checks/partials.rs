//! Half-known stows: random rows and readings about accepted tables, readings wrong in each way, and every reading at the limits.

use crate::cases::partials::Partial;
use crate::circuits;
use crate::compare::{fail, trace};
use crate::oracle::answers::Oracle;
use crate::oracle::function::Term;
use crate::oracle::measurements::{Measurement, Measurements, Wrong};
use crate::oracle::table::{Node, Table};
use crate::partials;
use crate::random::Random;
use crate::tally::Tally;

/// The answers seen, and of those that are 53 why the lowest wrong reading is wrong.
#[derive(Default)]
struct Judged {
    answers: Tally,
    reasons: Tally,
}

impl Judged {
    /// Fails where an answer or one of the reasons was seen less often.
    fn expect(&self, answers: &[(u32, u64)], reasons: u64) {
        self.answers.expect(&[("partial", answers)]);
        let least: &[(u32, u64)] = &[(53, reasons)];
        self.reasons.expect(&REASONS.map(|(_, reason)| (reason, least)));
    }
}

/// Why a reading is wrong, by the name in the tally.
const REASONS: [(Wrong, &str); 5] = [
    (Wrong::Incomplete, "incomplete"),
    (Wrong::LowAboveHigh, "low above high"),
    (Wrong::OutOfRange, "out of range"),
    (Wrong::Marked, "marked"),
    (Wrong::ReadBefore, "read before"),
];

/// One table and half-known stows about it.
struct Judging<'a> {
    origin: String,
    table: &'a Table,
    oracle: Oracle,
    judged: &'a mut Judged,
}

impl<'a> Judging<'a> {
    fn new(origin: String, table: &'a Table, judged: &'a mut Judged) -> Judging<'a> {
        Judging { origin, table, oracle: Oracle::new(table), judged }
    }

    fn judge(&mut self, term: Term, measurements: Measurements) {
        let case = Partial { table: self.table.clone(), term, measurements };
        trace(&self.origin, || case.clone());
        let Ok(seen) = case.compared_by(&self.oracle) else { fail(&self.origin, &case) };
        self.judged.answers.see(seen);
        if seen.1 == 53 {
            let (_, lowest) = case.measurements.lowest_wrong(term, self.table.variables).expect("a wrong reading");
            let (_, reason) = REASONS.into_iter().find(|(wrong, _)| *wrong == lowest).expect("a reason");
            self.judged.reasons.see((reason, 53));
        }
    }

    /// Random rows with right readings, with damaged ones, and rows that are none with either.
    fn judge_randomly(&mut self, random: &Random, times: u64) {
        let variables = self.table.variables;
        for _ in 0..times {
            let term = partials::term(random, variables);
            let mut lists = partials::measurements(random, term, variables);
            self.judge(term, lists.clone());
            (0..random.between(1, 2)).for_each(|_| partials::damage(random, &mut lists, term, variables));
            self.judge(term, lists.clone());
            if random.once_in(4) {
                self.judge(partials::no_term(random, term, variables), lists);
            }
        }
    }
}

#[test]
fn half_known_stows() {
    let mut judged = Judged::default();
    for seed in 0..4_000 {
        let random = Random::of(0x8000_0000, seed);
        let variables = random.between(1, 8) as u32;
        let table = circuits::table(&random, variables);
        Judging::new(format!("half-known, seed {seed}"), &table, &mut judged).judge_randomly(&random, 20);
    }
    judged.expect(&[(0, 10_000), (1, 10_000), (2, 10_000), (32, 10_000), (53, 30_000)], 1_500);
}

/// A reading that decides its variable as a mark of the row would.
fn deciding(random: &Random, variable: u32, value: bool) -> Measurement {
    loop {
        let entry = partials::measurement(random, variable);
        if entry.value() == Some(value) {
            return entry;
        }
    }
}

/// Every row over few variables: its marks given by the row, by readings, or by some of both.
#[test]
fn every_row() {
    let mut judged = Judged::default();
    for seed in 0..300 {
        let random = Random::of(0x8100_0000, seed);
        let variables = random.between(1, 5) as u32;
        let table = circuits::table(&random, variables);
        let mut judging = Judging::new(format!("every row, seed {seed}"), &table, &mut judged);
        let rows = (0..1u64 << variables).flat_map(|positive| (0..1u64 << variables).map(move |negative| (positive, negative)));
        for (positive, negative) in rows.filter(|(positive, negative)| positive & negative == 0) {
            for measured in [0, u64::MAX, random.next()] {
                let mut lists = Measurements::default();
                for variable in (0..variables).filter(|variable| (positive | negative) & measured >> variable & 1 == 1) {
                    lists.push(deciding(&random, variable, positive >> variable & 1 == 1));
                }
                judging.judge(Term { positive: positive & !measured, negative: negative & !measured }, lists);
            }
        }
    }
    judged.answers.expect(&[("partial", &[(0, 5_000), (1, 5_000), (2, 5_000)])]);
}

/// Every low, high and threshold at the limits of an i32 and around 0.
#[test]
fn every_measurement() {
    let mut judged = Judged::default();
    let numbers = [i32::MIN, i32::MIN + 1, -2, -1, 0, 1, 2, i32::MAX - 1, i32::MAX];
    for node in [Node::Yes(1), Node::No(1)] {
        let table = Table::of(3, &[node]);
        let mut judging = Judging::new("every measurement".to_string(), &table, &mut judged);
        for (low, high) in numbers.into_iter().flat_map(|low| numbers.map(|high| (low, high))) {
            for threshold in numbers {
                let mut lists = Measurements::default();
                lists.push(Measurement { variable: 1, low, high, threshold });
                judging.judge(Term::EMPTY, lists);
            }
        }
    }
    judged.answers.expect(&[("partial", &[(0, 200), (1, 200), (2, 200), (53, 600)])]);
}

/// Lists of all lengths up to three, right but for that, and with a wrong entry at every place.
#[test]
fn every_length() {
    let mut judged = Judged::default();
    let random = Random::of(0x8200_0000, 0);
    let table = Table::of(5, &[Node::Yes(2), Node::No(0), Node::Pick(1, 0, 1)]);
    let term = Term { positive: 8, negative: 0 };
    let mut judging = Judging::new("every length".to_string(), &table, &mut judged);
    for lengths in 0..256 {
        for (place, wrong) in (0..4).flat_map(|place| (0..5).map(move |wrong| (place, wrong))) {
            let mut lists = partials::measurements_of(&random, &[4, 0, 2]);
            if place < 3 {
                match wrong {
                    0 => (lists.lows[place], lists.highs[place]) = (1, 0),
                    1 => lists.measured[place] = 5,
                    2 => lists.measured[place] = 3,
                    3 => lists.measured[place] = lists.measured[(place + 1) % 3],
                    _ => {}
                }
            }
            lists.measured.truncate(lengths & 3);
            lists.numbers().into_iter().zip([2, 4, 6]).for_each(|(list, place)| list.truncate(lengths >> place & 3));
            judging.judge(term, lists);
        }
    }
    judged.expect(&[(53, 4_000)], 5);
}

/// A reading of every variable, and then more: the first one too many is the lowest wrong one.
#[test]
fn long_lists() {
    let mut judged = Judged::default();
    for seed in 0..200 {
        let random = Random::of(0x8300_0000, seed);
        let (named, variables) = (random.between(1, 7) as u32, random.between(8, 40) as u32);
        let table = Table::of(variables, &circuits::scattered(&random, &circuits::nodes(&random, named), variables));
        let mut order: Vec<u32> = (0..variables).collect();
        random.shuffle(&mut order);
        let mut lists = partials::measurements_of(&random, &order);
        let mut judging = Judging::new(format!("long lists, seed {seed}"), &table, &mut judged);
        judging.judge(Term::EMPTY, lists.clone());
        for _ in 0..random.choose(&[1, 2, 60, 3_000]) {
            lists.push(partials::measurement(&random, random.below(u64::from(variables)) as u32));
        }
        let first = lists.lowest_wrong(Term::EMPTY, variables).map(|(index, _)| index);
        assert_eq!(first, Some(variables as usize));
        judging.judge(Term::EMPTY, lists);
    }
    judged.answers.expect(&[("partial", &[(0, 10), (1, 10), (2, 10), (53, 200)])]);
}

/// Few variables are named, anywhere among up to 40: the numbers count the others too.
#[test]
fn scattered_variables() {
    let mut judged = Judged::default();
    for seed in 0..2_000 {
        let random = Random::of(0x8400_0000, seed);
        let (named, variables) = (random.between(1, 7) as u32, random.choose(&[40, 40, random.between(9, 40)]) as u32);
        let table = Table::of(variables, &circuits::scattered(&random, &circuits::nodes(&random, named), variables));
        Judging::new(format!("half-known, scattered, seed {seed}"), &table, &mut judged).judge_randomly(&random, 10);
    }
    judged.expect(&[(0, 2_000), (1, 2_000), (2, 2_000), (32, 2_000), (53, 10_000)], 1_000);
}

/// Circuits that name up to 40 variables, with up to 1,024 nodes: the oracle counts.
#[test]
fn many_variables_and_nodes() {
    let mut judged = Judged::default();
    for seed in 0..500 {
        let random = Random::of(0x8500_0000, seed);
        let variables = random.choose(&[40, 33, 32, 31, random.between(14, 40)]) as u32;
        let nodes = match random.below(3) {
            0 => circuits::built(&random, variables, 30),
            1 => circuits::layered(&random, variables, random.between(2, 40)),
            _ => circuits::chain(&random, variables, random.between(100, 1_000)),
        };
        let table = Table::of(variables, &circuits::scattered(&random, &nodes, variables));
        Judging::new(format!("half-known, many, seed {seed}"), &table, &mut judged).judge_randomly(&random, 10);
    }
    judged.expect(&[(0, 500), (1, 500), (2, 500), (32, 500), (53, 2_000)], 200);
}
