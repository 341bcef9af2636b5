//! Random accepted tables over few variables: every operation that answers with values.

use crate::cases::questions::Question::{self, Check, Count, Evaluate, Implies, Prime, Reduce};
use crate::cases::questions::{engine_answer, oracle_answer, Asked};
use crate::circuits;
use crate::compare::{fail, trace};
use crate::oracle::answers::Oracle;
use crate::oracle::table::Table;
use crate::random::Random;
use crate::tally::Tally;

/// One table and all questions about it.
pub struct Questioning<'a> {
    origin: String,
    pub table: &'a Table,
    oracle: Oracle,
    tally: &'a mut Tally,
}

impl<'a> Questioning<'a> {
    pub fn new(origin: String, table: &'a Table, tally: &'a mut Tally) -> Questioning<'a> {
        Questioning { origin, table, oracle: Oracle::new(table), tally }
    }

    pub fn ask(&mut self, question: Question) {
        trace(&self.origin, || Asked::new(self.table.clone(), question));
        let answer = oracle_answer(&self.oracle, question);
        if engine_answer(self.table, question) != Ok(answer) {
            fail(&self.origin, &Asked::new(self.table.clone(), question));
        }
        self.tally.see(question.seen(answer));
    }

    pub fn ask_row(&mut self, positive: u64, negative: u64) {
        self.ask(Implies(positive, negative));
        self.ask(Prime(positive, negative));
    }

    pub fn ask_assignment(&mut self, assignment: u64) {
        self.ask(Evaluate(assignment));
        self.ask(Reduce(assignment));
    }

    /// Random rows; rows struck down to clearances, with a mark less, and with a mark more.
    pub fn ask_rows_near(&mut self, random: &Random, assignment: u64) {
        let all = (1u64 << self.table.variables) - 1;
        let marks = random.next() & random.next() & all;
        self.ask_row(assignment & marks, !assignment & marks);
        if let Ok(term) = self.oracle.reduce(assignment) {
            let bit = 1 << random.below(u64::from(self.table.variables));
            self.ask_row(term.positive, term.negative);
            self.ask_row(term.positive & !bit, term.negative & !bit);
            self.ask_row(term.positive | (assignment & bit), term.negative | (!assignment & bit));
        }
    }

    /// Masks with a bit outside, and rows with a bit in both masks.
    pub fn ask_invalid(&mut self, random: &Random) {
        let variables = u64::from(self.table.variables);
        let inside = random.next() & ((1 << variables) - 1);
        let outside = 1u64 << random.choose(&[variables, 63, random.between(variables, 63)]);
        self.ask_assignment(inside | outside);
        self.ask_assignment(random.next() | outside);
        self.ask_row(outside, inside);
        self.ask_row(inside, outside);
        let both = 1 << random.below(variables);
        self.ask_row(inside | both, !inside & ((1 << variables) - 1) | both);
        self.ask_row(random.next(), random.next());
    }
}

pub fn ask_everything(questioning: &mut Questioning, random: &Random) {
    let variables = questioning.table.variables;
    questioning.ask(Check);
    questioning.ask(Count);
    for assignment in 0..1 << variables {
        questioning.ask_assignment(assignment);
    }
    if variables <= 5 {
        for positive in 0..1u64 << variables {
            (0..1 << variables).filter(|negative| positive & negative == 0).for_each(|negative| questioning.ask_row(positive, negative));
        }
    } else {
        for _ in 0..40 {
            let assignment = random.below(1 << variables);
            questioning.ask_rows_near(random, assignment);
        }
    }
    questioning.ask_invalid(random);
}

#[test]
fn every_question_about_accepted_tables() {
    let mut tally = Tally::default();
    for seed in 0..3_000 {
        let random = Random::of(0xa000_0000, seed);
        let variables = random.between(1, 8) as u32;
        let table = circuits::table(&random, variables);
        assert_eq!(table.check().err(), None, "the generator makes accepted tables (seed {seed})");
        ask_everything(&mut Questioning::new(format!("questions, seed {seed}"), &table, &mut tally), &random);
    }
    tally.expect(&[
        ("check", &[(0, 3_000)]),
        ("evaluate", &[(0, 10_000), (1, 10_000), (31, 5_000)]),
        ("count", &[(0, 10), (1, 2_500)]),
        ("implies", &[(0, 10_000), (1, 10_000), (32, 5_000)]),
        ("prime", &[(0, 10_000), (1, 10_000), (32, 5_000)]),
        ("reduce", &[(0, 100), (1, 10_000), (31, 5_000), (33, 10_000)]),
    ]);
}
