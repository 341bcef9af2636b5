//! The operations on a table that answer with values alone.

use crate::compare::{same, Case, Seen};
use crate::engine;
use crate::oracle::answers::Oracle;
use crate::oracle::function::Term;
use crate::oracle::table::Table;
use crate::oracle::{writer, Refused};
use crate::shrink;

#[derive(Clone, Copy, Debug, PartialEq, Eq)]
pub enum Question {
    Check,
    Evaluate(u64),
    Count,
    /// The masks of the variables marked yes and of those marked no.
    Implies(u64, u64),
    Prime(u64, u64),
    Reduce(u64),
}

use Question::{Check, Count, Evaluate, Implies, Prime, Reduce};

/// The first and second value, or the refusal.
pub type Answer = Result<(u64, u64), Refused>;

impl Question {
    pub fn operation(self) -> &'static str {
        match self {
            Check => "check",
            Evaluate(_) => "evaluate",
            Count => "count",
            Implies(..) => "implies",
            Prime(..) => "prime",
            Reduce(_) => "reduce",
        }
    }

    /// What the tally notes of an answer.
    pub fn seen(self, answer: Answer) -> Seen {
        match answer {
            Ok((0, 0)) => (self.operation(), 0),
            Ok(_) => (self.operation(), 1),
            Err(refusal) => (self.operation(), refusal.number),
        }
    }

    fn smaller(self) -> Vec<Question> {
        let masks = |make: &dyn Fn(u64) -> Question, mask: u64| shrink::masks(mask).into_iter().map(make).collect::<Vec<_>>();
        match self {
            Check | Count => vec![],
            Evaluate(mask) => masks(&Evaluate, mask),
            Reduce(mask) => masks(&Reduce, mask),
            Implies(positive, negative) => {
                [masks(&|mask| Implies(mask, negative), positive), masks(&|mask| Implies(positive, mask), negative)].concat()
            }
            Prime(positive, negative) => {
                [masks(&|mask| Prime(mask, negative), positive), masks(&|mask| Prime(positive, mask), negative)].concat()
            }
        }
    }
}

/// The oracle's answer.
pub fn oracle_answer(oracle: &Oracle, question: Question) -> Answer {
    let truth = |value: bool| (u64::from(value), 0);
    match question {
        Check => oracle.accepted().map(|_| (0, 0)),
        Evaluate(assignment) => oracle.evaluate(assignment).map(truth),
        Count => oracle.count_models().map(|count| (count, 0)),
        Implies(positive, negative) => oracle.implies(Term { positive, negative }).map(truth),
        Prime(positive, negative) => oracle.is_prime(Term { positive, negative }).map(truth),
        Reduce(assignment) => oracle.reduce(assignment).map(|term| (term.positive, term.negative)),
    }
}

/// The engine's answer, or its panic.
pub fn engine_answer(table: &Table, question: Question) -> Result<Answer, String> {
    let truth = |value: bool| (u64::from(value), 0);
    let (lent, row) = (engine::lent(table), |positive, negative| engine::term(Term { positive, negative }));
    engine::caught(|| {
        engine::own(match question {
            Check => quelbrift::check(lent).map(|_| (0, 0)),
            Evaluate(assignment) => quelbrift::evaluate(lent, assignment).map(truth),
            Count => quelbrift::count_models(lent).map(|count| (count, 0)),
            Implies(positive, negative) => quelbrift::implies(lent, row(positive, negative)).map(truth),
            Prime(positive, negative) => quelbrift::is_prime(lent, row(positive, negative)).map(truth),
            Reduce(assignment) => quelbrift::reduce(lent, assignment).map(|term| (term.positive, term.negative)),
        })
    })
}

/// A question about a table.
#[derive(Clone, Debug)]
pub struct Asked {
    pub table: Table,
    pub question: Question,
}

impl Asked {
    pub fn new(table: Table, question: Question) -> Asked {
        Asked { table, question }
    }
}

impl Case for Asked {
    fn compared(&self) -> Result<Seen, String> {
        let answer = oracle_answer(&Oracle::new(&self.table), self.question);
        same(&format!("{:?}", self.question), engine_answer(&self.table, self.question), Ok(answer))?;
        Ok(self.question.seen(answer))
    }

    fn smaller(&self) -> Vec<Asked> {
        let tables = shrink::tables(&self.table).into_iter().map(|table| Asked { table, ..self.clone() });
        let questions = self.question.smaller().into_iter().map(|question| Asked { question, ..self.clone() });
        tables.chain(questions).collect()
    }

    fn paste(&self) -> String {
        format!("Asked::new({}, {:?})", paste_table(&self.table), self.question)
    }

    fn notes(&self) -> String {
        table_notes(&self.table)
    }
}

pub fn paste_table(table: &Table) -> String {
    format!("Table::new({}, {}, &{:?})", table.variables, table.nodes, table.words)
}

/// The circuit as text, where it can be written.
pub fn table_notes(table: &Table) -> String {
    match writer::text(table) {
        Ok(text) => format!("  the circuit as text\n{text}"),
        Err(refusal) => format!("  the table has no text: {refusal:?}\n"),
    }
}
