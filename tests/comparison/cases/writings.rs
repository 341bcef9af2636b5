//! The writer, and that what it wrote is read in again.

use super::questions::{paste_table, table_notes};
use crate::compare::{same, same_entries, Case, Seen};
use crate::engine::{self, MARGIN};
use crate::oracle::table::{Table, NODE_WORDS};
use crate::oracle::writer;
use crate::random::Random;
use crate::shrink;

/// A table, and the sink's length.
#[derive(Clone, Debug)]
pub struct Writing {
    pub table: Table,
    pub sink: usize,
}

impl Writing {
    pub fn new(table: Table, sink: usize) -> Writing {
        Writing { table, sink }
    }

    /// The text is read in again with just enough words, and gives the table.
    fn read_again(&self, text: &[u8]) -> Result<(), String> {
        let needed = NODE_WORDS * self.table.nodes as usize;
        let mut words = vec![u32::MAX; needed];
        let answer = engine::caught(|| engine::own(quelbrift::read(text, &mut words)));
        same("read again", answer, Ok(Ok((self.table.variables, self.table.nodes))))?;
        same_entries("words read again", &words, &self.table.words[..needed], 0)
    }
}

impl Case for Writing {
    fn compared(&self) -> Result<Seen, String> {
        let random = Random::new(self.sink as u64);
        let mut after: Vec<u8> = (0..self.sink + 2 * MARGIN).map(|_| random.next() as u8).collect();
        let mut expected = after.clone();
        let lent = engine::lent(&self.table);
        let engine_answer = engine::caught(|| engine::own(quelbrift::write(lent, engine::middle(&mut after))));
        let answer = writer::write(&self.table, engine::middle(&mut expected));
        same("write: the length, or the refusal", engine_answer.map(|done| done.map(|length| length as u64)), Ok(answer))?;
        same_entries("sink", &after, &expected, MARGIN)?;
        match answer {
            Ok(length) => self.read_again(&after[MARGIN..][..length as usize]).map(|()| ("write", 1)),
            Err(refusal) => Ok(("write", refusal.number)),
        }
    }

    fn smaller(&self) -> Vec<Writing> {
        let tables = shrink::tables(&self.table).into_iter().map(|table| Writing { table, ..self.clone() });
        let sinks = shrink::numbers(self.sink as u64).into_iter().map(|sink| Writing { sink: sink as usize, ..self.clone() });
        tables.chain(sinks).collect()
    }

    fn paste(&self) -> String {
        format!("Writing::new({}, {})", paste_table(&self.table), self.sink)
    }

    fn notes(&self) -> String {
        table_notes(&self.table)
    }
}
