//! The readers: circuit text into lent words, and stow lines.

use crate::compare::{same, same_entries, Case, Seen};
use crate::engine::{self, MARGIN};
use crate::oracle::{assignment_line, text};
use crate::random::Random;
use crate::shrink;

/// A circuit text, and how many words are lent.
#[derive(Clone, Debug)]
pub struct Reading {
    pub text: Vec<u8>,
    pub room: usize,
}

impl Reading {
    pub fn new(text: &[u8], room: usize) -> Reading {
        Reading { text: text.to_vec(), room }
    }
}

impl Case for Reading {
    fn compared(&self) -> Result<Seen, String> {
        let random = Random::new(self.room as u64);
        let mut after: Vec<u32> = (0..self.room + 2 * MARGIN).map(|_| random.next() as u32).collect();
        let mut expected = after.clone();
        let engine_answer = engine::caught(|| engine::own(quelbrift::read(&self.text, engine::middle(&mut after))));
        let answer = text::read(&self.text, engine::middle(&mut expected));
        same("read: variables and nodes, or the refusal", engine_answer, Ok(answer))?;
        same_entries("words", &after, &expected, MARGIN)?;
        Ok(("read", answer.map_or_else(|refusal| refusal.number, |_| 1)))
    }

    fn smaller(&self) -> Vec<Reading> {
        let texts = shrink::texts(&self.text).into_iter().map(|text| Reading { text, ..self.clone() });
        let rooms = shrink::numbers(self.room as u64).into_iter().map(|room| Reading { room: room as usize, ..self.clone() });
        texts.chain(rooms).collect()
    }

    fn paste(&self) -> String {
        format!("Reading::new(b\"{}\", {})", self.text.escape_ascii(), self.room)
    }
}

/// A stow line over so many variables.
#[derive(Clone, Debug)]
pub struct Line {
    pub line: Vec<u8>,
    pub variables: u32,
}

impl Line {
    pub fn new(line: &[u8], variables: u32) -> Line {
        Line { line: line.to_vec(), variables }
    }
}

impl Case for Line {
    fn compared(&self) -> Result<Seen, String> {
        let engine_answer = engine::caught(|| engine::own(quelbrift::read_assignment(&self.line, self.variables)));
        let answer = assignment_line::read(&self.line, self.variables);
        same("read_assignment: the assignment, or the refusal", engine_answer, Ok(answer))?;
        Ok(("line", answer.map_or_else(|refusal| refusal.number, |assignment| u32::from(assignment > 0))))
    }

    fn smaller(&self) -> Vec<Line> {
        let lines = shrink::texts(&self.line).into_iter().map(|line| Line { line, ..self.clone() });
        let lower = shrink::numbers(u64::from(self.variables)).into_iter();
        lines.chain(lower.map(|variables| Line { variables: variables as u32, ..self.clone() })).collect()
    }

    fn paste(&self) -> String {
        format!("Line::new(b\"{}\", {})", self.line.escape_ascii(), self.variables)
    }
}
