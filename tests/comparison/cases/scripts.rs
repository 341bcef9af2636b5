//! The reader of loading scripts.

use crate::compare::{same, same_entries, Case, Seen};
use crate::engine::{self, MARGIN};
use crate::oracle::script::{self, Step};
use crate::random::Random;
use crate::shrink;

/// A script over so many variables, and the length of the lent list.
#[derive(Clone, Debug)]
pub struct Script {
    pub text: Vec<u8>,
    pub variables: u32,
    pub room: usize,
}

impl Script {
    pub fn new(text: &[u8], variables: u32, room: usize) -> Script {
        Script { text: text.to_vec(), variables, room }
    }
}

impl Case for Script {
    fn compared(&self) -> Result<Seen, String> {
        let random = Random::new(self.room as u64);
        let noise = || Step { variable: random.next() as u32, act: random.next() as u32 };
        let mut after: Vec<Step> = (0..self.room + 2 * MARGIN).map(|_| noise()).collect();
        let mut expected = after.clone();
        let engine_answer = engine::caught(|| engine::read_script(&self.text, self.variables, &mut after));
        let answer = script::read(&self.text, self.variables, engine::middle(&mut expected));
        same("read_script: the number of steps, or the refusal", engine_answer, Ok(answer))?;
        same_entries("list", &after, &expected, MARGIN)?;
        Ok(("script", answer.map_or_else(|refusal| refusal.number, |steps| u32::from(steps > 0))))
    }

    fn smaller(&self) -> Vec<Script> {
        let mut smaller: Vec<Script> = shrink::texts(&self.text).into_iter().map(|text| Script { text, ..self.clone() }).collect();
        let lower = shrink::numbers(u64::from(self.variables)).into_iter();
        smaller.extend(lower.map(|variables| Script { variables: variables as u32, ..self.clone() }));
        smaller.extend(shrink::numbers(self.room as u64).into_iter().map(|room| Script { room: room as usize, ..self.clone() }));
        smaller
    }

    fn paste(&self) -> String {
        format!("Script::new(b\"{}\", {}, {})", self.text.escape_ascii(), self.variables, self.room)
    }
}
