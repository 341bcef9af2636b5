//! A second engine, written from the scope and the article alone: plain, not fast. It tries every assignment and every row, and shares
//! no code with the archive or its wrapper.

pub mod answers;
pub mod assignment_line;
pub mod counting;
pub mod function;
pub mod grammar;
pub mod listing;
pub mod measurements;
pub mod pairs;
pub mod rows;
pub mod script;
pub mod table;
pub mod text;
pub mod view;
pub mod walk;
pub mod weights;
pub mod writer;

/// A refusal: its number, and its byte, its node, its reading, its step or the needed length.
#[derive(Clone, Copy, Debug, PartialEq, Eq)]
pub struct Refused {
    pub number: u32,
    pub place: u64,
}

pub fn refused<T>(number: u32, place: u64) -> Result<T, Refused> {
    Err(Refused { number, place })
}
