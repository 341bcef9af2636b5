//! Refusals, with their texts.

use std::error::Error;
use std::fmt::{Display, Formatter, Result};

/// The number of a refusal, and its byte, node, measurement, step or needed length.
#[derive(Clone, Copy, Debug, PartialEq, Eq)]
pub struct Refusal {
    pub number: u32,
    pub place: u64,
}

/// What the place of a refusal is.
#[derive(Clone, Copy, Debug, PartialEq, Eq)]
pub enum Place {
    Byte,
    Node,
    /// The reading, by its index in the lent lists.
    Measurement,
    /// Of a loading script: the byte where it is read, the step where it is walked.
    ByteOrStep,
    Length,
    Nowhere,
}

impl Refusal {
    /// What its place is.
    pub fn kind_of_place(self) -> Place {
        match self.number {
            10..=15 | 51 | 52 => Place::Byte,
            16 => Place::Length,
            22..=25 => Place::Node,
            53 => Place::Measurement,
            54 | 55 => Place::ByteOrStep,
            _ => Place::Nowhere,
        }
    }

    /// Why, in the words of the trade; those of `quelbrift_text` in the header.
    pub fn text(self) -> &'static str {
        match self.number {
            10 => "the circuit text is too long",
            11 => "the circuit text has the wrong shape",
            12 => "a number of facts, or a fact, is out of range",
            13 => "not the number of an earlier line",
            14 => "brackets go too deep",
            15 => "no room for another node",
            16 => "the text does not fit the sink",
            21 => "facts, nodes or words are out of range",
            22 => "a node is malformed",
            23 => "a node is nobody's child",
            24 => "a fact is where it must not be: under two children, or under its own pick",
            25 => "a child is false that must not be",
            31 => "the stow has a fact out of range",
            32 => "the row has a fact out of range, or one marked both yes and no",
            33 => "the stow is not allowed",
            41 => "the room is too large, or a buffer too short for it",
            42 => "the list has more rows than the room",
            51 => "the stow line has the wrong shape",
            52 => "a fact of the stow line is out of range or out of order",
            53 => "a reading is incomplete, its low above its high, or its fact out of range, marked or read already",
            54 => "the loading script has the wrong shape, or a step too many",
            55 => "a fact of the loading script is out of range",
            56 => "the minutes are not one entry for each fact, or an entry is above 1,000",
            57 => "a pair is incomplete, names a fact twice, or one that is out of range",
            _ => "no number of Quelbrift",
        }
    }
}

impl Display for Refusal {
    fn fmt(&self, out: &mut Formatter<'_>) -> Result {
        write!(out, "refused {}", self.number)?;
        match self.kind_of_place() {
            Place::Byte => write!(out, " at byte {}", self.place)?,
            Place::Node => write!(out, " at node {}", self.place)?,
            Place::Measurement => write!(out, " at reading {}", self.place)?,
            Place::ByteOrStep => write!(out, " at byte or step {}", self.place)?,
            Place::Length => write!(out, ", {} bytes needed", self.place)?,
            Place::Nowhere => {}
        }
        write!(out, ": {}", self.text())
    }
}

impl Error for Refusal {}
