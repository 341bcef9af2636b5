//! The operations as cases that both sides answer.

pub mod listings;
pub mod partials;
pub mod questions;
pub mod readings;
pub mod scripts;
pub mod walks;
pub mod writings;
