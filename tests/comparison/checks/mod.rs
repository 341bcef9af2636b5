//! The tests, one subject a file.

mod chains;
mod damaged;
mod duality;
mod limits;
mod lines;
mod listed;
mod negations;
mod oracle;
mod pairs;
mod papers;
mod partials;
mod questions;
mod reading;
mod regressions;
mod scripts;
mod small;
mod walks;
mod weights;
mod wide;
mod writing;
