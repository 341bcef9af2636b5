//! The archive against an oracle that tries everything out. Both answer the same cases; where they differ, the case is made small
//! and shown as a line for `checks/regressions.rs`. Seeds are fixed: every run has the same cases.
//!
//! QUELBRIFT_ARCHIVE names the folder of the archive. QUELBRIFT_RUN, a number, makes other random cases. With QUELBRIFT_TRACE set (and
//! `-- --nocapture --test-threads=1`) every case is printed before it is run.

mod cases;
mod checks;
mod circuits;
mod compare;
mod damage;
mod engine;
mod oracle;
mod pairs;
mod partials;
mod random;
mod scripts;
mod shrink;
mod tally;
mod texts;
mod weights;
