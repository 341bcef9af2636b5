//! A case that both sides answer. Where they differ, it is made small and shown in a form that can be pasted into `regressions.rs`.

use crate::engine::caught;
use crate::tally::Tally;
use std::sync::OnceLock;
use std::time::{Duration, Instant};

/// What both sides said: the operation; and 0 or 1 where the work is done (0: no, none, nothing), of a half-known stow its verdict as 0
/// to 2, of a listing 2 where a clearance is not shown; else the refusal's number.
pub type Seen = (&'static str, u32);

pub trait Case: Clone {
    /// What both sides say, or how they differ.
    fn compared(&self) -> Result<Seen, String>;

    /// Cases that are smaller in some way, those that are much smaller first.
    fn smaller(&self) -> Vec<Self>;

    /// Rust text that makes the case again.
    fn paste(&self) -> String;

    /// More about the case for a reader, such as the circuit's text.
    fn notes(&self) -> String {
        String::new()
    }
}

/// No smaller cases are tried after this time.
const LONGEST_SHRINKING: Duration = Duration::from_secs(10);

/// The smallest case found, greedily, on which the two sides still differ.
fn shrunk<C: Case>(case: &C) -> C {
    let mut smallest = case.clone();
    let start = Instant::now();
    'again: loop {
        for candidate in smallest.smaller() {
            if start.elapsed() > LONGEST_SHRINKING {
                return smallest;
            }
            // A candidate that the oracle cannot try out is no smaller case.
            if let Ok(Err(_)) = caught(|| candidate.compared()) {
                smallest = candidate;
                continue 'again;
            }
        }
        return smallest;
    }
}

/// Fails with a small reproducer if the two sides differ.
pub fn compare<C: Case>(origin: &str, case: &C, tally: &mut Tally) {
    trace(origin, || case.clone());
    match case.compared() {
        Ok(seen) => tally.see(seen),
        Err(_) => fail(origin, case),
    }
}

/// With QUELBRIFT_TRACE set, prints a case before it is run: for a fault that ends the process or never ends.
pub fn trace<C: Case>(origin: &str, case: impl FnOnce() -> C) {
    static TRACING: OnceLock<bool> = OnceLock::new();
    if *TRACING.get_or_init(|| std::env::var_os("QUELBRIFT_TRACE").is_some()) {
        eprintln!("{origin}: {}", case().paste());
    }
}

/// Fails with a small reproducer of a difference.
pub fn fail<C: Case>(origin: &str, case: &C) -> ! {
    let small = shrunk(case);
    let difference = small.compared().expect_err("a difference");
    let (paste, notes) = (small.paste(), small.notes());
    panic!("engine and oracle differ ({origin}); to paste into regressions.rs:\n    again({paste});\n{difference}{notes}");
}

/// The two answers, where they are not the same.
pub fn same<T: PartialEq + std::fmt::Debug>(what: &str, engine: T, oracle: T) -> Result<(), String> {
    if engine == oracle {
        return Ok(());
    }
    Err(format!("  {what}\n    engine {engine:?}\n    oracle {oracle:?}\n"))
}

/// The first entry that differs, of two lists of one length.
pub fn same_entries<T: PartialEq + std::fmt::Debug>(what: &str, engine: &[T], oracle: &[T], margin: usize) -> Result<(), String> {
    match (0..oracle.len()).find(|&index| engine[index] != oracle[index]) {
        None => Ok(()),
        Some(index) => {
            let entry = index as i64 - margin as i64;
            same(&format!("{what}, entry {entry} of {} lent", oracle.len() - 2 * margin), &engine[index], &oracle[index])
        }
    }
}
