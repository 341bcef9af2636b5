//! Times: of one run, or the least of several.
use std::time::{Duration, Instant};

const ENOUGH: Duration = Duration::from_millis(300);
const LONG: Duration = Duration::from_secs(5);

/// How often a piece of work is done.
#[derive(Clone, Copy, PartialEq)]
pub enum Runs {
    Once,
    Several,
}

/// The least times of pieces of work 0 to count - 1, done in turn so that a disturbance meets all of them. Several runs are at least
/// three, until 0.3 s were spent on each; one where one of them takes over 5 s. Work that says false has no time and is not done again.
pub fn least(runs: Runs, count: usize, mut work: impl FnMut(usize) -> bool) -> Vec<Option<Duration>> {
    let mut least = vec![Some(Duration::MAX); count];
    let (mut spent, mut rounds) = (Duration::ZERO, 0);
    while rounds < 3 || spent < ENOUGH * count as u32 {
        for (i, best) in least.iter_mut().enumerate() {
            let start = Instant::now();
            *best = best.filter(|_| work(i)).map(|time| time.min(start.elapsed()));
            spent += start.elapsed();
        }
        rounds += 1;
        let none = least.iter().all(Option::is_none);
        if none || runs == Runs::Once || least.iter().flatten().any(|&time| time > LONG) {
            break;
        }
    }
    least
}

/// A time in a unit that suits it.
pub fn shown(time: Duration) -> String {
    match time.as_nanos() {
        0..10_000 => format!("{} ns", time.as_nanos()),
        10_000..10_000_000 => format!("{} us", time.as_micros()),
        10_000_000..10_000_000_000 => format!("{} ms", time.as_millis()),
        _ => format!("{:.1} s", time.as_secs_f64()),
    }
}
