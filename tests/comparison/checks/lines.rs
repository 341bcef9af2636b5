//! Stow lines, right ones and damaged ones.

use crate::cases::readings::Line;
use crate::compare::compare;
use crate::random::Random;
use crate::tally::Tally;
use crate::texts;

#[test]
fn stow_lines() {
    let mut tally = Tally::default();
    for seed in 0..100_000 {
        let random = Random::of(0xf000_0000, seed);
        let variables = random.choose(&[0, 1, 2, 39, 40, 41, u32::MAX, random.between(1, 40) as u32, random.between(1, 40) as u32]);
        let more = if random.once_in(5) { 2 } else { 0 };
        let mut line = texts::stow_line(&random, variables.saturating_add(more));
        for _ in 0..random.choose(&[0, 1, 1, 2, 3]) {
            texts::edit(&random, &mut line);
        }
        compare(&format!("stow lines, seed {seed}"), &Line::new(&line, variables), &mut tally);
    }
    tally.expect(&[("line", &[(0, 1_000), (1, 10_000), (21, 10_000), (51, 10_000), (52, 5_000)])]);
}

/// Every beginning of a line with every byte after it; every number in two places.
#[test]
fn every_byte_and_number() {
    let mut tally = Tally::default();
    let line = b"(stow 0 7 10 39)\n";
    for length in 0..=line.len() {
        for byte in 0..=255 {
            let mut changed = line[..length].to_vec();
            changed.push(byte);
            compare("stow lines", &Line::new(&changed, 40), &mut tally);
            changed.extend(&line[(length + 1).min(line.len())..]);
            compare("stow lines", &Line::new(&changed, 40), &mut tally);
        }
        compare("stow lines", &Line::new(&line[..length], 40), &mut tally);
    }
    for number in (0..=9_999).chain([10_000, 65_536, 65_537]) {
        for variables in [1, 13, 32, 33, 40] {
            compare("stow lines", &Line::new(format!("(stow {number})\n").as_bytes(), variables), &mut tally);
            compare("stow lines", &Line::new(format!("(stow 12 {number})\n").as_bytes(), variables), &mut tally);
            compare("stow lines", &Line::new(format!("(stow {number} 12)\n").as_bytes(), variables), &mut tally);
        }
    }
    tally.expect(&[("line", &[(1, 100), (51, 1_000), (52, 10_000)])]);
}
