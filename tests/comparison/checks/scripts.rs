//! Loading scripts as texts, right ones and damaged ones, into lists of every length.

use crate::cases::scripts::Script;
use crate::compare::compare;
use crate::oracle::script::MOST_STEPS;
use crate::random::Random;
use crate::scripts;
use crate::tally::Tally;

/// A number of variables from 0 to 41, mostly one that is allowed, or a very large one.
fn variables(random: &Random) -> u32 {
    random.choose(&[0, 1, 40, 41, u32::MAX, random.below(42) as u32, random.between(1, 40) as u32, random.between(1, 12) as u32])
}

#[test]
fn short_scripts() {
    let mut tally = Tally::default();
    for seed in 0..100_000 {
        let random = Random::of(0x9000_0000, seed);
        let (variables, lines) = (variables(&random), random.position(7));
        let mut text = scripts::text(&random, variables, lines);
        for _ in 0..random.choose(&[0, 0, 1, 1, 1, 2, 3]) {
            scripts::edit(&random, &mut text);
        }
        let room = random.choose(&[lines, lines + 1, lines.saturating_sub(1), random.position(9), 8, 8, 8, 300]);
        compare(&format!("short scripts, seed {seed}"), &Script::new(&text, variables, room), &mut tally);
    }
    tally.expect(&[("script", &[(0, 3_000), (1, 10_000), (21, 10_000), (54, 30_000), (55, 5_000)])]);
}

/// Around the most lines and around the list's length, at times damaged, anywhere or near the end.
#[test]
fn long_scripts() {
    let mut tally = Tally::default();
    for seed in 0..8_000 {
        let random = Random::of(0x9100_0000, seed);
        let (variables, lines) = (random.between(1, 40) as u32, random.choose(&[255, 256, 257, 300, random.position(400)]));
        let mut text = scripts::text(&random, variables, lines);
        for _ in 0..random.choose(&[0, 0, 0, 1, 2]) {
            let end = if random.once_in(2) { text.len().saturating_sub(random.position(40)) } else { 0 };
            let mut part = text.split_off(end);
            scripts::edit(&random, &mut part);
            text.extend(part);
        }
        let room = random.choose(&[lines, lines + 1, lines.saturating_sub(1), 255, 256, 257, 1_000, random.position(400)]);
        compare(&format!("long scripts, seed {seed}"), &Script::new(&text, variables, room), &mut tally);
    }
    tally.expect(&[("script", &[(1, 1_000), (54, 3_000), (55, 300)])]);
}

/// What may follow the last line: nothing, a wrong byte, a right line, parts of one, and one out of range.
const ENDINGS: [&str; 16] = [
    "", "(", "(s", "(set", "(set 2", "(set 2 yes)", "(set 2 yes)\n", "(drop 1)\n", "(drop 9)\n", "(set 9", "x", ")", " ", "\n", "\0",
    "(drop 1)\n(",
];

/// Scripts of few lines and of about the most, in lists of each length around theirs, with every ending.
#[test]
fn every_length() {
    let mut tally = Tally::default();
    let lengths = (0..=6).chain(MOST_STEPS - 2..=MOST_STEPS + 3);
    for (lines, room) in lengths.clone().flat_map(|lines| lengths.clone().map(move |room| (lines, room))) {
        for line in ["(drop 1)\n", "(set 2 yes)\n", "(set 0 no)\n"] {
            for ending in ENDINGS {
                let text = line.repeat(lines) + ending;
                compare("lengths", &Script::new(text.as_bytes(), 3, room), &mut tally);
                // The last byte goes; and the last line names a variable that is out of range.
                let shorter = &text[..text.len().saturating_sub(1)];
                compare("lengths", &Script::new(shorter.as_bytes(), 3, room), &mut tally);
                let outside = line.repeat(lines.saturating_sub(1)) + &line.replace(['0', '1', '2'], "3") + ending;
                compare("lengths", &Script::new(outside.as_bytes(), 3, room), &mut tally);
            }
        }
    }
    tally.expect(&[("script", &[(0, 30), (1, 500), (54, 5_000), (55, 1_000)])]);
}

/// Every beginning of a script with every byte after it, alone and in the place of the byte that stands there.
#[test]
fn every_byte_after_every_beginning() {
    let mut tally = Tally::default();
    for text in ["(set 10 yes)\n(drop 3)\n(set 0 no)\n", "(drop 39)\n(set 7 no)\n(drop 1234)\n", "(drop 0)\n"] {
        for length in 0..=text.len() {
            let beginning = &text.as_bytes()[..length];
            compare("beginnings", &Script::new(beginning, 40, 3), &mut tally);
            for byte in 0..=255 {
                let mut changed = [beginning, &[byte]].concat();
                compare("beginnings", &Script::new(&changed, 40, 3), &mut tally);
                changed.extend(&text.as_bytes()[(length + 1).min(text.len())..]);
                compare("beginnings", &Script::new(&changed, 1 + u32::from(byte) % 40, byte as usize % 5), &mut tally);
            }
        }
    }
    tally.expect(&[("script", &[(1, 20), (54, 20_000), (55, 5_000)])]);
}

/// Every ending of up to five pieces.
#[test]
fn every_short_ending() {
    let mut tally = Tally::default();
    let pieces = ["", "(", ")", " ", "\n", "set", "drop", "yes", "no", "0", "2", "(set 1 ", "(drop 1", "yes)\n"];
    for ending in 0..pieces.len().pow(5) {
        let chosen: String = (0..5).map(|place| pieces[ending / pieces.len().pow(place) % pieces.len()]).collect();
        compare("endings", &Script::new(chosen.as_bytes(), 2, ending % 3), &mut tally);
    }
    tally.expect(&[("script", &[(0, 1), (1, 20), (54, 100_000), (55, 50)])]);
}

/// Every number of up to four digits, and odd ones, in each place where a number stands.
#[test]
fn every_number() {
    let mut tally = Tally::default();
    let numbers = (0..=9_999).map(|number: u32| number.to_string());
    let odd = ["", "00", "01", "0001", "10000", "99999", "65536", "4294967296", "4294967297", "18446744073709551617", "1a", "-1", "+1"];
    for number in numbers.chain(odd.map(str::to_string)) {
        for variables in [1, 13, 32, 33, 40] {
            for text in [
                format!("(set {number} yes)\n"),
                format!("(set 0 no)\n(set {number} no)\n"),
                format!("(drop {number})\n(drop 0)\n"),
                format!("(drop {number}"),
            ] {
                compare("numbers", &Script::new(text.as_bytes(), variables, 2), &mut tally);
            }
        }
    }
    tally.expect(&[("script", &[(1, 300), (54, 40_000), (55, 100_000)])]);
}

/// Every number of variables from 0 to 41, and every variable about it, in each line.
#[test]
fn every_number_of_variables() {
    let mut tally = Tally::default();
    for (variables, variable) in (0..=41).flat_map(|variables| (0..=42).map(move |variable| (variables, variable))) {
        for line in [format!("(set {variable} yes)\n"), format!("(set {variable} no)\n"), format!("(drop {variable})\n")] {
            compare("variables", &Script::new(line.as_bytes(), variables, 1), &mut tally);
            compare("variables", &Script::new(line.as_bytes(), variables, 0), &mut tally);
            compare("variables", &Script::new(&line.as_bytes()[..line.len() - 1], variables, 1), &mut tally);
        }
    }
    for variables in [0, 41, 42, 64, 256 + 3, 1 << 31, u32::MAX] {
        for text in ["", "(drop 0)\n", "(drop 9", "x"] {
            compare("variables", &Script::new(text.as_bytes(), variables, 2), &mut tally);
        }
    }
    tally.expect(&[("script", &[(1, 2_000), (21, 300), (54, 5_000), (55, 2_000)])]);
}
