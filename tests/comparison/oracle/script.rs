//! The reader and the printer of loading scripts: the place of wrong shape (54) from the grammar or where a step is one too many, then
//! the first number out of range (55) before it.

use super::{grammar, refused, Refused};

pub const MOST_STEPS: usize = 256;

/// The acts of a step, as numbers; any other is wrong.
pub const NO: u32 = 0;
pub const YES: u32 = 1;
pub const DROP: u32 = 2;

/// A step as it is lent, good or bad: a variable, and what is done with it.
#[derive(Clone, Copy, Debug, PartialEq, Eq)]
pub struct Step {
    pub variable: u32,
    pub act: u32,
}

/// The line of a step whose act is one of the three.
pub fn line(step: &Step) -> String {
    let Step { variable, act } = step;
    match *act {
        NO => format!("(set {variable} no)\n"),
        YES => format!("(set {variable} yes)\n"),
        DROP => format!("(drop {variable})\n"),
        _ => panic!("a step that has no line: {step:?}"),
    }
}

pub fn text(steps: &[Step]) -> String {
    steps.iter().map(line).collect()
}

/// The step of a line of right shape, without its byte 10, whose number is below 2^32.
fn step(line: &str) -> Step {
    let words: Vec<&str> = line.trim_matches(['(', ')']).split(' ').collect();
    let number = |digits: &str| digits.parse().expect("a number");
    match words[..] {
        ["set", digits, "no"] => Step { variable: number(digits), act: NO },
        ["set", digits, "yes"] => Step { variable: number(digits), act: YES },
        ["drop", digits] => Step { variable: number(digits), act: DROP },
        _ => panic!("a line of right shape: {line:?}"),
    }
}

/// The opening bracket of the first line past the most: the byte after so many line ends, where one is there.
fn too_many(text: &[u8], most: usize) -> Option<usize> {
    let starts = [0].into_iter().chain((0..text.len()).filter(|&place| text[place] == b'\n').map(|place| place + 1));
    starts.filter(|&start| start < text.len()).nth(most)
}

/// The places after the numbers that are not below the number of variables, in a part of right shape.
fn out_of_range(part: &[u8], variables: u32) -> Vec<usize> {
    let ends = (1..=part.len()).filter(|&end| part[end - 1].is_ascii_digit() && part.get(end).is_none_or(|byte| !byte.is_ascii_digit()));
    let value = |end: usize| {
        let digits = part[..end].iter().rev().take_while(|byte| byte.is_ascii_digit()).count();
        part[end - digits..end].iter().fold(0, |value, digit| 10 * value + u32::from(digit - b'0'))
    };
    ends.filter(|&end| value(end) >= variables).collect()
}

/// Reads a script into the first entries of a list: how many steps there are.
pub fn read(text: &[u8], variables: u32, list: &mut [Step]) -> Result<u64, Refused> {
    if !(1..=40).contains(&variables) {
        return refused(21, 0);
    }
    let shapes = [grammar::wrong_shape(grammar::SCRIPT, text), too_many(text, MOST_STEPS.min(list.len()))];
    let shape = shapes.into_iter().flatten().min();
    let range = out_of_range(&text[..shape.unwrap_or(text.len())], variables).into_iter().min();
    match (shape, range) {
        (Some(place), Some(after)) if after < place => refused(55, after as u64),
        (Some(place), _) => refused(54, place as u64),
        (None, Some(after)) => refused(55, after as u64),
        (None, None) => {
            let steps: Vec<Step> = std::str::from_utf8(text).expect("of right shape").lines().map(step).collect();
            list[..steps.len()].copy_from_slice(&steps);
            Ok(steps.len() as u64)
        }
    }
}
