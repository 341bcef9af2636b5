//! The reader of stow lines: the place of wrong shape (51) from the grammar, then the first number out of order (52) before it.

use super::{grammar, refused, Refused};

/// The places after the numbers that are not below the number of variables or not above the one before; the mask of all numbers.
fn numbers(part: &[u8], variables: u32) -> (Vec<usize>, u64) {
    let (mut faults, mut mask, mut before) = (vec![], 0, None);
    let mut place = 0;
    for piece in part.split(|byte| !byte.is_ascii_digit()) {
        place += piece.len();
        if let Ok(value) = String::from_utf8_lossy(piece).parse::<u32>() {
            if value >= variables || before.is_some_and(|before| value <= before) {
                faults.push(place);
            }
            mask |= 1u64.checked_shl(value).unwrap_or(0);
            before = Some(value);
        }
        place += 1;
    }
    (faults, mask)
}

/// Reads a stow line: the mask of the variables that are true.
pub fn read(line: &[u8], variables: u32) -> Result<u64, Refused> {
    if !(1..=40).contains(&variables) {
        return refused(21, 0);
    }
    let shape = grammar::wrong_shape(grammar::STOW_LINE, line);
    let (faults, mask) = numbers(&line[..shape.unwrap_or(line.len())], variables);
    match (shape, faults.first()) {
        (Some(place), Some(&fault)) if place <= fault => refused(51, place as u64),
        (_, Some(&fault)) => refused(52, fault as u64),
        (Some(place), None) => refused(51, place as u64),
        (None, None) => Ok(mask),
    }
}
