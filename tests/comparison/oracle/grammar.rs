//! The grammar of the texts as data, and a machine with a stack that runs it over bytes. It has no limits, so that the byte at which
//! it stops is the first one with which no text of the grammar can go on.

/// The rules. A capital letter names a rule, any other byte stands for itself. The alternatives of a rule begin with different
/// bytes; one at most is empty or begins with a rule, and it is taken where no other one begins with the byte.
const RULES: [(u8, &[&str]); 21] = [
    (TEXT, &["(circuit N)\n(O)\nM"]),
    // M: more lines. O: the inside of a line's own form. F: an argument. A: its inside.
    (b'M', &["(O)\nM", ""]),
    (b'O', &["true", "false", "yes N", "no N", "pick N F F", "both F FB"]),
    // B, C, D, G, H, I: at most six, five, four, three, two, one arguments more.
    (b'B', &[" FC", ""]),
    (b'C', &[" FD", ""]),
    (b'D', &[" FG", ""]),
    (b'G', &[" FH", ""]),
    (b'H', &[" FI", ""]),
    (b'I', &[" F", ""]),
    (b'F', &["(A)"]),
    (b'A', &["line N", "O"]),
    // N: a number. X, Y, Z: at most three, two, one digits more.
    (b'N', &["0", "1X", "2X", "3X", "4X", "5X", "6X", "7X", "8X", "9X"]),
    (b'X', &["0Y", "1Y", "2Y", "3Y", "4Y", "5Y", "6Y", "7Y", "8Y", "9Y", ""]),
    (b'Y', &["0Z", "1Z", "2Z", "3Z", "4Z", "5Z", "6Z", "7Z", "8Z", "9Z", ""]),
    (b'Z', &["0", "1", "2", "3", "4", "5", "6", "7", "8", "9", ""]),
    (STOW_LINE, &["(stowV"]),
    // V: the rest of a stow line. E: its end.
    (b'V', &[" NV", "E"]),
    (b'E', &[")\n"]),
    (SCRIPT, &["(K)\nP", ""]),
    // K: the inside of a line of a script. W: the end of that inside.
    (b'K', &["set N W", "drop N"]),
    (b'W', &["yes", "no"]),
];

pub const TEXT: u8 = b'T';
pub const STOW_LINE: u8 = b'S';
pub const SCRIPT: u8 = b'P';

fn alternatives(rule: u8) -> &'static [&'static str] {
    RULES.iter().find(|(name, _)| *name == rule).expect("a rule").1
}

/// Moves over one byte; false where nothing on the stack goes on with it.
fn step(stack: &mut Vec<u8>, byte: u8) -> bool {
    while let Some(top) = stack.pop() {
        if !top.is_ascii_uppercase() {
            return top == byte;
        }
        let begins = |alternative: &&&str| alternative.as_bytes().first() == Some(&byte) && !byte.is_ascii_uppercase();
        let by_default = |alternative: &&&str| alternative.bytes().next().is_none_or(|first| first.is_ascii_uppercase());
        let choices = alternatives(top);
        match choices.iter().find(begins).or(choices.iter().find(by_default)) {
            Some(choice) => stack.extend(choice.bytes().rev()),
            None => return false,
        }
    }
    false
}

/// The first byte with which no text of the grammar can go on, or the end where more is needed; none where the shape is right.
pub fn wrong_shape(start: u8, text: &[u8]) -> Option<usize> {
    let mut stack = vec![start];
    if let Some(place) = text.iter().position(|&byte| !step(&mut stack, byte)) {
        return Some(place);
    }
    let may_end = stack.iter().all(|&symbol| symbol.is_ascii_uppercase() && alternatives(symbol).contains(&""));
    (!may_end).then_some(text.len())
}
