//! Random loading scripts: steps and their texts, right ones and damaged ones.

use crate::oracle::function::Term;
use crate::oracle::script::{self, Step, DROP, MOST_STEPS, NO, YES};
use crate::random::Random;
use crate::texts;

/// A number of steps that is allowed: mostly few, at times many or the most.
pub fn number_of_steps(random: &Random) -> usize {
    match random.below(10) {
        0 => random.position(3),
        1 => MOST_STEPS - random.position(2),
        2 => random.position(MOST_STEPS + 1),
        _ => 1 + random.position(25),
    }
}

/// Right steps about few of the variables or about any, so that most of them replace or drop what an earlier one said. Those about the
/// marks of a row mostly set them so.
pub fn steps(random: &Random, variables: u32, toward: Term, number: usize) -> Vec<Step> {
    let mut named: Vec<u32> = (0..variables).collect();
    random.shuffle(&mut named);
    named.truncate(random.choose(&[1, 2, 3, 5, 40, 40]));
    let (astray, drops) = (random.choose(&[1, 3, 20, 200]), random.choose(&[2, 4, 4, 30]));
    let step = |_| {
        let variable = random.choose(&named);
        let (yes, no) = (toward.positive >> variable & 1 == 1, toward.negative >> variable & 1 == 1);
        let act = match random.once_in(astray) || !(yes || no) {
            true if random.once_in(drops) => DROP,
            true => random.choose(&[NO, YES]),
            false => u32::from(yes),
        };
        Step { variable, act }
    };
    (0..number).map(step).collect()
}

/// Makes one of the steps wrong: its act, its variable, or both.
pub fn damage(random: &Random, steps: &mut [Step], variables: u32) {
    if steps.is_empty() {
        return;
    }
    let index = random.choose(&[0, steps.len() - 1, random.position(steps.len()), random.position(steps.len())]);
    let Step { variable, act } = &mut steps[index];
    let wrong_act = random.choose(&[3, 4, 255, 256, 257, 258, 1 << 16, 1 << 31, 1 << 31 | *act, u32::MAX, (random.next() as u32).max(3)]);
    let any = random.next() as u32;
    let outside =
        [variables, variables.wrapping_add(1), 40, 41, 63, 64, variable.wrapping_add(64), 1 << 31, 1 << 31 | *variable, u32::MAX, any];
    let wrong_variable = random.choose(&outside).max(variables);
    match random.below(3) {
        0 => *act = wrong_act,
        1 => *variable = wrong_variable,
        _ => (*variable, *act) = (wrong_variable, wrong_act),
    }
}

/// A script of so many lines; its numbers are mostly in range.
pub fn text(random: &Random, variables: u32, lines: usize) -> Vec<u8> {
    let mut steps = steps(random, variables.clamp(1, 41), Term::EMPTY, lines);
    if random.once_in(4) && lines > 0 {
        let place = random.position(lines);
        steps[place].variable = random.choose(&[variables.min(9_999), random.below(60) as u32, random.below(10_000) as u32]);
    }
    script::text(&steps).into_bytes()
}

/// Pieces that a careless writer may put into a script.
const PIECES: [&str; 26] = [
    "(set 0 yes)\n",
    "(set 0 no)\n",
    "(drop 0)\n",
    "(set 0)\n",
    "(drop 0 no)\n",
    "(set yes 0)\n",
    "(stow 0)\n",
    "(set 0 drop)\n",
    "\n",
    " ",
    "(set 0 yes)",
    "(drop 0)",
    "(set 0 ye)\n",
    "(set 0 yess)\n",
    "(dropp 0)\n",
    "(SET 0 yes)\n",
    "(set 0 yes no)\n",
    "(set 10000 no)\n",
    "(drop 00)\n",
    "yes",
    "no",
    " no",
    "set",
    "drop",
    "set 0 ",
    "\r\n",
];

/// Damages a script by one edit: as any text, by a piece, or by whole lines.
pub fn edit(random: &Random, text: &mut Vec<u8>) {
    let after_ends = (0..text.len()).filter(|&place| text[place] == b'\n').map(|place| place + 1);
    let starts: Vec<usize> = [0].into_iter().chain(after_ends).collect();
    let line = random.position(starts.len());
    let (start, end) = (starts[line], starts.get(line + 1).copied().unwrap_or(text.len()));
    let own = text[start..end].to_vec();
    match random.below(8) {
        0 => drop(text.splice(start..start, random.choose(&PIECES).bytes())),
        1 => drop(text.splice(start..end, random.choose(&PIECES).bytes())),
        2 => {
            let place = random.position(text.len() + 1);
            drop(text.splice(place..place, random.choose(&PIECES).bytes()));
        }
        3 => drop(text.splice(start..end, [])),
        4 => drop(text.splice(start..start, own)),
        _ => texts::edit(random, text),
    }
}
