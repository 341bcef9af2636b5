//! Random circuit texts and stow lines, right ones and damaged ones.

use crate::circuits;
use crate::damage;
use crate::oracle::table::{Node, MOST_CHILDREN};
use crate::oracle::text::MOST_BYTES;
use crate::oracle::writer;
use crate::random::Random;

/// The text of a circuit with some nodes as lines of their own, and the others inside the forms that need them.
struct Nested<'a> {
    nodes: &'a [Node],
    /// The line of a node that has its own.
    lines: Vec<Option<usize>>,
}

impl Nested<'_> {
    fn form(&self, node: u32) -> String {
        let argument = |child: u32| match self.lines[child as usize] {
            Some(line) => format!("(line {line})"),
            None => self.form(child),
        };
        match &self.nodes[node as usize] {
            Node::False => "(false)".to_string(),
            Node::True => "(true)".to_string(),
            Node::Yes(variable) => format!("(yes {variable})"),
            Node::No(variable) => format!("(no {variable})"),
            Node::Pick(variable, a, b) => format!("(pick {variable} {} {})", argument(*a), argument(*b)),
            Node::Both(children) => both(&children.iter().map(|&child| argument(child)).collect::<Vec<String>>()),
        }
    }
}

/// A conjunction of forms.
pub fn both(forms: &[String]) -> String {
    format!("(both {})", forms.join(" "))
}

/// A form at one place of a conjunction of that many; the others are short.
pub fn both_around(random: &Random, form: &str, number: usize, place: usize) -> String {
    let short = |_| random.choose(&["(true)", "(no 0)", "(line 0)"]).to_string();
    let mut forms: Vec<String> = (0..number).map(short).collect();
    forms[place] = form.to_string();
    both(&forms)
}

/// How many nodes the form of each node has, if none is a line of its own.
fn sizes(nodes: &[Node]) -> Vec<u64> {
    let mut sizes: Vec<u64> = vec![];
    for node in nodes {
        sizes.push(node.children().iter().fold(1u64, |size, &child| size.saturating_add(sizes[child as usize])));
    }
    sizes
}

/// A text of the circuit, a node on its own line once in so many times; large forms always.
pub fn nested(random: &Random, variables: u32, nodes: &[Node], own_line_once_in: u64) -> String {
    let mut text = format!("(circuit {variables})\n");
    let mut nested = Nested { nodes, lines: vec![] };
    let mut lines = 0;
    for (index, size) in sizes(nodes).into_iter().enumerate() {
        let own = index + 1 == nodes.len() || size > 80 || random.once_in(own_line_once_in);
        if own {
            text += &nested.form(index as u32);
            text += "\n";
        }
        nested.lines.push(own.then_some(lines));
        lines += usize::from(own);
    }
    text
}

/// A number of forms of a `both`, now and then one that is not allowed.
fn number_of_forms(random: &Random) -> usize {
    if random.once_in(50) {
        return random.choose(&[1, 9, 10]);
    }
    circuits::number_of_children(random)
}

/// A form straight from the grammar, down to that many brackets; its numbers are mostly in range.
fn form(random: &Random, variables: u32, lines: u64, depth: u32, own: bool) -> String {
    let variable = if random.once_in(60) { random.below(60) } else { random.below(u64::from(variables.max(1))) };
    let leaf = depth <= 1;
    match random.below(if leaf { 5 } else { 9 }) {
        0 => "(true)".to_string(),
        1 => "(false)".to_string(),
        2 => format!("(yes {variable})"),
        3 => format!("(no {variable})"),
        4 if own => "(true)".to_string(),
        4 => format!("(line {})", if random.once_in(40) { lines + random.below(3) } else { random.below(lines.max(1)) }),
        kind => {
            let number = if kind < 7 { 2 } else { number_of_forms(random) };
            // One side deep, the others short, so that the text stays short.
            let mut sides = vec![if number == 2 { depth.min(3) - 1 } else { 1 }; number];
            sides[0] = depth - 1;
            random.shuffle(&mut sides);
            let forms: Vec<String> = sides.into_iter().map(|depth| form(random, variables, lines, depth, false)).collect();
            if kind < 7 {
                format!("(pick {variable} {})", forms.join(" "))
            } else {
                both(&forms)
            }
        }
    }
}

/// A text straight from the grammar, at times too deep.
fn from_grammar(random: &Random) -> String {
    let variables = if random.once_in(20) { random.below(50) } else { random.between(1, 40) } as u32;
    let mut text = format!("(circuit {variables})\n");
    for line in 0..random.between(1, 6) {
        let depth = random.choose(&[1, 2, 3, 4, 8, 16, 17, 19]);
        text += &form(random, variables, line, depth, true);
        text += "\n";
    }
    text
}

/// Brackets nested to just that depth: the sides of `pick`, and any place of a `both` of two to eight.
pub fn deep(random: &Random, depth: usize) -> String {
    let mut form = random.choose(&["(true)", "(no 0)", "(line 0)"]).to_string();
    for _ in 1..depth {
        let number = circuits::number_of_children(random);
        form = match random.below(4) {
            0 => format!("(pick 2 {form} (line 0))"),
            1 => format!("(pick 1 (false) {form})"),
            _ => both_around(random, &form, number, random.position(number)),
        };
    }
    format!("(circuit 3)\n(true)\n{form}\n")
}

/// The text of a well-formed table of noise, as the writer gives it.
fn plain(random: &Random, variables: u32, nodes: u64) -> String {
    writer::text(&damage::noise(random, variables, nodes)).expect("well-formed")
}

/// A right text, or nearly.
pub fn text(random: &Random) -> String {
    let variables = random.between(1, 8) as u32;
    let named = random.between(u64::from(variables), 40) as u32;
    match random.below(6) {
        0 | 1 => nested(random, named, &circuits::nodes(random, variables), random.choose(&[1, 2, 4, 100])),
        2 => plain(random, variables, random.between(1, 20)),
        3 => deep(random, random.between(14, 19) as usize),
        _ => from_grammar(random),
    }
}

/// Pieces that a careless writer may put into a text.
const PIECES: [&str; 36] = [
    " ", "  ", "\n", "\r\n", "(", ")", "()", "0", "00", "1", "7", "9", "40", "41", "39", "1023", "1024", "9999", "10000", "00000",
    "(true)", "(false)", "(line 0)", "(line 1)", "(yes 0)", "true", "line", "pick 0", "circuit 3", "(circuit 3)\n", "T", "\0", "-1",
    "+1", " (true)", " (line 0)",
];

/// Damages a text by one edit.
pub fn edit(random: &Random, text: &mut Vec<u8>) {
    let start = random.position(text.len() + 1);
    let length = random.choose(&[1, 1, 1, 2, 3, 8]).min(text.len() - start);
    let slice = text[start..start + length].to_vec();
    let digits: Vec<usize> = (0..text.len()).filter(|&place| text[place].is_ascii_digit()).collect();
    match random.below(9) {
        0 if length > 0 => text[start] = random.next() as u8,
        1 => drop(text.splice(start..start + length, [])),
        2 => drop(text.splice(start..start, random.choose(&PIECES).bytes())),
        3 => text.truncate(start),
        4 => drop(text.splice(start..start, slice)),
        5 if length > 0 => text[start] = random.choose(b"() \n0123456789tfynpblc"),
        6 | 7 if !digits.is_empty() => edit_number(random, text, &digits),
        _ if length > 0 => text.swap(start, random.position(start + 1)),
        _ => text.extend(random.choose(&PIECES).bytes()),
    }
}

/// Changes a digit, or puts digits before or after it.
fn edit_number(random: &Random, text: &mut Vec<u8>, digits: &[usize]) {
    let place = random.choose(digits);
    let new = b'0' + random.below(10) as u8;
    match random.below(4) {
        0 => text.insert(place, new),
        1 => text.insert(place + 1, new),
        2 => drop(text.splice(place..place, random.choose(&["0", "000", "1234567890", "65536", "4294967296"]).bytes())),
        _ => text[place] = new,
    }
}

/// A long text: very many lines, over 110,000 bytes or near that, at times damaged.
pub fn long(random: &Random) -> Vec<u8> {
    let eight = both(&vec!["(line 0)".to_string(); MOST_CHILDREN]) + "\n";
    let line = random.choose(&["(true)\n", "(yes 0)\n", "(both (true) (true))\n", "(pick 39 (line 0) (line 0))\n", &eight]);
    let mut text = b"(circuit 40)\n(true)\n".to_vec();
    match random.below(3) {
        0 => (1..random.between(1020, 1030)).for_each(|_| text.extend(line.bytes())),
        1 => (0..random.between(505, 515)).for_each(|_| text.extend(line.bytes())),
        _ => {
            while text.len() < MOST_BYTES + 10 {
                text.extend(line.bytes());
            }
            text.truncate(MOST_BYTES + 5 - random.position(11));
        }
    }
    if random.once_in(3) {
        edit(random, &mut text);
    }
    text
}

/// The text of the largest tables: about 1,024 nodes, all numbers as long as can be.
pub fn largest(random: &Random) -> String {
    plain(random, 40, random.between(1020, 1024))
}

/// A text of hundreds of lines with forms inside forms, so that the numbers of lines and of nodes differ.
pub fn many_lines(random: &Random) -> String {
    let nodes = damage::noise(random, 40, random.between(200, 600)).well_formed().expect("well-formed");
    nested(random, 40, &nodes, 2)
}

/// A stow line of rising numbers.
pub fn stow_line(random: &Random, variables: u32) -> Vec<u8> {
    let mask = random.next() & if random.once_in(2) { random.next() } else { u64::MAX };
    let mut line = "(stow".to_string();
    for variable in (0..variables.min(40)).filter(|variable| mask >> variable & 1 == 1) {
        line += &format!(" {variable}");
    }
    (line + ")\n").into_bytes()
}
