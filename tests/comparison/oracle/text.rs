//! The reader of circuit text: the place of wrong shape (11) from the grammar, the faults 12 to 15 collected one by one over the
//! part before it, and of all of them the one at the lowest byte.

use super::table::{Node, MOST_NODES, NODE_WORDS};
use super::{grammar, refused, Refused};

pub const MOST_BYTES: usize = 110_000;
const MOST_BRACKETS: usize = 16;

/// The words, brackets and numbers of a text, with their places.
enum Token<'a> {
    Open(usize),
    Word(&'a [u8]),
    /// The number, and the byte after its last digit.
    Number(u32, usize),
    Close(usize),
}

/// An open bracket: its word, its number, and the nodes that its forms made.
#[derive(Default)]
struct Frame<'a> {
    word: &'a [u8],
    number: u32,
    children: Vec<u32>,
}

#[derive(Default)]
struct Walk<'a> {
    room: usize,
    variables: u32,
    frames: Vec<Frame<'a>>,
    nodes: Vec<Node>,
    /// The node of each line's own form.
    lines: Vec<u32>,
    /// Byte, rank among faults at one byte, number.
    faults: Vec<(usize, u32, u32)>,
}

/// The tokens of a part of a text whose shape is right.
fn tokens(part: &[u8]) -> Vec<Token<'_>> {
    let mut tokens = vec![];
    let mut start = 0;
    while start < part.len() {
        let run = |kind: fn(&u8) -> bool| part[start..].iter().take_while(|byte| kind(byte)).count();
        let letters = run(u8::is_ascii_lowercase);
        let digits = run(u8::is_ascii_digit);
        match part[start] {
            b'(' => tokens.push(Token::Open(start)),
            b')' => tokens.push(Token::Close(start)),
            _ if letters > 0 => tokens.push(Token::Word(&part[start..start + letters])),
            _ if digits > 0 => {
                let value = part[start..start + digits].iter().fold(0, |value, digit| 10 * value + u32::from(digit - b'0'));
                tokens.push(Token::Number(value, start + digits));
            }
            _ => {}
        }
        start += 1.max(letters).max(digits);
    }
    tokens
}

impl<'a> Walk<'a> {
    fn token(&mut self, token: Token<'a>) {
        match token {
            Token::Open(place) => {
                self.frames.push(Frame::default());
                if self.frames.len() == MOST_BRACKETS + 1 {
                    self.faults.push((place, 1, 14));
                }
            }
            Token::Word(word) => self.frames.last_mut().expect("a bracket").word = word,
            Token::Number(value, after) => self.number(value, after),
            Token::Close(place) => self.close(place),
        }
    }

    fn number(&mut self, value: u32, after: usize) {
        let frame = self.frames.last_mut().expect("a bracket");
        frame.number = value;
        let (number, in_range) = match frame.word {
            b"circuit" => (12, (1..=40).contains(&value)),
            b"line" => (13, (value as usize) < self.lines.len()),
            _ => (12, value < self.variables),
        };
        if frame.word == b"circuit" {
            self.variables = value;
        }
        if !in_range {
            self.faults.push((after, 1, number));
        }
    }

    fn close(&mut self, place: usize) {
        let frame = self.frames.pop().expect("a bracket");
        let child = |position: usize| frame.children[position];
        let node = match frame.word {
            b"circuit" => return,
            b"line" => return self.give(self.lines.get(frame.number as usize).copied().unwrap_or(0)),
            b"true" => Node::True,
            b"false" => Node::False,
            b"yes" => Node::Yes(frame.number),
            b"no" => Node::No(frame.number),
            b"pick" => Node::Pick(frame.number, child(0), child(1)),
            _ => Node::Both(frame.children),
        };
        if self.nodes.len() >= self.room {
            self.faults.push((place, 2, 15));
        }
        self.nodes.push(node);
        self.give(self.nodes.len() as u32 - 1);
    }

    /// Gives a node to the bracket around, or to its line.
    fn give(&mut self, node: u32) {
        match self.frames.last_mut() {
            Some(frame) => frame.children.push(node),
            None => self.lines.push(node),
        }
    }
}

/// Reads a text: the numbers of variables and of nodes. Every lent word is written.
pub fn read(text: &[u8], words: &mut [u32]) -> Result<(u32, u32), Refused> {
    words.fill(0);
    if text.len() > MOST_BYTES {
        return refused(10, MOST_BYTES as u64);
    }
    let shape = grammar::wrong_shape(grammar::TEXT, text);
    let mut walk = Walk { room: MOST_NODES.min(words.len() / NODE_WORDS), ..Walk::default() };
    for token in tokens(&text[..shape.unwrap_or(text.len())]) {
        walk.token(token);
    }
    walk.faults.extend(shape.map(|place| (place, 0, 11)));
    if let Some((place, _, number)) = walk.faults.iter().min() {
        return refused(*number, *place as u64);
    }
    for (part, node) in words.chunks_mut(NODE_WORDS).zip(&walk.nodes) {
        part.copy_from_slice(&node.encode());
    }
    Ok((walk.variables, walk.nodes.len() as u32))
}
