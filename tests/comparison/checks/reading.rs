//! Circuit texts, right ones and damaged ones, into word buffers of every room.

use crate::cases::readings::Reading;
use crate::compare::compare;
use crate::oracle::table::{MOST_NODES, NODE_WORDS};
use crate::oracle::text::MOST_BYTES;
use crate::random::Random;
use crate::tally::Tally;
use crate::texts;

/// A number of words: any up to more than enough; for some number of nodes one word too few, just enough, or nearly enough for one
/// more; or very many.
fn room(random: &Random, text: &[u8]) -> usize {
    let nodes = text.iter().filter(|&&byte| byte == b')').count();
    match random.below(8) {
        0 => random.position(NODE_WORDS * (nodes + 2)),
        1 => NODE_WORDS * random.position(nodes + 2) + NODE_WORDS - 1,
        2 => NODE_WORDS * random.position(nodes + 2),
        3 => NODE_WORDS * MOST_NODES + random.position(2 * NODE_WORDS),
        _ => NODE_WORDS * nodes + random.position(2 * NODE_WORDS),
    }
}

#[test]
fn short_texts() {
    let mut tally = Tally::default();
    for seed in 0..60_000 {
        let random = Random::of(0xd000_0000, seed);
        let mut text = texts::text(&random).into_bytes();
        for _ in 0..random.choose(&[0, 0, 1, 1, 1, 2, 4]) {
            texts::edit(&random, &mut text);
        }
        let room = room(&random, &text);
        compare(&format!("short texts, seed {seed}"), &Reading::new(&text, room), &mut tally);
    }
    tally.expect(&[("read", &[(1, 10_000), (11, 10_000), (12, 1_000), (13, 300), (14, 1_000), (15, 1_000)])]);
}

/// Every beginning of a text, with every byte after it, in every room.
#[test]
fn every_byte_after_every_beginning() {
    let mut tally = Tally::default();
    for text in [
        "(circuit 12)\n(yes 10)\n(pick 2 (line 0) (both (no 3) (false)))\n(true)\n",
        "(circuit 40)\n(false)\n(no 39)\n(both (pick 0 (yes 1) (line 1)) (both (true) (line 0)))\n",
        "(circuit 9)\n(both (true) (no 1) (yes 2) (true) (no 4) (both (yes 5) (true) (no 6)) (true) (no 8))\n",
    ] {
        for length in 0..=text.len() {
            let beginning = &text.as_bytes()[..length];
            compare("beginnings", &Reading::new(beginning, 12 * NODE_WORDS), &mut tally);
            for byte in 0..=255 {
                let mut changed = [beginning, &[byte]].concat();
                compare("beginnings", &Reading::new(&changed, 12 * NODE_WORDS), &mut tally);
                changed.extend(&text.as_bytes()[(length + 1).min(text.len())..]);
                compare("beginnings", &Reading::new(&changed, 9 * (byte as usize % 20)), &mut tally);
            }
        }
    }
    tally.expect(&[("read", &[(1, 50), (11, 50_000), (12, 30), (13, 20), (15, 2_000)])]);
}

/// Every ending of up to four pieces after some beginnings.
#[test]
fn every_short_ending() {
    let mut tally = Tally::default();
    let pieces = ["", "(", ")", " ", "\n", "true", "(yes 1)", "(no 2)", "(line 0)", "(line 1)", "pick 0 ", "both ", "0"];
    let seven = format!("(circuit 2)\n(true)\n(both{} ", " (line 0)".repeat(7));
    let beginnings = ["", "(circuit ", "(circuit 2)\n", "(circuit 2)\n(true)\n(", "(circuit 2)\n(true)\n(both (line 0) ", &seven];
    for ending in 0..pieces.len().pow(4) {
        let chosen: String = (0..4).map(|place| pieces[ending / pieces.len().pow(place) % pieces.len()]).collect();
        for beginning in beginnings {
            let text = format!("{beginning}{chosen}");
            compare("endings", &Reading::new(text.as_bytes(), NODE_WORDS * (ending % 4)), &mut tally);
        }
    }
    tally.expect(&[("read", &[(1, 10), (11, 50_000), (12, 1_000), (13, 100), (15, 1_000)])]);
}

/// Every number of up to four digits, and odd ones, in each place where a number stands.
#[test]
fn every_number() {
    let mut tally = Tally::default();
    let numbers = (0..=9_999).map(|number: u32| number.to_string());
    let odd = ["", "00", "01", "0001", "10000", "99999", "4294967296", "4294967297", "18446744073709551617", "1a", "-1"];
    for (index, number) in numbers.chain(odd.map(str::to_string)).enumerate() {
        for text in [
            format!("(circuit {number})\n(true)\n"),
            format!("(circuit 40)\n(yes {number})\n"),
            format!("(circuit 39)\n(no {number})\n"),
            format!("(circuit 5)\n(pick {number} (true) (false))\n"),
            format!("(circuit 5)\n(true)\n(true)\n(both (line {number}) (line 0))\n"),
            format!("(circuit 5)\n(true)\n(both (line 0) (line {number}))\n"),
            format!("(circuit 5)\n(true)\n(both (line 0) (true) (line {number}) (no 1))\n"),
        ] {
            let rooms: &[usize] = if index < 60 { &[0, 1, 2, 4, 5] } else { &[0, 5] };
            rooms.iter().for_each(|&room| compare("numbers", &Reading::new(text.as_bytes(), NODE_WORDS * room), &mut tally));
        }
    }
    tally.expect(&[("read", &[(1, 100), (11, 100), (12, 50_000), (13, 20_000), (15, 100)])]);
}

/// Texts over 110,000 bytes, texts of more than 1,024 nodes, the largest tables, and brackets without end.
#[test]
fn long_texts() {
    let mut tally = Tally::default();
    for seed in 0..1_500 {
        let random = Random::of(0xd100_0000, seed);
        let mut text = match random.below(5) {
            0 => texts::largest(&random).into_bytes(),
            4 => texts::many_lines(&random).into_bytes(),
            1 => {
                let piece =
                    random.choose(&["(both ", "(pick 0 ", "(", "(both (true) ", "(both (line 0) ", "(both (line 0) (true) (no 0) "]);
                format!("(circuit 1)\n(true)\n{}", piece.repeat(random.position(5_000))).into_bytes()
            }
            _ => texts::long(&random),
        };
        if random.once_in(4) {
            texts::edit(&random, &mut text);
        }
        let most = NODE_WORDS * MOST_NODES;
        let room = random.choose(&[0, NODE_WORDS, most - NODE_WORDS, most - 1, most, most + 1, most + NODE_WORDS - 1, most + 200]);
        compare(&format!("long texts, seed {seed}"), &Reading::new(&text, room), &mut tally);
    }
    tally.expect(&[("read", &[(1, 100), (10, 80), (11, 100), (14, 20), (15, 100)])]);
}

/// Forms as they stand in a conjunction, right and wrong.
const RIGHT: &str = "(true);(yes 4);(line 0);(both (true) (no 0));(both (true) (no 0) (line 0));(pick 0 (true) (line 0))";
const WRONG: &str = "(yes 5);(line 1);(line 01);(no 10000);(tru);(truee);true;();;(true;true);(true)); (true);(true) ;\n;\
                     (both);(both (true));(pick 0 (true));(pick 0 (true) (true) (true))";

/// Conjunctions of up to twelve forms, each of them in turn right, wrong, or as deep as can be and deeper; into rooms of one word too
/// few, just enough, and nearly enough for one more, for each number of nodes.
#[test]
fn every_number_of_forms() {
    let mut tally = Tally::default();
    let random = Random::of(0xd200_0000, 0);
    // The form and its brackets: the line's own bracket is one more.
    let deep = |depth: usize| (1..depth).fold("(no 0)".to_string(), |form, _| texts::both_around(&random, &form, 2, 1));
    let flat = |number: usize| format!("(both{})", " (true)".repeat(number));
    let more = [deep(14), deep(15), deep(16), deep(17), flat(8), flat(9)];
    let forms: Vec<&str> = RIGHT.split(';').chain(WRONG.split(';')).chain(more.iter().map(String::as_str)).collect();
    for (number, form) in (1..=12).flat_map(|number| forms.iter().map(move |form| (number, form))) {
        for place in 0..number {
            let text = format!("(circuit 5)\n(true)\n{}\n", texts::both_around(&random, form, number, place));
            let nodes = text.matches(')').count();
            for words in (1..=nodes).flat_map(|nodes| [NODE_WORDS * nodes - 1, NODE_WORDS * nodes, NODE_WORDS * nodes + NODE_WORDS - 1]) {
                compare("forms", &Reading::new(text.as_bytes(), words), &mut tally);
            }
        }
    }
    tally.expect(&[("read", &[(1, 1_000), (11, 10_000), (12, 500), (13, 500), (14, 500), (15, 5_000)])]);
}

/// Lines of `(true)` up to so many bytes, the first ones longer so that the last one ends there.
fn of_length(length: usize) -> String {
    let header = "(circuit 40)\n";
    let longer = (length - header.len()) % 7;
    let lines = (length - header.len() - 8 * longer) / 7;
    [header, &"(yes 0)\n".repeat(longer), &"(true)\n".repeat(lines)].concat()
}

/// Texts of right shape and of just the limit's length, and one byte less and more.
#[test]
fn texts_at_the_limit() {
    let (mut tally, most) = (Tally::default(), NODE_WORDS * MOST_NODES);
    for length in [40_000, 40_001, MOST_BYTES - 1, MOST_BYTES, MOST_BYTES + 1] {
        let text = of_length(length);
        assert_eq!(text.len(), length);
        for room in [0, most - 1, most] {
            compare("limit", &Reading::new(text.as_bytes(), room), &mut tally);
            compare("limit", &Reading::new(&[&text.as_bytes()[..length - 1], b")"].concat(), room), &mut tally);
        }
        let open = format!("(circuit 1)\n{}", "(".repeat(length - 12));
        compare("limit", &Reading::new(open.as_bytes(), most), &mut tally);
    }
    tally.expect(&[("read", &[(10, 7), (11, 4), (15, 24)])]);
}
