//! The wrapper says what `include/quelbrift.h` says: numbers with their texts, limits, verdicts, acts, version. A refusal is shown in
//! full, the longest line read, a half-known stow judged, rows listed by weights and shown by pairs, and a loading script read and walked.

use quelbrift::{Completions, ListBuffers, Refusal, Step, Table, Term, Verdict, WalkBuffers};
use std::collections::HashMap;

const HEADER: &str = include_str!("../../include/quelbrift.h");

/// The numbers of the header's `enum`, by name.
fn numbers() -> HashMap<&'static str, u32> {
    let pairs = HEADER.lines().filter_map(|line| line.trim().strip_prefix("QUELBRIFT_")?.split_once(" = "));
    pairs.map(|(name, rest)| (name, rest.split(|c: char| !c.is_ascii_digit()).next().unwrap().parse().unwrap())).collect()
}

/// The texts of the header's `quelbrift_text`, by name.
fn texts() -> HashMap<&'static str, &'static str> {
    let pairs = HEADER.lines().filter_map(|line| line.trim().strip_prefix("case QUELBRIFT_")?.split_once(": return \""));
    pairs.map(|(name, rest)| (name, rest.trim_end_matches("\";"))).collect()
}

/// The number of a `#define`.
fn limit(name: &str) -> u64 {
    let line = HEADER.lines().find_map(|line| line.strip_prefix(&format!("#define QUELBRIFT_{name} "))).expect(name);
    line.split_whitespace().next().unwrap().parse().expect(name)
}

#[test]
fn texts_are_those_of_the_header() {
    let (numbers, texts) = (numbers(), texts());
    assert_eq!(numbers.len(), 25);
    assert_eq!(texts.len(), numbers.len());
    for (name, number) in numbers {
        if number != 0 {
            assert_eq!(Refusal { number, place: 0 }.text(), texts[name], "{name}");
        }
    }
}

#[test]
fn limits_are_those_of_the_header() {
    assert_eq!(u64::from(quelbrift::MAX_VARIABLES), limit("MAX_VARIABLES"));
    assert_eq!(u64::from(quelbrift::MAX_NODES), limit("MAX_NODES"));
    assert_eq!(quelbrift::NODE_WORDS as u64, limit("NODE_WORDS"));
    assert_eq!(u64::from(quelbrift::MAX_CHILDREN), limit("MAX_CHILDREN"));
    assert_eq!(u64::from(quelbrift::MAX_CAPACITY), limit("MAX_CAPACITY"));
    assert_eq!(u64::from(quelbrift::MAX_WEIGHT), limit("MAX_MINUTES"));
    assert_eq!(quelbrift::MAX_TEXT as u64, limit("MAX_TEXT"));
    assert_eq!(u64::from(quelbrift::MAX_DEPTH), limit("MAX_DEPTH"));
    assert_eq!(quelbrift::MAX_LINE as u64, limit("MAX_LINE"));
    assert_eq!(quelbrift::MAX_STEPS as u64, limit("MAX_STEPS"));
    assert_eq!(quelbrift::MAX_SCRIPT as u64, limit("MAX_SCRIPT"));
}

#[test]
fn verdicts_are_those_of_the_header() {
    assert_eq!(Verdict::Forbidden as u64, limit("FORBIDDEN"));
    assert_eq!(Verdict::Open as u64, limit("OPEN"));
    assert_eq!(Verdict::Allowed as u64, limit("ALLOWED"));
    for verdict in [Verdict::Forbidden, Verdict::Open, Verdict::Allowed] {
        assert_eq!(Verdict::of_number(verdict as u32), Some(verdict));
    }
    assert_eq!(Verdict::of_number(3), None);
}

#[test]
fn acts_are_those_of_the_header() {
    assert_eq!(u64::from(quelbrift::SET_NO), limit("SET_NO"));
    assert_eq!(u64::from(quelbrift::SET_YES), limit("SET_YES"));
    assert_eq!(u64::from(quelbrift::DROP), limit("DROP"));
    assert_eq!(size_of::<Step>(), 8);
}

#[test]
fn versions_agree() {
    assert_eq!(quelbrift::VERSION, 7);
    assert_eq!(u64::from(quelbrift::VERSION), limit("VERSION"));
    assert_eq!(quelbrift::version(), quelbrift::VERSION);
}

#[test]
fn a_refusal_is_shown_with_its_place() {
    let shown = |number, place| Refusal { number, place }.to_string();
    assert_eq!(shown(11, 7), "refused 11 at byte 7: the circuit text has the wrong shape");
    assert_eq!(shown(16, 300), "refused 16, 300 bytes needed: the text does not fit the sink");
    assert_eq!(shown(22, 3), "refused 22 at node 3: a node is malformed");
    assert_eq!(
        shown(53, 2),
        "refused 53 at reading 2: a reading is incomplete, its low above its high, or its fact out of range, marked or read already"
    );
    assert_eq!(shown(54, 9), "refused 54 at byte or step 9: the loading script has the wrong shape, or a step too many");
    assert_eq!(shown(55, 0), "refused 55 at byte or step 0: a fact of the loading script is out of range");
    assert_eq!(shown(42, 0), "refused 42: the list has more rows than the room");
    assert_eq!(shown(56, 0), "refused 56: the minutes are not one entry for each fact, or an entry is above 1,000");
    assert_eq!(shown(57, 0), "refused 57: a pair is incomplete, names a fact twice, or one that is out of range");
}

/// A refusal is an error like any other.
fn longest_line() -> Result<u64, Box<dyn std::error::Error>> {
    let line = (0..quelbrift::MAX_VARIABLES).fold("(stow".to_string(), |line, fact| format!("{line} {fact}")) + ")\n";
    assert_eq!(line.len(), quelbrift::MAX_LINE);
    Ok(quelbrift::read_assignment(line.as_bytes(), quelbrift::MAX_VARIABLES)?)
}

#[test]
fn the_longest_line_is_read() {
    assert_eq!(longest_line().unwrap(), (1 << quelbrift::MAX_VARIABLES) - 1);
    assert!(quelbrift::read_assignment(b"(stow", 1).is_err());
}

#[test]
fn the_longest_script_is_read() {
    let script = "(set 39 yes)\n".repeat(quelbrift::MAX_STEPS);
    assert_eq!(script.len(), quelbrift::MAX_SCRIPT);
    let mut list = [Step { variable: 0, act: 0 }; quelbrift::MAX_STEPS];
    assert_eq!(quelbrift::read_script(script.as_bytes(), quelbrift::MAX_VARIABLES, &mut list).unwrap(), quelbrift::MAX_STEPS);
    assert!(list.iter().all(|step| *step == Step { variable: 39, act: quelbrift::SET_YES }));
}

/// `(yes 0)` over two variables: each verdict, and a refusal with its place.
#[test]
fn a_half_known_stow_is_judged() {
    let table = Table { words: &[2, 0, 0, 0, 0, 0, 0, 0, 0, 0, 0], variables: 2, nodes: 1 };
    let empty = Term { positive: 0, negative: 0 };
    let judged = |lows: &[i32], highs: &[i32]| quelbrift::evaluate_partial(table, empty, &[0], lows, highs, &[-3]);
    let answer = |verdict, allowed, forbidden| Ok(Completions { verdict, allowed, forbidden });
    assert_eq!(judged(&[-3], &[5]), answer(Verdict::Allowed, 2, 0));
    assert_eq!(judged(&[-9], &[-4]), answer(Verdict::Forbidden, 0, 2));
    assert_eq!(judged(&[-4], &[-3]), answer(Verdict::Open, 2, 2));
    assert_eq!(judged(&[1], &[0]), Err(Refusal { number: 53, place: 0 }));
    assert_eq!(judged(&[0, 0], &[0]), Err(Refusal { number: 53, place: 1 }));
}

/// The words of some nodes, of which those given come first and the others are 0.
fn words(nodes: &[&[u32]]) -> Vec<u32> {
    let word = |node: &[u32], place: usize| node.get(place).copied().unwrap_or(0);
    nodes.iter().flat_map(|node| (0..quelbrift::NODE_WORDS).map(move |place| word(node, place))).collect()
}

type Listing = fn(Table, &[u32], u32, &mut [u64], &mut [u64], &mut [u32]) -> Result<(), Refusal>;

/// The listing of clearances without pairs.
fn list_all(
    table: Table,
    weights: &[u32],
    capacity: u32,
    positives: &mut [u64],
    negatives: &mut [u64],
    counts: &mut [u32],
) -> Result<(), Refusal> {
    let (mut shown_positives, mut shown_negatives) = ([7; 3], [7; 3]);
    let buffers = ListBuffers {
        positives: &mut *positives,
        negatives: &mut *negatives,
        counts: &mut *counts,
        shown_positives: &mut shown_positives,
        shown_negatives: &mut shown_negatives,
    };
    let shown = quelbrift::list(table, weights, &[], &[], capacity, buffers)?;
    let last = |buffer| quelbrift::view(buffer, capacity, table.nodes - 1, shown as u32);
    assert_eq!(shown, counts[counts.len() - 1] as usize);
    assert_eq!((&shown_positives[..shown], &shown_negatives[..shown]), (last(positives), last(negatives)));
    Ok(())
}

/// The rows of the last of five nodes as pairs of masks, or the refusal; a refusal but 42 leaves the buffers as they were.
fn listed(list: Listing, table: Table, weights: &[u32], capacity: u32) -> Result<Vec<(u64, u64)>, Refusal> {
    let (mut positives, mut negatives, mut counts) = ([7; 10], [7; 10], [7; 5]);
    let answer = list(table, weights, capacity, &mut positives, &mut negatives, &mut counts);
    if answer.is_err_and(|refusal| refusal.number != 42) {
        assert_eq!((positives, negatives, counts), ([7; 10], [7; 10], [7; 5]));
    }
    let last = |buffer| quelbrift::view(buffer, capacity, 4, counts[4]);
    answer.map(|()| last(&positives).iter().copied().zip(last(&negatives).iter().copied()).collect())
}

/// `(both (pick 0 (yes 1) (true)) (no 2))`: clearances +0 -2 and +1 -2, blockers +2 and -0 -1.
#[test]
fn rows_are_listed_by_weights() {
    let words = words(&[&[2, 1], &[1], &[4, 0, 2, 0, 1], &[3, 2], &[5, 0, 2, 2, 3]]);
    let table = Table { words: &words, variables: 3, nodes: 5 };
    let (clearances, blockers) = ([(1, 4), (2, 4)], [(4, 0), (0, 3)]);
    for (weights, turned) in [
        ([0, 0, 0], [false, false]),
        ([1000, 1000, 1000], [false, false]),
        ([3, 1, 9], [true, true]),
        ([1, 0, 0], [true, false]),
        ([0, 0, 1], [false, true]),
    ] {
        for (list, mut rows, turned) in [(list_all as Listing, clearances, turned[0]), (quelbrift::list_negation, blockers, turned[1])] {
            if turned {
                rows.reverse();
            }
            assert_eq!(listed(list, table, &weights, 2), Ok(rows.to_vec()), "{weights:?}");
        }
    }
    let refused = |number| Err(Refusal { number, place: 0 });
    for list in [list_all as Listing, quelbrift::list_negation] {
        for wrong in [&[0, 0, 1001][..], &[1001, 0, 0], &[0, 0], &[0, 0, 0, 0], &[]] {
            assert_eq!(listed(list, table, wrong, 2), refused(56), "{wrong:?}");
            assert_eq!(listed(list, table, wrong, 1), refused(56), "{wrong:?}");
            assert_eq!(listed(list, table, wrong, 3), refused(41), "{wrong:?}");
        }
        assert_eq!(listed(list, table, &[0, 0, 0], 1), refused(42));
    }
}

/// `(both (pick 0 (yes 1) (true)) (yes 2))`: clearances +0 +2 and +1 +2.
#[test]
fn rows_are_shown_by_pairs() {
    let words = words(&[&[2, 1], &[1], &[4, 0, 2, 0, 1], &[2, 2], &[5, 0, 2, 2, 3]]);
    let table = Table { words: &words, variables: 3, nodes: 5 };
    // The answer, and the positive masks of the last node and of the shown list; the negative ones are 0 or as they were.
    let shown = |weights: &[u32], firsts: &[u32], seconds: &[u32], capacity: u32, lent: [usize; 2]| {
        let (mut positives, mut negatives, mut counts) = ([7; 10], [7; 10], [7; 5]);
        let (mut shown_positives, mut shown_negatives) = ([7; 3], [7; 3]);
        let buffers = ListBuffers {
            positives: &mut positives,
            negatives: &mut negatives,
            counts: &mut counts,
            shown_positives: &mut shown_positives[..lent[0]],
            shown_negatives: &mut shown_negatives[..lent[1]],
        };
        let answer = quelbrift::list(table, weights, firsts, seconds, capacity, buffers);
        assert_eq!(shown_negatives.map(|mask| mask == 7), shown_positives.map(|mask| mask == 7));
        (answer, [positives[8], positives[9]], shown_positives)
    };
    let by_pairs = |firsts: &[u32], seconds: &[u32]| shown(&[0, 0, 0], firsts, seconds, 2, [2, 3]);
    let done = |shown, masks| (Ok(shown), [5, 6], masks);
    assert_eq!(by_pairs(&[], &[]), done(2, [5, 6, 7]));
    assert_eq!(by_pairs(&[0], &[1]), done(2, [5, 6, 7]));
    assert_eq!(by_pairs(&[0], &[2]), done(1, [6, 0, 7]));
    assert_eq!(by_pairs(&[2, 2], &[1, 1]), done(1, [5, 0, 7]));
    assert_eq!(by_pairs(&[2, 2], &[1, 0]), done(0, [0, 0, 7]));
    assert_eq!(shown(&[3, 1, 9], &[0], &[1], 2, [3, 2]), (Ok(2), [6, 5], [6, 5, 7]));
    let refused = |number| (Err(Refusal { number, place: 0 }), [7, 7], [7; 3]);
    for (firsts, seconds) in [(&[1][..], &[1][..]), (&[0, 3], &[2, 0]), (&[0], &[u32::MAX]), (&[0, 1], &[2]), (&[], &[1])] {
        assert_eq!(by_pairs(firsts, seconds), refused(57), "{firsts:?}, {seconds:?}");
        assert_eq!(shown(&[0, 0, 0], firsts, seconds, 1, [1, 1]), refused(57), "{firsts:?}, {seconds:?}");
        assert_eq!(shown(&[0, 0], firsts, seconds, 2, [2, 2]), refused(56), "{firsts:?}, {seconds:?}");
        assert_eq!(shown(&[0, 0, 0], firsts, seconds, 2, [2, 1]), refused(41), "{firsts:?}, {seconds:?}");
        assert_eq!(shown(&[0, 0, 0], firsts, seconds, 2, [1, 2]), refused(41), "{firsts:?}, {seconds:?}");
    }
    assert_eq!(shown(&[0, 0, 0], &[0], &[2], 1, [3, 3]), (Err(Refusal { number: 42, place: 0 }), [7, 7], [0, 7, 7]));
}

const UNUSED: Step = Step { variable: 77, act: 77 };

#[test]
fn a_script_is_read() {
    let mut list = [UNUSED; 4];
    assert_eq!(quelbrift::read_script(b"(set 1 yes)\n(drop 0)\n(set 1 no)\n", 2, &mut list), Ok(3));
    let [yes, no, drop] =
        [(1, quelbrift::SET_YES), (1, quelbrift::SET_NO), (0, quelbrift::DROP)].map(|(variable, act)| Step { variable, act });
    assert_eq!(list, [yes, drop, no, UNUSED]);
    let mut refused = |text: &[u8], length: usize| quelbrift::read_script(text, 2, &mut list[..length]).unwrap_err();
    assert_eq!(refused(b"(drop 0)\n(drop 0)\n", 1), Refusal { number: 54, place: 9 });
    assert_eq!(refused(b"(set 2 yes)\n", 4), Refusal { number: 55, place: 6 });
    assert_eq!(list, [yes, drop, no, UNUSED]);
    assert_eq!(quelbrift::read_script(b"", 2, &mut []), Ok(0));
}

/// `(yes 0)` over two variables: forbidden, open, then allowed, and the step named is the first of the last run of allowed.
#[test]
fn a_script_is_walked() {
    let table = Table { words: &[2, 0, 0, 0, 0, 0, 0, 0, 0, 0, 0], variables: 2, nodes: 1 };
    let walked_by = |weights: &[u32], capacity: u32, acts: &[(u32, u32)]| {
        let steps: Vec<Step> = acts.iter().map(|&(variable, act)| Step { variable, act }).collect();
        let (mut positives, mut negatives, mut counts, mut statuses, mut compatibles) = ([7], [7], [7], [7; 6], [7; 6]);
        let buffers = WalkBuffers {
            positives: &mut positives,
            negatives: &mut negatives,
            counts: &mut counts,
            statuses: &mut statuses,
            compatibles: &mut compatibles,
        };
        (quelbrift::walk(table, weights, capacity, &steps, buffers), statuses, compatibles)
    };
    let walked = |capacity: u32, acts: &[(u32, u32)]| walked_by(&[0, 0], capacity, acts);
    let script = [(0, 1), (0, 0), (0, 2), (0, 1), (1, 0)];
    assert_eq!(walked(1, &script), (Ok(Some(3)), [2, 0, 1, 2, 2, 7], [1, 0, 1, 1, 1, 7]));
    assert_eq!(walked_by(&[1000, 5], 1, &script), walked(1, &script));
    assert_eq!(walked(1, &script[..3]), (Ok(None), [2, 0, 1, 7, 7, 7], [1, 0, 1, 7, 7, 7]));
    assert_eq!(walked(1, &[]), (Ok(None), [7; 6], [7; 6]));
    let refused = |number, place| (Err(Refusal { number, place }), [7; 6], [7; 6]);
    assert_eq!(walked(1, &[(0, 1), (0, 3)]), refused(54, 1));
    assert_eq!(walked(1, &[(0, 1), (2, 2)]), refused(55, 1));
    assert_eq!(walked(1, &[(0, 1); 7]), refused(41, 0));
    assert_eq!(walked(0, &script), refused(42, 0));
    for wrong in [&[0, 1001][..], &[0], &[0, 0, 0]] {
        assert_eq!(walked_by(wrong, 1, &[(0, 1), (2, 2)]), refused(55, 1));
        assert_eq!(walked_by(wrong, 1, &[(0, 1); 7]), refused(41, 0));
        assert_eq!(walked_by(wrong, 0, &script), refused(56, 0));
        assert_eq!(walked_by(wrong, 1, &script), refused(56, 0));
    }
}
