//! The table P1 to P12, the worked example and a conjunction of three, by both sides: the answers stand here as the scope gives them,
//! and the blockers, the conjunction, a walk, orders by weights and shown lists as worked out by hand from the definitions.

use crate::cases::listings::Listing;
use crate::cases::partials;
use crate::cases::questions::Asked;
use crate::cases::questions::Question::{Check, Count};
use crate::cases::readings::Reading;
use crate::cases::scripts::Script;
use crate::cases::walks::Walk;
use crate::compare::{compare, Case};
use crate::engine;
use crate::oracle::answers::{Completions, Oracle, Verdict};
use crate::oracle::function::Listed::{Blockers, Clearances};
use crate::oracle::function::{Listed, Term};
use crate::oracle::listing::{self, Buffers, Shown};
use crate::oracle::measurements::Measurements;
use crate::oracle::pairs::Pairs;
use crate::oracle::script::{self, Step};
use crate::oracle::table::{Table, NODE_WORDS};
use crate::oracle::walk::{self, Lent};
use crate::oracle::{text, weights, Refused};
use crate::tally::Tally;

/// The words that the program lends.
const WORDS: usize = 704;

/// Rows in order, `+` yes and `-` no.
type Rows = &'static [&'static str];

/// What is known of a circuit.
struct Known {
    text: &'static str,
    /// The number of models, the clearances and the blockers; or the check's refusal.
    answer: Result<(u64, [Rows; 2]), Refused>,
}

const fn accepted(text: &'static str, models: u64, clearances: Rows, blockers: Rows) -> Known {
    Known { text, answer: Ok((models, [clearances, blockers])) }
}

const fn refused(text: &'static str, number: u32, place: u64) -> Known {
    Known { text, answer: Err(Refused { number, place }) }
}

const KNOWN: [Known; 13] = [
    accepted("(circuit 1)\n(false)\n", 0, &[], &[""]),
    accepted("(circuit 1)\n(true)\n", 2, &[""], &[]),
    accepted("(circuit 1)\n(pick 0 (true) (true))\n", 2, &[""], &[]),
    accepted("(circuit 2)\n(both (yes 0) (no 1))\n", 1, &["+0 -1"], &["-0", "+1"]),
    refused("(circuit 1)\n(both (yes 0) (no 0))\n", 24, 2),
    refused("(circuit 1)\n(pick 0 (yes 0) (true))\n", 24, 2),
    refused("(circuit 1)\n(pick 0 (false) (false))\n", 25, 2),
    refused("(circuit 1)\n(yes 0)\n(no 0)\n", 23, 0),
    accepted("(circuit 3)\n(pick 0 (no 1) (pick 1 (yes 2) (true)))\n", 5, &["-0 -1", "+0 +1", "+0 +2", "-1 +2"], &["-0 +1", "+0 -1 -2"]),
    accepted("(circuit 4)\n(pick 3 (true) (yes 2))\n", 12, &["+2", "-3"], &["-2 +3"]),
    accepted("(circuit 4)\n(pick 0 (pick 3 (true) (yes 2)) (no 2))\n", 10, &["+0 -2", "-0 +2", "-0 -3", "-2 -3"], &["+0 +2", "-0 -2 +3"]),
    accepted(
        "(circuit 4)\n(pick 1 (pick 0 (pick 3 (true) (yes 2)) (no 2)) (both (no 2) (no 3)))\n",
        7,
        &["-2 -3", "+0 -1 -2", "-0 -1 +2", "-0 -1 -3"],
        &["+0 +2", "+1 +2", "+1 +3", "-0 -2 +3"],
    ),
    accepted("(circuit 4)\n(both (no 1) (pick 0 (yes 2) (true)) (yes 3))\n", 3, &["+0 -1 +3", "-1 +2 +3"], &["+1", "-3", "-0 -2"]),
];

fn row(positive: u64, negative: u64) -> String {
    let mark = |variable: u32| match (positive >> variable & 1, negative >> variable & 1) {
        (1, _) => Some(format!("+{variable}")),
        (_, 1) => Some(format!("-{variable}")),
        _ => None,
    };
    (0..64).filter_map(mark).collect::<Vec<String>>().join(" ")
}

fn same_on_both_sides(case: impl Case) {
    compare("papers", &case, &mut Tally::default());
}

/// Weights that are all 0.
fn zeros(variables: u32) -> Vec<u32> {
    vec![0; variables as usize]
}

/// The rows of the last node as the engine lists them by the weights, in so much room.
fn rows_of_engine(listed: Listed, lent: quelbrift::Table, weights: &[u32], capacity: u32) -> Result<Vec<String>, quelbrift::Refusal> {
    let (nodes, length) = (lent.nodes as usize, (lent.nodes * capacity) as usize);
    let (mut positives, mut negatives, mut counts) = (vec![7; length], vec![7; length], vec![7; nodes]);
    engine::listing(listed)(lent, weights, capacity, &mut positives, &mut negatives, &mut counts)?;
    let last = |buffer| quelbrift::view(buffer, capacity, lent.nodes - 1, counts[nodes - 1]);
    Ok(last(&positives).iter().zip(last(&negatives)).map(|(positive, negative)| row(*positive, *negative)).collect())
}

/// What is answered where nothing is known, from the number of models.
fn completions(models: u64, variables: u32) -> Completions {
    let forbidden = (1 << variables) - models;
    let verdict = match (models, forbidden) {
        (0, _) => Verdict::Forbidden,
        (_, 0) => Verdict::Allowed,
        _ => Verdict::Open,
    };
    Completions { verdict, allowed: models, forbidden }
}

/// The engine alone against what is known; the table as read.
fn engine_against_paper(known: &Known) -> Table {
    let mut words = vec![0; WORDS];
    let (variables, nodes) = quelbrift::read(known.text.as_bytes(), &mut words).expect("read");
    let table = Table::new(variables, nodes, &words[..NODE_WORDS * nodes as usize]);
    let lent = quelbrift::Table { words: &words, variables, nodes };
    match known.answer {
        Err(refusal) => {
            let expected = quelbrift::Refusal { number: refusal.number, place: refusal.place };
            assert_eq!(quelbrift::check(lent), Err(expected), "{}", known.text);
        }
        Ok((models, rows)) => {
            assert_eq!(quelbrift::count_models(lent), Ok(models), "{}", known.text);
            let nothing_known = partials::engine_answer(&table, Term::EMPTY, &Measurements::default());
            assert_eq!(nothing_known, Ok(Ok(completions(models, variables))), "{}", known.text);
            for (listed, rows) in Listed::BOTH.into_iter().zip(rows) {
                let of_engine = rows_of_engine(listed, lent, &zeros(variables), rows.len() as u32);
                assert_eq!(of_engine.expect("listed"), rows, "{listed:?} of {}", known.text);
            }
        }
    }
    table
}

/// The oracle alone against what is known.
fn oracle_against_paper(known: &Known, table: &Table) {
    let mut words = vec![9; table.words.len()];
    assert_eq!(text::read(known.text.as_bytes(), &mut words), Ok((table.variables, table.nodes)), "{}", known.text);
    assert_eq!(words, table.words, "{}", known.text);
    let oracle = Oracle::new(table);
    match known.answer {
        Err(refusal) => assert_eq!(oracle.accepted().err(), Some(refusal), "{}", known.text),
        Ok((models, rows)) => {
            assert_eq!(oracle.count_models(), Ok(models), "{}", known.text);
            let nothing_known = oracle.evaluate_partial(Term::EMPTY, &Measurements::default());
            assert_eq!(nothing_known, Ok(completions(models, table.variables)), "{}", known.text);
            for (listed, rows) in Listed::BOTH.into_iter().zip(rows) {
                let last = oracle.accepted().expect("accepted").primes(listed).pop().expect("a node");
                let of_oracle = last.iter().map(|term| row(term.positive, term.negative));
                assert_eq!(of_oracle.collect::<Vec<_>>(), rows, "{listed:?} of {}", known.text);
            }
        }
    }
}

#[test]
fn circuits_of_the_papers() {
    for known in &KNOWN {
        let table = engine_against_paper(known);
        oracle_against_paper(known, &table);
        same_on_both_sides(Reading::new(known.text.as_bytes(), WORDS));
        same_on_both_sides(Asked::new(table.clone(), Check));
        same_on_both_sides(Asked::new(table.clone(), Count));
        for (listed, capacity) in Listed::BOTH.into_iter().flat_map(|listed| (0..6).map(move |capacity| (listed, capacity))) {
            let (rows, weights) = ((table.nodes * capacity) as usize, zeros(table.variables));
            same_on_both_sides(Listing::new(listed, table.clone(), &weights, capacity, [rows, rows + 1, table.nodes as usize], 5));
        }
    }
}

/// With no room the clearances of P1 are listed and those of P2 refused, the blockers the other way round; P9 has room for three
/// blockers where its four clearances are refused.
#[test]
fn capacities_of_the_papers() {
    let capacities = [
        (Clearances, [(0, 0, None), (1, 0, Some(42)), (8, 3, Some(42)), (8, 4, None)]),
        (Blockers, [(0, 0, Some(42)), (1, 0, None), (8, 1, Some(42)), (8, 3, None)]),
    ];
    for (listed, calls) in capacities {
        for (known, capacity, refusal) in calls {
            let table = engine_against_paper(&KNOWN[known]);
            let refused = rows_of_engine(listed, engine::lent(&table), &zeros(table.variables), capacity).err();
            assert_eq!(refused.map(|refusal| (refusal.number, refusal.place)), refusal.map(|number| (number, 0)));
        }
    }
}

/// A circuit of the table by its place, weights, and the rows by them: P9, P11 and P12, and the conjunction of three. Of -2 -3, +0 -1 -2,
/// -0 -1 +2 and -0 -1 -3, which are P12's, one minute for fact 3 makes the first and the last the later ones, and so on.
const WEIGHED: [(usize, &[u32], [Rows; 2]); 11] = [
    (8, &[30, 5, 10], [&["-1 +2", "-0 -1", "+0 +1", "+0 +2"], &["-0 +1", "+0 -1 -2"]]),
    (8, &[0, 3, 0], [&["+0 +2", "-0 -1", "+0 +1", "-1 +2"], &["-0 +1", "+0 -1 -2"]]),
    (8, &[1000, 1000, 1000], [&["-0 -1", "+0 +1", "+0 +2", "-1 +2"], &["-0 +1", "+0 -1 -2"]]),
    (10, &[7, 0, 0, 0], [&["-2 -3", "+0 -2", "-0 +2", "-0 -3"], &["+0 +2", "-0 -2 +3"]]),
    (10, &[999, 0, 1000, 0], [&["-0 -3", "-2 -3", "+0 -2", "-0 +2"], &["+0 +2", "-0 -2 +3"]]),
    (11, &[0, 0, 0, 1], [&["+0 -1 -2", "-0 -1 +2", "-2 -3", "-0 -1 -3"], &["+0 +2", "+1 +2", "+1 +3", "-0 -2 +3"]]),
    (11, &[0, 0, 1000, 1], [&["-0 -1 -3", "+0 -1 -2", "-0 -1 +2", "-2 -3"], &["+1 +3", "+0 +2", "+1 +2", "-0 -2 +3"]]),
    (11, &[0, 5, 0, 0], [&["-2 -3", "+0 -1 -2", "-0 -1 +2", "-0 -1 -3"], &["+0 +2", "-0 -2 +3", "+1 +2", "+1 +3"]]),
    (11, &[1, 1, 2, 1], [&["-2 -3", "-0 -1 -3", "+0 -1 -2", "-0 -1 +2"], &["+1 +3", "+0 +2", "+1 +2", "-0 -2 +3"]]),
    (12, &[2, 9, 1, 4], [&["-1 +2 +3", "+0 -1 +3"], &["-0 -2", "-3", "+1"]]),
    (12, &[0, 1, 1, 1], [&["+0 -1 +3", "-1 +2 +3"], &["+1", "-3", "-0 -2"]]),
];

#[test]
fn orders_by_hand() {
    for (place, weights, rows) in WEIGHED {
        let table = engine_against_paper(&KNOWN[place]);
        for (listed, rows) in Listed::BOTH.into_iter().zip(rows) {
            let of_engine = rows_of_engine(listed, engine::lent(&table), weights, rows.len() as u32);
            assert_eq!(of_engine.expect("listed"), rows, "{listed:?} of {} by {weights:?}", KNOWN[place].text);
            let last = Oracle::new(&table).accepted().expect("accepted").primes(listed).pop().expect("a node");
            let of_oracle = weights::ordered(weights, &last).iter().map(|term| row(term.positive, term.negative)).collect::<Vec<_>>();
            assert_eq!(of_oracle, rows, "{listed:?} of {} by {weights:?}", KNOWN[place].text);
            same_on_both_sides(Listing::fitting(listed, table.clone(), weights, rows.len() as u32, 5));
        }
    }
}

/// A circuit of the table by its place, weights, pairs, and the clearances that are shown: P4, P9, P10 and P12, and the conjunction of
/// three. P9 has two rows with two marks of yes, +0 +1 and +0 +2; P12 and P10 have none, and -1 +2 of P9 has one of each.
const PAIRED: [(usize, &[u32], &[(u32, u32)], Rows); 16] = [
    (3, &[0, 0], &[(0, 1), (1, 0)], &["+0 -1"]),
    (8, &[0, 0, 0], &[], &["-0 -1", "+0 +1", "+0 +2", "-1 +2"]),
    (8, &[0, 0, 0], &[(0, 1)], &["-0 -1", "+0 +2", "-1 +2"]),
    (8, &[0, 0, 0], &[(1, 0)], &["-0 -1", "+0 +2", "-1 +2"]),
    (8, &[0, 0, 0], &[(0, 2), (0, 2), (2, 0)], &["-0 -1", "+0 +1", "-1 +2"]),
    (8, &[0, 0, 0], &[(1, 2), (2, 1)], &["-0 -1", "+0 +1", "+0 +2", "-1 +2"]),
    (8, &[0, 0, 0], &[(2, 0), (1, 2), (0, 1)], &["-0 -1", "-1 +2"]),
    (8, &[30, 5, 10], &[(1, 0)], &["-1 +2", "-0 -1", "+0 +2"]),
    (8, &[30, 5, 10], &[(2, 0), (0, 1)], &["-1 +2", "-0 -1"]),
    (9, &[0, 0, 0, 0], &[(2, 3), (0, 1), (3, 1)], &["+2", "-3"]),
    (11, &[0, 0, 0, 0], &[(0, 1), (0, 2), (0, 3), (1, 2), (1, 3), (2, 3)], &["-2 -3", "+0 -1 -2", "-0 -1 +2", "-0 -1 -3"]),
    (12, &[0, 0, 0, 0], &[(3, 0)], &["-1 +2 +3"]),
    (12, &[0, 0, 0, 0], &[(2, 3)], &["+0 -1 +3"]),
    (12, &[0, 0, 0, 0], &[(2, 3), (0, 3)], &[]),
    (12, &[2, 9, 1, 4], &[(0, 1), (1, 3), (0, 2), (1, 2)], &["-1 +2 +3", "+0 -1 +3"]),
    (12, &[2, 9, 1, 4], &[(0, 3)], &["-1 +2 +3"]),
];

#[test]
fn shown_lists_by_hand() {
    for (place, weights, pairs, rows) in PAIRED {
        let (table, pairs) = (engine_against_paper(&KNOWN[place]), Pairs::of(pairs));
        let oracle = Oracle::new(&table);
        let primes = oracle.accepted().expect("accepted").primes(Clearances);
        let whole = primes.last().expect("a node").len();
        let length = table.nodes as usize * whole;
        let listing = Buffers { positives: vec![7; length], negatives: vec![7; length], counts: vec![7; table.nodes as usize] };
        let mut lent = Shown { listing, positives: vec![7; whole], negatives: vec![7; whole] };
        let shown = listing::list_shown(&oracle, &primes, weights, &pairs, whole as u32, &mut lent).expect("listed") as usize;
        let of_oracle: Vec<String> =
            lent.positives.iter().zip(&lent.negatives).take(shown).map(|(positive, negative)| row(*positive, *negative)).collect();
        assert_eq!(of_oracle, rows, "{} by {weights:?} and {pairs:?}", KNOWN[place].text);
        same_on_both_sides(Listing::fitting(Clearances, table.clone(), weights, whole as u32, 5).with_pairs(pairs.clone()));
        same_on_both_sides(Listing::fitting(Clearances, table, weights, whole as u32 - 1, 5).with_pairs(pairs));
    }
}

/// A script through P9, with the status and the number of clearances left after each of its lines: +0 leaves +0 +1, +0 +2 and -1 +2 of
/// the four, and so on. Where the script ends after a line, the last entry is the step named.
const WALKED: [(&str, u32, u32, Option<u64>); 8] = [
    ("(set 0 yes)\n", 1, 3, None),
    ("(set 1 no)\n", 1, 2, None),
    ("(set 2 yes)\n", 2, 2, Some(2)),
    ("(drop 0)\n", 2, 3, Some(2)),
    ("(set 2 no)\n", 1, 1, None),
    ("(set 0 yes)\n", 0, 0, None),
    ("(set 0 no)\n", 2, 1, Some(6)),
    ("(drop 2)\n", 2, 2, Some(6)),
];

#[test]
fn a_walk_by_hand() {
    let table = engine_against_paper(&KNOWN[8]);
    let oracle = Oracle::new(&table);
    let primes = oracle.accepted().expect("accepted").primes(Clearances);
    for length in 0..=WALKED.len() {
        let (known, text) = (&WALKED[..length], WALKED[..length].iter().map(|line| line.0).collect::<String>());
        let mut steps = vec![Step { variable: 9, act: 9 }; length];
        assert_eq!(script::read(text.as_bytes(), 3, &mut steps), Ok(length as u64));
        assert_eq!(script::text(&steps), text);
        let listing = Buffers { positives: vec![7; 20], negatives: vec![7; 20], counts: vec![7; 5] };
        let mut lent = Lent { listing, statuses: vec![7; length], compatibles: vec![7; length] };
        let named = walk::walk(&oracle, &primes, &[0, 0, 0], 4, &steps, &mut lent).expect("walked");
        assert_eq!(named, known.last().and_then(|line| line.3), "{text}");
        assert_eq!(lent.statuses, known.iter().map(|line| line.1).collect::<Vec<_>>(), "{text}");
        assert_eq!(lent.compatibles, known.iter().map(|line| line.2).collect::<Vec<_>>(), "{text}");
        same_on_both_sides(Script::new(text.as_bytes(), 3, length));
        same_on_both_sides(Walk::fitting(table.clone(), &[0, 0, 0], 4, steps, 5));
    }
}
