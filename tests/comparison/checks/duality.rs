//! Clearances against blockers, without an oracle: all rows of every node, those of one kind by other weights and at another capacity.
//! A clearance and a blocker have opposite marks of some variable; every assignment agrees with rows of one kind, none with rows of both.
//! Of the shown list this does not hold; and of lists from which a row is left out it can hold.

use super::chains::{by_node, rows, rows_or_refusal, Row};
use super::negations::diagram;
use super::pairs::shown;
use super::weights::circuit_of;
use crate::circuits::{self, Part};
use crate::oracle::function::{Listed, Term};
use crate::oracle::pairs::Pairs;
use crate::oracle::table::{Node, Table};
use crate::oracle::Refused;
use crate::pairs;
use crate::random::Random;
use crate::weights;
use std::iter::repeat_with;
use Failure::{Contradicted, Uncovered, Unopposed};

/// How a list of rows fails against another one.
#[derive(Debug, PartialEq, Eq)]
enum Failure {
    /// These two rows, one of each list, have opposite marks of no variable.
    Unopposed(Row, Row),
    /// This assignment agrees with no row.
    Uncovered(u64),
    /// This assignment agrees with a row of each list.
    Contradicted(u64),
}

/// How much was looked at: pairs of rows, and the assignments that agree with rows of the one list and of the other.
#[derive(Debug, Default)]
struct Looked {
    pairs: usize,
    agreeing: [usize; 2],
}

impl Looked {
    /// The first of each of the three failures, by all pairs of rows and by these assignments.
    fn failures<R: AsRef<[Row]>>(&mut self, lists: [R; 2], assignments: impl IntoIterator<Item = u64>) -> Vec<Failure> {
        let [ones, others] = lists.each_ref().map(R::as_ref);
        let opposed = |one: &Row, other: &Row| (one.0 & other.1) | (one.1 & other.0) != 0;
        let against = |one: &Row| others.iter().find(|other| !opposed(one, other)).map(|other| Unopposed(*one, *other));
        let unopposed = ones.iter().find_map(against);
        self.pairs += ones.len() * others.len();
        let (mut uncovered, mut contradicted) = (None, None);
        for assignment in assignments {
            let agrees = |&(positive, negative): &Row| Term { positive, negative }.agrees_with(assignment);
            match [ones, others].map(|rows| rows.iter().any(agrees)) {
                [false, false] => uncovered = uncovered.or(Some(Uncovered(assignment))),
                [true, true] => contradicted = contradicted.or(Some(Contradicted(assignment))),
                [one, _] => self.agreeing[usize::from(!one)] += 1,
            }
        }
        [unopposed, uncovered, contradicted].into_iter().flatten().collect()
    }

    /// Looks at every node, on the assignments that are made for its rows: nothing fails.
    fn look<A: IntoIterator<Item = u64>>(&mut self, origin: &str, lists: &Lists, assignments: impl Fn([&[Row]; 2]) -> A) {
        assert_eq!(lists[0].len(), lists[1].len(), "{origin}: the nodes");
        for node in 0..lists[0].len() {
            let rows = lists.each_ref().map(|lists| &lists[node][..]);
            assert_eq!(self.failures(rows, assignments(rows)), [], "{origin}, node {node}");
        }
    }

    /// Prints how much was looked at, and fails where it is less than stated.
    fn expect(&self, pairs: usize, agreeing: [usize; 2]) {
        println!("{self:?}");
        let enough = self.pairs >= pairs && self.agreeing.iter().zip(agreeing).all(|(seen, least)| *seen >= least);
        assert!(enough, "{self:?} only, not {pairs} and {agreeing:?}");
    }
}

/// Rows by kind, clearances first, then by node.
type Lists = [Vec<Vec<Row>>; 2];

/// The circuit's rows of one kind, at the first capacity that is enough.
fn of_circuit(listed: Listed, table: &Table) -> Vec<Row> {
    let zeros = vec![0; table.variables as usize];
    let listing = (0..=12).find_map(|power| rows_or_refusal(listed, table, &zeros, 1 << power).ok());
    listing.expect("room enough").pop().expect("a node")
}

/// Both lists, that of the clearances by pairs and that of the blockers by other weights and at another capacity; and the shown list.
fn listings(random: &Random, table: &Table) -> (Lists, Vec<Row>) {
    let [clearances, blockers] = Listed::BOTH.map(|listed| of_circuit(listed, table));
    let enough = |rows: &[Row]| rows.len() as u32 + random.choose(&[0, 1, random.below(20) as u32]);
    let (capacity, another) = (enough(&clearances), enough(&blockers));
    let another = another + u32::from(another == capacity);
    let terms: Vec<Term> = clearances.iter().map(|&(positive, negative)| Term { positive, negative }).collect();
    let pairs = pairs::right(random, table.variables, &terms);
    let weights = weights::right(random, table.variables);
    let others = repeat_with(|| weights::right(random, table.variables)).find(|others| *others != weights).expect("other weights");
    let (buffers, shown) = shown(table, &weights, &pairs, capacity);
    ([by_node(buffers, capacity), rows(Listed::Blockers, table, &others, another)], shown)
}

/// A random circuit over few variables.
fn small(random: &Random) -> Table {
    let variables = random.between(1, 8) as u32;
    Table::of(variables, &circuits::nodes(random, variables))
}

/// Every node of random circuits, on every assignment.
#[test]
fn every_assignment_agrees_with_rows_of_one_kind() {
    let mut looked = Looked::default();
    for seed in 0..4_000 {
        let random = Random::of(0x7400_0000, seed);
        let table = small(&random);
        let (lists, _) = listings(&random, &table);
        looked.look(&format!("seed {seed}, {table:?}"), &lists, |_| 0..1 << table.variables);
    }
    looked.expect(1_000_000, [3_000_000, 700_000]);
}

#[test]
fn every_function_of_three_variables() {
    let mut looked = Looked::default();
    for (function, time) in (0..256).flat_map(|function| (0..10).map(move |time| (function, time))) {
        let table = Table::of(3, &circuit_of(function, 3));
        let (lists, _) = listings(&Random::of(0x7500_0000, 10 * function + time), &table);
        looked.look(&format!("function {function}, time {time}"), &lists, |_| 0..8);
    }
    looked.expect(30_000, [60_000, 60_000]);
}

/// A circuit over many variables, up to 40: blocks, clauses, a conjunction of random circuits, or a decision diagram.
fn large(random: &Random) -> Table {
    let number = random.between(2, 8);
    let size = random.between(2, 40 / number) as u32;
    let (named, nodes) = match random.below(5) {
        0 => circuits::cubes(number as u32, size),
        1 => circuits::clauses(number as usize, size),
        2 => circuits::conjunction(&(0..number).map(|_| circuits::satisfiable(random, size.min(6))).collect::<Vec<Part>>()),
        _ => diagram(random),
    };
    let variables = random.choose(&[40, random.between(u64::from(named), 40) as u32]);
    Table::of(variables, &circuits::scattered(random, &nodes, variables))
}

/// Both lists, each by its own weights; none where a kind has more rows than any listing holds.
fn long_listings(random: &Random, table: &Table) -> Option<Lists> {
    let [clearances, blockers] = Listed::BOTH.map(|listed| {
        let listing = rows_or_refusal(listed, table, &weights::right(random, table.variables), 4_096);
        listing.map_err(|refusal| assert_eq!(refusal, Refused { number: 42, place: 0 })).ok()
    });
    Some([clearances?, blockers?])
}

/// Random assignments; and for some rows one that agrees, also with the value of a marked variable turned.
fn assignments(random: &Random, variables: u32, lists: [&[Row]; 2]) -> Vec<u64> {
    let any = || random.next() & ((1 << variables) - 1);
    let mut assignments: Vec<u64> = repeat_with(any).take(300).collect();
    for rows in lists {
        for _ in 0..rows.len().min(100) {
            let (positive, negative) = random.choose(rows);
            let agreeing = (any() | positive) & !negative;
            assignments.push(agreeing);
            if positive | negative != 0 {
                assignments.push(agreeing ^ (1 << random.bit_of(positive | negative)));
            }
        }
    }
    assignments
}

/// All pairs of rows of long lists, and some assignments of up to 40 variables.
#[test]
fn long_lists_of_many_variables() {
    let (mut looked, mut held, mut long) = (Looked::default(), 0, 0);
    for seed in 0..300 {
        let random = Random::of(0x7600_0000, seed);
        let table = large(&random);
        if let Some(lists) = long_listings(&random, &table) {
            looked.look(&format!("seed {seed}, {table:?}"), &lists, |rows| assignments(&random, table.variables, rows));
            let last = lists.map(|lists| lists.last().expect("a node").len());
            held += 1;
            long += u32::from(last.iter().all(|&rows| rows > 100));
        }
    }
    assert!(held > 150 && long > 25, "{held} circuits only, {long} of them with long lists");
    looked.expect(20_000_000, [1_500_000, 800_000]);
}

/// Where pairs leave rows out of the shown list, assignments that agree with these alone agree with no row; nothing else fails.
#[test]
fn the_shown_list_leaves_assignments_uncovered() {
    let (mut looked, mut uncovered) = (Looked::default(), 0);
    let both = Table::of(2, &[Node::Yes(0), Node::Yes(1), Node::Both(vec![0, 1])]);
    let (buffers, shown_rows) = shown(&both, &[0, 0], &Pairs::of(&[(0, 1)]), 1);
    let (all, blockers) = (by_node(buffers, 1).pop().expect("a node"), of_circuit(Listed::Blockers, &both));
    assert_eq!([&all, &shown_rows, &blockers], [&vec![(3, 0)], &vec![], &vec![(0, 1), (0, 2)]]);
    assert_eq!(looked.failures([&all, &blockers], 0..4), []);
    assert_eq!(looked.failures([&shown_rows, &blockers], 0..4), [Uncovered(3)]);
    for seed in 0..3_000 {
        let random = Random::of(0x7700_0000, seed);
        let table = small(&random);
        let ([_, blockers], shown) = listings(&random, &table);
        match looked.failures([&shown, blockers.last().expect("a node")], 0..1 << table.variables)[..] {
            [] => {}
            [Uncovered(_)] => uncovered += 1,
            ref failures => panic!("seed {seed}, {table:?}: {failures:?}"),
        }
    }
    assert!(uncovered > 400, "{uncovered} circuits only have assignments that agree with no shown clearance and with no blocker");
}

/// If variable 0 then variable 1, else variable 2. A list lacks the row that does not mark variable 0, and nothing fails; where it lacks
/// another row, an assignment is uncovered.
#[test]
fn incomplete_lists_can_hold() {
    let mut looked = Looked::default();
    let table = Table::of(3, &[Node::Yes(1), Node::Yes(2), Node::Pick(0, 1, 0)]);
    let lists = Listed::BOTH.map(|listed| of_circuit(listed, &table));
    assert_eq!(lists, [[(0b011, 0), (0b100, 0b001), (0b110, 0)], [(0b001, 0b010), (0, 0b101), (0, 0b110)]]);
    assert_eq!(looked.failures(lists.each_ref(), 0..8), []);
    for (kind, place) in [(0, 0), (0, 1), (0, 2), (1, 0), (1, 1), (1, 2)] {
        let mut fewer = lists.clone();
        let (positive, negative) = fewer[kind].remove(place);
        let failures = looked.failures(fewer.each_ref(), 0..8);
        match (positive | negative) & 1 {
            0 => assert_eq!(failures, []),
            _ => assert!(matches!(failures[..], [Uncovered(_)]), "{fewer:?}: {failures:?}"),
        }
    }
}

/// Random lists with one change. With a mark less in a row they fail; without the row an assignment is uncovered, or nothing fails.
#[test]
fn a_mark_less_always_fails_and_a_row_less_often() {
    let (mut looked, mut shorter, mut uncovered, mut covered) = (Looked::default(), 0, 0, 0);
    for (seed, kind) in (0..1_000).flat_map(|seed| [(seed, 0), (seed, 1)]) {
        let random = Random::of(0x7800_0000, seed);
        let table = small(&random);
        let mut lists = listings(&random, &table).0.map(|lists| lists.last().expect("a node").clone());
        if lists[kind].is_empty() {
            continue;
        }
        let place = random.position(lists[kind].len());
        let mut by = |lists: &[Vec<Row>; 2]| looked.failures(lists.each_ref(), 0..1 << table.variables);
        let (positive, negative) = lists[kind].swap_remove(place);
        match by(&lists)[..] {
            [] => covered += 1,
            [Uncovered(_)] => uncovered += 1,
            ref failures => panic!("seed {seed}, {table:?}: {failures:?}"),
        }
        if positive | negative != 0 {
            let Term { positive, negative } = Term { positive, negative }.without(random.bit_of(positive | negative));
            lists[kind].push((positive, negative));
            assert!(matches!(by(&lists)[..], [Unopposed(..), Contradicted(_)]), "seed {seed}, {table:?}: {lists:?}");
            shorter += 1;
        }
    }
    println!("{shorter} rows with a mark less; {uncovered} rows left out that were needed, {covered} that were not");
    assert!(shorter > 1_200 && uncovered > 1_200 && covered > 50);
}

/// Each failure alone where it can be: an assignment that agrees with a row of each list shows that these are unopposed.
#[test]
fn every_failure_is_found() {
    let mut looked = Looked::default();
    let mut by = |ones: &[Row], others: &[Row]| looked.failures([ones, others], 0..4);
    assert_eq!(by(&[(1, 0)], &[(0, 1)]), []);
    assert_eq!(by(&[(0, 1)], &[(1, 0)]), []);
    assert_eq!(by(&[], &[(0, 0)]), []);
    assert_eq!(by(&[], &[]), [Uncovered(0)]);
    assert_eq!(by(&[(1, 0)], &[(2, 1)]), [Uncovered(0)]);
    assert_eq!(by(&[(1, 0)], &[(0, 1), (2, 0)]), [Unopposed((1, 0), (2, 0)), Contradicted(3)]);
    assert_eq!(by(&[(1, 0), (0, 1)], &[(4, 0)]), [Unopposed((1, 0), (4, 0))]);
    // Rows that are merely different.
    assert_eq!(by(&[(1, 0)], &[(2, 0)]), [Unopposed((1, 0), (2, 0)), Uncovered(0), Contradicted(3)]);
}
