//! Pairs leave rows out of the shown list and change nothing else. Every function of few variables, every two of many, long lists, and
//! wrong pairs among all other faults.

use super::chains::{rows, Row};
use super::listed::Listings;
use super::weights::circuit_of;
use super::wide::grouped;
use crate::cases::listings::{shown_noise, Listing};
use crate::circuits;
use crate::compare::compare;
use crate::engine;
use crate::oracle::answers::Oracle;
use crate::oracle::function::Listed;
use crate::oracle::listing::{Buffers, Shown};
use crate::oracle::pairs::Pairs;
use crate::oracle::table::{Node, Table};
use crate::oracle::Refused;
use crate::pairs;
use crate::random::Random;
use crate::tally::Tally;
use crate::weights;

/// What the engine leaves in buffers just enough that held something: rows and counts, and the shown list.
pub fn shown(table: &Table, weights: &[u32], pairs: &Pairs, capacity: u32) -> (Buffers, Vec<Row>) {
    let [rows, nodes, room] = [table.nodes * capacity, table.nodes, capacity].map(|length| length as usize);
    let mut lists = shown_noise(u64::from(capacity), [rows, rows, nodes], [room, room]);
    let number = engine::list_shown(table, weights, pairs, capacity, &mut lists).expect("right pairs and room enough") as usize;
    let Shown { listing, mut positives, mut negatives } = lists;
    let masks = engine::middle(&mut positives).iter().copied().zip(engine::middle(&mut negatives).iter().copied());
    let mut rows: Vec<Row> = masks.collect();
    assert!(rows[number..].iter().all(|row| *row == (0, 0)), "zeros after {number} rows: {rows:?}");
    rows.truncate(number);
    (listing, rows)
}

/// Whether no two yes marks of the row are a pair.
fn respects(&(positive, _): &Row, pairs: &[(u32, u32)]) -> bool {
    let yes: Vec<u32> = (0..64).filter(|variable| positive >> variable & 1 == 1).collect();
    !yes.iter().any(|first| yes.iter().any(|second| pairs.contains(&(*first, *second))))
}

/// Without pairs the shown list is the last node's. With pairs it lacks the rows with two yes marks of a pair, and all else stays. The
/// other way round, and both ways, the pairs give the same.
#[test]
fn pairs_change_the_shown_list_alone() {
    let (mut left_out, mut kept) = (0, 0);
    for seed in 0..3_000 {
        let random = Random::of(0x9000_0000, seed);
        let variables = random.between(2, 8) as u32;
        let table = Table::of(variables, &circuits::nodes(&random, variables));
        let clearances = Oracle::new(&table).accepted().expect("accepted").primes(Listed::Clearances).pop().expect("a node");
        let (weights, capacity) = (weights::right(&random, variables), clearances.len() as u32 + 1);
        let by = |pairs: &[(u32, u32)]| shown(&table, &weights, &Pairs::of(pairs), capacity);
        let (listing, all) = by(&[]);
        let last = rows(Listed::Clearances, &table, &weights, capacity).pop().expect("a node");
        assert_eq!(all, last, "seed {seed}, {table:?} by {weights:?}");
        let pairs = pairs::right(&random, variables, &clearances);
        let pairs: Vec<(u32, u32)> = (0..pairs.longest()).filter_map(|index| pairs.entry(index)).collect();
        let reversed: Vec<(u32, u32)> = pairs.iter().map(|&(first, second)| (second, first)).collect();
        let expected: Vec<Row> = all.iter().copied().filter(|row| respects(row, &pairs)).collect();
        left_out += all.len() - expected.len();
        kept += expected.len();
        let expected = (listing, expected);
        for pairs in [pairs.clone(), reversed.clone(), [pairs, reversed].concat()] {
            assert!(by(&pairs) == expected, "seed {seed}, {table:?} by {weights:?} and {pairs:?}: not {expected:?}");
        }
    }
    assert!(left_out > 3_000 && kept > 10_000, "{left_out} rows are left out, {kept} shown");
}

/// Every function of three variables by every choice of the three pairs, each in either order or in both; just enough room, and less,
/// where all clearances count though those shown would fit.
#[test]
fn every_function_by_every_choice_of_pairs() {
    let mut tally = Tally::default();
    for function in 0..256 {
        let table = Table::of(3, &circuit_of(function, 3));
        let mut listings = Listings::new(format!("function {function}"), &table, &mut tally);
        let whole = listings.whole(Listed::Clearances);
        for choice in 0..64u64 {
            let each = [(0, 1), (1, 2), (2, 0)].into_iter().enumerate();
            let chosen = each.flat_map(|(place, (one, other))| {
                let orders = [(one, other), (other, one)].into_iter().enumerate();
                orders.filter(move |(order, _)| choice >> (2 * place + order) & 1 == 1).map(|(_, pair)| pair)
            });
            let pairs = Pairs::of(&chosen.collect::<Vec<(u32, u32)>>());
            listings.show(&[choice as u32 % 3, function as u32 % 2, 1], pairs.clone(), whole, choice);
            for less in 0..whole {
                listings.show(&[0, 0, 0], pairs.clone(), less, choice);
            }
        }
    }
    tally.expect(&[("list", &[(0, 64), (1, 9_000), (2, 7_000), (42, 40_000)])]);
}

/// Every two of 40 variables alone, all of them, and all but one; and any pairs. Of three clauses, whose clearances have a mark of yes for
/// each, and of a conjunction with one clearance that marks every variable yes.
#[test]
fn every_two_of_many_variables() {
    let mut tally = Tally::default();
    let random = Random::of(0x9100_0000, 0);
    let clauses = circuits::scattered(&random, &circuits::clauses(3, 3).1, 40);
    let all_yes = grouped(&random, (0..40).map(|_| (1, vec![Node::Yes(0)])).collect());
    let every_two: Vec<(u32, u32)> = (0..40).flat_map(|first| (0..first).map(move |second| (first, second))).collect();
    for (nodes, whole) in [(clauses, 27), (all_yes, 1)] {
        let table = Table::of(40, &nodes);
        let mut listings = Listings::new("every two".to_string(), &table, &mut tally);
        let clearances = listings.rows(Listed::Clearances, nodes.len() - 1).to_vec();
        assert_eq!(clearances.len(), whole as usize);
        listings.show(&[0; 40], Pairs::of(&every_two), whole, 1);
        for (place, &(first, second)) in every_two.iter().enumerate() {
            listings.show(&[0; 40], Pairs::of(&[(first, second)]), whole, 1);
            listings.show(&[0; 40], Pairs::of(&[(second, first)]), whole, 1);
            listings.show(&[0; 40], Pairs::of(&[&every_two[..place], &every_two[place + 1..]].concat()), whole, 1);
        }
        for seed in 0..300 {
            let random = Random::of(0x9200_0000, seed);
            let pairs = pairs::any(&random, 40, &clearances);
            listings.show(&weights::right(&random, 40), pairs, whole - u32::from(random.once_in(4)), seed);
        }
    }
    tally.expect(&[("list", &[(1, 1_400), (2, 3_000), (42, 80), (57, 60)])]);
}

/// A million pairs, of which the last decides; and one more entry in one list, or a last pair that is wrong.
#[test]
fn a_million_pairs() {
    const MILLION: usize = 1_000_000;
    let (variables, nodes) = circuits::clauses(6, 4);
    let table = Table::of(variables, &nodes);
    let zeros = vec![0; variables as usize];
    let by = |pairs: &Pairs| shown(&table, &zeros, pairs, 4_096);
    let (_, all) = by(&Pairs::default());
    let (first, second) = (all[0].0.trailing_zeros(), 63 - all[0].0.leading_zeros());
    let few = by(&Pairs::of(&[(first, second), (0, 1)]));
    assert!(!few.1.is_empty() && few.1.len() < all.len(), "{} rows of {}", few.1.len(), all.len());
    let mut many = Pairs { firsts: vec![0; MILLION], seconds: vec![1; MILLION] };
    assert!(by(&many) == by(&Pairs::of(&[(0, 1)])));
    (many.firsts[MILLION - 1], many.seconds[MILLION - 1]) = (second, first);
    assert!(by(&many) == few);
    let refused = |pairs: &Pairs| {
        let mut lists = Shown { listing: by(&Pairs::default()).0, positives: vec![7; 5_000], negatives: vec![7; 5_000] };
        let before = lists.clone();
        assert_eq!(engine::list_shown(&table, &zeros, pairs, 4_096, &mut lists), Err(Refused { number: 57, place: 0 }));
        assert!(lists == before, "buffers that a refusal wrote");
    };
    refused(&Pairs::new(&many.firsts, &many.seconds[1..]));
    refused(&Pairs::new(&many.firsts[1..], &many.seconds));
    for wrong in [(0, 0), (variables, 0), (0, variables)] {
        (many.firsts[MILLION - 1], many.seconds[MILLION - 1]) = wrong;
        refused(&many);
    }
}

/// Every variable at and past the limits, as the first and as the second of a pair, among right pairs.
#[test]
fn every_wrong_pair() {
    let mut tally = Tally::default();
    for variables in [1, 2, 3, 31, 32, 33, 39, 40] {
        let table = Table::of(variables, &[Node::Yes(0)]);
        let mut listings = Listings::new(format!("wrong pairs of {variables}"), &table, &mut tally);
        let last = variables - 1;
        let numbers = [0, 1, last, variables, variables + 1, 40, 41, 63, 64, 64 + last, 128, 255, 256, 1 << 16, 1 << 31, u32::MAX];
        for pair in numbers.iter().flat_map(|&first| numbers.map(|second| (first, second))) {
            let right = if variables > 1 { vec![(0, last), (last, 0)] } else { vec![] };
            for place in 0..=right.len() {
                let pairs = [&right[..place], &[pair], &right[place..]].concat();
                listings.show(&vec![0; variables as usize], Pairs::of(&pairs), 1, 1);
                listings.show(&vec![0; variables as usize], Pairs::of(&pairs), 0, 1);
            }
        }
    }
    tally.expect(&[("list", &[(1, 100), (42, 100), (57, 8_000)])]);
}

/// Right pairs of three variables, and wrong ones: one variable twice, out of range, incomplete.
fn lists() -> Vec<Pairs> {
    let pairs = |firsts: &[u32], seconds: &[u32]| Pairs::new(firsts, seconds);
    vec![
        pairs(&[], &[]),
        pairs(&[1], &[0]),
        pairs(&[1, 2, 0, 0], &[2, 0, 1, 1]),
        pairs(&[1], &[1]),
        pairs(&[0, 2], &[1, 2]),
        pairs(&[0, 3], &[1, 2]),
        pairs(&[3, 0], &[1, 1]),
        pairs(&[0], &[u32::MAX]),
        pairs(&[0], &[]),
        pairs(&[], &[1]),
        pairs(&[0, 1], &[1]),
        pairs(&[0], &[1, 2]),
        pairs(&[3, 1], &[1]),
    ]
}

/// Right and wrong pairs with right and wrong tables, weights, buffers and capacities, all of them together.
#[test]
fn every_two_faults() {
    let mut tally = Tally::default();
    let worked = vec![Node::No(1), Node::Yes(2), Node::True, Node::Pick(1, 1, 2), Node::Pick(0, 0, 3)];
    let nobodys = [vec![Node::True], worked.clone()].concat();
    let weights: [&[u32]; 5] = [&[0, 0, 0], &[30, 5, 10], &[0, 0, 1_001], &[0, 0], &[0, 0, 0, 0]];
    for (table, pairs) in [worked, nobodys].iter().flat_map(|nodes| lists().into_iter().map(|pairs| (Table::of(3, nodes), pairs))) {
        for (weights, capacity) in weights.iter().flat_map(|weights| [0, 1, 2, 3, 4, 5, 4_097].map(|capacity| (weights, capacity))) {
            for change in 0..7 {
                // Each buffer in turn is one too short; then all are just enough, and at last longer, by other lengths.
                let (nodes, room) = (table.nodes as usize, capacity.min(5) as usize);
                let mut lengths = [nodes * room, nodes * room, nodes, room, room];
                match change {
                    5 => {}
                    6 => lengths.iter_mut().zip([2, 1, 3, 1, 2]).for_each(|(length, more)| *length += more),
                    short => lengths[short] = lengths[short].saturating_sub(1),
                }
                let [positives, negatives, counts, shown @ ..] = lengths;
                let listing = Listing::new(Listed::Clearances, table.clone(), weights, capacity, [positives, negatives, counts], 1);
                compare("faults", &listing.with_pairs(pairs.clone()).with_shown(shown), &mut tally);
            }
        }
    }
    tally.expect(&[("list", &[(1, 8), (2, 16), (23, 3_000), (41, 2_000), (42, 60), (56, 500), (57, 300)])]);
}
