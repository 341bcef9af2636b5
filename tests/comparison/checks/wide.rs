//! Up to 40 variables, up to 1,024 nodes, and up to 4,096 clearances or blockers and more.

use super::listed::Listings;
use super::questions::Questioning;
use crate::cases::questions::Question::{Check, Count};
use crate::circuits::{self, Part};
use crate::oracle::function::Listed;
use crate::oracle::table::{Node, Table, MOST_CHILDREN};
use crate::random::Random;
use crate::tally::Tally;

/// Few variables are named, anywhere among up to 40: every row over them can be tried.
#[test]
fn scattered_variables() {
    let mut tally = Tally::default();
    for seed in 0..3_000 {
        let random = Random::of(0x4000_0000, seed);
        let (named, variables) = (random.between(1, 7) as u32, random.choose(&[40, 40, random.between(9, 40)]) as u32);
        let nodes = circuits::nodes(&random, named);
        let table = Table::of(variables, &circuits::scattered(&random, &nodes, variables));
        let origin = format!("scattered, seed {seed}");
        ask_randomly(&mut Questioning::new(origin.clone(), &table, &mut tally), &random, 10);
        Listings::new(origin, &table, &mut tally).list_around(&random, |whole| [whole, whole.saturating_sub(1), whole + 2]);
    }
    tally.expect(&[
        ("count", &[(1, 2_500)]),
        ("evaluate", &[(0, 5_000), (1, 5_000), (31, 1_000)]),
        ("implies", &[(0, 5_000), (1, 5_000), (32, 5_000)]),
        ("prime", &[(0, 5_000), (1, 5_000), (32, 5_000)]),
        ("reduce", &[(1, 5_000), (31, 1_000), (33, 5_000)]),
        ("list", &[(1, 4_000), (2, 700), (42, 2_000), (56, 500), (57, 500)]),
        ("list_negation", &[(0, 500), (1, 4_000), (42, 2_000), (56, 500)]),
    ]);
}

/// The questions for random assignments, rows near them, and rows that are none.
fn ask_randomly(questioning: &mut Questioning, random: &Random, times: u64) {
    questioning.ask(Check);
    questioning.ask(Count);
    for _ in 0..times {
        let assignment = random.next() & ((1 << questioning.table.variables) - 1);
        questioning.ask_assignment(assignment);
        questioning.ask_rows_near(random, assignment);
    }
    questioning.ask_invalid(random);
}

/// Circuits that name up to 40 variables, with up to 1,024 nodes: the oracle counts.
#[test]
fn many_variables_and_nodes() {
    let mut tally = Tally::default();
    for seed in 0..700 {
        let random = Random::of(0x4100_0000, seed);
        let variables = random.choose(&[40, 33, 32, 31, random.between(14, 40)]) as u32;
        let nodes = match random.below(3) {
            0 => circuits::built(&random, variables, 30),
            1 => circuits::layered(&random, variables, random.between(2, 40)),
            _ => circuits::chain(&random, variables, random.between(100, 1_000)),
        };
        let nodes = if random.once_in(2) { circuits::scattered(&random, &nodes, variables) } else { nodes };
        let table = Table::of(variables, &nodes);
        ask_randomly(&mut Questioning::new(format!("many, seed {seed}"), &table, &mut tally), &random, 5);
    }
    tally.expect(&[
        ("check", &[(0, 700)]),
        ("count", &[(1, 600)]),
        ("evaluate", &[(0, 700), (1, 700), (31, 700)]),
        ("implies", &[(0, 700), (1, 700), (32, 700)]),
        ("prime", &[(0, 700), (1, 700), (32, 700)]),
        ("reduce", &[(1, 700), (31, 700), (33, 700)]),
    ]);
}

/// As many clearances or blockers as a listing can hold, one too many for the room, and more than any listing holds.
#[test]
fn long_listings() {
    let (mut tally, random) = (Tally::default(), Random::of(0x4600_0000, 0));
    let symmetric = |variables: u32, numbers: u64| (variables, circuits::symmetric(variables, numbers));
    // The conjunction of a circuit with itself over other variables, so that rows of the two come in turn.
    let twice = |part: Part| {
        let (variables, nodes) = circuits::conjunction(&[part.clone(), part]);
        (variables, circuits::scattered(&Random::of(0x4500_0000, 0), &nodes, variables))
    };
    for (name, (variables, nodes), wholes) in [
        ("parity of 13", (13, circuits::parity(13)), [4096, 4096]),
        ("parity of 12", (12, circuits::parity(12)), [2048, 2048]),
        ("3 to 6 of 9", symmetric(9, 0b111_1000), [1680, 72]),
        ("not 3 to 6 of 9", symmetric(9, !0b111_1000), [72, 1680]),
        ("3 to 7 of 10", symmetric(10, 0b1111_1000), [4200, 90]),
        ("not 3 to 7 of 10", symmetric(10, !0b1111_1000), [90, 4200]),
        ("8 clauses of 2", circuits::clauses(8, 2), [256, 8]),
        ("6 clauses of 4", circuits::clauses(6, 4), [4096, 6]),
        ("8 clauses of 3", circuits::clauses(8, 3), [6561, 8]),
        ("4 cubes of 3", circuits::cubes(4, 3), [4, 81]),
        ("not 3 to 6 of two times 9", twice(symmetric(9, !0b111_1000)), [5184, 3360]),
    ] {
        let table = Table::of(variables, &nodes);
        let mut listings = Listings::new(name.to_string(), &table, &mut tally);
        assert_eq!(Listed::BOTH.map(|listed| listings.whole(listed)), wholes, "{name}");
        listings.list_around(&random, |whole| [whole, whole - 1].map(|capacity| capacity.min(4_096)));
    }
    tally.expect(&[("list", &[(1, 1), (2, 2), (42, 14)]), ("list_negation", &[(1, 10), (42, 12)])]);
}

/// Circuits that are not `false`, over up to 40 variables in all; at least two.
fn parts(random: &Random) -> Vec<Part> {
    let (mut parts, mut named) = (vec![], 0);
    while named + 7 <= 40 && (parts.len() < 2 || !random.once_in(12)) {
        let variables = random.between(1, 7) as u32;
        parts.push(circuits::satisfiable(random, variables));
        named += variables;
    }
    parts
}

/// One conjunction of all the parts, or of some at a time until one is left.
pub fn grouped(random: &Random, mut parts: Vec<Part>) -> Vec<Node> {
    while parts.len() > 1 {
        let number = random.choose(&[2, MOST_CHILDREN, MOST_CHILDREN]).min(parts.len());
        let whole = circuits::conjunction(&parts[..number]);
        parts.splice(..number, [whole]);
    }
    parts.remove(0).1
}

/// Conjunctions of circuits over different variables, up to 40 in all: the clearances are those of the parts, joined, and the blockers
/// those of each.
#[test]
fn conjunctions() {
    let mut tally = Tally::default();
    let (mut longest, mut eight) = ([0, 0], 0);
    for seed in 0..150 {
        let random = Random::of(0x4200_0000, seed);
        let nodes = grouped(&random, parts(&random));
        let table = Table::of(40, &circuits::scattered(&random, &nodes, 40));
        let mut listings = Listings::new(format!("conjunctions, seed {seed}"), &table, &mut tally);
        listings.list_around(&random, |whole| [whole, whole.saturating_sub(1), 64].map(|capacity| capacity.min(4_096)));
        for listed in Listed::BOTH {
            let whole = listings.whole(listed);
            longest[listed as usize] = longest[listed as usize].max(if whole <= 4_096 { whole } else { 0 });
        }
        eight += u32::from(nodes.last().expect("a node").children().len() == MOST_CHILDREN);
    }
    assert!(eight > 10, "{eight} conjunctions of eight only");
    assert!(longest[0] > 2_000 && longest[1] > 40, "the longest listings have {longest:?} rows");
    tally.expect(&[("list", &[(1, 60), (2, 80), (42, 100), (57, 20)]), ("list_negation", &[(1, 250), (42, 140)])]);
}

/// Circuits of a middle size: hundreds of clearances and of blockers, made from many joined rows.
#[test]
fn middle_listings() {
    let mut tally = Tally::default();
    let mut longest = [0, 0];
    for seed in 0..80 {
        let random = Random::of(0x4300_0000, seed);
        let variables = random.between(9, 10) as u32;
        let nodes = match random.below(2) {
            0 => circuits::layered(&random, variables, 12),
            _ => circuits::symmetric(variables, random.next() & random.next()),
        };
        let table = Table::of(variables, &circuits::scattered(&random, &nodes, variables));
        let mut listings = Listings::new(format!("middle, seed {seed}"), &table, &mut tally);
        listings.list_around(&random, |whole| [whole, whole.saturating_sub(1)].map(|capacity| capacity.min(4_096)));
        for listed in Listed::BOTH {
            longest[listed as usize] = longest[listed as usize].max(listings.whole(listed));
        }
    }
    assert!(longest.iter().all(|&rows| rows > 400), "the longest listings have {longest:?} rows");
    tally.expect(&[("list", &[(1, 10), (2, 40), (42, 70), (57, 5)]), ("list_negation", &[(1, 70), (42, 70)])]);
}

/// The most nodes with the most room for each.
#[test]
fn largest_listing() {
    let mut tally = Tally::default();
    let random = Random::of(0x4400_0000, 0);
    let table = Table::of(40, &circuits::chain(&random, 8, 1_023));
    assert_eq!(table.nodes, 1_024);
    Listings::new("largest".to_string(), &table, &mut tally).list_around(&random, |whole| [whole, 4_096]);
    tally.expect(&[("list_negation", &[(1, 2)])]);
    assert!(tally.total() >= 4);
}
