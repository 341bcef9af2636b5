//! Well-formed tables, also those that the check refuses, written into sinks of all lengths and read in again.

use crate::cases::writings::Writing;
use crate::circuits;
use crate::compare::compare;
use crate::damage;
use crate::oracle::table::{Node, Table, MOST_CHILDREN};
use crate::oracle::text::MOST_BYTES;
use crate::oracle::writer;
use crate::random::Random;
use crate::tally::Tally;

/// Sinks just enough, longer, too short by one, and by more.
fn write_into_all_sinks(origin: &str, random: &Random, table: &Table, tally: &mut Tally) {
    let needed = writer::text(table).expect("well-formed").len();
    for sink in [needed, needed + 1 + random.position(20), needed - 1, random.position(needed)] {
        compare(origin, &Writing::new(table.clone(), sink), tally);
    }
}

#[test]
fn written_and_read_again() {
    let mut tally = Tally::default();
    let mut checks = Tally::default();
    for seed in 0..15_000 {
        let random = Random::of(0xe000_0000, seed);
        let variables = random.between(1, 40) as u32;
        let nodes = random.between(1, 30);
        let table = match random.below(4) {
            0 => damage::connected(&random, variables, nodes),
            1 => damage::noise(&random, variables, nodes),
            _ => circuits::table(&random, variables.min(8)),
        };
        checks.see(("check", table.check().map_or_else(|refusal| refusal.number, |_| 0)));
        write_into_all_sinks(&format!("written, seed {seed}"), &random, &table, &mut tally);
    }
    checks.expect(&[("check", &[(0, 5_000), (23, 1_000), (24, 100), (25, 10)])]);
    tally.expect(&[("write", &[(1, 20_000), (16, 20_000)])]);
}

/// Up to 1,024 nodes: the longest texts there are.
#[test]
fn largest_texts() {
    let mut tally = Tally::default();
    for seed in 0..150 {
        let random = Random::of(0xe100_0000, seed);
        let nodes = random.choose(&[random.between(90, 110), random.between(990, 1010), 1023, 1024]);
        let table = damage::noise(&random, 40, nodes);
        write_into_all_sinks(&format!("largest texts, seed {seed}"), &random, &table, &mut tally);
    }
    tally.expect(&[("write", &[(1, 300), (16, 300)])]);
}

/// A conjunction of eight wherever there can be one, with line numbers as long as can be: no well-formed table has a longer text.
#[test]
fn the_longest_text() {
    let mut tally = Tally::default();
    let eight = |index: u32| Node::Both(vec![index - 1; MOST_CHILDREN]);
    let nodes: Vec<Node> = [Node::Yes(39)].into_iter().chain((1..1_024).map(eight)).collect();
    let table = Table::of(40, &nodes);
    let length = writer::text(&table).expect("well-formed").len();
    assert_eq!(length, 96_511);
    assert!(length <= MOST_BYTES);
    write_into_all_sinks("the longest text", &Random::of(0xe200_0000, 0), &table, &mut tally);
    tally.expect(&[("write", &[(1, 2), (16, 2)])]);
}
