//! The engine's listings of clearances with pairs beside those without, in turn: on the families of the table with every two of the
//! circuit's variables, which leaves out many rows, and with those that leave out none; and on one of them with a million pairs that are
//! all the same. What the engine shows is what is shown by hand, or the program stops.
use crate::families::{product, Family};
use crate::measure::stop;
use crate::ratios::{self, Line, Listing};
use crate::shown::Excluded;
use crate::terms::Of;
use crate::{engine, CAPACITY};

const MILLION: usize = 1_000_000;

/// Pairs as they are lent: the first and the second variables.
type Pairs = (Vec<u32>, Vec<u32>);

/// Every two variables.
fn all_pairs(variables: u32) -> Pairs {
    (0..variables).flat_map(|first| (first + 1..variables).map(move |second| (first, second))).unzip()
}

/// Every two variables, in both orders, that no row has as two positive literals: no row is left out, and each literal is looked at.
fn idle_pairs(family: &Family, capacity: u32) -> Pairs {
    let variables = family.circuit.variables;
    let rows = ratios::by_hand(Of::Function, family, capacity).1.last(capacity);
    let together = |first: u32, second: u32| rows.iter().any(|t| t.positive >> first & t.positive >> second & 1 == 1);
    let every_two = (0..variables).flat_map(|first| (0..variables).map(move |second| (first, second)));
    every_two.filter(|&(first, second)| first != second && !together(first, second)).unzip()
}

/// Stops where a listing is not that by hand, with the rows shown by hand.
fn check(family: &Family, (firsts, seconds): &Pairs, capacity: u32, listing: &Listing) {
    let (room, mut buffers) = ratios::by_hand(Of::Function, family, capacity);
    buffers.show(Of::Function, &Excluded::new(firsts, seconds), capacity);
    if *listing != (room, buffers) {
        stop(&format!("{}: the listings by {} pairs differ", family.name, firsts.len()));
    }
}

/// Measures a family without pairs and with these in turn.
fn line(name: &str, family: &Family, pairs: Pairs, capacity: u32) -> Line {
    let table = family.circuit.table();
    let pairs = [(vec![], vec![]), pairs];
    let (listings, times) = ratios::timed(family, capacity, |i, buffers| {
        let (firsts, seconds) = &pairs[i];
        quelbrift::list(table, engine::zeros(table), firsts, seconds, capacity, buffers.lent()).map(|_| ())
    });
    listings.iter().zip(&pairs).for_each(|(listing, pairs)| check(family, pairs, capacity, listing));
    ratios::line(name, family, capacity, &listings[0], times)
}

pub fn print() {
    ratios::table(["none", "all pairs"], |family, capacity| line(&family.name, family, all_pairs(family.circuit.variables), capacity));
    ratios::table(["none", "no effect"], |family, capacity| line(&family.name, family, idle_pairs(family, capacity), capacity));
    let family = product(12, 1, 2);
    println!("a million pairs, the same one:");
    line(&family.name, &family, (vec![0; MILLION], vec![1; MILLION]), CAPACITY);
}
