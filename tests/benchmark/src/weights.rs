//! The engine's listings with random weights beside those with zeros, in turn, on the families of the table. By hand and the other peers
//! keep to the order without weights: what the engine lists is what is listed by hand, sorted by the weights, or the program stops.
use crate::families::Family;
use crate::measure::stop;
use crate::random::Random;
use crate::ratios::{self, Line, Listing};
use crate::shown::Excluded;
use crate::terms::Of;
use crate::{engine, title};
use quelbrift::MAX_WEIGHT;

const SEED: u64 = 88172645463325252;

/// Weights at random, the same in every run.
fn random_weights(variables: u32) -> Vec<u32> {
    let mut random = Random::new(SEED);
    (0..variables).map(|_| random.between(0, MAX_WEIGHT as usize) as u32).collect()
}

/// Stops where a listing is not that by hand, sorted by the weights.
fn check(of: Of, family: &Family, weights: &[u32], capacity: u32, listing: &Listing) {
    let (room, mut buffers) = ratios::by_hand(of, family, capacity);
    buffers.sort(weights, capacity);
    buffers.show(of, &Excluded::NOTHING, capacity);
    if *listing != (room, buffers) {
        stop(&format!("{}: the listings by {weights:?} differ", family.name));
    }
}

/// Measures a family with zeros and with weights in turn.
fn line(of: Of, family: &Family, capacity: u32) -> Line {
    let table = family.circuit.table();
    let weights = [engine::zeros(table).to_vec(), random_weights(table.variables)];
    let (listings, times) = ratios::timed(family, capacity, |i, buffers| engine::list(of, table, &weights[i], capacity, buffers));
    listings.iter().zip(&weights).for_each(|(listing, weights)| check(of, family, weights, capacity, listing));
    ratios::line(&family.name, family, capacity, &listings[0], times)
}

pub fn print() {
    for of in [Of::Function, Of::Negation] {
        println!("rows: {}", title(of));
        ratios::table(["zeros", "random"], |family, capacity| line(of, family, capacity));
    }
}
