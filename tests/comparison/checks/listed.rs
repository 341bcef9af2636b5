//! Listings of random accepted tables by any weights and any pairs at all capacities and buffer lengths, and views of them.

use crate::cases::listings::{Listing, View};
use crate::circuits;
use crate::compare::{compare, fail, trace};
use crate::oracle::answers::Oracle;
use crate::oracle::function::{Listed, Term};
use crate::oracle::pairs::Pairs;
use crate::oracle::table::Table;
use crate::pairs;
use crate::random::Random;
use crate::tally::Tally;
use crate::weights;

/// Makes pairs beside some rows.
type MakesPairs = fn(&Random, u32, &[Term]) -> Pairs;

/// One table with its clearances and its blockers, listed in many ways.
pub struct Listings<'a> {
    origin: String,
    table: &'a Table,
    oracle: Oracle,
    /// By the kind of rows, then by node.
    primes: [Vec<Vec<Term>>; 2],
    tally: &'a mut Tally,
}

impl<'a> Listings<'a> {
    pub fn new(origin: String, table: &'a Table, tally: &'a mut Tally) -> Listings<'a> {
        let oracle = Oracle::new(table);
        let accepted = oracle.accepted().expect("the generator makes accepted tables");
        let primes = Listed::BOTH.map(|listed| accepted.primes(listed));
        Listings { origin, table, oracle, primes, tally }
    }

    /// How many clearances, or blockers, the circuit has.
    pub fn whole(&self, listed: Listed) -> u32 {
        self.primes[listed as usize].last().expect("a node").len() as u32
    }

    /// The clearances, or blockers, of a node.
    pub fn rows(&self, listed: Listed, node: usize) -> &[Term] {
        &self.primes[listed as usize][node]
    }

    /// Without pairs.
    pub fn list(&mut self, listed: Listed, weights: &[u32], capacity: u32, lengths: [usize; 3], noise: u64) {
        self.compare(&Listing::new(listed, self.table.clone(), weights, capacity, lengths, noise));
    }

    /// Clearances by pairs, with buffers just enough.
    pub fn show(&mut self, weights: &[u32], pairs: Pairs, capacity: u32, noise: u64) {
        self.compare(&Listing::fitting(Listed::Clearances, self.table.clone(), weights, capacity, noise).with_pairs(pairs));
    }

    /// A listing of the table.
    pub fn compare(&mut self, case: &Listing) {
        trace(&self.origin, || case.clone());
        match case.compared_by(&self.oracle, &self.primes[case.listed as usize]) {
            Ok(seen) => self.tally.see(seen),
            Err(_) => fail(&self.origin, case),
        }
    }

    /// With these weights, with pairs where clearances are listed, and with all five buffers of these lengths where five are lent.
    fn list_by(&mut self, random: &Random, listed: Listed, weights: &[u32], pairs: MakesPairs, capacity: u32, lengths: [usize; 5]) {
        let [positives, negatives, counts, shown @ ..] = lengths;
        let case = Listing::new(listed, self.table.clone(), weights, capacity, [positives, negatives, counts], random.next());
        let rows = self.primes[listed as usize].last().expect("a node");
        self.compare(&case.with_pairs(pairs(random, self.table.variables, rows)).with_shown(shown));
    }

    /// The buffer lengths that are just enough.
    pub fn enough(&self, capacity: u32) -> [usize; 3] {
        let rows = self.table.nodes as usize * capacity as usize;
        [rows, rows, self.table.nodes as usize]
    }

    /// Those of all five buffers.
    fn enough_shown(&self, capacity: u32) -> [usize; 5] {
        let [positives, negatives, counts] = self.enough(capacity);
        [positives, negatives, counts, capacity as usize, capacity as usize]
    }

    /// Both listings, each at some capacities made from the number of its own rows, with buffers just enough; at times by wrong weights
    /// too, or by wrong pairs.
    pub fn list_around<const K: usize>(&mut self, random: &Random, capacities: impl Fn(u32) -> [u32; K]) {
        let variables = self.table.variables;
        for listed in Listed::BOTH {
            for capacity in capacities(self.whole(listed)) {
                let enough = self.enough_shown(capacity);
                self.list_by(random, listed, &weights::right(random, variables), pairs::right, capacity, enough);
                if random.once_in(8) {
                    self.list_by(random, listed, &weights::wrong(random, variables), pairs::any, capacity, enough);
                }
                if listed == Listed::Clearances && random.once_in(8) {
                    self.list_by(random, listed, &weights::right(random, variables), pairs::wrong, capacity, enough);
                }
            }
        }
    }

    /// Buffers that are just enough, longer by different lengths, and one of them too short by one or by more.
    fn list_with_all_lengths(&mut self, random: &Random, listed: Listed, capacity: u32) {
        let (enough, variables) = (self.enough_shown(capacity), self.table.variables);
        self.list_by(random, listed, &weights::right(random, variables), pairs::right, capacity, enough);
        let longer = enough.map(|length| length + random.position(9));
        self.list_by(random, listed, &weights::any(random, variables), pairs::any, capacity, longer);
        let mut short = enough.map(|length| length + random.position(3));
        let buffer = random.position(if listed == Listed::Clearances { 5 } else { 3 });
        short[buffer] = enough[buffer].saturating_sub(random.choose(&[1, 1, 1 + random.position(enough[buffer].max(1))]));
        self.list_by(random, listed, &weights::any(random, variables), pairs::any, capacity, short);
    }

    /// The views of all nodes, and some that are out of range.
    fn view(&mut self, random: &Random, listed: Listed, capacity: u32) {
        let length = self.enough(capacity)[0] + random.position(3);
        for node in 0..self.table.nodes {
            let count = self.primes[listed as usize][node as usize].len() as u32;
            compare(&self.origin, &View::new(length, capacity, node, count), self.tally);
        }
        for _ in 0..10 {
            let count = random.choose(&[capacity, capacity.wrapping_add(1), 0, 1, random.next() as u32, random.next() as u32 % 9]);
            let node = random.choose(&[self.table.nodes, self.table.nodes - 1, random.next() as u32 % 1100, random.next() as u32]);
            compare(&self.origin, &View::new(length, capacity, node, count), self.tally);
        }
    }
}

fn list_everything(listings: &mut Listings, random: &Random, listed: Listed) {
    let whole = listings.whole(listed);
    for capacity in [0, whole, whole.saturating_sub(1), whole + 1] {
        listings.list_with_all_lengths(random, listed, capacity);
        listings.view(random, listed, capacity);
    }
    if random.once_in(40) {
        for capacity in [4096, 4097] {
            listings.list_with_all_lengths(random, listed, capacity);
            listings.view(random, listed, capacity);
        }
    }
    let (above, weights) = (random.choose(&[4097, 5000, 1 << 31, u32::MAX]), weights::any(random, listings.table.variables));
    listings.list_by(random, listed, &weights, pairs::any, above, [(); 5].map(|()| random.position(99)));
}

#[test]
fn listings_of_accepted_tables() {
    let mut tally = Tally::default();
    for seed in 0..3_000 {
        let random = Random::of(0xb000_0000, seed);
        let variables = random.between(1, 8) as u32;
        let table = circuits::table(&random, variables);
        let mut listings = Listings::new(format!("listings, seed {seed}"), &table, &mut tally);
        Listed::BOTH.iter().for_each(|&listed| list_everything(&mut listings, &random, listed));
    }
    tally.expect(&[
        ("list", &[(0, 30), (1, 6_000), (2, 1_500), (41, 10_000), (42, 5_000), (56, 1_500), (57, 1_500)]),
        ("list_negation", &[(0, 1_000), (1, 9_000), (41, 10_000), (42, 5_000), (56, 1_500)]),
        ("view", &[(0, 40_000), (1, 40_000)]),
    ]);
}

/// A view of buffers of all lengths around what a node needs.
#[test]
fn views_at_the_limits() {
    let mut tally = Tally::default();
    for seed in 0..50_000 {
        let random = Random::of(0x0b00_0000, seed);
        let capacity = random.choose(&[0, 1, 2, 7, 64, 4095, 4096, 4097, u32::MAX, 1 << 31, random.next() as u32 % 100]);
        let node = random.choose(&[0, 1, 2, 15, 1022, 1023, 1024, u32::MAX, 1 << 20, random.next() as u32 % 100]);
        let count = random.choose(&[0, 1, capacity / 2, capacity, capacity.wrapping_add(1), u32::MAX, random.next() as u32 % 100]);
        let end = u64::from(node).saturating_mul(u64::from(capacity)).saturating_add(u64::from(count));
        let near = [end, end.saturating_sub(1), end.saturating_add(1), random.below(200), 0];
        let length = random.choose(&near).min(300_000) as usize;
        compare(&format!("views, seed {seed}"), &View::new(length, capacity, node, count), &mut tally);
    }
    // The last entry of the largest listing.
    compare("views", &View::new(1024 * 4096, 4096, 1023, 4096), &mut tally);
    compare("views", &View::new(1024 * 4096 - 1, 4096, 1023, 4096), &mut tally);
    compare("views", &View::new(1025 * 4096, 4096, 1024, 1), &mut tally);
    tally.expect(&[("view", &[(0, 10_000), (1, 2_000)])]);
}
