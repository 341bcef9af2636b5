//! Walks of loading scripts: many replacements and drops, steps wrong in each way, any weights, buffers of every length, wide circuits.

use super::negations::rows_of_cubes;
use crate::cases::walks::{enough, Walk, BUFFERS};
use crate::circuits::{self, Part};
use crate::compare::{fail, trace, Case};
use crate::engine::caught;
use crate::oracle::answers::Oracle;
use crate::oracle::function::{Listed, Term};
use crate::oracle::script::{Step, DROP, MOST_STEPS, NO, YES};
use crate::oracle::table::{Node, Table};
use crate::random::Random;
use crate::scripts;
use crate::tally::Tally;
use crate::weights;

/// The answers seen, and of the walks that are done every entry of the statuses.
#[derive(Default)]
struct Seen {
    answers: Tally,
    statuses: Tally,
}

impl Seen {
    /// Fails where an answer was seen less often, or one of the three statuses.
    fn expect(&self, answers: &[(u32, u64)], statuses: u64) {
        self.answers.expect(&[("walk", answers)]);
        self.statuses.expect(&[("status", &[(0, statuses), (1, statuses), (2, statuses)])]);
    }
}

/// One table with its clearances, and walks through it.
struct Walking<'a> {
    origin: String,
    table: &'a Table,
    oracle: Oracle,
    primes: Vec<Vec<Term>>,
    seen: &'a mut Seen,
}

impl<'a> Walking<'a> {
    fn new(origin: String, table: &'a Table, seen: &'a mut Seen) -> Walking<'a> {
        let primes = Oracle::new(table).accepted().expect("the generator makes accepted tables").primes(Listed::Clearances);
        Walking::with_clearances(origin, table, primes, seen)
    }

    /// Where the clearances of every node are known by construction.
    fn with_clearances(origin: String, table: &'a Table, primes: Vec<Vec<Term>>, seen: &'a mut Seen) -> Walking<'a> {
        Walking { origin, table, oracle: Oracle::new(table), primes, seen }
    }

    fn clearances(&self) -> &[Term] {
        self.primes.last().expect("a node")
    }

    fn whole(&self) -> u32 {
        self.clearances().len() as u32
    }

    fn walk(&mut self, weights: Vec<u32>, capacity: u32, steps: &[Step], lengths: [usize; BUFFERS], noise: u64) {
        let case = Walk { table: self.table.clone(), weights, capacity, steps: steps.to_vec(), lengths, noise };
        trace(&self.origin, || case.clone());
        let walked = case.compared_by(&self.oracle, &self.primes).unwrap_or_else(|difference| self.fail(&case, &difference));
        self.seen.answers.see(walked.seen);
        walked.statuses.iter().for_each(|&status| self.seen.statuses.see(("status", status)));
    }

    /// Fails with a small reproducer, or with the case itself where the oracle alone cannot list the clearances.
    fn fail(&self, case: &Walk, difference: &str) -> ! {
        if caught(|| case.compared()).is_ok() {
            fail(&self.origin, case);
        }
        panic!("engine and oracle differ ({}):\n    {}\n{difference}{}", self.origin, case.paste(), case.notes());
    }

    /// By any weights, right ones or wrong ones.
    fn walk_by_any(&mut self, random: &Random, capacity: u32, steps: &[Step], lengths: [usize; BUFFERS]) {
        self.walk(weights::any(random, self.table.variables), capacity, steps, lengths, random.next());
    }

    /// By right weights, with buffers just enough.
    fn walk_fitting(&mut self, random: &Random, capacity: u32, steps: &[Step]) {
        let weights = weights::right(random, self.table.variables);
        self.walk(weights, capacity, steps, enough(self.table, capacity, steps.len()), random.next());
    }

    /// A script that leads toward one of the clearances, or nowhere.
    fn steps(&self, random: &Random, number: usize) -> Vec<Step> {
        let toward = if self.whole() == 0 || random.once_in(3) { Term::EMPTY } else { random.choose(self.clearances()) };
        scripts::steps(random, self.table.variables, toward, number)
    }

    /// Buffers just enough, longer by different lengths, and one of the five too short, by one or by more.
    fn walk_with_all_lengths(&mut self, random: &Random, capacity: u32, steps: &[Step]) {
        let enough = enough(self.table, capacity, steps.len());
        self.walk_fitting(random, capacity, steps);
        self.walk_by_any(random, capacity, steps, enough.map(|length| length + random.position(9)));
        let mut short = enough.map(|length| length + random.position(3));
        let buffer = random.position(BUFFERS);
        short[buffer] = enough[buffer].saturating_sub(random.choose(&[1, 1, 1 + random.position(enough[buffer].max(1))]));
        self.walk_by_any(random, capacity, steps, short);
    }

    /// The script with one wrong step or several, at times longer than the most; buffers enough or not.
    fn walk_damaged(&mut self, random: &Random, steps: &[Step]) {
        let mut damaged = steps.to_vec();
        if random.once_in(3) && !steps.is_empty() {
            let number = random.choose(&[257, 257, 258, 300, 700]);
            damaged = steps.iter().copied().cycle().take(number).collect();
        }
        for _ in 0..random.choose(&[0, 1, 1, 1, 2, 5]) {
            scripts::damage(random, &mut damaged, self.table.variables);
        }
        let capacity = random.choose(&[self.whole(), self.whole() + 1, self.whole().saturating_sub(1), 4_097]);
        let enough = enough(self.table, capacity.min(4_096), damaged.len());
        let lengths = if random.once_in(2) { enough } else { enough.map(|length| random.position(length + 2)) };
        self.walk_by_any(random, capacity, &damaged, lengths);
    }

    /// Scripts in just enough room and in one too little, right ones and damaged ones.
    fn walk_randomly(&mut self, random: &Random, times: u64) {
        for _ in 0..times {
            let steps = self.steps(random, scripts::number_of_steps(random));
            self.walk_with_all_lengths(random, self.whole(), &steps);
            self.walk_fitting(random, self.whole().saturating_sub(1), &steps);
            self.walk_damaged(random, &steps);
        }
        let above = random.choose(&[4_097, 5_000, 1 << 31, u32::MAX]);
        self.walk_by_any(random, above, &[], [0; BUFFERS].map(|_| random.position(99)));
    }
}

#[test]
fn walks_through_accepted_tables() {
    let mut seen = Seen::default();
    for seed in 0..4_000 {
        let random = Random::of(0xa800_0000, seed);
        let variables = random.between(1, 8) as u32;
        let table = circuits::table(&random, variables);
        Walking::new(format!("walks, seed {seed}"), &table, &mut seen).walk_randomly(&random, 3);
    }
    seen.expect(&[(0, 5_000), (1, 5_000), (41, 5_000), (42, 5_000), (54, 4_000), (55, 1_500), (56, 1_500)], 100_000);
}

/// Every script of up to five steps over two variables, through a few circuits.
#[test]
fn every_short_script() {
    let (mut seen, random) = (Seen::default(), Random::of(0xaf00_0000, 0));
    for nodes in [
        vec![Node::False],
        vec![Node::True],
        vec![Node::Yes(1)],
        vec![Node::No(0)],
        vec![Node::Yes(0), Node::No(1), Node::Both(vec![0, 1])],
        vec![Node::Yes(1), Node::True, Node::Pick(0, 0, 1)],
        vec![Node::Yes(1), Node::No(1), Node::Pick(0, 0, 1)],
    ] {
        let table = Table::of(2, &nodes);
        let mut walking = Walking::new("every short script".to_string(), &table, &mut seen);
        for (length, script) in (0..=5).flat_map(|length| (0..6usize.pow(length)).map(move |script| (length, script))) {
            let digit = |place: u32| (script / 6usize.pow(place) % 6) as u32;
            let steps: Vec<Step> = (0..length).map(|place| Step { variable: digit(place) / 3, act: digit(place) % 3 }).collect();
            walking.walk_fitting(&random, walking.whole(), &steps);
        }
    }
    seen.expect(&[(0, 20_000), (1, 20_000)], 30_000);
}

/// Every pair of numbers at the limits as a step among right ones, in scripts of all lengths about the most.
#[test]
fn every_wrong_step() {
    let (mut seen, random) = (Seen::default(), Random::of(0xaf10_0000, 0));
    let table = Table::of(3, &[Node::No(1), Node::Yes(2), Node::True, Node::Pick(1, 1, 2), Node::Pick(0, 0, 3)]);
    let mut walking = Walking::new("every wrong step".to_string(), &table, &mut seen);
    let variables = [0, 2, 3, 4, 39, 40, 63, 64, 1 << 31, u32::MAX];
    let acts = [0, 1, 2, 3, 4, 255, 256, 258, 1 << 31, u32::MAX];
    for (variable, act) in variables.into_iter().flat_map(|variable| acts.map(|act| (variable, act))) {
        for length in [1, 2, 3, MOST_STEPS - 1, MOST_STEPS, MOST_STEPS + 1, MOST_STEPS + 2, 700] {
            for place in [0, 1, length / 2, MOST_STEPS - 1, MOST_STEPS, MOST_STEPS + 1, length - 1] {
                let mut steps: Vec<Step> = (0..length as u32).map(|index| Step { variable: index % 3, act: index / 3 % 3 }).collect();
                if place >= length {
                    continue;
                }
                steps[place] = Step { variable, act };
                walking.walk_fitting(&random, 4, &steps);
                // A second wrong step, anywhere; and buffers too short for anything.
                steps[(place * 7 + 3) % length] = Step { variable: act, act: variable };
                walking.walk_by_any(&random, 3, &steps, enough(&table, 3, length));
                walking.walk_by_any(&random, 4, &steps, [0; BUFFERS]);
            }
        }
    }
    seen.expect(&[(0, 50), (1, 20), (41, 100), (42, 80), (54, 5_000), (55, 1_500), (56, 10)], 1_000);
}

/// Scripts of every length up to one past the most, in step buffers of that length, one less and one more.
#[test]
fn every_length() {
    let mut seen = Seen::default();
    let table = Table::of(2, &[Node::Yes(1), Node::No(0), Node::Both(vec![0, 1])]);
    let mut walking = Walking::new("every length".to_string(), &table, &mut seen);
    for length in 0..=MOST_STEPS + 1 {
        let random = Random::of(0xa900_0000, length as u64);
        let steps = walking.steps(&random, length);
        for statuses in [length, length + 1, length.saturating_sub(1)] {
            for compatibles in [length, length + 1, length.saturating_sub(1)] {
                walking.walk_by_any(&random, 1, &steps, [3, 3, 3, statuses, compatibles]);
            }
        }
    }
    seen.expect(&[(0, 100), (1, 100), (41, 1_000), (54, 9), (56, 100)], 5_000);
}

/// The step named: of all runs of "allowed" the last one, if it reaches the end.
#[test]
fn every_pattern_of_allowed() {
    let (mut seen, random) = (Seen::default(), Random::of(0xaf20_0000, 0));
    let table = Table::of(1, &[Node::Yes(0)]);
    let mut walking = Walking::new("every pattern".to_string(), &table, &mut seen);
    for length in 0..=10 {
        for pattern in 0..1u64 << length {
            for otherwise in [NO, DROP] {
                let act = |place: u64| if pattern >> place & 1 == 1 { YES } else { otherwise };
                let steps: Vec<Step> = (0..length).map(|place| Step { variable: 0, act: act(place) }).collect();
                walking.walk_fitting(&random, 1, &steps);
            }
        }
    }
    seen.expect(&[(0, 1_000), (1, 2_000)], 5_000);
}

/// Few variables are named, anywhere among up to 40.
#[test]
fn scattered_variables() {
    let mut seen = Seen::default();
    for seed in 0..1_000 {
        let random = Random::of(0xaa00_0000, seed);
        let (named, variables) = (random.between(1, 7) as u32, random.choose(&[40, 40, random.between(9, 40)]) as u32);
        let table = Table::of(variables, &circuits::scattered(&random, &circuits::nodes(&random, named), variables));
        Walking::new(format!("walks, scattered, seed {seed}"), &table, &mut seen).walk_randomly(&random, 3);
    }
    seen.expect(&[(0, 1_000), (1, 1_000), (41, 1_000), (42, 1_000), (54, 1_000), (55, 300), (56, 400)], 10_000);
}

/// Conjunctions of circuits over different variables, up to 40 in all: up to thousands of clearances.
#[test]
fn conjunctions() {
    let mut seen = Seen::default();
    let mut longest = 0;
    for seed in 0..200 {
        let random = Random::of(0xab00_0000, seed);
        let number = random.between(2, 8);
        let most = 7.min(40 / number);
        let parts: Vec<Part> = (0..number).map(|_| circuits::satisfiable(&random, random.between(1, most) as u32)).collect();
        let (_, nodes) = circuits::conjunction(&parts);
        let table = Table::of(40, &circuits::scattered(&random, &nodes, 40));
        let mut walking = Walking::new(format!("walks, conjunctions, seed {seed}"), &table, &mut seen);
        if walking.whole() <= 4_096 {
            longest = longest.max(walking.whole());
            for number in [30, 120, 256] {
                let steps = walking.steps(&random, number);
                walking.walk_fitting(&random, walking.whole(), &steps);
            }
        }
        let steps = walking.steps(&random, 50);
        walking.walk_fitting(&random, (walking.whole() - 1).min(4_096), &steps);
        walking.walk_damaged(&random, &steps);
    }
    assert!(longest > 1_000, "the longest listing has {longest} rows");
    seen.expect(&[(0, 100), (1, 30), (42, 150), (54, 50), (55, 10)], 1_000);
}

/// Decisions alone, over up to 40 variables that are all named: the clearances are known by construction.
#[test]
fn decisions_over_many_variables() {
    let mut seen = Seen::default();
    for (number, size) in [(10, 4), (4, 10), (2, 20), (20, 2), (40, 1), (1, 40), (3, 13)] {
        let (variables, nodes) = circuits::cubes(number, size);
        let table = Table::of(variables, &nodes);
        let [clearances, _] = rows_of_cubes(number, size);
        let mut walking = Walking::with_clearances(format!("walks, {number} cubes of {size}"), &table, clearances, &mut seen);
        for seed in 0..20 {
            walking.walk_randomly(&Random::of(0xae00_0000, 100 * u64::from(number) + seed), 3);
        }
    }
    seen.expect(&[(0, 500), (1, 70), (41, 400), (42, 300), (54, 200), (55, 60), (56, 50)], 500);
}

/// As many clearances as a listing can hold, one too many for the room, and more than any listing holds; the most steps.
#[test]
fn long_listings() {
    let mut seen = Seen::default();
    for (name, (variables, nodes), whole) in [
        ("walks, 6 clauses of 4", circuits::clauses(6, 4), 4_096),
        ("walks, 8 clauses of 2", circuits::clauses(8, 2), 256),
        ("walks, 8 clauses of 3", circuits::clauses(8, 3), 6_561),
        ("walks, parity of 10", (10, circuits::parity(10)), 512),
    ] {
        let table = Table::of(variables, &nodes);
        let mut walking = Walking::new(name.to_string(), &table, &mut seen);
        assert_eq!(walking.whole(), whole, "{name}");
        for seed in 0..6 {
            let random = Random::of(0xac00_0000, seed);
            let steps = walking.steps(&random, MOST_STEPS);
            walking.walk_fitting(&random, whole.min(4_096), &steps);
            walking.walk_fitting(&random, (whole - 1).min(4_096), &steps);
        }
    }
    seen.expect(&[(0, 5), (1, 2), (42, 30)], 100);
}

/// The most nodes with the most room for each, and the most steps.
#[test]
fn largest_walk() {
    let mut seen = Seen::default();
    let random = Random::of(0xad00_0000, 0);
    let table = Table::of(40, &circuits::chain(&random, 8, 1_023));
    assert_eq!(table.nodes, 1_024);
    let mut walking = Walking::new("largest walk".to_string(), &table, &mut seen);
    for capacity in [walking.whole(), 4_096] {
        let steps = walking.steps(&random, MOST_STEPS);
        walking.walk_fitting(&random, capacity, &steps);
    }
    assert_eq!(seen.answers.total(), 2);
}
