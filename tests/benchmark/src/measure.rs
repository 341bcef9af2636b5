//! The times of one circuit by the engine and its peers. All list the same terms, or refuse by 42, or the program stops.
use crate::buffers::Buffers;
use crate::diagrams::Over;
use crate::families::Family;
use crate::listing::{Lent, Listed};
use crate::shown::Excluded;
use crate::steps::Counted;
use crate::terms::{Of, Term};
use crate::timing::{least, shown, Runs};
use crate::{by_hand, by_hand_before, diagrams, engine, truth_table};
use quelbrift::{Refusal, Table};
use std::time::Duration;

/// More variables than this are too many for a truth table.
const TABLE_VARIABLES: u32 = 16;

pub fn stop(message: &str) -> ! {
    eprintln!("stopped: {message}");
    std::process::exit(1)
}

/// What a column of the table says.
#[derive(Clone, Copy)]
pub enum Cell {
    Time(Duration),
    /// Given up.
    Over,
    NotRun,
}

impl Cell {
    fn of(time: Option<Duration>) -> Self {
        time.map_or(Cell::Over, Cell::Time)
    }

    pub fn shown(self) -> String {
        match self {
            Cell::Time(time) => shown(time),
            Cell::Over => "over".into(),
            Cell::NotRun => "not run".into(),
        }
    }

    /// How many times the other's time this one is; none where one of them has no time.
    pub fn ratio(self, other: Cell) -> Option<f64> {
        match (self, other) {
            (Cell::Time(one), Cell::Time(two)) => Some(one.as_secs_f64() / two.as_secs_f64()),
            _ => None,
        }
    }
}

/// A listing of every node.
#[derive(Clone, Copy, PartialEq)]
pub enum Peer {
    Engine,
    ByHand,
    Before,
    Diagrams,
}

impl Peer {
    /// Lists into the buffers: whether there was room. None where it gives up.
    fn list(self, of: Of, family: &Family, capacity: u32, buffers: &mut Buffers) -> Option<bool> {
        let table = family.circuit.table();
        let Buffers { positives, negatives, counts, .. } = buffers;
        let listed = match self {
            Peer::Engine => engine::list(of, table, engine::zeros(table), capacity, buffers),
            Peer::ByHand => by_hand::list(of, table, capacity, positives, negatives, counts),
            Peer::Before => by_hand_before::list(of, table, capacity, positives, negatives, counts),
            Peer::Diagrams => match diagrams::list(of, table, capacity, positives, negatives, counts) {
                Ok(listed) => listed,
                Err(Over) => return None,
            },
        };
        if self != Peer::Engine {
            buffers.show(of, &Excluded::NOTHING, capacity);
        }
        Some(had_room(family, listed))
    }
}

/// Whether a listing had room; the program stops where it is refused for something else.
pub fn had_room(family: &Family, listed: Listed) -> bool {
    match listed {
        Ok(()) => true,
        Err(Refusal { number: 42, .. }) => false,
        Err(refusal) => stop(&format!("{}: {refusal}", family.name)),
    }
}

/// The geometric mean of some ratios.
pub fn geometric_mean(ratios: Vec<f64>) -> f64 {
    (ratios.iter().map(|ratio| ratio.ln()).sum::<f64>() / ratios.len() as f64).exp()
}

/// The times of a family, and the number of prime implicants; none where they are more than the capacity, which the listings of every
/// node refuse.
pub struct Measured {
    pub rows: Option<usize>,
    pub engine: Cell,
    pub by_hand: Cell,
    pub before: Cell,
    /// Of the last node only.
    pub last_diagram: Cell,
    pub diagrams: Cell,
    /// Of the last node only.
    pub truth_table: Cell,
}

/// The times of some listings of every node, and the terms of the last node by the first of them; none where it had no room.
fn timed(of: Of, family: &Family, peers: &[Peer], capacity: u32, runs: Runs) -> (Vec<Option<Duration>>, Option<Vec<Term>>) {
    let mut lists: Vec<(Option<bool>, Buffers)> = peers.iter().map(|_| (None, Buffers::new(family.circuit.table(), capacity))).collect();
    let times = least(runs, peers.len(), |i| {
        let (room, buffers) = &mut lists[i];
        *room = peers[i].list(of, family, capacity, buffers);
        room.is_some()
    });
    if lists.iter().any(|list| list.0.is_some() && *list != lists[0]) {
        stop(&format!("{}: the listings differ", family.name));
    }
    let (room, buffers) = &lists[0];
    (times, room.filter(|&room| room).map(|_| buffers.last(capacity)))
}

/// The time of a listing of the last node, whose terms are as listed, or more than the capacity; over where it gives up.
fn timed_last(family: &Family, runs: Runs, listed: &Option<Vec<Term>>, capacity: u32, list: impl Fn(Table) -> Option<Vec<Term>>) -> Cell {
    let mut terms = None;
    let times = least(runs, 1, |_| {
        terms = list(family.circuit.table());
        terms.is_some()
    });
    let fits = |terms: &Vec<Term>| terms.len() <= capacity as usize;
    if terms.is_some_and(|terms| Some(terms).filter(fits) != *listed) {
        stop(&format!("{}: the listings of the last node differ", family.name));
    }
    Cell::of(times[0])
}

/// Measures a family by some of the listings of every node, the first of which does not give up, and by those of the last node.
pub fn measure(of: Of, family: &Family, peers: &[Peer], capacity: u32, runs: Runs) -> Measured {
    let (times, last) = timed(of, family, peers, capacity, runs);
    let cell = |peer: Peer| peers.iter().position(|&other| other == peer).map_or(Cell::NotRun, |i| Cell::of(times[i]));
    let truth_table = match family.circuit.variables > TABLE_VARIABLES {
        true => Cell::NotRun,
        false => timed_last(family, runs, &last, capacity, |table| Some(truth_table::list(of, table))),
    };
    Measured {
        rows: last.as_ref().map(Vec::len),
        engine: cell(Peer::Engine),
        by_hand: cell(Peer::ByHand),
        before: cell(Peer::Before),
        last_diagram: timed_last(family, runs, &last, capacity, |table| diagrams::list_last(of, table).ok()),
        diagrams: cell(Peer::Diagrams),
        truth_table,
    }
}

/// The steps of the decisions of a circuit by hand.
pub fn steps(of: Of, family: &Family, capacity: u32) -> u64 {
    let table = family.circuit.table();
    let (mut steps, mut buffers) = (Counted(0), Buffers::new(table, capacity));
    let lent = Lent::new(table, capacity, &mut buffers.positives, &mut buffers.negatives, &mut buffers.counts);
    had_room(family, lent.and_then(|lent| by_hand::list_counting(&mut steps, of, table, capacity, lent)));
    steps.0
}
