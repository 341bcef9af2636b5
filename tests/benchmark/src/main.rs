//! The engine beside the same algorithm by hand, the algorithm before, decision diagrams, and a truth table, family by family, for
//! clearances and then for blockers: `cargo run --release`. With `-- worst` the worst circuits found; the algorithm before does not run
//! on those marked slow, and with `-- worst by-hand` the engine does not either. With `-- search` a search for bad circuits. With
//! `-- partial` the verdict for a partial assignment beside the count of models. With `-- walk` the walk of a script beside the listing
//! that it starts with. With `-- weights` the engine's listings by random weights beside those by weights that are all 0, which all
//! others lend: by hand and the other peers keep to the order without weights. With `-- pairs` its listings with many pairs beside
//! those without pairs, as all others are. A listing of every node clears the lent buffers first, and that is in its time; so is the
//! shown list, where clearances are listed.
mod buffers;
mod by_hand;
mod by_hand_before;
mod check;
mod circuit;
mod columns;
mod diagrams;
mod engine;
mod factors;
mod families;
mod listing;
mod measure;
mod pairs;
mod part;
mod partial;
mod random;
mod ratios;
mod search;
mod shown;
mod sides;
mod steps;
mod terms;
mod timing;
mod truth_table;
mod walk;
mod weights;

use families::Family;
use measure::{geometric_mean, measure, steps, stop, Cell, Measured, Peer};
use std::time::Duration;
use terms::Of;
use timing::Runs;

/// The largest capacity, and the one of most lines.
const CAPACITY: u32 = 4096;
/// Circuits with fewer prime implicants are listed with just the needed capacity too.
const FEW: usize = 128;
const MINUTE: Duration = Duration::from_secs(60);

/// The columns of times, those of the last node only with a star.
fn heads() -> String {
    let heads = ["engine", "by hand", "ratio", "before", "diagrams*", "diagrams", "table*"];
    format!("{:>8} {:>8} {:>5} {:>8} {:>9} {:>8} {:>8}", heads[0], heads[1], heads[2], heads[3], heads[4], heads[5], heads[6])
}

/// The times, and that a listing was refused: those of every node are then the times of the refusals.
fn cells(measured: &Measured) -> String {
    let Measured { engine, by_hand, before, last_diagram, diagrams, truth_table, .. } = measured;
    let ratio = engine.ratio(*by_hand).map_or(String::new(), |ratio| format!("{ratio:.2}"));
    let [engine, hand, before, last, every, table] =
        [engine, by_hand, before, last_diagram, diagrams, truth_table].map(|cell| cell.shown());
    let refused = if measured.rows.is_none() { " refused 42" } else { "" };
    format!("{engine:>8} {hand:>8} {ratio:>5} {before:>8} {last:>9} {every:>8} {table:>8}{refused}")
}

/// The number of rows, or that there are more than the capacity.
fn shown_rows(rows: Option<usize>, capacity: u32) -> String {
    rows.map_or(format!(">{capacity}"), |rows| rows.to_string())
}

/// A line of the table.
fn line(of: Of, family: &Family, capacity: u32) -> Measured {
    let measured = measure(of, family, &[Peer::Engine, Peer::ByHand, Peer::Before, Peer::Diagrams], capacity, Runs::Several);
    let (table, rows) = (family.circuit.table(), shown_rows(measured.rows, capacity));
    println!("{:<38} {:>2} {:>5} {rows:>5} {capacity:>8} {}", family.name, table.variables, table.nodes, cells(&measured));
    measured
}

/// The geometric means of the engine's time beside that by hand and that of the diagrams, where there was room.
fn print_means(name: &str, lines: &[Measured]) {
    let listed = || lines.iter().filter(|line| line.rows.is_some());
    let by_hand = geometric_mean(listed().filter_map(|line| line.engine.ratio(line.by_hand)).collect());
    let diagrams = geometric_mean(listed().filter_map(|line| line.engine.ratio(line.diagrams)).collect());
    println!("geometric means, {name}: engine / by hand {by_hand:.2}, engine / diagrams {diagrams:.2}");
}

/// What the rows of a table are.
fn title(of: Of) -> &'static str {
    match of {
        Of::Function => "clearances",
        Of::Negation => "blockers",
    }
}

/// The families of the table.
fn usual(of: Of) {
    println!("rows: {}", title(of));
    println!("{:<38} {:>2} {:>5} {:>5} {:>8} {}", "family", "N", "nodes", "rows", "capacity", heads());
    let (mut lines, mut needed) = (Vec::new(), Vec::new());
    for family in families::usual() {
        lines.push(line(of, &family, CAPACITY));
        if let Some(rows) = lines[lines.len() - 1].rows.filter(|&rows| rows < FEW) {
            needed.push(line(of, &family, rows as u32));
        }
    }
    println!("* the last node only, at no capacity; all others list every node");
    print_means(&format!("capacity {CAPACITY}"), &lines);
    print_means("just the needed capacity", &needed);
}

/// A line of the table of worst circuits: each is run once.
fn worst_line(of: Of, family: &Family, peers: &[Peer]) -> Measured {
    let measured = measure(of, family, peers, CAPACITY, Runs::Once);
    let ([n, nodes], rows) = ([family.circuit.variables, family.circuit.nodes() as u32], shown_rows(measured.rows, CAPACITY));
    println!("{:<51} {n:>2} {nodes:>5} {rows:>5} {:>11} {}", family.name, steps(of, family, CAPACITY), cells(&measured));
    measured
}

fn print_worst_heads() {
    println!("{:<51} {:>2} {:>5} {:>5} {:>11} {}", "worst circuit", "N", "nodes", "rows", "steps", heads());
}

/// The worst circuits found.
fn worst(of: Of, by_hand: bool) {
    println!("rows: {}", title(of));
    print_worst_heads();
    for family in families::worst() {
        let peers: &[Peer] = match (family.slow, by_hand) {
            (false, _) => &[Peer::ByHand, Peer::Engine, Peer::Before, Peer::Diagrams],
            (true, false) => &[Peer::ByHand, Peer::Engine, Peer::Diagrams],
            (true, true) => &[Peer::ByHand, Peer::Diagrams],
        };
        worst_line(of, &family, peers);
    }
}

/// The worst circuits of a search: one decision, and a table of many of it, which the engine lists unless that would take it a minute.
fn searched() {
    let [one, many] = search::search(CAPACITY as usize);
    print_worst_heads();
    let measured = worst_line(Of::Function, &one, &[Peer::ByHand, Peer::Engine, Peer::Before, Peer::Diagrams]);
    let short = matches!(measured.engine, Cell::Time(time) if time * (1 << search::LEVELS) < MINUTE);
    worst_line(Of::Function, &many, if short { &[Peer::ByHand, Peer::Engine, Peer::Diagrams] } else { &[Peer::ByHand, Peer::Diagrams] });
}

fn main() {
    let words: Vec<String> = std::env::args().skip(1).collect();
    match words.iter().map(String::as_str).collect::<Vec<_>>()[..] {
        [] => [Of::Function, Of::Negation].into_iter().for_each(usual),
        ["worst"] => [Of::Function, Of::Negation].into_iter().for_each(|of| worst(of, false)),
        ["worst", "by-hand"] => [Of::Function, Of::Negation].into_iter().for_each(|of| worst(of, true)),
        ["search"] => searched(),
        ["partial"] => partial::print(),
        ["walk"] => walk::print(),
        ["weights"] => weights::print(),
        ["pairs"] => pairs::print(),
        _ => stop("the commands are none, worst, worst by-hand, search, partial, walk, weights, and pairs"),
    }
}
