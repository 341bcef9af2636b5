//! The engine's listings made in two ways, in turn, on the families of the table: how many times the time of the one that of the other is.
use crate::buffers::Buffers;
use crate::families::{self, Family};
use crate::listing::Listed;
use crate::measure::{geometric_mean, had_room};
use crate::terms::Of;
use crate::timing::{least, shown, Runs};
use crate::{by_hand, shown_rows, CAPACITY, FEW};
use std::time::Duration;

/// A listing: whether there was room, and the buffers.
pub type Listing = (bool, Buffers);

/// A line of the table: the number of rows, none where there was no room, and the ratio.
pub struct Line {
    name: String,
    rows: Option<usize>,
    ratio: f64,
}

/// The listing by hand, without weights and without a shown list.
pub fn by_hand(of: Of, family: &Family, capacity: u32) -> Listing {
    let table = family.circuit.table();
    let mut buffers = Buffers::new(table, capacity);
    let Buffers { positives, negatives, counts, .. } = &mut buffers;
    (had_room(family, by_hand::list(of, table, capacity, positives, negatives, counts)), buffers)
}

/// Lists a family in the first way and in the second: what each leaves, and their times.
pub fn timed(family: &Family, capacity: u32, mut list: impl FnMut(usize, &mut Buffers) -> Listed) -> ([Listing; 2], [Duration; 2]) {
    let mut listings: [Listing; 2] = [0, 1].map(|_| (false, Buffers::new(family.circuit.table(), capacity)));
    let times = least(Runs::Several, 2, |i| {
        let (room, buffers) = &mut listings[i];
        *room = had_room(family, list(i, buffers));
        true
    });
    (listings, [times[0], times[1]].map(|time| time.expect("work that is done has a time")))
}

/// Prints a line, with what the first way leaves.
pub fn line(name: &str, family: &Family, capacity: u32, (room, buffers): &Listing, [one, other]: [Duration; 2]) -> Line {
    let table = family.circuit.table();
    let (rows, ratio) = (room.then(|| buffers.rows()), other.as_secs_f64() / one.as_secs_f64());
    let (shown_rows, refused) = (shown_rows(rows, capacity), if *room { "" } else { " refused 42" });
    let (variables, nodes, [one, other]) = (table.variables, table.nodes, [one, other].map(shown));
    println!("{name:<38} {variables:>2} {nodes:>5} {shown_rows:>5} {capacity:>8} {one:>8} {other:>9} {ratio:>5.2}{refused}");
    Line { name: name.to_string(), rows, ratio }
}

/// The geometric mean and the maximum of the ratios, where there was room.
fn print_ratios([one, other]: [&str; 2], name: &str, lines: &[Line]) {
    let listed: Vec<&Line> = lines.iter().filter(|line| line.rows.is_some()).collect();
    let mean = geometric_mean(listed.iter().map(|line| line.ratio).collect());
    let most = listed.iter().max_by(|one, other| one.ratio.total_cmp(&other.ratio)).expect("a line");
    println!("{other} / {one}, {name}: geometric mean {mean:.2}, maximum {:.2} ({})", most.ratio, most.name);
}

/// A table of two ways with these names: a line for each family, at the largest capacity and, where there are few rows, at the needed one.
pub fn table(ways: [&str; 2], line: impl Fn(&Family, u32) -> Line) {
    let [family, n, nodes, rows, capacity, ratio] = ["family", "N", "nodes", "rows", "capacity", "ratio"];
    println!("{family:<38} {n:>2} {nodes:>5} {rows:>5} {capacity:>8} {:>8} {:>9} {ratio:>5}", ways[0], ways[1]);
    let (mut lines, mut needed) = (Vec::new(), Vec::new());
    for family in families::usual() {
        lines.push(line(&family, CAPACITY));
        if let Some(rows) = lines[lines.len() - 1].rows.filter(|&rows| rows < FEW) {
            needed.push(line(&family, rows as u32));
        }
    }
    print_ratios(ways, &format!("capacity {CAPACITY}"), &lines);
    print_ratios(ways, "just the needed capacity", &needed);
}
