//! Cases that a comparison once failed on, and cases with known answers: paste new ones here.

use crate::cases::listings::{Listing, View};
use crate::cases::partials::Partial;
use crate::cases::questions::Asked;
use crate::cases::questions::Question::{Check, Count, Evaluate, Implies, Prime, Reduce};
use crate::cases::readings::{Line, Reading};
use crate::cases::scripts::Script;
use crate::cases::walks::Walk;
use crate::cases::writings::Writing;
use crate::compare::{compare, Case};
use crate::oracle::function::Listed::{Blockers, Clearances};
use crate::oracle::pairs::Pairs;
use crate::oracle::table::{Node, Table};
use crate::tally::Tally;

fn again(case: impl Case) {
    compare("regressions", &case, &mut Tally::default());
}

/// `(pick 0 (no 1) (pick 1 (yes 2) (true)))` over three variables.
fn worked() -> Table {
    Table::of(3, &[Node::No(1), Node::Yes(2), Node::True, Node::Pick(1, 1, 2), Node::Pick(0, 0, 3)])
}

#[test]
fn regressions() {
    for question in [Check, Evaluate(5), Count, Implies(4, 2), Prime(4, 2), Reduce(7)] {
        again(Asked::new(worked(), question));
    }
    again(Partial::new(worked(), 4, 0, &[1], &[5], &[7], &[8]));
    again(Partial::new(worked(), 4, 0, &[1, 0], &[5, 5], &[7], &[8, 5]));
    again(Listing::new(Clearances, worked(), &[0, 0, 0], 4, [20, 20, 5], 1));
    again(Listing::new(Clearances, worked(), &[30, 5, 10], 4, [20, 20, 5], 1));
    again(Listing::new(Clearances, worked(), &[0, 0, 0], 3, [15, 15, 5], 1));
    again(Listing::new(Clearances, worked(), &[0, 0, 1001], 3, [15, 15, 5], 1));
    again(
        Listing::new(Clearances, worked(), &[30, 5, 10], 4, [20, 20, 5], 1).with_pairs(Pairs::new(&[1, 0], &[0, 2])).with_shown([4, 5]),
    );
    again(Listing::new(Clearances, worked(), &[0, 0, 0], 3, [15, 15, 5], 1).with_pairs(Pairs::new(&[0], &[1])).with_shown([3, 3]));
    again(Listing::new(Clearances, worked(), &[0, 0, 0], 3, [15, 15, 5], 1).with_pairs(Pairs::new(&[0, 1], &[1])).with_shown([3, 3]));
    again(Listing::new(Clearances, worked(), &[0, 0], 4, [20, 20, 5], 1).with_pairs(Pairs::new(&[0], &[3])).with_shown([4, 3]));
    again(Listing::new(Blockers, worked(), &[1000, 1000, 1000], 2, [10, 10, 5], 1));
    again(Listing::new(Blockers, worked(), &[0, 0, 0], 1, [5, 5, 5], 1));
    again(Listing::new(Blockers, worked(), &[0, 0], 1, [5, 4, 5], 1));
    again(Writing::new(worked(), 100));
    again(View::new(20, 4, 4, 4));
    again(Reading::new(b"(circuit 3)\n(pick 0 (no 1) (pick 1 (yes 2) (true)))\n", 55));
    again(Asked::new(Table::new(1, 1, &[1, 0, 0, 0, 0, 0, 0, 0, 0, 0, 1]), Check));
    again(Line::new(b"(stow 0 2)\n", 3));
    again(Script::new(b"(set 0 yes)\n(drop 2)\n(set 0 no)\n", 3, 4));
    again(Script::new(b"(set 3 yes)\n(drop 2)\n(set 0 no)\n", 3, 2));
    again(Walk::new(worked(), &[30, 5, 10], 4, &[(0, 1), (1, 0), (2, 1), (0, 2)], [20, 20, 5, 4, 4], 1));
    again(Walk::new(worked(), &[0, 0, 0, 0], 4, &[(0, 1), (3, 3)], [19, 20, 5, 4, 4], 1));
    again(Walk::new(worked(), &[0, 0, 0], 3, &[(0, 1)], [15, 15, 5, 1, 1], 1));
    again(Walk::new(worked(), &[0, 0, 0, 0], 3, &[(0, 1)], [15, 15, 5, 1, 1], 1));
}
