//! The oracle against itself: two ways to the same answer, where there are two.

use crate::circuits;
use crate::damage;
use crate::oracle::answers::{Oracle, Verdict};
use crate::oracle::function::{is_prime, Functions, Listed, Term};
use crate::oracle::measurements::Measurements;
use crate::oracle::pairs::Pairs;
use crate::oracle::script::{self, Step, MOST_STEPS};
use crate::oracle::table::{Node, Table};
use crate::oracle::weights::ordered;
use crate::oracle::{grammar, refused, rows, text, walk, writer, Refused};
use crate::pairs;
use crate::partials;
use crate::random::Random;
use crate::scripts;
use crate::weights;
use std::cmp::Ordering;
use std::collections::HashSet;

#[test]
fn trying_out_and_counting_agree() {
    for seed in 0..2_000 {
        let random = Random::of(0x1000, seed);
        let variables = random.between(1, 8) as u32;
        let oracle = Oracle::new(&circuits::table(&random, variables));
        let accepted = oracle.accepted().expect("accepted");
        assert_eq!(oracle.count_models(), Ok(accepted.count_by_counting(variables)), "seed {seed}");
        for _ in 0..50 {
            let (assignment, marks) = (random.next(), random.next() & ((1 << variables) - 1));
            let term = Term { positive: assignment & marks, negative: !assignment & marks };
            for value in [false, true] {
                assert_eq!(accepted.forces(term, value), accepted.forces_by_counting(term, value), "seed {seed}, {term:?}, {value}");
                let counted = accepted.completions_by_counting(term, variables, value);
                assert_eq!(accepted.completions(term, variables, value), counted, "seed {seed}, {term:?}, {value}");
            }
        }
    }
}

/// The completions of a row, judged one by one.
#[test]
fn completions_and_single_verdicts_agree() {
    for seed in 0..500 {
        let random = Random::of(0x1100, seed);
        let (named, variables) = (random.between(1, 8) as u32, random.between(8, 11) as u32);
        let table = Table::of(variables, &circuits::scattered(&random, &circuits::nodes(&random, named), variables));
        let oracle = Oracle::new(&table);
        for _ in 0..10 {
            let term = partials::term(&random, variables);
            let completions = (0..1u64 << variables).filter(|&assignment| term.agrees_with(assignment));
            let (allowed, forbidden): (Vec<u64>, Vec<u64>) = completions.partition(|&assignment| oracle.evaluate(assignment) == Ok(true));
            let answer = oracle.evaluate_partial(term, &Measurements::default()).expect("a row");
            assert_eq!((answer.allowed, answer.forbidden), (allowed.len() as u64, forbidden.len() as u64), "seed {seed}, {term:?}");
        }
    }
}

/// The rows found by their numbers are those that the definition picks out, one by one.
#[test]
fn all_rows_and_single_rows_agree() {
    for seed in 0..500 {
        let random = Random::of(0x2000, seed);
        let variables = random.between(1, 5) as u32;
        let oracle = Oracle::new(&circuits::table(&random, variables));
        let accepted = oracle.accepted().expect("accepted");
        for listed in Listed::BOTH {
            let primes = accepted.primes(listed).pop().expect("a node");
            for positive in 0..1u64 << variables {
                for negative in (0..1u64 << variables).filter(|negative| negative & positive == 0) {
                    let term = Term { positive, negative };
                    let prime = is_prime(term, |term| accepted.forces(term, listed.value()));
                    assert_eq!(primes.contains(&term), prime, "seed {seed}, {listed:?}, {term:?}");
                }
            }
        }
    }
}

/// Each clearance and each blocker disagree on a variable; each assignment agrees with a clearance where it is allowed, and else with
/// a blocker.
#[test]
fn clearances_and_blockers_disagree() {
    for seed in 0..500 {
        let random = Random::of(0x2100, seed);
        let variables = random.between(1, 8) as u32;
        let oracle = Oracle::new(&circuits::table(&random, variables));
        let accepted = oracle.accepted().expect("accepted");
        let [clearances, blockers] = Listed::BOTH.map(|listed| accepted.primes(listed).pop().expect("a node"));
        for a in &clearances {
            let disagree = |b: &Term| a.positive & b.negative | a.negative & b.positive != 0;
            assert!(blockers.iter().all(disagree), "seed {seed}, {a:?}");
        }
        for assignment in 0..1 << variables {
            let some = |rows: &[Term]| rows.iter().any(|row| row.agrees_with(assignment));
            let allowed = accepted.allows(assignment);
            assert_eq!((some(&clearances), some(&blockers)), (allowed, !allowed), "seed {seed}, {assignment:b}");
        }
    }
}

/// Rows in order by weights: each comes before every later one, mark by mark.
#[test]
fn rows_in_order_and_single_comparisons_agree() {
    for seed in 0..1_000 {
        let random = Random::of(0x2200, seed);
        let variables = random.between(1, 40) as u32;
        let weights = weights::right(&random, variables);
        let mut terms: Vec<Term> = vec![];
        for _ in 0..random.position(30) {
            let term = partials::term(&random, variables);
            if !terms.contains(&term) {
                terms.push(term);
            }
        }
        let ordered = ordered(&weights, &terms);
        let marked = |term: &Term| (0..variables).filter(|variable| term.marks() >> variable & 1 == 1).collect::<Vec<u32>>();
        let before = |a: &Term, b: &Term| {
            let [of_a, of_b] = [a, b].map(marked);
            let [sum_a, sum_b] = [&of_a, &of_b].map(|marks| marks.iter().map(|&variable| weights[variable as usize]).sum::<u32>());
            // The highest variable that only one of them marks, or marks yes, makes the larger mask.
            let highest = |one: &dyn Fn(u32) -> bool, other: &dyn Fn(u32) -> bool| {
                (0..variables).rev().find(|&variable| one(variable) != other(variable)).map(other)
            };
            let has = |marks: &[u32], variable: u32| marks.contains(&variable);
            let masks = highest(&|variable| has(&of_a, variable), &|variable| has(&of_b, variable));
            let yes = highest(&|variable| a.positive >> variable & 1 == 1, &|variable| b.positive >> variable & 1 == 1);
            match (sum_a.cmp(&sum_b), of_a.len().cmp(&of_b.len())) {
                (Ordering::Equal, Ordering::Equal) => masks.or(yes).expect("two rows"),
                (Ordering::Equal, marks) => marks == Ordering::Less,
                (sums, _) => sums == Ordering::Less,
            }
        };
        assert_eq!(ordered.len(), terms.len(), "seed {seed}");
        for (index, row) in ordered.iter().enumerate() {
            assert!(terms.contains(row), "seed {seed}");
            assert!(ordered[index + 1..].iter().all(|later| before(row, later) && !before(later, row)), "seed {seed}, {row:?}");
        }
    }
}

/// A row is left out exactly if two of its yes marks are a pair, in either order; a list is refused exactly if the pair that was put
/// into it is none.
#[test]
fn pairs_and_sets_of_pairs_agree() {
    let mut left_out = [0, 0];
    for seed in 0..2_000 {
        let random = Random::of(0x2300, seed);
        let variables = random.between(2, 40) as u32;
        let terms: Vec<Term> = (0..10).map(|_| partials::term(&random, variables)).collect();
        let mut pairs = pairs::right(&random, variables, &terms);
        assert_eq!(pairs.check(variables), Ok(()), "seed {seed}, {pairs:?}");
        let sets: HashSet<(u32, u32)> =
            pairs.firsts.iter().zip(&pairs.seconds).map(|(&first, &second)| (first.min(second), first.max(second))).collect();
        for term in &terms {
            let yes: Vec<u32> = (0..variables).filter(|variable| term.positive >> variable & 1 == 1).collect();
            let any = yes.iter().enumerate().any(|(place, low)| yes[place..].iter().any(|high| sets.contains(&(*low, *high))));
            assert_eq!(pairs.leave_out(*term), any, "seed {seed}, {term:?}, {pairs:?}");
            left_out[usize::from(any)] += 1;
        }
        assert_eq!(pairs::wrong(&random, variables, &terms).check(variables), refused(57, 0), "seed {seed}");
        let (first, second) = (random.below(u64::from(variables) + 2) as u32, random.below(u64::from(variables) + 2) as u32);
        pairs.firsts.push(first);
        assert_eq!(pairs.check(variables), refused(57, 0), "seed {seed}, {pairs:?}");
        pairs.seconds.push(second);
        let is_pair = (0..variables).any(|low| (low + 1..variables).any(|high| [(low, high), (high, low)].contains(&(first, second))));
        assert_eq!(pairs.check(variables).is_ok(), is_pair, "seed {seed}, {pairs:?}");
        assert_eq!(Pairs::new(&pairs.seconds, &pairs.firsts).check(variables).is_ok(), is_pair, "seed {seed}, {pairs:?}");
    }
    assert!(left_out.iter().all(|&rows| rows > 3_000), "{left_out:?} rows stay and are left out");
}

/// The clearances, or blockers, of every node.
fn primes(listed: Listed, variables: u32, nodes: &[Node]) -> Vec<Vec<Term>> {
    Oracle::new(&Table::of(variables, nodes)).accepted().expect("accepted").primes(listed)
}

/// The rows of a conjunction over many variables, made from its children's, are those that trying every row finds.
#[test]
fn rows_of_parts_and_tried_rows_agree() {
    for seed in 0..60 {
        let random = Random::of(0x3000, seed);
        let variables = random.between(9, 11) as u32;
        let nodes = circuits::parted(&random, variables);
        let tried = Functions::new(variables, &nodes).expect("few variables");
        for listed in Listed::BOTH {
            let of_whole = rows::primes(&listed.function(tried.whole()), &tried.tried);
            assert_eq!(primes(listed, variables, &nodes).pop(), Some(of_whole), "seed {seed}, {listed:?}");
        }
    }
}

#[test]
fn conjunctions_and_chains_agree() {
    for seed in 0..1_000 {
        let random = Random::of(0x3100, seed);
        let variables = random.between(1, 8) as u32;
        let nodes = circuits::nodes(&random, variables);
        let (chained, places) = circuits::chained(&random, &nodes);
        for listed in Listed::BOTH {
            let of_chain = primes(listed, variables, &chained);
            for (of_node, &place) in primes(listed, variables, &nodes).iter().zip(&places) {
                assert_eq!(*of_node, of_chain[place as usize], "seed {seed}, {listed:?}");
            }
        }
    }
}

#[test]
fn what_is_written_is_read_again() {
    for seed in 0..2_000 {
        let random = Random::of(0x3200, seed);
        let table = damage::noise(&random, random.between(1, 40) as u32, random.between(1, 40));
        let mut words = vec![7; table.words.len()];
        let text = writer::text(&table).expect("well-formed");
        assert_eq!(text::read(text.as_bytes(), &mut words), Ok((table.variables, table.nodes)), "seed {seed}");
        assert_eq!(words, table.words, "seed {seed}");
    }
}

#[test]
fn the_grammar_stops_at_the_first_wrong_byte() {
    let eight = " (true)".repeat(8);
    let stops: [(&str, Option<usize>); 16] = [
        ("", Some(0)),
        ("(circuit 3)\n", Some(12)),
        ("(circuit 3)\n(true)\n", None),
        ("(circuit 3)\n(true)", Some(18)),
        ("(circuit 07)\n", Some(10)),
        ("(circuit 12345)\n", Some(13)),
        ("(circuit 3)\n(line 0)\n", Some(13)),
        ("(circuit 3)\n(both (line 99) (true))\n", None),
        ("(circuit 3)\n\n", Some(12)),
        ("(circuit 3) \n", Some(11)),
        ("(circuit 3)\n(both)\n", Some(17)),
        ("(circuit 3)\n(both (true))\n", Some(24)),
        (&format!("(circuit 3)\n(both{eight})\n"), None),
        (&format!("(circuit 3)\n(both{eight} (true))\n"), Some(73)),
        (&format!("(circuit 3)\n(both{eight} "), Some(73)),
        ("(circuit 3)\n(O)\n", Some(13)),
    ];
    for (text, place) in stops {
        assert_eq!(grammar::wrong_shape(grammar::TEXT, text.as_bytes()), place, "{text:?}");
    }
    let lines: [(&str, Option<usize>); 7] = [
        ("(stow)\n", None),
        ("(stow 1 1)\n", None),
        ("(stow )\n", Some(6)),
        ("(stow 1)", Some(8)),
        ("(stow 1)\n\n", Some(9)),
        ("(stowE", Some(5)),
        ("(stow 10000)\n", Some(10)),
    ];
    for (line, place) in lines {
        assert_eq!(grammar::wrong_shape(grammar::STOW_LINE, line.as_bytes()), place, "{line:?}");
    }
    let scripts: [(&str, Option<usize>); 11] = [
        ("", None),
        ("(set 1 yes)\n(drop 9999)\n(set 0 no)\n", None),
        ("(set 1 yes)\n(", Some(13)),
        ("(set 1 yes)", Some(11)),
        ("(set 1)\n", Some(6)),
        ("(drop 1 no)\n", Some(7)),
        ("(set 1 yesno)\n", Some(10)),
        ("(drop 07)\n", Some(7)),
        ("(drop 12345)\n", Some(10)),
        ("(drop 1)\n\n", Some(9)),
        ("(K)\n", Some(1)),
    ];
    for (script, place) in scripts {
        assert_eq!(grammar::wrong_shape(grammar::SCRIPT, script.as_bytes()), place, "{script:?}");
    }
}

/// Every line that a script can have, whatever the number of variables, and every beginning of one.
struct Lines {
    whole: HashSet<Vec<u8>>,
    begun: HashSet<Vec<u8>>,
}

impl Lines {
    fn new() -> Lines {
        let forms = |number: u32| [format!("(set {number} yes)\n"), format!("(set {number} no)\n"), format!("(drop {number})\n")];
        let whole: HashSet<Vec<u8>> = (0..10_000).flat_map(forms).map(String::into_bytes).collect();
        let begun = whole.iter().flat_map(|line| (0..line.len()).map(|length| line[..length].to_vec())).collect();
        Lines { whole, begun }
    }

    /// Whether some script of at most so many lines begins with the part.
    fn can_go_on(&self, part: &[u8], most: usize) -> bool {
        let mut lines: Vec<&[u8]> = part.split_inclusive(|&byte| byte == b'\n').collect();
        let last = if part.ends_with(b"\n") { None } else { lines.pop() };
        let room = lines.len() + usize::from(last.is_some()) <= most;
        room && lines.iter().all(|line| self.whole.contains(*line)) && last.is_none_or(|begun| self.begun.contains(begun))
    }

    /// 54 by trying every beginning of the text, 55 by trying every number; of the two the one at the lower byte.
    fn refusal(&self, text: &[u8], variables: u32, most: usize) -> Option<Refused> {
        let stops = (1..=text.len()).find(|&length| !self.can_go_on(&text[..length], most)).map(|length| length - 1);
        let whole = text.is_empty() || text.ends_with(b"\n");
        let shape = stops.or((!whole).then_some(text.len()));
        let digit = |place: usize| text.get(place).is_some_and(u8::is_ascii_digit);
        let number_ends = |&end: &usize| end > 0 && digit(end - 1) && !digit(end);
        let outside = |&end: &usize| !(0..variables).any(|inside| text[..end].ends_with(format!(" {inside}").as_bytes()));
        let range = (0..shape.unwrap_or(text.len())).find(|end| number_ends(end) && outside(end));
        match (range, shape) {
            (Some(after), _) => refused::<()>(55, after as u64).err(),
            (None, Some(place)) => refused::<()>(54, place as u64).err(),
            _ => None,
        }
    }
}

/// The reader of scripts refuses where the definition says, each line there is tried; what it reads is what was printed.
#[test]
fn scripts_and_single_lines_agree() {
    let (lines, mut refusals) = (Lines::new(), 0);
    for seed in 0..20_000 {
        let random = Random::of(0x3300, seed);
        let (variables, number) = (random.between(1, 40) as u32, if random.once_in(200) { 256 } else { random.position(5) });
        let mut text = scripts::text(&random, variables, number);
        (0..random.position(3)).for_each(|_| scripts::edit(&random, &mut text));
        let mut list = vec![Step { variable: 7, act: 7 }; random.choose(&[number, number + 1, number.saturating_sub(1)])];
        let expected = lines.refusal(&text, variables, list.len().min(MOST_STEPS));
        let read = script::read(&text, variables, &mut list);
        assert_eq!(read.err(), expected, "seed {seed}, {:?}", text.escape_ascii().to_string());
        match read {
            Ok(steps) => assert_eq!(script::text(&list[..steps as usize]).into_bytes(), text, "seed {seed}"),
            Err(_) => refusals += 1,
        }
    }
    assert!((5_000..15_000).contains(&refusals), "{refusals} refusals");
}

/// What is known after a script, by its last line about each variable, is what its lines leave one after the other.
#[test]
fn last_lines_and_lines_in_turn_agree() {
    for seed in 0..2_000 {
        let random = Random::of(0x3400, seed);
        let variables = random.between(1, 40) as u32;
        let mut states = vec![None; variables as usize];
        let steps = scripts::steps(&random, variables, Term::EMPTY, scripts::number_of_steps(&random));
        for (index, step) in steps.iter().enumerate() {
            states[step.variable as usize] = [Some(false), Some(true), None][step.act as usize];
            let mask = |state: bool| (0..variables).filter(|&x| states[x as usize] == Some(state)).fold(0, |mask, x| mask | 1 << x);
            let in_turn = Term { positive: mask(true), negative: mask(false) };
            assert_eq!(walk::known(&steps[..=index], variables), in_turn, "seed {seed}, step {index}");
        }
    }
}

/// What is known is forbidden exactly where every clearance clashes with it, and allowed exactly where one of them lies inside it.
#[test]
fn verdicts_and_clearances_left_agree() {
    for seed in 0..1_000 {
        let random = Random::of(0x3500, seed);
        let variables = random.between(1, 8) as u32;
        let oracle = Oracle::new(&circuits::table(&random, variables));
        let clearances = oracle.accepted().expect("accepted").primes(Listed::Clearances).pop().expect("a node");
        for _ in 0..20 {
            let known = partials::term(&random, variables);
            let answer = oracle.evaluate_partial(known, &Measurements::default()).expect("a row");
            let left = clearances.iter().filter(|&&clearance| !walk::clash(clearance, known)).count();
            assert_eq!(left == 0, answer.verdict == Verdict::Forbidden, "seed {seed}, {known:?}");
            let inside = |row: &Term| row.positive & !known.positive == 0 && row.negative & !known.negative == 0;
            assert_eq!(clearances.iter().any(inside), answer.verdict == Verdict::Allowed, "seed {seed}, {known:?}");
        }
    }
}
