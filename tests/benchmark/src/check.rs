//! The rules of an accepted table.
use quelbrift::{Refusal, Table, MAX_CHILDREN, NODE_WORDS};

/// A node of a well-formed table: its kind, its variable or 0, and its children.
pub fn node(words: &[u32], i: usize) -> (u32, u32, &[u32]) {
    let words = &words[NODE_WORDS * i..NODE_WORDS * (i + 1)];
    (words[0], words[1], &words[3..3 + words[2] as usize])
}

fn malformed(words: &[u32], i: usize, variables: u32) -> bool {
    let words = &words[NODE_WORDS * i..NODE_WORDS * (i + 1)];
    let [kind, x, number] = [words[0], words[1], words[2]];
    let (named, allowed) = match kind {
        0 | 1 => (x == 0, number == 0),
        2 | 3 => (x < variables, number == 0),
        4 => (x < variables, number == 2),
        5 => (x == 0, (2..=MAX_CHILDREN).contains(&number)),
        _ => return true,
    };
    if !named || !allowed {
        return true;
    }
    let (children, unused) = words[3..].split_at(number as usize);
    children.iter().any(|&child| child as usize >= i) || unused.iter().any(|&word| word != 0)
}

/// The variables named at each node or below it.
fn supports(words: &[u32], n: usize) -> Vec<u64> {
    let mut supports: Vec<u64> = Vec::with_capacity(n);
    for i in 0..n {
        let (kind, x, children) = node(words, i);
        let named = if matches!(kind, 2..=4) { 1 << x } else { 0 };
        supports.push(children.iter().fold(named, |all, &child| all | supports[child as usize]));
    }
    supports
}

fn first_parentless(words: &[u32], n: usize) -> Option<usize> {
    let mut marked = vec![false; n];
    for i in 0..n {
        for &child in node(words, i).2 {
            marked[child as usize] = true;
        }
    }
    (0..n - 1).find(|&i| !marked[i])
}

fn undecomposable(words: &[u32], supports: &[u64], i: usize) -> bool {
    let (kind, x, children) = node(words, i);
    let (mut under, mut met) = (0, 0);
    for &child in children {
        met |= under & supports[child as usize];
        under |= supports[child as usize];
    }
    match kind {
        4 => under >> x & 1 == 1,
        5 => met != 0,
        _ => false,
    }
}

fn unreduced(words: &[u32], i: usize) -> bool {
    let (kind, _, children) = node(words, i);
    let is_false = |&child: &u32| words[NODE_WORDS * child as usize] == 0;
    match kind {
        4 => children.iter().all(is_false),
        5 => children.iter().any(is_false),
        _ => false,
    }
}

/// The rules of an accepted table, each with its lowest node.
pub fn check(table: Table) -> Result<(), Refusal> {
    let Table { words, variables, nodes } = table;
    let n = nodes as usize;
    if !(1..=40).contains(&variables) || !(1..=1024).contains(&n) || words.len() < NODE_WORDS * n {
        return Err(Refusal { number: 21, place: 0 });
    }
    let refuse = |number, found: Option<usize>| match found {
        Some(i) => Err(Refusal { number, place: i as u64 }),
        None => Ok(()),
    };
    refuse(22, (0..n).find(|&i| malformed(words, i, variables)))?;
    refuse(23, first_parentless(words, n))?;
    let supports = supports(words, n);
    refuse(24, (0..n).find(|&i| undecomposable(words, &supports, i)))?;
    refuse(25, (0..n).find(|&i| unreduced(words, i)))
}
