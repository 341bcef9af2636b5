//! Safe functions over those of `libquelbrift.a`: slices and numbers in, a value or a refusal out. `include/quelbrift.h` says what each
//! does, and what it leaves in each buffer.

mod answer;
mod exported;
mod refusal;

pub use refusal::{Place, Refusal};

/// The version that this wrapper is written for; `version` gives the archive's.
pub const VERSION: u32 = 7;

/// The limits of the header, where weights are called minutes.
pub const MAX_VARIABLES: u32 = 40;
pub const MAX_NODES: u32 = 1024;
pub const NODE_WORDS: usize = 11;
pub const MAX_CHILDREN: u32 = 8;
pub const MAX_CAPACITY: u32 = 4096;
pub const MAX_WEIGHT: u32 = 1000;
pub const MAX_TEXT: usize = 110_000;
pub const MAX_DEPTH: u32 = 16;
pub const MAX_LINE: usize = 117;
pub const MAX_STEPS: usize = 256;
pub const MAX_SCRIPT: usize = 3328;

/// The acts of a step. Any other number is refused by 54.
pub const SET_NO: u32 = 0;
pub const SET_YES: u32 = 1;
pub const DROP: u32 = 2;

/// A row: the masks of the variables marked yes and of those marked no.
#[derive(Clone, Copy, Debug, PartialEq, Eq, Hash)]
pub struct Term {
    pub positive: u64,
    pub negative: u64,
}

/// A table as it is lent to an operation: `NODE_WORDS` words a node.
#[derive(Clone, Copy, Debug)]
pub struct Table<'a> {
    pub words: &'a [u32],
    pub variables: u32,
    pub nodes: u32,
}

/// The verdict for a half-known stow, with the number that the archive gives it.
#[derive(Clone, Copy, Debug, PartialEq, Eq)]
pub enum Verdict {
    /// No completion is allowed.
    Forbidden = 0,
    /// Some are, and some are not.
    Open = 1,
    /// Every completion is allowed.
    Allowed = 2,
}

impl Verdict {
    /// The verdict with that number: what a walk leaves in `statuses`.
    pub fn of_number(number: u32) -> Option<Verdict> {
        match number {
            0 => Some(Verdict::Forbidden),
            1 => Some(Verdict::Open),
            2 => Some(Verdict::Allowed),
            _ => None,
        }
    }
}

/// A verdict, and how many completions are allowed and how many are forbidden.
#[derive(Clone, Copy, Debug, PartialEq, Eq)]
pub struct Completions {
    pub verdict: Verdict,
    pub allowed: u64,
    pub forbidden: u64,
}

/// A step of a loading script, as the archive reads it: a fact, and what is done with it.
#[repr(C)]
#[derive(Clone, Copy, Debug, PartialEq, Eq, Hash)]
pub struct Step {
    pub variable: u32,
    pub act: u32,
}

/// The lent buffers of a listing of clearances: the rows of every node, the counts, and two for the shown list.
#[derive(Debug)]
pub struct ListBuffers<'a> {
    pub positives: &'a mut [u64],
    pub negatives: &'a mut [u64],
    pub counts: &'a mut [u32],
    pub shown_positives: &'a mut [u64],
    pub shown_negatives: &'a mut [u64],
}

/// The lent buffers of a walk: rows and counts, and two with an entry a step, for the verdict and for how many clearances are left.
#[derive(Debug)]
pub struct WalkBuffers<'a> {
    pub positives: &'a mut [u64],
    pub negatives: &'a mut [u64],
    pub counts: &'a mut [u32],
    pub statuses: &'a mut [u32],
    pub compatibles: &'a mut [u32],
}

/// The version of the archive; it fits this wrapper if it is `VERSION`.
pub fn version() -> u32 {
    unsafe { exported::quelbrift_version() }
}

/// Reads a circuit text: the numbers of variables and of nodes.
pub fn read(text: &[u8], words: &mut [u32]) -> Result<(u32, u32), Refusal> {
    let answer = unsafe { exported::quelbrift_read(text.as_ptr(), text.len(), words.as_mut_ptr(), words.len()) };
    let (variables, nodes) = answer.values()?;
    let whole = |value: u64| u32::try_from(value).expect("a number of variables or nodes");
    Ok((whole(variables), whole(nodes)))
}

/// Writes a table as text: the length.
pub fn write(table: Table, sink: &mut [u8]) -> Result<usize, Refusal> {
    let Table { words, variables, nodes } = table;
    let answer = unsafe { exported::quelbrift_write(words.as_ptr(), words.len(), variables, nodes, sink.as_mut_ptr(), sink.len()) };
    Ok(answer.value()? as usize)
}

/// Checks a table.
pub fn check(table: Table) -> Result<(), Refusal> {
    let Table { words, variables, nodes } = table;
    unsafe { exported::quelbrift_check(words.as_ptr(), words.len(), variables, nodes) }.nothing()
}

/// The verdict for a stow.
pub fn evaluate(table: Table, assignment: u64) -> Result<bool, Refusal> {
    let Table { words, variables, nodes } = table;
    unsafe { exported::quelbrift_evaluate(words.as_ptr(), words.len(), variables, nodes, assignment) }.truth()
}

/// The verdict for a half-known stow: a row, and readings by their facts, lows, highs and thresholds, one a position.
pub fn evaluate_partial(
    table: Table,
    term: Term,
    measured: &[u32],
    lows: &[i32],
    highs: &[i32],
    thresholds: &[i32],
) -> Result<Completions, Refusal> {
    let Table { words, variables, nodes } = table;
    let answer = unsafe {
        exported::quelbrift_evaluate_partial(
            words.as_ptr(),
            words.len(),
            variables,
            nodes,
            term.positive,
            term.negative,
            measured.as_ptr(),
            measured.len(),
            lows.as_ptr(),
            lows.len(),
            highs.as_ptr(),
            highs.len(),
            thresholds.as_ptr(),
            thresholds.len(),
        )
    };
    let (first, allowed, forbidden) = answer.three_values()?;
    let verdict = u32::try_from(first).ok().and_then(Verdict::of_number);
    let verdict = verdict.unwrap_or_else(|| panic!("0, 1 or 2: {answer:?}"));
    Ok(Completions { verdict, allowed, forbidden })
}

/// The count of allowed stows.
pub fn count_models(table: Table) -> Result<u64, Refusal> {
    let Table { words, variables, nodes } = table;
    unsafe { exported::quelbrift_count_models(words.as_ptr(), words.len(), variables, nodes) }.value()
}

/// Whether the row implies the circuit.
pub fn implies(table: Table, term: Term) -> Result<bool, Refusal> {
    let Table { words, variables, nodes } = table;
    unsafe { exported::quelbrift_implies(words.as_ptr(), words.len(), variables, nodes, term.positive, term.negative) }.truth()
}

/// Whether the row is a clearance.
pub fn is_prime(table: Table, term: Term) -> Result<bool, Refusal> {
    let Table { words, variables, nodes } = table;
    unsafe { exported::quelbrift_is_prime(words.as_ptr(), words.len(), variables, nodes, term.positive, term.negative) }.truth()
}

/// The clearance to which an allowed stow is struck down.
pub fn reduce(table: Table, assignment: u64) -> Result<Term, Refusal> {
    let Table { words, variables, nodes } = table;
    let answer = unsafe { exported::quelbrift_reduce(words.as_ptr(), words.len(), variables, nodes, assignment) };
    let (positive, negative) = answer.values()?;
    Ok(Term { positive, negative })
}

/// Lists the clearances of every node, by the weights (the minutes of the facts, one each): how many of the circuit's are shown, which are
/// all but those that mark both facts of a pair yes. A pair is a first and a second fact, one a position.
pub fn list(
    table: Table,
    weights: &[u32],
    firsts: &[u32],
    seconds: &[u32],
    capacity: u32,
    buffers: ListBuffers,
) -> Result<usize, Refusal> {
    let Table { words, variables, nodes } = table;
    let ListBuffers { positives, negatives, counts, shown_positives, shown_negatives } = buffers;
    let answer = unsafe {
        exported::quelbrift_list(
            words.as_ptr(),
            words.len(),
            variables,
            nodes,
            weights.as_ptr(),
            weights.len(),
            firsts.as_ptr(),
            firsts.len(),
            seconds.as_ptr(),
            seconds.len(),
            capacity,
            positives.as_mut_ptr(),
            positives.len(),
            negatives.as_mut_ptr(),
            negatives.len(),
            counts.as_mut_ptr(),
            counts.len(),
            shown_positives.as_mut_ptr(),
            shown_positives.len(),
            shown_negatives.as_mut_ptr(),
            shown_negatives.len(),
        )
    };
    let shown = answer.value()?;
    assert!(shown <= u64::from(capacity), "at most the capacity: {answer:?}");
    Ok(shown as usize)
}

/// Lists the blockers of every node, by the weights: the clearances of its negation.
pub fn list_negation(
    table: Table,
    weights: &[u32],
    capacity: u32,
    positives: &mut [u64],
    negatives: &mut [u64],
    counts: &mut [u32],
) -> Result<(), Refusal> {
    let Table { words, variables, nodes } = table;
    unsafe {
        exported::quelbrift_list_negation(
            words.as_ptr(),
            words.len(),
            variables,
            nodes,
            weights.as_ptr(),
            weights.len(),
            capacity,
            positives.as_mut_ptr(),
            positives.len(),
            negatives.as_mut_ptr(),
            negatives.len(),
            counts.as_mut_ptr(),
            counts.len(),
        )
    }
    .nothing()
}

/// The part of a row buffer that holds the first `count` entries of a node.
pub fn view(buffer: &[u64], capacity: u32, node: u32, count: u32) -> &[u64] {
    let answer = unsafe { exported::quelbrift_view(buffer.as_ptr(), buffer.len(), capacity, node, count) };
    let (start, length) = answer.values().expect("a view is never refused");
    &buffer[start as usize..][..length as usize]
}

/// Reads a stow line: the mask of the facts that are yes.
pub fn read_assignment(line: &[u8], variables: u32) -> Result<u64, Refusal> {
    unsafe { exported::quelbrift_read_assignment(line.as_ptr(), line.len(), variables) }.value()
}

/// Reads a loading script into the list: the number of steps.
pub fn read_script(text: &[u8], variables: u32, list: &mut [Step]) -> Result<usize, Refusal> {
    let answer = unsafe { exported::quelbrift_read_script(text.as_ptr(), text.len(), variables, list.as_mut_ptr(), list.len()) };
    Ok(answer.value()? as usize)
}

/// Walks a loading script: the first step from which on every verdict is allowed, or none. The weights order the listed clearances.
pub fn walk(table: Table, weights: &[u32], capacity: u32, steps: &[Step], buffers: WalkBuffers) -> Result<Option<usize>, Refusal> {
    let Table { words, variables, nodes } = table;
    let WalkBuffers { positives, negatives, counts, statuses, compatibles } = buffers;
    let answer = unsafe {
        exported::quelbrift_walk(
            words.as_ptr(),
            words.len(),
            variables,
            nodes,
            weights.as_ptr(),
            weights.len(),
            capacity,
            steps.as_ptr(),
            steps.len(),
            positives.as_mut_ptr(),
            positives.len(),
            negatives.as_mut_ptr(),
            negatives.len(),
            counts.as_mut_ptr(),
            counts.len(),
            statuses.as_mut_ptr(),
            statuses.len(),
            compatibles.as_mut_ptr(),
            compatibles.len(),
        )
    };
    match answer.values()? {
        (0, 0) => Ok(None),
        (1, step) if step < steps.len() as u64 => Ok(Some(step as usize)),
        _ => panic!("none, or a step of the script: {answer:?}"),
    }
}
