//! The engine's two listings, through the archive.
use crate::buffers::Buffers;
use crate::listing::Listed;
use crate::terms::Of;
use quelbrift::{Table, MAX_VARIABLES};

/// Weights that are all 0: the order of the peers, which know no other.
pub fn zeros(table: Table) -> &'static [u32] {
    &[0; MAX_VARIABLES as usize][..table.variables as usize]
}

/// Lists the prime implicants of every node by the weights, without pairs.
pub fn list(of: Of, table: Table, weights: &[u32], capacity: u32, buffers: &mut Buffers) -> Listed {
    match of {
        Of::Function => quelbrift::list(table, weights, &[], &[], capacity, buffers.lent()).map(|_| ()),
        Of::Negation => {
            let Buffers { positives, negatives, counts, .. } = buffers;
            quelbrift::list_negation(table, weights, capacity, positives, negatives, counts)
        }
    }
}
