//! The view: which part of a row buffer holds the first entries of a node.

/// The part's offset and length; both are 0 for the empty part.
pub fn view(buffer_length: u64, capacity: u32, node: u32, count: u32) -> (u64, u64) {
    let start = u128::from(node) * u128::from(capacity);
    let past_the_end = start + u128::from(count) > u128::from(buffer_length);
    if node > 1023 || capacity > 4096 || count > capacity || past_the_end || count == 0 {
        return (0, 0);
    }
    (start as u64, u64::from(count))
}
