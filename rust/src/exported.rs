//! The exported functions as `include/quelbrift.h` declares them.

use crate::answer::Answer;
use crate::Step;

extern "C" {
    pub fn quelbrift_version() -> u32;
    pub fn quelbrift_read(text: *const u8, length: usize, words: *mut u32, room: usize) -> Answer;
    pub fn quelbrift_write(words: *const u32, length: usize, variables: u32, nodes: u32, sink: *mut u8, room: usize) -> Answer;
    pub fn quelbrift_check(words: *const u32, length: usize, variables: u32, nodes: u32) -> Answer;
    pub fn quelbrift_evaluate(words: *const u32, length: usize, variables: u32, nodes: u32, assignment: u64) -> Answer;
    pub fn quelbrift_evaluate_partial(
        words: *const u32,
        length: usize,
        variables: u32,
        nodes: u32,
        positive: u64,
        negative: u64,
        measured: *const u32,
        measured_length: usize,
        lows: *const i32,
        lows_length: usize,
        highs: *const i32,
        highs_length: usize,
        thresholds: *const i32,
        thresholds_length: usize,
    ) -> Answer;
    pub fn quelbrift_count_models(words: *const u32, length: usize, variables: u32, nodes: u32) -> Answer;
    pub fn quelbrift_implies(words: *const u32, length: usize, variables: u32, nodes: u32, positive: u64, negative: u64) -> Answer;
    pub fn quelbrift_is_prime(words: *const u32, length: usize, variables: u32, nodes: u32, positive: u64, negative: u64) -> Answer;
    pub fn quelbrift_reduce(words: *const u32, length: usize, variables: u32, nodes: u32, assignment: u64) -> Answer;
    pub fn quelbrift_list(
        words: *const u32,
        length: usize,
        variables: u32,
        nodes: u32,
        weights: *const u32,
        weights_length: usize,
        firsts: *const u32,
        firsts_length: usize,
        seconds: *const u32,
        seconds_length: usize,
        capacity: u32,
        positives: *mut u64,
        positives_length: usize,
        negatives: *mut u64,
        negatives_length: usize,
        counts: *mut u32,
        counts_length: usize,
        shown_positives: *mut u64,
        shown_positives_length: usize,
        shown_negatives: *mut u64,
        shown_negatives_length: usize,
    ) -> Answer;
    pub fn quelbrift_list_negation(
        words: *const u32,
        length: usize,
        variables: u32,
        nodes: u32,
        weights: *const u32,
        weights_length: usize,
        capacity: u32,
        positives: *mut u64,
        positives_length: usize,
        negatives: *mut u64,
        negatives_length: usize,
        counts: *mut u32,
        counts_length: usize,
    ) -> Answer;
    pub fn quelbrift_view(buffer: *const u64, length: usize, capacity: u32, node: u32, count: u32) -> Answer;
    pub fn quelbrift_read_assignment(line: *const u8, length: usize, variables: u32) -> Answer;
    pub fn quelbrift_read_script(text: *const u8, length: usize, variables: u32, list: *mut Step, room: usize) -> Answer;
    pub fn quelbrift_walk(
        words: *const u32,
        length: usize,
        variables: u32,
        nodes: u32,
        weights: *const u32,
        weights_length: usize,
        capacity: u32,
        list: *const Step,
        list_length: usize,
        positives: *mut u64,
        positives_length: usize,
        negatives: *mut u64,
        negatives_length: usize,
        counts: *mut u32,
        counts_length: usize,
        statuses: *mut u32,
        statuses_length: usize,
        compatibles: *mut u32,
        compatibles_length: usize,
    ) -> Answer;
}
