//! The proved library's functions, safe to call. Nothing checks these declarations against the library's source: a slice passes as a pointer
//! and then its length, numbers as themselves.

use crate::plain::Answer;

mod raw {
    extern "C" {
        #[allow(clippy::too_many_arguments)]
        pub fn depot_plan(
            record: *const u8,
            record_length: usize,
            nodes: u32,
            budget: u32,
            plan: *mut u8,
            plan_length: usize,
            table: *mut u64,
            table_length: usize,
            answer: *mut u64,
            answer_length: usize,
        ) -> u32;
        pub fn depot_prices(
            record: *const u8,
            record_length: usize,
            path: *const u8,
            path_length: usize,
            prices: *mut u64,
            prices_length: usize,
        ) -> u32;
        pub fn depot_table_words(record: *const u8, record_length: usize, nodes: u32) -> u64;
        pub fn depot_plan_bytes(record: *const u8, record_length: usize, nodes: u32) -> u64;
    }
}

/// The words that the planner writes its answer to: the plan's length and cost, expansions, nodes. Where it is lent fewer it writes none.
pub const ANSWER_WORDS: usize = 4;

/// Plans a task in the lent buffers. The answer's number is what the function returns.
pub fn plan(record: &[u8], nodes: u32, budget: u32, plan: &mut [u8], table: &mut [u64], answer: &mut [u64]) -> u32 {
    // SAFETY: each pointer stands with its slice's own length, the slices live through the call, and the borrows keep the lent ones apart.
    unsafe {
        raw::depot_plan(
            record.as_ptr(),
            record.len(),
            nodes,
            budget,
            plan.as_mut_ptr(),
            plan.len(),
            table.as_mut_ptr(),
            table.len(),
            answer.as_mut_ptr(),
            answer.len(),
        )
    }
}

/// The answer in one piece.
pub fn answer_of(number: u32, words: &[u64]) -> Answer {
    Answer { number, length: words[0], cost: words[1], expanded: words[2], kept: words[3] }
}

/// Prices after a path of centre actions: 0, or the refusal's number.
pub fn prices(record: &[u8], path: &[u8], prices: &mut [u64]) -> u32 {
    // SAFETY: as above.
    unsafe { raw::depot_prices(record.as_ptr(), record.len(), path.as_ptr(), path.len(), prices.as_mut_ptr(), prices.len()) }
}

/// The words that the planner's table needs.
pub fn table_words(record: &[u8], nodes: u32) -> u64 {
    // SAFETY: as above.
    unsafe { raw::depot_table_words(record.as_ptr(), record.len(), nodes) }
}

/// The bytes of a plan buffer with which no call with these nodes is answered 24.
pub fn plan_bytes(record: &[u8], nodes: u32) -> u64 {
    // SAFETY: as above.
    unsafe { raw::depot_plan_bytes(record.as_ptr(), record.len(), nodes) }
}
