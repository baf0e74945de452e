//! Rows rescued by the positions of row groups, which are three columns, an entry a group: the byte of a run,
//! the rows to skip from there, and the rows of the group.

/// How many words an answer of `orc_rescue` has.
pub const RESCUE_WORDS: usize = 5;

/// The words of rescued rows. The counts are 0 if it is refused.
pub mod rescue_word {
    pub use crate::exported::word::{CASE, NUMBER, PLACE};
    /// How many rows were written, into the first places.
    pub const ROWS: usize = 3;
    /// How many groups were kept.
    pub const KEPT: usize = 4;
}

#[allow(missing_docs)] // what it does stands at the safe function of the same name
extern "C" {
    pub fn orc_rescue(
        input: *const u8,
        input_len: usize,
        runs: *const u64,
        runs_len: usize,
        skips: *const u64,
        skips_len: usize,
        counts: *const u64,
        counts_len: usize,
        fill: i64,
        flag: u64,
        rows: *mut i64,
        rows_len: usize,
        verdicts: *mut u8,
        verdicts_len: usize,
        words: *mut u64,
        words_len: usize,
    ) -> u64;
}
