//! The planner, the check of a proposal and the column writer. A proposal is five columns, an entry a
//! segment: its first row, its rows, its form, its width and its base.

/// How many words an answer of `orc_check_column` has.
pub const CHECK_WORDS: usize = 4;

/// How many words an answer of `orc_write_column` has.
pub const COLUMN_WORDS: usize = 6;

/// The words of a check, which has neither number nor place: it refuses nothing. The case is
/// [`case::READ`](super::case::READ) if the proposal is accepted and
/// [`case::NOT_ACCEPTED`](super::case::NOT_ACCEPTED) if not. The counts are then 0.
pub mod check_word {
    pub use crate::exported::word::CASE;
    /// How many runs the proposal has.
    pub const RUNS: usize = 1;
    /// How many rows they have.
    pub const ROWS: usize = 2;
    /// How many bytes they take up.
    pub const BYTES: usize = 3;
}

/// The words of a written column. The case is [`case::READ`](super::case::READ) if the proposal was written,
/// and [`case::DIRECT`](super::case::DIRECT) if direct runs of 64 bits were. The counts are 0 if it is refused.
pub mod column_word {
    pub use crate::exported::word::{CASE, NUMBER, PLACE};
    /// How many runs were written.
    pub const RUNS: usize = 3;
    /// How many rows they have.
    pub const ROWS: usize = 4;
    /// How many bytes they take up.
    pub const BYTES: usize = 5;
}

#[allow(missing_docs)] // what they do stands at the safe functions of the same names
extern "C" {
    pub fn orc_plan(
        rows: *const i64,
        rows_len: usize,
        flag: u64,
        first: *mut u64,
        first_len: usize,
        counts: *mut u64,
        counts_len: usize,
        forms: *mut u64,
        forms_len: usize,
        widths: *mut u64,
        widths_len: usize,
        bases: *mut u64,
        bases_len: usize,
    ) -> u64;

    pub fn orc_check_column(
        rows: *const i64,
        rows_len: usize,
        flag: u64,
        first: *const u64,
        first_len: usize,
        counts: *const u64,
        counts_len: usize,
        forms: *const u64,
        forms_len: usize,
        widths: *const u64,
        widths_len: usize,
        bases: *const u64,
        bases_len: usize,
        room: u64,
        words: *mut u64,
        words_len: usize,
    ) -> u64;

    pub fn orc_write_column(
        rows: *const i64,
        rows_len: usize,
        flag: u64,
        first: *const u64,
        first_len: usize,
        counts: *const u64,
        counts_len: usize,
        forms: *const u64,
        forms_len: usize,
        widths: *const u64,
        widths_len: usize,
        bases: *const u64,
        bases_len: usize,
        out: *mut u8,
        out_len: usize,
        words: *mut u64,
        words_len: usize,
    ) -> u64;
}
