//! Columns as a loader reads them: rows, flags and bytes in batches, from positions inside runs; rows that
//! are missing; and all labels in one pass.

/// How many words an answer of `orc_read_rows` has.
pub const BATCH_WORDS: usize = 8;

/// How many words an answer of `orc_read_flags` has.
pub const FLAGS_WORDS: usize = 9;

/// How many words an answer of `orc_read_bytes` has.
pub const BYTES_WORDS: usize = 8;

/// How many words an answer of `orc_spread` has.
pub const SPREAD_WORDS: usize = 4;

/// How many words an answer of `orc_label_column` has.
pub const LABELS_WORDS: usize = 5;

/// The words of a batch of rows. The case is [`case::END`](super::case::END) if there are no more rows. The
/// count and the position are 0 unless there are some.
pub mod batch_word {
    pub use crate::exported::word::{CASE, NUMBER, PLACE};
    /// How many rows there are, in the first places.
    pub const ROWS: usize = 3;
    /// The run of the position after them.
    pub const NEXT_RUN: usize = 4;
    /// The rows to skip from there.
    pub const NEXT_SKIP: usize = 5;
    /// 1 if the refusal has a cut field, otherwise 0.
    pub const CUT: usize = 6;
    /// The byte where the cut field begins, 0 if there is none.
    pub const CUT_AT: usize = 7;
}

/// The words of a batch of flags. The count and the position are 0 if it is refused.
pub mod flags_word {
    pub use crate::exported::word::{CASE, NUMBER, PLACE};
    /// How many flags there are, in the first bytes.
    pub const GIVEN: usize = 3;
    /// The run of the position after them.
    pub const NEXT_RUN: usize = 4;
    /// The bytes to skip from there.
    pub const NEXT_BYTES: usize = 5;
    /// The bits to skip of the next byte.
    pub const NEXT_BITS: usize = 6;
    /// 1 if the refusal has a cut field, otherwise 0.
    pub const CUT: usize = 7;
    /// The byte where the cut field begins, 0 if there is none.
    pub const CUT_AT: usize = 8;
}

/// The words of a batch of bytes. The count and the position are 0 if it is refused.
pub mod bytes_word {
    pub use crate::exported::word::{CASE, NUMBER, PLACE};
    /// How many bytes there are, in the first places.
    pub const GIVEN: usize = 3;
    /// The run of the position after them.
    pub const NEXT_RUN: usize = 4;
    /// The bytes to skip from there.
    pub const NEXT_BYTES: usize = 5;
    /// 1 if the refusal has a cut field, otherwise 0.
    pub const CUT: usize = 6;
    /// The byte where the cut field begins, 0 if there is none.
    pub const CUT_AT: usize = 7;
}

/// The words of spread rows.
pub mod spread_word {
    pub use crate::exported::word::{CASE, NUMBER, PLACE};
    /// How many rows the column has, in the first places; 0 if it is refused.
    pub const ROWS: usize = 3;
}

/// The words of all labels.
pub mod labels_word {
    pub use crate::exported::word::{CASE, NUMBER, PLACE};
    /// How many rows there are, in the first starts and sizes; 0 if it is refused.
    pub const ROWS: usize = 3;
    /// The first row that has no name for refusal 19; otherwise 0.
    pub const REFUSED_ROW: usize = 4;
}

#[allow(missing_docs)] // what they do stands at the safe functions of the same names
extern "C" {
    pub fn orc_read_rows(
        input: *const u8,
        input_len: usize,
        run: u64,
        skip: u64,
        flag: u64,
        rows: *mut i64,
        rows_len: usize,
        words: *mut u64,
        words_len: usize,
    ) -> u64;

    pub fn orc_read_flags(
        input: *const u8,
        input_len: usize,
        run: u64,
        bytes: u64,
        bits: u64,
        n: u64,
        out: *mut u8,
        out_len: usize,
        words: *mut u64,
        words_len: usize,
    ) -> u64;

    pub fn orc_read_bytes(
        input: *const u8,
        input_len: usize,
        run: u64,
        bytes: u64,
        n: u64,
        out: *mut u8,
        out_len: usize,
        words: *mut u64,
        words_len: usize,
    ) -> u64;

    pub fn orc_spread(
        flags: *const u8,
        flags_len: usize,
        rows: *const i64,
        rows_len: usize,
        fill: i64,
        out: *mut i64,
        out_len: usize,
        words: *mut u64,
        words_len: usize,
    ) -> u64;

    pub fn orc_label_column(
        flags: *const u8,
        flags_len: usize,
        numbers: *const i64,
        numbers_len: usize,
        lengths: *const i64,
        lengths_len: usize,
        block_len: u64,
        offsets: *mut u64,
        offsets_len: usize,
        starts: *mut u64,
        starts_len: usize,
        sizes: *mut u64,
        sizes_len: usize,
        words: *mut u64,
        words_len: usize,
    ) -> u64;
}
