//! The exported functions as they stand in the library, for those who lend the words themselves:
//! the probe and the fuzz program of this repository do. Everyone else has the safe functions.
//!
//! A slice passes as its pointer, then its length in elements; a null pointer with length 0 is
//! allowed. Nothing that is written may overlap another argument. Calls share no state.
//!
//! A function that takes words writes its answer into the first of them, leaves the others as they were,
//! and returns the refusal's number, 0 if nothing is refused. How many words an answer has and what each
//! means depends on the function. Functions whose answers are alike are a family, with a constant for the
//! number of words and a module for their places: [`CONVERT_WORDS`] and [`convert_word`] for `orc_convert`.
//! Lent fewer, a function returns [`TOO_FEW_WORDS`] and touches nothing.
//!
//! The reader in parts keeps nothing either: its state is in the first [`STATE_WORDS`] of the words that
//! the caller keeps for it, and the bytes of the unfinished run are in the [`MAX_RUN_BYTES`] lent.
//!
//! The names are those of `menakovitsy.h`: `convert_word::BYTES` is `ORC_CONVERT_BYTES` there.

mod batches;
mod byte_writer;
mod columns;
mod functions;
mod rescue;

pub use batches::*;
pub use byte_writer::*;
pub use columns::{
    check_word, column_word, orc_check_column, orc_plan, orc_write_column, CHECK_WORDS, COLUMN_WORDS,
};
pub use functions::*;
pub use rescue::*;

/// The version of these functions that this crate is written for.
pub const VERSION: u64 = 14;

/// How many words the family of `orc_read_run_at`, `orc_read_booleans`, `orc_byte_value`, `orc_write_run`,
/// `orc_write_patched` and `orc_write_booleans` has.
pub const RUN_WORDS: usize = 9;

/// How many words an answer of the stream reader has.
pub const STREAM_WORDS: usize = 14;

/// How many words an answer of `orc_label` has.
pub const LABEL_WORDS: usize = 5;

/// How many words a call of the reader in parts has.
pub const PART_WORDS: usize = 11;

/// How many words the state of the reader in parts has: `orc_part_start` makes them.
pub const STATE_WORDS: usize = 7;

/// How many words an answer of `orc_count_true` has.
pub const COUNT_WORDS: usize = 6;

/// How many words an answer of `orc_build_index` has, of `orc_look_up`, and of `orc_read_from`.
pub const INDEX_WORDS: usize = 8;
/// See [`INDEX_WORDS`].
pub const ENTRY_WORDS: usize = 6;
/// See [`INDEX_WORDS`].
pub const ROWS_FROM_WORDS: usize = 4;

/// How many words an answer of `orc_salvage` has.
pub const SALVAGE_WORDS: usize = 5;

/// How many words an answer of `orc_convert` has.
pub const CONVERT_WORDS: usize = 7;

/// The most words of any answer.
pub const MAX_WORDS: usize = STREAM_WORDS;

/// What a function returns that was lent fewer words than its answer has.
pub const TOO_FEW_WORDS: u64 = u64::MAX;

/// The most rows that one run holds: with this many places, no run is refused for want of them.
pub const MAX_ROWS: usize = 512;

/// The most bytes that one run takes up, of those that are read: a patched run of 512 rows of 64 bits
/// with a base of 8 bytes and 31 entries of 64 bits.
pub const MAX_RUN_BYTES: usize = 4356;

/// The first three words of every family but [`check_word`]'s, for code that handles the answers of several.
pub mod word {
    /// The case: see [`case`](super::case).
    pub const CASE: usize = 0;
    /// The refusal's number, 0 unless refused.
    pub const NUMBER: usize = 1;
    /// The byte where what is refused begins, 0 unless refused.
    pub const PLACE: usize = 2;
}

/// The words of one run, of booleans or of a byte value, by their place. Later versions append words; none
/// changes its meaning.
pub mod run_word {
    pub use super::word::{CASE, NUMBER, PLACE};
    /// The kind of the run: see [`kind`](super::kind). 0 if there is none.
    pub const KIND: usize = 3;
    /// The rows of the run; of booleans and byte values, n.
    pub const ROWS: usize = 4;
    /// The bytes that were consumed, or, of a writer, written.
    pub const BYTES: usize = 5;
    /// 1 if the refusal has a cut field, otherwise 0.
    pub const CUT: usize = 6;
    /// The byte where the cut field begins, 0 if there is none.
    pub const CUT_AT: usize = 7;
    /// The width of the run's values in bits (booleans 1, byte values 8, a fixed delta 0). 0 if there is no
    /// run.
    pub const WIDTH: usize = 8;
}

/// The words of a stream. Words 3 and 8 are 0.
pub mod stream_word {
    pub use super::run_word::{CUT, CUT_AT};
    pub use super::word::{CASE, NUMBER, PLACE};
    /// The rows of the runs that were read, also if the next one is refused.
    pub const ROWS: usize = 4;
    /// The bytes of the runs that were read, likewise.
    pub const BYTES: usize = 5;
    /// 1 if a run was read, otherwise 0. The words after it are of the last that was, and 0 if there is
    /// none.
    pub const LAST: usize = 9;
    /// Its kind.
    pub const LAST_KIND: usize = 10;
    /// Its width.
    pub const LAST_WIDTH: usize = 11;
    /// Its rows.
    pub const LAST_ROWS: usize = 12;
    /// Its bytes.
    pub const LAST_BYTES: usize = 13;
}

/// The words of a label.
pub mod label_word {
    pub use super::word::{CASE, NUMBER, PLACE};
    /// The byte of the block where the name begins, 0 unless it is a name.
    pub const START: usize = 3;
    /// How many bytes the name or the fallback has, 0 if refused.
    pub const SIZE: usize = 4;
}

/// The words of a call of the reader in parts: those of a run, and two more.
pub mod part_word {
    pub use super::run_word::{BYTES, CASE, CUT, CUT_AT, KIND, NUMBER, PLACE, ROWS, WIDTH};
    /// The byte where the run starts, counted from the first part modulo 2^64; 0 unless there is a run.
    pub const START: usize = 9;
    /// How many of the part's bytes the call took.
    pub const TAKEN: usize = 10;
}

/// The words of a count.
pub mod count_word {
    pub use super::word::{CASE, NUMBER, PLACE};
    /// How many booleans are true, 0 if refused.
    pub const TRUE: usize = 3;
    /// 1 if the refusal has a cut field, otherwise 0.
    pub const CUT: usize = 4;
    /// The byte where the cut field begins, 0 if there is none.
    pub const CUT_AT: usize = 5;
}

/// The words of a built index.
pub mod index_word {
    pub use super::run_word::{CUT, CUT_AT};
    pub use super::word::{CASE, NUMBER, PLACE};
    /// How many entries there are, in the first places of each column; 0 if refused.
    pub const ENTRIES: usize = 3;
    /// The rows of the whole stream, 0 if refused.
    pub const ROWS: usize = 4;
    /// The bytes of the whole stream, 0 if refused.
    pub const BYTES: usize = 5;
}

/// The words of a looked-up entry.
pub mod entry_word {
    pub use super::word::{CASE, NUMBER, PLACE};
    /// The number of its run's first row, 0 if refused.
    pub const FIRST: usize = 3;
    /// The byte that the run begins at, 0 if refused.
    pub const AT: usize = 4;
    /// How many rows it has, 0 if refused.
    pub const ROWS: usize = 5;
}

/// The words of `orc_read_from`.
pub mod rows_from_word {
    pub use super::word::{CASE, NUMBER, PLACE};
    /// How many rows there are, in the first places; 0 if refused.
    pub const ROWS: usize = 3;
}

/// The words of a salvage.
pub mod salvage_word {
    pub use super::word::{CASE, NUMBER, PLACE};
    /// How many bytes the new stream has, 0 if refused.
    pub const BYTES: usize = 3;
    /// How many bytes the report has, 0 if refused.
    pub const REPORT: usize = 4;
}

/// The words of a conversion.
pub mod convert_word {
    pub use super::word::{CASE, NUMBER, PLACE};
    /// How many runs were altered, 0 if refused.
    pub const ALTERED: usize = 3;
    /// How many bytes the new stream has, 0 if refused.
    pub const BYTES: usize = 4;
    /// 1 if the refusal has a cut field, otherwise 0.
    pub const CUT: usize = 5;
    /// The byte where the cut field begins, 0 if there is none.
    pub const CUT_AT: usize = 6;
}

/// What the word `CASE` may hold.
pub mod case {
    /// The input is empty; of the reader in parts: it is closed, and the column has ended; of a batch of
    /// rows: there are no more.
    pub const END: u64 = 0;
    /// Of the check of a proposal alone: it is not accepted.
    pub const NOT_ACCEPTED: u64 = 0;
    /// It was done: read, written, found or counted. Of the stream reader: the whole stream was read; of a
    /// label: a name.
    pub const READ: u64 = 1;
    /// A refusal.
    pub const REFUSED: u64 = 2;
    /// Of a label alone: the row has no name, and is called by the fallback.
    pub const FALLBACK: u64 = 3;
    /// Of the reader in parts alone: all of the part is taken, and no run has ended.
    pub const MORE: u64 = 3;
    /// Of a written column alone: direct runs of 64 bits, since the proposal is not accepted.
    pub const DIRECT: u64 = 3;
}

/// What the word `KIND` may hold.
pub mod kind {
    /// An integer run: one value, 3 to 10 times.
    pub const SHORT_REPEAT: u64 = 0;
    /// An integer run: packed rows.
    pub const DIRECT: u64 = 1;
    /// An integer run: packed rows over a base, some of them patched.
    pub const PATCHED_BASE: u64 = 2;
    /// An integer run: a first row and steps.
    pub const DELTA: u64 = 3;
    /// Booleans.
    pub const BOOLEANS: u64 = 4;
    /// A byte value.
    pub const BYTE_VALUE: u64 = 5;
}
