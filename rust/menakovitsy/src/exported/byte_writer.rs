//! Flags and bytes written as byte runs.

/// How many words an answer of `orc_write_bytes` has. (One of `orc_write_booleans` has
/// [`RUN_WORDS`](super::RUN_WORDS), and they mean what they mean there: the flags are its rows.)
pub const BYTES_WRITTEN_WORDS: usize = 5;

/// The words of written bytes. The counts are 0 if it is refused.
pub mod bytes_written_word {
    pub use crate::exported::word::{CASE, NUMBER, PLACE};
    /// How many bytes were taken: all of them.
    pub const TAKEN: usize = 3;
    /// How many bytes were written, into the first places.
    pub const SIZE: usize = 4;
}

#[allow(missing_docs)] // what they do stands at the safe functions of the same names
extern "C" {
    pub fn orc_write_booleans(
        flags: *const u8,
        flags_len: usize,
        out: *mut u8,
        out_len: usize,
        words: *mut u64,
        words_len: usize,
    ) -> u64;

    pub fn orc_write_bytes(
        bytes: *const u8,
        bytes_len: usize,
        out: *mut u8,
        out_len: usize,
        words: *mut u64,
        words_len: usize,
    ) -> u64;

    pub fn orc_size_of_booleans(flags: *const u8, flags_len: usize) -> u64;

    pub fn orc_size_of_bytes(bytes: *const u8, bytes_len: usize) -> u64;
}
