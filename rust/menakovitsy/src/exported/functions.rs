//! The functions, with their arguments as C passes them.

#[allow(missing_docs)] // what they do stands at the safe functions of the same names
extern "C" {
    pub fn orc_version() -> u64;

    pub fn orc_read_run(input: *const u8, input_len: usize, out: *mut u8, out_len: usize, flag: u64) -> u64;

    pub fn orc_read_run_at(
        input: *const u8,
        input_len: usize,
        at: u64,
        flag: u64,
        rows: *mut i64,
        rows_len: usize,
        words: *mut u64,
        words_len: usize,
    ) -> u64;

    pub fn orc_read_stream(
        input: *const u8,
        input_len: usize,
        at: u64,
        flag: u64,
        rows: *mut i64,
        rows_len: usize,
        words: *mut u64,
        words_len: usize,
    ) -> u64;

    pub fn orc_read_booleans(
        input: *const u8,
        input_len: usize,
        at: u64,
        n: u64,
        out: *mut u8,
        out_len: usize,
        words: *mut u64,
        words_len: usize,
    ) -> u64;

    pub fn orc_byte_value(
        input: *const u8,
        input_len: usize,
        at: u64,
        n: u64,
        words: *mut u64,
        words_len: usize,
    ) -> u64;

    pub fn orc_write_run(
        rows: *const i64,
        rows_len: usize,
        flag: u64,
        form: u64,
        width: u64,
        out: *mut u8,
        out_len: usize,
        words: *mut u64,
        words_len: usize,
    ) -> u64;

    pub fn orc_write_patched(
        rows: *const i64,
        rows_len: usize,
        base: i64,
        width: u64,
        out: *mut u8,
        out_len: usize,
        words: *mut u64,
        words_len: usize,
    ) -> u64;

    pub fn orc_narrowest_code(x: u64) -> u64;

    pub fn orc_label(
        lengths: *const i64,
        lengths_len: usize,
        numbers: *const i64,
        numbers_len: usize,
        flags: *const u8,
        flags_len: usize,
        block: *const u8,
        block_len: usize,
        fallback: *const u8,
        fallback_len: usize,
        row: u64,
        words: *mut u64,
        words_len: usize,
    ) -> u64;

    pub fn orc_part_start(state: *mut u64, state_len: usize) -> u64;

    pub fn orc_part_take(
        state: *mut u64,
        state_len: usize,
        held: *mut u8,
        held_len: usize,
        part: *const u8,
        part_len: usize,
        flag: u64,
        rows: *mut i64,
        rows_len: usize,
        words: *mut u64,
        words_len: usize,
    ) -> u64;

    pub fn orc_part_close(
        state: *mut u64,
        state_len: usize,
        held: *mut u8,
        held_len: usize,
        flag: u64,
        rows: *mut i64,
        rows_len: usize,
        words: *mut u64,
        words_len: usize,
    ) -> u64;

    pub fn orc_count_true(
        packed: *const u8,
        packed_len: usize,
        n: u64,
        words: *mut u64,
        words_len: usize,
    ) -> u64;

    pub fn orc_build_index(
        input: *const u8,
        input_len: usize,
        first: *mut u64,
        first_len: usize,
        at: *mut u64,
        at_len: usize,
        counts: *mut u64,
        counts_len: usize,
        words: *mut u64,
        words_len: usize,
    ) -> u64;

    pub fn orc_look_up(
        input: *const u8,
        input_len: usize,
        first: *const u64,
        first_len: usize,
        at: *const u64,
        at_len: usize,
        counts: *const u64,
        counts_len: usize,
        row: u64,
        words: *mut u64,
        words_len: usize,
    ) -> u64;

    pub fn orc_read_from(
        input: *const u8,
        input_len: usize,
        first: *const u64,
        first_len: usize,
        at: *const u64,
        at_len: usize,
        counts: *const u64,
        counts_len: usize,
        row: u64,
        flag: u64,
        rows: *mut i64,
        rows_len: usize,
        words: *mut u64,
        words_len: usize,
    ) -> u64;

    pub fn orc_salvage(
        input: *const u8,
        input_len: usize,
        starts: *const u64,
        starts_len: usize,
        counts: *const u64,
        counts_len: usize,
        fill: i64,
        flag: u64,
        out: *mut u8,
        out_len: usize,
        report: *mut u8,
        report_len: usize,
        words: *mut u64,
        words_len: usize,
    ) -> u64;

    pub fn orc_convert(
        input: *const u8,
        input_len: usize,
        flag: u64,
        out: *mut u8,
        out_len: usize,
        words: *mut u64,
        words_len: usize,
    ) -> u64;
}
