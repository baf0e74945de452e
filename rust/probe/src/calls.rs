//! The exported functions over lent slices: all of this crate's unsafe code.
//!
//! SAFETY, of every call below: each pointer is of a live slice of the length beside it, those that
//! are written are borrowed exclusively, and the function is proved to stay within them. Where it did
//! not, it would stay within the guards of `Lent`, or be found by the fences of the crate `fuzz`.
pub mod batches;
pub mod byte_writer;
pub mod rescue;

use menakovitsy::exported;

pub fn read_run_at(input: &[u8], at: u64, flag: u64, rows: &mut [i64], words: &mut [u64]) -> u64 {
    let (rows_len, words_len) = (rows.len(), words.len());
    let (rows, words) = (rows.as_mut_ptr(), words.as_mut_ptr());
    unsafe {
        exported::orc_read_run_at(input.as_ptr(), input.len(), at, flag, rows, rows_len, words, words_len)
    }
}

pub fn read_stream(input: &[u8], at: u64, flag: u64, rows: &mut [i64], words: &mut [u64]) -> u64 {
    let (rows_len, words_len) = (rows.len(), words.len());
    let (rows, words) = (rows.as_mut_ptr(), words.as_mut_ptr());
    unsafe {
        exported::orc_read_stream(input.as_ptr(), input.len(), at, flag, rows, rows_len, words, words_len)
    }
}

pub fn read_booleans(input: &[u8], at: u64, n: u64, out: &mut [u8], words: &mut [u64]) -> u64 {
    let (out_len, words_len) = (out.len(), words.len());
    let (out, words) = (out.as_mut_ptr(), words.as_mut_ptr());
    unsafe { exported::orc_read_booleans(input.as_ptr(), input.len(), at, n, out, out_len, words, words_len) }
}

pub fn byte_value(input: &[u8], at: u64, n: u64, words: &mut [u64]) -> u64 {
    unsafe { exported::orc_byte_value(input.as_ptr(), input.len(), at, n, words.as_mut_ptr(), words.len()) }
}

/// How rows are written: the flag, the form and the width.
#[derive(Clone, Copy)]
pub struct Writing {
    pub flag: u64,
    pub form: u64,
    pub width: u64,
}

pub fn write_run(rows: &[i64], writing: Writing, out: &mut [u8], words: &mut [u64]) -> u64 {
    let Writing { flag, form, width } = writing;
    let (out_len, words_len) = (out.len(), words.len());
    let (out, words) = (out.as_mut_ptr(), words.as_mut_ptr());
    unsafe {
        exported::orc_write_run(rows.as_ptr(), rows.len(), flag, form, width, out, out_len, words, words_len)
    }
}

pub fn write_patched(rows: &[i64], base: i64, width: u64, out: &mut [u8], words: &mut [u64]) -> u64 {
    let (out_len, words_len) = (out.len(), words.len());
    let (out, words) = (out.as_mut_ptr(), words.as_mut_ptr());
    unsafe {
        exported::orc_write_patched(rows.as_ptr(), rows.len(), base, width, out, out_len, words, words_len)
    }
}

/// What a label is asked of.
#[derive(Clone, Copy)]
pub struct Columns<'a> {
    pub lengths: &'a [i64],
    pub numbers: &'a [i64],
    pub flags: &'a [u8],
    pub block: &'a [u8],
    pub fallback: &'a [u8],
}

pub fn label(given: Columns, row: u64, words: &mut [u64]) -> u64 {
    let Columns { lengths, numbers, flags, block, fallback } = given;
    let (words_len, words) = (words.len(), words.as_mut_ptr());
    unsafe {
        exported::orc_label(
            lengths.as_ptr(),
            lengths.len(),
            numbers.as_ptr(),
            numbers.len(),
            flags.as_ptr(),
            flags.len(),
            block.as_ptr(),
            block.len(),
            fallback.as_ptr(),
            fallback.len(),
            row,
            words,
            words_len,
        )
    }
}

/// What the reader in parts is kept in from call to call.
pub struct Kept<'a> {
    pub state: &'a mut [u64],
    pub held: &'a mut [u8],
}

pub fn part_start(state: &mut [u64]) -> u64 {
    unsafe { exported::orc_part_start(state.as_mut_ptr(), state.len()) }
}

pub fn part_take(kept: Kept, part: &[u8], flag: u64, rows: &mut [i64], words: &mut [u64]) -> u64 {
    let Kept { state, held } = kept;
    unsafe {
        exported::orc_part_take(
            state.as_mut_ptr(),
            state.len(),
            held.as_mut_ptr(),
            held.len(),
            part.as_ptr(),
            part.len(),
            flag,
            rows.as_mut_ptr(),
            rows.len(),
            words.as_mut_ptr(),
            words.len(),
        )
    }
}

pub fn part_close(kept: Kept, flag: u64, rows: &mut [i64], words: &mut [u64]) -> u64 {
    let Kept { state, held } = kept;
    unsafe {
        exported::orc_part_close(
            state.as_mut_ptr(),
            state.len(),
            held.as_mut_ptr(),
            held.len(),
            flag,
            rows.as_mut_ptr(),
            rows.len(),
            words.as_mut_ptr(),
            words.len(),
        )
    }
}

pub fn count_true(packed: &[u8], n: u64, words: &mut [u64]) -> u64 {
    unsafe { exported::orc_count_true(packed.as_ptr(), packed.len(), n, words.as_mut_ptr(), words.len()) }
}

pub fn build_index(input: &[u8], columns: [&mut [u64]; 3], words: &mut [u64]) -> u64 {
    let [first, at, counts] = columns.map(|column| (column.as_mut_ptr(), column.len()));
    unsafe {
        exported::orc_build_index(
            input.as_ptr(),
            input.len(),
            first.0,
            first.1,
            at.0,
            at.1,
            counts.0,
            counts.1,
            words.as_mut_ptr(),
            words.len(),
        )
    }
}

pub fn look_up(input: &[u8], columns: [&[u64]; 3], row: u64, words: &mut [u64]) -> u64 {
    let [first, at, counts] = columns.map(|column| (column.as_ptr(), column.len()));
    unsafe {
        exported::orc_look_up(
            input.as_ptr(),
            input.len(),
            first.0,
            first.1,
            at.0,
            at.1,
            counts.0,
            counts.1,
            row,
            words.as_mut_ptr(),
            words.len(),
        )
    }
}

pub fn read_from(
    input: &[u8],
    columns: [&[u64]; 3],
    row: u64,
    flag: u64,
    rows: &mut [i64],
    words: &mut [u64],
) -> u64 {
    let [first, at, counts] = columns.map(|column| (column.as_ptr(), column.len()));
    unsafe {
        exported::orc_read_from(
            input.as_ptr(),
            input.len(),
            first.0,
            first.1,
            at.0,
            at.1,
            counts.0,
            counts.1,
            row,
            flag,
            rows.as_mut_ptr(),
            rows.len(),
            words.as_mut_ptr(),
            words.len(),
        )
    }
}

/// What is salvaged: the stream, its groups' starts and rows, and the row that fills the others.
#[derive(Clone, Copy)]
pub struct Salvaging<'a> {
    pub input: &'a [u8],
    pub groups: [&'a [u64]; 2],
    pub fill: i64,
    pub flag: u64,
}

pub fn salvage(salvaging: Salvaging, out: &mut [u8], report: &mut [u8], words: &mut [u64]) -> u64 {
    let Salvaging { input, groups: [starts, counts], fill, flag } = salvaging;
    unsafe {
        exported::orc_salvage(
            input.as_ptr(),
            input.len(),
            starts.as_ptr(),
            starts.len(),
            counts.as_ptr(),
            counts.len(),
            fill,
            flag,
            out.as_mut_ptr(),
            out.len(),
            report.as_mut_ptr(),
            report.len(),
            words.as_mut_ptr(),
            words.len(),
        )
    }
}

pub fn convert(input: &[u8], flag: u64, out: &mut [u8], words: &mut [u64]) -> u64 {
    let (out_len, words_len) = (out.len(), words.len());
    let (out, words) = (out.as_mut_ptr(), words.as_mut_ptr());
    unsafe { exported::orc_convert(input.as_ptr(), input.len(), flag, out, out_len, words, words_len) }
}

pub fn plan(rows: &[i64], flag: u64, columns: [&mut [u64]; 5]) -> u64 {
    let [first, counts, forms, widths, bases] = columns.map(|column| (column.as_mut_ptr(), column.len()));
    unsafe {
        exported::orc_plan(
            rows.as_ptr(),
            rows.len(),
            flag,
            first.0,
            first.1,
            counts.0,
            counts.1,
            forms.0,
            forms.1,
            widths.0,
            widths.1,
            bases.0,
            bases.1,
        )
    }
}

pub fn check_column(rows: &[i64], flag: u64, columns: [&[u64]; 5], room: u64, words: &mut [u64]) -> u64 {
    let [first, counts, forms, widths, bases] = columns.map(|column| (column.as_ptr(), column.len()));
    unsafe {
        exported::orc_check_column(
            rows.as_ptr(),
            rows.len(),
            flag,
            first.0,
            first.1,
            counts.0,
            counts.1,
            forms.0,
            forms.1,
            widths.0,
            widths.1,
            bases.0,
            bases.1,
            room,
            words.as_mut_ptr(),
            words.len(),
        )
    }
}

pub fn write_column(rows: &[i64], flag: u64, columns: [&[u64]; 5], out: &mut [u8], words: &mut [u64]) -> u64 {
    let [first, counts, forms, widths, bases] = columns.map(|column| (column.as_ptr(), column.len()));
    unsafe {
        exported::orc_write_column(
            rows.as_ptr(),
            rows.len(),
            flag,
            first.0,
            first.1,
            counts.0,
            counts.1,
            forms.0,
            forms.1,
            widths.0,
            widths.1,
            bases.0,
            bases.1,
            out.as_mut_ptr(),
            out.len(),
            words.as_mut_ptr(),
            words.len(),
        )
    }
}

pub fn narrowest_code(number: u64) -> u64 {
    unsafe { exported::orc_narrowest_code(number) }
}
