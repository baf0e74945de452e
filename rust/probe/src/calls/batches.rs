//! Rows, flags and bytes in batches, missing rows and all labels. SAFETY: as in `calls`.
use menakovitsy::exported;

pub fn read_rows(input: &[u8], position: [u64; 2], flag: u64, rows: &mut [i64], words: &mut [u64]) -> u64 {
    let [run, skip] = position;
    let (rows_len, words_len) = (rows.len(), words.len());
    let (rows, words) = (rows.as_mut_ptr(), words.as_mut_ptr());
    unsafe {
        exported::orc_read_rows(
            input.as_ptr(),
            input.len(),
            run,
            skip,
            flag,
            rows,
            rows_len,
            words,
            words_len,
        )
    }
}

pub fn read_flags(input: &[u8], position: [u64; 3], n: u64, out: &mut [u8], words: &mut [u64]) -> u64 {
    let [run, bytes, bits] = position;
    let (out_len, words_len) = (out.len(), words.len());
    let (out, words) = (out.as_mut_ptr(), words.as_mut_ptr());
    let (input, input_len) = (input.as_ptr(), input.len());
    unsafe { exported::orc_read_flags(input, input_len, run, bytes, bits, n, out, out_len, words, words_len) }
}

pub fn read_bytes(input: &[u8], position: [u64; 2], n: u64, out: &mut [u8], words: &mut [u64]) -> u64 {
    let [run, bytes] = position;
    let (out_len, words_len) = (out.len(), words.len());
    let (out, words) = (out.as_mut_ptr(), words.as_mut_ptr());
    let (input, input_len) = (input.as_ptr(), input.len());
    unsafe { exported::orc_read_bytes(input, input_len, run, bytes, n, out, out_len, words, words_len) }
}

pub fn spread(flags: &[u8], rows: &[i64], fill: i64, out: &mut [i64], words: &mut [u64]) -> u64 {
    let (out_len, words_len) = (out.len(), words.len());
    let (out, words) = (out.as_mut_ptr(), words.as_mut_ptr());
    let (flags, flags_len) = (flags.as_ptr(), flags.len());
    unsafe {
        exported::orc_spread(
            flags,
            flags_len,
            rows.as_ptr(),
            rows.len(),
            fill,
            out,
            out_len,
            words,
            words_len,
        )
    }
}

/// What all labels are asked of.
#[derive(Clone, Copy)]
pub struct Names<'a> {
    pub flags: &'a [u8],
    pub numbers: &'a [i64],
    pub lengths: &'a [i64],
    pub block_len: u64,
}

/// Into offsets, starts and sizes.
pub fn label_column(names: Names, out: [&mut [u64]; 3], words: &mut [u64]) -> u64 {
    let Names { flags, numbers, lengths, block_len } = names;
    let [offsets, starts, sizes] = out.map(|column| (column.as_mut_ptr(), column.len()));
    unsafe {
        exported::orc_label_column(
            flags.as_ptr(),
            flags.len(),
            numbers.as_ptr(),
            numbers.len(),
            lengths.as_ptr(),
            lengths.len(),
            block_len,
            offsets.0,
            offsets.1,
            starts.0,
            starts.1,
            sizes.0,
            sizes.1,
            words.as_mut_ptr(),
            words.len(),
        )
    }
}
