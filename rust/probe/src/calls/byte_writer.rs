//! Flags and bytes written, and their sizes. SAFETY: as in `calls`.
use menakovitsy::exported;

pub fn write_booleans(flags: &[u8], out: &mut [u8], words: &mut [u64]) -> u64 {
    let (out_len, words_len) = (out.len(), words.len());
    let (out, words) = (out.as_mut_ptr(), words.as_mut_ptr());
    unsafe { exported::orc_write_booleans(flags.as_ptr(), flags.len(), out, out_len, words, words_len) }
}

pub fn write_bytes(bytes: &[u8], out: &mut [u8], words: &mut [u64]) -> u64 {
    let (out_len, words_len) = (out.len(), words.len());
    let (out, words) = (out.as_mut_ptr(), words.as_mut_ptr());
    unsafe { exported::orc_write_bytes(bytes.as_ptr(), bytes.len(), out, out_len, words, words_len) }
}

pub fn size_of_booleans(flags: &[u8]) -> u64 {
    unsafe { exported::orc_size_of_booleans(flags.as_ptr(), flags.len()) }
}

pub fn size_of_bytes(bytes: &[u8]) -> u64 {
    unsafe { exported::orc_size_of_bytes(bytes.as_ptr(), bytes.len()) }
}
