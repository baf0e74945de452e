//! Rows rescued by positions. SAFETY: as in `calls`.
use menakovitsy::exported;

/// What is rescued: the stream, the runs, skips and counts of its groups, and the row that fills the others.
#[derive(Clone, Copy)]
pub struct Rescuing<'a> {
    pub input: &'a [u8],
    pub groups: [&'a [u64]; 3],
    pub fill: i64,
    pub flag: u64,
}

pub fn rescue(rescuing: Rescuing, rows: &mut [i64], verdicts: &mut [u8], words: &mut [u64]) -> u64 {
    let Rescuing { input, groups: [runs, skips, counts], fill, flag } = rescuing;
    unsafe {
        exported::orc_rescue(
            input.as_ptr(),
            input.len(),
            runs.as_ptr(),
            runs.len(),
            skips.as_ptr(),
            skips.len(),
            counts.as_ptr(),
            counts.len(),
            fill,
            flag,
            rows.as_mut_ptr(),
            rows.len(),
            verdicts.as_mut_ptr(),
            verdicts.len(),
            words.as_mut_ptr(),
            words.len(),
        )
    }
}
