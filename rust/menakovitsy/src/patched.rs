//! Patched runs, written: columns of small differences with a few large ones.
use crate::answers::Words;
use crate::exported;
use crate::{Refused, Run};

/// Writes 1 to 512 rows as one patched run into the first bytes of `out`: every row as its difference
/// from `base`, of which the low `width` bits are packed, and what is above becomes a patch of its own.
/// The run has no zigzag: it reads back as the rows under either [`Sign`](crate::Sign).
///
/// The base takes up as few bytes as hold it, the patches and their gaps as few bits; so the smallest
/// row is a good base, and a good width is one that all but a few differences fit.
///
/// ```
/// use menakovitsy::write_patched;
///
/// let mut out = [0; 16];
/// let run = write_patched(&[101, 102, 183, 104], 100, 4, &mut out)?;
/// assert_eq!(out[..run.bytes.0], [0x86, 0x03, 0x02, 0x21, 0x64, 0x12, 0x34, 0xA8]);
/// # Ok::<(), menakovitsy::Refused>(())
/// ```
///
/// # Errors
///
/// In this order: [`RowCount`](crate::Refusal::RowCount); [`NotTheForm`](crate::Refusal::NotTheForm) if no patched
/// run has those rows with that base and width (a list of more than 31 entries, a patch of more than 56 bits, a
/// base of -2^63, a width that the specification does not keep); [`TooFewPlaces`](crate::Refusal::TooFewPlaces). A
/// refused call leaves every byte as it was.
pub fn write_patched(rows: &[i64], base: i64, width: u8, out: &mut [u8]) -> Result<Run, Refused> {
    let mut words = Words::lent(rows.len(), out.len());
    // SAFETY: each pointer is of a live slice of this length, those that are written are lent
    // exclusively, and the function is proved to stay within them and to keep none.
    words.number = unsafe {
        exported::orc_write_patched(
            rows.as_ptr(),
            rows.len(),
            base,
            u64::from(width),
            out.as_mut_ptr(),
            out.len(),
            words.lent.as_mut_ptr(),
            words.lent.len(),
        )
    };
    words.one_run()
}
