//! How many booleans are true, of booleans packed eight to a byte.
use crate::answers::Words;
use crate::exported::{self, count_word};
use crate::{Refused, RowNumber};

/// How many of the first n booleans are true, packed eight to a byte, the highest bit first. Ones are
/// counted a byte at a time, and of the last byte only the bits that are asked for.
///
/// It wants the bytes and not the column: of the flag column `00 FF FF 00`, 32 rows of which 24 are true, it
/// counts the 16 ones of the runs themselves. [`Bytes`](crate::Bytes) reads the bytes that a column stands
/// for.
///
/// ```
/// use menakovitsy::{count_true, ByteOffset, Bytes, Refusal, RowNumber};
///
/// let column = [0x00, 0xFF, 0xFF, 0x00];
/// let packed = Bytes::new(&column).next(ByteOffset(4))?;
/// assert_eq!(count_true(&packed, RowNumber(32))?, RowNumber(24));
/// assert_eq!(count_true(&column, RowNumber(32))?, RowNumber(16));
///
/// // Eight booleans and two, and the padding after them, which is not counted.
/// let packed = [0b1010_0001, 0b0111_1111];
/// assert_eq!(count_true(&packed, RowNumber(10))?, RowNumber(4));
/// assert_eq!(count_true(&packed, RowNumber(17)).unwrap_err().refusal, Refusal::ValueCut);
/// # Ok::<(), menakovitsy::Refused>(())
/// ```
///
/// # Errors
///
/// [`ValueCut`](crate::Refusal::ValueCut) if the bytes hold fewer than n.
pub fn count_true(packed: &[u8], n: RowNumber) -> Result<RowNumber, Refused> {
    let mut words = Words::lent(0, 0);
    // SAFETY: each pointer is of a live slice of this length, the words are lent exclusively, and the
    // function is proved to stay within them and to keep none.
    words.number = unsafe {
        exported::orc_count_true(
            packed.as_ptr(),
            packed.len(),
            n.0 as u64,
            words.lent.as_mut_ptr(),
            words.lent.len(),
        )
    };
    // What is cut is the bytes themselves: no run of them has a place.
    words.accepted(Some(count_word::CUT)).map_err(|refused| Refused { at: None, ..refused })?;
    let count = RowNumber(words.lent[count_word::TRUE] as usize);
    // Whatever library is linked, no more are true than were asked of.
    if count > n {
        return Err(words.unknown());
    }
    Ok(count)
}
