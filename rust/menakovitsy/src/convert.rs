//! The converter of odd widths: a column whose runs have only the widths that the specification keeps.
use crate::answers::Words;
use crate::exported::{self, convert_word};
use crate::{Refused, Sign};

/// A column that was converted.
#[must_use]
#[derive(Debug, Clone, PartialEq, Eq)]
#[non_exhaustive]
pub struct Converted {
    /// The new column: the same rows.
    pub bytes: Vec<u8>,
    /// How many runs were altered.
    pub altered: usize,
}

/// Converts a column: each direct or packed delta run of a width that the specification does not keep (all
/// but 1, 2, 4, 8, 16, 24, 32, 40, 48, 56 and 64 bits) becomes the writer's run of the same rows at the next
/// width that it does; every other run is copied, byte for byte.
///
/// ```
/// use menakovitsy::{convert, Column, Sign};
///
/// // Five rows of 300; then 1, 2, 3, in 3 bits each.
/// let column = [0x0A, 0x01, 0x2C, 0x44, 0x02, 0x29, 0x80];
/// let converted = convert(&column, Sign::Unsigned)?;
/// assert_eq!(converted.altered, 1);
/// // The same rows, in 4 bits each.
/// assert_eq!(converted.bytes, [0x0A, 0x01, 0x2C, 0x46, 0x02, 0x12, 0x30]);
/// assert_eq!(convert(&converted.bytes, Sign::Unsigned)?.altered, 0);
/// # Ok::<(), menakovitsy::Refused>(())
/// ```
///
/// # Errors
///
/// A column that cannot be read whole is refused as [`read_stream`](crate::read_stream) refuses it.
pub fn convert(input: &[u8], sign: Sign) -> Result<Converted, Refused> {
    // The next width that is kept is less than twice as wide, and nothing else grows.
    let mut bytes = vec![0; input.len().saturating_mul(2)];
    let mut words = Words::lent(0, 0);
    // SAFETY: each pointer is of a live slice of this length, those that are written are lent
    // exclusively, and the function is proved to stay within them and to keep none.
    words.number = unsafe {
        exported::orc_convert(
            input.as_ptr(),
            input.len(),
            sign.flag(),
            bytes.as_mut_ptr(),
            bytes.len(),
            words.lent.as_mut_ptr(),
            words.lent.len(),
        )
    };
    words.accepted(Some(convert_word::CUT))?;
    let [altered, written] =
        [convert_word::ALTERED, convert_word::BYTES].map(|place| words.lent[place] as usize);
    // Whatever library is linked, no more was written than was lent.
    if written > bytes.len() {
        return Err(words.unknown());
    }
    bytes.truncate(written);
    bytes.shrink_to_fit();
    Ok(Converted { bytes, altered })
}
