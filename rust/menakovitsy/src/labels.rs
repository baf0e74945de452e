//! The names of rows: a dictionary, and the columns that say which of its names a row has.
mod column;

use crate::answers::Words;
use crate::exported::{self, case};
use crate::{Refused, RowNumber};

pub use column::{label_column, LabelIter, Labels, LabelsRefused};

/// A dictionary of names, and the columns that say what each row is called, all of them borrowed: the
/// block may live longer than the columns, and the names are parts of it.
#[derive(Debug, Clone, Copy)]
pub struct Dictionary<'a, 'c> {
    /// The names, one after another.
    pub block: &'a [u8],
    /// How many bytes each name has.
    pub lengths: &'c [i64],
    /// The number of its name, for each row that has one, and for no other.
    pub numbers: &'c [i64],
    /// For each row whether it has a name: any byte but 0 means one.
    pub flags: &'c [u8],
}

/// What a row is called.
#[must_use]
#[derive(Debug, Clone, Copy, PartialEq, Eq, Hash)]
pub enum Label<'a> {
    /// A name: a part of the dictionary's block.
    Name(&'a [u8]),
    /// The row has no name: the caller's own fallback, whole.
    Fallback(&'a [u8]),
}

impl<'a> Label<'a> {
    /// The bytes, whichever they are of.
    #[must_use]
    pub fn bytes(self) -> &'a [u8] {
        match self {
            Label::Name(bytes) | Label::Fallback(bytes) => bytes,
        }
    }
}

/// What a row is called: its name in the dictionary, or the fallback if it has none. Nothing is
/// copied. For many rows of one column use [`Labels`], which takes all in one pass.
///
/// ```
/// use menakovitsy::{label, Dictionary, Label, Refusal, RowNumber};
///
/// let stems =
///     Dictionary { block: b"drumsvocals", lengths: &[5, 6], numbers: &[1, 0], flags: &[1, 0, 1] };
/// assert_eq!(label(stems, RowNumber(0), b"unnamed")?, Label::Name(b"vocals"));
/// assert_eq!(label(stems, RowNumber(1), b"unnamed")?, Label::Fallback(b"unnamed"));
/// assert_eq!(label(stems, RowNumber(2), b"unnamed")?, Label::Name(b"drums"));
/// assert_eq!(label(stems, RowNumber(3), b"unnamed").unwrap_err().refusal, Refusal::NoSuchRow);
/// # Ok::<(), menakovitsy::Refused>(())
/// ```
///
/// # Errors
///
/// In this order: [`NoSuchRow`](crate::Refusal::NoSuchRow) if the row has no flag;
/// [`LengthsNotTheBlock`](crate::Refusal::LengthsNotTheBlock), for rows without a name too;
/// [`NoSuchName`](crate::Refusal::NoSuchName), by the asked row's number alone.
pub fn label<'a>(
    dictionary: Dictionary<'a, '_>,
    row: RowNumber,
    fallback: &'a [u8],
) -> Result<Label<'a>, Refused> {
    let Dictionary { block, lengths, numbers, flags } = dictionary;
    let mut words = Words::lent(0, 0);
    // SAFETY: each pointer is of a live slice of this length, the words are lent exclusively, and the
    // function is proved to stay within them and to keep none.
    words.number = unsafe {
        exported::orc_label(
            lengths.as_ptr(),
            lengths.len(),
            numbers.as_ptr(),
            numbers.len(),
            flags.as_ptr(),
            flags.len(),
            block.as_ptr(),
            block.len(),
            fallback.as_ptr(),
            fallback.len(),
            row.0 as u64,
            words.lent.as_mut_ptr(),
            words.lent.len(),
        )
    };
    // Whatever library is linked, the part is within the block, or is the fallback.
    let part = match words.label()? {
        (case::READ, start, size) => block.get(start..).and_then(|rest| rest.get(..size)).map(Label::Name),
        (_, _, size) => (size == fallback.len()).then_some(Label::Fallback(fallback)),
    };
    part.ok_or_else(|| words.unknown())
}
