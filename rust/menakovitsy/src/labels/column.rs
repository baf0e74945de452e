//! The names of all rows of a column, in one pass.
use std::error::Error;
use std::iter::FusedIterator;
use std::{fmt, io};

use super::Dictionary;
use crate::answers::Words;
use crate::exported::{self, labels_word};
use crate::{Refusal, Refused, RowNumber};

/// The names of all rows of a column. They are found in one pass, in time linear in the rows and in the
/// dictionary, and each is what [`label`](super::label) says of its row. The names are parts of the block:
/// nothing is copied.
///
/// ```
/// use menakovitsy::{Dictionary, Labels, RowNumber};
///
/// let stems =
///     Dictionary { block: b"drumsvocals", lengths: &[5, 6], numbers: &[1, 0], flags: &[1, 0, 1] };
/// let labels = Labels::new(stems)?;
/// let names: Vec<Option<&[u8]>> = labels.iter().collect();
/// assert_eq!(names, [Some(&b"vocals"[..]), None, Some(b"drums")]);
/// assert_eq!(labels.get(RowNumber(2)), Some(Some(&b"drums"[..])));
/// # Ok::<(), menakovitsy::LabelsRefused>(())
/// ```
#[derive(Debug, Clone, PartialEq, Eq)]
pub struct Labels<'a, 'c> {
    block: &'a [u8],
    flags: &'c [u8],
    /// Where each row's name begins, and how long it is.
    starts: Vec<u64>,
    sizes: Vec<u64>,
}

/// A column whose names are refused.
#[derive(Debug, Clone, Copy, PartialEq, Eq, Hash)]
#[non_exhaustive]
pub struct LabelsRefused {
    /// Why they are refused.
    pub refused: Refused,
    /// The first row that has no name of the dictionary, for [`NoSuchName`](Refusal::NoSuchName) and no other
    /// refusal.
    pub row: Option<RowNumber>,
}

impl<'a, 'c> Labels<'a, 'c> {
    /// The names of all rows that the dictionary has flags for. Numbers after those of the rows with a name are
    /// not looked at.
    ///
    /// # Errors
    ///
    /// In this order: [`LengthsNotTheBlock`](Refusal::LengthsNotTheBlock), also if there are no rows;
    /// [`NoSuchName`](Refusal::NoSuchName), with the first row that has a flag and no name.
    pub fn new(dictionary: Dictionary<'a, 'c>) -> Result<Self, LabelsRefused> {
        let Dictionary { block, lengths, flags, .. } = dictionary;
        let mut offsets = vec![0; lengths.len()];
        let (mut starts, mut sizes) = (vec![0; flags.len()], vec![0; flags.len()]);
        label_column(dictionary, &mut offsets, &mut starts, &mut sizes)?;
        // Whatever library is linked, each part is within the block.
        let within = |(start, size): (&u64, &u64)| part(block, *start, *size).is_some();
        match starts.iter().zip(&sizes).all(within) {
            true => Ok(Labels { block, flags, starts, sizes }),
            false => Err(Refused::nowhere(Refusal::Unknown(0)).into()),
        }
    }

    /// How many rows there are.
    #[must_use]
    pub fn rows(&self) -> RowNumber {
        RowNumber(self.flags.len())
    }

    /// The name of a row: `Some(None)` if it has none, and `None` if there is no such row.
    #[must_use]
    pub fn get(&self, row: RowNumber) -> Option<Option<&'a [u8]>> {
        let flag = self.flags.get(row.0)?;
        let name = part(self.block, *self.starts.get(row.0)?, *self.sizes.get(row.0)?);
        Some(name.filter(|_| *flag != 0))
    }

    /// The names of all rows in order, nothing for each that has none.
    pub fn iter(&self) -> LabelIter<'_, 'a, 'c> {
        LabelIter { labels: self, next: 0 }
    }
}

/// Where the name of each row is, into lists of the caller's: `offsets[j]` becomes the byte of the block where
/// name j begins; `starts[i]` and `sizes[i]` where the name of row i begins and how long it is, 0 and 0 if it
/// has none. How many rows there are; places after them keep their content.
///
/// # Errors
///
/// Those of [`Labels::new`], and then [`TooFewPlaces`](Refusal::TooFewPlaces) if `offsets` has fewer
/// places than there are lengths, or `starts` or `sizes` fewer than there are flags. A refused call changes no
/// place.
pub fn label_column(
    dictionary: Dictionary,
    offsets: &mut [u64],
    starts: &mut [u64],
    sizes: &mut [u64],
) -> Result<RowNumber, LabelsRefused> {
    let Dictionary { block, lengths, numbers, flags } = dictionary;
    let mut words = Words::lent(0, 0);
    // SAFETY: each pointer is of a live slice of this length, those that are written are lent exclusively,
    // and the function is proved to stay within them and to keep none.
    words.number = unsafe {
        exported::orc_label_column(
            flags.as_ptr(),
            flags.len(),
            numbers.as_ptr(),
            numbers.len(),
            lengths.as_ptr(),
            lengths.len(),
            block.len() as u64,
            offsets.as_mut_ptr(),
            offsets.len(),
            starts.as_mut_ptr(),
            starts.len(),
            sizes.as_mut_ptr(),
            sizes.len(),
            words.lent.as_mut_ptr(),
            words.lent.len(),
        )
    };
    words.accepted(None).map_err(|refused| LabelsRefused {
        refused,
        row: (refused.refusal == Refusal::NoSuchName)
            .then_some(RowNumber(words.lent[labels_word::REFUSED_ROW] as usize)),
    })?;
    // Whatever library is linked, a part a flag was written, and there were the places for it.
    let rows = words.lent[labels_word::ROWS] as usize;
    if rows != flags.len() || rows > starts.len().min(sizes.len()) {
        return Err(words.unknown().into());
    }
    Ok(RowNumber(rows))
}

impl From<Refused> for LabelsRefused {
    fn from(refused: Refused) -> Self {
        LabelsRefused { refused, row: None }
    }
}

/// The part of a block that begins at a byte and has a size.
#[inline]
fn part(block: &[u8], start: u64, size: u64) -> Option<&[u8]> {
    block.get(start as usize..)?.get(..size as usize)
}

/// The names of all rows in order: see [`Labels::iter`].
#[must_use]
#[derive(Debug, Clone)]
pub struct LabelIter<'l, 'a, 'c> {
    labels: &'l Labels<'a, 'c>,
    next: usize,
}

impl<'a> Iterator for LabelIter<'_, 'a, '_> {
    type Item = Option<&'a [u8]>;

    fn next(&mut self) -> Option<Self::Item> {
        let name = self.labels.get(RowNumber(self.next))?;
        self.next += 1;
        Some(name)
    }

    fn size_hint(&self) -> (usize, Option<usize>) {
        let left = self.labels.flags.len().saturating_sub(self.next);
        (left, Some(left))
    }
}

impl ExactSizeIterator for LabelIter<'_, '_, '_> {}

impl FusedIterator for LabelIter<'_, '_, '_> {}

impl<'l, 'a, 'c> IntoIterator for &'l Labels<'a, 'c> {
    type Item = Option<&'a [u8]>;
    type IntoIter = LabelIter<'l, 'a, 'c>;

    fn into_iter(self) -> Self::IntoIter {
        self.iter()
    }
}

impl fmt::Display for LabelsRefused {
    fn fmt(&self, f: &mut fmt::Formatter) -> fmt::Result {
        match self.row {
            Some(row) => write!(f, "at row {row}: {}", self.refused.refusal),
            None => self.refused.fmt(f),
        }
    }
}

impl Error for LabelsRefused {}

impl From<LabelsRefused> for Refused {
    fn from(labels: LabelsRefused) -> Self {
        labels.refused
    }
}

impl From<LabelsRefused> for io::Error {
    fn from(labels: LabelsRefused) -> Self {
        io::Error::new(labels.refused.refusal.io_kind(), labels)
    }
}
