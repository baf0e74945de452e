//! The index beside an integer column: where each run begins, in rows and in bytes.
use std::ops::Range;

use crate::answers::Words;
use crate::exported::{self, entry_word, index_word, rows_from_word};
use crate::{ByteOffset, Column, Refusal, Refused, RowNumber, RowPosition, Sign, MAX_ROWS};

/// That many bytes a run are reckoned with at first: a direct run of 512 rows of 8 bits has a few more. A
/// short column pays little for as many places as runs of one bit need, which have 66.
const LIKELY_BYTES: usize = 512;
const FEW_BYTES: usize = 64;
const FEW_PLACES: usize = 256;

/// A column that begins with this many short repeats is expected to go on like that, up to this many places. A guess
/// that is too low costs a walk over all runs.
const REPEATS: usize = 16;
const REPEAT_PLACES: usize = 1 << 20;

/// The fewest bytes that a run has: a short repeat of one byte.
const LEAST_BYTES: usize = 2;

/// An index beside an integer column, an entry a run, in three columns that it owns: the number of the
/// run's first row, the byte that it begins at, and how many rows it has.
///
/// It is not trusted: each call compares it with the column that it is used with, without reading rows,
/// and refuses it ([`WrongIndex`](Refusal::WrongIndex)) unless its entries are exactly that column's. So
/// one that was stored beside a file ([`columns`](Index::columns), [`of_columns`](Index::of_columns)) may
/// be used as it comes.
///
/// ```
/// use menakovitsy::{ByteOffset, Column, Index, Refusal, RowNumber, Sign};
///
/// // Five rows of 300; 1, 2, 3; then 10, 12, 14, 16, 18.
/// let column = [0x0A, 0x01, 0x2C, 0x46, 0x02, 0x12, 0x30, 0xC0, 0x04, 0x0A, 0x04];
/// let index = Index::build(&column)?;
/// assert_eq!(index.columns(), [&[0, 5, 8][..], &[0, 3, 7], &[5, 3, 5]]);
///
/// let entry = index.look_up(&column, RowNumber(9))?;
/// assert_eq!((entry.first, entry.at, entry.rows), (RowNumber(8), ByteOffset(7), RowNumber(5)));
/// assert_eq!(index.rows_from(&column, RowNumber(7), Sign::Unsigned)?, [3, 10, 12, 14, 16, 18]);
/// let rows = Column::new(&column, Sign::Unsigned);
/// assert_eq!(index.rows(rows, RowNumber(7)..RowNumber(10))?, [3, 10, 12]);
///
/// // The index of another column.
/// let other = index.look_up(&column[..7], RowNumber(0)).unwrap_err();
/// assert_eq!(other.refusal, Refusal::WrongIndex);
/// # Ok::<(), menakovitsy::Refused>(())
/// ```
#[derive(Debug, Clone, PartialEq, Eq, Hash, Default)]
pub struct Index {
    first: Vec<u64>,
    at: Vec<u64>,
    counts: Vec<u64>,
}

/// An entry of an index: a run.
#[must_use]
#[derive(Debug, Clone, Copy, PartialEq, Eq, Hash)]
#[non_exhaustive]
pub struct Entry {
    /// The number of its first row.
    pub first: RowNumber,
    /// The byte that it begins at.
    pub at: ByteOffset,
    /// How many rows it has.
    pub rows: RowNumber,
}

/// A place for each run, and an eighth more, of a column that goes on as it begins, if it begins with short repeats.
fn places_for_repeats(input: &[u8]) -> usize {
    let mut at = 0;
    for _ in 0..REPEATS {
        match input.get(at) {
            Some(header @ 0..64) => at += 2 + usize::from(header / 8),
            _ => return 0,
        }
    }
    let runs = input.len() / at * REPEATS;
    (runs + runs / 8).min(REPEAT_PLACES)
}

impl Index {
    /// The index of a column, from its first byte to its last. No row is read.
    ///
    /// # Errors
    ///
    /// A column that cannot be read whole has none: its own refusal, as [`read_stream`](crate::read_stream) gives
    /// it.
    pub fn build(input: &[u8]) -> Result<Self, Refused> {
        let most = input.len() / LEAST_BYTES;
        let few = (input.len() / FEW_BYTES).min(FEW_PLACES);
        let likely = input.len() / LIKELY_BYTES + few;
        let mut places = likely.max(places_for_repeats(input)).saturating_add(16).min(most);
        loop {
            match Self::built(input, places) {
                Err(refused) if refused.refusal == Refusal::TooFewPlaces && places < most => {
                    places = places.saturating_mul(16).min(most);
                }
                answer => return answer,
            }
        }
    }

    /// The same, with that many places for the entries.
    fn built(input: &[u8], places: usize) -> Result<Self, Refused> {
        let [mut first, mut at, mut counts] = [vec![0; places], vec![0; places], vec![0; places]];
        let mut words = Words::lent(0, 0);
        // SAFETY: here and below: each pointer is of a live slice of this length, those that are written
        // are lent exclusively, and the function is proved to stay within them and to keep none.
        words.number = unsafe {
            exported::orc_build_index(
                input.as_ptr(),
                input.len(),
                first.as_mut_ptr(),
                first.len(),
                at.as_mut_ptr(),
                at.len(),
                counts.as_mut_ptr(),
                counts.len(),
                words.lent.as_mut_ptr(),
                words.lent.len(),
            )
        };
        words.accepted(Some(index_word::CUT))?;
        // Whatever library is linked, there are no more than were lent.
        let entries = words.lent[index_word::ENTRIES] as usize;
        if entries > places {
            return Err(words.unknown());
        }
        for column in [&mut first, &mut at, &mut counts] {
            column.truncate(entries);
            column.shrink_to_fit();
        }
        Ok(Index { first, at, counts })
    }

    /// An index of these columns: first rows, byte offsets, row counts. Whether it is the index of a
    /// column is seen where it is used with one.
    #[must_use]
    pub fn of_columns(first: Vec<u64>, at: Vec<u64>, counts: Vec<u64>) -> Self {
        Index { first, at, counts }
    }

    /// Its columns: first rows, byte offsets, row counts.
    #[must_use]
    pub fn columns(&self) -> [&[u64]; 3] {
        [&self.first, &self.at, &self.counts]
    }

    /// How many rows its entries have together, as they stand.
    #[must_use]
    pub fn row_count(&self) -> RowNumber {
        match (self.first.last(), self.counts.last()) {
            (Some(first), Some(count)) => RowNumber(first.saturating_add(*count) as usize),
            _ => RowNumber(0),
        }
    }

    /// The entry that holds a row.
    ///
    /// # Errors
    ///
    /// In this order: [`WrongIndex`](Refusal::WrongIndex) unless this is the column's index (a
    /// column that is refused has none); [`NoSuchRow`](Refusal::NoSuchRow).
    pub fn look_up(&self, input: &[u8], row: RowNumber) -> Result<Entry, Refused> {
        let mut words = Words::lent(0, 0);
        // SAFETY: as in `built`.
        words.number = unsafe {
            exported::orc_look_up(
                input.as_ptr(),
                input.len(),
                self.first.as_ptr(),
                self.first.len(),
                self.at.as_ptr(),
                self.at.len(),
                self.counts.as_ptr(),
                self.counts.len(),
                row.0 as u64,
                words.lent.as_mut_ptr(),
                words.lent.len(),
            )
        };
        words.accepted(None)?;
        let word = |place: usize| words.lent.get(place).map_or(0, |word| *word as usize);
        Ok(Entry {
            first: RowNumber(word(entry_word::FIRST)),
            at: ByteOffset(word(entry_word::AT)),
            rows: RowNumber(word(entry_word::ROWS)),
        })
    }

    /// Reads all rows of a column from a row on into the first places of `rows`: how many they are. The
    /// runs before the one that holds the row are passed over.
    ///
    /// # Errors
    ///
    /// In this order: those of [`look_up`](Index::look_up); [`TooFewPlaces`](Refusal::TooFewPlaces), with no place
    /// touched.
    pub fn read_from(
        &self,
        input: &[u8],
        row: RowNumber,
        sign: Sign,
        rows: &mut [i64],
    ) -> Result<RowNumber, Refused> {
        let mut words = Words::lent(0, 0);
        // SAFETY: as in `built`.
        words.number = unsafe {
            exported::orc_read_from(
                input.as_ptr(),
                input.len(),
                self.first.as_ptr(),
                self.first.len(),
                self.at.as_ptr(),
                self.at.len(),
                self.counts.as_ptr(),
                self.counts.len(),
                row.0 as u64,
                sign.flag(),
                rows.as_mut_ptr(),
                rows.len(),
                words.lent.as_mut_ptr(),
                words.lent.len(),
            )
        };
        words.accepted(None)?;
        let given = words.lent[rows_from_word::ROWS] as usize;
        if given > rows.len() {
            return Err(words.unknown());
        }
        Ok(RowNumber(given))
    }

    /// All rows of a column from a row on.
    ///
    /// # Errors
    ///
    /// Those of [`look_up`](Index::look_up).
    pub fn rows_from(&self, input: &[u8], row: RowNumber, sign: Sign) -> Result<Vec<i64>, Refused> {
        // Only a right index is asked how many there are; and a run has no more than 512, whatever one says.
        let entry = self.look_up(input, row)?;
        let held = self.counts.iter().zip(&self.first).filter(|(_, first)| **first >= entry.first.0 as u64);
        let all: usize = held.map(|(count, _)| (*count as usize).min(MAX_ROWS)).sum();
        let mut rows = vec![0; all.saturating_sub(row.0.saturating_sub(entry.first.0))];
        let given = self.read_from(input, row, sign, &mut rows)?;
        rows.truncate(given.0);
        Ok(rows)
    }

    /// The position of a row in a column, for [`Column::read_at`] and
    /// [`Batches::starting_at`](crate::Batches::starting_at). The column's bytes are those from its start on.
    ///
    /// # Errors
    ///
    /// Those of [`look_up`](Index::look_up).
    pub fn position(&self, column: Column, row: RowNumber) -> Result<RowPosition, Refused> {
        let (input, _) = column.runs_and_sign();
        let Entry { first, at, .. } = self.look_up(input, row)?;
        let skip = RowNumber(row.0.saturating_sub(first.0));
        Ok(RowPosition { run: column.start().run + at, skip })
    }

    /// The rows of a range of a column. Only the runs that hold them are decoded. A range that ends where it
    /// begins, or before, has no rows.
    ///
    /// # Errors
    ///
    /// In this order: [`WrongIndex`](Refusal::WrongIndex) unless this is the column's index;
    /// [`NoSuchRow`](Refusal::NoSuchRow) if the range begins or ends after the column's last row.
    pub fn rows(&self, column: Column, range: Range<RowNumber>) -> Result<Vec<i64>, Refused> {
        let Range { start, end } = range;
        let position = match self.position(column, start) {
            // The row after the last begins a range of no rows.
            Err(refused) if refused.refusal == Refusal::NoSuchRow && start == self.row_count() => {
                return if end <= start { Ok(Vec::new()) } else { Err(refused) };
            }
            answer => answer?,
        };
        // The index is the column's: so its count of rows is, too.
        if end > self.row_count() {
            return Err(Refused::nowhere(Refusal::NoSuchRow));
        }
        let mut rows = vec![0; end.0.saturating_sub(start.0)];
        let given = column.read_at(position, &mut rows)?.map_or(RowNumber(0), |batch| batch.rows);
        // Whatever library is linked, these are all of them.
        match given == RowNumber(rows.len()) {
            true => Ok(rows),
            false => Err(Refused::nowhere(Refusal::Unknown(0))),
        }
    }
}
