//! Rows in batches, from positions inside runs.
use std::iter::FusedIterator;

use crate::answers::Words;
use crate::exported::{self, batch_word};
use crate::{ByteOffset, Column, Refused, RowNumber, Sign, MAX_ROWS};

/// The fewest bytes that a run has, for the most rows that a column of some bytes can have.
const LEAST_BYTES: usize = 2;

/// The position of a row in an integer column, as ORC's row index holds it. It need not be plain: the rows
/// to skip may pass whole runs.
///
/// The default is the column's first row.
#[derive(Debug, Clone, Copy, PartialEq, Eq, Hash, Default)]
pub struct RowPosition {
    /// The byte where a run begins, counted from the first byte of the input.
    pub run: ByteOffset,
    /// How many rows to skip from there.
    pub skip: RowNumber,
}

/// Rows that were read, in the first places.
#[must_use]
#[derive(Debug, Clone, Copy, PartialEq, Eq, Hash)]
#[non_exhaustive]
pub struct Batch {
    /// How many rows there are.
    pub rows: RowNumber,
    /// The position of the row after them: its run, and fewer rows to skip than that run has. After the
    /// last row, the byte after the last run and 0.
    pub next: RowPosition,
}

/// Reads the rows from a position on into `rows`, as many as there are places; nothing at the column's end.
///
/// Fewer rows than places come before the column's end, and before a run that is refused: a damaged run
/// costs none of the rows before it. The call after that gives the end, or the refusal of that run. Runs
/// that are skipped are measured and not decoded. Places after the rows keep their content.
///
/// # Errors
///
/// The run's own refusal, and [`NoSuchRow`](crate::Refusal::NoSuchRow) if the position skips more rows
/// than there are. A refused call changes no place.
pub fn read_rows(
    input: &[u8],
    position: RowPosition,
    sign: Sign,
    rows: &mut [i64],
) -> Result<Option<Batch>, Refused> {
    let mut words = Words::lent(0, 0).reading();
    // SAFETY: each pointer is of a live slice of this length, those that are written are lent exclusively,
    // and the function is proved to stay within them and to keep none.
    words.number = unsafe {
        exported::orc_read_rows(
            input.as_ptr(),
            input.len(),
            position.run.0 as u64,
            position.skip.0 as u64,
            sign.flag(),
            rows.as_mut_ptr(),
            rows.len(),
            words.lent.as_mut_ptr(),
            words.lent.len(),
        )
    };
    if !words.accepted_or_end(batch_word::CUT)? {
        return Ok(None);
    }
    let [given, run, skip] = [batch_word::ROWS, batch_word::NEXT_RUN, batch_word::NEXT_SKIP]
        .map(|place| words.lent.get(place).map_or(0, |word| *word as usize));
    // Whatever library is linked, no more were given than there are places, and some if there are any.
    if given > rows.len() || given == 0 && !rows.is_empty() {
        return Err(words.unknown());
    }
    Ok(Some(Batch {
        rows: RowNumber(given),
        next: RowPosition { run: ByteOffset(run), skip: RowNumber(skip) },
    }))
}

/// A column's rows in batches of one size; only the last may have fewer, and one before a refusal.
///
/// As an iterator it gives each batch as a list of its own. [`next_batch`](Batches::next_batch) lends the
/// same places again and again, and allocates nothing.
///
/// ```
/// use menakovitsy::{Column, RowNumber, Sign};
///
/// // Five rows of 300; 1, 2, 3; then 10, 12, 14, 16, 18.
/// let bytes = [0x0A, 0x01, 0x2C, 0x46, 0x02, 0x12, 0x30, 0xC0, 0x04, 0x0A, 0x04];
/// let column = Column::new(&bytes, Sign::Unsigned);
/// let batches: Vec<Vec<i64>> = column.batches(RowNumber(6)).collect::<Result<_, _>>()?;
/// assert_eq!(batches, [vec![300, 300, 300, 300, 300, 1], vec![2, 3, 10, 12, 14, 16], vec![18]]);
///
/// // The same without a list a batch; and where each begins.
/// let mut batches = column.batches(RowNumber(6));
/// loop {
///     let position = batches.position();
///     let Some(rows) = batches.next_batch() else { break };
///     println!("byte {}, {} rows to skip: {:?}", position.run, position.skip, rows?);
/// }
/// # Ok::<(), menakovitsy::Refused>(())
/// ```
#[must_use]
#[derive(Debug, Clone)]
pub struct Batches<'a> {
    column: Column<'a>,
    size: usize,
    given: RowNumber,
    ended: bool,
    /// Rows that were read at one position by one call, and how many of them; of these how many were given.
    places: Vec<i64>,
    read_at: RowPosition,
    held: usize,
    handed: usize,
    /// Where the row after them is.
    next: RowPosition,
}

/// Small batches are read several at once, up to this many rows: a run is then decoded once for all the
/// batches that have rows of it.
const AHEAD: usize = 4_096;

impl<'a> Batches<'a> {
    pub(crate) fn new(column: Column<'a>, size: RowNumber) -> Self {
        // No more places than the column can have rows.
        let most = (column.bytes().len() / LEAST_BYTES).saturating_mul(MAX_ROWS);
        let size = size.0.min(most).max(1);
        let (given, start) = (RowNumber(0), column.start());
        let places = vec![0; size * (AHEAD / size).max(1)];
        Batches { column, size, given, ended: false, places, read_at: start, held: 0, handed: 0, next: start }
    }

    /// The same batches from a position on, which a row index gave, or [`position`](Batches::position).
    pub fn starting_at(self, position: RowPosition) -> Self {
        Batches { given: RowNumber(0), ended: false, held: 0, handed: 0, next: position, ..self }
    }

    /// The next batch; nothing at the end.
    ///
    /// # Errors
    ///
    /// Those of [`read_rows`]. A refusal is given once, and ends the batches; the rows before it were given.
    pub fn next_batch(&mut self) -> Option<Result<&[i64], Refused>> {
        if self.handed == self.held {
            match self.read()? {
                Ok(()) => {}
                Err(refused) => return Some(Err(refused)),
            }
        }
        // The places are a number of whole batches: so only the last rows before an end can be fewer.
        let rest = self.places.get(self.handed..self.held).unwrap_or_default();
        let batch = rest.get(..self.size).unwrap_or(rest);
        self.handed += batch.len();
        self.given += RowNumber(batch.len());
        Some(Ok(batch))
    }

    /// Reads on, into all places.
    fn read(&mut self) -> Option<Result<(), Refused>> {
        if self.ended {
            return None;
        }
        match self.column.read_at(self.next, &mut self.places) {
            Ok(Some(batch)) => {
                (self.read_at, self.next) = (self.next, batch.next);
                (self.handed, self.held) = (0, batch.rows.0);
                Some(Ok(()))
            }
            Ok(None) => {
                self.ended = true;
                None
            }
            Err(refused) => {
                self.ended = true;
                Some(Err(refused))
            }
        }
    }

    /// The position of the next batch's first row: batches that start there go on where these are. The rows
    /// to skip may pass whole runs.
    #[must_use]
    pub fn position(&self) -> RowPosition {
        if self.handed == self.held {
            return self.next;
        }
        let RowPosition { run, skip } = self.read_at;
        RowPosition { run, skip: skip + RowNumber(self.handed) }
    }

    /// How many rows were given.
    #[must_use]
    pub fn given(&self) -> RowNumber {
        self.given
    }
}

impl Iterator for Batches<'_> {
    type Item = Result<Vec<i64>, Refused>;

    fn next(&mut self) -> Option<Self::Item> {
        self.next_batch().map(|batch| batch.map(<[i64]>::to_vec))
    }
}

impl FusedIterator for Batches<'_> {}
