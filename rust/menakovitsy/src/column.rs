//! A column of integer rows: all at once, in batches, by runs, or by rows.
use std::fmt;

use crate::{read_rows, read_run, read_stream, MAX_ROWS};
use crate::{Batch, Batches, ByteOffset, Refusal, Refused, RowNumber, RowPosition};
use crate::{Rows, Run, Sign, Stream, StreamRefused};

/// The bytes of an integer column, from a position on, and whether its rows are signed.
///
/// ```
/// use menakovitsy::{ByteOffset, Column, Refusal, RowNumber, Sign};
///
/// // Five rows of 300; then 1, 2, 3.
/// let bytes = [0x0A, 0x01, 0x2C, 0x46, 0x02, 0x12, 0x30];
/// let column = Column::new(&bytes, Sign::Unsigned);
///
/// // All at once, into places of the caller's.
/// let mut rows = [0; 8];
/// assert_eq!(column.read_into(&mut rows)?.rows, RowNumber(8));
/// assert_eq!(rows, [300, 300, 300, 300, 300, 1, 2, 3]);
///
/// // Row by row.
/// assert_eq!(column.rows().sum::<Result<i64, _>>()?, 1506);
///
/// // Run by run: where it begins, in bytes and in rows.
/// let mut runs = column.runs();
/// while let Some(run) = runs.next_run() {
///     let run = run?;
///     println!("byte {}, row {}, {}: {:?}", run.at, run.first, run.run.kind, run.rows);
/// }
///
/// // A column that is cut is refused, and never taken for a shorter one.
/// let cut = Column::new(&bytes[..5], Sign::Unsigned).read_into(&mut rows).unwrap_err();
/// assert_eq!((cut.refused.refusal, cut.refused.at), (Refusal::RowsCut, Some(ByteOffset(3))));
/// assert_eq!(cut.refused.cut, Some(ByteOffset(5)));
/// assert_eq!((cut.before.rows, cut.before.last.map(|run| run.width)), (RowNumber(5), Some(16)));
/// # Ok::<(), menakovitsy::StreamRefused>(())
/// ```
#[derive(Clone, Copy, PartialEq, Eq)]
pub struct Column<'a> {
    bytes: &'a [u8],
    at: ByteOffset,
    sign: Sign,
}

impl<'a> Column<'a> {
    /// The runs of these bytes, from the first byte on.
    #[must_use]
    pub fn new(bytes: &'a [u8], sign: Sign) -> Self {
        Column { bytes, at: ByteOffset(0), sign }
    }

    /// The same column from a byte on, which must be a run's first.
    #[must_use]
    pub fn starting_at(self, at: ByteOffset) -> Self {
        Column { at, ..self }
    }

    /// Reads all rows to the end of the bytes into `rows`: [`read_stream`].
    ///
    /// # Errors
    ///
    /// The refusal of the first run that is refused. The rows of the runs before it stand in the first places.
    pub fn read_into(&self, rows: &mut [i64]) -> Result<Stream, StreamRefused> {
        read_stream(self.bytes, self.at, self.sign, rows)
    }

    /// Reads all rows to the end of the bytes, and adds them to `rows`, which grows as it needs to. How many were
    /// added.
    ///
    /// ```
    /// use menakovitsy::{Column, Refusal, RowNumber, Sign};
    ///
    /// // Five rows of 300; then 1, 2, 3.
    /// let bytes = [0x0A, 0x01, 0x2C, 0x46, 0x02, 0x12, 0x30];
    /// let mut rows = vec![7];
    /// assert_eq!(Column::new(&bytes, Sign::Unsigned).read_to_end(&mut rows)?, RowNumber(8));
    /// assert_eq!(rows, [7, 300, 300, 300, 300, 300, 1, 2, 3]);
    ///
    /// // The last two bytes are lost: the rows before them are kept.
    /// let mut rows = Vec::new();
    /// let refused = Column::new(&bytes[..5], Sign::Unsigned).read_to_end(&mut rows).unwrap_err();
    /// assert_eq!((refused.refused.refusal, refused.before.rows), (Refusal::RowsCut, RowNumber(5)));
    /// assert_eq!(rows, [300; 5]);
    /// # Ok::<(), menakovitsy::StreamRefused>(())
    /// ```
    ///
    /// # Errors
    ///
    /// The refusal of the first run that is refused. The rows of the runs before it were added to `rows`, and
    /// are counted in [`StreamRefused::before`].
    pub fn read_to_end(&self, rows: &mut Vec<i64>) -> Result<RowNumber, StreamRefused> {
        let held = rows.len();
        let mut read = Stream::default();
        loop {
            // At least a run's more, and twice as many as before.
            let filled = held + read.rows.0;
            rows.resize(filled + read.rows.0.max(MAX_ROWS), 0);
            let places = rows.get_mut(filled..).unwrap_or_default();
            let answer = read_stream(self.bytes, self.at + read.bytes, self.sign, places);
            let (Ok(more) | Err(StreamRefused { before: more, .. })) = answer;
            read = read.then(more);
            let refused = answer.err().map(|stream| stream.refused);
            if refused.is_some_and(|refused| refused.refusal == Refusal::TooFewPlaces) && more.rows.0 > 0 {
                continue;
            }
            rows.truncate(held + read.rows.0);
            return refused.map_or(Ok(read.rows), |refused| Err(StreamRefused { refused, before: read }));
        }
    }

    /// All rows, in a list of their own.
    ///
    /// # Errors
    ///
    /// The refusal of the first run that is refused. No row is given then: [`read_to_end`](Column::read_to_end)
    /// keeps those before it.
    pub fn to_vec(&self) -> Result<Vec<i64>, StreamRefused> {
        let mut rows = Vec::new();
        self.read_to_end(&mut rows)?;
        Ok(rows)
    }

    /// Reads the rows from a position on into `rows`, as many as there are places; nothing at the end:
    /// [`read_rows`]. The position counts from the first of the column's bytes, wherever the column starts.
    ///
    /// ```
    /// use menakovitsy::{ByteOffset, Column, RowNumber, RowPosition, Sign};
    ///
    /// // Five rows of 300; 1, 2, 3; then 10, 12, 14, 16, 18.
    /// let bytes = [0x0A, 0x01, 0x2C, 0x46, 0x02, 0x12, 0x30, 0xC0, 0x04, 0x0A, 0x04];
    /// let column = Column::new(&bytes, Sign::Unsigned);
    ///
    /// // A row index says: two rows after the first of the run at byte 3.
    /// let position = RowPosition { run: ByteOffset(3), skip: RowNumber(2) };
    /// let mut rows = [0; 4];
    /// let batch = column.read_at(position, &mut rows)?.expect("there are rows");
    /// assert_eq!((batch.rows, rows), (RowNumber(4), [3, 10, 12, 14]));
    ///
    /// // The rows after these: only two are left.
    /// let last = column.read_at(batch.next, &mut rows)?.expect("there are rows");
    /// assert_eq!((last.rows, &rows[..2]), (RowNumber(2), &[16, 18][..]));
    /// assert_eq!(column.read_at(last.next, &mut rows)?, None);
    /// # Ok::<(), menakovitsy::Refused>(())
    /// ```
    ///
    /// # Errors
    ///
    /// Those of [`read_rows`].
    pub fn read_at(&self, position: RowPosition, rows: &mut [i64]) -> Result<Option<Batch>, Refused> {
        read_rows(self.bytes, position, self.sign, rows)
    }

    /// The position of its first row.
    #[must_use]
    pub fn start(&self) -> RowPosition {
        RowPosition { run: self.at, skip: RowNumber(0) }
    }

    /// The rows in batches of `size` rows each, the last of as many as are left. (A size of 0 is taken as
    /// 1.)
    pub fn batches(&self, size: RowNumber) -> Batches<'a> {
        Batches::new(*self, size)
    }

    /// The same as [`read_into`](Column::read_into) after that many bytes of the column's runs.
    pub(crate) fn read_after(&self, passed: ByteOffset, rows: &mut [i64]) -> Result<Stream, StreamRefused> {
        read_stream(self.bytes, self.at + passed, self.sign, rows)
    }

    /// The bytes, all of them.
    pub(crate) fn bytes(&self) -> &'a [u8] {
        self.bytes
    }

    /// The bytes from its start on, and whether its rows are signed.
    pub(crate) fn runs_and_sign(&self) -> (&'a [u8], Sign) {
        (self.bytes.get(self.at.0..).unwrap_or_default(), self.sign)
    }

    /// The runs, one after another.
    pub fn runs(&self) -> Runs<'a> {
        Runs { column: *self, read: Stream::default(), ended: false, places: [0; MAX_ROWS] }
    }

    /// The rows, one after another: a refusal is given once, and ends them.
    #[inline]
    pub fn rows(&self) -> Rows<'a> {
        Rows::new(*self)
    }
}

impl<'a> IntoIterator for Column<'a> {
    type Item = Result<i64, StreamRefused>;
    type IntoIter = Rows<'a>;

    fn into_iter(self) -> Rows<'a> {
        self.rows()
    }
}

impl fmt::Debug for Column<'_> {
    fn fmt(&self, f: &mut fmt::Formatter) -> fmt::Result {
        let Column { bytes, at, sign } = self;
        write!(f, "Column({} bytes, from byte {at}, {sign:?})", bytes.len())
    }
}

/// A walk over a column's runs. It holds the places for one run, and allocates nothing; so each run
/// is lent until the next is asked for.
#[must_use]
#[derive(Debug, Clone)]
pub struct Runs<'a> {
    column: Column<'a>,
    read: Stream,
    ended: bool,
    places: [i64; MAX_ROWS],
}

/// A run of a column.
#[derive(Debug, Clone, Copy, PartialEq, Eq)]
#[non_exhaustive]
pub struct RunAt<'r> {
    /// The byte that the run begins at.
    pub at: ByteOffset,
    /// The number of its first row in the column.
    pub first: RowNumber,
    /// Its kind, width and counts.
    pub run: Run,
    /// Its rows.
    pub rows: &'r [i64],
}

impl Runs<'_> {
    /// The next run; nothing at the end. A refusal is given once, and ends the walk.
    ///
    /// # Errors
    ///
    /// The run's own refusal, with the runs before it.
    pub fn next_run(&mut self) -> Option<Result<RunAt<'_>, StreamRefused>> {
        if self.ended {
            return None;
        }
        let (at, first) = (self.position(), self.read.rows);
        let Column { bytes, sign, .. } = self.column;
        let refused = match read_run(bytes, at, sign, &mut self.places) {
            Ok(Some(run)) => match self.places.get(..run.rows.0) {
                Some(rows) if !rows.is_empty() && run.bytes.0 > 0 => {
                    self.read = self.read.and(run);
                    return Some(Ok(RunAt { at, first, run, rows }));
                }
                // Counts that no run has: not the proved library's.
                _ => Refused::nowhere(Refusal::Unknown(0)),
            },
            Ok(None) => {
                self.ended = true;
                return None;
            }
            Err(refused) => refused,
        };
        self.ended = true;
        Some(Err(StreamRefused { refused, before: self.read }))
    }

    /// The byte that the next run begins at; after a refusal, the refused run's.
    #[must_use]
    pub fn position(&self) -> ByteOffset {
        self.column.at + self.read.bytes
    }

    /// How many rows and bytes the runs have that were given, and the last of them.
    pub fn given(&self) -> Stream {
        self.read
    }
}
