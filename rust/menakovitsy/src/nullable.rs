//! Columns with rows that are missing: flags that say which rows are present, and the rows of those.
use crate::answers::Words;
use crate::exported::{self, spread_word};
use crate::{Column, FlagPosition, Flags, Refusal, Refused, RowNumber, RowPosition};

/// Lays the rows that are present at their places: place i gets the next row if flag i is not 0, and `fill`
/// otherwise. How many rows the column has: as many as there are flags. Places after them keep their
/// content.
///
/// ```
/// use menakovitsy::{spread, Refusal, RowNumber};
///
/// let mut column = [0; 4];
/// assert_eq!(spread(&[1, 0, 1, 0], &[7, 8], -1, &mut column)?, RowNumber(4));
/// assert_eq!(column, [7, -1, 8, -1]);
/// let refused = spread(&[1, 0, 1, 1], &[7, 8], -1, &mut column).unwrap_err();
/// assert_eq!(refused.refusal, Refusal::NotLinedUp);
/// # Ok::<(), menakovitsy::Refused>(())
/// ```
///
/// # Errors
///
/// In this order: [`NotLinedUp`](Refusal::NotLinedUp) if there are not exactly as many rows as flags that are not 0;
/// [`TooFewPlaces`](Refusal::TooFewPlaces). A refused call changes no place.
pub fn spread(flags: &[u8], rows: &[i64], fill: i64, out: &mut [i64]) -> Result<RowNumber, Refused> {
    let mut words = Words::lent(0, 0);
    // SAFETY: each pointer is of a live slice of this length, those that are written are lent exclusively,
    // and the function is proved to stay within them and to keep none.
    words.number = unsafe {
        exported::orc_spread(
            flags.as_ptr(),
            flags.len(),
            rows.as_ptr(),
            rows.len(),
            fill,
            out.as_mut_ptr(),
            out.len(),
            words.lent.as_mut_ptr(),
            words.lent.len(),
        )
    };
    words.accepted(None)?;
    // Whatever library is linked, a row a flag was laid, and there were the places for it.
    let given = words.lent[spread_word::ROWS] as usize;
    if given != flags.len() || given > out.len() {
        return Err(words.unknown());
    }
    Ok(RowNumber(given))
}

/// A reader of a column with rows that are missing. It reads the flags and the rows that are present in
/// step, batch by batch, so that no row comes at another's place.
///
/// A batch is given whole or not at all. If a call is refused, no place has changed, and the reader is where
/// it was: ask for fewer rows to have those before a damaged run.
///
/// ```
/// use menakovitsy::{Column, Flags, Nullable, RowNumber, Sign};
///
/// // 24 flags: 1111 0001, 1111 0001, 1110 0000. The column has 21 rows, and 13 of them are present.
/// let flags = [0xFD, 0xF1, 0xF1, 0xE0];
/// // Five rows of 300; 1, 2, 3; then 10, 12, 14, 16, 18.
/// let rows = [0x0A, 0x01, 0x2C, 0x46, 0x02, 0x12, 0x30, 0xC0, 0x04, 0x0A, 0x04];
/// let mut column = Nullable::new(Flags::new(&flags), Column::new(&rows, Sign::Unsigned));
///
/// let some = Some(300);
/// assert_eq!(column.next(RowNumber(8))?, [some, some, some, some, None, None, None, some]);
/// let mut filled = [0; 5];
/// column.read_into(-1, &mut filled)?;
/// assert_eq!(filled, [1, 2, 3, 10, -1]);
/// assert_eq!(column.next(RowNumber(8))?, [None, None, Some(12), Some(14), Some(16), Some(18), None, None]);
/// // These were all: no row may be left that no flag was for.
/// column.finish()?;
/// # Ok::<(), menakovitsy::Refused>(())
/// ```
#[must_use]
#[derive(Debug, Clone)]
pub struct Nullable<'a> {
    flags: Flags<'a>,
    column: Column<'a>,
    position: RowPosition,
    /// The flags and the rows of the last batch: kept, so that a batch allocates only what it gives.
    set: Vec<u8>,
    present: Vec<i64>,
}

impl<'a> Nullable<'a> {
    /// The column of these flags and of the rows that are present, each from where it starts.
    pub fn new(flags: Flags<'a>, column: Column<'a>) -> Self {
        Nullable { flags, position: column.start(), column, set: Vec::new(), present: Vec::new() }
    }

    /// The same column from a row on: where its flag is, and where the next row that is present is. A row
    /// index has both, and [`positions`](Nullable::positions) gives both.
    pub fn starting_at(self, flags: FlagPosition, rows: RowPosition) -> Self {
        Nullable { flags: self.flags.starting_at(flags), position: rows, ..self }
    }

    /// Where the next flag is, and where the next row that is present is.
    #[must_use]
    pub fn positions(&self) -> (FlagPosition, RowPosition) {
        (self.flags.position(), self.position)
    }

    /// The next `n` rows, nothing for each that is missing.
    ///
    /// # Errors
    ///
    /// The flags' as [`Flags`] has them; the rows' own;
    /// [`NotLinedUp`](Refusal::NotLinedUp) if the rows end before a flag that is set.
    pub fn next(&mut self, n: RowNumber) -> Result<Vec<Option<i64>>, Refused> {
        let (flags, position) = self.read(n)?;
        let mut rows = vec![0; self.set.len()];
        spread(&self.set, &self.present, 0, &mut rows)?;
        (self.flags, self.position) = (flags, position);
        Ok(self.set.iter().zip(rows).map(|(flag, row)| (*flag != 0).then_some(row)).collect())
    }

    /// Reads the next rows, one a place, and `fill` for each that is missing.
    ///
    /// # Errors
    ///
    /// Those of [`next`](Nullable::next).
    pub fn read_into(&mut self, fill: i64, rows: &mut [i64]) -> Result<(), Refused> {
        let (flags, position) = self.read(RowNumber(rows.len()))?;
        spread(&self.set, &self.present, fill, rows)?;
        (self.flags, self.position) = (flags, position);
        Ok(())
    }

    /// All rows of the column were read, and none is left.
    ///
    /// # Errors
    ///
    /// [`NotLinedUp`](Refusal::NotLinedUp) if a row is left that no flag said is present, and the refusal of a run
    /// that is damaged.
    pub fn finish(self) -> Result<(), Refused> {
        match self.column.read_at(self.position, &mut [])? {
            None => Ok(()),
            Some(_) => Err(Refused::nowhere(Refusal::NotLinedUp)),
        }
    }

    /// Reads `n` flags, and a row for each that is set. Where both go on.
    fn read(&mut self, n: RowNumber) -> Result<(Flags<'a>, RowPosition), Refused> {
        let mut flags = self.flags.clone();
        flags.next_into(n, &mut self.set)?;
        let present = self.set.iter().filter(|flag| **flag != 0).count();
        self.present.clear();
        self.present.resize(present, 0);
        let (mut rest, mut position) = (&mut self.present[..], self.position);
        while !rest.is_empty() {
            match self.column.read_at(position, rest)? {
                Some(batch) => {
                    position = batch.next;
                    rest = rest.get_mut(batch.rows.0..).unwrap_or_default();
                }
                None => return Err(Refused::nowhere(Refusal::NotLinedUp)),
            }
        }
        Ok((flags, position))
    }
}
