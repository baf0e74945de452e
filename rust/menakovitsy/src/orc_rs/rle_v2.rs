//! Integers.
use std::io::{self, Read};
use std::iter::FusedIterator;

use super::error::{Error, Result};
use super::feed::Feed;
use super::least;
use crate::ahead::{Iter, Source};
use crate::{read_run, ByteOffset, Refusal, Refused, Sign, MAX_ROWS};

/// An iterator over the rows of an integer column, which it reads from `R`.
///
/// It takes one run at a time, when the run's first row is asked for, and no byte after it.
///
/// ```
/// use menakovitsy::orc_rs::RleReaderV2;
/// use menakovitsy::{ByteOffset, Refusal};
///
/// // Five rows of 300; then 1, 2, 3.
/// let bytes: &[u8] = &[0x0A, 0x01, 0x2C, 0x46, 0x02, 0x12, 0x30];
/// let rows: Vec<i64> = RleReaderV2::try_new(bytes, false, true).collect::<Result<_, _>>()?;
/// assert_eq!(rows, [300, 300, 300, 300, 300, 1, 2, 3]);
///
/// // Cut in the second run: the rows before it, then the refusal, and then nothing more.
/// let mut cut = RleReaderV2::try_new(&bytes[..6], false, true).skip(5);
/// let refused = cut.next().expect("an error").unwrap_err().refused().expect("a refusal");
/// assert_eq!((refused.refusal, refused.at), (Refusal::RowsCut, Some(ByteOffset(3))));
/// assert!(cut.next().is_none());
/// # Ok::<(), menakovitsy::orc_rs::Error>(())
/// ```
#[must_use]
pub struct RleReaderV2<R>(Iter<Runs<R>, i64>);

impl<R: Read> RleReaderV2<R> {
    /// The rows of a column, zigzag if they are signed. A row that is not signed and is 2^63 or more shows as
    /// the `i64` with the same bits; [`UnsignedRleReaderV2`] has it as it is.
    ///
    /// `_skip_corrupt` changes nothing: a run that is damaged is refused, and none is skipped.
    pub fn try_new(reader: R, signed: bool, _skip_corrupt: bool) -> Self {
        let sign = if signed { Sign::Signed } else { Sign::Unsigned };
        RleReaderV2(Iter::new(Runs { feed: Feed::new(reader), sign, ended: false }))
    }

    /// Reads the next run, if all rows of the one before it were handed out: whether there are rows. At the
    /// end of the column there are none, which is an error if `ignore_eof` is true.
    ///
    /// # Errors
    ///
    /// The run is refused, or the reader failed. Both end the rows.
    pub fn read_values(&mut self, ignore_eof: bool) -> Result<bool> {
        if !self.0.rest().is_empty() {
            return Ok(true);
        }
        match self.0.read() {
            Some(read) => read.map(|()| true),
            None if ignore_eof => Err(io::Error::from(io::ErrorKind::UnexpectedEof).into()),
            None => Ok(false),
        }
    }
}

impl<R: Read> Iterator for RleReaderV2<R> {
    type Item = Result<i64>;

    #[inline]
    fn next(&mut self) -> Option<Self::Item> {
        self.0.next()
    }

    fn size_hint(&self) -> (usize, Option<usize>) {
        (self.0.rest().len(), None)
    }

    #[inline]
    fn fold<B, F: FnMut(B, Self::Item) -> B>(self, start: B, f: F) -> B {
        self.0.fold(start, f)
    }
}

impl<R: Read> FusedIterator for RleReaderV2<R> {}

/// An iterator over the rows of an integer column that are not signed: see [`RleReaderV2`].
#[must_use]
pub struct UnsignedRleReaderV2<R>(RleReaderV2<R>);

impl<R: Read> UnsignedRleReaderV2<R> {
    /// The rows of a column. `skip_corrupt` changes nothing: see [`RleReaderV2::try_new`].
    pub fn try_new(reader: R, skip_corrupt: bool) -> Self {
        UnsignedRleReaderV2(RleReaderV2::try_new(reader, false, skip_corrupt))
    }
}

/// The row whose bits an `i64` has.
#[inline]
fn unsigned(row: Result<i64>) -> Result<u64> {
    row.map(|row| row as u64)
}

impl<R: Read> Iterator for UnsignedRleReaderV2<R> {
    type Item = Result<u64>;

    #[inline]
    fn next(&mut self) -> Option<Self::Item> {
        self.0.next().map(unsigned)
    }

    fn size_hint(&self) -> (usize, Option<usize>) {
        self.0.size_hint()
    }

    #[inline]
    fn fold<B, F: FnMut(B, Self::Item) -> B>(self, start: B, mut f: F) -> B {
        self.0.fold(start, |folded, row| f(folded, unsigned(row)))
    }
}

impl<R: Read> FusedIterator for UnsignedRleReaderV2<R> {}

/// The runs of a reader, one at a time.
struct Runs<R> {
    feed: Feed<R>,
    sign: Sign,
    ended: bool,
}

impl<R: Read> Runs<R> {
    /// Reads a run: whether there is one. `least` says how much to read at a time, and nothing of what the
    /// bytes mean.
    fn read_run(&mut self, least: fn(&[u8]) -> usize, rows: &mut Vec<i64>) -> Result<bool> {
        self.feed.read(least)?;
        let mut lent = least::rows(self.feed.bytes());
        loop {
            rows.resize(lent, 0);
            match read_run(self.feed.bytes(), ByteOffset(0), self.sign, rows) {
                Ok(Some(run)) if run.rows.0 > 0 => {
                    self.feed.pass(run.bytes.0);
                    rows.truncate(run.rows.0);
                    return Ok(true);
                }
                // No run has no rows: it is not the proved library's.
                Ok(Some(_)) => return Err(Refused::nowhere(Refusal::Unknown(0)).into()),
                // Of a run that is cut, more may be there to be read.
                Ok(None) if self.feed.read_more()? => {}
                Ok(None) => return Ok(false),
                Err(refused) if refused.refusal == Refusal::TooFewPlaces && lent < MAX_ROWS => {
                    lent = MAX_ROWS;
                }
                Err(refused) if refused.refusal.is_cut() && self.feed.read_more()? => {}
                Err(refused) => return Err(self.feed.placed(refused).into()),
            }
        }
    }
}

impl<R: Read> Source for Runs<R> {
    type Value = i64;
    type Error = Error;

    fn read(&mut self, rows: &mut Vec<i64>) -> Option<Result<()>> {
        let read = if self.ended { Ok(false) } else { self.read_run(least::run, rows) };
        // After an error, too, nothing more is taken for a run.
        self.ended = !matches!(read, Ok(true));
        match read {
            Ok(true) => Some(Ok(())),
            Ok(false) => None,
            Err(error) => Some(Err(error)),
        }
    }
}

#[cfg(test)]
mod tests {
    use super::*;

    /// How much is read at a time changes no row and no refusal, however wrong it is.
    #[test]
    fn how_much_is_read_is_not_what_it_means() {
        // Five rows of 300; 1, 2, 3; 101, 102, 183, 104 (patched); 10, 12, 14, 16, 18; then a run that is cut.
        let column = [
            &[0x0A, 0x01, 0x2C, 0x46, 0x02, 0x12, 0x30][..],
            &[0x86, 0x03, 0x03, 0x21, 0x64, 0x12, 0x34, 0x94],
            &[0xC0, 0x04, 0x0A, 0x04, 0xC6, 0x03, 0x64, 0x05],
        ]
        .concat();
        let rows = [300, 300, 300, 300, 300, 1, 2, 3, 101, 102, 183, 104, 10, 12, 14, 16, 18];
        let hints: [fn(&[u8]) -> usize; 5] =
            [least::run, |_| 0, |_| 1, |held| held.len().min(100) + 7, |_| 9_999];
        for least in hints {
            let mut runs = Runs { feed: Feed::new(&column[..]), sign: Sign::Unsigned, ended: false };
            let (mut given, mut run) = (Vec::new(), Vec::new());
            let error = loop {
                match runs.read_run(least, &mut run) {
                    Ok(true) => given.append(&mut run),
                    Ok(false) => panic!("the column is cut"),
                    Err(error) => break error,
                }
            };
            assert_eq!(given, rows);
            let refused = error.refused().unwrap();
            assert_eq!((refused.refusal, refused.at), (Refusal::RowsCut, Some(ByteOffset(19))));
            assert_eq!(refused.cut, Some(ByteOffset(23)));
        }
    }
}
