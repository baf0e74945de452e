//! A column's rows, one by one.
use std::iter::FusedIterator;

use crate::ahead::{Iter, Source};
use crate::{Column, Refusal, Refused, Stream, StreamRefused};

/// How many places there are at first, so that a column of a few rows costs little.
const FEW: usize = 16;

/// How many there are after them: the runs that fit are read by one call.
const MANY: usize = 1_024;

/// An iterator over a column's rows: [`Column::rows`]. It reads some hundred rows ahead, into places that it
/// makes once.
///
/// A refusal comes after the rows of the runs before it; it is given once, and ends them. What goes through all
/// rows by itself (`for_each`, `fold`, `count`) is faster than a `for` loop, and [`Column::read_into`] is the
/// fastest.
#[must_use]
#[derive(Debug, Clone)]
pub struct Rows<'a>(Iter<Runs<'a>, i64>);

impl<'a> Rows<'a> {
    pub(crate) fn new(column: Column<'a>) -> Self {
        Rows(Iter::new(Runs { column, read: Stream::default(), ended: false, refused: None }))
    }
}

#[inline]
fn unboxed(row: Result<i64, Box<StreamRefused>>) -> Result<i64, StreamRefused> {
    row.map_err(|refused| *refused)
}

impl Iterator for Rows<'_> {
    type Item = Result<i64, StreamRefused>;

    #[inline]
    fn next(&mut self) -> Option<Self::Item> {
        self.0.next().map(unboxed)
    }

    fn size_hint(&self) -> (usize, Option<usize>) {
        (self.0.rest().len(), None)
    }

    #[inline]
    fn fold<B, F: FnMut(B, Self::Item) -> B>(self, start: B, mut f: F) -> B {
        self.0.fold(start, |folded, row| f(folded, unboxed(row)))
    }
}

impl FusedIterator for Rows<'_> {}

/// The runs of a column, read as many at a time as there are places for.
#[derive(Debug, Clone)]
struct Runs<'a> {
    column: Column<'a>,
    /// Those that were read.
    read: Stream,
    ended: bool,
    /// Why they ended, until it is handed out.
    refused: Option<Box<StreamRefused>>,
}

impl Source for Runs<'_> {
    type Value = i64;
    type Error = Box<StreamRefused>;

    fn read(&mut self, rows: &mut Vec<i64>) -> Option<Result<(), Box<StreamRefused>>> {
        let mut lent = if self.read.rows.0 == 0 { FEW } else { MANY };
        while !self.ended {
            rows.resize(lent, 0);
            let (read, refused) = match self.column.read_after(self.read.bytes, rows) {
                Ok(read) => (read, None),
                Err(StreamRefused { refused, before }) => (before, Some(refused)),
            };
            self.read = self.read.then(read);
            match refused {
                // The next run is for the next call, or it has more rows than a few.
                Some(Refused { refusal: Refusal::TooFewPlaces, .. }) if read.bytes.0 > 0 || lent < MANY => {
                    lent = MANY;
                }
                refused => {
                    self.ended = true;
                    self.refused =
                        refused.map(|refused| Box::new(StreamRefused { refused, before: self.read }));
                }
            }
            if read.rows.0 > 0 {
                rows.truncate(read.rows.0);
                return Some(Ok(()));
            }
        }
        self.refused.take().map(Err)
    }
}
