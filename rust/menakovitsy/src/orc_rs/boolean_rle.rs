//! Flags.
use std::io::Read;
use std::iter::FusedIterator;
use std::mem;

use super::error::{Error, Result};
use super::feed::Feed;
use super::least;
use crate::ahead::{Iter, Source};
use crate::{read_flags, ByteOffset, FlagPosition, Refusal, Refused, RowNumber};

/// An iterator over the flags of a flag column, which it reads from `R`: as many as were asked for.
///
/// It takes one byte run at a time, when the run's first flag is asked for, and no byte after it. What that run
/// has after the last flag that was asked for is padding, and dropped.
///
/// ```
/// use menakovitsy::orc_rs::BooleanIter;
///
/// // 24 flags that are true, and 8 that are not; then the next column.
/// let bytes: &[u8] = &[0x00, 0xFF, 0xFF, 0x00, 0x02, 0x01];
/// let mut flags = BooleanIter::new(bytes, 32);
/// let set = flags.by_ref().filter(|flag| matches!(flag, Ok(true))).count();
/// assert_eq!(set, 24);
/// assert_eq!(flags.into_inner(), [0x02, 0x01]);
/// ```
#[must_use]
pub struct BooleanIter<R>(Iter<ByteRuns<R>, u8>);

impl<R: Read> BooleanIter<R> {
    /// The first `length` flags of a column.
    pub fn new(reader: R, length: usize) -> Self {
        BooleanIter(Iter::new(ByteRuns { feed: Feed::new(reader), wanted: length }))
    }

    /// The reader, which stands after the last byte run of which a flag was handed out.
    pub fn into_inner(self) -> R {
        self.0.into_source().feed.into_inner()
    }
}

#[inline]
fn flag(byte: Result<u8>) -> Result<bool> {
    byte.map(|byte| byte != 0)
}

impl<R: Read> Iterator for BooleanIter<R> {
    type Item = Result<bool>;

    #[inline]
    fn next(&mut self) -> Option<Self::Item> {
        self.0.next().map(flag)
    }

    /// At least those that are held: the column may be cut after them. At most those that are left of `length`.
    fn size_hint(&self) -> (usize, Option<usize>) {
        let (held, wanted) = (self.0.rest().len(), self.0.source().map_or(0, |runs| runs.wanted));
        (held, held.checked_add(wanted))
    }

    #[inline]
    fn fold<B, F: FnMut(B, Self::Item) -> B>(self, start: B, mut f: F) -> B {
        self.0.fold(start, |folded, byte| f(folded, flag(byte)))
    }
}

impl<R: Read> FusedIterator for BooleanIter<R> {}

/// The byte runs of a reader, one at a time.
struct ByteRuns<R> {
    feed: Feed<R>,
    /// How many flags are still to be read.
    wanted: usize,
}

impl<R: Read> ByteRuns<R> {
    /// Reads a byte run, of which at most that many flags are wanted: how many of them are not in it.
    fn read_run(&mut self, wanted: usize, flags: &mut Vec<u8>) -> Result<usize> {
        self.feed.read(least::byte_run)?;
        let start = FlagPosition::default();
        loop {
            let bytes = self.feed.bytes();
            let end = FlagPosition { run: ByteOffset(bytes.len()), ..start };
            let count = least::flags(bytes).min(wanted);
            flags.resize(count, 0);
            match read_flags(bytes, start, RowNumber(count), flags) {
                // All flags of the run, or all that are wanted.
                Ok(next) if next == end || count == wanted => {
                    self.feed.pass(end.run.0);
                    return Ok(wanted - count);
                }
                Ok(_) => return Err(Refused::nowhere(Refusal::Unknown(0)).into()),
                Err(refused) if refused.refusal.is_cut() && self.feed.read_more()? => {}
                Err(refused) => return Err(self.feed.placed(refused).into()),
            }
        }
    }
}

impl<R: Read> Source for ByteRuns<R> {
    type Value = u8;
    type Error = Error;

    fn read(&mut self, flags: &mut Vec<u8>) -> Option<Result<()>> {
        // After an error none is wanted any more.
        let wanted = mem::take(&mut self.wanted);
        if wanted == 0 {
            return None;
        }
        Some(self.read_run(wanted, flags).map(|wanted| self.wanted = wanted))
    }
}
