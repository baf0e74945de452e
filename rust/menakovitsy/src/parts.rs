//! A column that arrives in parts: chunks of any size, as a network gives them.
use crate::answers::Words;
use crate::exported::{self, case, part_word, STATE_WORDS};
use crate::{ByteOffset, Refusal, Refused, Run, Sign, MAX_ROWS, MAX_RUN_BYTES};

/// A reader of one column's integer runs that is given the column's bytes in parts, and hands out one
/// run at a time. It holds the bytes of the one run that is unfinished and the places for one run, and
/// allocates nothing. However the bytes are cut, the runs and the refusal are those of the whole column.
///
/// A refusal other than [`TooFewPlaces`](Refusal::TooFewPlaces), which this reader never gives, is
/// repeated by every later call; nothing is taken by it, or after it.
///
/// ```
/// use menakovitsy::{PartReader, Sign};
///
/// let column = [0x0A, 0x01, 0x2C, 0x46, 0x02, 0x12, 0x30];
/// let mut reader = PartReader::new(Sign::Unsigned);
/// let mut rows: Vec<i64> = Vec::new();
/// for mut part in column.chunks(2) {
///     while let Some(run) = reader.next_run(&mut part)? {
///         println!("a run of {} rows starts at byte {}", run.rows.len(), run.at);
///         rows.extend(run.rows);
///     }
/// }
/// reader.close()?;
/// assert_eq!(rows, [300, 300, 300, 300, 300, 1, 2, 3]);
/// # Ok::<(), menakovitsy::Refused>(())
/// ```
#[must_use]
#[derive(Debug, Clone)]
pub struct PartReader {
    sign: Sign,
    state: [u64; STATE_WORDS],
    /// The last call's words: kept here, so that no call has to clear them first.
    words: Words,
    held: [u8; MAX_RUN_BYTES],
    places: [i64; MAX_ROWS],
}

/// A run that was handed out.
#[derive(Debug, Clone, Copy, PartialEq, Eq)]
#[non_exhaustive]
pub struct PartRun<'r> {
    /// The byte that the run begins at, counted from the first part, modulo 2^64.
    pub at: ByteOffset,
    /// Its kind, width and counts.
    pub run: Run,
    /// Its rows.
    pub rows: &'r [i64],
}

impl PartReader {
    /// A reader that has taken nothing.
    pub fn new(sign: Sign) -> Self {
        let mut state = [0; STATE_WORDS];
        // SAFETY: the words are lent exclusively, and the function is proved to stay within them. It
        // answers 0, since they are as many as a state has.
        unsafe { exported::orc_part_start(state.as_mut_ptr(), state.len()) };
        let words = Words::lent(MAX_ROWS, MAX_RUN_BYTES).reading();
        PartReader { sign, state, words, held: [0; MAX_RUN_BYTES], places: [0; MAX_ROWS] }
    }

    /// The next run. The part becomes what is left of it: all after the run's end, or, if no run ends
    /// in it, nothing. So ask again until there is no run, and then give the next part. After
    /// [`close`](Self::close) there is no run, and nothing is taken.
    ///
    /// # Errors
    ///
    /// The run's own refusal, as soon as no further byte can change it; and one that was given before, once more.
    // A run can be of three rows: inlined, the answer and what is left of the part stay in registers.
    #[inline]
    pub fn next_run(&mut self, part: &mut &[u8]) -> Result<Option<PartRun<'_>>, Refused> {
        let words = &mut self.words;
        // SAFETY: each pointer is of a live slice of this length, those that are written are lent
        // exclusively, and the function is proved to stay within them and to keep none.
        words.number = unsafe {
            exported::orc_part_take(
                self.state.as_mut_ptr(),
                self.state.len(),
                self.held.as_mut_ptr(),
                self.held.len(),
                part.as_ptr(),
                part.len(),
                self.sign.flag(),
                self.places.as_mut_ptr(),
                self.places.len(),
                words.lent.as_mut_ptr(),
                words.lent.len(),
            )
        };
        // Whatever library is linked, what is taken is of the part, and the rows are of the places.
        let Some(left) = part.get(words.part_word(part_word::TAKEN)..) else { return Err(words.unknown()) };
        match words.part_case() {
            Some(case::READ) => {
                let run = words.run();
                let rows = self.places.get(..run.rows.0).ok_or_else(unknown)?;
                *part = left;
                Ok(Some(PartRun { at: ByteOffset(words.part_word(part_word::START)), run, rows }))
            }
            Some(case::MORE | case::END) => {
                *part = left;
                Ok(None)
            }
            _ => Err(words.part_refused()),
        }
    }

    /// There are no more parts: the column has ended.
    ///
    /// # Errors
    ///
    /// The refusal of a run that is unfinished; and one that was given before, once more.
    pub fn close(&mut self) -> Result<(), Refused> {
        let words = &mut self.words;
        // SAFETY: as above.
        words.number = unsafe {
            exported::orc_part_close(
                self.state.as_mut_ptr(),
                self.state.len(),
                self.held.as_mut_ptr(),
                self.held.len(),
                self.sign.flag(),
                self.places.as_mut_ptr(),
                self.places.len(),
                words.lent.as_mut_ptr(),
                words.lent.len(),
            )
        };
        match words.part_case() {
            Some(case::END) => Ok(()),
            // A run at the closing call, or "more", is not the proved library's.
            Some(case::READ | case::MORE) => Err(unknown()),
            _ => Err(words.part_refused()),
        }
    }
}

#[cold]
fn unknown() -> Refused {
    Refused::nowhere(Refusal::Unknown(0))
}
