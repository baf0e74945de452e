//! Flags in batches, from positions inside byte runs.
use crate::answers::Words;
use crate::exported::{self, flags_word};
use crate::{ByteOffset, Refused, RowNumber};

/// The most flags that a byte of a column stands for: a repeat has two bytes, and stands for 130.
const MOST_A_BYTE: usize = 8 * 65;

/// The position of a flag in a flag column, as ORC's row index holds it. The default is the column's first.
#[derive(Debug, Clone, Copy, PartialEq, Eq, Hash, Default)]
pub struct FlagPosition {
    /// The byte where a byte run begins, counted from the first byte of the input.
    pub run: ByteOffset,
    /// How many bytes to skip from there, of those that the runs stand for.
    pub bytes: ByteOffset,
    /// How many bits of the next byte to skip.
    pub bits: usize,
}

/// Reads the `n` flags after a position into the first bytes of `out`, each as 0 or 1: the position after
/// them.
///
/// # Errors
///
/// All or nothing. Refusals, in this order: those of [`read_booleans`](crate::read_booleans) for all that
/// is skipped and the `n` together; [`TooFewPlaces`](crate::Refusal::TooFewPlaces). A refused call changes
/// no byte.
pub fn read_flags(
    input: &[u8],
    position: FlagPosition,
    n: RowNumber,
    out: &mut [u8],
) -> Result<FlagPosition, Refused> {
    let mut words = Words::lent(0, 0).reading();
    // SAFETY: each pointer is of a live slice of this length, those that are written are lent exclusively,
    // and the function is proved to stay within them and to keep none.
    words.number = unsafe {
        exported::orc_read_flags(
            input.as_ptr(),
            input.len(),
            position.run.0 as u64,
            position.bytes.0 as u64,
            position.bits as u64,
            n.0 as u64,
            out.as_mut_ptr(),
            out.len(),
            words.lent.as_mut_ptr(),
            words.lent.len(),
        )
    };
    words.accepted(Some(flags_word::CUT))?;
    let [given, run, bytes, bits] =
        [flags_word::GIVEN, flags_word::NEXT_RUN, flags_word::NEXT_BYTES, flags_word::NEXT_BITS]
            .map(|place| words.lent.get(place).map_or(0, |word| *word as usize));
    // Whatever library is linked, it gave what was asked for, and had the places for it.
    if given != n.0 || given > out.len() {
        return Err(words.unknown());
    }
    Ok(FlagPosition { run: ByteOffset(run), bytes: ByteOffset(bytes), bits })
}

/// A reader of a flag column that keeps its position, so that each call goes on at the very flag where the
/// one before it stopped, also inside a byte.
///
/// ```
/// use menakovitsy::{Flags, RowNumber};
///
/// // Two runs of three bytes: 24 flags that are true, and 24 that are not.
/// let column = [0x00, 0xFF, 0x00, 0x00];
/// let mut flags = Flags::new(&column);
/// assert_eq!(flags.next(RowNumber(10))?, [true; 10]);
/// assert_eq!(flags.next(RowNumber(10))?, [true; 10]);
/// assert_eq!(flags.next(RowNumber(6))?, [true, true, true, true, false, false]);
///
/// // A reader that starts there goes on there.
/// let position = flags.position();
/// assert_eq!((position.run.0, position.bytes.0, position.bits), (2, 0, 2));
/// let mut later = Flags::new(&column).starting_at(position);
/// let mut rest = [7; 22];
/// later.read_into(&mut rest)?;
/// assert_eq!(rest, [0; 22]);
/// # Ok::<(), menakovitsy::Refused>(())
/// ```
#[must_use]
#[derive(Debug, Clone, PartialEq, Eq)]
pub struct Flags<'a> {
    bytes: &'a [u8],
    position: FlagPosition,
}

impl<'a> Flags<'a> {
    /// The flags of these bytes, from the first on.
    pub fn new(bytes: &'a [u8]) -> Self {
        Flags { bytes, position: FlagPosition::default() }
    }

    /// The same flags from a position on, which a row index gave, or [`position`](Flags::position).
    pub fn starting_at(self, position: FlagPosition) -> Self {
        Flags { position, ..self }
    }

    /// The position of the next flag.
    #[must_use]
    pub fn position(&self) -> FlagPosition {
        self.position
    }

    /// Reads the next flags, one a place, each as 0 or 1. All or nothing.
    ///
    /// # Errors
    ///
    /// If there are fewer flags than places, the call is refused as [`read_flags`] refuses it, no place has
    /// changed, and the reader is where it was.
    pub fn read_into(&mut self, flags: &mut [u8]) -> Result<(), Refused> {
        self.position = read_flags(self.bytes, self.position, RowNumber(flags.len()), flags)?;
        Ok(())
    }

    /// The next `n` flags. All or nothing.
    ///
    /// # Errors
    ///
    /// Those of [`read_into`](Flags::read_into).
    pub fn next(&mut self, n: RowNumber) -> Result<Vec<bool>, Refused> {
        let mut flags = Vec::new();
        self.next_into(n, &mut flags)?;
        Ok(flags.into_iter().map(|flag| flag != 0).collect())
    }

    /// The same in a list that is made as long as they are.
    pub(crate) fn next_into(&mut self, n: RowNumber, flags: &mut Vec<u8>) -> Result<(), Refused> {
        // Of more flags than the bytes can stand for, the refusal comes before the want of places.
        flags.resize(n.0.min(self.bytes.len().saturating_mul(MOST_A_BYTE)), 0);
        self.position = read_flags(self.bytes, self.position, n, flags)?;
        Ok(())
    }
}
