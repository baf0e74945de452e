//! Bytes in batches, from positions inside byte runs.
use crate::answers::Words;
use crate::exported::{self, bytes_word};
use crate::{ByteOffset, Refused};

/// The most bytes that a byte of a column stands for: a repeat has two, and stands for 130.
const MOST_A_BYTE: usize = 65;

/// The position of a byte in a column of byte runs, as ORC's row index holds it. The default is the first.
#[derive(Debug, Clone, Copy, PartialEq, Eq, Hash, Default)]
pub struct BytePosition {
    /// The byte where a byte run begins, counted from the first byte of the input.
    pub run: ByteOffset,
    /// How many bytes to skip from there, of those that the runs stand for.
    pub bytes: ByteOffset,
}

/// Reads the `n` bytes after a position, of those that byte runs stand for, into the first places of `out`:
/// the position after them. All or nothing.
///
/// # Errors
///
/// Those of [`read_flags`](crate::read_flags) for eight flags a byte.
pub fn read_bytes(
    input: &[u8],
    position: BytePosition,
    n: ByteOffset,
    out: &mut [u8],
) -> Result<BytePosition, Refused> {
    let mut words = Words::lent(0, 0).reading();
    // SAFETY: each pointer is of a live slice of this length, those that are written are lent exclusively,
    // and the function is proved to stay within them and to keep none.
    words.number = unsafe {
        exported::orc_read_bytes(
            input.as_ptr(),
            input.len(),
            position.run.0 as u64,
            position.bytes.0 as u64,
            n.0 as u64,
            out.as_mut_ptr(),
            out.len(),
            words.lent.as_mut_ptr(),
            words.lent.len(),
        )
    };
    words.accepted(Some(bytes_word::CUT))?;
    let [given, run, bytes] = [bytes_word::GIVEN, bytes_word::NEXT_RUN, bytes_word::NEXT_BYTES]
        .map(|place| words.lent.get(place).map_or(0, |word| *word as usize));
    // Whatever library is linked, it gave what was asked for, and had the places for it.
    if given != n.0 || given > out.len() {
        return Err(words.unknown());
    }
    Ok(BytePosition { run: ByteOffset(run), bytes: ByteOffset(bytes) })
}

/// A reader of a column of byte runs that keeps its position: tinyint columns, and flags packed eight to a
/// byte, as [`count_true`](crate::count_true) wants them.
///
/// ```
/// use menakovitsy::{count_true, ByteOffset, Bytes, RowNumber};
///
/// // A flag column of 32 rows: three bytes FF, and one 00.
/// let column = [0x00, 0xFF, 0xFF, 0x00];
/// let mut bytes = Bytes::new(&column);
/// assert_eq!(bytes.next(ByteOffset(2))?, [0xFF, 0xFF]);
/// assert_eq!(bytes.next(ByteOffset(2))?, [0xFF, 0x00]);
///
/// // How many of the 32 are true: count the bytes, not the column.
/// let packed = Bytes::new(&column).next(ByteOffset(4))?;
/// assert_eq!(count_true(&packed, RowNumber(32))?, RowNumber(24));
/// # Ok::<(), menakovitsy::Refused>(())
/// ```
#[must_use]
#[derive(Debug, Clone, PartialEq, Eq)]
pub struct Bytes<'a> {
    bytes: &'a [u8],
    position: BytePosition,
}

impl<'a> Bytes<'a> {
    /// What these byte runs stand for, from the first on.
    pub fn new(bytes: &'a [u8]) -> Self {
        Bytes { bytes, position: BytePosition::default() }
    }

    /// The same from a position on, which a row index gave, or [`position`](Bytes::position).
    pub fn starting_at(self, position: BytePosition) -> Self {
        Bytes { position, ..self }
    }

    /// The position of the next byte.
    #[must_use]
    pub fn position(&self) -> BytePosition {
        self.position
    }

    /// Reads the next bytes, one a place. All or nothing.
    ///
    /// # Errors
    ///
    /// If there are fewer bytes than places, the call is refused as [`read_bytes`] refuses it, no place has
    /// changed, and the reader is where it was.
    pub fn read_into(&mut self, bytes: &mut [u8]) -> Result<(), Refused> {
        self.position = read_bytes(self.bytes, self.position, ByteOffset(bytes.len()), bytes)?;
        Ok(())
    }

    /// The next `n` bytes. All or nothing.
    ///
    /// # Errors
    ///
    /// Those of [`read_into`](Bytes::read_into).
    pub fn next(&mut self, n: ByteOffset) -> Result<Vec<u8>, Refused> {
        // Of more bytes than the runs can stand for, the refusal comes before the want of places.
        let mut bytes = vec![0; n.0.min(self.bytes.len().saturating_mul(MOST_A_BYTE))];
        self.position = read_bytes(self.bytes, self.position, n, &mut bytes)?;
        Ok(bytes)
    }
}
