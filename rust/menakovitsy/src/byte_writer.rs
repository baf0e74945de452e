//! Flags and bytes, written as byte runs: in the fewest bytes that any byte runs have.
use crate::answers::Words;
use crate::exported::{self, bytes_written_word};
use crate::{ByteOffset, Refused, RowNumber, Run};

/// The most literals of a byte run, which has one byte more than these.
const MOST_LITERALS: usize = 128;

/// What a flag to be written may be: a `bool`, or a byte, of which any but 0 is true, so that what
/// [`read_booleans`](crate::read_booleans) and [`read_flags`](crate::read_flags) gave can be written as it is.
pub trait Flag: sealed::Flag {}

impl Flag for bool {}
impl Flag for u8 {}

mod sealed {
    /// Its flags as bytes, 0 if one is false.
    pub trait Flag: Sized {
        fn bytes(flags: &[Self]) -> &[u8];
    }

    impl Flag for u8 {
        fn bytes(flags: &[u8]) -> &[u8] {
            flags
        }
    }

    impl Flag for bool {
        fn bytes(flags: &[bool]) -> &[u8] {
            // SAFETY: a `bool` is one byte, 0 or 1, and the slice is as long and lives as long.
            unsafe { std::slice::from_raw_parts(flags.as_ptr().cast(), flags.len()) }
        }
    }
}

/// The length of a buffer that always holds a column of this number of flags: a byte for every eight flags begun,
/// and one more for every 128 of these begun. (A slice's length will do for the flags.)
///
/// ```
/// use menakovitsy::boolean_room;
///
/// assert_eq!([0, 1, 8, 9, 1024, 1025].map(boolean_room), [0, 2, 2, 3, 129, 131]);
/// ```
#[must_use]
pub fn boolean_room(flags: impl Into<RowNumber>) -> usize {
    byte_room(flags.into().0.div_ceil(8))
}

/// The length of a buffer that always holds the byte runs of this number of bytes: as many, and one more for every
/// 128 begun.
#[must_use]
pub fn byte_room(bytes: impl Into<ByteOffset>) -> usize {
    let ByteOffset(bytes) = bytes.into();
    bytes.saturating_add(bytes.div_ceil(MOST_LITERALS))
}

/// How many bytes [`write_booleans`] writes for these flags, exactly. Nothing is written.
///
/// [`boolean_room`] is known without looking at the flags; this is for whoever stores the length first, or
/// wants no byte too many.
#[must_use]
pub fn size_of_booleans<F: Flag>(flags: &[F]) -> usize {
    let flags = F::bytes(flags);
    // SAFETY: the pointer is of a live slice of this length, which the function is proved to stay within.
    let size = unsafe { exported::orc_size_of_booleans(flags.as_ptr(), flags.len()) };
    // Whatever library is linked, the runs are no longer than the longest that are written.
    usize::try_from(size).unwrap_or(usize::MAX).min(boolean_room(flags.len()))
}

/// How many bytes [`write_bytes`] writes for these bytes, exactly. Nothing is written.
#[must_use]
pub fn size_of_bytes(bytes: &[u8]) -> usize {
    // SAFETY: as in `size_of_booleans`.
    let size = unsafe { exported::orc_size_of_bytes(bytes.as_ptr(), bytes.len()) };
    usize::try_from(size).unwrap_or(usize::MAX).min(byte_room(bytes.len()))
}

/// Writes a flag column into the first bytes of `out`: the flags of a boolean column, or which rows of any
/// column are present (ORC's PRESENT). The flags are packed eight to a byte, the highest bit first, the bits
/// after the last 0, and the bytes are written as byte runs. [`Run::bytes`] says how many bytes were written:
/// no byte runs that stand for the same bytes have fewer.
///
/// Nothing is written for no flags.
///
/// ```
/// use menakovitsy::{boolean_room, write_booleans, Flags, RowNumber};
///
/// // 32 windows, the first 24 of them normalised.
/// let normalised: Vec<bool> = (0..32).map(|window| window < 24).collect();
/// let mut column = vec![0; boolean_room(normalised.len())];
/// let written = write_booleans(&normalised, &mut column)?;
/// column.truncate(written.bytes.0);
/// assert_eq!(column, [0x00, 0xFF, 0xFF, 0x00]);
/// assert_eq!(Flags::new(&column).next(RowNumber(32))?, normalised);
///
/// // Bytes are flags, too: any but 0 is true.
/// let mut column = [0; 2];
/// let written = write_booleans(&[2u8, 0, 9], &mut column)?;
/// assert_eq!((written.rows, column), (RowNumber(3), [0xFF, 0b1010_0000]));
/// # Ok::<(), menakovitsy::Refused>(())
/// ```
///
/// # Errors
///
/// [`TooFewPlaces`](crate::Refusal::TooFewPlaces), every byte being as it was. With [`boolean_room`] lent there is
/// no error.
pub fn write_booleans<F: Flag>(flags: &[F], out: &mut [u8]) -> Result<Run, Refused> {
    let flags = F::bytes(flags);
    let mut words = Words::lent(flags.len(), out.len());
    // SAFETY: each pointer is of a live slice of this length, those that are written are lent exclusively,
    // and the function is proved to stay within them and to keep none.
    words.number = unsafe {
        exported::orc_write_booleans(
            flags.as_ptr(),
            flags.len(),
            out.as_mut_ptr(),
            out.len(),
            words.lent.as_mut_ptr(),
            words.lent.len(),
        )
    };
    // Whatever library is linked, all flags were taken, and there were the bytes for them.
    match words.one_run()? {
        run if run.rows == RowNumber(flags.len()) => Ok(run),
        _ => Err(words.unknown()),
    }
}

/// Writes bytes as byte runs into the first places of `out`, as tinyint columns have them: how many were
/// written. No byte runs that stand for the same bytes have fewer.
///
/// Nothing is written for no bytes.
///
/// ```
/// use menakovitsy::{byte_room, size_of_bytes, write_bytes, ByteOffset, Bytes};
///
/// let levels = [7, 7, 7, 7, 1, 2];
/// let mut column = vec![0; byte_room(levels.len())];
/// let written = write_bytes(&levels, &mut column)?;
/// assert_eq!(written, ByteOffset(size_of_bytes(&levels)));
/// column.truncate(written.0);
/// // A repeat of four, and two literals.
/// assert_eq!(column, [0x01, 7, 0xFE, 1, 2]);
/// assert_eq!(Bytes::new(&column).next(ByteOffset(6))?, levels);
/// # Ok::<(), menakovitsy::Refused>(())
/// ```
///
/// # Errors
///
/// [`TooFewPlaces`](crate::Refusal::TooFewPlaces), every byte being as it was. With [`byte_room`] lent there is no
/// error.
pub fn write_bytes(bytes: &[u8], out: &mut [u8]) -> Result<ByteOffset, Refused> {
    let mut words = Words::lent(0, 0);
    // SAFETY: as in `write_booleans`.
    words.number = unsafe {
        exported::orc_write_bytes(
            bytes.as_ptr(),
            bytes.len(),
            out.as_mut_ptr(),
            out.len(),
            words.lent.as_mut_ptr(),
            words.lent.len(),
        )
    };
    words.accepted(None)?;
    let [taken, written] = [bytes_written_word::TAKEN, bytes_written_word::SIZE]
        .map(|place| words.lent.get(place).map_or(0, |word| *word as usize));
    // Whatever library is linked, all bytes were taken, and there were the places for the runs.
    if taken != bytes.len() || written > out.len() {
        return Err(words.unknown());
    }
    Ok(ByteOffset(written))
}
