//! The calls into the static library: all of this crate's unsafe code.
use std::mem;

use crate::answers::Words;
use crate::exported;
use crate::{ByteOffset, Form, Refusal, Refused, RowNumber, Run, Sign, Stream, StreamRefused};

/// The version of the linked library's functions.
#[must_use]
pub fn library_version() -> u64 {
    // SAFETY: it takes nothing.
    unsafe { exported::orc_version() }
}

/// Reads the run that begins at byte `at` of `input` into `rows`; nothing if there are no bytes
/// from there on.
///
/// The run's rows stand in the first places and the others are as they were; if there is no run,
/// or it is refused, all are. Bytes after the run are not read. A position past the end is empty
/// input.
///
/// # Errors
///
/// Those of the format, 1 to 7 and 12 to 14; and [`TooFewPlaces`](Refusal::TooFewPlaces). [`MAX_ROWS`](crate::MAX_ROWS)
/// places hold any run.
pub fn read_run(input: &[u8], at: ByteOffset, sign: Sign, rows: &mut [i64]) -> Result<Option<Run>, Refused> {
    let mut words = Words::lent(rows.len(), input.len()).reading();
    // SAFETY: here and below: each pointer is of a live slice of this length, those that are written
    // are lent exclusively, and the function is proved to stay within them and to keep none.
    words.number = unsafe {
        exported::orc_read_run_at(
            input.as_ptr(),
            input.len(),
            at.0 as u64,
            sign.flag(),
            rows.as_mut_ptr(),
            rows.len(),
            words.lent.as_mut_ptr(),
            words.lent.len(),
        )
    };
    words.run_or_end()
}

/// Reads all runs from byte `at` of `input` to its end into `rows`, one after another. No bytes from the position on
/// are a whole stream of no rows.
///
/// # Errors
///
/// It stops at the first run that is refused, as [`read_run`] refuses it: the rows of the runs before it stand in
/// the first places and are counted in [`StreamRefused::before`], and the places after them are as they were.
pub fn read_stream(
    input: &[u8],
    at: ByteOffset,
    sign: Sign,
    rows: &mut [i64],
) -> Result<Stream, StreamRefused> {
    let mut words = Words::lent(rows.len(), input.len()).reading();
    // SAFETY: as in `read_run`.
    words.number = unsafe {
        exported::orc_read_stream(
            input.as_ptr(),
            input.len(),
            at.0 as u64,
            sign.flag(),
            rows.as_mut_ptr(),
            rows.len(),
            words.lent.as_mut_ptr(),
            words.lent.len(),
        )
    };
    words.stream()
}

/// Reads `n` booleans from byte `at` of `input` on, each as a byte of 0 or 1, into the first bytes
/// of `out`.
///
/// Byte runs are taken whole: [`Run::bytes`] counts all of the last one that is needed, also if not all of
/// its flags were asked for. So a call at the byte after it does not go on with the next flag: of
/// `00 FF 00 00`, 10 flags and then 10 more at byte 2 are ten that are true and ten that are not, though the
/// column's first 24 are true. To read a column in batches use [`Flags`](crate::Flags), which keeps the
/// position inside a run.
///
/// A flag column of 32 rows, the first 24 of them true:
///
/// ```
/// use menakovitsy::{read_booleans, ByteOffset, RowNumber};
///
/// let column = [0x00, 0xFF, 0xFF, 0x00];
/// let mut flags = [0; 32];
/// read_booleans(&column, ByteOffset(0), RowNumber(32), &mut flags)?;
/// assert_eq!((flags[23], flags[24]), (1, 0));
/// # Ok::<(), menakovitsy::Refused>(())
/// ```
///
/// # Errors
///
/// [`ValueCut`](Refusal::ValueCut) and [`RowsCut`](Refusal::RowsCut) if the byte runs end too early;
/// [`TooFewPlaces`](Refusal::TooFewPlaces). A refused call leaves every byte as it was.
pub fn read_booleans(input: &[u8], at: ByteOffset, n: RowNumber, out: &mut [u8]) -> Result<Run, Refused> {
    let mut words = Words::lent(out.len(), input.len()).reading();
    // SAFETY: as in `read_run`.
    words.number = unsafe {
        exported::orc_read_booleans(
            input.as_ptr(),
            input.len(),
            at.0 as u64,
            n.0 as u64,
            out.as_mut_ptr(),
            out.len(),
            words.lent.as_mut_ptr(),
            words.lent.len(),
        )
    };
    words.one_run()
}

/// The byte value of length `n` that begins at byte `at` of `input`, as a part of it.
///
/// ```
/// use menakovitsy::{byte_value, ByteOffset};
///
/// let labels = b"drumsvocals";
/// assert_eq!(byte_value(labels, ByteOffset(5), ByteOffset(6))?, b"vocals");
/// assert!(byte_value(labels, ByteOffset(5), ByteOffset(7)).is_err());
/// # Ok::<(), menakovitsy::Refused>(())
/// ```
///
/// # Errors
///
/// [`ValueCut`](Refusal::ValueCut) if there are fewer bytes from the position on.
pub fn byte_value(input: &[u8], at: ByteOffset, n: ByteOffset) -> Result<&[u8], Refused> {
    let mut words = Words::lent(n.0, input.len()).reading();
    // SAFETY: as in `read_run`.
    words.number = unsafe {
        exported::orc_byte_value(
            input.as_ptr(),
            input.len(),
            at.0 as u64,
            n.0 as u64,
            words.lent.as_mut_ptr(),
            words.lent.len(),
        )
    };
    let run = words.one_run()?;
    // Of no bytes, the position may be past the end, where no part begins.
    let part = input.get(at.0.min(input.len())..).and_then(|rest| rest.get(..run.bytes.0));
    part.ok_or_else(|| words.unknown())
}

/// Writes `rows` as one run of a form into the first bytes of `out`. The width is in bytes for a
/// short repeat, 1 to 8, and otherwise a width code, 0 to 31 (see [`narrowest_code`]); a fixed delta
/// has the code 0 only, a packed delta 1 to 31. Direct and packed delta runs are written at the widths that
/// the specification keeps alone: the codes 0, 1, 3, 7, 15, 23 and 27 to 31.
///
/// ```
/// use menakovitsy::{write_run, ByteOffset, Form, Sign};
///
/// let mut out = [0; 16];
/// let run = write_run(&[10, 12, 14, 16, 18], Sign::Unsigned, Form::FixedDelta, 0, &mut out)?;
/// assert_eq!(out[..run.bytes.0], [0xC0, 0x04, 0x0A, 0x04]);
/// # Ok::<(), menakovitsy::Refused>(())
/// ```
///
/// # Errors
///
/// In this order: [`RowCount`](Refusal::RowCount); [`NotTheForm`](Refusal::NotTheForm), also for
/// [`Form::Patched`], which wants a base ([`write_patched`](crate::write_patched)), and for a form that is unknown;
/// [`TooNarrow`](Refusal::TooNarrow); [`TooFewPlaces`](Refusal::TooFewPlaces). A refused call leaves every byte as
/// it was.
pub fn write_run(rows: &[i64], sign: Sign, form: Form, width: u8, out: &mut [u8]) -> Result<Run, Refused> {
    let mut words = Words::lent(rows.len(), out.len());
    // SAFETY: as in `read_run`.
    words.number = unsafe {
        exported::orc_write_run(
            rows.as_ptr(),
            rows.len(),
            sign.flag(),
            form.number(),
            u64::from(width),
            out.as_mut_ptr(),
            out.len(),
            words.lent.as_mut_ptr(),
            words.lent.len(),
        )
    };
    words.one_run()
}

/// The code of the narrowest width that holds a number, of those that the specification keeps: 0, 1, 3, 7, 15,
/// 23 or 27 to 31.
#[must_use]
pub fn narrowest_code(number: u64) -> u8 {
    // SAFETY: it takes a number.
    let code = unsafe { exported::orc_narrowest_code(number) };
    // The widest holds any number: so it stands for a code that is none.
    u8::try_from(code).unwrap_or(31)
}

/// How many rows and bytes a run has that was read as one number.
#[must_use]
#[derive(Debug, Clone, Copy, PartialEq, Eq, Hash)]
#[non_exhaustive]
pub struct Counts {
    /// How many rows were written, from the first place on.
    pub rows: RowNumber,
    /// How many bytes the run takes up: the next run begins there.
    pub bytes: ByteOffset,
}

/// Reads the run at the start of `input` into bytes, eight to a row, lowest first; nothing where
/// there are no bytes. A trailing part of fewer than eight bytes is no place, and keeps its content.
///
/// This is `orc_read_run`, which answers by one number: it gives no kind, no place and no cut field.
///
/// # Errors
///
/// The numbers of [`read_run`].
#[inline]
pub fn read_run_bytes(input: &[u8], sign: Sign, out: &mut [u8]) -> Result<Option<Counts>, Refusal> {
    // SAFETY: as in `read_run`.
    let packed = unsafe {
        exported::orc_read_run(input.as_ptr(), input.len(), out.as_mut_ptr(), out.len(), sign.flag())
    };
    unpack(packed)
}

/// What the one number of `orc_read_run` stands for: 0 no bytes, 1 to 14 a refusal, and otherwise
/// 65,536 times the bytes consumed, plus the rows.
///
/// # Errors
///
/// The refusal that the number is, and [`Unknown`](Refusal::Unknown) if it is none of these.
#[inline]
pub fn unpack(packed: u64) -> Result<Option<Counts>, Refusal> {
    if packed == 0 {
        return Ok(None);
    }
    let (rows, bytes) = ((packed % 65_536) as usize, (packed / 65_536) as usize);
    if bytes > 0 && rows > 0 && rows <= exported::MAX_ROWS {
        return Ok(Some(Counts { rows: RowNumber(rows), bytes: ByteOffset(bytes) }));
    }
    Err(Refusal::of_number(packed))
}

/// Positions and lengths cross as words of 64 bits.
const _: () = assert!(mem::size_of::<usize>() == mem::size_of::<u64>());
