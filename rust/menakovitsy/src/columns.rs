//! Columns, written: cut into runs by the planner or by whoever proposes, checked, and written.
use crate::answers::Words;
use crate::exported::{self, case, check_word, column_word};
use crate::{ByteOffset, Form, Refused, RowNumber, Sign, MAX_ROWS};

/// A run that is proposed for some rows of a column.
#[derive(Debug, Clone, Copy, PartialEq, Eq, Hash, Default)]
pub struct Segment {
    /// The number of its first row.
    pub first: RowNumber,
    /// How many rows it has.
    pub rows: RowNumber,
    /// The form that it is written in. An unknown one is not accepted.
    pub form: Form,
    /// As [`write_run`](crate::write_run) has it: bytes of a short repeat, otherwise a code; and of a
    /// patched run the bits, as [`write_patched`](crate::write_patched) has them.
    pub width: u64,
    /// The base of a patched run; of the other forms it is not looked at.
    pub base: i64,
}

/// Runs that are proposed for a column, in five columns that it owns: first rows, rows, forms, widths and
/// bases (as the bits of the `i64`).
///
/// It is not trusted: [`write_proposed`] checks it, so that one that was stored, or made up, may be used
/// as it comes.
#[derive(Debug, Clone, PartialEq, Eq, Hash, Default)]
pub struct Proposal {
    columns: [Vec<u64>; 5],
}

impl Proposal {
    /// A proposal of these columns: first rows, rows, forms, widths, bases. With unequal lengths it is
    /// accepted for no column.
    #[must_use]
    pub fn of_columns(columns: [Vec<u64>; 5]) -> Self {
        Proposal { columns }
    }

    /// Its columns: first rows, rows, forms, widths, bases.
    #[must_use]
    pub fn columns(&self) -> [&[u64]; 5] {
        self.columns.each_ref().map(Vec::as_slice)
    }

    /// Its segments, in order: as many as the shortest column has.
    pub fn segments(&self) -> impl Iterator<Item = Segment> + '_ {
        let [first, rows, forms, widths, bases] = self.columns();
        let places = first.iter().zip(rows).zip(forms).zip(widths).zip(bases);
        places.map(|((((first, rows), form), width), base)| Segment {
            first: RowNumber(*first as usize),
            rows: RowNumber(*rows as usize),
            form: Form::of_number(*form),
            width: *width,
            base: *base as i64,
        })
    }
}

impl FromIterator<Segment> for Proposal {
    fn from_iter<T: IntoIterator<Item = Segment>>(segments: T) -> Self {
        let mut columns: [Vec<u64>; 5] = Default::default();
        for Segment { first, rows, form, width, base } in segments {
            let numbers = [first.0 as u64, rows.0 as u64, form.number(), width, base as u64];
            columns.iter_mut().zip(numbers).for_each(|(column, number)| column.push(number));
        }
        Proposal { columns }
    }
}

/// A column that was written.
#[must_use]
#[derive(Debug, Clone, Copy, PartialEq, Eq, Hash)]
#[non_exhaustive]
pub struct WrittenColumn {
    /// Whether the proposal was written. Otherwise it is not accepted, and direct runs of 64 bits were,
    /// 512 rows each and the rest last.
    pub planned: bool,
    /// How many runs it has.
    pub runs: usize,
    /// How many rows: all of them.
    pub rows: RowNumber,
    /// How many bytes it takes up, from the first lent one on.
    pub bytes: ByteOffset,
}

/// The length of a buffer that holds a column of this many rows, whatever they are: direct runs of 64 bits, which
/// the planner's proposals are never above. (A slice's length will do for the rows.)
#[must_use]
pub fn column_room(rows: impl Into<RowNumber>) -> usize {
    let RowNumber(rows) = rows.into();
    rows.saturating_mul(8).saturating_add(rows.div_ceil(MAX_ROWS).saturating_mul(2))
}

/// Writes a column into the first bytes of `out`, cut into runs by the planner.
///
/// ```
/// use menakovitsy::{column_room, read_stream, write_column, ByteOffset, RowNumber, Sign};
///
/// // Sample offsets, with a jump.
/// let rows: Vec<i64> = (0..1000).map(|row| 4096 * row + row / 700 * 99).collect();
/// let mut bytes = vec![0; column_room(rows.len())];
/// let written = write_column(&rows, Sign::Unsigned, &mut bytes)?;
/// bytes.truncate(written.bytes.0);
/// assert!(bytes.len() <= column_room(rows.len()));
///
/// let mut back = vec![0; rows.len()];
/// let read = read_stream(&bytes, ByteOffset(0), Sign::Unsigned, &mut back).expect("it reads whole");
/// assert_eq!(read.rows, RowNumber(1000));
/// assert_eq!(back, rows);
/// # Ok::<(), menakovitsy::Refused>(())
/// ```
///
/// # Errors
///
/// [`TooFewPlaces`](crate::Refusal::TooFewPlaces), every byte being as it was. With [`column_room`] lent there is
/// no error.
pub fn write_column(rows: &[i64], sign: Sign, out: &mut [u8]) -> Result<WrittenColumn, Refused> {
    with_plan(rows, sign, |columns| write_by(rows, sign, columns, out))
}

/// What the planner proposes for a column: its segments cover the rows in order, and are accepted wherever
/// the output has room. Of no rows there are none.
#[must_use]
pub fn plan(rows: &[i64], sign: Sign) -> Proposal {
    with_plan(rows, sign, |columns| Proposal { columns: columns.map(<[u64]>::to_vec) })
}

/// What is made of the planner's segments, in columns that are exactly theirs.
fn with_plan<T>(rows: &[i64], sign: Sign, make: impl FnOnce([&[u64]; 5]) -> T) -> T {
    // A segment has one row at least, so this many places hold any proposal: with fewer the planner may fall
    // back on direct runs. Memory that is zeroed and never written costs a large column nothing.
    let lent = rows.len();
    let mut places = vec![0; 5 * lent];
    let (first, rest) = places.split_at_mut(lent);
    let (counts, rest) = rest.split_at_mut(lent);
    let (forms, rest) = rest.split_at_mut(lent);
    let (widths, bases) = rest.split_at_mut(lent);
    let segments = plan_into(rows, sign, [first, counts, forms, widths, bases]);
    make([&*first, counts, forms, widths, bases].map(|column| &column[..segments]))
}

/// The planner's proposal, in the first places of lent columns: first rows, rows, forms, widths, bases. It
/// answers how many segments there are. As many places as rows are always enough for the planner's best. With
/// fewer it proposes direct runs of 64 bits if its best lacks places, and 0 segments if the shortest column
/// has fewer places than there are direct runs (one for every 512 rows begun). The places after the segments
/// may have changed.
pub fn plan_into(rows: &[i64], sign: Sign, columns: [&mut [u64]; 5]) -> usize {
    let lent = columns.iter().map(|column| column.len()).min().unwrap_or(0);
    let [first, counts, forms, widths, bases] = columns.map(|column| (column.as_mut_ptr(), column.len()));
    // SAFETY: here and below: each pointer is of a live slice of this length, those that are written are
    // lent exclusively, and the function is proved to stay within them and to keep none.
    let segments = unsafe {
        exported::orc_plan(
            rows.as_ptr(),
            rows.len(),
            sign.flag(),
            first.0,
            first.1,
            counts.0,
            counts.1,
            forms.0,
            forms.1,
            widths.0,
            widths.1,
            bases.0,
            bases.1,
        )
    };
    // Whatever library is linked, there are no more than were lent.
    usize::try_from(segments).ok().filter(|segments| *segments <= lent).unwrap_or(0)
}

/// What [`write_proposed`] would write by a proposal into a buffer of `room` bytes; nothing if it is not
/// accepted. It is, exactly if its segments cover all rows in order with no overlap and no gap, each run's
/// writer accepts its segment, and there is room for all.
///
/// # Errors
///
/// [`Unknown`](crate::Refusal::Unknown), of a library that answers what this wrapper does not know, and no other.
pub fn check_column(
    rows: &[i64],
    sign: Sign,
    proposal: &Proposal,
    room: usize,
) -> Result<Option<WrittenColumn>, Refused> {
    let [first, counts, forms, widths, bases] = proposal.columns();
    let mut words = Words::lent(0, 0);
    // SAFETY: as in `plan_into`.
    words.number = unsafe {
        exported::orc_check_column(
            rows.as_ptr(),
            rows.len(),
            sign.flag(),
            first.as_ptr(),
            first.len(),
            counts.as_ptr(),
            counts.len(),
            forms.as_ptr(),
            forms.len(),
            widths.as_ptr(),
            widths.len(),
            bases.as_ptr(),
            bases.len(),
            room as u64,
            words.lent.as_mut_ptr(),
            words.lent.len(),
        )
    };
    let counts = [check_word::RUNS, check_word::ROWS, check_word::BYTES];
    match (words.number, words.lent[check_word::CASE]) {
        (0, case::NOT_ACCEPTED) => Ok(None),
        (0, case::READ) => counted(&words, true, counts, rows.len(), room).map(Some),
        _ => Err(words.unknown()),
    }
}

/// Writes a column by a proposal into the first bytes of `out`; if the proposal is not accepted (see
/// [`check_column`]), as direct runs of 64 bits, 512 rows each and the rest last. Whatever the proposal is,
/// what is written reads back as the rows.
///
/// ```
/// use menakovitsy::{write_proposed, Form, Proposal, RowNumber, Segment, Sign};
///
/// let segment = |first, rows, form, width| Segment {
///     first: RowNumber(first),
///     rows: RowNumber(rows),
///     form,
///     width,
///     base: 0,
/// };
/// let rows = [300, 300, 300, 300, 300, 1, 2, 3];
/// // A short repeat of 2 bytes, then direct at 4 bits.
/// let proposal: Proposal =
///     [segment(0, 5, Form::ShortRepeat, 2), segment(5, 3, Form::Direct, 3)].into_iter().collect();
/// let mut out = [0; 66];
/// let written = write_proposed(&rows, Sign::Unsigned, &proposal, &mut out)?;
/// assert!(written.planned);
/// assert_eq!(out[..written.bytes.0], [0x0A, 0x01, 0x2C, 0x46, 0x02, 0x12, 0x30]);
///
/// // Row 5 is in no run: direct, at 64 bits.
/// let gap: Proposal =
///     [segment(0, 5, Form::ShortRepeat, 2), segment(6, 2, Form::Direct, 3)].into_iter().collect();
/// let written = write_proposed(&rows, Sign::Unsigned, &gap, &mut out)?;
/// assert_eq!((written.planned, written.runs, written.bytes.0), (false, 1, 66));
/// # Ok::<(), menakovitsy::Refused>(())
/// ```
///
/// # Errors
///
/// [`TooFewPlaces`](crate::Refusal::TooFewPlaces) if the direct runs have no room either; then every byte is as it
/// was.
pub fn write_proposed(
    rows: &[i64],
    sign: Sign,
    proposal: &Proposal,
    out: &mut [u8],
) -> Result<WrittenColumn, Refused> {
    write_by(rows, sign, proposal.columns(), out)
}

/// The same by columns.
fn write_by(
    rows: &[i64],
    sign: Sign,
    columns: [&[u64]; 5],
    out: &mut [u8],
) -> Result<WrittenColumn, Refused> {
    let [first, counts, forms, widths, bases] = columns;
    let mut words = Words::lent(0, 0);
    // SAFETY: as in `plan_into`.
    words.number = unsafe {
        exported::orc_write_column(
            rows.as_ptr(),
            rows.len(),
            sign.flag(),
            first.as_ptr(),
            first.len(),
            counts.as_ptr(),
            counts.len(),
            forms.as_ptr(),
            forms.len(),
            widths.as_ptr(),
            widths.len(),
            bases.as_ptr(),
            bases.len(),
            out.as_mut_ptr(),
            out.len(),
            words.lent.as_mut_ptr(),
            words.lent.len(),
        )
    };
    let direct = words.number == 0 && words.lent[column_word::CASE] == case::DIRECT;
    if !direct {
        words.accepted(None)?;
    }
    let counts = [column_word::RUNS, column_word::ROWS, column_word::BYTES];
    counted(&words, !direct, counts, rows.len(), out.len())
}

/// The counts of an answer. Whatever library is linked, they are of all rows, and within the room.
fn counted(
    words: &Words,
    planned: bool,
    places: [usize; 3],
    all: usize,
    room: usize,
) -> Result<WrittenColumn, Refused> {
    let [runs, rows, bytes] = places.map(|place| words.lent[place] as usize);
    if runs > all || rows != all || bytes > room {
        return Err(words.unknown());
    }
    Ok(WrittenColumn { planned, runs, rows: RowNumber(rows), bytes: ByteOffset(bytes) })
}
