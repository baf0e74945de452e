//! Salvage of a damaged integer column: its good row groups kept, the others filled.
use crate::answers::Words;
use crate::exported::{self, salvage_word};
use crate::{write_run, ByteOffset, Form, Refused, RowNumber, Sign, MAX_ROWS};

/// A row group that begins where a run begins. (If runs go on across groups, as in files of the Apache writers,
/// their row index lists rows to skip as well: see [`PositionedGroup`](crate::PositionedGroup).)
#[derive(Debug, Clone, Copy, PartialEq, Eq, Hash)]
pub struct Group {
    /// The byte of the column that it starts at.
    pub start: ByteOffset,
    /// How many rows it has.
    pub rows: RowNumber,
}

/// A column that was salvaged.
#[must_use]
#[derive(Debug, Clone, PartialEq, Eq)]
#[non_exhaustive]
pub struct Salvaged {
    /// The new column: it reads whole, with as many rows as the groups list.
    pub bytes: Vec<u8>,
    /// A line a group, in order: `kept` or `replaced`, its number from 0, its rows.
    pub report: String,
    /// The groups of the new column, which start elsewhere after one that was replaced.
    pub groups: Vec<Group>,
}

impl Salvaged {
    /// The numbers of the groups that were replaced, from 0.
    pub fn replaced(&self) -> impl Iterator<Item = usize> + '_ {
        replaced(&self.report)
    }
}

fn replaced(report: &str) -> impl Iterator<Item = usize> + '_ {
    let lines = report.lines().enumerate();
    lines.filter(|(_, line)| line.starts_with("replaced ")).map(|(number, _)| number)
}

/// The most bytes that [`salvage`] makes room for, beside the column's own: fills of more rows than any
/// column of row groups has. Where a file's index is damaged, too, and lists more, it is refused.
pub const MOST_FILL: usize = 1 << 26;

/// The longest line of a report, with its newline.
const LONGEST_LINE: usize = "replaced 18446744073709551615 18446744073709551615\n".len();

/// Salvages a column: each group whose bytes, up to the next start or the end, read as a whole column of
/// exactly its rows is kept, byte for byte; any other is replaced by runs of the fill row, as many rows as
/// it lists. A group that begins or ends inside a run is replaced, also if the column is whole: for such
/// groups there is [`rescue`](crate::rescue()).
///
/// # Errors
///
/// In this order: [`WrongStarts`](crate::Refusal::WrongStarts) if the starts do not begin at
/// 0, do not rise strictly or pass the end (no groups at all are those of an empty column);
/// [`TooFewPlaces`](crate::Refusal::TooFewPlaces) if the fills take more than [`MOST_FILL`] bytes.
///
/// ```
/// use menakovitsy::{salvage, ByteOffset, Column, Group, RowNumber, Sign};
///
/// // Five rows of 300; 1, 2, 3, whose first byte is damaged; then 10, 12, 14, 16, 18.
/// let column = [0x0A, 0x01, 0x2C, 0xC2, 0x02, 0x12, 0x30, 0xC0, 0x04, 0x0A, 0x04];
/// let group = |start, rows| Group { start: ByteOffset(start), rows: RowNumber(rows) };
/// let salvaged = salvage(&column, &[group(0, 5), group(3, 3), group(7, 5)], -1, Sign::Unsigned)?;
///
/// assert_eq!(salvaged.report, "kept 0 5\nreplaced 1 3\nkept 2 5\n");
/// let rows = Column::new(&salvaged.bytes, Sign::Unsigned).to_vec().expect("it reads whole");
/// assert_eq!(rows, [300, 300, 300, 300, 300, -1, -1, -1, 10, 12, 14, 16, 18]);
/// # Ok::<(), menakovitsy::Refused>(())
/// ```
pub fn salvage(input: &[u8], groups: &[Group], fill: i64, sign: Sign) -> Result<Salvaged, Refused> {
    let starts: Vec<u64> = groups.iter().map(|group| group.start.0 as u64).collect();
    let counts: Vec<u64> = groups.iter().map(|group| group.rows.0 as u64).collect();
    let fills = Fills::new(fill, sign)?;
    let filled = groups.iter().fold(0usize, |all, group| all.saturating_add(fills.bytes(group.rows)));
    let mut bytes = vec![0; input.len().saturating_add(filled.min(MOST_FILL))];
    let mut report = vec![0; LONGEST_LINE.saturating_mul(groups.len())];
    let written = salvage_into(input, [&starts, &counts], fill, sign, &mut bytes, &mut report)?;
    bytes.truncate(written.bytes.0);
    bytes.shrink_to_fit();
    report.truncate(written.report.0);
    // Whatever library is linked, the report is text, and the groups are the new column's.
    let report = String::from_utf8(report).map_err(|_| written.unknown)?;
    let ends = starts.iter().skip(1).map(|start| *start as usize).chain([input.len()]);
    let mut lengths: Vec<usize> =
        groups.iter().zip(ends).map(|(group, end)| end.saturating_sub(group.start.0)).collect();
    for number in replaced(&report) {
        if let (Some(length), Some(group)) = (lengths.get_mut(number), groups.get(number)) {
            *length = fills.bytes(group.rows);
        }
    }
    let mut start = ByteOffset(0);
    let placed = groups.iter().zip(lengths).map(|(group, length)| {
        let placed = Group { start, ..*group };
        start += ByteOffset(length);
        placed
    });
    let groups = placed.collect();
    match start == ByteOffset(bytes.len()) {
        true => Ok(Salvaged { bytes, report, groups }),
        false => Err(written.unknown),
    }
}

/// How many bytes the fills of a row take up, as the writer writes them.
struct Fills {
    /// A run of 512 rows, and one with fewer.
    full: usize,
    rest: usize,
}

impl Fills {
    fn new(fill: i64, sign: Sign) -> Result<Self, Refused> {
        let mut out = [0; 32];
        let mut run =
            |rows: &[i64]| write_run(rows, sign, Form::FixedDelta, 0, &mut out).map(|run| run.bytes.0);
        Ok(Fills { full: run(&[fill; MAX_ROWS])?, rest: run(&[fill])? })
    }

    /// With that many rows.
    fn bytes(&self, rows: RowNumber) -> usize {
        let rest = if rows.0.is_multiple_of(MAX_ROWS) { 0 } else { self.rest };
        (rows.0 / MAX_ROWS).saturating_mul(self.full).saturating_add(rest)
    }
}

/// What was written into lent bytes.
struct Written {
    bytes: ByteOffset,
    report: ByteOffset,
    /// What the answer is if it contradicts itself.
    unknown: Refused,
}

/// The same into lent bytes: the column, and the report. The groups are two columns, of starts and of
/// rows.
fn salvage_into(
    input: &[u8],
    groups: [&[u64]; 2],
    fill: i64,
    sign: Sign,
    out: &mut [u8],
    report: &mut [u8],
) -> Result<Written, Refused> {
    let [starts, counts] = groups;
    let mut words = Words::lent(0, 0);
    // SAFETY: each pointer is of a live slice of this length, those that are written are lent
    // exclusively, and the function is proved to stay within them and to keep none.
    words.number = unsafe {
        exported::orc_salvage(
            input.as_ptr(),
            input.len(),
            starts.as_ptr(),
            starts.len(),
            counts.as_ptr(),
            counts.len(),
            fill,
            sign.flag(),
            out.as_mut_ptr(),
            out.len(),
            report.as_mut_ptr(),
            report.len(),
            words.lent.as_mut_ptr(),
            words.lent.len(),
        )
    };
    words.accepted(None)?;
    let [bytes, told] = [salvage_word::BYTES, salvage_word::REPORT].map(|place| words.lent[place] as usize);
    if bytes > out.len() || told > report.len() {
        return Err(words.unknown());
    }
    Ok(Written { bytes: ByteOffset(bytes), report: ByteOffset(told), unknown: words.unknown() })
}
