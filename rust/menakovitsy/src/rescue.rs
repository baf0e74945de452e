//! Rows of a damaged integer column, rescued by the positions that its row index lists.
use std::fmt;

use crate::answers::Words;
use crate::exported::{self, rescue_word};
use crate::{Refusal, Refused, RowNumber, RowPosition, Sign, MAX_ROWS};

/// A row group by the position of its first row, as ORC's row index lists it. Runs may go on across groups.
#[derive(Debug, Clone, Copy, PartialEq, Eq, Hash)]
pub struct PositionedGroup {
    /// Where its first row is: the byte of a run, and the rows to skip from there.
    pub position: RowPosition,
    /// How many rows it has.
    pub rows: RowNumber,
}

/// What became of a group.
#[derive(Debug, Clone, Copy, PartialEq, Eq, Hash)]
pub enum Verdict {
    /// All its rows were read, and the next group begins after them.
    Kept,
    /// Each of its rows is the fill row.
    Replaced,
}

/// Rows that were rescued.
#[must_use]
#[derive(Debug, Clone, PartialEq, Eq)]
#[non_exhaustive]
pub struct Rescued {
    /// The rows of all groups, one group after the other, as many as the groups list.
    pub rows: Vec<i64>,
    /// What became of each group, in order.
    pub verdicts: Vec<Verdict>,
    /// How many rows are of groups that were kept. The others are the fill row.
    pub kept_rows: RowNumber,
}

impl Rescued {
    /// How many groups were kept.
    #[must_use]
    pub fn kept_groups(&self) -> usize {
        self.verdicts.len() - self.replaced().count()
    }

    /// The numbers of the groups that were replaced, from 0.
    pub fn replaced(&self) -> impl Iterator<Item = usize> + '_ {
        let numbered = self.verdicts.iter().enumerate();
        numbered.filter(|(_, verdict)| **verdict == Verdict::Replaced).map(|(number, _)| number)
    }
}

/// What [`rescue_into`] has written.
#[must_use]
#[derive(Debug, Clone, Copy, PartialEq, Eq, Hash)]
#[non_exhaustive]
pub struct RescuedInto {
    /// How many rows stand in the first places: as many as the groups list.
    pub rows: RowNumber,
    /// How many groups were kept.
    pub kept_groups: usize,
}

/// The most rows that [`rescue`] makes room for, beyond those that the column's bytes can hold: 512 MiB of
/// them. If a file's index is damaged, too, and lists more, it is refused.
pub const MOST_LOST: usize = 1 << 26;

/// The fewest bytes of a run of 512 rows, which is a fixed delta: no column has more rows for its bytes.
const LEAST_BYTES: usize = 4;

/// Rescues the rows of a damaged column by the positions of its row groups. A group is kept exactly if all its
/// rows can be read from its position, and the row after them is where the next group begins, or the column's
/// end after the last group. Otherwise each of its rows is the fill row.
///
/// With the positions that a writer lists, a damaged run costs the groups that have rows of it, and no other.
/// Damage that leaves a group readable, with its number of rows, is not seen. A position need not be plain (its
/// rows to skip may pass whole runs), but then its group is replaced if one of those runs is refused, too.
///
/// # Errors
///
/// In this order: [`WrongStarts`](Refusal::WrongStarts) if the first position is not the column's first row, a
/// byte is below the one before it or after the column's end, or of two groups at one byte the later skips less
/// (no groups at all are those of an empty column); [`TooFewPlaces`](Refusal::TooFewPlaces) if the groups list
/// over [`MOST_LOST`] rows more than the bytes can hold, or more than memory can be had for.
///
/// ```
/// use menakovitsy::{rescue, ByteOffset, PositionedGroup, RowNumber, RowPosition, Sign, Verdict};
///
/// // Five rows of 300; 1, 2, 3; then 10, 12, 14, 16, 18, whose last byte is gone.
/// let column = [0x0A, 0x01, 0x2C, 0x46, 0x02, 0x12, 0x30, 0xC0, 0x04, 0x0A];
/// let group = |run, skip, rows| PositionedGroup {
///     position: RowPosition { run: ByteOffset(run), skip: RowNumber(skip) },
///     rows: RowNumber(rows),
/// };
/// // The second group begins two rows before the end of the first run, and ends inside the second run.
/// let groups = [group(0, 0, 3), group(0, 3, 4), group(3, 2, 6)];
/// let rescued = rescue(&column, &groups, -1, Sign::Unsigned)?;
///
/// assert_eq!(rescued.verdicts, [Verdict::Kept, Verdict::Kept, Verdict::Replaced]);
/// assert_eq!(rescued.rows, [300, 300, 300, 300, 300, 1, 2, -1, -1, -1, -1, -1, -1]);
/// assert_eq!(rescued.kept_rows, RowNumber(7));
/// # Ok::<(), menakovitsy::Refused>(())
/// ```
///
/// [`write_column`](crate::write_column) makes a good column of the rows again.
pub fn rescue(input: &[u8], groups: &[PositionedGroup], fill: i64, sign: Sign) -> Result<Rescued, Refused> {
    let column = |of: fn(&PositionedGroup) -> usize| groups.iter().map(|group| of(group) as u64).collect();
    let runs: Vec<u64> = column(|group| group.position.run.0);
    let skips: Vec<u64> = column(|group| group.position.skip.0);
    let counts: Vec<u64> = column(|group| group.rows.0);
    let mut rows = places(input.len(), groups);
    let mut verdicts = vec![0; groups.len()];
    let written = rescue_into(input, [&runs, &skips, &counts], fill, sign, &mut rows, &mut verdicts)?;
    let verdicts: Vec<Verdict> = verdicts.into_iter().map(Verdict::of).collect();
    let kept = groups.iter().zip(&verdicts).filter(|(_, verdict)| **verdict == Verdict::Kept);
    let kept_rows = kept.map(|(group, _)| group.rows).sum();
    let rescued = Rescued { rows, verdicts, kept_rows };
    // Whatever library is linked, its counts are those of the rows and verdicts.
    match (written.rows.0, written.kept_groups) == (rescued.rows.len(), rescued.kept_groups()) {
        true => Ok(rescued),
        false => Err(Refused::nowhere(Refusal::Unknown(0))),
    }
}

/// Places for all rows that the groups list; none if these are too many, or if there is no memory for them. The
/// call is then refused for want of places, unless the positions are wrong.
fn places(bytes: usize, groups: &[PositionedGroup]) -> Vec<i64> {
    let RowNumber(listed) = groups.iter().map(|group| group.rows).sum();
    let own = bytes.saturating_mul(MAX_ROWS / LEAST_BYTES);
    let mut places = Vec::new();
    if listed <= own.saturating_add(MOST_LOST) && places.try_reserve_exact(listed).is_ok() {
        places.resize(listed, 0);
    }
    places
}

/// The same into places of the caller's, and with the groups as three columns, an entry a group: the byte of a
/// run, the rows to skip from there, and the rows of the group. In the first bytes of `verdicts` stands 1 for a
/// group that was kept, and 0 for one that was replaced. Nothing is allocated.
///
/// # Errors
///
/// In this order and with no place touched: [`WrongStarts`](Refusal::WrongStarts) as [`rescue`] has it, and if
/// the columns have unequal lengths; [`TooFewPlaces`](Refusal::TooFewPlaces) if there are fewer places than the
/// groups list rows, or fewer verdicts than groups.
pub fn rescue_into(
    input: &[u8],
    groups: [&[u64]; 3],
    fill: i64,
    sign: Sign,
    rows: &mut [i64],
    verdicts: &mut [u8],
) -> Result<RescuedInto, Refused> {
    let [runs, skips, counts] = groups;
    let mut words = Words::lent(0, 0);
    // SAFETY: each pointer is of a live slice of this length, those that are written are lent exclusively,
    // and the function is proved to stay within them and to keep none.
    words.number = unsafe {
        exported::orc_rescue(
            input.as_ptr(),
            input.len(),
            runs.as_ptr(),
            runs.len(),
            skips.as_ptr(),
            skips.len(),
            counts.as_ptr(),
            counts.len(),
            fill,
            sign.flag(),
            rows.as_mut_ptr(),
            rows.len(),
            verdicts.as_mut_ptr(),
            verdicts.len(),
            words.lent.as_mut_ptr(),
            words.lent.len(),
        )
    };
    words.accepted(None)?;
    let [given, kept_groups] = [rescue_word::ROWS, rescue_word::KEPT].map(|place| words.lent[place] as usize);
    // Whatever library is linked, no more were written than there are places.
    if given > rows.len() || kept_groups > verdicts.len() {
        return Err(words.unknown());
    }
    Ok(RescuedInto { rows: RowNumber(given), kept_groups })
}

impl Verdict {
    fn of(byte: u8) -> Self {
        match byte {
            0 => Verdict::Replaced,
            _ => Verdict::Kept,
        }
    }
}

impl fmt::Display for Verdict {
    fn fmt(&self, f: &mut fmt::Formatter) -> fmt::Result {
        f.pad(match self {
            Verdict::Kept => "kept",
            Verdict::Replaced => "replaced",
        })
    }
}
