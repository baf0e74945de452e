//! FORMAT.md, "Rows rescued by positions", by the wrapper. Columns and answers written out by hand; the desk's
//! tests have every damage of a longer column.
use menakovitsy::{
    column_room, rescue, rescue_into, write_column, ByteOffset, Column, PositionedGroup, Refusal, Rescued,
    RowNumber, RowPosition, Sign, Verdict, MOST_LOST,
};

/// Five rows 300, then 1, 2, 3, then 10, 12, 14, 16, 18: runs at bytes 0, 3 and 7.
const THREE: [u8; 11] = [0x0A, 0x01, 0x2C, 0x46, 0x02, 0x12, 0x30, 0xC0, 0x04, 0x0A, 0x04];
const ROWS: [i64; 13] = [300, 300, 300, 300, 300, 1, 2, 3, 10, 12, 14, 16, 18];

const FILL: i64 = -7;

/// A group's run, rows to skip and rows.
type Listed = (usize, usize, usize);

/// Groups that begin where runs begin, and inside runs.
const AT_RUNS: [Listed; 3] = [(0, 0, 5), (3, 0, 3), (7, 0, 5)];
const INSIDE: [Listed; 4] = [(0, 0, 3), (0, 3, 4), (3, 2, 3), (7, 2, 3)];

fn listed(groups: &[Listed]) -> Vec<PositionedGroup> {
    let group = |(run, skip, rows): &Listed| PositionedGroup {
        position: RowPosition { run: ByteOffset(*run), skip: RowNumber(*skip) },
        rows: RowNumber(*rows),
    };
    groups.iter().map(group).collect()
}

fn rescued(input: &[u8], groups: &[Listed]) -> Rescued {
    let rescued = rescue(input, &listed(groups), FILL, Sign::Unsigned).unwrap();
    // What is counted is what stands there.
    assert_eq!(rescued.verdicts.len(), groups.len());
    let kept = groups.iter().zip(&rescued.verdicts).filter(|(_, verdict)| **verdict == Verdict::Kept);
    assert_eq!(rescued.kept_groups(), kept.clone().count());
    assert_eq!(rescued.kept_rows.0, kept.map(|((_, _, rows), _)| rows).sum::<usize>());
    rescued
}

/// The column with a byte changed.
fn damaged(at: usize, byte: u8) -> [u8; 11] {
    let mut damaged = THREE;
    damaged[at] = byte;
    damaged
}

/// The groups that are replaced, whose rows are the fill row; all other rows are the column's.
fn replaced(input: &[u8], groups: &[Listed]) -> Vec<usize> {
    let rescued = rescued(input, groups);
    let numbers: Vec<usize> = rescued.replaced().collect();
    let mut first = 0;
    for (number, (_, _, count)) in groups.iter().enumerate() {
        let rows = &rescued.rows[first..first + count];
        match numbers.contains(&number) {
            true => assert!(rows.iter().all(|row| *row == FILL), "group {number}: {rows:?}"),
            false => assert_eq!(rows, &ROWS[first..first + count], "group {number}"),
        }
        first += count;
    }
    assert_eq!(rescued.rows.len(), first);
    numbers
}

#[test]
fn a_whole_column() {
    // Plain positions, and positions whose skips pass runs; groups of no rows between others, and at the end.
    for groups in [
        &AT_RUNS[..],
        &INSIDE,
        &[(0, 0, 13)],
        &[(0, 0, 5), (0, 5, 3), (0, 8, 5)],
        &[(0, 0, 5), (0, 5, 0), (3, 0, 3), (3, 3, 0), (7, 0, 5), (11, 0, 0)],
        &[(0, 0, 0), (0, 0, 13), (0, 13, 0)],
    ] {
        assert_eq!(replaced(&THREE, groups), []);
    }
    let signed = rescue(&THREE, &listed(&INSIDE), FILL, Sign::Signed).unwrap();
    assert_eq!(signed.rows, [150, 150, 150, 150, 150, -1, 1, -2, 5, 7, 9, 11, 13]);
    assert_eq!((signed.kept_groups(), signed.kept_rows), (4, RowNumber(13)));
    assert_eq!(rescued(&[], &[]).rows, []);
    assert_eq!(rescued(&[], &[(0, 0, 0)]).verdicts, [Verdict::Kept]);
}

/// A damaged run costs the groups that have rows of it, and no other.
#[test]
fn a_damaged_run() {
    // A first byte that no run has there, so that nothing of the run is read; of each run in turn.
    assert_eq!(replaced(&damaged(0, 0xFF), &AT_RUNS), [0]);
    assert_eq!(replaced(&damaged(3, 0xFF), &AT_RUNS), [1]);
    assert_eq!(replaced(&damaged(7, 0xFF), &AT_RUNS), [2]);
    assert_eq!(replaced(&damaged(0, 0xFF), &INSIDE), [0, 1]);
    assert_eq!(replaced(&damaged(3, 0xFF), &INSIDE), [1, 2]);
    assert_eq!(replaced(&damaged(7, 0xFF), &INSIDE), [2, 3]);
    // The same runs with a row less, or more: what follows is not shifted.
    assert_eq!(replaced(&damaged(0, 0x09), &INSIDE), [1]);
    assert_eq!(replaced(&damaged(4, 0x01), &INSIDE), [2]);
    assert_eq!(replaced(&damaged(8, 0x05), &INSIDE), [3]);
    // The end is missing.
    assert_eq!(replaced(&THREE[..10], &INSIDE), [2, 3]);
    // A skip that passes a damaged run: its group is lost, though it has no row of that run.
    assert_eq!(replaced(&damaged(3, 0xFF), &[(0, 0, 5), (0, 5, 3), (0, 8, 5)]), [1, 2]);
    assert_eq!(replaced(&damaged(3, 0xFF), &[(0, 0, 5), (0, 5, 3), (7, 0, 5)]), [1]);
}

/// Damage that still reads is seen if the run ends elsewhere, and by the groups that end there alone.
#[test]
fn damage_that_still_reads() {
    // A delta of three rows, 18, 42 and 45, whose magnitude is the first byte of the last run.
    let delta = damaged(3, 0xC2);
    assert_eq!(replaced(&delta, &AT_RUNS), [1]);
    let rescued = rescued(&delta, &INSIDE);
    assert_eq!(rescued.replaced().collect::<Vec<_>>(), [2]);
    assert_eq!(rescued.rows[3..10], [300, 300, 18, 42, FILL, FILL, FILL]);
    // Packed rows have no fault that shows.
    assert_eq!(self::rescued(&damaged(5, 0x72), &INSIDE).rows[5..8], [7, 2, 3]);
}

/// Positions and counts that are not the column's.
#[test]
fn a_wrong_list() {
    let verdicts = |input: &[u8], groups: &[Listed]| rescued(input, groups).verdicts;
    use Verdict::{Kept, Replaced};
    assert_eq!(verdicts(&THREE, &[(0, 0, 5), (3, 0, 4), (7, 0, 5)]), [Kept, Replaced, Kept]);
    assert_eq!(verdicts(&THREE, &[(0, 0, 5), (3, 1, 2), (7, 0, 5)]), [Replaced, Kept, Kept]);
    assert_eq!(verdicts(&THREE, &[(0, 0, 5), (4, 0, 3), (7, 0, 5)]), [Replaced, Replaced, Kept]);
    assert_eq!(verdicts(&THREE, &[(0, 0, 12)]), [Replaced]);
    assert_eq!(verdicts(&THREE, &[(0, 0, 14)]), [Replaced]);
    assert_eq!(verdicts(&THREE, &[(0, 0, 13), (0, usize::MAX, 0)]), [Replaced, Replaced]);
    assert_eq!(verdicts(&[], &[(0, 0, 2)]), [Replaced]);
    assert_eq!(rescued(&[], &[(0, 0, 2)]).rows, [FILL; 2]);
    assert_eq!((Kept.to_string(), Replaced.to_string()), ("kept".into(), "replaced".into()));
}

/// Refusals in their order; and nothing is written.
#[test]
fn refusals() {
    let into = |input: &[u8], columns: [&[u64]; 3], places: [usize; 2]| {
        let (mut rows, mut verdicts) = (vec![7777; places[0]], vec![77; places[1]]);
        let refused =
            rescue_into(input, columns, FILL, Sign::Unsigned, &mut rows, &mut verdicts).unwrap_err();
        assert_eq!((refused.at, refused.cut), (None, None));
        assert!(rows.iter().all(|row| *row == 7777) && verdicts.iter().all(|verdict| *verdict == 77));
        refused.refusal
    };
    // Each would lack places, too.
    for columns in [
        [&[0, 3, 7][..], &[0, 0, 0], &[5, 3]],
        [&[0, 3, 7], &[0, 0], &[5, 3, 5]],
        [&[0, 3], &[0, 0, 0], &[5, 3, 5]],
        [&[1, 3, 7], &[0, 0, 0], &[5, 3, 5]],
        [&[0, 3, 7], &[1, 0, 0], &[5, 3, 5]],
        [&[0, 7, 3], &[0, 0, 0], &[5, 3, 5]],
        [&[0, 3, 3], &[0, 2, 1], &[5, 3, 5]],
        [&[0, 3, 12], &[0, 0, 0], &[5, 3, 5]],
        [&[0, 3, u64::MAX], &[0, 0, 0], &[5, 3, 5]],
        [&[], &[], &[]],
    ] {
        assert_eq!(into(&THREE, columns, [0, 0]), Refusal::WrongStarts, "{columns:?}");
        assert_eq!(into(&THREE, columns, [20, 5]), Refusal::WrongStarts, "{columns:?}");
    }
    let three = [&[0, 3, 7][..], &[0, 0, 0], &[5, 3, 5]];
    for places in [[12, 3], [13, 2], [0, 0]] {
        assert_eq!(into(&THREE, three, places), Refusal::TooFewPlaces);
    }
    // Counts whose sum passes 2^64.
    let sum = [&[0, 3, 7][..], &[0, 0, 0], &[u64::MAX, 14, u64::MAX]];
    assert_eq!(into(&THREE, sum, [20, 3]), Refusal::TooFewPlaces);
    let (mut rows, mut verdicts) = ([7777; 15], [77; 5]);
    let done = rescue_into(&THREE, three, FILL, Sign::Unsigned, &mut rows, &mut verdicts).unwrap();
    assert_eq!((done.rows, done.kept_groups), (RowNumber(13), 3));
    assert_eq!((&rows[..13], &rows[13..], verdicts), (&ROWS[..], &[7777; 2][..], [1, 1, 1, 77, 77]));
}

/// Rows that no column has: refused, without the memory for them; wrong positions first.
#[test]
fn more_rows_than_there_is_room_for() {
    for rows in [usize::MAX, usize::MAX / 3, 1 << 40, MOST_LOST + 11 * 128 + 1] {
        let refused =
            |groups: &[Listed]| rescue(&THREE, &listed(groups), FILL, Sign::Unsigned).unwrap_err().refusal;
        assert_eq!(refused(&[(0, 0, rows)]), Refusal::TooFewPlaces);
        assert_eq!(refused(&[(0, 0, 5), (3, 0, rows), (7, 0, rows)]), Refusal::TooFewPlaces);
        assert_eq!(refused(&[(0, 0, rows), (12, 0, 1)]), Refusal::WrongStarts);
    }
    // As many rows as a column's bytes can have are never too many: runs of 512 rows in 4 bytes.
    let column = [0xC1, 0xFF, 0x07, 0x00].repeat(3);
    let rescued = rescue(&column, &listed(&[(0, 0, 1000), (4, 488, 536)]), FILL, Sign::Unsigned).unwrap();
    assert_eq!((rescued.kept_groups(), rescued.rows), (2, vec![7; 1536]));
}

/// The rows are a good column again.
#[test]
fn written_anew() {
    let rescued = rescued(&damaged(7, 0xFF), &INSIDE);
    let mut bytes = vec![0; column_room(rescued.rows.len())];
    let written = write_column(&rescued.rows, Sign::Unsigned, &mut bytes).unwrap();
    bytes.truncate(written.bytes.0);
    let expected = [300, 300, 300, 300, 300, 1, 2, FILL, FILL, FILL, FILL, FILL, FILL];
    assert_eq!(Column::new(&bytes, Sign::Unsigned).to_vec().unwrap(), expected);
}
