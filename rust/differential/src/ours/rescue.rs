//! Rows rescued by positions, through the wrapper.
use menakovitsy::{rescue, rescue_into, ByteOffset, PositionedGroup, RowNumber, RowPosition, Verdict};
use model::Rescued;

use super::batches::same;
use super::{sign, BEFORE, ROW_BEFORE};
use crate::stages::rescue::Asked;

/// Holds a rescue into lent places to the model, every place, and the same into places of its own. How many
/// answers were right, or what was wrong.
pub fn check(asked: &Asked, paper: &Rescued) -> Result<u64, String> {
    let Asked { input, flag, fill, columns, places } = asked;
    let (mut rows, mut verdicts) = (vec![ROW_BEFORE; places[0]], vec![BEFORE; places[1]]);
    let groups = columns.each_ref().map(Vec::as_slice);
    let answer = rescue_into(input, groups, *fill, sign(*flag != 0), &mut rows, &mut verdicts);
    let (right, given, judged) = match (&answer, paper) {
        (Err(refused), Rescued::Refused(paper)) => (same(refused, paper), &[][..], &[][..]),
        (Ok(written), Rescued::Given { kept, rows }) => {
            let groups = kept.iter().filter(|kept| **kept).count();
            (written.rows.0 == rows.len() && written.kept_groups == groups, &rows[..], &kept[..])
        }
        _ => (false, &[][..], &[][..]),
    };
    let rows_right = rows.starts_with(given) && rows[given.len()..].iter().all(|row| *row == ROW_BEFORE);
    let judged: Vec<u8> = judged.iter().map(|kept| u8::from(*kept)).collect();
    let verdicts_right =
        verdicts.starts_with(&judged) && verdicts[judged.len()..].iter().all(|verdict| *verdict == BEFORE);
    if !(right && rows_right && verdicts_right) {
        return Err(format!("into lent places: {answer:?}, rows {rows:?}, verdicts {verdicts:?}"));
    }
    check_own(asked).map(|own| own + 1)
}

/// Groups whose columns are of one length, with places of the wrapper's own: never too few of them, but for
/// counts that no column has.
fn check_own(asked: &Asked) -> Result<u64, String> {
    let Asked { input, flag, fill, columns: [runs, skips, counts], .. } = asked;
    let total: u128 = counts.iter().map(|count| u128::from(*count)).sum();
    if runs.len() != skips.len() || skips.len() != counts.len() || total > 1 << 20 {
        return Ok(0);
    }
    let numbers = runs.iter().zip(skips).zip(counts);
    let groups: Vec<PositionedGroup> = numbers
        .map(|((run, skip), count)| PositionedGroup {
            position: RowPosition { run: ByteOffset(*run as usize), skip: RowNumber(*skip as usize) },
            rows: RowNumber(*count as usize),
        })
        .collect();
    let paper = Asked { places: [total as usize, groups.len()], ..asked.clone() }.answer();
    let answer = rescue(input, &groups, *fill, sign(*flag != 0));
    let right = match (&answer, &paper) {
        (Err(refused), Rescued::Refused(paper)) => same(refused, paper),
        (Ok(rescued), Rescued::Given { kept, rows }) => {
            let verdicts = rescued.verdicts.iter().map(|verdict| *verdict == Verdict::Kept);
            let kept_rows: u64 =
                kept.iter().zip(counts).filter(|(kept, _)| **kept).map(|(_, rows)| *rows).sum();
            rescued.rows == *rows
                && verdicts.eq(kept.iter().copied())
                && rescued.kept_rows.0 as u64 == kept_rows
                && rescued.kept_groups() == kept.iter().filter(|kept| **kept).count()
        }
        _ => false,
    };
    match right {
        true => Ok(1),
        false => Err(format!("into places of its own: {answer:?}; the model: {paper:?}")),
    }
}
