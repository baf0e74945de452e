//! Rows and flags in batches, through the wrapper.
use menakovitsy::{read_flags, ByteOffset, Column, RowNumber};
use model::{Batch, FlagPosition, Flags, Refusal, RowPosition, Stream};

use super::{place, sign, BEFORE, ROW_BEFORE};

/// Whether a refusal of the wrapper's is the model's.
pub(super) fn same(refused: &menakovitsy::Refused, paper: &Refusal) -> bool {
    let cut = refused.cut.map(|byte| byte.0);
    (refused.refusal.number(), place(refused), cut) == (paper.number.into(), paper.place, paper.cut)
}

/// Holds one batch of rows to the model, every place.
pub fn check_rows(
    bytes: &[u8],
    RowPosition { run, skip }: RowPosition,
    signed: bool,
    places: usize,
    paper: &Batch,
) -> Result<(), String> {
    let at = menakovitsy::RowPosition { run: ByteOffset(run as usize), skip: RowNumber(skip as usize) };
    let mut rows = vec![ROW_BEFORE; places];
    let answer = Column::new(bytes, sign(signed)).read_at(at, &mut rows);
    let (right, given) = match (&answer, paper) {
        (Ok(None), Batch::End) => (true, &[][..]),
        (Err(refused), Batch::Refused(paper)) => (same(refused, paper), &[][..]),
        (Ok(Some(batch)), Batch::Given { rows, next }) => {
            let after = (batch.next.run.0 as u64, batch.next.skip.0 as u64);
            (batch.rows.0 == rows.len() && after == (next.run, next.skip), &rows[..])
        }
        _ => (false, &[][..]),
    };
    let places = rows.len() >= given.len()
        && rows[..given.len()] == *given
        && rows[given.len()..].iter().all(|row| *row == ROW_BEFORE);
    match right && places {
        true => Ok(()),
        false => Err(format!("at {at:?}: {answer:?}, rows {rows:?}")),
    }
}

/// Holds one batch of flags to the model, every place.
pub fn check_flags(
    bytes: &[u8],
    FlagPosition { run, bytes: skipped, bits }: FlagPosition,
    n: usize,
    paper: &Flags,
) -> Result<(), String> {
    let at = menakovitsy::FlagPosition {
        run: ByteOffset(run as usize),
        bytes: ByteOffset(skipped as usize),
        bits: bits as usize,
    };
    let mut flags = vec![BEFORE; n];
    let answer = read_flags(bytes, at, RowNumber(n), &mut flags);
    let right = match (&answer, paper) {
        (Ok(next), Flags::Given { values, next: after }) => {
            let next = [next.run.0, next.bytes.0, next.bits].map(|number| number as u64);
            next == [after.run, after.bytes, after.bits]
                && flags.iter().copied().eq(values.iter().map(|value| u8::from(*value)))
        }
        (Err(refused), Flags::Refused(paper)) => {
            same(refused, paper) && flags.iter().all(|flag| *flag == BEFORE)
        }
        _ => false,
    };
    match right {
        true => Ok(()),
        false => Err(format!("at {at:?}: {answer:?}, flags {flags:?}")),
    }
}

/// Holds the wrapper's batches of one size to the model's stream: each but the last has that many rows, and a
/// refusal comes last.
pub fn check_batches(bytes: &[u8], signed: bool, size: usize) -> Result<(), String> {
    let (rows, refusal) = match model::read_stream(bytes, 0, signed, usize::MAX) {
        Stream::Whole { rows, .. } => (rows, None),
        Stream::Refused { rows, refusal, .. } => (rows, Some(refusal)),
    };
    let mut batches = Column::new(bytes, sign(signed)).batches(RowNumber(size));
    for expected in rows.chunks(size) {
        match batches.next_batch() {
            Some(Ok(batch)) if batch == expected => {}
            other => return Err(format!("batches of {size}: {other:?}, for {expected:?}")),
        }
    }
    let last = batches.next().map(|batch| batch.map_err(|refused| (same_as(&refused, refusal), refused)));
    match (&last, refusal) {
        (None, None) | (Some(Err((true, _))), Some(_)) if batches.next().is_none() => Ok(()),
        _ => Err(format!("batches of {size}: {last:?} at the end")),
    }
}

fn same_as(refused: &menakovitsy::Refused, paper: Option<Refusal>) -> bool {
    paper.is_some_and(|paper| same(refused, &paper))
}
