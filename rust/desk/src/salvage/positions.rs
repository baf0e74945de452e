//! `--positions`: groups that may begin inside runs. Their rows are rescued, and written anew.
use std::fmt::Write as _;

use menakovitsy::{
    column_room, rescue, write_column, ByteOffset, Index, PositionedGroup, Refusal, Refused, RowNumber,
    RowPosition, Sign,
};

use super::lists::position_lines;
use super::Salvage;

pub fn salvaged(input: &[u8], groups: &[PositionedGroup], fill: i64, sign: Sign) -> Result<Salvage, Refused> {
    let rescued = rescue(input, groups, fill, sign)?;
    let mut report = String::new();
    for (number, (group, verdict)) in groups.iter().zip(&rescued.verdicts).enumerate() {
        writeln!(report, "{verdict} {number} {}", group.rows).expect("a string takes it");
    }
    let mut bytes = vec![0; column_room(rescued.rows.len())];
    let written = write_column(&rescued.rows, sign, &mut bytes)?;
    bytes.truncate(written.bytes.0);
    Ok(Salvage {
        new_positions: position_lines(&placed(&bytes, groups)?),
        bytes,
        report,
        kept_rows: rescued.kept_rows,
        lost_rows: RowNumber(rescued.rows.len()) - rescued.kept_rows,
        replaced_groups: rescued.replaced().count(),
    })
}

/// The groups as they stand in a stream of all their rows, each by the plain position of its first row.
fn placed(bytes: &[u8], groups: &[PositionedGroup]) -> Result<Vec<PositionedGroup>, Refused> {
    let index = Index::build(bytes)?;
    let mut first = RowNumber(0);
    let placed = groups.iter().map(|group| {
        let position = position_of(&index, first, bytes.len());
        first += group.rows;
        PositionedGroup { position, rows: group.rows }
    });
    Ok(placed.collect())
}

/// The run that holds a row, and the rows of it before that row; the stream's end for the row after the last.
fn position_of(index: &Index, row: RowNumber, end: usize) -> RowPosition {
    let [firsts, starts, _] = index.columns();
    let run = firsts.partition_point(|first| *first <= row.0 as u64).checked_sub(1);
    match run.filter(|_| row < index.row_count()) {
        None => RowPosition { run: ByteOffset(end), skip: RowNumber(0) },
        Some(run) => RowPosition {
            run: ByteOffset(starts[run] as usize),
            skip: RowNumber(row.0 - firsts[run] as usize),
        },
    }
}

pub fn advice(refusal: Refusal, groups: &[PositionedGroup], length: usize) -> String {
    match refusal {
        Refusal::WrongStarts if groups.iter().any(|group| group.position.run.0 > length) => format!(
            "a position is after byte {length}, where the stream ends. If the stream is cut, write {length} 0 in the \
             place of the byte and the rows to skip of each group that begins after it: these groups are then \
             replaced. Otherwise compare the positions with the file's row index"
        ),
        Refusal::WrongStarts => "the first position must be byte 0 with 0 rows to skip, no byte may be below \
                                 the one before it, and at the same byte the rows to skip may not fall: compare \
                                 the positions with the file's row index"
            .into(),
        Refusal::TooFewPlaces => {
            "the positions list more rows than there is room for: a count of theirs is wrong. Compare them with \
             the file's row index"
                .into()
        }
        other => other.advice().into(),
    }
}
