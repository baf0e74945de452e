//! Columns whose runs go on across row groups, and the positions that a row index has for them: by the model's
//! runs.
#![allow(dead_code)] // each test takes what it needs
use std::ops::Range;

use menakovitsy::{column_room, write_column, Sign};
use model::{read_run, read_stream, Answer, Stream};

/// Rows in stretches of 700, which are no multiple of a run: begins of chunks, the same a little late, small
/// numbers, and one number.
pub fn patterned(count: i64) -> Vec<i64> {
    let row = |k: i64| match k / 700 % 4 {
        0 => 22_050 * k,
        1 => 22_050 * k + k * k % 97,
        2 => k * k % 13,
        _ => 300,
    };
    (0..count).map(row).collect()
}

/// The rows as the planner writes them.
pub fn written(rows: &[i64]) -> Vec<u8> {
    let mut bytes = vec![0; column_room(rows.len())];
    let written = write_column(rows, Sign::Unsigned, &mut bytes).expect("there is room");
    bytes.truncate(written.bytes.0);
    assert_eq!(self::rows(&bytes), rows);
    bytes
}

/// The rows of a stream that is whole.
pub fn rows(bytes: &[u8]) -> Vec<i64> {
    match read_stream(bytes, 0, false, usize::MAX) {
        Stream::Whole { rows, .. } => rows,
        refused => panic!("{refused:?}"),
    }
}

/// A run of a stream: its bytes and its rows.
pub struct Run {
    pub bytes: Range<usize>,
    pub rows: Range<usize>,
}

pub fn runs(bytes: &[u8]) -> Vec<Run> {
    let (mut runs, mut at, mut first) = (Vec::new(), 0, 0);
    while let Answer::Run(run) = read_run(bytes, at, false, usize::MAX) {
        runs.push(Run { bytes: at..at + run.consumed, rows: first..first + run.rows.len() });
        (at, first) = (at + run.consumed, first + run.rows.len());
    }
    assert_eq!(at, bytes.len(), "it reads whole");
    runs
}

/// A row group: the byte of a run, the rows to skip from there, and its rows.
pub type Listed = [usize; 3];

/// The groups of that many rows each, by the run that holds their first row.
pub fn positions(bytes: &[u8], size: usize) -> Vec<Listed> {
    let runs = runs(bytes);
    let total = runs.last().map_or(0, |run| run.rows.end);
    let group = |first: usize| {
        let run = runs.iter().find(|run| run.rows.contains(&first)).expect("a run holds it");
        [run.bytes.start, first - run.rows.start, size.min(total - first)]
    };
    (0..total).step_by(size).map(group).collect()
}

/// The groups, a line each.
pub fn lines<const N: usize>(groups: &[[usize; N]]) -> String {
    let line = |group: &[usize; N]| group.map(|number| number.to_string()).join(" ") + "\n";
    groups.iter().map(line).collect()
}
