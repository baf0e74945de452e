//! Rows in batches, from a row position.
use crate::{read_run, Answer, Refusal};

/// "The byte where a run begins, counted from the start of the lent input, and how many rows from there
/// to skip."
#[derive(Debug, Clone, Copy, PartialEq, Eq)]
pub struct RowPosition {
    pub run: u64,
    pub skip: u64,
}

/// What reading a batch of rows answers.
#[derive(Debug, Clone, PartialEq, Eq)]
pub enum Batch {
    /// The rows, and the position of the row after them.
    Given {
        rows: Vec<i64>,
        next: RowPosition,
    },
    End,
    Refused(Refusal),
}

/// The runs from a byte on, "with room enough, to the end or to the first refusal".
struct Runs {
    /// Where each run begins, and its rows.
    read: Vec<(u64, Vec<i64>)>,
    /// The byte after the last of them.
    after: u64,
    refusal: Option<Refusal>,
}

impl Runs {
    fn from(input: &[u8], byte: u64, signed: bool) -> Self {
        let (mut read, mut after) = (Vec::new(), byte);
        loop {
            match read_run(input, after as usize, signed, usize::MAX) {
                Answer::End => return Runs { read, after, refusal: None },
                Answer::Refused(refusal) => return Runs { read, after, refusal: Some(refusal) },
                Answer::Run(run) => {
                    read.push((after, run.rows));
                    after += run.consumed as u64;
                }
            }
        }
    }

    fn rows(&self) -> Vec<i64> {
        self.read.iter().flat_map(|(_, rows)| rows).copied().collect()
    }

    /// The plain position of a row: "the run that holds it and the rows of that run before it, less than
    /// it has; if no run that was read holds it, the byte after the last of them and 0".
    fn position_of(&self, row: u64) -> RowPosition {
        let mut skip = row;
        for (run, rows) in &self.read {
            if skip < rows.len() as u64 {
                return RowPosition { run: *run, skip };
            }
            skip -= rows.len() as u64;
        }
        RowPosition { run: self.after, skip: 0 }
    }
}

/// Reads a batch of rows, with that many places for them.
pub fn read_rows(input: &[u8], position: RowPosition, signed: bool, places: usize) -> Batch {
    let RowPosition { run, skip } = position;
    let runs = Runs::from(input, run, signed);
    let all = runs.rows();
    let there = all.len() as u64;
    if skip >= there {
        // "If a run was refused, its own refusal; otherwise `End` if skip is exactly the number of rows
        // there are, and 16 if it is more."
        return match runs.refusal {
            Some(refusal) => Batch::Refused(refusal),
            None if skip == there => Batch::End,
            None => Batch::Refused(Refusal::whole(16, 0)),
        };
    }
    let after = &all[skip as usize..];
    let rows = after[..after.len().min(places)].to_vec();
    let next = runs.position_of(skip + rows.len() as u64);
    Batch::Given { rows, next }
}
