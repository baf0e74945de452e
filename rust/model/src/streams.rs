//! The stream reader.
use crate::{read_run, Answer, Info, Refusal};

/// What the stream reader answers: the joined rows, the bytes that they took, and the last run read,
/// or none.
#[derive(Debug, Clone, PartialEq, Eq)]
pub enum Stream {
    /// "Whole stream read."
    Whole { rows: Vec<i64>, consumed: usize, last: Option<Info> },
    /// The first refusal, with the rows and bytes of the runs before it.
    Refused { refusal: Refusal, rows: Vec<i64>, consumed: usize, last: Option<Info> },
}

/// Reads runs from a position to the end, with that many places lent.
pub fn read_stream(input: &[u8], at: usize, signed: bool, places: usize) -> Stream {
    let mut rows = Vec::new();
    let mut consumed = 0;
    let mut last = None;
    loop {
        // A position past the end is empty input, so this sum is never past a run's own bytes.
        match read_run(input, at.saturating_add(consumed), signed, places - rows.len()) {
            Answer::End => return Stream::Whole { rows, consumed, last },
            Answer::Refused(refusal) => return Stream::Refused { refusal, rows, consumed, last },
            Answer::Run(run) => {
                last = Some(run.info());
                rows.extend(run.rows);
                consumed += run.consumed;
            }
        }
    }
}
