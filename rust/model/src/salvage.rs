//! Salvage of a damaged stream (FORMAT.md, "Salvage").
use crate::{read_stream, write_run, Form, Refusal, Stream, Written};

/// What salvage answers.
#[derive(Debug, Clone, PartialEq, Eq)]
pub enum Salvaged {
    /// What was written: a line a group, and the stream.
    Written {
        report: String,
        bytes: Vec<u8>,
    },
    Refused(Refusal),
}

/// The file's index: each row group's start byte and row count.
#[derive(Debug, Clone, Copy)]
pub struct Groups<'a> {
    pub starts: &'a [u64],
    pub rows: &'a [u64],
}

impl Groups<'_> {
    /// The groups' bytes: "up to the next start (or the end)". Nothing for "starts that don't begin at 0,
    /// don't rise strictly or pass the end (an empty list only with an empty stream)".
    fn cut<'a>(&self, input: &'a [u8]) -> Option<Vec<&'a [u8]>> {
        if self.starts.len() != self.rows.len() {
            return None;
        }
        let Some((first, _)) = self.starts.split_first() else {
            return input.is_empty().then(Vec::new);
        };
        let rise = self.starts.windows(2).all(|two| two[0] < two[1]);
        if *first != 0 || !rise || self.starts.iter().any(|start| *start > input.len() as u64) {
            return None;
        }
        let ends = self.starts[1..].iter().copied().chain([input.len() as u64]);
        Some(self.starts.iter().zip(ends).map(|(start, end)| &input[*start as usize..end as usize]).collect())
    }
}

/// "A group is kept, byte for byte, exactly if its bytes .. read as a whole stream of exactly its
/// rows."
fn is_kept(bytes: &[u8], signed: bool, count: u64) -> bool {
    match read_stream(bytes, 0, signed, usize::MAX) {
        Stream::Whole { rows, .. } => rows.len() as u64 == count,
        Stream::Refused { .. } => false,
    }
}

/// "Fixed delta runs of the fill row, delta 0, 512 rows each and the remainder last; a group of 0 rows
/// becomes no bytes." Nothing where they are more bytes than are lent in all.
fn filled(fill: i64, signed: bool, count: u64, lent: usize) -> Option<Vec<u8>> {
    let run = |rows: u64| match write_run(&vec![fill; rows as usize], signed, Form::FixedDelta, 0, usize::MAX)
    {
        Written::Run { bytes, .. } => bytes,
        Written::Refused(refusal) => unreachable!("equal rows are a fixed delta: {refusal:?}"),
    };
    let mut bytes = Vec::new();
    let mut left = count;
    while left > 0 {
        let rows = left.min(512);
        bytes.extend(run(rows));
        left -= rows;
        if bytes.len() > lent {
            return None;
        }
    }
    Some(bytes)
}

/// Salvages a stream, with that many bytes lent for it and for the report. "Refusals, nothing written:
/// 17 .., then 8."
pub fn salvage(input: &[u8], signed: bool, groups: Groups, fill: i64, lent: [usize; 2]) -> Salvaged {
    let Some(cut) = groups.cut(input) else {
        return Salvaged::Refused(Refusal::whole(17, 0));
    };
    let (mut report, mut bytes) = (String::new(), Vec::new());
    for (number, (group, count)) in cut.into_iter().zip(groups.rows).enumerate() {
        let kept = is_kept(group, signed, *count);
        let word = if kept { "kept" } else { "replaced" };
        report += &format!("{word} {number} {count}\n");
        let written = if kept { Some(group.to_vec()) } else { filled(fill, signed, *count, lent[0]) };
        bytes.extend(match written {
            Some(written) => written,
            None => return Salvaged::Refused(Refusal::whole(8, 0)),
        });
    }
    if bytes.len() > lent[0] || report.len() > lent[1] {
        return Salvaged::Refused(Refusal::whole(8, 0));
    }
    Salvaged::Written { report, bytes }
}
