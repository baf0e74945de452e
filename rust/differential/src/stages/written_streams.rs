//! Streams that the model writes (FORMAT.md, "Salvage", "Column writer" and "Converter"), read back by the Rust.
use model::{Column, Converted, Groups, Salvaged, Segment, Stream, KEPT};
use oracle::Stopped;

use super::Session;
use crate::frames;
use crate::listed::{self, Call, Sort};
use model::random::Random;

const ROOM: usize = 1 << 20;

/// The rows of a whole stream.
fn rows_of(bytes: &[u8], signed: bool) -> Option<Vec<i64>> {
    match model::read_stream(bytes, 0, signed, usize::MAX) {
        Stream::Whole { rows, .. } => Some(rows),
        Stream::Refused { .. } => None,
    }
}

/// A stream that salvage writes, and the rows that it stands for: group by group, as the report says.
fn salvaged(signed: bool, random: &mut Random) -> (Vec<u8>, Vec<i64>) {
    let fill = random.any() as i64 >> random.below(64);
    let (mut stream, mut starts, mut counts) = (Vec::new(), Vec::new(), Vec::new());
    let mut groups = Vec::new();
    for _ in 0..random.from(1, 4) {
        let group = frames::any_stream(random);
        let whole = rows_of(&group, signed).map(|rows| rows.len() as u64);
        if group.is_empty() {
            continue;
        }
        starts.push(stream.len() as u64);
        counts.push(whole.filter(|_| !random.once_in(8)).unwrap_or(random.below(1100) as u64));
        stream.extend(&group);
        groups.push(group);
    }
    let pairs = Groups { starts: &starts, rows: &counts };
    let Salvaged::Written { report, bytes } = model::salvage(&stream, signed, pairs, fill, [ROOM; 2]) else {
        unreachable!("the starts rise from 0, and there is room");
    };
    let lines = report.lines().zip(groups).zip(counts);
    let rows = lines.flat_map(|((line, group), count)| match line.starts_with("kept ") {
        true => rows_of(&group, signed).expect("a kept group is whole"),
        false => vec![fill; count as usize],
    });
    (bytes, rows.collect())
}

/// A column, by a proposal that is accepted or not.
fn column(signed: bool, random: &mut Random) -> (Vec<u8>, Vec<i64>) {
    let (mut rows, mut proposal) = (Vec::new(), Vec::new());
    for _ in 0..random.below(4) {
        let (mut some, form, width) = frames::any_rows(random);
        some.truncate(40);
        let (form, width) = match random.once_in(3) {
            true => (4, random.pick(&KEPT) as u64),
            false => (form as u64, width.into()),
        };
        let base = some.iter().min().copied().unwrap_or(0) as u64;
        proposal.push(Segment { first: rows.len() as u64, rows: some.len() as u64, form, width, base });
        rows.extend(some);
    }
    match model::write_column(&rows, signed, &proposal, ROOM) {
        Column::Planned(bytes) | Column::Direct(bytes) => (bytes, rows),
        Column::Refused(refusal) => unreachable!("there is room: {refusal:?}"),
    }
}

/// A stream that the converter writes.
fn converted(signed: bool, random: &mut Random) -> Option<(Vec<u8>, Vec<i64>)> {
    let stream = frames::any_stream(random);
    match model::convert(&stream, signed, ROOM) {
        Converted::Written { bytes, .. } => Some((bytes, rows_of(&stream, signed)?)),
        Converted::Refused(_) => None,
    }
}

impl Session {
    pub(super) fn written_streams(&mut self) {
        self.tally.stage("salvaged, planned and converted streams read back");
        for _ in 0..self.size.pick(500, 30_000, 300_000) {
            let signed = self.random.once_in(2);
            let written = [
                Some(salvaged(signed, &mut self.random)),
                Some(column(signed, &mut self.random)),
                converted(signed, &mut self.random),
            ];
            for (bytes, rows) in written.into_iter().flatten() {
                self.read_back(&bytes, signed, &rows);
            }
        }
    }

    /// The Rust's iterator gives the rows and takes all the bytes, or meets a run that it does not read.
    pub(super) fn read_back(&mut self, bytes: &[u8], signed: bool, rows: &[i64]) {
        let rust = oracle::read_stream(bytes, signed, 100_000);
        let given = rust.items.iter().map(|item| item.as_ref().ok().copied());
        let same = given.eq(rows.iter().map(|row| Some(*row)))
            && (rust.consumed, rust.stopped) == (bytes.len(), Stopped::Done);
        let sort = match same {
            true => Some(Sort::Same),
            false => listed::of_stream(bytes, signed, &rust).filter(|sort| *sort != Sort::Same),
        };
        self.tally
            .record(sort, bytes, Call::ReadBack { signed }, || [format!("{rows:?}"), format!("{rust:?}")]);
    }
}
