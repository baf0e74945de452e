//! Rows and flags read batch by batch: the Rust's iterators, and ours, held to the model.
//!
//! An iterator has no position, so the Rust is asked from the start on alone, and only for what it reads
//! rightly: streams that it reads as the model does, and flags within their first byte run.
use model::{Batch, FlagPosition, Flags, RowPosition};
use oracle::Outcome;

use super::Session;
use crate::frames;
use crate::listed::{self, Call, Sort};
use model::random::Random;

/// How many calls of the Rust's iterator are made.
const CALLS: usize = 100_000;

/// The batches of a column, each with the position that it was read at and the places it had.
struct Read<P, B> {
    at: P,
    places: usize,
    batch: B,
}

/// Reads a column in batches of random sizes to its end or to a refusal, which comes last.
fn rows(bytes: &[u8], signed: bool, random: &mut Random) -> Vec<Read<RowPosition, Batch>> {
    let mut at = RowPosition { run: 0, skip: 0 };
    let mut read = Vec::new();
    loop {
        let places = random.pick(&[1, 2, 3, 10, 100, 512, 1024]);
        let batch = model::read_rows(bytes, at, signed, places);
        let next = if let Batch::Given { next, .. } = batch { Some(next) } else { None };
        read.push(Read { at, places, batch });
        match next {
            Some(next) => at = next,
            None => return read,
        }
    }
}

/// Reads flags in batches of random sizes, to a refusal, which comes last.
fn flags(bytes: &[u8], random: &mut Random) -> Vec<Read<FlagPosition, Flags>> {
    let mut at = FlagPosition { run: 0, bytes: 0, bits: 0 };
    let mut read = Vec::new();
    loop {
        let places = random.pick(&[1, 3, 7, 8, 9, 100, 1024]);
        let batch = model::read_flags(bytes, at, places as u64, places);
        let next = if let Flags::Given { next, .. } = batch { Some(next) } else { None };
        read.push(Read { at, places, batch });
        match next {
            Some(next) => at = next,
            None => return read,
        }
    }
}

/// What the Rust's next calls come to, for a batch of rows of the model's: nothing if they differ.
fn rows_sort(items: &mut &[Result<i64, oracle::Case>], read: &Read<RowPosition, Batch>) -> Option<Sort> {
    match &read.batch {
        Batch::Given { rows, .. } => {
            let (given, rest) = items.split_at_checked(rows.len())?;
            *items = rest;
            // Fewer rows than places come before the end, or before an error.
            let last = rows.len() == read.places || !matches!(rest.first(), Some(Ok(_)));
            let same = given.iter().zip(rows).all(|(item, row)| *item == Ok(*row));
            (same && last).then_some(Sort::Same)
        }
        Batch::End => items.is_empty().then_some(Sort::End),
        Batch::Refused(refusal) => {
            matches!(items.first(), Some(Err(_))).then_some(Sort::Refused(refusal.number))
        }
    }
}

impl Session {
    pub(super) fn in_batches(&mut self) {
        self.tally.stage("rows and flags in batches");
        for _ in 0..self.size.pick(2_000, 60_000, 600_000) {
            let stream = frames::any_stream(&mut self.random);
            let signed = self.random.once_in(2);
            self.rows_in_batches(&stream, signed);
            let bytes = frames::any_booleans(&mut self.random);
            self.flags_in_batches(&bytes);
        }
    }

    fn rows_in_batches(&mut self, bytes: &[u8], signed: bool) {
        let read = rows(bytes, signed, &mut self.random);
        let call = Call::Stream { signed };
        let rust = oracle::read_stream(bytes, signed, CALLS);
        if let Some(Sort::Same | Sort::Refused(_)) = listed::of_stream(bytes, signed, &rust) {
            let mut items = &rust.items[..];
            for read in &read {
                let sort = rows_sort(&mut items, read);
                self.tally.record(sort, bytes, call, || {
                    [format!("{:?} at {:?}", read.batch, read.at), format!("{items:?}")]
                });
            }
        }
        #[cfg(feature = "ours")]
        if self.ours.is_some() {
            for Read { at, places, batch } in &read {
                match crate::ours::batches::check_rows(bytes, *at, signed, *places, batch) {
                    Ok(()) => self.tally.ours(1),
                    Err(answer) => self.tally.differs(bytes, call, &format!("{batch:?}"), "ours", &answer),
                }
            }
            let size = self.random.pick(&[1, 3, 100, 512, 1024, 5000]);
            match crate::ours::batches::check_batches(bytes, signed, size) {
                Ok(()) => self.tally.ours(1),
                Err(answer) => self.tally.differs(bytes, call, "the stream's rows", "ours", &answer),
            }
        }
    }

    fn flags_in_batches(&mut self, bytes: &[u8]) {
        let read = flags(bytes, &mut self.random);
        // Within the first run the Rust reads rightly.
        let n = model::first_run(bytes).map_or(0, |(run, _)| 8 * run.len());
        let rust = oracle::read_booleans(bytes, n);
        if let (Outcome::Given { values, .. }, true) = (&rust, n > 0) {
            let mut given = &values[..];
            for Read { at, batch, .. } in &read {
                let Flags::Given { values, .. } = batch else { break };
                let Some((first, rest)) = given.split_at_checked(values.len()) else { break };
                given = rest;
                let sort = (first == values).then_some(Sort::Same);
                self.tally.record(sort, bytes, Call::Booleans { n }, || {
                    [format!("{values:?} at {at:?}"), format!("{first:?}")]
                });
            }
        }
        #[cfg(feature = "ours")]
        if self.ours.is_some() {
            for Read { at, places, batch } in &read {
                let answer = crate::ours::batches::check_flags(bytes, *at, *places, batch);
                match answer {
                    Ok(()) => self.tally.ours(1),
                    Err(answer) => {
                        let call = Call::Booleans { n: *places };
                        self.tally.differs(bytes, call, &format!("{batch:?}"), "ours", &answer);
                    }
                }
            }
        }
    }
}
