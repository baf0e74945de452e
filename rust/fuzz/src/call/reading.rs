//! Calls of the readers, and what the model answers them.
use menakovitsy::exported::RUN_WORDS;
use model::{Answer, Booleans, Stream, Value};

use super::Outcome;

/// The one number of `orc_read_run`, and the rows as bytes.
pub fn packed(input: &[u8], signed: bool, places: usize) -> Outcome {
    match model::read_run(input, 0, signed, places) {
        Answer::End => Outcome::default(),
        Answer::Refused(refusal) => Outcome { returned: refusal.number.into(), ..Outcome::default() },
        Answer::Run(run) => Outcome {
            returned: 65_536 * run.consumed as u64 + run.rows.len() as u64,
            bytes: run.rows.iter().flat_map(|row| row.to_le_bytes()).collect(),
            ..Outcome::default()
        },
    }
}

pub fn run(input: &[u8], at: usize, signed: bool, places: usize) -> Outcome {
    match model::read_run(input, at, signed, places) {
        Answer::End => Outcome::of([0; RUN_WORDS]),
        Answer::Refused(refusal) => Outcome::refused(refusal),
        Answer::Run(run) => Outcome { rows: run.rows.clone(), ..Outcome::read(run.info()) },
    }
}

pub fn stream(input: &[u8], at: usize, signed: bool, places: usize) -> Outcome {
    match model::read_stream(input, at, signed, places) {
        Stream::Whole { rows, consumed, last } => Outcome::stream(None, rows, consumed, last),
        Stream::Refused { refusal, rows, consumed, last } => {
            Outcome::stream(Some(refusal), rows, consumed, last)
        }
    }
}

pub fn booleans(input: &[u8], at: usize, n: usize, places: usize) -> Outcome {
    let answer = model::read_booleans(input, at, n, places);
    match (&answer, answer.info()) {
        (Booleans::Given { values, .. }, Some(info)) => {
            let bytes = values.iter().map(|value| u8::from(*value)).collect();
            Outcome { bytes, ..Outcome::read(info) }
        }
        (Booleans::Refused(refusal), _) => Outcome::refused(*refusal),
        (Booleans::Given { .. }, None) => unreachable!("what is given is named"),
    }
}

pub fn value(input: &[u8], at: usize, n: usize) -> Outcome {
    let answer = model::read_value(input, at, n);
    match (&answer, answer.info()) {
        (_, Some(info)) => Outcome::read(info),
        (Value::Refused(refusal), _) => Outcome::refused(*refusal),
        (Value::Given(_), None) => unreachable!("what is given is named"),
    }
}
