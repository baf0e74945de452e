//! Calls that read batches, spread rows or look up all labels, and what the model answers them.
use differential::stages::batches::{self, At};
use differential::stages::lined_up::{self, Labels, Spread};
use menakovitsy::exported::{case, BATCH_WORDS, BYTES_WORDS, FLAGS_WORDS, LABELS_WORDS, SPREAD_WORDS};
use model::random::Random;
use model::{Batch, BytePosition, Bytes, FlagPosition, Flags, LabelPlaces, Names, Refusal, RowPosition};

use super::{Lending, Outcome, MOST};

/// One of the calls.
#[derive(Debug, Clone, PartialEq, Eq)]
pub enum Asked {
    Rows { at: At, places: usize, input: Vec<u8> },
    Flags { n: u64, position: [u64; 3], places: usize, input: Vec<u8> },
    Bytes { n: u64, position: [u64; 2], places: usize, input: Vec<u8> },
    Spread(Spread),
    Labels(Labels),
}

/// Any of them.
pub fn any(flag: u64, random: &mut Random) -> Asked {
    match random.below(6) {
        0 => Asked::Spread(lined_up::any_spread(random)),
        1 => Asked::Labels(lined_up::any_labels(random)),
        _ => match batches::any(random) {
            batches::Asked::Rows { at, places, input } => {
                Asked::Rows { at: At { flag, ..at }, places: places.min(MOST), input }
            }
            batches::Asked::Batches { at, sizes, input } => {
                let places = random.pick(&sizes).min(MOST);
                Asked::Rows { at: At { flag, ..at }, places, input }
            }
            batches::Asked::Flags { n, position, places, input } => {
                Asked::Flags { n, position, places: places.min(MOST), input }
            }
            batches::Asked::Bytes { n, position, places, input } => {
                Asked::Bytes { n, position, places: places.min(MOST), input }
            }
        },
    }
}

impl Asked {
    /// The function's name, and how many words its answer has.
    pub fn function(&self) -> (&'static str, usize) {
        match self {
            Asked::Rows { .. } => ("orc_read_rows", BATCH_WORDS),
            Asked::Flags { .. } => ("orc_read_flags", FLAGS_WORDS),
            Asked::Bytes { .. } => ("orc_read_bytes", BYTES_WORDS),
            Asked::Spread(_) => ("orc_spread", SPREAD_WORDS),
            Asked::Labels(_) => ("orc_label_column", LABELS_WORDS),
        }
    }

    pub fn lending(&self) -> Lending<'_> {
        let none = Lending::default();
        match self {
            Asked::Rows { places, input, .. } => Lending { input, rows: *places, ..none },
            Asked::Flags { places, input, .. } | Asked::Bytes { places, input, .. } => {
                Lending { input, bytes: *places, ..none }
            }
            Asked::Spread(Spread { flags, rows, places, .. }) => {
                Lending { flags, given: rows, rows: *places, ..none }
            }
            Asked::Labels(Labels { flags, numbers, lengths, places: [offsets, starts, sizes], .. }) => {
                let lent_columns = [*offsets, *starts, *sizes, 0, 0];
                Lending { flags, numbers, given: lengths, lent_columns, ..none }
            }
        }
    }

    /// The words of its answer, and what is written.
    pub fn outcome(&self) -> Outcome {
        match self {
            Asked::Rows { at, places, input } => rows(*at, *places, input),
            Asked::Flags { n, position: [run, bytes, bits], places, input } => {
                let position = FlagPosition { run: *run, bytes: *bytes, bits: *bits };
                flags(model::read_flags(input, position, *n, *places))
            }
            Asked::Bytes { n, position: [run, bytes], places, input } => {
                let position = BytePosition { run: *run, bytes: *bytes };
                bytes_of(model::read_bytes(input, position, *n, *places))
            }
            Asked::Spread(Spread { flags, rows, fill, places }) => {
                match model::spread(flags, rows, *fill, *places) {
                    model::Spread::Given(rows) => {
                        let words = [case::READ, 0, 0, rows.len() as u64];
                        Outcome { rows, ..Outcome::done(&words) }
                    }
                    model::Spread::Refused(refusal) => {
                        Outcome::done(&[case::REFUSED, refusal.number.into(), refusal.place as u64, 0])
                    }
                }
            }
            Asked::Labels(asked) => labels(asked),
        }
    }
}

/// The words of a refusal: those of its own are 0, and a cut field's stand after them.
fn refused(Refusal { number, place, cut }: Refusal, own: usize) -> Outcome {
    let mut words = vec![case::REFUSED, number.into(), place as u64];
    words.extend(vec![0; own]);
    words.extend([cut.is_some().into(), cut.unwrap_or(0) as u64]);
    Outcome::done(&words)
}

fn rows(At { flag, run, skip }: At, places: usize, input: &[u8]) -> Outcome {
    match model::read_rows(input, RowPosition { run, skip }, flag != 0, places) {
        Batch::End => Outcome::done(&[0; BATCH_WORDS]),
        Batch::Refused(refusal) => refused(refusal, 3),
        Batch::Given { rows, next } => {
            let words = [case::READ, 0, 0, rows.len() as u64, next.run, next.skip, 0, 0];
            Outcome { rows, ..Outcome::done(&words) }
        }
    }
}

fn flags(answer: Flags) -> Outcome {
    match answer {
        Flags::Refused(refusal) => refused(refusal, 4),
        Flags::Given { values, next: FlagPosition { run, bytes, bits } } => {
            let words = [case::READ, 0, 0, values.len() as u64, run, bytes, bits, 0, 0];
            let bytes = values.into_iter().map(u8::from).collect();
            Outcome { bytes, ..Outcome::done(&words) }
        }
    }
}

fn bytes_of(answer: Bytes) -> Outcome {
    match answer {
        Bytes::Refused(refusal) => refused(refusal, 3),
        Bytes::Given { values, next: BytePosition { run, bytes } } => {
            let words = [case::READ, 0, 0, values.len() as u64, run, bytes, 0, 0];
            Outcome { bytes: values, ..Outcome::done(&words) }
        }
    }
}

fn labels(asked: &Labels) -> Outcome {
    let Labels { flags, numbers, lengths, block_length, places: [offsets, starts, sizes] } = asked;
    let names = Names { flags, numbers, lengths, block_length: *block_length };
    let places = LabelPlaces { offsets: *offsets, starts: *starts, sizes: *sizes };
    match model::label_column(names, places) {
        model::Labels::Refused { refusal, row } => {
            let words = [case::REFUSED, refusal.number.into(), 0, 0, row.unwrap_or(0)];
            Outcome::done(&words)
        }
        model::Labels::Given { offsets, parts } => {
            let words = [case::READ, 0, 0, parts.len() as u64, 0];
            let starts = parts.iter().map(|part| part.start).collect();
            let sizes = parts.iter().map(|part| part.size).collect();
            Outcome { columns: [offsets, starts, sizes, vec![], vec![]], ..Outcome::done(&words) }
        }
    }
}
