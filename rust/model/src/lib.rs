//! A model of the rules that docs/FORMAT.md states, written bit by bit from their text: neither from the
//! proved code nor from the Rust decoders, so that it is a third opinion where those two are compared.
//! (Sentences in quotation marks are of the pages that the rules were ordered by; FORMAT.md says the same
//! in its own words.)
//!
//! It is slow and plain on purpose. Every reader takes the whole input and a position, and how many
//! places the caller lends; it answers what the rules say the call answers, with the rows as a
//! list of its own. [`vectors`] has lines to hold other readers to it.
//!
//! ```
//! use model::{read_run, Answer, Kind, Run};
//! let run = Run { kind: Kind::Direct, width: 4, rows: vec![-1, 1, -2], consumed: 4 };
//! assert_eq!(read_run(&[0x46, 0x02, 0x12, 0x30], 0, true, 512), Answer::Run(run));
//! ```
#![forbid(unsafe_code)]

mod batches;
mod bits;
mod booleans;
mod byte_runs;
mod convert;
mod flags;
mod index;
mod label_column;
mod labels;
mod lines;
mod optimum;
mod parts;
mod patched_writer;
mod planner;
pub mod random;
mod rescue;
mod runs;
mod salvage;
mod sizes;
mod spread;
mod streams;
mod totals;
mod values;
pub mod vectors;
mod writer;

pub use batches::{read_rows, Batch, RowPosition};
pub use bits::{zigzag, WIDTHS};
pub use booleans::{first_run, read_booleans, Booleans};
pub use byte_runs::{chosen_byte_runs, least_size, packed_flags, plain_byte_runs, runs_stand_for};
pub use convert::{convert, Converted};
pub use flags::{read_bytes, read_flags, BytePosition, Bytes, FlagPosition, Flags};
pub use index::{build_index, look_up, read_from, Columns, Entry, Index, Lookup, Rows};
pub use label_column::{label_column, LabelPlaces, Labels, Names, Part};
pub use labels::{label, Dictionary, Label};
pub use lines::{answer_line, answer_lines, frame_of};
pub use optimum::{optimum, Lists};
pub use parts::{read_parts, Parts};
pub use patched_writer::write_patched;
pub use planner::{check_proposal, proposal_of, write_column, write_direct, Column, Segment};
pub use rescue::{rescue, Positions, Rescued};
pub use runs::{list_faults, read_run, Faults};
pub use salvage::{salvage, Groups, Salvaged};
pub use sizes::{direct_size, fixed_delta_size, packed_delta_size, patched_size, short_repeat_size};
pub use spread::{spread, Spread};
pub use streams::{read_stream, Stream};
pub use totals::{count_true, Ones, Totals, MOST};
pub use values::{read_value, Value};
pub use writer::{narrowest_code, write_run, Form, Written, KEPT};

/// The kind of a run. "Booleans and byte values are kinds of their own."
#[derive(Debug, Clone, Copy, PartialEq, Eq, Hash, PartialOrd, Ord)]
pub enum Kind {
    ShortRepeat,
    Direct,
    PatchedBase,
    Delta,
    Booleans,
    ByteValue,
}

/// What an answer says of a run beside its rows: "its kind, value width in bits (8 × size for short
/// repeat, 0 for a fixed delta), rows and bytes".
#[derive(Debug, Clone, Copy, PartialEq, Eq)]
pub struct Info {
    pub kind: Kind,
    pub width: usize,
    pub rows: usize,
    pub bytes: usize,
}

/// A run: its kind, the width of its values in bits, its rows, and the bytes that it takes up.
#[derive(Debug, Clone, PartialEq, Eq)]
pub struct Run {
    pub kind: Kind,
    pub width: usize,
    pub rows: Vec<i64>,
    pub consumed: usize,
}

impl Run {
    pub fn info(&self) -> Info {
        Info { kind: self.kind, width: self.width, rows: self.rows.len(), bytes: self.consumed }
    }
}

/// A refusal: its number, and the byte where the refused run begins.
#[derive(Debug, Clone, Copy, PartialEq, Eq)]
pub struct Refusal {
    pub number: u8,
    pub place: usize,
    /// The byte where the field begins that the input's end cuts: for 6, 12, 13 and 14, and for no
    /// other number.
    pub cut: Option<usize>,
}

impl Refusal {
    /// A refusal with a number that no cut field goes with.
    pub fn whole(number: u8, place: usize) -> Self {
        Refusal { number, place, cut: None }
    }

    /// A refusal for a field that is cut.
    pub fn cut(number: u8, place: usize, byte: usize) -> Self {
        Refusal { number, place, cut: Some(byte) }
    }
}

/// What the run reader answers.
#[derive(Debug, Clone, PartialEq, Eq)]
pub enum Answer {
    End,
    Run(Run),
    Refused(Refusal),
}

/// The bytes from a position on. "A position past the end is empty input."
fn rest(input: &[u8], at: usize) -> &[u8] {
    input.get(at..).unwrap_or(&[])
}
