//! Reads and writes the integer runs (RLEv2), booleans and byte values of Apache ORC files.
//!
//! The readers and the writers are proved, in the crate `exports` of the same repository, and linked
//! from a static library; this crate is the safe way to them. Every call is answered: an input that
//! is none of the format's is a [`Refused`], with its number, its place, the byte of the field that is
//! cut, if one is, and a text that says what to do. A refused call leaves every lent place as it was. Every error
//! becomes an [`io::Error`](std::io::Error) by `?`.
//!
//! Rows are counted by [`RowNumber`] and bytes of a stream by [`ByteOffset`]; the length of a slice or of a buffer
//! is a `usize`, and both are made of it by [`From`].
//!
//! | What | Functions |
//! |---|---|
//! | a column of integers | [`Column`]: [`read_into`](Column::read_into), [`read_to_end`](Column::read_to_end), [`rows`](Column::rows), [`runs`](Column::runs) |
//! | the same in batches, or from a position that a row index gives | [`batches`](Column::batches), [`read_at`](Column::read_at), [`RowPosition`], [`read_rows`] |
//! | the same by the names of `orc-rs`, for those who move over | [`orc_rs`] |
//! | a column that arrives in parts | [`PartReader`]: [`next_run`](PartReader::next_run), [`close`](PartReader::close) |
//! | one integer run, or all to the end | [`read_run`], [`read_stream`] |
//! | a column of flags, all at once | [`read_booleans`] |
//! | the same in batches, or from a position | [`Flags`], [`FlagPosition`], [`read_flags`] |
//! | bytes of byte runs in batches, or from a position | [`Bytes`], [`BytePosition`], [`read_bytes`] |
//! | a column with rows that are missing | [`Nullable`], [`spread`] |
//! | how many flags are true, packed eight to a byte | [`count_true`] |
//! | a byte value, as a part of the input | [`byte_value`] |
//! | an index beside a column, to start at any row | [`Index`]: [`build`](Index::build), [`look_up`](Index::look_up), [`rows`](Index::rows), [`rows_from`](Index::rows_from) |
//! | the names of all rows, by a dictionary, or of one | [`Labels`], [`label_column`], [`label`] |
//! | a damaged column salvaged, by row groups that begin where runs begin | [`salvage()`] |
//! | its rows rescued, by the positions that its row index lists | [`rescue()`], [`rescue_into`] |
//! | a column's odd widths retired | [`convert()`] |
//! | a column written, cut into runs by the planner | [`write_column`], [`column_room`] |
//! | the same by a proposal of one's own | [`Proposal`], [`plan`], [`check_column`], [`write_proposed`] |
//! | flags or bytes written, in the fewest bytes | [`write_booleans`], [`boolean_room`], [`write_bytes`], [`byte_room`] |
//! | a run written | [`write_run`], [`write_patched`], [`narrowest_code`] |
//! | the library that is linked | [`check_version`], [`library_version`] |
//!
//! ```
//! use menakovitsy::{Column, RowNumber, Sign};
//!
//! menakovitsy::check_version()?;
//! let bytes = [0x0A, 0x01, 0x2C, 0x46, 0x02, 0x12, 0x30];
//! let mut rows = [0; 8];
//! let read = Column::new(&bytes, Sign::Unsigned).read_into(&mut rows)?;
//! assert_eq!(read.rows, RowNumber(8));
//! assert_eq!(rows, [300, 300, 300, 300, 300, 1, 2, 3]);
//! # Ok::<(), Box<dyn std::error::Error>>(())
//! ```
//!
//! # Building
//!
//! In a release's folder the build script takes the library for cargo's target that stands there: x86-64, x86-64-v3
//! (if the target has all of its features) or Arm. In a checkout, for x86-64, it
//! proves and builds the library in its own output folder by `rt lib`, over what `rt` has kept on this machine, and
//! cargo shows that it does. If `MENAKOVITSY_LIB_DIR` is set, it takes what that folder holds, of a release or of what
//! `rt lib` left in `crates/exports/out`, and runs nothing. Programs in C link the same library, by `menakovitsy.h`.
#![warn(missing_docs, clippy::missing_errors_doc)]

// Which processor the library is for, the build script finds in it.
#[cfg(not(all(target_endian = "little", target_pointer_width = "64")))]
compile_error!(
    "libmenakovitsy.a is for a little-endian processor with 64-bit pointers (x86-64 or Arm): build for one"
);

mod ahead;
mod answers;
mod batches;
mod byte_writer;
mod bytes;
mod column;
mod columns;
mod convert;
pub mod exported;
mod flags;
mod form;
mod index;
mod labels;
mod library;
mod nullable;
mod ones;
pub mod orc_rs;
mod parts;
mod patched;
mod refusal;
mod rescue;
mod rows;
mod salvage;
mod units;
mod version;

pub use answers::{Kind, Refused, Run, Stream, StreamRefused};
pub use batches::{read_rows, Batch, Batches, RowPosition};
pub use byte_writer::{
    boolean_room, byte_room, size_of_booleans, size_of_bytes, write_booleans, write_bytes, Flag,
};
pub use bytes::{read_bytes, BytePosition, Bytes};
pub use column::{Column, RunAt, Runs};
pub use columns::{
    check_column, column_room, plan, plan_into, write_column, write_proposed, Proposal, Segment,
    WrittenColumn,
};
pub use convert::{convert, Converted};
pub use exported::{MAX_ROWS, MAX_RUN_BYTES};
pub use flags::{read_flags, FlagPosition, Flags};
pub use form::Form;
pub use index::{Entry, Index};
pub use labels::{label, label_column, Dictionary, Label, LabelIter, Labels, LabelsRefused};
pub use library::{
    byte_value, library_version, narrowest_code, read_booleans, read_run, read_run_bytes, read_stream,
    unpack, write_run, Counts,
};
pub use nullable::{spread, Nullable};
pub use ones::count_true;
pub use parts::{PartReader, PartRun};
pub use patched::write_patched;
pub use refusal::Refusal;
pub use rescue::{rescue, rescue_into, PositionedGroup, Rescued, RescuedInto, Verdict, MOST_LOST};
pub use rows::Rows;
pub use salvage::{salvage, Group, Salvaged, MOST_FILL};
pub use units::{ByteOffset, RowNumber};
pub use version::{check_version, OtherVersion};

/// The most bytes that one written run takes up: with that many places, none is refused for want of
/// them. It is a patched run of 512 rows of 64 bits over a base of 8 bytes.
pub const MAX_WRITTEN: usize = 4108;

/// Whether a column's rows are signed.
#[derive(Debug, Clone, Copy, PartialEq, Eq, Hash)]
pub enum Sign {
    /// Rows are unsigned: one at or above 2^63 shows as the `i64` with the same bits.
    Unsigned,
    /// Rows are signed (zigzag).
    Signed,
}

impl Sign {
    #[inline]
    fn flag(self) -> u64 {
        match self {
            Sign::Unsigned => 0,
            Sign::Signed => 1,
        }
    }
}
