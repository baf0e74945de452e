//! What calls answer. Later versions of the library answer more: every type here may gain fields or
//! cases, and [`Words`] is the one place that turns the library's words into them.
mod words;

use std::error::Error;
use std::{fmt, io};

use crate::exported::kind;
use crate::{ByteOffset, Refusal, RowNumber};

pub(crate) use words::Words;

/// The kind of what was read or written.
#[derive(Debug, Clone, Copy, PartialEq, Eq, Hash)]
#[non_exhaustive]
pub enum Kind {
    /// An integer run: one value, 3 to 10 times.
    ShortRepeat,
    /// An integer run: packed rows.
    Direct,
    /// An integer run: packed rows over a base, some of them patched.
    PatchedBase,
    /// An integer run: a first row and steps.
    Delta,
    /// Booleans.
    Booleans,
    /// A byte value.
    ByteValue,
    /// A number that this version of the wrapper does not know.
    Unknown(u64),
}

impl Kind {
    #[inline]
    fn of_number(number: u64) -> Self {
        match number {
            kind::SHORT_REPEAT => Kind::ShortRepeat,
            kind::DIRECT => Kind::Direct,
            kind::PATCHED_BASE => Kind::PatchedBase,
            kind::DELTA => Kind::Delta,
            kind::BOOLEANS => Kind::Booleans,
            kind::BYTE_VALUE => Kind::ByteValue,
            other => Kind::Unknown(other),
        }
    }
}

impl fmt::Display for Kind {
    fn fmt(&self, f: &mut fmt::Formatter) -> fmt::Result {
        f.pad(match self {
            Kind::ShortRepeat => "short repeat",
            Kind::Direct => "direct",
            Kind::PatchedBase => "patched base",
            Kind::Delta => "delta",
            Kind::Booleans => "booleans",
            Kind::ByteValue => "byte value",
            Kind::Unknown(_) => "unknown kind",
        })
    }
}

/// What was read or written: a run, booleans or a byte value.
#[derive(Debug, Clone, Copy, PartialEq, Eq, Hash)]
#[non_exhaustive]
pub struct Run {
    /// Its kind.
    pub kind: Kind,
    /// The width of its values in bits: of a short repeat 8 for each byte of its value, of a fixed delta
    /// 0, of packed rows and packed magnitudes theirs; of booleans 1, of a byte value 8.
    pub width: u64,
    /// How many rows it has, from the first lent place on (booleans: how many; a byte value: its length).
    pub rows: RowNumber,
    /// How many bytes it takes up: the next run begins there. Of the writer: how many were written.
    pub bytes: ByteOffset,
}

/// What the stream reader read: the runs' rows joined, and their bytes; and the last run of them.
#[must_use]
#[derive(Debug, Clone, Copy, PartialEq, Eq, Hash, Default)]
#[non_exhaustive]
pub struct Stream {
    /// How many rows the runs have, from the first lent place on.
    pub rows: RowNumber,
    /// How many bytes they take up.
    pub bytes: ByteOffset,
    /// The last run that was read; nothing if none was.
    pub last: Option<Run>,
}

impl Stream {
    /// The same, with a run after it.
    pub(crate) fn and(self, run: Run) -> Self {
        self.then(Stream { rows: run.rows, bytes: run.bytes, last: Some(run) })
    }

    /// The same, with more runs after it.
    pub(crate) fn then(self, more: Stream) -> Self {
        Stream { rows: self.rows + more.rows, bytes: self.bytes + more.bytes, last: more.last.or(self.last) }
    }
}

/// A refused call. No lent place has changed.
///
/// As text it says where, what and what to do. It becomes an [`io::Error`] by [`From`]:
/// [`UnexpectedEof`](io::ErrorKind::UnexpectedEof) if the input is cut ([`Refusal::is_cut`]),
/// [`InvalidInput`](io::ErrorKind::InvalidInput) for what the caller chose (8 to 11, 16 and 17),
/// [`Other`](io::ErrorKind::Other) for a number that the wrapper does not know, and
/// [`InvalidData`](io::ErrorKind::InvalidData) for all else.
#[derive(Debug, Clone, Copy, PartialEq, Eq, Hash)]
#[non_exhaustive]
pub struct Refused {
    /// Why it is refused.
    pub refusal: Refusal,
    /// The byte where the refused run begins, counted from the input's first byte; of booleans, byte values and
    /// byte runs the call's position. Nothing if no byte of an input is refused: of writers, of 15 to 21, and of
    /// 8 if the places are not a reader's.
    pub at: Option<ByteOffset>,
    /// The byte where the field begins that the input's end cuts: for 6, 12, 13 and 14, and for no
    /// other refusal. It counts from the input's first byte, like the place.
    pub cut: Option<ByteOffset>,
}

impl Refused {
    /// A refusal that is of no byte of an input.
    pub(crate) fn nowhere(refusal: Refusal) -> Self {
        Refused { refusal, at: None, cut: None }
    }

    /// What the number means here: a cut field by the byte that it begins at.
    #[must_use]
    pub fn meaning(&self) -> String {
        match self.cut {
            Some(byte) => {
                let field = self.refusal.cut_field().unwrap_or("field");
                format!("the {field} that begins at byte {byte} is cut")
            }
            None => self.refusal.meaning().into(),
        }
    }

    /// The number, what it means here and what to do.
    fn told(&self) -> String {
        format!("refusal {}: {} ({})", self.refusal.number(), self.meaning(), self.refusal.advice())
    }
}

/// A refused run of a stream. The runs before it were read, and their rows stand in the first lent
/// places.
///
/// For callers that do not ask what came before it, it becomes a [`Refused`] by [`From`], and an
/// [`io::Error`] of the same kind.
#[derive(Debug, Clone, Copy, PartialEq, Eq, Hash)]
#[non_exhaustive]
pub struct StreamRefused {
    /// Why the run is refused, and where it begins.
    pub refused: Refused,
    /// The runs before it.
    pub before: Stream,
}

impl fmt::Display for Refused {
    fn fmt(&self, f: &mut fmt::Formatter) -> fmt::Result {
        match self.at {
            Some(at) => write!(f, "at byte {at}: {}", self.told()),
            None => f.write_str(&self.told()),
        }
    }
}

// The text says all that the refusal itself would: so there is no source to print once more.
impl Error for Refused {}

impl fmt::Display for StreamRefused {
    fn fmt(&self, f: &mut fmt::Formatter) -> fmt::Result {
        let (rows, told) = (self.before.rows, self.refused.told());
        match self.refused.at {
            Some(at) => write!(f, "the run at byte {at}, after {rows} rows: {told}"),
            None => write!(f, "after {rows} rows: {told}"),
        }
    }
}

impl Error for StreamRefused {}

impl From<StreamRefused> for Refused {
    fn from(stream: StreamRefused) -> Self {
        stream.refused
    }
}

impl From<Refused> for io::Error {
    fn from(refused: Refused) -> Self {
        io::Error::new(refused.refusal.io_kind(), refused)
    }
}

impl From<StreamRefused> for io::Error {
    fn from(stream: StreamRefused) -> Self {
        io::Error::new(stream.refused.refusal.io_kind(), stream)
    }
}
