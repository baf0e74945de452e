//! What a stream file is taken for: integers, flags or bytes; and the kinds of runs that each has.
use std::fmt;

use menakovitsy::{Kind, Sign};

use crate::arguments::Arguments;
use crate::ended::Failure;

/// What the file holds.
#[derive(Debug, Clone, Copy, PartialEq, Eq)]
pub enum Stream {
    /// RLE version 2.
    Integers(Sign),
    /// Byte runs, eight flags to a byte.
    Flags,
    /// Byte runs, a row a byte.
    Bytes(Sign),
}

impl Stream {
    /// Takes `--flags`, `--bytes` and `--signed`.
    pub fn of(arguments: &mut Arguments) -> Result<Self, Failure> {
        let [flags, bytes] = ["--flags", "--bytes"].map(|name| arguments.flag(name));
        let signed = arguments.flag("--signed");
        let sign = if signed { Sign::Signed } else { Sign::Unsigned };
        match (flags, bytes) {
            (true, true) => Err(Failure::Usage("options --flags and --bytes exclude each other".into())),
            (true, _) if signed => {
                Err(Failure::Usage("options --flags and --signed exclude each other".into()))
            }
            (true, _) => Ok(Stream::Flags),
            (_, true) => Ok(Stream::Bytes(sign)),
            _ => Ok(Stream::Integers(sign)),
        }
    }

    /// The kinds of its runs, in the order in which they are shown.
    pub fn kinds(self) -> &'static [RunKind] {
        match self {
            Stream::Integers(_) => {
                &[RunKind::ShortRepeat, RunKind::Direct, RunKind::PatchedBase, RunKind::Delta]
            }
            _ => &[RunKind::Repeat, RunKind::Literals],
        }
    }
}

/// The kind of a run.
#[derive(Debug, Clone, Copy, PartialEq, Eq, PartialOrd, Ord)]
pub enum RunKind {
    ShortRepeat,
    Direct,
    PatchedBase,
    Delta,
    /// A byte run: one byte, many times.
    Repeat,
    /// A byte run: bytes as they are.
    Literals,
}

impl RunKind {
    /// The kind of an integer run; nothing for one that this command does not know.
    pub fn of(kind: Kind) -> Option<Self> {
        match kind {
            Kind::ShortRepeat => Some(RunKind::ShortRepeat),
            Kind::Direct => Some(RunKind::Direct),
            Kind::PatchedBase => Some(RunKind::PatchedBase),
            Kind::Delta => Some(RunKind::Delta),
            _ => None,
        }
    }

    pub fn name(self) -> &'static str {
        match self {
            RunKind::ShortRepeat => "short repeat",
            RunKind::Direct => "direct",
            RunKind::PatchedBase => "patched base",
            RunKind::Delta => "delta",
            RunKind::Repeat => "repeat",
            RunKind::Literals => "literals",
        }
    }
}

impl fmt::Display for RunKind {
    fn fmt(&self, f: &mut fmt::Formatter) -> fmt::Result {
        f.pad(self.name())
    }
}
