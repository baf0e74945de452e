//! What a call is lent, and what it comes to.
use menakovitsy::exported::{case, kind, RUN_WORDS};
use model::{Info, Kind, Refusal};

/// What a call comes to: what it returns, its words (none where it is lent too few, or takes none),
/// and what stands in the first places.
#[derive(Debug, Clone, Default, PartialEq, Eq)]
pub struct Outcome {
    pub returned: u64,
    pub words: Vec<u64>,
    pub rows: Vec<i64>,
    pub bytes: Vec<u8>,
    pub columns: [Vec<u64>; 5],
    pub report: Vec<u8>,
}

/// What a call is lent: what it is given to read, and how many places it may write to.
#[derive(Debug, Clone, Copy, Default)]
pub struct Lending<'a> {
    pub input: &'a [u8],
    pub given: &'a [i64],
    /// What only a label is asked of, beside the lengths and the block.
    pub numbers: &'a [i64],
    pub flags: &'a [u8],
    pub fallback: &'a [u8],
    /// Columns that are read; and how many places those have that are written.
    pub columns: [&'a [u64]; 5],
    pub lent_columns: [usize; 5],
    pub rows: usize,
    pub bytes: usize,
    pub report: usize,
}

impl Outcome {
    pub(super) fn of(words: [u64; RUN_WORDS]) -> Self {
        Outcome { returned: words[1], words: words.to_vec(), ..Outcome::default() }
    }

    pub(super) fn counted(refusal: Refusal, rows: usize, bytes: usize) -> Self {
        let number = u64::from(refusal.number);
        let (cut, cut_at) = (u64::from(refusal.cut.is_some()), refusal.cut.unwrap_or(0) as u64);
        Self::of([case::REFUSED, number, refusal.place as u64, 0, rows as u64, bytes as u64, cut, cut_at, 0])
    }

    pub(super) fn refused(refusal: Refusal) -> Self {
        Self::counted(refusal, 0, 0)
    }

    /// Of words of its own.
    pub(super) fn done(words: &[u64]) -> Self {
        Outcome { returned: words[1], words: words.to_vec(), ..Outcome::default() }
    }

    pub(super) fn read(run: Info) -> Self {
        let [kind, width, rows, bytes] = named(Some(run));
        Self::of([case::READ, 0, 0, kind, rows, bytes, 0, 0, width])
    }

    /// The stream's, with its last run.
    pub(super) fn stream(refusal: Option<Refusal>, rows: Vec<i64>, bytes: usize, last: Option<Info>) -> Self {
        let mut outcome = match refusal {
            Some(refusal) => Self::counted(refusal, rows.len(), bytes),
            None => Self::of([case::READ, 0, 0, 0, rows.len() as u64, bytes as u64, 0, 0, 0]),
        };
        outcome.words.push(last.is_some().into());
        outcome.words.extend(named(last));
        Outcome { rows, ..outcome }
    }
}

/// A run's kind, width, rows and bytes; 0 each where there is none.
pub(crate) fn named(run: Option<Info>) -> [u64; 4] {
    run.map_or([0; 4], |run| [number(run.kind), run.width as u64, run.rows as u64, run.bytes as u64])
}

fn number(kind: Kind) -> u64 {
    match kind {
        Kind::ShortRepeat => kind::SHORT_REPEAT,
        Kind::Direct => kind::DIRECT,
        Kind::PatchedBase => kind::PATCHED_BASE,
        Kind::Delta => kind::DELTA,
        Kind::Booleans => kind::BOOLEANS,
        Kind::ByteValue => kind::BYTE_VALUE,
    }
}
