//! The check in front of the column writer (FORMAT.md, "Column writer"). The planner itself is free in what
//! it proposes: whoever proposes, this says what is written.
use crate::{write_patched, write_run, Form, Refusal, Written};

/// A proposed run: five numbers, as they come from whoever proposes.
#[derive(Debug, Clone, Copy, PartialEq, Eq)]
pub struct Segment {
    pub first: u64,
    pub rows: u64,
    /// 0 short repeat, 1 direct, 2 fixed delta, 3 packed delta, 4 patched.
    pub form: u64,
    /// Bytes, code, code, code, and W in bits.
    pub width: u64,
    /// The bits of the patched base; not looked at in the other forms.
    pub base: u64,
}

/// What writing a column answers.
#[derive(Debug, Clone, PartialEq, Eq)]
pub enum Column {
    /// The proposal was accepted.
    Planned(Vec<u8>),
    /// It was not: direct runs of 64 bits.
    Direct(Vec<u8>),
    Refused(Refusal),
}

/// The proposal that stands in five lent columns: first rows, rows, forms, widths, bases. Unequal columns
/// are none.
pub fn proposal_of(columns: [&[u64]; 5]) -> Option<Vec<Segment>> {
    let [firsts, counts, forms, widths, bases] = columns;
    if columns.iter().any(|column| column.len() != firsts.len()) {
        return None;
    }
    let segment = |k: usize| Segment {
        first: firsts[k],
        rows: counts[k],
        form: forms[k],
        width: widths[k],
        base: bases[k],
    };
    Some((0..firsts.len()).map(segment).collect())
}

/// The bytes of a proposed run, if its writer accepts it.
fn run(rows: &[i64], signed: bool, segment: &Segment) -> Option<Vec<u8>> {
    let form = match segment.form {
        0 => Some(Form::ShortRepeat),
        1 => Some(Form::Direct),
        2 => Some(Form::FixedDelta),
        3 => Some(Form::PackedDelta),
        4 => None,
        _ => return None,
    };
    let written = match form {
        Some(form) => write_run(rows, signed, form, segment.width.try_into().ok()?, usize::MAX),
        None => write_patched(rows, segment.base as i64, segment.width.try_into().ok()?, usize::MAX),
    };
    match written {
        Written::Run { bytes, .. } => Some(bytes),
        Written::Refused(_) => None,
    }
}

/// The bytes of a proposal, if it is accepted: "exactly if it covers all rows in order with no overlap,
/// each run's writer accepts it, and the output has room".
pub fn check_proposal(rows: &[i64], signed: bool, proposal: &[Segment], lent: usize) -> Option<Vec<u8>> {
    let mut bytes = Vec::new();
    let mut next: usize = 0;
    for segment in proposal {
        if segment.first != next as u64 {
            return None;
        }
        let end = next.checked_add(segment.rows.try_into().ok()?)?;
        bytes.extend(run(rows.get(next..end)?, signed, segment)?);
        next = end;
    }
    (next == rows.len() && bytes.len() <= lent).then_some(bytes)
}

/// Writes a column by a proposal, with that many bytes lent. "If it isn't accepted, direct runs of 64
/// bits, 512 rows each and the rest last, are written instead"; "8 if the direct runs don't fit
/// either".
pub fn write_column(rows: &[i64], signed: bool, proposal: &[Segment], lent: usize) -> Column {
    match check_proposal(rows, signed, proposal, lent) {
        Some(bytes) => Column::Planned(bytes),
        None => write_direct(rows, signed, lent),
    }
}

/// Without a proposal that is accepted.
pub fn write_direct(rows: &[i64], signed: bool, lent: usize) -> Column {
    let mut bytes = Vec::new();
    for some in rows.chunks(512) {
        match write_run(some, signed, Form::Direct, 31, usize::MAX) {
            Written::Run { bytes: run, .. } => bytes.extend(run),
            Written::Refused(refusal) => unreachable!("64 bits hold any rows: {refusal:?}"),
        }
    }
    if bytes.len() > lent {
        return Column::Refused(Refusal::whole(8, 0));
    }
    Column::Direct(bytes)
}
