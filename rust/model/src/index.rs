//! The index beside an integer stream (FORMAT.md, "Index"): three columns, an entry a run.
use crate::{read_run, read_stream, Answer, Refusal, Stream};

/// An entry: the number of the run's first row, its first byte, and how many rows it has.
#[derive(Debug, Clone, Copy, PartialEq, Eq)]
pub struct Entry {
    pub first: u64,
    pub at: u64,
    pub rows: u64,
}

/// What building an index answers.
#[derive(Debug, Clone, PartialEq, Eq)]
pub enum Index {
    Built { entries: Vec<Entry>, rows: u64, bytes: usize },
    Refused(Refusal),
}

/// What looking up a row answers.
#[derive(Debug, Clone, Copy, PartialEq, Eq)]
pub enum Lookup {
    Entry(Entry),
    Refused(Refusal),
}

/// What reading from a row answers.
#[derive(Debug, Clone, PartialEq, Eq)]
pub enum Rows {
    Given(Vec<i64>),
    Refused(Refusal),
}

/// The columns of an index: first rows, byte offsets, row counts.
pub type Columns<'a> = [&'a [u64]; 3];

fn unequal(lengths: [usize; 3]) -> bool {
    lengths[0] != lengths[1] || lengths[1] != lengths[2]
}

/// The entries of a whole stream, or its own refusal. (A stream that a machine holds has not 2^64 rows:
/// a run has at most 512, and at least two bytes.)
fn entries(input: &[u8]) -> Result<Vec<Entry>, Refusal> {
    let mut entries: Vec<Entry> = Vec::new();
    let (mut at, mut first) = (0, 0);
    loop {
        // The flag changes rows, and neither their number nor a refusal.
        match read_run(input, at, false, usize::MAX) {
            Answer::End => return Ok(entries),
            Answer::Refused(refusal) => return Err(refusal),
            Answer::Run(run) => {
                let rows = run.rows.len() as u64;
                entries.push(Entry { first, at: at as u64, rows });
                at += run.consumed;
                first += rows;
            }
        }
    }
}

/// Builds the index of an input, with that many places lent in each column. "Columns of unequal length
/// are 15, before all else, in building too"; then "the stream's own, then 8".
pub fn build_index(input: &[u8], lent: [usize; 3]) -> Index {
    if unequal(lent) {
        return Index::Refused(Refusal::whole(15, 0));
    }
    match entries(input) {
        Err(refusal) => Index::Refused(refusal),
        Ok(entries) if entries.len() > lent[0] => Index::Refused(Refusal::whole(8, 0)),
        Ok(entries) => {
            let rows = entries.iter().map(|entry| entry.rows).sum();
            Index::Built { entries, rows, bytes: input.len() }
        }
    }
}

/// The entry that holds a row, or the refusal's number: "15 wrong index (a refused stream has no right
/// one), then 16 no such row".
fn holder(row: u64, columns: Columns, input: &[u8]) -> Result<Entry, u8> {
    if unequal(columns.map(<[u64]>::len)) {
        return Err(15);
    }
    let right = entries(input).map_err(|_| 15)?;
    let [first, at, rows] = columns;
    let given: Vec<Entry> =
        (0..first.len()).map(|k| Entry { first: first[k], at: at[k], rows: rows[k] }).collect();
    if given != right {
        return Err(15);
    }
    let holds = |entry: &&Entry| (entry.first..entry.first + entry.rows).contains(&row);
    right.iter().find(holds).copied().ok_or(16)
}

/// Looks up a row through a caller's index.
pub fn look_up(row: u64, columns: Columns, input: &[u8]) -> Lookup {
    match holder(row, columns, input) {
        Ok(entry) => Lookup::Entry(entry),
        Err(number) => Lookup::Refused(Refusal::whole(number, 0)),
    }
}

/// Reads from a row to the end through a caller's index, with that many places lent: "the whole stream's
/// rows without the first r". 8 is last.
pub fn read_from(row: u64, columns: Columns, input: &[u8], signed: bool, places: usize) -> Rows {
    if let Err(number) = holder(row, columns, input) {
        return Rows::Refused(Refusal::whole(number, 0));
    }
    let Stream::Whole { rows, .. } = read_stream(input, 0, signed, usize::MAX) else {
        unreachable!("a refused stream has no right index");
    };
    let rows = rows[row as usize..].to_vec();
    if rows.len() > places {
        return Rows::Refused(Refusal::whole(8, 0));
    }
    Rows::Given(rows)
}
