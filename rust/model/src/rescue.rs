//! Rows rescued by the file's own positions.
use crate::{read_rows, read_run, Answer, Batch, Refusal, RowPosition};

/// The groups: "three columns of u64, one place a group".
#[derive(Debug, Clone, Copy)]
pub struct Positions<'a> {
    pub runs: &'a [u64],
    pub skips: &'a [u64],
    pub counts: &'a [u64],
}

/// What rescue answers: whether each group is kept, and the rows of all groups.
#[derive(Debug, Clone, PartialEq, Eq)]
pub enum Rescued {
    Given { kept: Vec<bool>, rows: Vec<i64> },
    Refused(Refusal),
}

impl Positions<'_> {
    /// The groups' positions. Nothing for 17.
    fn listed(&self, input: &[u8]) -> Option<Vec<RowPosition>> {
        let Positions { runs, skips, counts } = *self;
        if runs.len() != skips.len() || skips.len() != counts.len() {
            return None;
        }
        let listed: Vec<RowPosition> =
            runs.iter().zip(skips).map(|(run, skip)| RowPosition { run: *run, skip: *skip }).collect();
        // "An empty list only with an empty input."
        let Some(first) = listed.first() else {
            return input.is_empty().then_some(listed);
        };
        let falls = |two: &[RowPosition]| {
            two[1].run < two[0].run || two[1].run == two[0].run && two[1].skip < two[0].skip
        };
        let past = |position: &RowPosition| position.run > input.len() as u64;
        let wrong = *first != RowPosition { run: 0, skip: 0 }
            || listed.windows(2).any(falls)
            || listed.iter().any(past);
        (!wrong).then_some(listed)
    }
}

/// "Made plain by moving on over whole runs while the skip is at least their rows; once it is 0 nothing
/// is read. If a run on the way can't be read, or there are not so many rows, it is not plain."
fn plain(input: &[u8], position: RowPosition) -> Option<RowPosition> {
    let RowPosition { mut run, mut skip } = position;
    while skip > 0 {
        // The flag changes rows, and neither their number nor a refusal.
        let Answer::Run(here) = read_run(input, run as usize, false, usize::MAX) else {
            return None;
        };
        let rows = here.rows.len() as u64;
        if skip < rows {
            break;
        }
        skip -= rows;
        run += here.consumed as u64;
    }
    Some(RowPosition { run, skip })
}

/// The rows of a group that is kept: "exactly if reading `count` rows from its position gives all of
/// them, and the position after them is the next group's made plain". Nothing for one that is replaced.
fn kept(
    input: &[u8],
    signed: bool,
    position: RowPosition,
    count: u64,
    next: Option<RowPosition>,
) -> Option<Vec<i64>> {
    let next = next?;
    // "A group of 0 rows is kept exactly if its position made plain is the next's."
    if count == 0 {
        return (plain(input, position)? == next).then(Vec::new);
    }
    match read_rows(input, position, signed, count as usize) {
        Batch::Given { rows, next: after } if rows.len() as u64 == count && after == next => Some(rows),
        _ => None,
    }
}

/// Rescues the rows of all groups, with that many places lent for the rows and for the verdicts. "Refusals,
/// in this order and nothing written: 17 .., 8 if there are fewer rows than the counts' whole-number sum,
/// or fewer verdicts than groups."
pub fn rescue(input: &[u8], signed: bool, groups: Positions, fill: i64, places: [usize; 2]) -> Rescued {
    let Some(listed) = groups.listed(input) else {
        return Rescued::Refused(Refusal::whole(17, 0));
    };
    let sum: u128 = groups.counts.iter().map(|count| u128::from(*count)).sum();
    if sum > places[0] as u128 || listed.len() > places[1] {
        return Rescued::Refused(Refusal::whole(8, 0));
    }
    let end = RowPosition { run: input.len() as u64, skip: 0 };
    let (mut verdicts, mut rows) = (Vec::new(), Vec::new());
    for (group, count) in groups.counts.iter().enumerate() {
        let next = listed.get(group + 1).map_or(Some(end), |next| plain(input, *next));
        let own = kept(input, signed, listed[group], *count, next);
        verdicts.push(own.is_some());
        rows.extend(own.unwrap_or_else(|| vec![fill; *count as usize]));
    }
    Rescued::Given { kept: verdicts, rows }
}
