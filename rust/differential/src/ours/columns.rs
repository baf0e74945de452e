//! Columns by proposals, and the planner's own.
use menakovitsy::{check_column, plan_into, write_column, write_proposed, Proposal, WrittenColumn};
use model::{Column, Segment};

use super::{place, sign, Ours, BEFORE};
use crate::stages::columns::{direct_bytes, planned_in, Asked};

/// What a place of a lent column holds before a call.
const PLACE_BEFORE: u64 = 7777;

/// How many places more are lent than the planner needs.
const MORE: usize = 9;

/// A written column's runs, rows and bytes, and whether it is by the proposal.
fn told(written: &WrittenColumn) -> (bool, [usize; 3]) {
    (written.planned, [written.runs, written.rows.0, written.bytes.0])
}

impl Ours {
    /// Holds the writer and the check to the model, every byte: how many answers were right, or what was
    /// wrong.
    pub fn check_proposed(asked: &Asked) -> Result<u64, String> {
        let Asked { rows, flag, columns, places } = asked;
        let proposal = Proposal::of_columns(columns.clone());
        let mut out = vec![BEFORE; *places];
        let answer = write_proposed(rows, sign(*flag != 0), &proposal, &mut out);
        let paper = asked.answer();
        let (counts, bytes) = match &paper {
            Column::Planned(bytes) => (Some((true, columns[0].len())), &bytes[..]),
            Column::Direct(bytes) => (Some((false, rows.len().div_ceil(512))), &bytes[..]),
            Column::Refused(_) => (None, &[][..]),
        };
        let counts = counts.map(|(planned, runs)| (planned, [runs, rows.len(), bytes.len()]));
        let right = match (&answer, &paper) {
            (Err(refused), Column::Refused(paper)) => {
                (refused.refusal.number(), place(refused), refused.cut)
                    == (paper.number.into(), paper.place, None)
            }
            (Ok(written), _) => Some(told(written)) == counts,
            _ => false,
        };
        let (given, kept) = out.split_at(bytes.len());
        if !right || given != bytes || kept.iter().any(|byte| *byte != BEFORE) {
            return Err(format!("the documents: {paper:?}\n  ours: {answer:?}, {out:02x?}"));
        }
        let check = check_column(rows, sign(*flag != 0), &proposal, *places);
        let accepted = counts.filter(|(planned, _)| *planned);
        match check {
            Ok(check) if check.as_ref().map(told) == accepted => Ok(2),
            other => Err(format!("the documents: {accepted:?}\n  ours, the check: {other:?}")),
        }
    }

    /// Holds the planner to the segments that it is lent: just enough, one too few in one column or in
    /// all, just enough for the direct runs and one too few for these, and more. How many answers were right,
    /// and what it proposes.
    pub fn check_plan(rows: &[i64], signed: bool) -> Result<(u64, Vec<Segment>), String> {
        // A run has a row at least: that many are enough.
        let whole = Self::plan(rows, signed, [rows.len(); 5])?;
        let most = whole.len();
        if most == 0 && !rows.is_empty() {
            return Err("nothing is proposed, with a segment lent for each row".into());
        }
        let mut lent = vec![[most; 5], [most + MORE; 5]];
        if let Some(fewer) = most.checked_sub(1) {
            let direct = rows.len().div_ceil(512);
            lent.extend([[fewer; 5], [direct; 5], [direct - 1; 5], [0; 5]]);
            let mut shorter = [most + MORE; 5];
            shorter[rows.len() % 5] = fewer;
            lent.push(shorter);
        }
        for lent in &lent {
            let shortest = lent.iter().min().copied().unwrap_or(0);
            let expected = planned_in(shortest, rows.len(), &whole);
            let given = Self::plan(rows, signed, *lent)?;
            if given != expected {
                return Err(format!("lent {lent:?}: {given:?}, and lent enough {whole:?}"));
            }
        }
        Ok((1 + lent.len() as u64, whole))
    }

    /// The planner's segments, with that many places lent in each column.
    fn plan(rows: &[i64], signed: bool, lent: [usize; 5]) -> Result<Vec<Segment>, String> {
        let mut columns = lent.map(|places| vec![PLACE_BEFORE; places]);
        let segments = plan_into(rows, sign(signed), columns.each_mut().map(Vec::as_mut_slice));
        let columns = columns.each_ref().map(|column| &column[..segments]);
        model::proposal_of(columns).ok_or_else(|| "more segments than places".into())
    }

    /// Holds the wrapper's planning and writing together to the bytes that the model writes by the
    /// planner's proposal; with just enough room, too.
    pub fn check_written(rows: &[i64], signed: bool, runs: usize, bytes: &[u8]) -> Result<u64, String> {
        for lent in [direct_bytes(rows.len()), bytes.len()] {
            let mut out = vec![BEFORE; lent];
            let answer = write_column(rows, sign(signed), &mut out);
            let counts = Ok((true, [runs, rows.len(), bytes.len()]));
            let (given, kept) = out.split_at(bytes.len());
            if answer.as_ref().map(told) != counts
                || given != bytes
                || kept.iter().any(|byte| *byte != BEFORE)
            {
                return Err(format!("{answer:?}, {out:02x?}; the model: {bytes:02x?}"));
            }
        }
        Ok(2)
    }
}
