//! FORMAT.md, "Planner": what the planner proposes. It has no one right value: it is held to what every
//! proposal of the planner's must be, and, while both are one algorithm, to that of the oracle in `planning`.
use model::Segment;
use planning::columns::{other_columns, stretches, Dice, Named};
use planning::planner::proposed;

use super::columns::{direct_bytes, planned_in};
use super::Session;
use crate::probe::{with_numbers, Requests};
use model::random::Random;

/// Whether the proved planner is the oracle's algorithm, so that they propose the same segments. Where
/// it goes its own way, this is no, and all else that is compared stays.
pub const AS_THE_ORACLE: bool = true;

/// The most segments that a line of the probe can lend.
const LENT: usize = 8_192;

/// A column, now and then a long one, and its flag.
fn any(longest: i64, random: &mut Random) -> (Vec<i64>, bool) {
    let most = match random.below(32) {
        0 => longest,
        1..=4 => 120,
        5..=16 => 40,
        _ => random.pick(&[2, 12, 12]),
    };
    (stretches(&mut Dice::new(random.any()), most), random.once_in(2))
}

/// A proposal is accepted where there is room for direct runs of 64 bits: its bytes.
fn accepted(rows: &[i64], signed: bool, proposal: &[Segment]) -> Result<Vec<u8>, String> {
    if proposal.iter().any(|segment| segment.form != 4 && segment.base != 0) {
        return Err("a base where the form has none".into());
    }
    let bytes = model::check_proposal(rows, signed, proposal, direct_bytes(rows.len()));
    bytes.ok_or_else(|| "not accepted where there is room".into())
}

impl Session {
    pub(super) fn plans(&mut self) {
        self.tally.stage("planned columns");
        let (counts, seeds) = self.size.pick((&[60][..], 1), (&[60, 1100], 1), (&[60, 600, 5000], 10));
        for count in counts {
            for seed in 1..=seeds {
                for Named { rows, signed, .. } in other_columns(*count, seed) {
                    self.plan(&rows, signed);
                    self.plan(&rows, !signed);
                }
            }
        }
        for _ in 0..self.size.pick(500, 5_000, 1_000_000) {
            let (rows, signed) = any(1500, &mut self.random);
            self.plan(&rows, signed);
        }
    }

    /// One column.
    fn plan(&mut self, rows: &[i64], signed: bool) {
        let proposal = match self.proposal(rows, signed) {
            Ok(proposal) => proposal,
            Err(wrong) => return self.tally.unlisted(&format!("planner: {wrong}\n  {rows:?}, {signed}")),
        };
        let oracle = proposed(rows, signed);
        if AS_THE_ORACLE && proposal != oracle {
            let both = format!("{proposal:?}\n  the oracle: {oracle:?}");
            self.tally.unlisted(&format!("planner: {both}\n  {rows:?}, {signed}"));
        }
        match accepted(rows, signed, &proposal) {
            Ok(bytes) => self.planned(rows, signed, proposal.len(), &bytes),
            Err(wrong) => {
                self.tally.unlisted(&format!("planner: {wrong}: {proposal:?}\n  {rows:?}, {signed}"));
            }
        }
    }

    /// The library's proposal, or, where none is linked, the oracle's.
    fn proposal(&mut self, rows: &[i64], signed: bool) -> Result<Vec<Segment>, String> {
        #[cfg(feature = "ours")]
        if self.ours.is_some() {
            let (answers, ours) = crate::ours::Ours::check_plan(rows, signed)?;
            self.tally.ours(answers);
            return Ok(ours);
        }
        Ok(proposed(rows, signed))
    }

    /// Ours writes the bytes of an accepted proposal, and the Rust reads them as the rows.
    #[cfg_attr(not(feature = "ours"), allow(unused_variables))]
    fn planned(&mut self, rows: &[i64], signed: bool, runs: usize, bytes: &[u8]) {
        #[cfg(feature = "ours")]
        if self.ours.is_some() {
            match crate::ours::Ours::check_written(rows, signed, runs, bytes) {
                Ok(answers) => self.tally.ours(answers),
                Err(wrong) => {
                    self.tally.unlisted(&format!("planned column: {wrong}\n  {rows:?}, {signed}"));
                }
            }
        }
        self.read_back(bytes, signed, rows);
    }
}

/// Any column to plan, as a line for the probe: with segments enough, or some too few.
pub fn probe_line(requests: &mut Requests, random: &mut Random) {
    let (rows, signed) = any(600, random);
    let segments = proposed(&rows, signed);
    let most = segments.len();
    let few = rows.len().div_ceil(512);
    let lent = random.pick(&[most, most, most + 1, rows.len(), most.saturating_sub(1), few, 0]).min(LENT);
    if !AS_THE_ORACLE || lent == 0 {
        return requests.plan_none(&rows, signed.into(), 0);
    }
    let segments = planned_in(lent, rows.len(), &segments);
    let mut expected = format!("plan {}", segments.len());
    for Segment { first, rows, form, width, base } in &segments {
        expected += &format!(" {first}/{rows}/{form}/{width}/{base}");
    }
    requests.ask(with_numbers(format!("0d{:02x}{lent:04x}", u8::from(signed)), &rows), expected);
}
