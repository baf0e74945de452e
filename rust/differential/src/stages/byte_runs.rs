//! Flags and bytes written as byte runs: held to the model, and read back by the Rust.
//!
//! The Rust agrees with the rules within the first run of what it is given, 128 literals aside
//! (docs/DIFFERENCES.md). So it is given each run by itself.
use model::Booleans;
use oracle::Outcome;

use super::lined_up::{any_to_write, ToWrite};
use super::Session;
use crate::listed::{self, Call, Difference, Sort};

/// What is written: by the linked library if it is there, and otherwise by the model.
struct Written {
    runs: Vec<u8>,
    /// What the runs stand for.
    bytes: Vec<u8>,
    /// How many flags these are.
    flags: usize,
}

impl Session {
    pub(super) fn byte_runs(&mut self) {
        self.tally.stage("flags and bytes written, read back run by run");
        for _ in 0..self.size.pick(500, 30_000, 300_000) {
            let asked = any_to_write(&mut self.random);
            let Some(written) = self.written_runs(&asked) else { continue };
            self.read_runs_back(&written);
        }
    }

    fn written_runs(&mut self, asked: &ToWrite) -> Option<Written> {
        let ToWrite { flags: are_flags, given, .. } = asked;
        let bytes = if *are_flags { model::packed_flags(given) } else { given.clone() };
        let flags = if *are_flags { given.len() } else { 8 * given.len() };
        #[cfg(feature = "ours")]
        if self.ours.is_some() {
            let answer = crate::ours::byte_writer::check(*are_flags, given, &bytes);
            return match answer {
                Ok(runs) => {
                    self.tally.ours(3);
                    Some(Written { runs, bytes, flags })
                }
                Err(wrong) => {
                    let paper = format!("{} bytes", model::least_size(&bytes));
                    self.tally.differs(given, Call::Booleans { n: flags }, &paper, "ours", &wrong);
                    None
                }
            };
        }
        Some(Written { runs: model::chosen_byte_runs(&bytes), bytes, flags })
    }

    /// Each run by itself is the same flags to the Rust, and all of the run's bytes; or it is 128 literals.
    fn read_runs_back(&mut self, Written { runs, bytes, flags }: &Written) {
        let (mut left, mut at) = (&runs[..], 0);
        while let Some((stand_for, taken)) = model::first_run(left) {
            let (run, rest) = left.split_at(taken);
            let n = (8 * stand_for.len()).min(flags - 8 * at);
            let rust = oracle::read_booleans(run, n);
            let part = bytes.get(at..at + stand_for.len()).unwrap_or_default();
            let values: Vec<bool> = (0..n).map(|bit| part[bit / 8] >> (7 - bit % 8) & 1 == 1).collect();
            let same = matches!(&rust, Outcome::Given { values: given, consumed } if *given == values && *consumed == taken);
            let paper = Booleans::Given { values, consumed: taken };
            let sort = match same {
                true => Some(Sort::Same),
                false => listed::of_booleans(run, n, &paper, &rust)
                    .filter(|sort| *sort == Sort::Listed(Difference::Control128)),
            };
            self.tally
                .record(sort, run, Call::Booleans { n }, || [format!("{paper:?}"), format!("{rust:?}")]);
            (left, at) = (rest, at + stand_for.len());
        }
        if !left.is_empty() || at != bytes.len() {
            self.tally.unlisted(&format!("written runs are cut, or stand for other bytes: {runs:02x?}"));
        }
    }
}
