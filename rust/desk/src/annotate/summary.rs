//! How many runs, rows and bytes there are of each kind and width.
use std::collections::BTreeMap;

use crate::stream::RunKind;
use crate::walk::{Counts, RunInfo};

/// The counts by kind and width.
#[derive(Debug, Default)]
pub struct Summary {
    counts: BTreeMap<(RunKind, u64), Counts>,
}

impl Summary {
    pub fn add(&mut self, run: &RunInfo) {
        let one = Counts { runs: 1, rows: run.rows, bytes: run.bytes };
        self.counts.entry((run.kind, run.bits)).or_default().add(one);
    }

    /// Whether there was no run.
    pub fn is_empty(&self) -> bool {
        self.counts.is_empty()
    }

    /// Each kind and width that there is.
    pub fn counts(&self) -> impl Iterator<Item = (RunKind, u64, Counts)> + '_ {
        self.counts.iter().map(|((kind, bits), counts)| (*kind, *bits, *counts))
    }

    /// Of one kind, at all its widths.
    pub fn of(&self, kind: RunKind) -> Counts {
        let mut all = Counts::default();
        self.counts().filter(|(other, ..)| *other == kind).for_each(|(_, _, counts)| all.add(counts));
        all
    }
}
