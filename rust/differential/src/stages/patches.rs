//! FORMAT.md, "Patch lists": patched runs whose value and patch width are over 64 bits together.
use model::WIDTHS;

use super::Session;
use crate::frames::{self, largest_patch, Patched};
use crate::probe::Requests;
use model::random::Random;

/// Every such pair of widths that refusal 2 leaves, at the narrowest and the widest gap.
fn wide() -> impl Iterator<Item = Patched> {
    let pairs = (0..32).flat_map(|code| (0..32).map(move |patch_code| (code, patch_code)));
    let over = |(code, patch_code): &(usize, usize)| {
        WIDTHS[*code] + WIDTHS[*patch_code] > 64 && WIDTHS[*patch_code] < 64
    };
    pairs.filter(over).flat_map(|(code, patch_code)| {
        let rows = 1 + (code + patch_code) % 3;
        let base = 1 + patch_code % 8;
        [1, 8].map(|gap_width| Patched { code, rows, base, patch_code, gap_width })
    })
}

/// Lists of such a run: patches about the limit, in place and out of place, and none.
fn lists(fields: Patched) -> Vec<Vec<(u64, u64)>> {
    let patch_width = WIDTHS[fields.patch_code];
    let entry_width = frames::table_width(patch_width + fields.gap_width);
    let largest_gap = u64::MAX >> (64 - (entry_width - patch_width));
    let fits = largest_patch(WIDTHS[fields.code]);
    // The limit itself always has room in the field: the widths are over 64 together.
    let (limit, widest) = (fits + 1, u64::MAX >> (64 - patch_width));
    let rows = fields.rows as u64;
    let mut lists = vec![vec![]];
    for patch in [0, 1, fits / 2, fits, limit, limit | 1, widest] {
        // Alone at the first place, at the last, and past it; then after a patch that fits and before
        // one, at places of their own and at one place; then about a skip.
        let alone = [vec![(0, patch)], vec![(rows - 1, patch)], vec![(rows, patch)]];
        let two = [vec![(0, fits), (1, patch)], vec![(0, patch), (1, fits)], vec![(0, patch), (0, fits)]];
        let skips = [vec![(255, 0), (0, patch)], vec![(0, patch), (255, 0)]];
        lists.extend(alone.into_iter().chain(two).chain(skips));
    }
    lists.retain(|list| list.iter().all(|(gap, patch)| *gap <= largest_gap && *patch <= widest));
    lists
}

impl Session {
    pub(super) fn wide_patches(&mut self) {
        self.tally.stage("value and patch width over 64 bits together");
        for fields in wide().step_by(self.size.pick(5, 1, 1)) {
            for list in lists(fields) {
                let frame = frames::patched(fields, &list, &mut self.random);
                self.run_both(&frame);
            }
        }
    }
}

/// One list in that many of the same, as lines for the probe.
pub fn probe_lines(requests: &mut Requests, random: &mut Random) {
    for fields in wide().step_by(3) {
        for list in lists(fields).into_iter().step_by(5) {
            let frame = frames::patched(fields, &list, random);
            requests.run(&frame, 0, false, 512);
        }
    }
}
