//! The fewest bytes that any proposal takes: over all cuts, forms, widths and bases. For short columns:
//! the cost grows with the fourth power of the rows.
use crate::sizes::{needs, *};
use crate::{Segment, KEPT, WIDTHS};

/// Whether patched runs with an empty list count. The documents read them; no other reader that we
/// know does (docs/DIFFERENCES.md, `empty-list`).
#[derive(Debug, Clone, Copy, PartialEq, Eq)]
pub enum Lists {
    Any,
    NotEmpty,
}

/// The least bytes, and a proposal that takes them.
pub fn optimum(rows: &[i64], signed: bool, lists: Lists) -> (usize, Vec<Segment>) {
    let mut best: Vec<(usize, Segment)> = Vec::new();
    let upto = |best: &[(usize, Segment)], row: usize| if row == 0 { 0 } else { best[row - 1].0 };
    for end in 1..=rows.len() {
        let mut least: Option<(usize, Segment)> = None;
        for start in end.saturating_sub(512)..end {
            let (bytes, segment) = plain(&rows[start..end], signed, start);
            let bytes = upto(&best, start) + bytes;
            if least.is_none_or(|(before, _)| bytes < before) {
                least = Some((bytes, segment));
            }
        }
        let mut least = least.expect("a direct run at least");
        // Patched runs last: most of them are ruled out by what the other forms take.
        for start in end.saturating_sub(512)..end {
            let below = least.0.saturating_sub(upto(&best, start));
            if let Some((bytes, segment)) = patched(&rows[start..end], start, below, lists) {
                least = (upto(&best, start) + bytes, segment);
            }
        }
        best.push(least);
    }
    let mut segments = Vec::new();
    let mut end = rows.len();
    while end > 0 {
        segments.push(best[end - 1].1);
        end = best[end - 1].1.first as usize;
    }
    segments.reverse();
    (upto(&best, rows.len()), segments)
}

/// The least of the forms without a base.
fn plain(rows: &[i64], signed: bool, start: usize) -> (usize, Segment) {
    let segment = |form, width: usize| Segment {
        first: start as u64,
        rows: rows.len() as u64,
        form,
        width: width as u64,
        base: 0,
    };
    let (code, bytes) = direct_size(rows, signed);
    let mut all = vec![(bytes, segment(1, code))];
    all.extend(short_repeat_size(rows, signed).map(|(width, bytes)| (bytes, segment(0, width))));
    all.extend(fixed_delta_size(rows, signed).map(|bytes| (bytes, segment(2, 0))));
    all.extend(packed_delta_size(rows, signed).map(|(code, bytes)| (bytes, segment(3, code))));
    all.into_iter().min_by_key(|(bytes, _)| *bytes).expect("direct")
}

/// The least patched run, where it takes fewer than that many bytes.
fn patched(rows: &[i64], start: usize, below: usize, lists: Lists) -> Option<(usize, Segment)> {
    let mut sorted: Vec<u64> = rows.iter().map(|row| *row as u64).collect();
    sorted.sort_unstable();
    let mut least: Option<(usize, Segment)> = None;
    for width in KEPT {
        let limit = least.map_or(below, |(bytes, _)| bytes);
        if !worth(&sorted, width, limit) {
            continue;
        }
        for base in bases(&sorted, width) {
            let limit = least.map_or(below, |(bytes, _)| bytes);
            match patched_size(rows, base, width) {
                Some((0, _)) if lists == Lists::NotEmpty => {}
                Some((_, bytes)) if bytes < limit => {
                    let (first, count) = (start as u64, rows.len() as u64);
                    let width = width as u64;
                    least = Some((bytes, Segment { first, rows: count, form: 4, width, base: base as u64 }));
                }
                _ => {}
            }
        }
    }
    least
}

/// Whether a patched run of this width can take fewer than that many bytes at all: rows outside the
/// window of 2^width that holds most of them are patched, and their patches reach over all rows.
fn worth(sorted: &[u64], width: usize, limit: usize) -> bool {
    let count = sorted.len();
    let ahead = |from: usize, by: usize| sorted[(from + by) % count].wrapping_sub(sorted[from]);
    let fits = |from: usize, by: usize| width == 64 || ahead(from, by) >> width == 0;
    let within = |from: usize| (0..count).filter(|by| fits(from, *by)).count();
    let outside = count - (0..count).map(within).max().unwrap_or(0);
    let reach = (0..count).map(|from| needs(ahead(from, count - 1))).min().unwrap_or(1);
    let entry = reach.saturating_sub(width).max(1) + 1;
    outside <= 31 && 5 + (count * width).div_ceil(8) + (outside * entry).div_ceil(8) < limit
}

/// Every base that matters. Between two neighbours of these no row's patch passes a width of the
/// table, so the bytes only depend on the base's own, which are least at an end or at 0.
fn bases(sorted: &[u64], width: usize) -> Vec<i64> {
    let mut bases = vec![0];
    for row in sorted {
        bases.extend([*row, row.wrapping_add(1)]);
        for bits in [0].iter().chain(&WIDTHS).map(|more| width + more).filter(|bits| *bits < 64) {
            let edge = row.wrapping_sub(1 << bits);
            bases.extend([edge, edge.wrapping_add(1)]);
        }
    }
    bases.sort_unstable();
    bases.dedup();
    bases.into_iter().map(|base| base as i64).collect()
}

#[cfg(test)]
mod tests {
    use super::*;

    #[test]
    fn no_base_beside_those_that_matter() {
        let sets: [&[i64]; 4] = [
            &[3, 900, 7, -4, 2, 1, 0, 5, 6, -900, 7, 7],
            &[300, 301, 299, 310, 4000, 305, 290],
            &[-120, -119, -121, -60, -118, 0, -117, -116],
            &[1000, 1000, 1003, 1001, 1002, 1000, 1003, 1001, 2047],
        ];
        for rows in sets {
            let mut sorted: Vec<u64> = rows.iter().map(|row| *row as u64).collect();
            sorted.sort_unstable();
            for width in KEPT {
                for least_entries in [0, 1] {
                    let size = |base: i64| {
                        patched_size(rows, base, width)
                            .filter(|(entries, _)| *entries >= least_entries)
                            .map_or(usize::MAX, |(_, bytes)| bytes)
                    };
                    let some = bases(&sorted, width).into_iter().map(size).min();
                    assert!(some <= (-70_000..70_000).map(size).min(), "{rows:?} {width} {least_entries}");
                }
            }
        }
    }
}
