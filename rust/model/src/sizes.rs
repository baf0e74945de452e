//! How many bytes a run takes, from its rows alone: what the writers make, without making it.
use crate::bits::WIDTHS;
use crate::writer::{next_kept_code, number, steps};

/// How many bits a number needs; the optimum asks millions of times.
pub(crate) fn needs(number: u64) -> usize {
    (64 - number.leading_zeros() as usize).max(1)
}

/// The bytes of packed fields.
fn packed(fields: usize, width: usize) -> usize {
    (fields * width).div_ceil(8)
}

/// The bytes of the shortest varint.
fn varint(number: u64) -> usize {
    needs(number).div_ceil(7)
}

/// Three to ten equal rows: their number of bytes, and the run's.
pub fn short_repeat_size(rows: &[i64], signed: bool) -> Option<(usize, usize)> {
    let equal = (3..=10).contains(&rows.len()) && rows.iter().all(|row| *row == rows[0]);
    let bytes = needs(number(*rows.first()?, signed)).div_ceil(8);
    equal.then_some((bytes, 1 + bytes))
}

/// The narrowest kept code of a direct run, and its bytes.
pub fn direct_size(rows: &[i64], signed: bool) -> (usize, usize) {
    let bits = rows.iter().map(|row| needs(number(*row, signed))).max().unwrap_or(1);
    let (code, width) = next_kept_code(bits);
    (code, 2 + packed(rows.len(), width))
}

/// Header, first row and first step of a delta run.
fn delta_head(rows: &[i64], signed: bool) -> usize {
    let step = steps(&rows[..rows.len().min(2)]).first().map_or(0, |step| *step as i64);
    2 + varint(number(rows[0], signed)) + varint(number(step, true))
}

/// The bytes of a fixed delta run, if the steps are equal.
pub fn fixed_delta_size(rows: &[i64], signed: bool) -> Option<usize> {
    let equal = steps(rows).windows(2).all(|two| two[0] == two[1]);
    (!rows.is_empty() && equal).then(|| delta_head(rows, signed))
}

/// The narrowest kept code of a packed delta run, and its bytes.
pub fn packed_delta_size(rows: &[i64], signed: bool) -> Option<(usize, usize)> {
    let steps = steps(rows);
    let falls = (*steps.first()? as i64) < 0;
    let toward = |step: &u64| if falls { step.wrapping_neg() } else { *step };
    // Code 0 is a fixed delta: two bits at least.
    let bits = steps[1..].iter().map(|step| needs(toward(step))).max().unwrap_or(1).max(2);
    let (code, width) = next_kept_code(bits);
    Some((code, delta_head(rows, signed) + packed(rows.len() - 2, width)))
}

/// The entries of a patched run's list, and the run's bytes, if its writer accepts the rows.
pub fn patched_size(rows: &[i64], base: i64, width: usize) -> Option<(usize, usize)> {
    let base_bytes = (1..=8).find(|bytes| base.unsigned_abs() >> (8 * bytes - 1) == 0)?;
    let (mut entries, mut before, mut widest_gap, mut widest_patch) = (0, 0, 1, 1);
    for (place, row) in rows.iter().enumerate() {
        let difference = row.wrapping_sub(base) as u64;
        if width == 64 || difference >> width == 0 {
            continue;
        }
        // A gap above 255 is 255 as often as it takes, and the rest.
        let gap: usize = place - before;
        entries += gap.div_ceil(255).max(1);
        widest_gap = widest_gap.max(gap.min(255));
        widest_patch = widest_patch.max(needs(difference >> width));
        before = place;
        if entries > 31 {
            return None;
        }
    }
    let patch_width = *WIDTHS.iter().find(|bits| **bits >= widest_patch)?;
    let entry = patch_width + needs(widest_gap as u64);
    let entry_width = *WIDTHS.iter().find(|bits| **bits >= entry)?;
    Some((entries, 4 + base_bytes + packed(rows.len(), width) + packed(entries, entry_width)))
}
