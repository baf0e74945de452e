//! What the patched writer makes of rows, a base and a width, without writing it.
use crate::bits::needs;

/// The width of the table that has that many bits, up to 64.
#[inline]
pub fn table(bits: usize) -> usize {
    match bits {
        0..=24 => bits,
        25..=32 => bits.next_multiple_of(2),
        _ => bits.next_multiple_of(8),
    }
}

/// Bytes of a base, which has a sign bit beside its magnitude: 9 for -2^63, which no run has.
#[inline]
pub fn base_bytes(base: i64) -> usize {
    let magnitude = base.unsigned_abs();
    (64 - magnitude.leading_zeros() as usize) / 8 + 1
}

/// Whether other readers have the patch width: some do not know 26, 28 and 30 bits.
#[inline]
pub fn is_read_everywhere(patch: usize) -> bool {
    !(25..=30).contains(&patch)
}

/// The bytes of the run, where the writer accepts it and every reader reads it: the list is not empty.
pub fn bytes(rows: &[i64], base: i64, width: usize) -> Option<usize> {
    let (mut entries, mut last, mut gap, mut patches) = (0, 0, 1, 0);
    for at in 0..rows.len() {
        let patch = row_patch(rows[at], base, width);
        if patch != 0 {
            let distance: usize = at - last;
            entries += 1 + distance.saturating_sub(1) / 255;
            gap = distance.min(255).max(gap);
            patches |= patch;
            last = at;
        }
    }
    let patch = table(needs(patches));
    let entry = table(patch + needs(gap as u64));
    let fits = (1..=31).contains(&entries) && base_bytes(base) <= 8 && patch <= 56;
    let bytes = 4 + base_bytes(base) + (rows.len() * width).div_ceil(8) + (entries * entry).div_ceil(8);
    (fits && is_read_everywhere(patch)).then_some(bytes)
}

/// What stands above the width.
#[inline]
fn row_patch(row: i64, base: i64, width: usize) -> u64 {
    row.wrapping_sub(base) as u64 >> width
}
