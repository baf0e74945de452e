//! The writer of patched runs (FORMAT.md, "Patched writer"), by brute force: of all header fields, in the
//! order in which the rules choose them, the first that describe the rows.
use crate::bits::{Put, WIDTHS};
use crate::{read_run, Answer, Kind, Refusal, Written, KEPT};

/// The header fields that are chosen.
#[derive(Clone, Copy)]
struct Choice {
    base_bytes: usize,
    patch_code: usize,
    gap_width: usize,
}

/// Writes rows as a patched run over a base, with values of that many bits and that many places lent.
/// "Refusals: 9, 10, 8, in that order."
pub fn write_patched(rows: &[i64], base: i64, width: usize, places: usize) -> Written {
    let refused = |number| Written::Refused(Refusal::whole(number, 0));
    if !(1..=512).contains(&rows.len()) {
        return refused(9);
    }
    // A width that is not kept is refused, whatever the rows.
    match chosen(rows, base, width).filter(|_| KEPT.contains(&width)) {
        None => refused(10),
        Some(bytes) if bytes.len() > places => refused(8),
        Some(bytes) => Written::Run { kind: Kind::PatchedBase, width, rows: rows.len(), bytes },
    }
}

/// "It chooses base size, patch width, then gap width, each the least that works."
fn chosen(rows: &[i64], base: i64, width: usize) -> Option<Vec<u8>> {
    for base_bytes in 1..=8 {
        for patch_code in 0..32 {
            for gap_width in 1..=8 {
                let choice = Choice { base_bytes, patch_code, gap_width };
                if let Some(bytes) = described(rows, base, width, choice) {
                    return Some(bytes);
                }
            }
        }
    }
    None
}

/// The run with these header fields, if it reads as these rows.
fn described(rows: &[i64], base: i64, width: usize, choice: Choice) -> Option<Vec<u8>> {
    let code = WIDTHS.iter().position(|bits| *bits == width)?;
    let patch_width = WIDTHS[choice.patch_code];
    if patch_width + choice.gap_width > 64 {
        return None;
    }
    let base = signed_magnitude(base, 8 * choice.base_bytes)?;
    // "Differences row - base, modulo 2^64, keep their low W bits, and what is above becomes a patch."
    let differences: Vec<u128> = rows.iter().map(|row| u128::from(row.wrapping_sub(base.0) as u64)).collect();
    let patches: Vec<u128> = differences.iter().map(|difference| difference >> width).collect();
    let list = list(&patches, patch_width, choice.gap_width)?;

    let mut put = Put::default();
    put.number(2, 2);
    put.number(code as u64, 5);
    put.number(rows.len() as u64 - 1, 9);
    put.number(choice.base_bytes as u64 - 1, 3);
    put.number(choice.patch_code as u64, 5);
    put.number(choice.gap_width as u64 - 1, 3);
    put.number(list.len() as u64, 5);
    put.number(base.1, 8 * choice.base_bytes);
    for difference in differences {
        put.number(difference as u64, width);
    }
    put.pad();
    let holds = |bits: &&usize| **bits >= patch_width + choice.gap_width;
    let entry_width = *WIDTHS.iter().find(holds).expect("64 bits hold it");
    for (gap, patch) in list {
        put.number(gap << patch_width | patch, entry_width);
    }
    let bytes = put.bytes();
    let reads = |run: &crate::Run| run.rows == rows && run.consumed == bytes.len();
    matches!(read_run(&bytes, 0, false, 512), Answer::Run(run) if reads(&run)).then_some(bytes)
}

/// A base, and its bits: the sign and then the magnitude. "A base of 0 has no sign bit."
fn signed_magnitude(base: i64, bits: usize) -> Option<(i64, u64)> {
    let magnitude = u128::from(base.unsigned_abs());
    let sign = u128::from(base < 0) << (bits - 1);
    (magnitude < 1 << (bits - 1)).then_some((base, (sign + magnitude) as u64))
}

/// The shortest list of gaps and patches, if it has at most 31 entries. "Rows without one get no entry
/// except skips"; "each gap within the gap width".
fn list(patches: &[u128], patch_width: usize, gap_width: usize) -> Option<Vec<(u64, u64)>> {
    let mut list = Vec::new();
    let mut before = 0;
    for (place, patch) in patches.iter().enumerate().filter(|(_, patch)| **patch != 0) {
        if *patch >= 1 << patch_width {
            return None;
        }
        // The fewest skips that leave a gap within its width. A skip's own gap is 255.
        let distance = place - before;
        let widest = (1 << gap_width) - 1;
        let works = |skips: &usize| distance - 255 * skips <= widest && (*skips == 0 || widest >= 255);
        let skips = (0..=distance / 255).find(works)?;
        list.extend(vec![(255, 0); skips]);
        list.push(((distance - 255 * skips) as u64, *patch as u64));
        before = place;
    }
    (list.len() <= 31).then_some(list)
}
