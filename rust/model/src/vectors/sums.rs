//! Sums that pass the ends of 64 bits, and varints that say more than 64 bits hold.
use super::layout::{fixed_delta, packed_delta, Patched};
use super::numbers::{largest, varint};
use super::{samples, Frame, Frames, Part};
use crate::bits::WIDTHS;

pub const PARTS: &[Part] = &[
    Part { what: "sample runs of docs/FORMAT.md and docs/DIFFERENCES.md", frames: sample_runs },
    Part { what: "fixed deltas: first row and step about the ends, few rows", frames: few_steps },
    Part { what: "fixed deltas: the same, 512 rows", frames: many_steps },
    Part { what: "packed deltas: each width, rising and falling over each end", frames: over_each_end },
    Part { what: "packed deltas of 64 bits: base delta and magnitudes about the ends", frames: magnitudes },
    Part { what: "patched bases of each size and sign, with values of 64 bits", frames: bases },
    Part { what: "patched bases with the largest value and patch at each width", frames: largest_patches },
    Part { what: "varints: each tenth byte, in the first row and in the base delta", frames: tenth_bytes },
    Part { what: "varints: each length up to twelve bytes, longer than they need be", frames: long_varints },
];

/// Numbers about the ends of 64 bits, and about the ends of what 63 and 32 bits hold. As a signed row or a
/// step an even one is the half of it, an odd one its negative.
const EDGES: [u64; 13] = [
    0,
    1,
    2,
    u32::MAX as u64,
    (1 << 62) - 1,
    1 << 62,
    (1 << 63) - 2,
    (1 << 63) - 1,
    1 << 63,
    (1 << 63) + 1,
    u64::MAX - 2,
    u64::MAX - 1,
    u64::MAX,
];

fn sample_runs() -> Frames {
    samples(&["01C001FEFFFFFFFFFFFFFFFF0102", "00C000FFFFFFFFFFFFFFFFFF0100", "00C0000700", "00C0040A04"])
}

/// Every pair of numbers about the ends.
fn pairs(step: usize) -> impl Iterator<Item = (u64, u64)> {
    let seconds = move |first| EDGES.into_iter().step_by(step).map(move |second| (first, second));
    EDGES.into_iter().step_by(step).flat_map(seconds)
}

fn few_steps() -> Frames {
    Box::new(pairs(1).flat_map(|(first, step)| {
        [1, 2, 3, 17]
            .into_iter()
            .flat_map(move |rows| Frame::both(&fixed_delta(rows, &varint(first), &varint(step))))
    }))
}

fn many_steps() -> Frames {
    Box::new(pairs(3).flat_map(|(first, step)| Frame::both(&fixed_delta(512, &varint(first), &varint(step)))))
}

/// First rows a little below and above 0, 2^63 and 2^64, base deltas of -1, 0 and 1, and magnitudes that
/// are the largest of their width.
fn over_each_end() -> Frames {
    let firsts = [0, 1, 3, u64::MAX / 2 - 2, u64::MAX / 2, 1 << 63, u64::MAX - 3, u64::MAX];
    let lines = (1..32).flat_map(move |code| firsts.into_iter().map(move |first| (code, first)));
    Box::new(lines.flat_map(|(code, first)| {
        [0, 1, 2].into_iter().flat_map(move |base| {
            let magnitudes = [largest(WIDTHS[code]); 5];
            Frame::both(&packed_delta(code, &varint(first), &varint(base), &magnitudes, false))
        })
    }))
}

fn magnitudes() -> Frames {
    Box::new(pairs(1).flat_map(|(base, magnitude)| {
        [0, 1 << 62, 1 << 63, u64::MAX - 1, u64::MAX].into_iter().flat_map(move |first| {
            let magnitudes = [magnitude, 1, magnitude];
            Frame::both(&packed_delta(31, &varint(first), &varint(base), &magnitudes, false))
        })
    }))
}

/// Bases of that many bytes: 0 and 1, the largest, and the same with the sign set.
fn bases_of(size: usize) -> impl Iterator<Item = Vec<u8>> {
    let top = 1u64 << (8 * size - 1);
    let numbers = [0, 1, top - 1, top, top + 1, top | (top - 1)];
    numbers.into_iter().map(move |number| number.to_be_bytes()[8 - size..].to_vec())
}

fn bases() -> Frames {
    Box::new((1..=8).flat_map(bases_of).flat_map(|base| {
        let values = EDGES.to_vec();
        let run =
            Patched { code: 31, values, base, patch_code: 0, gap_width: 1, list: vec![], padding: false };
        // With an empty list, and with a patch of 0, which is the only one that fits.
        let patched = run.with(vec![(1, 0)]).expect("there is room for it");
        [run, patched].into_iter().flat_map(|run| Frame::both(&run.bytes()))
    }))
}

fn largest_patches() -> Frames {
    Box::new(
        (0..32)
            .flat_map(|code| [1, 8].into_iter().flat_map(bases_of).map(move |base| (code, base)))
            .flat_map(|(code, base)| {
                // Patches of 56 bits have the most that leave room for a gap.
                let values = vec![largest(WIDTHS[code]); 4];
                let run = Patched {
                    code,
                    values,
                    base,
                    patch_code: 30,
                    gap_width: 2,
                    list: vec![],
                    padding: false,
                };
                let patch = run.fits().min(run.largest_patch());
                let run = run.with(vec![(1, patch), (2, patch)]).expect("there is room for it");
                Frame::both(&run.bytes())
            }),
    )
}

/// Nine bytes with the top bit set, the tenth, and two bytes that may belong to it.
fn tenth_bytes() -> Frames {
    let nines = [0x80, 0xFF, 0x81];
    let lines = nines.into_iter().flat_map(|nine: u8| (0..=255u8).map(move |tenth| (nine, tenth)));
    Box::new(lines.flat_map(|(nine, tenth)| {
        let long = [&[nine; 9][..], &[tenth]].concat();
        let [first, base] = [fixed_delta(3, &long, &[0x03, 0x01]), fixed_delta(3, &[0x05], &long)];
        let base = [base, vec![0x02, 0x01]].concat();
        [first, base].into_iter().flat_map(|bytes| Frame::both(&bytes))
    }))
}

/// 0 and 1 with more and more bytes of no bits; from the eleventh byte on they are refused.
fn long_varints() -> Frames {
    let lines = (1..=12).flat_map(|length: usize| [0, 1].into_iter().map(move |low| (length, low)));
    Box::new(lines.flat_map(|(length, low)| {
        let mut long = vec![0x80; length];
        long[0] |= low;
        long[length - 1] &= 0x7F;
        let [first, base] = [fixed_delta(4, &long, &[0x02]), fixed_delta(4, &[0x02], &long)];
        let packed = packed_delta(3, &long, &long, &[7, 15], false);
        [first, base, packed].into_iter().flat_map(|bytes| Frame::both(&bytes))
    }))
}
