//! Each bit width at each run length.
use super::layout::{direct, fixed_delta, packed_delta, short_repeat, Patched};
use super::numbers::{largest, varint, Numbers};
use super::{samples, Frame, Frames, Part};
use crate::bits::WIDTHS;

pub const PARTS: &[Part] = &[
    Part { what: "sample runs of docs/FORMAT.md and the specification", frames: sample_runs },
    Part {
        what: "direct: each of the 32 widths at each of the 512 lengths, one flag and the other by turns",
        frames: every_direct,
    },
    Part {
        what: "direct: each width at the lengths 1 to 64 and 505 to 512 under the other flag",
        frames: more_direct,
    },
    Part { what: "short repeat: each size and each count, under both flags", frames: short_repeats },
    Part { what: "fixed delta: each length, under both flags", frames: fixed_deltas },
    Part {
        what: "packed delta: each of the 31 widths at 76 lengths, rising and falling, the flags by turns",
        frames: packed_deltas,
    },
    Part { what: "packed delta: each width with one row, which is refused", frames: one_row_deltas },
    Part { what: "patched base: each width at 77 lengths, the flags by turns", frames: patched_runs },
];

fn sample_runs() -> Frames {
    samples(&[
        "0046021230",
        "0146021230",
        "00700000000040",
        "005E035CA1AB1EDEADBEEF",
        "000A012C",
        "010A012C",
        "010001",
        "000A2710",
        "00C0000700",
        "00C0040A04",
        "00C603640514",
        "00C609020222424246",
        "008E132B2107D01E00147028323C46505A646E78828C96A0AAB4BEFCE8",
    ])
}

/// The flags by turns over widths and lengths, as the colours of a chessboard.
fn signed(code: usize, rows: usize) -> bool {
    (code + rows) % 2 == 1
}

fn direct_frame(code: usize, rows: usize, signed: bool) -> Frame {
    let fields = Numbers::new(code * 1_000 + rows).fields(rows, WIDTHS[code]);
    Frame { signed, bytes: direct(code, &fields, rows.is_multiple_of(3)) }
}

fn every_direct() -> Frames {
    Box::new((0..32).flat_map(|code| (1..=512).map(move |rows| direct_frame(code, rows, signed(code, rows)))))
}

fn more_direct() -> Frames {
    let lengths =
        |code| (1..=64).chain(505..=512).map(move |rows| direct_frame(code, rows, !signed(code, rows)));
    Box::new((0..32).flat_map(lengths))
}

fn short_repeats() -> Frames {
    Box::new((1..=8).flat_map(|size| (3..=10).map(move |count| (size, count))).flat_map(|(size, count)| {
        let any = Numbers::new(8 * size + count).any() & largest(8 * size);
        [any, largest(8 * size)]
            .into_iter()
            .flat_map(move |value| Frame::both(&short_repeat(size, count, value)))
    }))
}

fn fixed_deltas() -> Frames {
    Box::new((1..=512).flat_map(|rows| {
        let mut numbers = Numbers::new(rows);
        let (first, base) = (numbers.any() % 100_000, numbers.any() % 200);
        Frame::both(&fixed_delta(rows, &varint(first), &varint(base)))
    }))
}

/// Lengths about whole bytes and words, and about the longest.
fn lengths() -> impl Iterator<Item = usize> {
    (1..=66).chain(127..=130).chain(255..=258).chain(510..=512)
}

fn packed_deltas() -> Frames {
    Box::new((1..32).flat_map(|code| {
        lengths().skip(1).map(move |rows| {
            let mut numbers = Numbers::new(code * 1_000 + rows);
            let magnitudes = numbers.fields(rows - 2, WIDTHS[code]);
            // An even number is a base delta of 0 or above, an odd one is one below 0.
            let base = numbers.any() % 500 * 2 + (rows / 2 % 2) as u64;
            let first = varint(numbers.any() % 100_000);
            let bytes = packed_delta(code, &first, &varint(base), &magnitudes, rows.is_multiple_of(3));
            Frame { signed: signed(code, rows), bytes }
        })
    }))
}

/// With nothing after the two varints, and with bytes that a reader may take for 512 magnitudes.
fn one_row_deltas() -> Frames {
    Box::new((1..32).flat_map(|code| {
        [0, 64 * WIDTHS[code]].into_iter().flat_map(move |after| {
            let mut bytes = packed_delta(code, &[0x07], &[0x00], &[], false);
            // Two rows are one more than the header is to say.
            bytes[1] -= 1;
            bytes.resize(bytes.len() + after, 0);
            Frame::both(&bytes)
        })
    }))
}

fn patched_runs() -> Frames {
    Box::new((0..32).flat_map(|code| {
        lengths().map(move |rows| {
            let mut numbers = Numbers::new(code * 1_000 + rows);
            let run = Patched {
                code,
                values: numbers.fields(rows, WIDTHS[code]),
                base: vec![(numbers.any() % 256) as u8; 1 + rows % 2],
                patch_code: 3,
                gap_width: 7,
                list: vec![(0, 5 & largest(64 - WIDTHS[code]))],
                padding: rows.is_multiple_of(3),
            };
            // The last row is patched as well, if a gap reaches it.
            let last = vec![run.list[0], (rows as u64 - 1, 9 & run.fits())];
            let run = if rows > 1 { run.with(last).unwrap_or(run) } else { run };
            Frame { signed: signed(code, rows), bytes: run.bytes() }
        })
    }))
}
