//! Every cut of sample streams.
//!
//! A line holds one run, so a stream that is cut is the lines that a reader asks for as it walks over it: the
//! bytes from the first run's start to the cut, from the second's to the cut, and so on. The last of them is
//! refused, or it is the end if the cut falls between two runs.
use super::layout::{direct, fixed_delta, packed_delta, short_repeat, Patched};
use super::numbers::{largest, varint, Numbers};
use super::{Frame, Frames, Part};
use crate::bits::WIDTHS;

pub const PARTS: &[Part] = &[
    Part { what: "a stream of docs/FORMAT.md's sample runs, walked from run to run", frames: sample_stream },
    Part { what: "a run of each kind before a run of each kind, walked from run to run", frames: every_pair },
    Part { what: "short repeats of each size", frames: short_repeats },
    Part { what: "direct runs of each width", frames: direct_runs },
    Part { what: "fixed deltas with varints of each length", frames: fixed_deltas },
    Part { what: "packed deltas of each width", frames: packed_deltas },
    Part { what: "patched runs of each width, with lists of 0 to 4 entries", frames: patched_runs },
    Part { what: "patched runs with each size of the base and each patch width", frames: more_patched },
    Part { what: "long runs", frames: long_runs },
];

/// A stream of these runs cut at each byte, as a reader walks over what is left, under both flags.
fn every_cut(runs: &[Vec<u8>]) -> Vec<Frame> {
    let stream = runs.concat();
    let starts: Vec<usize> =
        runs.iter().scan(0, |next, run| Some(std::mem::replace(next, *next + run.len()))).collect();
    let mut frames = Vec::new();
    for kept in 0..=stream.len() {
        let walked = starts.iter().copied().chain([stream.len()]).filter(|start| *start <= kept);
        frames.extend(walked.flat_map(|start| Frame::both(&stream[start..kept])));
    }
    frames
}

/// Each of these runs with another after it, cut at each byte of both: the first run alone, under both flags.
fn each_before_another(runs: impl Iterator<Item = Vec<u8>> + 'static) -> Frames {
    Box::new(runs.flat_map(|run| {
        let stream = [&run[..], &[0x46, 0x02, 0x12, 0x30]].concat();
        (1..=stream.len()).flat_map(move |kept| Frame::both(&stream[..kept]))
    }))
}

fn sample_stream() -> Frames {
    let runs = ["000A012C", "0046021230", "00C0040A04", "00C603640514", "008603032164123494", "00C0000700"];
    let run = |line: &str| crate::frame_of(line.as_bytes()).expect("a good line").1;
    Box::new(every_cut(&runs.map(run)).into_iter())
}

fn every_pair() -> Frames {
    let kinds = || {
        [
            short_repeat(3, 4, 0x0A_0B0C),
            direct(10, &[0x7FF, 0, 0x123], true),
            patched(4, 3, 2, 2),
            fixed_delta(300, &varint(70_000), &varint(5)),
            packed_delta(5, &varint(300), &varint(129), &[63, 0, 31, 7], true),
        ]
    };
    let pairs = kinds().into_iter().flat_map(move |first| kinds().map(|second| [first.clone(), second]));
    Box::new(pairs.flat_map(|pair| every_cut(&pair)))
}

fn short_repeats() -> Frames {
    each_before_another((1..=8).map(|size| {
        let value = Numbers::new(size).any() & largest(8 * size);
        short_repeat(size, 2 + size, value)
    }))
}

fn direct_runs() -> Frames {
    each_before_another((0..32).flat_map(|code| {
        [1, 2, 3 + code % 7].map(|rows| direct(code, &Numbers::new(code).fields(rows, WIDTHS[code]), false))
    }))
}

/// The least and the largest number of a varint of that many bytes, ten of them at most.
fn varints(length: usize) -> [Vec<u8>; 2] {
    [varint(if length == 1 { 0 } else { 1 << (7 * (length - 1)) }), varint(largest((7 * length).min(64)))]
}

fn fixed_deltas() -> Frames {
    let lengths = (1..=10).map(|first| (first, 10)).chain((1..=10).map(|base| (1, base)));
    each_before_another(lengths.flat_map(|(first, base)| {
        let ([low, high], [least, most]) = (varints(first), varints(base));
        [fixed_delta(3, &low, &most), fixed_delta(3, &high, &least)]
    }))
}

fn packed_deltas() -> Frames {
    each_before_another((1..32).flat_map(|code| {
        [2, 3, 4 + code % 7].map(|rows| {
            let mut numbers = Numbers::new(code);
            let magnitudes = numbers.fields(rows - 2, WIDTHS[code]);
            let [first, base] = [code % 10, rows % 10].map(|length| varints(1 + length)[code % 2].clone());
            packed_delta(code, &first, &base, &magnitudes, false)
        })
    }))
}

/// A patched run with that many entries.
fn patched(code: usize, patch_code: usize, base: usize, entries: usize) -> Vec<u8> {
    let mut numbers = Numbers::new(code * 32 + patch_code);
    let rows = 4 + code % 5;
    Patched {
        code,
        values: numbers.fields(rows, WIDTHS[code]),
        base: numbers.bytes(base),
        patch_code,
        gap_width: 1,
        list: (0..entries).map(|entry| (u64::from(entry > 0), 1 & largest(64 - WIDTHS[code]))).collect(),
        padding: true,
    }
    .bytes()
}

fn patched_runs() -> Frames {
    each_before_another((0..32).flat_map(|code| (0..=4).map(move |entries| patched(code, 3, 2, entries))))
}

/// The widest patch width leaves no room for a gap: by its header alone it is refused.
fn more_patched() -> Frames {
    each_before_another((0..32).map(|patch_code| patched(7, patch_code, 1 + patch_code % 8, 2)))
}

/// 512 rows of direct, delta and patched runs; the patched one has a skip in its list.
fn long_runs() -> Frames {
    let fields = |code: usize, rows| Numbers::new(code).fields(rows, WIDTHS[code]);
    let patched = |list: &[(u64, u64)]| Patched {
        code: 0,
        values: fields(0, 512),
        base: vec![0x80, 0x05],
        patch_code: 1,
        gap_width: 8,
        list: list.to_vec(),
        padding: false,
    };
    let runs = [
        direct(0, &fields(0, 512), false),
        direct(3, &fields(3, 512), false),
        direct(7, &fields(7, 256), false),
        packed_delta(1, &[0x0A], &[0x03], &fields(1, 510), false),
        packed_delta(4, &[0x0A], &[0x02], &fields(4, 300), false),
        patched(&[(1, 1), (255, 0), (255, 3)]).bytes(),
        patched(&[(3, 1); 31]).bytes(),
        fixed_delta(512, &[0x0A], &[0x03]),
    ];
    each_before_another(runs.into_iter())
}
