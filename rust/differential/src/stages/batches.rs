//! Rows, flags and bytes in batches, in lines for the probe: 11 to 14.
use model::{Answer, Stream};

use crate::frames;
use crate::probe::Requests;
use crate::tally::Hex;
use model::random::Random;

/// The most places that a line can lend.
const MOST: usize = 8_192;

/// A row position, under a flag.
#[derive(Debug, Clone, Copy, PartialEq, Eq)]
pub struct At {
    pub flag: u64,
    pub run: u64,
    pub skip: u64,
}

/// 11: one batch.
pub fn rows_line(At { flag, run, skip }: At, places: usize, input: &[u8]) -> String {
    format!("11{flag:02x}{run:016x}{skip:016x}{places:04x}{}", Hex(input))
}

/// 12: a batch of each size, one after the other.
pub fn batches_line(At { flag, run, skip }: At, sizes: &[usize], input: &[u8]) -> String {
    let places: String = sizes.iter().map(|size| format!("{size:04x}")).collect();
    format!("12{flag:02x}{run:016x}{skip:016x}{:04x}{places}{}", sizes.len(), Hex(input))
}

/// 13: n flags from a run, bytes and bits.
pub fn flags_line(n: u64, [run, bytes, bits]: [u64; 3], places: usize, input: &[u8]) -> String {
    format!("13{n:016x}{run:016x}{bytes:016x}{bits:016x}{places:04x}{}", Hex(input))
}

/// 14: n bytes from a run and bytes.
pub fn bytes_line(n: u64, [run, bytes]: [u64; 2], places: usize, input: &[u8]) -> String {
    format!("14{n:016x}{run:016x}{bytes:016x}{places:04x}{}", Hex(input))
}

/// A number about the one that there is: mostly up to it, now and then just past it, or any.
fn about(there: usize, random: &mut Random) -> u64 {
    match random.below(16) {
        0 => random.any(),
        1 => random.any() >> random.below(64),
        2 => there as u64,
        3 => there as u64 + 1,
        _ => random.below(there + 1) as u64,
    }
}

/// Places about those that are needed.
fn places(needed: u64, random: &mut Random) -> usize {
    let needed = usize::try_from(needed).unwrap_or(MOST).min(MOST - 1);
    random.pick(&[needed, needed, needed, needed + 1, needed.saturating_sub(1), 0, needed / 2])
}

/// The bytes where integer runs begin, and where the last of them ends.
fn starts(input: &[u8]) -> Vec<usize> {
    let mut starts = vec![0];
    while let Answer::Run(run) = model::read_run(input, starts[starts.len() - 1], false, usize::MAX) {
        starts.push(starts[starts.len() - 1] + run.consumed);
    }
    starts
}

/// Any position in any stream, and how many rows follow it.
fn any_rows(random: &mut Random) -> (Vec<u8>, At, usize) {
    let input = frames::any_stream(random);
    let run = match random.below(8) {
        0 => frames::any_position(input.len(), random),
        _ => random.pick(&starts(&input)) as u64,
    };
    let (Stream::Whole { rows, .. } | Stream::Refused { rows, .. }) =
        model::read_stream(&input, run as usize, false, usize::MAX);
    let skip = about(rows.len(), random);
    let left = (rows.len() as u64).saturating_sub(skip) as usize;
    (input, At { flag: random.below(2) as u64, run, skip }, left)
}

/// Any position in byte runs, with how many bytes the runs from there on stand for.
fn any_bytes(random: &mut Random) -> (Vec<u8>, u64, usize) {
    let input = frames::any_booleans(random);
    let (mut at, mut bytes) = (0, vec![(0, 0)]);
    while let Some((run, taken)) = model::first_run(&input[at..]) {
        at += taken;
        bytes.iter_mut().for_each(|(_, left)| *left += run.len());
        bytes.push((at, 0));
    }
    match random.below(8) {
        0 => (input.clone(), frames::any_position(input.len(), random), random.below(9)),
        _ => {
            let (run, left) = random.pick(&bytes);
            (input, run as u64, left)
        }
    }
}

/// One call, or several one after the other, that a line asks for.
#[derive(Debug, Clone, PartialEq, Eq)]
pub enum Asked {
    Rows { at: At, places: usize, input: Vec<u8> },
    Batches { at: At, sizes: Vec<usize>, input: Vec<u8> },
    Flags { n: u64, position: [u64; 3], places: usize, input: Vec<u8> },
    Bytes { n: u64, position: [u64; 2], places: usize, input: Vec<u8> },
}

impl Asked {
    pub fn line(&self) -> String {
        match self {
            Asked::Rows { at, places, input } => rows_line(*at, *places, input),
            Asked::Batches { at, sizes, input } => batches_line(*at, sizes, input),
            Asked::Flags { n, position, places, input } => flags_line(*n, *position, *places, input),
            Asked::Bytes { n, position, places, input } => bytes_line(*n, *position, *places, input),
        }
    }
}

/// Any batch.
pub fn any(random: &mut Random) -> Asked {
    match random.below(4) {
        0 => {
            let (input, at, left) = any_rows(random);
            Asked::Rows { at, places: places(left as u64, random), input }
        }
        1 => {
            let (input, at, _) = any_rows(random);
            let size = |random: &mut Random| random.pick(&[0, 1, 2, 3, 7, 20, 100, 512, MOST]);
            let sizes: Vec<usize> = (0..random.from(1, 9)).map(|_| size(random)).collect();
            Asked::Batches { at, sizes, input }
        }
        2 => {
            let (input, run, left) = any_bytes(random);
            let skipped = about(8 * left, random);
            let n = about((8 * left).saturating_sub(skipped as usize), random);
            // The same number of booleans as bytes and bits in any way.
            let bytes =
                if random.once_in(2) { skipped / 8 } else { random.below(skipped as usize / 8 + 1) as u64 };
            let position = [run, bytes, skipped - 8 * bytes];
            Asked::Flags { n, position, places: places(n, random), input }
        }
        _ => {
            let (input, run, left) = any_bytes(random);
            let skipped = about(left, random);
            let n = about(left.saturating_sub(skipped as usize), random);
            Asked::Bytes { n, position: [run, skipped], places: places(n, random), input }
        }
    }
}

/// Any batch, as a line for the probe.
pub fn probe_line(requests: &mut Requests, random: &mut Random) {
    requests.said(any(random).line());
}

/// Every position of small inputs, with every number of places; each answer, each refusal, and sums that
/// pass 64 bits.
pub fn fixed_lines(requests: &mut Requests) {
    // Five rows 300; 1, 2, 3; 10, 12, 14, 16, 18; and a run that is refused after them.
    let three = [0x0A, 0x01, 0x2C, 0x46, 0x02, 0x12, 0x30, 0xC0, 0x04, 0x0A, 0x04, 0xC2, 0x00];
    for end in [13, 11, 10, 0] {
        let input = &three[..end];
        for run in [0, 1, 3, 7, 11, 14, u64::MAX] {
            for skip in [0, 1, 4, 5, 7, 8, 12, 13, 14, u64::MAX] {
                let at = At { flag: skip % 2, run, skip };
                for places in [0, 4, 14] {
                    requests.said(rows_line(at, places, input));
                }
                requests.said(batches_line(at, &[3, 0, 2, 1, 7, 1, 1], input));
            }
        }
    }
    fixed_flags(requests);
    let zero = "0000000000000000";
    for line in [
        format!("1102{zero}{zero}0009"),
        format!("1100{zero}{zero}2001"),
        format!("1100{zero}{zero}00"),
        format!("1200{zero}{zero}0000"),
        format!("1200{zero}{zero}00020001"),
        format!("13{zero}{zero}{zero}{zero}2001"),
        format!("13{zero}{zero}{zero}{zero}00"),
        format!("14{zero}{zero}{zero}2001"),
        format!("14{zero}{zero}{zero}00"),
    ] {
        requests.bad(&line);
    }
}

fn fixed_flags(requests: &mut Requests) {
    // Three bytes FF, two literals, a repeat of three that is cut.
    let runs = [0x00, 0xFF, 0xFE, 0x44, 0x45, 0x00];
    for input in [&runs[..], &runs[..5], &runs[..4]] {
        for run in [0, 2, 5, 7, u64::MAX] {
            for bytes in [0, 1, 2, 3, 4, 5, 6, 1 << 61] {
                for n in [0, 1, 2, 5, u64::MAX] {
                    requests.said(bytes_line(n, [run, bytes], 3, input));
                }
                for (n, bits) in [(0, 0), (8, 0), (7, 1), (2, 7), (0, 8), (9, 0), (1, u64::MAX)] {
                    requests.said(flags_line(n, [run, bytes, bits], 8, input));
                }
            }
        }
    }
}
