//! Columns that arrive in parts: what is timed, and the times.
use differential::frames;
use model::random::Random;

use crate::cases::{self, Case};

/// The bytes of the two sizes of parts.
pub const SIZES: [usize; 2] = [65_536, 100];

/// Nanoseconds a row: by one call of `orc_read_stream` for all bytes, and in parts of each size.
#[derive(Debug, Clone, Copy)]
pub struct PartTimes {
    pub stream: Option<f64>,
    pub parts: [Option<f64>; 2],
}

/// Columns of more bytes than a part of 64 KB has.
pub fn all() -> Vec<Case> {
    let mut random = Random::new(5);
    let mut columns = Vec::new();
    let mut column = |name: &str, runs: usize, run: &mut dyn FnMut(&mut Random) -> Vec<u8>| {
        columns.push(cases::column(name, (0..runs).map(|_| run(&mut random)).collect()));
    };
    for (bits, code) in [(8, 7), (16, 15), (32, 27), (64, 31)] {
        let name = format!("direct, width {bits}");
        column(&name, 2048 / bits, &mut |random| frames::direct(code, 512, random));
    }
    column("delta, width 8", 256, &mut |random| cases::packed(512, 7, false, false, random));
    column("patched, width 8, 20 patches", 256, &mut |random| cases::patched(512, 20, random));
    column("short repeat, 4 bytes", 32_768, &mut |random| frames::short_repeat(4, 10, random));
    // Nine of ten packed blocks are 8, 16 or 32 bits wide.
    let mut turn = 0;
    column("all kinds in turn", 640, &mut |random| {
        turn += 1;
        match turn % 8 {
            0 | 1 => frames::direct(7, 512, random),
            2 => frames::direct(15, 512, random),
            3 => frames::direct(27, 512, random),
            4 => frames::direct(16, 512, random),
            5 => cases::packed(512, 7, true, false, random),
            6 => cases::patched(512, 20, random),
            _ => frames::short_repeat(4, 10, random),
        }
    });
    columns
}

/// Times one column. Each candidate's rows are compared before its time counts.
#[cfg(feature = "ours")]
pub fn measure(case: &Case, samples: usize) -> PartTimes {
    use crate::measure::take_turns;
    use crate::ours;
    use std::hint::black_box;

    for size in SIZES {
        let mut rows = Vec::new();
        ours::parts_of(case, size, &mut |run| rows.extend_from_slice(run));
        assert!(rows == case.rows, "{}: other rows in parts of {size}", case.name);
    }
    let mut places = vec![0; case.rows.len()];
    ours::stream_into(case, &mut places);
    assert!(places == case.rows, "{}: other rows", case.name);
    let mut stream = || ours::stream_into(black_box(case), black_box(&mut places));
    let take = |size| {
        ours::parts_of(black_box(case), size, &mut |run| {
            black_box(run);
        });
    };
    let (mut large, mut small) = (|| take(SIZES[0]), || take(SIZES[1]));
    let times = take_turns(case.rows.len(), 1, samples, &mut [&mut stream, &mut large, &mut small]);
    PartTimes { stream: times.first().copied(), parts: [times.get(1).copied(), times.get(2).copied()] }
}

#[cfg(not(feature = "ours"))]
pub fn measure(_: &Case, _: usize) -> PartTimes {
    PartTimes { stream: None, parts: [None; 2] }
}
