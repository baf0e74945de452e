//! The index: building it against reading the same bytes, and reading the end of a long column through it
//! against reading all.
use std::fmt::Write as _;
use std::hint::black_box;

use differential::frames;
use menakovitsy::{Column, Index, RowNumber, Sign};
use model::random::Random;
use model::WIDTHS;

use crate::cases::{Case, Group};
use crate::measure::take_turns;
use crate::table::head;

/// How many rows the long column has, and how many of its last are read.
const ROWS: usize = 1_000_000;
const LAST: usize = 1_000;

/// A case, and nanoseconds a row: of building its index, and of reading it.
pub struct Built {
    name: String,
    build: f64,
    stream: f64,
}

/// Times building against one call of `orc_read_stream`, of the long buffers of unsigned rows. What it costs depends
/// on the bytes of a run, so of direct runs some widths do.
pub fn build(cases: &[&Case], samples: usize) -> Vec<Built> {
    let timed = |case: &Case| {
        let mut rows = vec![0; case.rows.len()];
        let index = Index::build(&case.bytes).expect("a case is whole runs");
        assert_eq!(index.row_count(), RowNumber(rows.len()), "{}", case.name);
        let mut build = || drop(black_box(Index::build(black_box(&case.bytes))));
        let mut stream = || crate::ours::stream_into(black_box(case), black_box(&mut rows));
        let times = take_turns(case.rows.len(), 1, samples, &mut [&mut build, &mut stream]);
        Built { name: case.name.clone(), build: times[0], stream: times[1] }
    };
    let kept = |group| matches!(group, Group::Direct(1 | 8 | 16 | 32 | 64) | Group::Long);
    let long = cases.iter().filter(|case| kept(case.group) && !case.signed);
    long.map(|case| timed(case)).collect()
}

/// Microseconds for a long column of a width: its last rows through an index, and all by the stream reader.
pub struct End {
    bits: usize,
    last: f64,
    all: f64,
}

pub fn end(samples: usize) -> Vec<End> {
    let mut random = Random::new(6);
    let mut timed = |code: usize| {
        let runs = ROWS.div_ceil(512);
        let runs = (0..runs).flat_map(|run| frames::direct(code, (ROWS - 512 * run).min(512), &mut random));
        let bytes: Vec<u8> = runs.collect();
        let index = Index::build(&bytes).expect("whole runs");
        let (mut all, mut last) = (vec![0; ROWS], vec![0; LAST]);
        let column = Column::new(&bytes, Sign::Unsigned);
        let mut read_all = || {
            let read = black_box(column.read_into(black_box(&mut all)));
            debug_assert!(read.is_ok());
        };
        let mut read_last = || {
            let from = RowNumber(ROWS - LAST);
            let read = index.read_from(black_box(&bytes), from, Sign::Unsigned, black_box(&mut last));
            debug_assert!(read.is_ok());
        };
        let times = take_turns(1_000, 1, samples, &mut [&mut read_last, &mut read_all]);
        assert_eq!(last, all[ROWS - LAST..], "the last rows are others");
        End { bits: WIDTHS[code], last: times[0], all: times[1] }
    };
    [7, 15, 27, 31].map(&mut timed).into()
}

/// Both tables.
pub fn markdown(built: &[Built], ends: &[End]) -> String {
    let mut text = String::new();
    let title = "The index: `orc_build_index` against `orc_read_stream` on the same bytes";
    head(&mut text, title, "Runs|Build|Stream|Stream / build");
    for Built { name, build, stream } in built {
        writeln!(text, "| {name} | {build:.3} | {stream:.2} | {:.1} |", stream / build)
            .expect("a string takes it");
    }
    let title = "The last 1,000 of 1,000,000 rows, direct runs of 512: microseconds";
    head(&mut text, title, "Width|Last 1,000, by the index|All, by `orc_read_stream`|All / last");
    for End { bits, last, all } in ends {
        writeln!(text, "| {bits} | {last:.1} | {all:.1} | {:.1} |", all / last).expect("a string takes it");
    }
    text + "\n`orc_read_from` compares the whole index with the column first.\n"
}
