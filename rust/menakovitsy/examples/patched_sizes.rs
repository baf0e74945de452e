//! Bytes of a patched run against the best direct run, for columns of 512 rows with rare jumps.
//!
//! ```text
//! cargo run --offline -p menakovitsy --example patched_sizes
//! ```
use std::fmt::Write;

use menakovitsy::{narrowest_code, write_patched, write_run, Form, Sign, MAX_WRITTEN};

const ROWS: i64 = 512;

/// A column, by its rows.
struct Sample {
    name: &'static str,
    row: fn(i64) -> i64,
}

/// Small numbers that look like no pattern: 0 to 63.
fn small(k: i64) -> i64 {
    ((k * 2_654_435_761) >> 13) % 64
}

const SAMPLES: [Sample; 6] = [
    // The samples of a window at 44,100 a second, half a second each; the song pauses four times.
    Sample {
        name: "window lengths, 4 pauses",
        row: |k| 22_050 + small(k) + if k % 120 == 77 { 9_000_000 + k } else { 0 },
    },
    Sample {
        name: "milliseconds between takes, 2 nights",
        row: |k| 20 + small(k) / 8 + if k == 100 || k == 400 { 30_000_000 } else { 0 },
    },
    Sample {
        name: "stem numbers, 1 of another session",
        row: |k| if k == 511 { 1 << 40 } else { small(k) % 16 },
    },
    Sample { name: "sizes, 30 large", row: |k| small(k) + if k % 17 == 3 { 70_000 } else { 0 } },
    Sample { name: "sizes, 64 large", row: |k| small(k) + if k % 8 == 3 { 70_000 } else { 0 } },
    Sample { name: "no jump", row: small },
];

/// The fewest bytes of a direct run, under either flag.
fn direct(rows: &[i64]) -> usize {
    let mut out = [0; MAX_WRITTEN];
    let unsigned = rows.iter().map(|row| *row as u64).max().unwrap_or(0);
    let signed = rows.iter().map(|row| ((row << 1) ^ (row >> 63)) as u64).max().unwrap_or(0);
    [(Sign::Unsigned, unsigned), (Sign::Signed, signed)]
        .into_iter()
        .filter_map(|(sign, most)| {
            write_run(rows, sign, Form::Direct, narrowest_code(most), &mut out).ok().map(|run| run.bytes.0)
        })
        .min()
        .unwrap_or(0)
}

/// The fewest bytes of a patched run over the smallest row, and its width, if there is one: widths that
/// are not kept are refused.
fn patched(rows: &[i64]) -> Option<(usize, u8)> {
    let base = rows.iter().copied().min()?;
    let mut out = [0; MAX_WRITTEN];
    (1..=64)
        .filter_map(|width| write_patched(rows, base, width, &mut out).ok().map(|run| (run.bytes.0, width)))
        .min()
}

/// The table.
pub fn report() -> String {
    let mut table = String::from("| 512 rows | direct | patched | W |\n|---|---|---|---|\n");
    for sample in SAMPLES {
        let rows: Vec<i64> = (0..ROWS).map(sample.row).collect();
        let (bytes, width) = match patched(&rows) {
            Some((bytes, width)) => (bytes.to_string(), width.to_string()),
            None => ("none".into(), "none".into()),
        };
        let _ = writeln!(table, "| {} | {} | {bytes} | {width} |", sample.name, direct(&rows));
    }
    table
}

#[allow(dead_code)] // the test takes the report alone
fn main() {
    print!("{}", report());
}
