//! `bench [--print | --smoke]`: times every case, prints the tables, and writes docs/BENCH.md and
//! docs/bench.svg of the repository; built for x86-64-v3 docs/BENCH-V3.md and docs/bench-v3.svg, and on Arm
//! docs/BENCH-ARM.md and docs/bench-arm.svg, or in the folder that `BENCH_DOCS` names (with `--print` it writes
//! nothing; `--smoke` takes three samples of some cases, and writes nothing).
#![forbid(unsafe_code)]

#[cfg(feature = "ours")]
mod batches;
mod booleans;
mod cases;
#[cfg(feature = "ours")]
mod index;
#[cfg(feature = "ours")]
mod iterators;
mod measure;
#[cfg(feature = "ours")]
mod ours;
mod parts;
#[cfg(feature = "ours")]
mod planned;
mod plot;
mod table;
#[cfg(feature = "ours")]
mod written;

use std::path::PathBuf;
use std::process::ExitCode;
use std::{env, fs};

use table::Row;

/// Where the pages are, unless `BENCH_DOCS` names another folder.
const DOCS: &str = concat!(env!("CARGO_MANIFEST_DIR"), "/../../docs");

/// How many samples of each candidate are taken.
const SAMPLES: usize = 31;

const ABOUT: &str = "# How fast the readers are

Nanoseconds a row, the least of 31 samples, the candidates taking turns; less is better. A column headed *signed* is
the one before it for signed rows.

- **Ours**: one call of `orc_read_run` a run, through the safe wrapper `menakovitsy`, into bytes; of
  whole streams one call of `orc_read_stream`, and of booleans one of `orc_read_booleans`; of a column in
  parts the calls of `orc_part_take` that its parts need, the runs used where they are handed out; of a
  column in batches a call of `orc_read_rows` or `orc_read_flags` a batch; row by row the iterators of the
  wrapper, which call `orc_read_stream` or `orc_read_run_at`; of a column that is written one
  call of `orc_plan` and one of `orc_write_column`, and of flags one of `orc_write_booleans`.
- **Rust**: the decoders of WenyXu/orc-rs at 3a197fa636, unchanged, through their iterators, as a
  loader calls them. They have not written the widths 26, 28 and 30, and of booleans they agree with
  the rules within the first run only: so that is what is timed of them.
- **Copy**: a plain copy of the same output, which no reader beats. Bytes a second are those read and those written:
  a copy reads eight and writes eight a row, the stream reader reads its input and writes eight.

A long buffer has 32,768 rows, in runs of 512 (short repeats: of 10). Of one short run by itself, the Rust's
time has the making of its reader in it, which takes a buffer of 512 rows. Each candidate's rows are
compared with the model's before its time counts. `cargo run --release -p bench` in `rust/` writes
this page and the plot.
";

/// The page, its plot, and what it says of the library. Each processor has a page of its own.
const PAGE: [&str; 3] = if cfg!(all(target_arch = "x86_64", target_feature = "avx2")) {
    [
        "BENCH-V3.md",
        "bench-v3.svg",
        "\nOurs and the Rust are compiled for x86-64-v3 (AVX2): `RUSTFLAGS='-C target-cpu=x86-64-v3'`, and \
         `MENAKOVITSY_LIB_DIR`\nnames a folder of `.ci/libraries`. BENCH.md is of plain x86-64.\n",
    ]
} else if cfg!(target_arch = "x86_64") {
    ["BENCH.md", "bench.svg", "\nBENCH-V3.md is the same page for x86-64-v3 (AVX2).\n"]
} else {
    [
        "BENCH-ARM.md",
        "bench-arm.svg",
        "\nThe library is the same proved module, compiled for this processor by `.ci/libraries`. BENCH.md is of x86-64.\n",
    ]
};

/// How much is timed, and whether it is written.
#[derive(Clone, Copy, PartialEq, Eq)]
enum Mode {
    Write,
    Print,
    Smoke,
}

fn mode() -> Option<Mode> {
    let words: Vec<String> = env::args().skip(1).collect();
    match words.iter().map(String::as_str).collect::<Vec<_>>()[..] {
        [] => Some(Mode::Write),
        ["--print"] => Some(Mode::Print),
        ["--smoke"] => Some(Mode::Smoke),
        _ => None,
    }
}

fn main() -> ExitCode {
    let Some(mode) = mode() else {
        eprintln!("usage: bench [--print | --smoke]");
        return ExitCode::from(2);
    };
    let (samples, step) = if mode == Mode::Smoke { (3, 5) } else { (SAMPLES, 1) };
    let cases: Vec<_> = cases::all().into_iter().step_by(step).collect();
    let rows: Vec<Row> = timed("runs", cases, |case| &case.name, |case| measure::measure(case, samples))
        .into_iter()
        .map(|(case, times)| Row { case, times })
        .collect();
    let flags =
        timed("booleans", booleans::all(), |case| &case.name, |case| booleans::measure(case, samples));
    let columns = timed("in parts", parts::all(), |case| &case.name, |case| parts::measure(case, samples));
    let tables = table::markdown(&rows, &flags, &columns) + &others(&rows, &flags, samples);
    println!("{tables}");
    if mode == Mode::Write {
        write(&tables, &rows)
    } else {
        ExitCode::SUCCESS
    }
}

/// Times cases one after another, and says which.
fn timed<C, T>(what: &str, cases: Vec<C>, name: fn(&C) -> &str, time: impl Fn(&C) -> T) -> Vec<(C, T)> {
    let count = cases.len();
    let one = |(k, case): (usize, C)| {
        eprintln!("{what}  {:>3} of {count}  {}", k + 1, name(&case));
        let times = time(&case);
        (case, times)
    };
    cases.into_iter().enumerate().map(one).collect()
}

/// The tables of what only ours has.
#[cfg(feature = "ours")]
fn others(rows: &[Row], flags: &[(booleans::Flags, booleans::FlagTimes)], samples: usize) -> String {
    let cases: Vec<_> = rows.iter().map(|row| &row.case).collect();
    let flags: Vec<_> = flags.iter().map(|(case, _)| case).collect();
    eprintln!("the index");
    let index = index::markdown(&index::build(&cases, samples), &index::end(samples));
    eprintln!("batches");
    let times = (batches::rows(&cases, samples), batches::flags(&flags, samples), batches::labels(samples));
    let batches = batches::markdown(&times.0, &times.1, times.2);
    eprintln!("iterators");
    let iterators =
        iterators::markdown(&iterators::rows(&cases, samples), &iterators::flags(&flags, samples));
    eprintln!("flags and bytes written");
    let written = written::markdown(&written::flags(samples), &written::bytes(samples));
    eprintln!("columns written");
    iterators + &batches + &index + &planned::markdown(&planned::measure(samples)) + &written
}

#[cfg(not(feature = "ours"))]
fn others(_: &[Row], _: &[(booleans::Flags, booleans::FlagTimes)], _: usize) -> String {
    String::new()
}

/// Writes the page and its plot.
fn write(tables: &str, rows: &[Row]) -> ExitCode {
    let docs = env::var_os("BENCH_DOCS").map_or_else(|| PathBuf::from(DOCS), PathBuf::from);
    let [page, plot, library] = PAGE;
    let text = format!("{ABOUT}{library}\n![Nanoseconds a row]({plot})\n{}{tables}", machine());
    let written = fs::create_dir_all(&docs)
        .and_then(|()| fs::write(docs.join(page), text))
        .and_then(|()| fs::write(docs.join(plot), plot::svg(rows)));
    match written {
        Ok(()) => ExitCode::SUCCESS,
        Err(error) => {
            eprintln!("error: {} cannot be written: {error}", docs.display());
            ExitCode::FAILURE
        }
    }
}

/// What the times were taken on, how busy it was, and whether ours were taken.
fn machine() -> String {
    let cpu = fs::read_to_string("/proc/cpuinfo").unwrap_or_default();
    let name = cpu.lines().find_map(|line| Some(line.strip_prefix("model name")?.split_once(": ")?.1));
    let load = fs::read_to_string("/proc/loadavg").unwrap_or_default();
    let load = load.split(' ').next().filter(|load| !load.is_empty()).unwrap_or("unknown");
    let cores = std::thread::available_parallelism().map_or(1, usize::from);
    let ours = if cfg!(feature = "ours") { "" } else { "\nOurs was not linked into this run.\n" };
    let name = name.unwrap_or(env::consts::ARCH);
    format!("\nTaken on: {name}, {cores} cores, load average {load} (over {cores}, other programs took part of it).\n{ours}")
}
