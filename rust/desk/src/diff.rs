//! `diff A B`: the first run and the first row in which two stream files part.
mod told;

use std::ffi::OsString;

use crate::advice::Trouble;
use crate::arguments::Arguments;
use crate::ended::{self, Ended, Failure};
use crate::input::Input;
use crate::progress::Progress;
use crate::stream::Stream;
use crate::walk::{Counts, RunInfo, Walk};
use crate::Subcommand;

pub const SUBCOMMAND: Subcommand = Subcommand {
    name: "diff",
    does: "says in which run and in which row two stream files part",
    help: HELP,
    run,
};

const HELP: &str = "usage: menakovitsy diff [OPTION]... A B

A and B each hold the bytes of one integer column (a stream of RLE version 2 runs, uncompressed); one
of them may be -, standard input. Says which run is the first whose bytes differ, and which row is the
first that differs. The same rows can stand in other runs (menakovitsy convert makes such files): then
a run differs, and no row. Runs and rows are counted from 0.

  --rows    only rows count, and nothing is said of runs: files with the same rows are equal
  --signed  the rows are signed (zigzag)
  --flags   both hold flags (byte runs, eight flags to a byte)
  --bytes   both hold bytes (byte runs); with --signed -128 to 127
  --json    JSON lines (menakovitsy --help says how they look), of these types:
            equal        runs, rows, bytes
            run_differs  run (its number), and for A: a_byte, a_row, a_kind, a_bits, a_rows, a_bytes
            row_differs  row (its number), and for A: a_byte (of its run), a_value
            rows_equal   rows: no row differs, though a run does
            For B the same with b_. If A has ended there, it has a_end (its bytes) instead; if A
            breaks off there, a_refused (the refusal's number), a_byte, a_meaning and a_advice

Status: 0 they are equal, 1 they differ or one of them is refused, 2 bad usage, or a file cannot be
read.
";

struct Options {
    names: [OsString; 2],
    stream: Stream,
    rows_only: bool,
    json: bool,
}

fn options(arguments: Vec<OsString>) -> Result<Options, Failure> {
    let mut arguments = Arguments::new(arguments);
    let [rows_only, json] = ["--rows", "--json"].map(|name| arguments.flag(name));
    let stream = Stream::of(&mut arguments)?;
    let names = arguments.all(["A", "B"])?;
    if names.iter().all(|name| name == "-") {
        return Err(Failure::Usage("only one of A and B can be standard input".into()));
    }
    Ok(Options { names, stream, rows_only, json })
}

/// What stands in one of the files where they part.
pub enum Side<T> {
    Here(T),
    /// It has ended, after these.
    Ended(Counts),
    /// It is refused there.
    Refused(Box<Trouble>),
}

/// A row, and the byte that its run begins at.
#[derive(Debug, Clone, Copy, PartialEq, Eq)]
pub struct Row {
    pub value: i64,
    pub at: u64,
}

/// What two files came to.
pub enum Compared {
    /// All runs are the same, byte for byte.
    Equal(Counts),
    /// The number of the first run that differs, what it is in each, and what became of the rows.
    Parted(u64, [Side<RunInfo>; 2], Rows),
}

/// What the rows of two files came to, whatever their runs.
pub enum Rows {
    /// All are equal: how many there are.
    Equal(u64),
    /// The first that differs, and what it is in each.
    Parted(u64, [Side<Row>; 2]),
}

/// One of the files, as it is compared.
pub struct File {
    walk: Walk,
    /// The run that is compared, its bytes and rows, and how many of the rows were.
    run: Option<RunInfo>,
    raw: Vec<u8>,
    rows: Vec<i64>,
    taken: usize,
}

impl File {
    fn open(name: &OsString, stream: Stream) -> Result<(Self, Option<u64>), Failure> {
        let input = Input::open(name)?;
        let length = input.length;
        let walk = Walk::new(input, stream, 0);
        Ok((File { walk, run: None, raw: Vec::new(), rows: Vec::new(), taken: 0 }, length))
    }

    /// Takes the next run: no if there is none.
    fn next(&mut self) -> Result<bool, Failure> {
        let run = self.walk.next_run()?;
        self.run = run.map(|run| {
            run.raw.clone_into(&mut self.raw);
            run.rows.clone_into(&mut self.rows);
            run.info
        });
        self.taken = 0;
        Ok(self.run.is_some())
    }

    /// Takes runs until one has rows that were not compared: no if there is none.
    fn has_rows(&mut self) -> Result<bool, Failure> {
        while self.run.is_none() || self.taken == self.rows.len() {
            if !self.next()? {
                return Ok(false);
            }
        }
        Ok(true)
    }

    /// What is here: something, the end, or a refusal.
    fn side<T>(&mut self, here: Option<T>) -> Result<Side<T>, Failure> {
        if let Some(here) = here {
            return Ok(Side::Here(here));
        }
        Ok(match self.walk.trouble()? {
            None => Side::Ended(self.walk.walked().all),
            Some(trouble) => Side::Refused(Box::new(trouble)),
        })
    }

    fn row(&self) -> Option<Row> {
        let run = self.run?;
        self.rows.get(self.taken).map(|value| Row { value: *value, at: run.at })
    }
}

fn run(arguments: Vec<OsString>) -> Result<Ended, Failure> {
    let options = options(arguments)?;
    let (a, length) = File::open(&options.names[0], options.stream)?;
    let (b, _) = File::open(&options.names[1], options.stream)?;
    let mut progress = Progress::new(length, "diff");
    let compared = compare([a, b], &mut progress);
    progress.end();
    let compared = compared?;
    let names = options.names.each_ref().map(|name| match name.to_string_lossy() {
        name if name == "-" => "standard input".into(),
        name => name.into_owned(),
    });
    ended::say(&match options.json {
        true => told::objects(&compared, options.rows_only),
        false => told::text(&compared, &names, options.rows_only),
    })?;
    Ok(match compared {
        Compared::Equal(_) => Ended::Well,
        Compared::Parted(_, _, Rows::Equal(_)) if options.rows_only => Ended::Well,
        Compared::Parted(..) => Ended::Refused,
    })
}

/// Compares run by run, and from the first that differs on row by row.
fn compare([mut a, mut b]: [File; 2], progress: &mut Progress) -> Result<Compared, Failure> {
    let mut number = 0;
    loop {
        let (more_a, more_b) = (a.next()?, b.next()?);
        if !(more_a && more_b && a.raw == b.raw) {
            break;
        }
        number += 1;
        progress.at(a.walk.walked().all.bytes);
    }
    let runs = [a.run, b.run];
    let sides = [a.side(runs[0])?, b.side(runs[1])?];
    if let [Side::Ended(all), Side::Ended(_)] = sides {
        return Ok(Compared::Equal(all));
    }
    let rows = compare_rows([&mut a, &mut b], progress)?;
    Ok(Compared::Parted(number, sides, rows))
}

/// The first row that differs, from the runs on that are held.
fn compare_rows([a, b]: [&mut File; 2], progress: &mut Progress) -> Result<Rows, Failure> {
    let mut number = a.run.or(b.run).map_or(a.walk.walked().all.rows, |run| run.first);
    while a.has_rows()? & b.has_rows()? {
        let (left, right) = (&a.rows[a.taken..], &b.rows[b.taken..]);
        let equal = left.iter().zip(right).take_while(|(one, other)| one == other).count();
        (a.taken, b.taken) = (a.taken + equal, b.taken + equal);
        number += equal as u64;
        if a.taken < a.rows.len() && b.taken < b.rows.len() {
            break;
        }
        progress.at(a.walk.walked().all.bytes);
    }
    let rows = [a.row(), b.row()];
    match [a.side(rows[0])?, b.side(rows[1])?] {
        [Side::Ended(_), Side::Ended(_)] => Ok(Rows::Equal(number)),
        sides => Ok(Rows::Parted(number, sides)),
    }
}
