//! `values FILE`: the rows of a stream file, a line each.
use std::ffi::OsString;
use std::io::Write;

use menakovitsy::Refusal;

use crate::advice::{self, wrapped};
use crate::annotate::objects;
use crate::arguments::Arguments;
use crate::ended::{Ended, Failure};
use crate::input::Input;
use crate::json::Object;
use crate::output::Output;
use crate::progress::Progress;
use crate::stream::Stream;
use crate::walk::{RunAt, Walk};
use crate::Subcommand;

pub const SUBCOMMAND: Subcommand =
    Subcommand { name: "values", does: "writes the rows of a stream file, a line each", help: HELP, run };

const HELP: &str = "usage: menakovitsy values [OPTION]... FILE

FILE holds the bytes of one integer column (a stream of RLE version 2 runs, uncompressed); - is
standard input. Its rows go to standard output, a line each, as 64 bits with a sign: without --signed
a row at or above 2^63 is the negative number with the same bits.

  --from ROW  begins with this row, counted from 0; runs before it are passed over
  --count N   writes N rows at most, and reads no further than they need
  --signed    the rows are signed (zigzag)
  --flags     FILE holds flags (byte runs, eight flags to a byte): a line of 0 or 1 for each. The
              stream does not say how many flags its last byte has: up to seven of them may be padding
  --bytes     FILE holds bytes (byte runs): 0 to 255, with --signed -128 to 127
  --json      JSON lines (menakovitsy --help says how they look) of type row, with row (its number)
              and value

If the file breaks off, the rows before that are written all the same. Why it does, and what to do,
goes to standard error; with --json it is the last line.

Status: 0 the rows are written, 1 the file is refused before the last of them, or has no such row,
2 bad usage, or a file cannot be read or written.
";

struct Options {
    file: OsString,
    stream: Stream,
    from: u64,
    count: u64,
    json: bool,
}

fn options(arguments: Vec<OsString>) -> Result<Options, Failure> {
    let mut arguments = Arguments::new(arguments);
    let from = arguments.number("--from")?.unwrap_or(0);
    let count = arguments.number("--count")?.unwrap_or(u64::MAX);
    let json = arguments.flag("--json");
    let stream = Stream::of(&mut arguments)?;
    Ok(Options { file: arguments.name("FILE")?, stream, from, count, json })
}

fn run(arguments: Vec<OsString>) -> Result<Ended, Failure> {
    let options = options(arguments)?;
    let input = Input::open(&options.file)?;
    let mut progress = Progress::beside_lines(input.length, "values");
    let mut walk = Walk::new(input, options.stream, options.from);
    let mut output = Output::new();
    let end = options.from.saturating_add(options.count);
    // With no row to write, only whether there is one is looked at.
    while walk.walked().all.rows < end.max(options.from.saturating_add(1)) {
        let Some(run) = walk.next_run()? else { break };
        write_rows(&mut output, &run, &options, end)?;
        progress.at(run.info.at);
    }
    progress.end();
    let ended = told(&mut walk, &mut output, &options)?;
    output.flush()?;
    Ok(ended)
}

/// The rows of a run that are asked for.
fn write_rows(output: &mut Output, run: &RunAt, options: &Options, end: u64) -> Result<(), Failure> {
    let first = run.info.first;
    let within = |row: u64| row.saturating_sub(first).min(run.info.rows) as usize;
    let (from, to) = (within(options.from), within(end));
    output.put(|output| {
        for (row, value) in (first + from as u64..).zip(&run.rows[from..to.max(from)]) {
            match options.json {
                true => {
                    write!(output, "{}", Object::new("row").number("row", row).row("value", *value).line())
                }
                false => writeln!(output, "{value}"),
            }?;
        }
        Ok(())
    })
}

/// What became of the file, if it did not have all rows that were asked for.
fn told(walk: &mut Walk, output: &mut Output, options: &Options) -> Result<Ended, Failure> {
    let all = walk.walked().all;
    if let Some(trouble) = walk.trouble()? {
        if options.json {
            output.put(|output| write!(output, "{}", objects::refused(&trouble).line()))?;
        } else {
            output.flush()?;
            let (name, refused) = (walk.name(), trouble.refused);
            eprintln!("menakovitsy: {name} breaks off at byte {}, after {} rows", all.bytes, all.rows);
            eprintln!("  refusal {}: {}", refused.refusal.number(), refused.meaning());
            eprintln!("  what to do: {}", wrapped(&trouble.advice(), 14));
        }
        return Ok(Ended::Refused);
    }
    if options.from > 0 && all.rows <= options.from {
        let refusal = Refusal::NoSuchRow;
        match options.json {
            true => {
                let object = objects::no_such_row(options.from, all);
                output.put(|output| write!(output, "{}", object.line()))?;
            }
            false => eprintln!(
                "menakovitsy: refusal {}: {}: {} has {} rows, counted from 0",
                refusal.number(),
                refusal.meaning(),
                walk.name(),
                all.rows
            ),
        }
        return Ok(Ended::Refused);
    }
    if walk.is_orc_file() {
        output.flush()?;
        eprintln!("menakovitsy: note: {}", wrapped(advice::ORC_FILE, 14));
    }
    Ok(Ended::Well)
}
