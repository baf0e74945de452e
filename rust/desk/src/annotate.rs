//! `annotate FILE`: what runs a stream file holds, and where it breaks off.
mod lines;
pub mod objects;
mod picture;
mod strip;
mod summary;

use std::ffi::OsString;
use std::path::PathBuf;

use crate::advice::Trouble;
use crate::arguments::Arguments;
use crate::ended::{Ended, Failure};
use crate::files;
use crate::input::Input;
use crate::output::Output;
use crate::progress::Progress;
use crate::stream::Stream;
use crate::walk::{Walk, Walked};
use crate::Subcommand;
pub use lines::counts;
use picture::Picture;
use strip::Strip;
use summary::Summary;

pub const SUBCOMMAND: Subcommand = Subcommand {
    name: "annotate",
    does: "says what runs a stream file holds, and where it breaks off",
    help: HELP,
    run,
};

const HELP: &str = "usage: menakovitsy annotate [OPTION]... FILE

FILE holds the bytes of one integer column (a stream of RLE version 2 runs, uncompressed); - is
standard input. A line for each run: the byte it begins at, the number of its first row, its kind,
the width of its values in bits (0: a delta run with one step), its rows and bytes, and the
smallest and the largest row, as 64 bits with a sign. Then a summary by kind and width; and, if the
file breaks off, the number of the refusal, what it means, where, and what to do.

  --from ROW  starts at the run that holds this row; the runs before it are passed over
  --signed    the rows are signed (zigzag); it changes rows, and neither runs nor refusals
  --flags     FILE holds flags (a boolean column, or which rows are present): byte runs, eight flags
              to a byte. A row is a flag, and the last column says how many are true. The stream does
              not say how many flags its last byte has: up to seven of them may be padding
  --bytes     FILE holds bytes (a tinyint column): byte runs, a row a byte; with --signed -128 to 127
  --json      JSON lines (menakovitsy --help says how they look), of these types:
              run      byte, row, kind, bits, rows, bytes, smallest, largest; of flags true instead of
                       the last two
              count    kind, bits, runs, rows, bytes: for each kind and width
              passed   before_row, runs, rows, bytes: if --from passed over runs
              whole    runs, rows, bytes: the last line, if the file is not refused
  --svg OUT   writes a picture, too: the runs by kind and width along the file, the damage marked. It
              is never written over FILE. - is standard output, and then no lines are written. The
              picture is written even if whoever reads the lines stops reading

A byte run is a repeat (one byte, 3 to 130 times) or literals (1 to 128 bytes as they are).
An option's value may follow it or stand after an equals sign: --from 3, --from=3. After -- every
argument is a name. A file of any size will do: a few MiB of memory are used. On a terminal a file
of over 100 MB shows how far it is.

Status: 0 the whole file was read, 1 it is refused at some byte or has no such row, 2 bad usage, or
a file cannot be read or written.
";

struct Options {
    file: OsString,
    stream: Stream,
    from: u64,
    json: bool,
    picture: Option<PathBuf>,
}

/// What there is to say after the last run.
pub struct End<'a> {
    summary: &'a Summary,
    walked: Walked,
    /// The row that was asked for first.
    from: u64,
    /// How many bytes the file has.
    length: u64,
    trouble: Option<Trouble>,
    is_orc_file: bool,
}

fn options(arguments: Vec<OsString>) -> Result<Options, Failure> {
    let mut arguments = Arguments::new(arguments);
    let picture = arguments.value("--svg")?.map(PathBuf::from);
    let from = arguments.number("--from")?.unwrap_or(0);
    let json = arguments.flag("--json");
    let stream = Stream::of(&mut arguments)?;
    let file = arguments.name("FILE")?;
    if picture.as_ref().is_some_and(|picture| files::same(picture, file.as_ref())) {
        return Err(Failure::Usage("the picture would be written over FILE".into()));
    }
    Ok(Options { file, stream, from, json, picture })
}

fn run(arguments: Vec<OsString>) -> Result<Ended, Failure> {
    let options = options(arguments)?;
    let input = Input::open(&options.file)?;
    let mut progress = Progress::beside_lines(input.length, "annotate");
    let mut walk = Walk::new(input, options.stream, options.from);
    let mut output = Output::new();
    match options.picture.as_deref() {
        Some(path) if path.as_os_str() == "-" => output.close(),
        Some(_) => output.may_be_closed(),
        None => {}
    }
    let mut summary = Summary::default();
    let mut strip = Strip::new(options.stream.kinds());
    while let Some(run) = walk.next_run()? {
        output.put(|output| match (options.json, summary.is_empty()) {
            (true, _) => objects::run(output, &run, options.stream),
            (false, true) => {
                lines::head(output)?;
                lines::run(output, &run, options.stream)
            }
            (false, false) => lines::run(output, &run, options.stream),
        })?;
        summary.add(&run.info);
        strip.add(&run.info);
        progress.at(run.info.at);
    }
    progress.end();
    let end = ended(&mut walk, &options, &summary)?;
    output.put(|output| match options.json {
        true => objects::end(output, &end),
        false => lines::end(output, &end),
    })?;
    output.flush()?;
    if let Some(path) = options.picture.as_deref() {
        let picture = Picture { name: walk.name(), strip: &strip, stream: options.stream, end: &end };
        files::replace(path, picture.svg().as_bytes())?;
    }
    let reached = options.from == 0 || options.from < end.walked.all.rows;
    Ok(if end.trouble.is_some() || !reached { Ended::Refused } else { Ended::Well })
}

fn ended<'a>(walk: &mut Walk, options: &Options, summary: &'a Summary) -> Result<End<'a>, Failure> {
    let trouble = walk.trouble()?;
    let (walked, is_orc_file) = (walk.walked(), walk.is_orc_file());
    let length = trouble.as_ref().map_or(walked.all.bytes, |trouble| trouble.length);
    Ok(End { summary, walked, from: options.from, length, trouble, is_orc_file })
}

/// How many flags are true.
fn trues(flags: &[i64]) -> u64 {
    flags.iter().filter(|flag| **flag != 0).count() as u64
}
