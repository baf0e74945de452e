//! `convert IN`: a stream file without odd widths.
use std::ffi::OsString;
use std::path::PathBuf;

use menakovitsy::{convert, Index, Refused, Sign};

use crate::advice::{wrapped, Trouble};
use crate::annotate::objects;
use crate::arguments::Arguments;
use crate::ended::{self, Ended, Failure};
use crate::files;
use crate::json::Object;
use crate::looks;
use crate::numbers::many;
use crate::progress::Progress;
use crate::stream::Stream;
use crate::walk::Counts;
use crate::Subcommand;

pub const SUBCOMMAND: Subcommand = Subcommand {
    name: "convert",
    does: "writes a stream file anew, without the widths that the specification has retired",
    help: HELP,
    run,
};

const HELP: &str = "usage: menakovitsy convert [OPTION]... --out FILE IN

IN holds the bytes of one integer column (a stream of RLE version 2 runs, uncompressed); - is standard
input. It is read whole. Each direct or packed delta run whose values have a width that the
specification does not keep (it keeps 1, 2, 4, 8, 16, 24, 32, 40, 48, 56 and 64 bits) becomes the run of
the same rows at the next width that it does; every other run is copied, byte for byte. A line says how
many runs were altered, and the bytes before and after.

  --out FILE  where the new stream goes. It is never IN, and is written in one step: whatever happens,
              FILE is the old one or the new one, whole. A file that is replaced keeps its mode; if FILE
              is a symbolic link, what it leads to is replaced. - is standard output, and the line goes
              to standard error then
  --signed    the rows are signed (zigzag); for a delta's first row it matters
  --json      the line is JSON (menakovitsy --help says how it looks), of type converted with altered,
              bytes_before and bytes_after

Row groups start elsewhere in the new stream if runs before them were altered.
Status: 0 it is written, 1 IN is refused at some byte and nothing is written, 2 bad usage, or a file
cannot be read or written.
";

struct Options {
    input: OsString,
    sign: Sign,
    json: bool,
    out: PathBuf,
}

fn options(arguments: Vec<OsString>) -> Result<Options, Failure> {
    let mut arguments = Arguments::new(arguments);
    let out = arguments.value("--out")?.ok_or_else(|| Failure::Usage("option --out is missing".into()))?;
    let sign = if arguments.flag("--signed") { Sign::Signed } else { Sign::Unsigned };
    let json = arguments.flag("--json");
    let (input, out) = (arguments.name("IN")?, PathBuf::from(out));
    if files::same(&out, input.as_ref()) {
        return Err(Failure::Usage("the new stream would be written over IN".into()));
    }
    Ok(Options { input, sign, json, out })
}

fn run(arguments: Vec<OsString>) -> Result<Ended, Failure> {
    let Options { input, sign, json, out } = options(arguments)?;
    let bytes = files::read(&input)?;
    let before = bytes.len() as u64;
    let mut progress = Progress::new(Some(before), "convert");
    progress.step("convert", before);
    let converted = convert(&bytes, sign);
    progress.end();
    match converted {
        Ok(converted) => {
            files::replace(&out, &converted.bytes)?;
            let (altered, after) = (converted.altered as u64, converted.bytes.len() as u64);
            ended::report(&out, &said(json, altered, before, after))
        }
        Err(refused) => {
            let trouble = trouble(&bytes, refused, sign);
            match json {
                true => {
                    ended::report(&out, &objects::refused(&trouble).line())?;
                }
                false => eprintln!("menakovitsy: {}", told(&trouble)),
            }
            Ok(Ended::Refused)
        }
    }
}

fn said(json: bool, altered: u64, before: u64, after: u64) -> String {
    if json {
        let object = Object::new("converted").number("altered", altered);
        return object.number("bytes_before", before).number("bytes_after", after).line();
    }
    let [altered, before, after] =
        [(altered, "run"), (before, "byte"), (after, "byte")].map(|(n, of)| many(n, of));
    format!("altered {altered}: {before} before, {after} after\n")
}

/// A stream that is refused, with the runs before that.
fn trouble(bytes: &[u8], refused: Refused, sign: Sign) -> Trouble {
    let whole = refused.at.and_then(|at| bytes.get(..at.into())).unwrap_or_default();
    let index = Index::build(whole).unwrap_or_default();
    let before = Counts {
        runs: index.columns()[0].len() as u64,
        rows: index.row_count().0 as u64,
        bytes: whole.len() as u64,
    };
    let length = bytes.len() as u64;
    let looks = looks::of(bytes, None, length, before.runs);
    Trouble { refused, stream: Stream::Integers(sign), before, length, looks }
}

/// A refusal, and what a support desk does about it.
fn told(trouble: &Trouble) -> String {
    let refused = trouble.refused;
    let advice = capitalised(&trouble.advice());
    format!(
        "breaks off at byte {}: refusal {}: {}; nothing is written\n{}",
        trouble.before.bytes,
        refused.refusal.number(),
        refused.meaning(),
        wrapped(&format!("what to do: only a whole stream is converted. {advice}"), 0)
    )
}

/// A sentence that begins another.
fn capitalised(text: &str) -> String {
    let mut characters = text.chars();
    characters.next().map_or(String::new(), |first| first.to_uppercase().chain(characters).collect())
}
