//! `salvage STREAM`: the good row groups of a damaged stream file, and a fill row in the place of the others.
mod groups;
mod lists;
mod objects;
mod options;
mod positions;

use std::ffi::OsString;
use std::path::Path;

use menakovitsy::{Column, Refused, RowNumber, RowPosition, Sign};

use crate::ended::{self, Ended, Failure};
use crate::files;
use crate::Subcommand;

use lists::List;
use options::{Form, Options};

pub const SUBCOMMAND: Subcommand = Subcommand {
    name: "salvage",
    does: "keeps the good row groups of a damaged stream file, and fills the others",
    help: HELP,
    run,
};

const HELP: &str = "usage: menakovitsy salvage [OPTION]... --positions FILE --fill ROW --out FILE STREAM
       menakovitsy salvage [OPTION]... --groups FILE --fill ROW --out FILE STREAM

STREAM holds the bytes of one integer column (a stream of RLE version 2 runs, uncompressed); - is
standard input. It is read whole. Its row groups are listed in one of two ways:

  --positions FILE  as the row index of an ORC file lists them: a line each, with the byte of a run in
                    STREAM, the rows to skip from there, and the rows of the group. A group may begin
                    inside a run, as most groups of the Apache writers do
  --groups FILE     groups that begin where runs begin: a line each, with the byte that the group starts
                    at in STREAM, and its rows. A group that begins inside a run is not one of these: it
                    is replaced, also if STREAM is whole

Bytes count in STREAM, not in the chunks of a compressed file. Rows that are missing (null) are not in
STREAM, and are not counted.

  --fill ROW        the row that stands for each row of a group that is not good
  --signed          the rows are signed (zigzag), the fill row too
  --out FILE        where the new stream goes. It is never STREAM, and is written in one step: whatever
                    happens, FILE is the old one or the new one, whole. - is standard output, and the
                    lines go to standard error then
  --json            JSON lines (menakovitsy --help says how they look), of these types:
                    group     group (its number), became (kept or replaced), rows
                    salvaged  kept_rows, lost_rows, replaced_groups; the last line. It has a note if
                              STREAM is whole
                    refused   refusal, meaning, advice: the only line, and nothing is written
  --new-positions FILE
                    where the groups begin in the new stream: lines like those of --positions, or of
                    --groups. It is written like the new stream, and after it

With --positions a group is good if all its rows can be read from its position, and the next group
begins after them; after the last group, STREAM ends. Good groups keep their rows, and all rows are
written anew. With --groups a group is good if its bytes, up to the next start or the end, read whole
with exactly its rows: it is kept, byte for byte. Every row of any other group becomes the fill row. The
new stream reads whole, with as many rows as are listed. Damage that leaves a group good is not seen.

A line for each group, in order, on standard output: kept or replaced, its number from 0, its rows. The
last line says how many rows were kept, and how many were lost; with --groups it goes to standard error.
If STREAM is whole, with as many rows as are listed, and groups are replaced all the same, standard error
says so: the list is not right, and the new stream, which is written, is worse than STREAM.

Status: 0 it is written, 1 it is refused and nothing is written, 2 bad usage, or a file cannot be read
or written.
";

/// What a salvage comes to.
struct Salvage {
    /// The new stream.
    bytes: Vec<u8>,
    /// A line a group.
    report: String,
    /// The groups of the new stream, a line each.
    new_positions: String,
    kept_rows: RowNumber,
    lost_rows: RowNumber,
    replaced_groups: usize,
}

fn run(arguments: Vec<OsString>) -> Result<Ended, Failure> {
    let options = Options::new(arguments)?;
    let list = List::read(&options.list, options.form)?;
    let input = files::read(&options.stream)?;
    let salvaged = match &list {
        List::Groups(groups) => groups::salvaged(&input, groups, options.fill, options.sign),
        List::Positions(groups) => positions::salvaged(&input, groups, options.fill, options.sign),
    };
    match salvaged {
        Ok(salvage) => {
            write(&salvage, &options)?;
            say(&salvage, &options, &input)
        }
        Err(refused) => {
            let advice = advice(&refused, &list, input.len());
            match options.json {
                true => {
                    put(&objects::refused(&refused, &advice), &options)?;
                }
                false => eprintln!("menakovitsy: {}", told(&refused, &advice)),
            }
            Ok(Ended::Refused)
        }
    }
}

/// The new stream, and then the new positions, which are nothing without it.
fn write(salvage: &Salvage, options: &Options) -> Result<(), Failure> {
    files::replace(&options.out, &salvage.bytes)?;
    let Some(path) = &options.new_positions else { return Ok(()) };
    files::replace(path, salvage.new_positions.as_bytes()).map_err(|failure| match failure {
        Failure::Told(what) => Failure::Told(format!("{what}; {} is written", options.out.display())),
        other => other,
    })
}

/// The report, and the last line. Of `--groups` standard output has exactly a line a group. What is said on
/// standard error is said also if nobody reads the report.
fn say(salvage: &Salvage, options: &Options, input: &[u8]) -> Result<Ended, Failure> {
    let Salvage { report, kept_rows, lost_rows, replaced_groups, .. } = salvage;
    let unneeded = *replaced_groups > 0 && is_whole(input, options.sign, *kept_rows + *lost_rows);
    let note = unneeded.then(|| not_damaged(salvage, options));
    if options.json {
        return put(&objects::salvaged(salvage, note.as_deref()), options);
    }
    let last = format!("rows: {kept_rows} kept, {lost_rows} lost\n");
    let (report, beside) = match options.form {
        Form::Positions => (format!("{report}{last}"), String::new()),
        Form::Groups => (report.clone(), last),
    };
    let said = put(&report, options);
    eprint!("{beside}");
    if let Some(note) = note {
        eprintln!("menakovitsy: {note}");
    }
    said
}

/// Says this on standard output, unless something that is written goes there.
fn put(text: &str, options: &Options) -> Result<Ended, Failure> {
    match options.take_standard_output() {
        true => ended::report(Path::new("-"), text),
        false => ended::say(text),
    }
}

/// Whether a stream reads to its end, with exactly this many rows.
fn is_whole(input: &[u8], sign: Sign, rows: RowNumber) -> bool {
    let end = RowPosition { skip: rows, ..RowPosition::default() };
    Column::new(input, sign).read_at(end, &mut []) == Ok(None)
}

/// What is said if a stream is whole, and groups of it are replaced all the same.
fn not_damaged(salvage: &Salvage, options: &Options) -> String {
    let Salvage { kept_rows, lost_rows, replaced_groups, .. } = salvage;
    let (why, instead) = match options.form {
        Form::Groups => (
            "the groups do not begin where runs begin, as those of --groups must",
            "If the file's row index has rows to skip beside each byte, list byte, rows to skip and rows of \
             each group, and use --positions instead of --groups",
        ),
        Form::Positions => (
            "the positions are not those of its groups",
            "Compare them with the file's row index: the byte, the rows to skip and the rows of each group",
        ),
    };
    format!(
        "the column is whole: STREAM reads to its end, with the {} rows that are listed. Groups that are \
         replaced: {replaced_groups}, only because {why}\nwhat to do: keep STREAM, and do not use {}, which is \
         written but lacks good rows. {instead}",
        *kept_rows + *lost_rows,
        options.out.display()
    )
}

/// What a support desk does about a refusal.
fn advice(refused: &Refused, list: &List, length: usize) -> String {
    match list {
        List::Groups(_) => groups::advice(refused.refusal, length),
        List::Positions(groups) => positions::advice(refused.refusal, groups, length),
    }
}

fn told(refused: &Refused, advice: &str) -> String {
    format!(
        "refusal {}: {}; nothing is written\nwhat to do: {advice}",
        refused.refusal.number(),
        refused.meaning()
    )
}
