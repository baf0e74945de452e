//! `vectors --out FOLDER`: test vectors for any reader of runs, as files.
use std::ffi::{OsStr, OsString};
use std::fs;
use std::path::{Path, PathBuf};

use model::vectors::{Family, FAMILIES};

use crate::arguments::Arguments;
use crate::ended::{self, Ended, Failure};
use crate::files;
use crate::Subcommand;

mod readme;

pub const SUBCOMMAND: Subcommand = Subcommand {
    name: "vectors",
    does: "writes test vectors for readers of runs: lines, and what each must be answered",
    help: HELP,
    run,
};

const HELP: &str = "usage: menakovitsy vectors --out FOLDER

Writes test cases for readers of integer runs (RLE version 2), and a README.txt that says how to hold a
reader to them. There are four families, with two files each:

  widths   each bit width at each run length
  patches  damaged patch lists
  sums     sums past 64 bits
  cuts     every cut of sample streams

A line of NAME.in is a run in hexadecimal, after a byte that is 00 for unsigned rows and 01 for signed
ones. The program runs reads such lines. The same line of NAME.expected is the answer that it must give.
The answers come from a model of the rules, and not from the readers that are tested with them. The files
are the same at every call, and take up about 60 MB.

  --out FOLDER  where the files go. FOLDER is made if it is not there. If it holds anything but files of
                an earlier call, nothing is written

Status: 0 the files are written, 2 bad usage, or a file cannot be written.
";

/// A folder of vectors is known by this file.
const README: &str = "README.txt";

fn run(arguments: Vec<OsString>) -> Result<Ended, Failure> {
    let mut arguments = Arguments::new(arguments);
    let folder = arguments.value("--out")?.ok_or_else(|| Failure::Usage("option --out is missing".into()))?;
    let [] = arguments.all([])?;
    if folder == "-" {
        return Err(Failure::Usage("option --out needs a folder, and not standard output".into()));
    }
    let folder = PathBuf::from(folder);
    make(&folder)?;
    let all: Vec<Vectors> = FAMILIES.iter().map(Vectors::of).collect();
    // It comes first: by it the next call knows a folder that was left half written.
    files::replace(&folder.join(README), readme::text(&all).as_bytes())?;
    let mut said = String::new();
    for vectors in &all {
        let family = vectors.family;
        for (name, text) in names(family).iter().zip([&vectors.input, &vectors.expected]) {
            files::replace(&folder.join(name), text.as_bytes())?;
        }
        let lines: usize = vectors.lines.iter().sum();
        said += &format!("{:<8} {lines:>6} lines: {}\n", family.name, family.question);
    }
    ended::say(&format!("{said}{} says how to hold a reader to them\n", folder.join(README).display()))
}

/// What a family's two files hold.
struct Vectors {
    family: &'static Family,
    input: String,
    expected: String,
    /// How many lines each part of the family has.
    lines: Vec<usize>,
}

impl Vectors {
    fn of(family: &'static Family) -> Self {
        let mut vectors =
            Vectors { family, input: String::new(), expected: String::new(), lines: Vec::new() };
        for part in family.parts {
            let mut lines = 0;
            for frame in (part.frames)() {
                vectors.push(&frame.line());
                lines += 1;
            }
            vectors.lines.push(lines);
        }
        vectors
    }

    fn push(&mut self, line: &str) {
        self.input += line;
        self.input.push('\n');
        self.expected += &model::answer_line(line.as_bytes());
        self.expected.push('\n');
    }
}

/// The names of a family's two files.
fn names(family: &Family) -> [String; 2] {
    [format!("{}.in", family.name), format!("{}.expected", family.name)]
}

/// Makes the folder, or sees that it holds nothing but files of an earlier call.
fn make(folder: &Path) -> Result<(), Failure> {
    let other = |what: &str| {
        let folder = folder.display();
        Err(Failure::Told(format!("{folder} {what}; nothing is written: name a new or an empty folder")))
    };
    if !folder.exists() {
        return fs::create_dir(folder).map_err(Failure::unwritable(folder));
    }
    if !folder.is_dir() {
        return other("is not a folder");
    }
    let unreadable = folder.display().to_string();
    let unreadable = Failure::unreadable(&unreadable);
    let mut is_empty = true;
    for entry in fs::read_dir(folder).map_err(&unreadable)? {
        let entry = entry.map_err(&unreadable)?;
        // A link is somebody else's: what it leads to would be written over.
        if !is_ours(&entry.file_name()) || !entry.file_type().map_err(&unreadable)?.is_file() {
            return other(&format!(
                "holds {}, which is not a file of an earlier call",
                entry.file_name().to_string_lossy()
            ));
        }
        is_empty = false;
    }
    let marked =
        || fs::read(folder.join(README)).is_ok_and(|text| text.starts_with(readme::TITLE.as_bytes()));
    if !is_empty && !marked() {
        return other("holds files, but not the README.txt of an earlier call");
    }
    Ok(())
}

/// Whether a file's name is one that is written.
fn is_ours(name: &OsStr) -> bool {
    name == README || FAMILIES.iter().flat_map(names).any(|ours| name == ours.as_str())
}
