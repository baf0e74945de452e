//! What `salvage` is asked to do.
use std::ffi::OsString;
use std::fs;
use std::path::{Path, PathBuf};

use menakovitsy::Sign;

use crate::arguments::Arguments;
use crate::ended::Failure;
use crate::files;

/// How the groups are listed.
#[derive(Debug, Clone, Copy, PartialEq, Eq)]
pub enum Form {
    /// By starts where runs begin: `--groups`.
    Groups,
    /// By positions inside runs: `--positions`.
    Positions,
}

impl Form {
    /// What its list holds, in a message.
    pub fn name(self) -> &'static str {
        match self {
            Form::Groups => "groups",
            Form::Positions => "positions",
        }
    }
}

pub struct Options {
    pub stream: OsString,
    pub form: Form,
    pub list: PathBuf,
    pub fill: i64,
    pub sign: Sign,
    pub out: PathBuf,
    pub new_positions: Option<PathBuf>,
    pub json: bool,
}

impl Options {
    pub fn new(arguments: Vec<OsString>) -> Result<Self, Failure> {
        let mut arguments = Arguments::new(arguments);
        let (form, list) = match (arguments.value("--groups")?, arguments.value("--positions")?) {
            (Some(list), None) => (Form::Groups, PathBuf::from(list)),
            (None, Some(list)) => (Form::Positions, PathBuf::from(list)),
            (None, None) => return Err(Failure::Usage("option --groups or --positions is missing".into())),
            (Some(_), Some(_)) => {
                return Err(Failure::Usage("options --groups and --positions exclude each other".into()))
            }
        };
        let mut wanted = |name: &str| {
            arguments.value(name)?.ok_or_else(|| Failure::Usage(format!("option {name} is missing")))
        };
        let out = PathBuf::from(wanted("--out")?);
        let fill = row(&wanted("--fill")?.to_string_lossy())?;
        let new_positions = arguments.value("--new-positions")?.map(PathBuf::from);
        let sign = if arguments.flag("--signed") { Sign::Signed } else { Sign::Unsigned };
        let json = arguments.flag("--json");
        let stream = arguments.name("STREAM")?;
        let options = Options { stream, form, list, fill, sign, out, new_positions, json };
        match options.over() {
            None => Ok(options),
            Some(what) => Err(Failure::Usage(what)),
        }
    }

    /// Whether what is written goes to standard output, so that nothing else may.
    pub fn take_standard_output(&self) -> bool {
        [Some(&self.out), self.new_positions.as_ref()]
            .into_iter()
            .flatten()
            .any(|path| path.as_os_str() == "-")
    }

    /// What would be written over something that is needed.
    fn over(&self) -> Option<String> {
        let (stream, list) = ("STREAM", format!("the {}", self.form.name()));
        let inputs = [(Path::new(&self.stream), stream), (&self.list, &list)];
        let read = |path: &Path| inputs.iter().find(|(input, _)| files::same(path, input));
        if let Some((_, what)) = read(&self.out) {
            return Some(format!("the new stream would be written over {what}"));
        }
        let path = self.new_positions.as_deref()?;
        if let Some((_, what)) = read(path) {
            return Some(format!("the new positions would be written over {what}"));
        }
        one_place(path, &self.out).then(|| "the new positions would be written over the new stream".into())
    }
}

/// Whether two names are of one file, be it there or not.
fn one_place(one: &Path, other: &Path) -> bool {
    let place = |path: &Path| {
        let folder = path.parent().filter(|folder| !folder.as_os_str().is_empty());
        let folder = fs::canonicalize(folder.unwrap_or(Path::new("."))).ok()?;
        Some(folder.join(path.file_name()?))
    };
    files::same(one, other) || place(one).is_some_and(|one| Some(one) == place(other))
}

/// A row: one at or above 2^63 is the one with the same bits.
fn row(text: &str) -> Result<i64, Failure> {
    let row = text.parse().or_else(|_| text.parse().map(|row: u64| row as i64));
    row.map_err(|_| {
        Failure::Usage(format!("option --fill needs a row, a whole number of 64 bits, and not {text}"))
    })
}
