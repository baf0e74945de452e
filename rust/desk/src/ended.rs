//! How the command ends.
use std::io::{self, ErrorKind, Write};
use std::path::Path;

/// A subcommand has done what it does.
#[derive(Debug, Clone, Copy, PartialEq, Eq)]
pub enum Ended {
    /// Status 0.
    Well,
    /// The input is refused, or two inputs differ: status 1.
    Refused,
}

/// A subcommand cannot do it: status 2.
#[derive(Debug)]
pub enum Failure {
    /// It was called wrongly.
    Usage(String),
    /// A file cannot be read or written.
    Told(String),
    /// Standard output was closed.
    Closed,
}

impl Failure {
    /// Standard output cannot be written.
    pub fn output(error: io::Error) -> Self {
        match error.kind() {
            ErrorKind::BrokenPipe => Failure::Closed,
            _ => Failure::Told(format!("standard output cannot be written: {error}")),
        }
    }

    pub fn unreadable(name: &str) -> impl Fn(io::Error) -> Self + '_ {
        move |error| Failure::Told(format!("{name} cannot be read: {error}"))
    }

    pub fn unwritable(path: &Path) -> impl Fn(io::Error) -> Self + '_ {
        move |error| Failure::Told(format!("{} cannot be written: {error}", path.display()))
    }
}

/// Says this, and all is well.
pub fn say(text: &str) -> Result<Ended, Failure> {
    let mut output = io::stdout().lock();
    output.write_all(text.as_bytes()).and_then(|()| output.flush()).map_err(Failure::output)?;
    Ok(Ended::Well)
}

/// Says this of a file that was written: on standard output, unless the file itself went there.
pub fn report(out: &Path, text: &str) -> Result<Ended, Failure> {
    if out.as_os_str() != "-" {
        return say(text);
    }
    // What cannot be said on standard error cannot be said.
    let _ = io::stderr().write_all(text.as_bytes());
    Ok(Ended::Well)
}
