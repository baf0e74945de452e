//! The arguments of a subcommand: names, flags, and options with a value (`--name value` or `--name=value`).
use std::ffi::{OsStr, OsString};

use crate::ended::Failure;

/// What was given, as a subcommand takes it apart.
pub struct Arguments {
    left: Vec<OsString>,
    /// Those after `--`, which are names whatever they look like.
    names: Vec<OsString>,
    /// A flag that was given with a value.
    valued: Option<String>,
}

impl Arguments {
    pub fn new(mut left: Vec<OsString>) -> Self {
        let names = match left.iter().position(|argument| argument == "--") {
            Some(end) => left.split_off(end).split_off(1),
            None => Vec::new(),
        };
        Arguments { left, names, valued: None }
    }

    /// Takes a flag: whether it is there. One with a value is refused when the names are taken.
    pub fn flag(&mut self, name: &str) -> bool {
        if self.left.iter().any(|argument| joined(argument, name).is_some()) {
            self.valued = Some(name.into());
        }
        let before = self.left.len();
        self.left.retain(|argument| argument != name);
        self.left.len() < before
    }

    /// Takes an option and its value, which is there once or not at all.
    pub fn value(&mut self, name: &str) -> Result<Option<OsString>, Failure> {
        let Some(value) = self.next_value(name)? else { return Ok(None) };
        match self.next_value(name) {
            Ok(None) => Ok(Some(value)),
            _ => Err(Failure::Usage(format!("option {name} is given twice"))),
        }
    }

    fn next_value(&mut self, name: &str) -> Result<Option<OsString>, Failure> {
        for at in 0..self.left.len() {
            if let Some(value) = joined(&self.left[at], name) {
                self.left.remove(at);
                return Ok(Some(value));
            }
            if self.left[at] == name {
                self.left.remove(at);
                if at == self.left.len() {
                    return Err(Failure::Usage(format!("option {name} needs a value")));
                }
                return Ok(Some(self.left.remove(at)));
            }
        }
        Ok(None)
    }

    /// Takes an option whose value is a number that counts something.
    pub fn number(&mut self, name: &str) -> Result<Option<u64>, Failure> {
        let Some(value) = self.value(name)? else { return Ok(None) };
        let value = value.to_string_lossy();
        match value.parse() {
            Ok(number) => Ok(Some(number)),
            Err(_) => {
                Err(Failure::Usage(format!("option {name} needs a number, 0 or more, and not {value}")))
            }
        }
    }

    /// The one name that is left, and nothing else.
    pub fn name(self, what: &str) -> Result<OsString, Failure> {
        let [name] = self.all([what])?;
        Ok(name)
    }

    /// The names that are left, one for each that is wanted, and nothing else.
    pub fn all<const N: usize>(self, wanted: [&str; N]) -> Result<[OsString; N], Failure> {
        if let Some(flag) = self.valued {
            return Err(Failure::Usage(format!("option {flag} takes no value")));
        }
        if let Some(unknown) = self.left.iter().find(|argument| is_option(argument)) {
            return Err(Failure::Usage(format!("unknown option {}", unknown.to_string_lossy())));
        }
        let names: Vec<OsString> = self.left.into_iter().chain(self.names).collect();
        if let Some(more) = names.get(N) {
            return Err(Failure::Usage(format!("unexpected argument {}", more.to_string_lossy())));
        }
        names.try_into().map_err(|names: Vec<OsString>| {
            Failure::Usage(format!("argument {} is missing", wanted[names.len()]))
        })
    }
}

/// Whether an argument asks for something. A single `-` is a name: standard input or output.
fn is_option(argument: &OsStr) -> bool {
    argument.len() > 1 && argument.as_encoded_bytes().starts_with(b"-")
}

/// The value of `--name=value`, if the argument is that.
#[cfg(unix)]
fn joined(argument: &OsStr, name: &str) -> Option<OsString> {
    use std::os::unix::ffi::OsStrExt;
    let value = argument.as_bytes().strip_prefix(name.as_bytes())?.strip_prefix(b"=")?;
    Some(OsStr::from_bytes(value).into())
}

#[cfg(not(unix))]
fn joined(argument: &OsStr, name: &str) -> Option<OsString> {
    Some(argument.to_str()?.strip_prefix(name)?.strip_prefix('=')?.into())
}
