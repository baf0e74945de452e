//! A file that is read from its start to its end, or standard input.
use std::ffi::OsStr;
use std::fs::File;
use std::io::{self, Read};
use std::path::PathBuf;

use crate::ended::Failure;

/// What is read.
pub struct Input {
    /// Its name, for a person.
    pub name: String,
    /// How many bytes it has, if that is known before they are read.
    pub length: Option<u64>,
    /// Where it can be opened again, if it is a file.
    pub path: Option<PathBuf>,
    pub reader: Box<dyn Read>,
}

impl Input {
    /// Opens a file; `-` is standard input.
    pub fn open(name: &OsStr) -> Result<Self, Failure> {
        if name == "-" {
            let reader = Box::new(io::stdin());
            return Ok(Input { name: "standard input".into(), length: None, path: None, reader });
        }
        let (path, name) = (PathBuf::from(name), name.to_string_lossy().into_owned());
        let file = File::open(&path).map_err(Failure::unreadable(&name))?;
        let about = file.metadata().map_err(Failure::unreadable(&name))?;
        let is_file = about.is_file();
        let (length, path) = (is_file.then_some(about.len()), is_file.then_some(path));
        Ok(Input { name, length, path, reader: Box::new(file) })
    }
}
