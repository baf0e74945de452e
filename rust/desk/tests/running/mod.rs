//! Runs the command, and holds the files that it is given.
#![allow(dead_code)] // each test takes what it needs
use std::io::Write;
use std::path::PathBuf;
use std::process::{self, Command, Stdio};
use std::{env, fs, thread};

pub mod json;

#[path = "../../examples/sample.rs"]
pub mod sample;

/// The sample, as it stands in the repository, and where its damaged end begins.
pub const EVERY_KIND: &[u8] = include_bytes!("../../sample/every-kind.rle");
pub const BEFORE_THE_END: usize = 124;

/// What the command came to.
#[derive(Debug, PartialEq, Eq)]
pub struct Ran {
    pub status: i32,
    pub output: String,
    pub error: String,
}

impl Ran {
    pub fn well(output: &str) -> Self {
        Ran { status: 0, output: output.into(), error: String::new() }
    }

    pub fn refused(output: &str) -> Self {
        Ran { status: 1, output: output.into(), error: String::new() }
    }
}

/// Runs it with these arguments and this standard input.
pub fn menakovitsy(arguments: &[&str], input: &[u8]) -> Ran {
    let mut child = Command::new(env!("CARGO_BIN_EXE_menakovitsy"))
        .args(arguments)
        .stdin(Stdio::piped())
        .stdout(Stdio::piped())
        .stderr(Stdio::piped())
        .spawn()
        .expect("the command can be started");
    let mut stdin = child.stdin.take().expect("stdin is piped");
    let output = thread::scope(|scope| {
        // A command that reads no input closes its end.
        scope.spawn(move || drop(stdin.write_all(input)));
        child.wait_with_output().expect("the command ends")
    });
    Ran {
        status: output.status.code().expect("it ends by itself"),
        output: String::from_utf8(output.stdout).expect("text"),
        error: String::from_utf8(output.stderr).expect("text"),
    }
}

/// A folder for a test's files, which is removed with it.
pub struct Scratch(PathBuf);

pub fn scratch(name: &str) -> Scratch {
    let folder = env::temp_dir().join(format!("menakovitsy-desk-{name}-{}", process::id()));
    fs::create_dir_all(&folder).expect("a folder can be made");
    Scratch(folder)
}

impl Scratch {
    pub fn path(&self, name: &str) -> String {
        self.0.join(name).to_str().expect("a name in UTF-8").into()
    }

    /// A file that holds this.
    pub fn holding(&self, name: &str, bytes: &[u8]) -> String {
        fs::write(self.0.join(name), bytes).expect("a file can be written");
        self.path(name)
    }

    pub fn text(&self, name: &str) -> String {
        fs::read_to_string(self.0.join(name)).expect("the file is there")
    }
}

impl Drop for Scratch {
    fn drop(&mut self) {
        let _ = fs::remove_dir_all(&self.0);
    }
}

/// The fields of a run's line: its kind may have two words.
pub fn fields(line: &str) -> Vec<String> {
    let line = line.replace("short repeat", "short-repeat").replace("patched base", "patched-base");
    line.split_whitespace().map(String::from).collect()
}

/// The fields of the line that the model's run has.
pub fn expected(at: usize, first: usize, run: &model::Run) -> Vec<String> {
    let kind = match run.kind {
        model::Kind::ShortRepeat => "short-repeat",
        model::Kind::Direct => "direct",
        model::Kind::PatchedBase => "patched-base",
        model::Kind::Delta => "delta",
        other => panic!("{other:?} is no kind of an integer stream"),
    };
    let (smallest, largest) = (run.rows.iter().min().expect("rows"), run.rows.iter().max().expect("rows"));
    let mut fields = vec![at.to_string(), first.to_string(), kind.into(), run.width.to_string()];
    fields.extend([run.rows.len().to_string(), run.consumed.to_string(), smallest.to_string()]);
    if smallest != largest {
        fields.extend(["to".into(), largest.to_string()]);
    }
    fields
}
