//! `menakovitsy SUBCOMMAND ..`: the support desk's command, over the proved functions.
//!
//! A subcommand is a module and a line of [`SUBCOMMANDS`].
#![forbid(unsafe_code)]
use std::env;
use std::ffi::{OsStr, OsString};
use std::process::ExitCode;

mod advice;
mod annotate;
mod arguments;
mod byte_runs;
mod convert;
mod diff;
mod ended;
mod files;
mod input;
mod json;
mod looks;
mod numbers;
mod output;
mod progress;
mod salvage;
mod stream;
mod values;
mod vectors;
mod walk;

use ended::{Ended, Failure};

/// A subcommand.
pub struct Subcommand {
    name: &'static str,
    /// What it does, in a line.
    does: &'static str,
    /// How it is called, and what it answers.
    help: &'static str,
    /// Does it, with the arguments after its name.
    run: fn(Vec<OsString>) -> Result<Ended, Failure>,
}

const SUBCOMMANDS: [Subcommand; 6] = [
    annotate::SUBCOMMAND,
    values::SUBCOMMAND,
    diff::SUBCOMMAND,
    convert::SUBCOMMAND,
    salvage::SUBCOMMAND,
    vectors::SUBCOMMAND,
];

fn named(name: &OsStr) -> Option<&'static Subcommand> {
    SUBCOMMANDS.iter().find(|subcommand| name == subcommand.name)
}

fn help() -> String {
    let listed: String = SUBCOMMANDS
        .iter()
        .map(|subcommand| format!("  {:<10} {}\n", subcommand.name, subcommand.does))
        .collect();
    format!(
        "usage: menakovitsy SUBCOMMAND [OPTION]... [FILE]...
       menakovitsy SUBCOMMAND --help
       menakovitsy --version

Looks into stream files: the bytes of one column of an ORC file, uncompressed.

{listed}
An option's value may follow it or stand after an equals sign: --from 3, --from=3. After -- every
argument is a name. - is standard input, and as the value of --out standard output.

{}
Status: 0 all is well, 1 the input is refused, or two inputs differ, 2 bad usage, or a file cannot be
read or written.
",
        json::HELP
    )
}

fn told(arguments: Vec<OsString>) -> Result<Ended, Failure> {
    let mut arguments = arguments.into_iter();
    let first = arguments.next().ok_or_else(|| Failure::Usage("a subcommand is missing".into()))?;
    let first = first.to_string_lossy();
    match &*first {
        "--help" | "-h" | "help" => ended::say(&help()),
        "--version" | "-V" => {
            let library = menakovitsy::library_version();
            ended::say(&format!("menakovitsy {}, library {library}\n", env!("CARGO_PKG_VERSION")))
        }
        option if option.starts_with('-') => Err(Failure::Usage(format!("unknown option {option}"))),
        name => {
            let subcommand = named(name.as_ref());
            let subcommand =
                subcommand.ok_or_else(|| Failure::Usage(format!("unknown subcommand {name}")))?;
            let arguments: Vec<OsString> = arguments.collect();
            let mut options = arguments.iter().take_while(|argument| *argument != "--");
            if options.any(|argument| argument == "--help" || argument == "-h") {
                return ended::say(subcommand.help);
            }
            menakovitsy::check_version().map_err(|other| Failure::Told(other.to_string()))?;
            (subcommand.run)(arguments)
        }
    }
}

fn main() -> ExitCode {
    let arguments: Vec<OsString> = env::args_os().skip(1).collect();
    let help = match arguments.first().and_then(|first| named(first)) {
        Some(subcommand) => format!("menakovitsy {} --help", subcommand.name),
        None => "menakovitsy --help".into(),
    };
    match told(arguments) {
        Ok(Ended::Well) => ExitCode::SUCCESS,
        Ok(Ended::Refused) => ExitCode::from(1),
        Err(failure) => {
            match failure {
                Failure::Usage(what) => eprintln!("menakovitsy: {what} (try {help})"),
                Failure::Told(what) => eprintln!("menakovitsy: {what}"),
                // Whoever reads the output has read enough.
                Failure::Closed => {}
            }
            ExitCode::from(2)
        }
    }
}
