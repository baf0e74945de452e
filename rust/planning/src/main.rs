//! `planning [--print]`: writes docs/PLANNER.md of the repository; with `--print` it prints the page.
#![forbid(unsafe_code)]
use std::path::Path;
use std::process::ExitCode;
use std::{env, fs};

use planning::page;

fn main() -> ExitCode {
    let words: Vec<String> = env::args().skip(1).collect();
    let print = match words.iter().map(String::as_str).collect::<Vec<_>>()[..] {
        [] => false,
        ["--print"] => true,
        _ => {
            eprintln!("usage: planning [--print]");
            return ExitCode::from(2);
        }
    };
    let text = page::text(&page::figures());
    if print {
        print!("{text}");
        return ExitCode::SUCCESS;
    }
    let path = Path::new(concat!(env!("CARGO_MANIFEST_DIR"), "/../../docs/PLANNER.md"));
    match fs::write(path, text) {
        Ok(()) => ExitCode::SUCCESS,
        Err(error) => {
            eprintln!("error: {} cannot be written: {error}", path.display());
            ExitCode::FAILURE
        }
    }
}
