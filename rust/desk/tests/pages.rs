//! The desk's commands of README.md and docs/USING.md, run as they stand there. What a page shows after a command is
//! what the command writes, or a part of it.
mod running;

use std::fs;
use std::path::Path;
use std::process::Command;

use running::{scratch, Scratch};

/// How the pages call the desk's command.
const CALL: &str = "cd rust && cargo run --release --offline -p desk -- ";

/// The options after which a page names a file that is written.
const WRITTEN: [&str; 3] = ["--svg", "--out", "--new-positions"];

/// A command of a page, and what the page shows of its output.
struct Shown<'a> {
    words: Vec<&'a str>,
    output: Option<&'a str>,
}

/// The commands of a page. What one writes is in the next block without a language, if that comes before the next
/// command and in the same section.
fn commands(page: &str) -> Vec<Shown<'_>> {
    let call = |at: usize| page[at..].find(CALL).map(|found| at + found);
    let mut shown = Vec::new();
    let mut next = call(0);
    while let Some(at) = next {
        let line = page[at..].lines().next().unwrap_or_default();
        let rest = at + line.len();
        next = call(rest);
        let section = page[rest..].find("\n#").map_or(page.len(), |found| rest + found);
        let after =
            page[rest..section.min(next.unwrap_or(section))].split_once("\n```\n\n").map(|(_, text)| text);
        let output = after.and_then(|text| text.split_once("```\n")?.1.split_once("```"));
        shown.push(Shown {
            words: line[CALL.len()..].split_whitespace().collect(),
            output: output.map(|(output, _)| output),
        });
    }
    shown
}

/// Runs the command as the page does, but for the folder of the files that it writes.
fn output(words: &[&str], folder: &Scratch) -> String {
    let mut command = Command::new(env!("CARGO_BIN_EXE_menakovitsy"));
    command.current_dir(Path::new(env!("CARGO_MANIFEST_DIR")).join(".."));
    let mut written = false;
    for word in words {
        match written {
            true => command.arg(folder.path(word)),
            false => command.arg(word),
        };
        written = WRITTEN.contains(word);
    }
    String::from_utf8(command.output().unwrap().stdout).unwrap()
}

#[test]
fn commands_of_the_pages() {
    let root = Path::new(env!("CARGO_MANIFEST_DIR")).join("../..");
    let folder = scratch("pages");
    let mut compared = 0;
    for name in ["README.md", "docs/USING.md"] {
        let page = fs::read_to_string(root.join(name)).unwrap();
        for Shown { words, output: shown } in commands(&page) {
            let said = output(&words, &folder);
            assert!(!said.is_empty(), "{name}: {words:?} writes nothing");
            if let Some(shown) = shown {
                assert!(said.contains(shown), "{name}: {words:?} writes\n{said}and the page shows\n{shown}");
                compared += 1;
            }
        }
    }
    assert!(compared >= 3, "only {compared} outputs stand on the pages");
}
