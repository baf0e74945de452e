//! Long work shows how far it is on a terminal, and nowhere else.
#![cfg(target_os = "linux")]
mod running;

use std::fs::File;
use std::process::{Command, Stdio};

use running::{menakovitsy, scratch};

/// More than 100 MB: a run of 512 rows of 64 bits, again and again.
fn long() -> Vec<u8> {
    [&[0x7F, 0xFF][..], &[0x11; 4096]].concat().repeat(25_000)
}

/// Runs a line of the shell on a terminal of its own, by `script`: what the terminal shows. Nothing if there is
/// no `script` here.
fn on_a_terminal(line: &str) -> Option<String> {
    let ended =
        Command::new("script").args(["-qec", line, "/dev/null"]).stdin(Stdio::null()).output().ok()?;
    assert!(ended.status.success(), "{ended:?}");
    Some(String::from_utf8(ended.stdout).expect("text"))
}

#[test]
fn long_files() {
    let folder = scratch("progress");
    let command = env!("CARGO_BIN_EXE_menakovitsy");
    let (long, short) = (folder.holding("long", &long()), folder.holding("short", &[0x0A, 0x01, 0x2C]));
    let lines = folder.path("lines");
    // In a pipe and in a file: none.
    let said = menakovitsy(&["diff", &long, &long], &[]);
    assert_eq!((said.status, said.error.as_str()), (0, ""));
    let errors = folder.path("errors");
    let status = Command::new(command)
        .args(["annotate", &long])
        .stdout(File::create(&lines).unwrap())
        .stderr(File::create(&errors).unwrap())
        .status()
        .expect("the command runs");
    assert!(status.success() && folder.text("errors").is_empty());
    // On a terminal: how far it is, and the line is taken away again.
    let Some(shown) = on_a_terminal(&format!("'{command}' annotate '{long}' > '{lines}'")) else {
        return eprintln!("there is no script here: not tried on a terminal");
    };
    assert!(shown.starts_with("\r\u{1b}[Kannotate: 1 of 102 MB (1 %)"), "{shown:?}");
    assert!(shown.ends_with("\r\u{1b}[K"), "{shown:?}");
    let shown = on_a_terminal(&format!("'{command}' diff '{long}' '{long}'")).unwrap();
    assert!(shown.contains("diff: 1 of 102 MB (1 %)"), "{shown:?}");
    assert!(
        shown.ends_with("\r\u{1b}[Kequal: 12800000 rows in 25000 runs, 102450000 bytes\r\n"),
        "{shown:?}"
    );
    let shown = on_a_terminal(&format!("'{command}' convert '{long}' --out /dev/null")).unwrap();
    assert!(shown.contains("read: 1 of 102 MB (1 %)") && shown.contains("convert: 102 MB"), "{shown:?}");
    // Of a short file nothing; nor if the lines themselves go to the terminal.
    assert_eq!(on_a_terminal(&format!("'{command}' annotate '{short}' > '{lines}'")).unwrap(), "");
    let shown = on_a_terminal(&format!("'{command}' annotate '{long}'")).unwrap();
    assert!(shown.lines().count() > 25_000 && !shown.contains('\u{1b}'), "{}", shown.len());
}
