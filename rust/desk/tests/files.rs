//! What files the command writes: never over what it reads, with the mode of the old file, through links.
#![cfg(unix)]
mod running;

use std::fs::{self, File};
use std::io::Read;
use std::os::unix::fs::{symlink, FileTypeExt, MetadataExt, PermissionsExt};
use std::process::{Command, Stdio};

use running::{menakovitsy, scratch, Ran, Scratch, EVERY_KIND};

const BEFORE: &[u8] = include_bytes!("../sample/every-width.rle");
const AFTER: &[u8] = include_bytes!("../sample/every-width.converted.rle");

/// Every name of a file: itself, another way to it, a hard link, a symbolic one, and one that leads to that.
fn names(folder: &Scratch, file: &str) -> Vec<String> {
    let (hard, soft, twice) = (folder.path("hard"), folder.path("soft"), folder.path("twice"));
    fs::hard_link(file, &hard).unwrap();
    symlink(file, &soft).unwrap();
    symlink("soft", &twice).unwrap();
    let around = folder.path(&format!("./{}", file.rsplit('/').next().unwrap()));
    vec![file.into(), around, hard, soft, twice]
}

#[test]
fn nothing_is_written_over_the_input() {
    let folder = scratch("over");
    let file = folder.holding("file", BEFORE);
    let inode = fs::metadata(&file).unwrap().ino();
    for name in names(&folder, &file) {
        for (arguments, what) in [
            (["annotate", &file, "--svg", &name], "the picture would be written over FILE ("),
            (["annotate", &name, "--svg", &file], "the picture would be written over FILE ("),
            (["convert", &file, "--out", &name], "the new stream would be written over IN ("),
            (["convert", &name, "--out", &file], "the new stream would be written over IN ("),
        ] {
            let said = menakovitsy(&arguments, &[]);
            assert_eq!((said.status, said.output.as_str()), (2, ""), "{arguments:?}");
            assert!(said.error.starts_with(&format!("menakovitsy: {what}")), "{}", said.error);
        }
    }
    // Nor if the input comes from it by redirection.
    for (arguments, what) in [
        (["annotate", "-", "--svg", &folder.path("hard")], "the picture would be written over FILE ("),
        (["convert", "-", "--out", &folder.path("hard")], "the new stream would be written over IN ("),
    ] {
        let ended = Command::new(env!("CARGO_BIN_EXE_menakovitsy"))
            .args(arguments)
            .stdin(File::open(&file).unwrap())
            .output()
            .expect("the command runs");
        assert_eq!(ended.status.code(), Some(2));
        let error = String::from_utf8(ended.stderr).unwrap();
        assert!(error.starts_with(&format!("menakovitsy: {what}")), "{error}");
    }
    assert_eq!(fs::read(&file).unwrap(), BEFORE);
    assert_eq!(
        (fs::metadata(&file).unwrap().ino(), fs::read_dir(folder.path("")).unwrap().count()),
        (inode, 4)
    );
}

/// Converts the sample into a name.
fn converted(folder: &Scratch, out: &str) -> Ran {
    let file = folder.holding("file", BEFORE);
    menakovitsy(&["convert", &file, "--out", out], &[])
}

#[test]
fn the_mode_stays() {
    let folder = scratch("mode");
    let (new, picture) = (folder.path("new"), folder.path("picture.svg"));
    for mode in [0o600, 0o640, 0o444, 0o755] {
        for path in [&new, &picture] {
            let _ = fs::remove_file(path);
            fs::write(path, "old").unwrap();
            fs::set_permissions(path, PermissionsExt::from_mode(mode)).unwrap();
        }
        assert_eq!(converted(&folder, &new).status, 0);
        assert_eq!(fs::read(&new).unwrap(), AFTER);
        assert_eq!(menakovitsy(&["annotate", &folder.path("file"), "--svg", &picture], &[]).status, 0);
        assert!(folder.text("picture.svg").starts_with("<svg "));
        for path in [&new, &picture] {
            assert_eq!(fs::metadata(path).unwrap().mode() & 0o7777, mode, "{path}");
        }
    }
    // A new file has the mode that any new file has.
    let plain = folder.holding("plain", b"");
    fs::remove_file(&new).unwrap();
    assert_eq!(converted(&folder, &new).status, 0);
    assert_eq!(fs::metadata(&new).unwrap().mode(), fs::metadata(plain).unwrap().mode());
}

/// A link stays, and what it leads to is written: a file that is there, and one that is not, in another folder.
#[test]
fn links_are_followed() {
    let folder = scratch("links");
    fs::create_dir(folder.path("far")).unwrap();
    let old = folder.holding("far/old", b"old");
    fs::set_permissions(&old, PermissionsExt::from_mode(0o640)).unwrap();
    for (link, target) in [("to-old", "far/old"), ("to-new", "far/new"), ("to-link", "to-old")] {
        let link = folder.path(link);
        symlink(target, &link).unwrap();
        assert_eq!(converted(&folder, &link).status, 0);
        assert_eq!(fs::read_link(&link).unwrap().to_str(), Some(target));
        assert_eq!(fs::read(folder.path(target)).unwrap(), AFTER);
        fs::write(&old, "old").unwrap();
    }
    assert_eq!(fs::metadata(&old).unwrap().mode() & 0o7777, 0o640);
    // The folder of the link and the other one have no file that was only begun.
    assert_eq!(fs::read_dir(folder.path("far")).unwrap().count(), 2);
    assert_eq!(fs::read_dir(folder.path("")).unwrap().count(), 5);
    // Links that lead in a circle lead nowhere.
    symlink("round", folder.path("about")).unwrap();
    symlink("about", folder.path("round")).unwrap();
    let said = converted(&folder, &folder.path("round"));
    assert_eq!((said.status, said.error.contains("round cannot be written: ")), (2, true), "{said:?}");
}

/// `-` is standard output, and the line goes to standard error.
#[test]
fn standard_output() {
    let folder = scratch("stdout");
    let file = folder.holding("file", BEFORE);
    for (arguments, line) in [
        (&["convert", &file, "--out", "-"][..], "altered 43 runs: 1465 bytes before, 1615 bytes after\n"),
        (
            &["convert", &file, "--out=-", "--json"],
            "{\"type\":\"converted\",\"altered\":43,\"bytes_before\":1465,\"bytes_after\":1615}\n",
        ),
    ] {
        let ended = Command::new(env!("CARGO_BIN_EXE_menakovitsy"))
            .args(arguments)
            .current_dir(folder.path(""))
            .stdin(Stdio::null())
            .output()
            .expect("the command runs");
        assert_eq!((ended.status.code(), &ended.stdout[..]), (Some(0), AFTER));
        assert_eq!(String::from_utf8(ended.stderr).unwrap(), line);
    }
    assert_eq!(fs::read_dir(folder.path("")).unwrap().count(), 1);
    // What salvage reports does not get into its stream.
    let groups = folder.holding("groups", include_bytes!("../sample/damaged.groups"));
    let damaged = include_bytes!("../sample/damaged.rle");
    let ended = Command::new(env!("CARGO_BIN_EXE_menakovitsy"))
        .args(["salvage", &folder.holding("damaged", damaged), "--groups", &groups, "--fill=7", "--out=-"])
        .output()
        .expect("the command runs");
    let model::Stream::Whole { rows, .. } = model::read_stream(&ended.stdout, 0, false, usize::MAX) else {
        panic!("{:?}", ended.stdout);
    };
    assert_eq!((ended.status.code(), rows.len(), &rows[175..200]), (Some(0), 500, &[7; 25][..]));
    assert!(String::from_utf8(ended.stderr).unwrap().contains("replaced 7 25\n"));
    // A refused stream writes nothing there.
    let said = menakovitsy(&["convert", "-", "--out", "-"], EVERY_KIND);
    assert_eq!((said.status, said.output.as_str()), (1, ""));
}

/// A pipe is written, and not replaced by a file.
#[test]
fn a_named_pipe() {
    let folder = scratch("pipe");
    let pipe = folder.path("pipe");
    assert!(Command::new("mkfifo").arg(&pipe).status().expect("mkfifo runs").success());
    // Open at both ends, so that nobody waits for another: the pipe holds all that is written.
    let mut reader = File::options().read(true).write(true).open(&pipe).unwrap();
    assert_eq!(converted(&folder, &pipe).status, 0);
    assert!(fs::metadata(&pipe).unwrap().file_type().is_fifo());
    let mut read = vec![0; AFTER.len()];
    reader.read_exact(&mut read).unwrap();
    assert_eq!(read, AFTER);
}
