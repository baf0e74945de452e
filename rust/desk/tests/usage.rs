//! How the command is called, and what it says where it cannot do what is asked.
mod running;

use std::process::{Command, Stdio};

use running::{menakovitsy, scratch, EVERY_KIND};

#[test]
fn help() {
    for arguments in [&["--help"][..], &["-h"]] {
        let said = menakovitsy(arguments, &[]);
        assert_eq!((said.status, said.error.as_str()), (0, ""));
        assert!(said.output.starts_with("usage: menakovitsy SUBCOMMAND "), "{}", said.output);
        assert!(said.output.contains("\n  annotate   says what runs a stream file holds"), "{}", said.output);
    }
    for (name, usage) in [
        ("annotate", "usage: menakovitsy annotate [OPTION]... FILE\n"),
        ("values", "usage: menakovitsy values [OPTION]... FILE\n"),
        ("diff", "usage: menakovitsy diff [OPTION]... A B\n"),
        ("convert", "usage: menakovitsy convert [OPTION]... --out FILE IN\n"),
        ("salvage", "usage: menakovitsy salvage [OPTION]... "),
        ("vectors", "usage: menakovitsy vectors --out FOLDER\n"),
    ] {
        for arguments in [&[name, "--help"][..], &[name, "no-such-file", "-h"]] {
            let said = menakovitsy(arguments, &[]);
            assert_eq!((said.status, said.error.as_str()), (0, ""));
            assert!(said.output.starts_with(usage), "{}", said.output);
            assert!(said.output.lines().all(|line| line.chars().count() <= 110), "{}", said.output);
        }
    }
    let said = menakovitsy(&["--version"], &[]);
    assert_eq!((said.status, said.output.starts_with("menakovitsy ")), (0, true));
}

#[test]
fn bad_usage() {
    for (arguments, what) in [
        (&[][..], "a subcommand is missing (try menakovitsy --help)"),
        (&["anotate"], "unknown subcommand anotate (try menakovitsy --help)"),
        (&["--annotate"], "unknown option --annotate (try menakovitsy --help)"),
        (&["annotate"], "argument FILE is missing (try menakovitsy annotate --help)"),
        (&["annotate", "a", "b"], "unexpected argument b ("),
        (&["annotate", "a", "--", "--signed"], "unexpected argument --signed ("),
        (&["annotate", "a", "--", "--help"], "unexpected argument --help ("),
        (&["annotate", "--unsigned", "a"], "unknown option --unsigned ("),
        (&["annotate", "--unsigned=3", "a"], "unknown option --unsigned=3 ("),
        (&["annotate", "-x", "a"], "unknown option -x ("),
        (&["annotate", "--signed=yes", "a"], "option --signed takes no value ("),
        (&["annotate", "a", "--svg"], "option --svg needs a value ("),
        (&["annotate", "a", "--svg", "b", "--svg", "c"], "option --svg is given twice ("),
        (&["annotate", "a", "--svg=b", "--svg", "c"], "option --svg is given twice ("),
        (&["annotate", "a", "--from=", "b"], "option --from needs a number, 0 or more, and not  ("),
        (&["annotate", "a", "--flags", "--bytes"], "options --flags and --bytes exclude each other ("),
        (&["annotate", "a", "--flags", "--signed"], "options --flags and --signed exclude each other ("),
        (&["values", "a", "--count", "many"], "option --count needs a number, 0 or more, and not many ("),
        (&["values"], "argument FILE is missing (try menakovitsy values --help)"),
        (&["diff", "a"], "argument B is missing (try menakovitsy diff --help)"),
        (&["diff"], "argument A is missing ("),
        (&["diff", "a", "b", "c"], "unexpected argument c ("),
        (&["diff", "-", "-"], "only one of A and B can be standard input ("),
        (&["convert", "a"], "option --out is missing (try menakovitsy convert --help)"),
        (&["convert", "--out", "b"], "argument IN is missing ("),
        (&["convert", "a", "c", "--out", "b"], "unexpected argument c ("),
    ] {
        let said = menakovitsy(arguments, &[]);
        assert_eq!((said.status, said.output.as_str()), (2, ""), "{arguments:?}");
        assert!(said.error.starts_with(&format!("menakovitsy: {what}")), "{arguments:?}: {}", said.error);
        assert_eq!(said.error.lines().count(), 1, "{}", said.error);
    }
}

/// `salvage` is called in the same way.
#[test]
fn bad_usage_of_salvage() {
    for (arguments, what) in [
        (&["a"][..], "option --groups or --positions is missing ("),
        (&["a", "--groups", "b"], "option --out is missing ("),
        (&["a", "--groups", "b", "--out", "c"], "option --fill is missing ("),
        (&["--groups", "b", "--out", "c", "--fill", "7"], "argument STREAM is missing ("),
        (
            &["a", "--groups=b", "--out=c", "--fill=x"],
            "option --fill needs a row, a whole number of 64 bits, and not x (",
        ),
    ] {
        let said = menakovitsy(&[&["salvage"], arguments].concat(), &[]);
        assert_eq!((said.status, said.output.as_str()), (2, ""), "{arguments:?}");
        assert!(said.error.starts_with(&format!("menakovitsy: {what}")), "{arguments:?}: {}", said.error);
    }
}

/// A value follows its option, or stands after an equals sign; both are the same.
#[test]
fn values_after_an_equals_sign() {
    let folder = scratch("equals");
    let file = folder.holding("file", EVERY_KIND);
    for (apart, joined) in [
        (&["annotate", &file, "--from", "60"][..], &["annotate", "--from=60", &file][..]),
        (&["values", "--from", "60", "--count", "3", &file], &["values", &file, "--count=3", "--from=60"]),
    ] {
        assert_eq!(menakovitsy(apart, &[]), menakovitsy(joined, &[]));
    }
    let picture = folder.path("a=b.svg");
    menakovitsy(&["annotate", &file, &format!("--svg={picture}")], &[]);
    assert!(folder.text("a=b.svg").starts_with("<svg "));
}

#[test]
fn files_that_cannot_be_read_or_written() {
    let folder = scratch("files");
    let (missing, file) = (folder.path("missing"), folder.holding("file", EVERY_KIND));
    for name in [&missing, &folder.path("")] {
        let said = menakovitsy(&["annotate", name], &[]);
        assert_eq!((said.status, said.output.as_str()), (2, ""));
        assert!(said.error.starts_with(&format!("menakovitsy: {name} cannot be read: ")), "{}", said.error);
    }
    let nowhere = folder.path("missing/picture.svg");
    let said = menakovitsy(&["annotate", &file, "--svg", &nowhere], &[]);
    assert_eq!(said.status, 2);
    assert!(said.error.starts_with(&format!("menakovitsy: {nowhere} cannot be written: ")), "{}", said.error);
    // A picture is never written over the file that it is of.
    let said = menakovitsy(&["annotate", &file, "--svg", &folder.path("./file")], &[]);
    assert_eq!(said.status, 2);
    assert_eq!(std::fs::read(&file).expect("it is there"), EVERY_KIND);
}

/// A name that looks like an option, after `--`.
#[test]
fn names_of_any_look() {
    let folder = scratch("names");
    folder.holding("--signed", &EVERY_KIND[..6]);
    let output = Command::new(env!("CARGO_BIN_EXE_menakovitsy"))
        .args(["annotate", "--svg", "a<b>&\".svg", "--", "--signed"])
        .current_dir(folder.path(""))
        .output()
        .expect("the command runs");
    assert!(output.status.success());
    assert!(folder.text("a<b>&\".svg").contains(">--signed</text>"));
}

/// Whoever reads the output may stop.
#[test]
fn a_closed_output() {
    let folder = scratch("closed");
    let file = folder.holding("file", &EVERY_KIND[..6].repeat(100_000));
    for subcommand in ["annotate", "values"] {
        let mut child = Command::new(env!("CARGO_BIN_EXE_menakovitsy"))
            .args([subcommand, &file])
            .stdout(Stdio::piped())
            .stderr(Stdio::piped())
            .spawn()
            .expect("the command can be started");
        drop(child.stdout.take());
        let output = child.wait_with_output().expect("the command ends");
        assert_eq!((output.status.code(), output.stderr.len()), (Some(2), 0), "{subcommand}");
    }
}
